// @ts-check
// SPDX-License-Identifier: Apache-2.0
// Makes and finds elements.

/** Returns the element of this id.
 * @template {HTMLElement} T @param {string} id @returns {T} */
export const $ = id => /** @type {T} */ (document.getElementById(id));

/** Makes an element: its name with its classes, its attributes and handlers, and what it contains.
 * @param {string} what `div.big.red` @param {Record<string, any>} [attributes] @param {...(Node | string | null | false)} children @returns {HTMLElement} */
export function h(what, attributes = {}, ...children) {
    const [name, ...classes] = what.split("."), made = document.createElement(name);
    fill(made, classes, attributes);
    for (const it of children) if (it !== null && it !== false) made.append(it);
    return made;
}

const SVG = "http://www.w3.org/2000/svg";
/** Makes an element of a picture.
 * @param {string} what @param {Record<string, any>} [attributes] @param {...(Node | string)} children @returns {SVGElement} */
export function s(what, attributes = {}, ...children) {
    const [name, ...classes] = what.split("."), made = /** @type {SVGElement} */ (document.createElementNS(SVG, name));
    fill(made, classes, attributes);
    made.append(...children);
    return made;
}

/** @param {HTMLElement | SVGElement} made @param {string[]} classes @param {Record<string, any>} attributes */
function fill(made, classes, attributes) {
    for (const it of classes) if (it) made.classList.add(it);
    for (const [key, value] of Object.entries(attributes)) {
        if (value === false || value === null || value === undefined) continue;
        if (key.startsWith("on")) made.addEventListener(key.slice(2), value);
        else made.setAttribute(key, value === true ? "" : String(value));
    }
}

/** Hands a file to the reader.
 * @param {string} name @param {string} text @param {string} type */
export function download(name, text, type) {
    const link = h("a", {href: URL.createObjectURL(new Blob([text], {type})), download: name});
    link.click();
    setTimeout(() => URL.revokeObjectURL(/** @type {HTMLAnchorElement} */ (link).href), 10000);
}
