// @ts-check
// SPDX-License-Identifier: Apache-2.0
// The manual in a dialog: its parts with their contents, a search in all of them, and a way back.
import {$, h} from "./dom.js";
import {LITTLE} from "./learning.js";
import {counted} from "./verdict.js";

/** The most places that a search lists. */
const FOUND = 60;
/** What a search finds as one: it has all words. */
const UNITS = ":is(h3, h4, p, pre, li, tr):not(li *, tr *, #manual-contents *)";

export class Manual {
    constructor() {
        this.dialog = /** @type {HTMLDialogElement} */ ($("manual"));
        this.field = /** @type {HTMLInputElement} */ ($("manual-search"));
        this.parts = /** @type {HTMLTemplateElement[]} */ ([...document.querySelectorAll("template[data-title]")]);
        /** The addresses that were open, the last one last, with a question mark before what was searched.
         * @type {string[]} */
        this.trail = [];
        for (const box of document.querySelectorAll(".manual-links")) box.append(...this.parts.map(it => h("a", {href: `#${it.id}-`}, it.dataset.title ?? "")));
        document.addEventListener("click", event => this.link(event));
        this.field.addEventListener("input", () => this.search());
        $("manual-back").addEventListener("click", () => { this.trail.pop(); this.show(this.trail[this.trail.length - 1] ?? ""); });
        $("manual-close").addEventListener("click", () => this.dialog.close());
    }

    /** Opens the manual where a link leads.
     * @param {Event} event */
    link(event) {
        const link = /** @type {HTMLElement | null} */ (/** @type {HTMLElement} */ (event.target).closest?.("a[href^='#manual-']"));
        if (!link) return;
        if (link.dataset.unit) this.trail.push(`?${this.field.value}`);
        if (this.open(link.getAttribute("href") ?? "")) event.preventDefault();
        const found = link.dataset.unit && $("manual-text").querySelectorAll(UNITS)[+link.dataset.unit];
        if (!found) return;
        found.classList.add("hit");
        found.scrollIntoView({block: "center"});
    }

    /** Opens an address; returns whether it is one of the manual's.
     * @param {string} address */
    open(address) {
        if (!this.dialog.open) this.trail = [];
        const known = this.show(address);
        if (known) this.trail.push(address);
        /** @type {HTMLButtonElement} */ ($("manual-back")).disabled = this.trail.length < 2;
        return known;
    }

    /** Shows a part from a place on.
     * @param {string} address */
    show(address) {
        if (address[0] === "?") { this.field.value = address.slice(1); this.search(); return true; }
        const [, part, place] = /^#manual-([A-Z]+)-(.*)$/.exec(address) ?? [], template = this.parts.find(it => it.id === `manual-${part}`);
        if (!template) return false;
        this.field.value = "";
        $("manual-title").textContent = template.dataset.title ?? "";
        $("manual-text").replaceChildren(template.content.cloneNode(true));
        const heads = /** @type {HTMLElement[]} */ ([...$("manual-text").querySelectorAll("[id]:is(h2, h3, h4)")]);
        $("manual-text").prepend(h("details", {id: "manual-contents"}, h("summary", {}, "Contents"), h("ul", {}, ...heads.map(it => h("li", {}, h("a", {href: `#${it.id}`}, it.textContent ?? ""))))));
        if (!this.dialog.open) this.dialog.showModal();
        /** @type {HTMLButtonElement} */ ($("manual-back")).disabled = this.trail.length < 2;
        const target = place ? document.getElementById(`manual-${part}-${place}`) : null;
        if (target) target.scrollIntoView(); else $("manual-text").scrollTop = 0;
        return true;
    }

    /** Lists what has all words of the search, in all parts. */
    search() {
        const all = this.field.value.toLowerCase().split(/\s+/).filter(it => it), many = all.filter(it => !LITTLE.has(it)), words = many.length ? many : all;
        if (!words.length) { this.show(this.trail[this.trail.length - 1] ?? ""); return; }
        const found = this.parts.flatMap(unitsIn).filter(({text}) => words.every(it => text.toLowerCase().includes(it)));
        $("manual-title").textContent = "Search";
        $("manual-text").replaceChildren(h("p", {role: "status"}, counted(found.length, "place")), h("ul", {id: "manual-found"}, ...found.slice(0, FOUND).map(({address, unit, title, text}) => h("li", {}, h("a", {href: address, "data-unit": unit}, title), ` ${around(text, words[0])}`))));
    }
}

/** Returns the units of a part: where they are, what their place is called, and their text.
 * @param {HTMLTemplateElement} part */
function unitsIn(part) {
    let address = `#${part.id}-`, title = part.dataset.title ?? "";
    return [...part.content.querySelectorAll(UNITS)].map((it, unit) => {
        if (it.id) [address, title] = [`#${it.id}`, `${part.dataset.title}: ${it.textContent}`];
        return {address, title, unit, text: it.tagName === "TR" ? [...it.children].map(cell => cell.textContent).join(" ") : it.textContent ?? ""};
    });
}

/** Returns a text's words around a word.
 * @param {string} text @param {string} word */
function around(text, word) {
    const plain = text.replace(/\s+/g, " "), at = plain.toLowerCase().indexOf(word);
    return `.. ${plain.slice(Math.max(0, at - 40), at + 80)} ..`;
}
