// @ts-check
// SPDX-License-Identifier: Apache-2.0
// Arrow keys in toolbars, and what is printed.
import {$, h} from "./dom.js";

/** Moves among the buttons of a toolbar by the arrow keys, Home and End. */
export function arrowKeys() {
    document.addEventListener("keydown", event => {
        const target = /** @type {HTMLElement} */ (event.target), bar = target.closest?.("[role=toolbar]");
        if (!bar || target.tagName !== "BUTTON") return;
        const all = /** @type {HTMLElement[]} */ ([...bar.querySelectorAll("button")].filter(it => !it.disabled)), at = all.indexOf(target), last = all.length - 1;
        const to = /** @type {Record<string, number>} */ ({ArrowRight: Math.min(at + 1, last), ArrowLeft: Math.max(at - 1, 0), Home: 0, End: last})[event.key];
        if (to === undefined) return;
        event.preventDefault();
        all[to].focus();
    });
}

/** Prints the whole program and the report: the editor has just the lines in sight.
 * @param {import("./editor.js").Editor} editor */
export function print(editor) {
    addEventListener("beforeprint", () => {
        const numbered = editor.lines.map((line, k) => `${String(k + 1).padStart(4)}  ${line}`).join("\n");
        $("printed").replaceChildren(h("pre", {}, numbered), h("p", {}, $("verdict").textContent ?? ""), h("p", {}, $("ended").textContent ?? ""), h("pre", {}, $("out").textContent ?? ""));
    });
}
