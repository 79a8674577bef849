// @ts-check
// SPDX-License-Identifier: Apache-2.0
// Explains the language on the page: help at the cursor's word, a panel of all instructions with examples, a glossary, and examples in Python.
import {$, h} from "./dom.js";
import {coded} from "./verdict.js";
import {wordsOf} from "./source.js";

/** @typedef {import("./contents.js").Page} Page */
/** An instruction, as reference.py takes it from the code's table and the manual.
 * @typedef {{name: string, form: string, plain: string, does: string, requires: string, refused: string, leaves: string, operands: string[], text: string, inputs: string[]}} Instruction */

/** The instructions and the words; the build puts them here. */
export const REFERENCE = /** @type {Instruction[]} */ (/*@REFERENCE@*/ []);
const GLOSSARY = /** @type {Record<string, string>} */ (/*@GLOSSARY@*/ {});
/** The words of the glossary that are shown at first. */
const TEN = ["task", "datum", "right", "closed", "rule", "control", "leaf", "engine", "worker", "budget", "stuck", "refused"];

/** Words that don't count in a search. */
export const LITTLE = new Set(["a", "an", "and", "from", "in", "into", "of", "on", "the", "to", "with"]);

export class Learning {
    /** @param {import("./editor.js").Editor} editor @param {import("./contents.js").Contents} contents @param {(page: Page) => void} put */
    constructor(editor, contents, put) {
        this.editor = editor;
        this.contents = contents;
        this.put = put;
        this.instructions = new Map(REFERENCE.map(it => [it.name, it]));
        this.fill();
        $("search").addEventListener("input", () => this.search());
    }

    /** Fills the panels. */
    fill() {
        $("instructions").replaceChildren(...REFERENCE.map(it => this.card(it)));
        $("glossary").replaceChildren(...TEN.flatMap(word => [h("dt", {}, word), h("dd", {}, ...coded(GLOSSARY[word] ?? ""))]));
    }

    /** Returns an instruction's card, to be unfolded.
     * @param {Instruction} it */
    card(it) {
        const rows = [["Operands", it.operands.join("; ")], ["Does", it.does], ["Requires", it.requires], ["Is refused", it.refused], ["Leaves", it.leaves]].filter(([, words]) => words);
        return h("details", {id: `instruction-${it.name}`, "data-words": `${it.name} ${it.plain}`.toLowerCase(), "data-more": ` ${it.form} ${it.does}`.toLowerCase()}, h("summary", {}, h("code", {}, it.name), " ", ...coded(it.plain)),
            h("p", {}, h("code", {}, it.form)), h("dl", {}, ...rows.flatMap(([name, words]) => [h("dt", {}, name), h("dd", {}, ...coded(words))])),
            h("pre", {}, it.text), h("button", {onclick: () => this.try(it)}, "Try it"), " ", h("a", {href: "#manual-MACHINE-instructions"}, "In the manual"));
    }

    /** Puts an instruction's example on the page.
     * @param {Instruction} it */
    try({text, inputs}) {
        this.put({text, inputs, layout: [1, 1, 1, 10000], event: 0, seed: 0, example: "", own: 0, name: "", kept: false});
        $("program").scrollIntoView();
    }

    /** Shows the instructions that match what is searched: by name or in a sentence, or else all its words in any order. */
    search() {
        const wanted = /** @type {HTMLInputElement} */ ($("search")).value.trim().toLowerCase(), cards = /** @type {HTMLElement[]} */ ([...$("instructions").children]);
        const stems = wanted.split(/\s+/).filter(it => !LITTLE.has(it)).map(it => it.length > 4 ? it.replace(/(ing|es|s|ed)$/, "") : it);
        const has = (/** @type {HTMLElement} */ card, /** @type {string} */ word) => `${card.dataset.words}${card.dataset.more}`.includes(word);
        const exact = cards.filter(card => (card.dataset.words ?? "").includes(wanted)), found = new Set(exact.length ? exact : cards.filter(card => stems.every(it => has(card, it))));
        for (const card of cards) card.hidden = !found.has(card);
        $("found").textContent = wanted ? `${found.size} of ${REFERENCE.length}` : "";
    }

    /** Returns what a word of the program means; null if it is none of the language's.
     * @param {string} word */
    meaning(word) {
        const it = this.instructions.get(word);
        if (it) return {name: it.form, words: `${it.plain}.${it.refused && it.refused !== "never" ? ` Refused, and skips, ${it.refused}.` : ""}`, card: `instruction-${word}`};
        return Object.hasOwn(GLOSSARY, word) ? {name: word, words: GLOSSARY[word], card: ""} : null;
    }

    /** Explains the word at the cursor, or else the line's first one. */
    helpAtCursor() {
        const {line, column} = this.editor, words = wordsOf(this.editor.lines[line] ?? ""), at = words.find(it => it.at <= column && column <= it.at + it.word.length);
        const meant = at && this.meaning(at.word) || words[0] && this.meaning(words[0].word);
        $("help").replaceChildren(...meant ? [h("code", {}, meant.name), " ", ...coded(meant.words), ...meant.card ? [" ", h("button.link", {id: "more", onclick: () => this.reveal(meant.card)}, "More")] : []] : ["Put the cursor on a word of the program to see what it means."]);
    }

    /** Unfolds an instruction's card.
     * @param {string} id */
    reveal(id) {
        const panel = /** @type {HTMLDetailsElement} */ ($("reference")), card = /** @type {HTMLDetailsElement} */ ($(id));
        /** @type {HTMLInputElement} */ ($("search")).value = "";
        this.search();
        panel.open = card.open = true;
        card.scrollIntoView({block: "center"});
        /** @type {HTMLElement} */ (card.querySelector("summary")).focus({preventScroll: true});
    }

    /** Shows the example's source in Python, if it has one. */
    showPython() {
        const it = this.contents.examples.get(this.contents.example.split(" ")[0]), panel = /** @type {HTMLDetailsElement} */ ($("python"));
        panel.hidden = !it?.python;
        $("python-text").textContent = it?.python ?? "";
    }
}
