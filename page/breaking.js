// @ts-check
// SPDX-License-Identifier: Apache-2.0
// Break it: plants a mistake, and shows the changed line and the rule that refuses it.
import {$, h} from "./dom.js";
import {MISTAKES} from "./mistakes.js";
import {readVerdict} from "./replies.js";
import {scan} from "./source.js";
import {explain, refusedAt} from "./verdict.js";

/** @typedef {import("./contents.js").Page} Page */
/** @typedef {import("./mistakes.js").Mistake} Mistake */
/** @typedef {import("./replies.js").Rejection} Rejection */
/** What the page does: checks its program, marks the run as old, and takes the last change back.
 * @typedef {{check: () => Promise<void>, leave: () => void, undo: () => void}} Acts */

/** The most changed lines that are shown. */
const LINES = 6;

export class Breaking {
    /** @param {import("./library.js").Library} library @param {import("./contents.js").Contents} contents @param {import("./editor.js").Editor} editor @param {Acts} acts */
    constructor(library, contents, editor, acts) {
        this.library = library;
        this.contents = contents;
        this.editor = editor;
        this.acts = acts;
        /** The contents into which mistakes are planted, and the text with the last.
         * @type {{whole: Page, text: string} | null} */
        this.planted = null;
    }

    /** Makes a button for each mistake.
     * @param {(work: Promise<void>) => void} during */
    buttons(during) {
        $("mistakes").append(...MISTAKES.map(it => h("button", {onclick: () => during(this.plant(it))}, it.title)));
    }

    forget() {
        this.planted = null;
        $("broken").hidden = true;
    }

    /** Plants a mistake: the first of its edits that is refused as wanted.
     * @param {Mistake} mistake */
    async plant(mistake) {
        const {contents, editor, planted} = this, whole = planted && planted.text === editor.text ? planted.whole : contents.current, base = contents.textOf(whole);
        for (const {text} of mistake.plants(base).slice(0, 60)) {
            const reply = await this.library.session(["check", "--text"], text), source = scan(text), rejection = reply && readVerdict(reply.text, source).rejection;
            if (!rejection || !mistake.meets.test(rejection.number)) continue;
            if (planted?.text !== editor.text) contents.remember();
            contents.put({...whole, text, example: "", own: 0, name: "", kept: false}, true);
            this.planted = {whole, text};
            this.acts.leave();
            await this.acts.check();
            $("why").hidden = true;
            editor.reveal(rejection.line);
            await this.show(mistake, rejection, base, text);
            return;
        }
        $("broken").hidden = false;
        $("broken").replaceChildren(h("p", {}, "This program has no place for that mistake. Try another, or another example."));
    }

    /** Shows the lines that changed, and which rule refuses them.
     * @param {Mistake} mistake @param {Rejection} rejection @param {string} before @param {string} after */
    async show(mistake, rejection, before, after) {
        const why = h("div.why", {});
        await explain(this.library, why, rejection);
        $("broken").hidden = false;
        $("broken").replaceChildren(h("p", {}, mistake.does), h("pre.change", {}, ...changes(before, after)), h("p.bad", {}, refusedAt(rejection)), why,
            h("div.row", {}, h("button", {onclick: () => this.acts.undo()}, "Undo the mistake"), h("button", {onclick: () => this.reveal(rejection.line)}, "Show it in the program")));
    }

    /** @param {number} line */
    reveal(line) {
        this.editor.reveal(line);
        this.editor.field.scrollIntoView({block: "center"});
    }
}

/** Returns the lines that differ between two texts, those of the first with a minus, those of the second with a plus.
 * @param {string} before @param {string} after */
function changes(before, after) {
    const [old, now] = [before.split("\n"), after.split("\n")], most = Math.min(old.length, now.length);
    let head = 0, tail = 0;
    while (head < most && old[head] === now[head]) head++;
    while (tail < most - head && old[old.length - 1 - tail] === now[now.length - 1 - tail]) tail++;
    const shown = (/** @type {string} */ sign, /** @type {string[]} */ some) => [...some.slice(0, LINES), ...some.length > LINES ? [".."] : []].map((line, k) => h(`span.${sign === "-" ? "gone" : "put"}`, {}, `${String(head + 1 + k).padStart(4)} ${sign} ${line}\n`));
    return [...shown("-", old.slice(head, old.length - tail)), ...shown("+", now.slice(head, now.length - tail))];
}
