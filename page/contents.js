// @ts-check
// SPDX-License-Identifier: Apache-2.0
// Holds what is on the page: a program with its inputs and layout. Undo, Redo, the list of programs, the address and the storage keep it, so that nothing is lost.
import {$, h} from "./dom.js";
import {firstOf, keepOwn, owns, ownTitle} from "./own.js";
import {keep} from "./share.js";

/** @typedef {import("./share.js").Kept} Kept */
/** @typedef {import("./editor.js").Editor} Editor */
/** @typedef {import("./fields.js").Fields} Fields */
/** An example: its texts by their syntax, with its title, inputs and layout; its source in Python, if it has one.
 * @typedef {{name: string, title: string, inputs?: string[], engines?: number, servers?: number, workers?: number, ends: string, texts: Record<string, string>, python?: string}} Example */
/** @typedef {{title: string, examples: Example[]}} Group */
/** Contents with the number of the own program or changed example that they are, 0 if they are none; its name; and whether a change makes an own program.
 * @typedef {Kept & {own: number, name: string, kept: boolean}} Page */

const MOST = 30, SOON = 250;
/** What a new program begins with. */
const NEW = "names\n; A new program.\nproc control main(answer: write int)\nregs value: int\nINT value 42\nSTORE answer value\nRET\n";
const FULL = "This browser's storage is full, so the last changes aren't saved. Delete a program, or download the text below.";

export class Contents {
    /** @param {Editor} editor @param {Fields} fields @param {Group[]} groups @param {() => {event: number, seed: number}} seen the event and the order that are shown */
    constructor(editor, fields, groups, seen) {
        this.editor = editor;
        this.fields = fields;
        this.groups = groups;
        this.examples = new Map(groups.flatMap(group => group.examples).map(it => [it.name, it]));
        this.seen = seen;
        this.example = "";
        this.own = 0;
        this.name = "";
        this.kept = true;
        /** When the own program was saved last, as far as this page knows. */
        this.saved = 0;
        /** Contents that Undo and Redo restore.
         * @type {Page[]} */
        this.before = [];
        /** @type {Page[]} */
        this.after = [];
        /** The contents before the reader's own edits.
         * @type {Page | null} */
        this.shown = null;
        this.saving = 0;
        this.pick = /** @type {HTMLSelectElement} */ ($("pick"));
        this.spelling = /** @type {HTMLSelectElement} */ ($("spelling"));
        addEventListener("pagehide", () => this.keepOwn());
    }

    /** @returns {Page} */
    get current() {
        return {text: this.editor.text, inputs: this.fields.words(), layout: this.fields.layout, ...this.seen(), example: this.example, own: this.own, name: this.name, kept: this.kept};
    }

    /** Returns the text of contents: that of their example if they have none of their own.
     * @param {Kept} what */
    textOf(what) {
        const [name, form] = what.example.split(" ");
        return what.text || this.examples.get(name)?.texts[form] || "";
    }

    /** Returns an example's contents.
     * @param {string} name @param {string} form @returns {Page | null} */
    ofExample(name, form) {
        const it = this.examples.get(name);
        if (!it) return null;
        const known = it.texts[form] ? form : Object.keys(it.texts)[0];
        return {text: "", inputs: it.inputs ?? [], layout: [it.engines ?? 1, it.servers ?? 1, it.workers ?? 1, 10000], event: 0, seed: 0, example: `${name} ${known}`, own: 0, name: "", kept: false};
    }

    /** Returns the contents of a link. A text that is an own program is that one.
     * @param {Kept} linked @returns {Page} */
    ofLink(linked) {
        const text = this.textOf(linked), honest = linked.example && text === this.textOf({...linked, text: ""});
        const mine = honest ? undefined : owns().find(it => it.text === text);
        return {...linked, example: honest ? linked.example : "", own: mine?.id ?? 0, name: mine?.name ?? "", kept: mine?.kept ?? !honest};
    }

    /** Returns the contents of a new program, or of a text that was opened.
     * @param {string} [text] @returns {Page} */
    fresh(text = NEW) { return {text, inputs: [], layout: [1, 1, 1, 10000], event: 0, seed: 0, example: "", own: 0, name: "", kept: true}; }

    /** Puts contents on the page.
     * @param {Page} what @param {boolean} undoable */
    put(what, undoable) {
        this.keepOwn();
        clearTimeout(this.saving);
        this.own = 0; // The text changes before the rest does.
        this.editor.set(this.textOf(what), undoable);
        this.adopt(what);
    }

    /** @param {number} own */
    savedAt(own) { return owns().find(it => it.id === own)?.when ?? 0; }

    /** Remembers the current contents for Undo. */
    remember() { this.push(this.current); }

    /** @param {Page} page */
    push(page) {
        this.before.push(page);
        if (this.before.length > MOST) this.before.shift();
        this.after = [];
        this.buttons();
    }

    /** Takes the contents to restore from one list, and puts the current ones into the other.
     * @param {Page[]} from @param {Page[]} to */
    restored(from, to) {
        const what = from.pop();
        if (what) { to.push(this.current); this.put(what, true); this.keepOwn(); this.list(); }
        this.buttons();
        return what ?? null;
    }

    /** Returns the own programs as contents, the last edited first.
     * @returns {Page[]} */
    mine() { return owns().map(it => ({text: it.text, inputs: it.inputs, layout: it.layout, event: it.event, seed: it.seed, example: "", own: it.id, name: it.name, kept: it.kept})); }

    undo() { return this.restored(this.before, this.after); }
    redo() { return this.restored(this.after, this.before); }

    buttons() {
        /** @type {HTMLButtonElement} */ ($("undo")).disabled = !this.before.length;
        /** @type {HTMLButtonElement} */ ($("redo")).disabled = !this.after.length;
    }

    /** Notices that the reader has edited the text: what was there is kept for Undo. A changed example is saved as such; any other text becomes an own program.
     * @param {boolean} back whether the browser's own undo or redo did it */
    edited(back) {
        const {text} = this.editor, known = back && [...this.before, ...this.after].find(it => this.textOf(it) === text);
        if (known) { this.adopt(known); return; }
        if (this.own || this.shown && text === this.shown.text) return;
        if (this.shown) this.push({...this.shown, inputs: this.fields.words(), layout: this.fields.layout, ...this.seen()});
        this.example = "";
        this.own = Date.now();
        this.keepOwn();
        this.list();
    }

    /** Takes over what goes with a text that is in the editor.
     * @param {Page} known */
    adopt(known) {
        this.example = known.example;
        this.own = known.own;
        this.name = known.name;
        this.kept = known.kept;
        this.saved = this.savedAt(known.own);
        this.fields.set(known.inputs);
        this.fields.layout = known.layout;
        this.shown = {...known, text: this.textOf(known)};
        this.list();
    }

    /** Saves an own program at once. If another page has saved it since, this text becomes a program beside that one. */
    keepOwn() {
        if (!this.own) return;
        const other = owns().find(it => it.id === this.own), when = Date.now();
        if (other && other.when > this.saved && other.text !== this.editor.text) this.own = when;
        this.saved = when;
        this.write(false);
    }

    /** Writes the record of the program that is on the page.
     * @param {boolean} gone */
    async write(gone) {
        const {own, ...it} = this.current, saved = await keepOwn({...it, text: gone ? "" : it.text, id: own, when: this.saved, gone});
        if (!saved) $("said").textContent = FULL;
        else if ($("said").textContent === FULL) $("said").textContent = "";
    }

    /** Makes the program on the page an own one, with a name.
     * @param {string} name */
    keepAs(name) {
        this.own ||= Date.now();
        this.example = "";
        this.kept = true;
        this.name = name.trim().slice(0, 60);
        this.keepOwn();
        this.list();
    }

    /** Deletes the program on the page. Returns what it was called. */
    drop() {
        const called = this.called;
        clearTimeout(this.saving);
        this.push(this.current);
        this.saved = Math.max(Date.now(), this.saved + 1);
        this.write(true);
        this.own = 0;
        return called;
    }

    /** What the program on the page is called. */
    get called() { return this.name || (this.example ? this.examples.get(this.example.split(" ")[0])?.title ?? "" : firstOf(this.editor.text)); }

    /** Saves after a short delay. */
    save() {
        clearTimeout(this.saving);
        this.saving = setTimeout(() => this.saveNow(), SOON);
    }

    /** Saves in the storage and the address. Returns whether the address has it. */
    async saveNow() {
        clearTimeout(this.saving);
        this.keepOwn();
        const linked = await keep(this.current);
        $("share").setAttribute("aria-disabled", String(!linked));
        return linked;
    }

    /** Fills the list of programs, and shows which one is on the page, and in which syntaxes there is it. */
    list() {
        const [name, form] = this.example.split(" "), texts = this.examples.get(name)?.texts ?? {}, mine = owns();
        const foreign = !this.own && !this.example, group = (/** @type {string} */ label, /** @type {boolean} */ kept) => mine.some(it => it.kept === kept) ? [h("optgroup", {label}, ...mine.filter(it => it.kept === kept).map(it => h("option", {value: `own ${it.id}`}, ownTitle(it))))] : [];
        this.pick.replaceChildren(h("option", {value: "", hidden: !foreign}, "another program"),
            ...group("Your own programs", true), ...group("Changed examples, for 30 days unless kept", false),
            ...this.groups.map(({title, examples}) => h("optgroup", {label: title}, ...examples.map(it => h("option", {value: it.name}, it.title)))));
        this.pick.value = this.own ? `own ${this.own}` : name;
        $("name-it").textContent = this.own && this.kept ? "Rename" : "Keep";
        /** @type {HTMLButtonElement} */ ($("delete")).disabled = !this.own;
        $("spelled").hidden = Object.keys(texts).length < 2;
        this.spelling.value = form ?? "names";
    }

    /** Returns the contents that the list has under a name.
     * @param {string} value @param {string} form @returns {Page | null} */
    listed(value, form) {
        const [kind, id] = value.split(" ");
        return kind === "own" ? this.mine().find(it => it.own === +id) ?? null : this.ofExample(value, form);
    }
}
