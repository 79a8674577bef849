// @ts-check
// SPDX-License-Identifier: Apache-2.0
// The editor: a plain text field, its lines in colours beneath it, and the line numbers beside it. The field is the browser's own:
// undo, selection, touch and screen readers work as everywhere. Just the lines in sight are painted.
import {h} from "./dom.js";
import {coloured, uncommented} from "./source.js";

/** What is wrong in a line: its columns and a message; and whether it is wrong only perhaps.
 * @typedef {{from: number, to: number, message: string, perhaps: boolean}} Fault */
/** The marks: lines of the event, lines where actors continue, lines with a fault, and notes after lines.
 * @typedef {{hits: Set<number>, next: Map<number, string[]>, faults: Map<number, Fault>, heads: Map<number, string>, held: {line: number, text: string} | null}} Marks */

/** A length beyond which the page asks before it takes a text, and the field has just its beginning: browsers lay out all of a field. */
export const LARGE = 1 << 20;
const BEGINNING = 20000;
/** A change of up to so many lines is made by an edit that Ctrl+Z takes back; browsers need a time for it that is quadratic in the lines. */
const UNDOABLE = 60;

/** Returns what differs between two texts: the lengths of their common head and tail.
 * @param {string} old @param {string} text */
function differing(old, text) {
    const most = Math.min(old.length, text.length);
    let head = 0, tail = 0;
    while (head < most && old[head] === text[head]) head++;
    while (tail < most - head && old[old.length - 1 - tail] === text[text.length - 1 - tail]) tail++;
    return {head, tail};
}

/** Returns the first lines of a large text.
 * @param {string} text */
const beginningOf = text => `${text.slice(0, text.lastIndexOf("\n", BEGINNING) + 1 || BEGINNING)}\n; .. and more: a text of ${Math.round(text.length / LARGE)} MB is run as a whole, but not shown or changed here.\n`;

/** Returns the number of lines of a text.
 * @param {string} text */
function linesIn(text) {
    let count = 1;
    for (let at = text.indexOf("\n"); at >= 0; at = text.indexOf("\n", at + 1)) count++;
    return count;
}

/** Returns how many columns a line takes, with its tabs.
 * @param {string} line */
const widthOf = line => [...line].reduce((wide, sign) => sign === "\t" ? wide + 4 - wide % 4 : wide + 1, 0);

export class Editor {
    /** @param {HTMLTextAreaElement} field @param {HTMLElement} paint @param {HTMLElement} gutter */
    constructor(field, paint, gutter) {
        this.field = field;
        this.paint = paint;
        this.gutter = gutter;
        /** @type {Marks} */
        this.marks = {hits: new Set(), next: new Map(), faults: new Map(), heads: new Map(), held: null};
        /** A text that is too long for the field; empty if there is none. */
        this.whole = "";
        /** @type {string[]} */
        this.lines = [""];
        this.high = 20;
        this.wide = 8;
        /** Whether the page itself changes the text now. */
        this.setting = false;
        /** Called when a line's number is clicked.
         * @type {(line: number) => void} */
        this.online = () => {};
        this.painted = "";
        field.addEventListener("scroll", () => this.scrolled());
        field.addEventListener("input", () => this.changed());
        new ResizeObserver(() => this.measure()).observe(field);
        gutter.addEventListener("click", event => {
            const line = /** @type {HTMLElement} */ (event.target).closest("[data-line]")?.getAttribute("data-line");
            if (line) this.online(+line);
        });
    }

    get text() { return this.whole || this.field.value; }

    /** Puts another text in, by replacing what differs. The browser's undo brings a short change back.
     * @param {string} text @param {boolean} undoable */
    set(text, undoable) {
        const {field} = this, old = field.value, isLarge = text.length > LARGE, put = isLarge ? beginningOf(text) : text;
        this.whole = isLarge ? text : "";
        field.readOnly = isLarge;
        this.setting = true;
        if (old !== put) this.replace(old, put, undoable && !isLarge);
        if (field.value !== put) field.value = put;
        this.setting = false;
        field.setSelectionRange(0, 0);
        field.scrollTop = field.scrollLeft = 0;
        this.changed();
    }

    /** @param {string} old @param {string} text @param {boolean} undoable */
    replace(old, text, undoable) {
        const {field} = this, {head, tail} = differing(old, text), put = text.slice(head, text.length - tail), gone = old.slice(head, old.length - tail);
        if (!undoable || linesIn(put) + linesIn(gone) > UNDOABLE) { field.setRangeText(put, head, old.length - tail); return; }
        const before = /** @type {HTMLElement | null} */ (document.activeElement);
        field.focus({preventScroll: true});
        field.setSelectionRange(head, old.length - tail);
        if (put) document.execCommand("insertText", false, put);
        else document.execCommand("delete");
        if (before && before !== field) before.focus({preventScroll: true});
    }

    changed() {
        this.lines = this.field.value.split("\n");
        this.marks = {hits: new Set(), next: new Map(), faults: new Map(), heads: new Map(), held: null};
        this.draw();
    }

    /** Changes marks, brings a line into sight if one is given, and paints.
     * @param {Partial<Marks>} marks @param {number} [line] */
    mark(marks, line) {
        Object.assign(this.marks, marks);
        if (line !== undefined) this.scrollTo(line);
        this.draw();
    }

    /** Returns the cursor's line. */
    get line() {
        const upto = this.field.value.slice(0, this.field.selectionStart);
        let line = 0;
        for (let k = upto.indexOf("\n"); k >= 0; k = upto.indexOf("\n", k + 1)) line++;
        return line;
    }

    /** Returns the cursor's column. */
    get column() { return this.field.selectionStart - this.field.value.lastIndexOf("\n", this.field.selectionStart - 1) - 1; }

    /** Brings a line into sight, if it isn't.
     * @param {number} line */
    reveal(line) {
        this.scrollTo(line);
        this.draw();
    }

    /** @param {number} line */
    scrollTo(line) {
        const {field, high} = this, top = line * high, room = field.clientHeight - 3 * high;
        if (top < field.scrollTop || top > field.scrollTop + room) field.scrollTop = Math.max(0, top - field.clientHeight / 3);
    }

    /** Paints where the field has been scrolled to, if that isn't painted yet. */
    scrolled() { if (`${this.field.scrollTop} ${this.field.scrollLeft}` !== this.painted) this.draw(); }

    draw() {
        const {field, paint, gutter} = this;
        this.painted = `${field.scrollTop} ${field.scrollLeft}`;
        const first = Math.max(0, Math.floor(field.scrollTop / this.high)), count = Math.ceil(field.clientHeight / this.high) + 1;
        const shift = first * this.high - field.scrollTop, lines = this.lines.slice(first, first + count);
        paint.replaceChildren(...lines.map((line, k) => this.lineOf(line, first + k)));
        paint.style.transform = `translate(${-field.scrollLeft}px, ${shift}px)`;
        gutter.replaceChildren(...lines.map((_, k) => this.numberOf(first + k)));
        gutter.style.setProperty("--shift", `${shift}px`);
        gutter.style.minWidth = `${String(this.lines.length).length + 3.5}ch`;
    }

    /** Measures the lines, after the field has another size. */
    measure() {
        const style = getComputedStyle(this.field), pen = document.createElement("canvas").getContext("2d");
        this.high = parseFloat(style.lineHeight) || 20;
        if (pen) { pen.font = style.font; this.wide = pen.measureText("0").width; }
        this.draw();
    }

    /** @param {number} line */
    numberOf(line) {
        const {hits, next, faults} = this.marks, actors = next.get(line) ?? [];
        const kind = faults.has(line) ? "bad" : hits.has(line) ? "hit" : "";
        return h(`div.${kind}`, {"data-line": line, title: "go to the next event of this line"}, actors.length ? h("span.chip", {}, actors.length > 2 ? `${actors.length}` : actors.join(" ")) : "", String(line + 1));
    }

    /** @param {string} line @param {number} number */
    lineOf(line, number) {
        const {hits, faults, heads, held} = this.marks, wrong = faults.get(number);
        const made = h(`div.line${hits.has(number) ? ".hit" : ""}`), pieces = line.length > 2000 ? [{text: line.slice(0, 2000), group: ""}] : coloured(line);
        let at = 0;
        for (const {text, group} of pieces) {
            made.append(...wrong ? parted(text, at, wrong, group) : [h(`span.${group && "tw-" + group}`, {}, text)]);
            at += text.length;
        }
        if (wrong && wrong.to > at) made.append(h("span.fault", {}, " "));
        const note = wrong?.message ?? heads.get(number) ?? (held?.line === number ? held.text : "");
        if (wrong) made.append(h("span.note.bad", {style: `--column: ${widthOf(line.slice(0, Math.max(wrong.to, uncommented(line).trimEnd().length))) + 2}`}, note));
        else if (note) made.append(h("span.note", {}, note));
        return made;
    }
}

/** Returns the parts of a piece, with what is wrong in it underlined.
 * @param {string} text @param {number} at @param {Fault} wrong @param {string} group */
function parted(text, at, {from, to, perhaps}, group) {
    const cuts = [0, from - at, to - at, text.length].map(it => Math.max(0, Math.min(text.length, it))), [, one, other] = cuts;
    const part = (/** @type {string} */ it, /** @type {string} */ more) => it ? [h(`span${more}.${group && "tw-" + group}`, {}, it)] : [];
    return [...part(text.slice(0, one), ""), ...part(text.slice(one, other), perhaps ? ".fault.perhaps" : ".fault"), ...part(text.slice(other), "")];
}
