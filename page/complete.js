// @ts-check
// SPDX-License-Identifier: Apache-2.0
// Completes words as they are typed: instructions, registers, procedures, labels. Tab takes the first, or the one that the arrow keys chose.
import {$, h} from "./dom.js";
import {namesBefore} from "./hints.js";
import {REFERENCE} from "./learning.js";
import {scan} from "./source.js";

/** @typedef {import("./editor.js").Editor} Editor */
/** A word to put in, and what is said of it.
 * @typedef {{word: string, says: string}} Offer */

const MOST = 8, SHORTEST = 2;
const LINES = {proc: "begins a procedure", regs: "names value registers", let: "names a register", const: "names a number", names: "the first line of a text with names"};
const HEAD = {control: "runs on an engine", leaf: "runs on a worker", closed: "a right to read a closed datum", ref: "a right to read", write: "a right to write", val: "a value", int: "a number", text: "a text", cont: "a container by numbers", tcont: "a container by texts", map: "values by numbers", tmap: "values by texts", sum: "numbers of a map that are added up"};

/** Returns what may be meant at the end of a line.
 * @param {string} text the program @param {number} line @param {string} before the line up to the cursor @returns {Offer[]} */
export function offers(text, line, before) {
    const [, start, prefix] = /^(.*?)([A-Za-z_]\w*)$/.exec(before) ?? [], all = [];
    if (prefix === undefined || /;|"/.test(before) || prefix.length < SHORTEST && !/^\s*$/.test(start)) return [];
    const says = (/** @type {Record<string, string>} */ some) => Object.entries(some).map(([word, says]) => ({word, says}));
    if (/^\s*$/.test(start)) all.push(...REFERENCE.map(({name, plain}) => ({word: name, says: plain})), ...says(LINES));
    else all.push(...argumentsAt(text, line, /^\s*(\w+)/.exec(start)?.[1] ?? ""));
    const near = all.filter(({word}) => word.toLowerCase().startsWith(prefix.toLowerCase()));
    return near.some(({word}) => word === prefix) ? [] : near.slice(0, MOST);
}

/** Returns the words that may follow a line's first.
 * @param {string} text @param {number} line @param {string} first @returns {Offer[]} */
function argumentsAt(text, line, first) {
    const source = scan(text), procedure = source.lines[line]?.procedure ?? -1;
    const says = (/** @type {Record<string, string>} */ some) => Object.entries(some).map(([word, says]) => ({word, says}));
    if (/^(proc|regs)$/.test(first)) return says(HEAD);
    const names = namesBefore(source, line).map(word => ({word, says: "a register"})), procedures = source.names.filter(it => it).map(word => ({word, says: "a procedure"}));
    const labels = source.text.flatMap((it, k) => { const label = /^\s*([A-Za-z]\w*):\s*(;|$)/.exec(it); return label && k > line && source.lines[k].procedure === procedure ? [{word: label[1], says: "a label"}] : []; });
    return /^(RULE|PUT)V?$/.test(first) ? [...procedures, ...names, {word: "any", says: "for any actor"}] : [...names, ...labels, ...says(first === "NEW" ? HEAD : {})];
}

export class Completion {
    /** @param {Editor} editor @param {() => any} source */
    constructor(editor, source) {
        this.editor = editor;
        this.source = source;
        this.box = $("offers");
        /** @type {Offer[]} */
        this.offers = [];
        this.chosen = -1;
    }

    bind() {
        const {field} = this.editor;
        field.addEventListener("input", event => { if (/^insertText$/.test(/** @type {InputEvent} */ (event).inputType ?? "") && !this.editor.setting) this.suggest(); else this.hide(); });
        field.addEventListener("keydown", event => this.key(event));
        for (const kind of ["blur", "click", "scroll"]) field.addEventListener(kind, () => this.hide());
        this.box.addEventListener("mousedown", event => {
            event.preventDefault();
            const at = [...this.box.children].indexOf(/** @type {HTMLElement} */ (/** @type {HTMLElement} */ (event.target).closest("[role=option]")));
            if (at >= 0) this.accept(at);
        });
    }

    /** The line up to the cursor. */
    get before() {
        const {field} = this.editor, at = field.selectionStart;
        return field.value.slice(field.value.lastIndexOf("\n", at - 1) + 1, at);
    }

    suggest() {
        const {field, line} = this.editor, after = field.value[field.selectionStart] ?? "\n";
        this.offers = field.selectionStart === field.selectionEnd && /\W/.test(after) && field.value.length < 200000 ? offers(field.value, line, this.before) : [];
        this.chosen = -1;
        if (!this.offers.length) { this.hide(); return; }
        this.box.replaceChildren(...this.offers.map(({word, says}, k) => h("div", {role: "option", id: `offer-${k}`, "aria-selected": "false"}, h("b", {}, word), ` ${says}`)));
        this.box.hidden = false;
        this.place();
        field.setAttribute("aria-expanded", "true");
    }

    /** Lays the list below the cursor. */
    place() {
        const {field, line, high} = this.editor, style = getComputedStyle(field), wide = this.editor.wide;
        const left = parseFloat(style.paddingLeft) + this.before.length * wide - field.scrollLeft, top = parseFloat(style.paddingTop) + (line + 1) * high - field.scrollTop;
        this.box.style.left = `${Math.max(0, Math.min(left, field.clientWidth - this.box.offsetWidth))}px`;
        this.box.style.top = `${top + this.box.offsetHeight > field.clientHeight && top > this.box.offsetHeight + high ? top - high - this.box.offsetHeight : top}px`;
    }

    hide() {
        this.offers = [];
        this.box.hidden = true;
        this.editor.field.removeAttribute("aria-expanded");
        this.editor.field.removeAttribute("aria-activedescendant");
    }

    /** @param {KeyboardEvent} event */
    key(event) {
        if (event.key === " " && event.ctrlKey) { event.preventDefault(); this.suggest(); return; }
        if (!this.offers.length) return;
        const way = {ArrowDown: 1, ArrowUp: -1}[event.key] ?? 0, taken = event.key === "Tab" && !event.shiftKey || event.key === "Enter" && this.chosen >= 0;
        if (way) this.choose((this.chosen + way + this.offers.length + (this.chosen < 0 && way < 0 ? 1 : 0)) % this.offers.length);
        else if (taken) this.accept(Math.max(0, this.chosen));
        else if (event.key === "Escape") this.hide();
        if (way || taken || event.key === "Escape") { event.preventDefault(); event.stopPropagation(); }
    }

    /** @param {number} at */
    choose(at) {
        this.chosen = at;
        [...this.box.children].forEach((it, k) => it.setAttribute("aria-selected", String(k === at)));
        this.editor.field.setAttribute("aria-activedescendant", `offer-${at}`);
    }

    /** Puts a word in.
     * @param {number} at */
    accept(at) {
        const {field} = this.editor, {word} = this.offers[at], end = field.selectionStart, prefix = /\w*$/.exec(this.before)?.[0] ?? "";
        this.hide();
        field.setSelectionRange(end - prefix.length, end);
        document.execCommand("insertText", false, word);
        this.hide();
    }
}
