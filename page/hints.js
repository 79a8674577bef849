// @ts-check
// SPDX-License-Identifier: Apache-2.0
// Hints for mistakes of beginners, beside what the library says of them.
import {uncommented, wordsOf} from "./source.js";

/** @typedef {import("./replies.js").Rejection} Rejection */
/** @typedef {import("./source.js").Source} Source */

/** Returns how many letters differ between two words, up to 2.
 * @param {string} one @param {string} other */
export function differing(one, other) {
    if (Math.abs(one.length - other.length) > 1) return 2;
    let head = 0, tail = 0;
    while (head < one.length && one[head] === other[head]) head++;
    while (tail < Math.min(one.length, other.length) - head && one[one.length - 1 - tail] === other[other.length - 1 - tail]) tail++;
    return Math.max(one.length, other.length) - head - tail;
}

/** Returns the names that a procedure's lines declare or make, up to a line.
 * @param {Source} source @param {number} line */
export function namesBefore(source, line) {
    const procedure = source.lines[line]?.procedure ?? -1, names = new Set();
    for (let k = source.heads[procedure] ?? 0; k <= line && k < source.lines.length; k++) {
        const words = wordsOf(source.text[k]).map(it => it.word), {kind} = source.lines[k];
        if (kind === "proc" || kind === "regs") for (const word of words) if (word.endsWith(":")) names.add(word.slice(0, -1));
        if (words[0] === "let" && words[1]) names.add(words[1]);
        const makes = {NEW: [1, 2], DUPR: [1], DUPW: [1], LOOK: [1], TLOOK: [1]}[words[0]];
        if (k < line) for (const at of makes ?? []) if (/^[a-z]\w*$/i.test(words[at] ?? "")) names.add(words[at]);
    }
    return [...names];
}

/** Returns a hint about a rejection; empty if there is none.
 * @param {Rejection} rejection @param {Source} source */
export function hintFor({number, line, from, to, reason}, source) {
    const text = source.text[line] ?? "", word = text.slice(from, to), symbolic = /^\s*names\b/.test(source.text.find(it => uncommented(it).trim()) ?? "");
    if (/(^|\s)(\/\/|#|--)/.test(uncommented(text))) return "Comments begin with ;";
    if (!symbolic && number[0] === "A" && /:|\(/.test(uncommented(text)) && /^\s*(proc|regs)\b/.test(text)) return "This is written with names: begin the text with the line `names`.";
    if (/^[A-Z]/.test(number) && symbolic && /^[a-z_]\w*$/i.test(word) && !/did you mean/.test(reason)) {
        const near = namesBefore(source, line).find(it => it !== word && (differing(it, word) < 2 || it.toLowerCase() === word.toLowerCase()));
        if (near) return `Did you mean \`${near}\`?`;
    }
    return "";
}
