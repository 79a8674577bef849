// @ts-check
// SPDX-License-Identifier: Apache-2.0
// Mistakes to plant in a program. Each offers edits; the page takes the first that the verifier refuses by the expected rule.
import {isSymbolic, scan, uncommented, wordsOf} from "./source.js";

/** A planted text, and the line to look at.
 * @typedef {{text: string, line: number}} Planted */
/** A mistake: its button, its description, the expected rejections, and its edits of a text.
 * @typedef {{title: string, does: string, meets: RegExp, plants: (text: string) => Planted[]}} Mistake */

/** Returns an edit for each line that begins with a word.
 * @param {string} text @param {RegExp} first @param {(line: string, words: string[]) => string[] | null} edit the lines in its place */
function eachLine(text, first, edit) {
    const lines = text.split("\n");
    return lines.flatMap((line, k) => {
        const words = wordsOf(line).map(it => it.word), made = first.test(words[0] ?? "") ? edit(line, words) : null;
        return made ? [{text: [...lines.slice(0, k), ...made, ...lines.slice(k + 1)].join("\n"), line: k}] : [];
    });
}

/** Returns a line's statement without the comment, its blanks kept.
 * @param {string} line */
const bare = line => uncommented(line).replace(/\s+$/, "");

/** Puts lines before the last RET of the first procedure.
 * @param {string} text @param {string[]} before @param {string[]} atStart */
function aroundMain(text, before, atStart) {
    const lines = text.split("\n"), {places} = scan(text), [code] = places;
    if (!code?.length) return [];
    const [first, last] = [code[0], code[code.length - 1]];
    return [{text: [...lines.slice(0, first), ...atStart, ...lines.slice(first, last), ...before, ...lines.slice(last)].join("\n"), line: last + atStart.length}];
}

/** Adds a text register, and stores it in an int.
 * @param {string} text @returns {Planted[]} */
function textIntoInt(text) {
    const source = scan(text), lines = source.text, symbolic = isSymbolic(text);
    return source.places.flatMap((code, procedure) => code.flatMap(line => {
        const words = wordsOf(lines[line]).map(it => it.word), regs = source.lines.findIndex(it => it.kind === "regs" && it.procedure === procedure);
        if (words[0] !== "STORE" || regs < 0) return [];
        const count = wordsOf(lines[regs]).length - 1, named = symbolic ? "word" : `v${count}`, declared = bare(lines[regs]);
        const made = [...lines];
        made[regs] = symbolic ? `${declared}${/\S\s+\S/.test(declared) ? "," : ""} word: text` : `${declared} text`;
        made[line] = `STORE ${words[1]} ${named}`;
        return [{text: made.join("\n"), line}];
    }));
}

/** @type {Mistake[]} */
export const MISTAKES = [
    {title: "Forget to give up a right", does: "A line that gives up a right is gone. The task would end with it, and those who wait could wait for ever.", meets: /^V(10|07|08|03)/,
        plants: text => eachLine(text, /^(DROPR|DROPW)$/, line => [`; ${bare(line).trim()}`])},
    {title: "Write it twice", does: "A datum is stored once, so that whoever reads it reads the same. Here a second STORE follows.", meets: /^V04/,
        plants: text => eachLine(text, /^STORE$/, line => [line, `${bare(line)}        ; again`])},
    {title: "Never write it", does: "The STORE is gone. Whoever waits for the datum would wait for ever.", meets: /^V(10|07)/,
        plants: text => eachLine(text, /^STORE$/, line => [`; ${bare(line).trim()}`])},
    {title: "Read before it is there", does: "The parameter is `ref` in place of `closed`: the task may begin before the datum is written.", meets: /^V(04|16)/,
        plants: text => eachLine(text, /^proc$/, line => /\bclosed\b/.test(bare(line)) ? [line.replace(/\bclosed\b/, "ref")] : null)},
    {title: "Use a right that is gone", does: "The right to read is given up, and then the datum is read.", meets: /^V04/,
        plants: text => eachLine(text, /^GET$/, (line, words) => [`DROPR ${words[2]}        ; too early`, line])},
    {title: "Store a text in an int", does: "The datum is an int, and a text is stored.", meets: /^V(02|04)/, plants: textIntoInt},
    {title: "Jump back", does: "A jump leads back to the first line, and so it could go on for ever. Loops are written with REPEAT, which says how often.", meets: /^A05/,
        plants: text => aroundMain(text, ["JMP start        ; back"], ["start:"])},
    {title: "Loop for too long", does: "Four nested loops of a thousand turns each: a million millions of instructions.", meets: /^V17/,
        plants: text => aroundMain(text, [...Array(4).fill("REPEAT 1000"), ...Array(4).fill("END")], [])},
];
