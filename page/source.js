// @ts-check
// SPDX-License-Identifier: Apache-2.0
// Reads a text without judging it: which line is which instruction, its names and its colours.

/** A line: a procedure's head, an instruction, or something else.
 * @typedef {{kind: "proc" | "regs" | "instruction" | "other", procedure: number, place: number}} Line */
/** A name of a register, from a line on.
 * @typedef {{line: number, procedure: number, register: string, name: string}} Naming */
/** A text's lines, the lines of each procedure's places and of its head, and the procedures' names.
 * @typedef {{text: string[], lines: Line[], places: number[][], heads: number[], names: string[]}} Source */
/** The words of the editors' grammar, by their group.
 * @typedef {Record<string, string>} Grammar */

/** The words that script/install/tw.vim colours, by group; the build puts them here. */
export const GRAMMAR = /** @type {Grammar} */ (/*@GRAMMAR@*/ {});

const MODES = ["val", "closed", "ref", "write"];

/** Returns a line without its comment.
 * @param {string} line */
export function uncommented(line) {
    const found = /^(?:[^";]|"(?:[^"\\]|\\.)*("|$))*/.exec(line);
    return found ? found[0] : line;
}

/** Returns the words of a line, each with its column. Brackets and commas separate words too, as in symbolic assembly.
 * @param {string} line @returns {{word: string, at: number}[]} */
export function wordsOf(line) {
    return [...uncommented(line).matchAll(/"(?:[^"\\]|\\.)*"?\S*|[^\s"(),]+/g)].map(it => ({word: it[0], at: it.index ?? 0}));
}

/** Returns whether a text is symbolic assembly.
 * @param {string} text */
export const isSymbolic = text => /^\s*names\b/m.test(text);

/** Returns how many lines of the plain text fill hidden registers after each line of a symbolic text: those begin with a blank.
 * @param {string} text @param {string} plain @returns {number[]} */
function hiddenAfter(text, plain) {
    /** @type {number[]} */
    const counts = [];
    for (const line of isSymbolic(text) ? plain.split("\n") : []) {
        if (line[0] === " ") counts[counts.length - 1]++;
        else counts.push(0);
    }
    return counts;
}

/** Classifies the lines of a text. Instructions that fill hidden registers are at the line `regs`; the plain text shows how many there are.
 * @param {string} text @param {string} [plain] @returns {Source} */
export function scan(text, plain = "") {
    /** @type {Source} */
    const source = {text: text.split("\n"), lines: [], places: [], heads: [], names: []}, hidden = hiddenAfter(text, plain);
    source.text.forEach((line, k) => {
        if (line === "" || line[0] === ";") { source.lines.push({kind: "other", procedure: source.heads.length - 1, place: -1}); return; } // Most of a large text is such.
        const [first = {word: ""}, , third] = wordsOf(line), procedure = source.heads.length - 1;
        if (first.word === "proc") {
            source.lines.push({kind: "proc", procedure: procedure + 1, place: -1});
            source.heads.push(k);
            source.places.push([]);
            source.names.push(third && !MODES.includes(third.word) && !third.word.endsWith(":") ? third.word : "");
        } else if (procedure >= 0 && /^[A-Z]/.test(first.word) && !first.word.endsWith(":")) {
            source.lines.push({kind: "instruction", procedure, place: source.places[procedure].length});
            source.places[procedure].push(k);
        } else {
            source.lines.push({kind: first.word === "regs" ? "regs" : "other", procedure, place: -1});
            source.places[procedure]?.push(...Array(hidden[k] ?? 0).fill(k));
        }
    });
    return source;
}

/** Returns a procedure's name, or `main`, or its number.
 * @param {Source} source @param {number} procedure */
export const callName = (source, procedure) => source.names[procedure] || (procedure === 0 ? "main" : `procedure ${procedure}`);

/** Returns the names in a head or a `regs` line, with what each is of.
 * @param {string} line @returns {{name: string, type: string}[]} */
function named(line) {
    const found = [];
    let name = "";
    for (const {word} of wordsOf(line).slice(1)) {
        if (word.endsWith(":")) name = word.slice(0, -1);
        else if (word === "int" || word === "text") { found.push({name, type: word}); name = ""; }
        else if (MODES.includes(word) && word !== "val" || word === "val") found.push({name, type: word});
    }
    return found;
}

/** Returns the names that a procedure's head gives, and how many `val` parameters it has.
 * @param {string} line */
function namesOfHead(line) {
    /** @type {[string, string][]} */
    const pairs = [];
    let values = 0, rights = 0, name = "";
    for (const {word} of wordsOf(line).slice(1)) {
        if (word.endsWith(":")) name = word.slice(0, -1);
        else if (MODES.includes(word)) {
            const register = word === "val" ? `v${values++}` : `d${rights++}`;
            if (name) pairs.push([register, name]);
            name = "";
        }
    }
    return {pairs, values};
}

/** Returns the names of registers, each from its line on. The plain text has the same lines with registers in place of names and literals, which name their
 * hidden registers.
 * @param {Source} source @param {string} plain @returns {Naming[]} */
export function namings(source, plain) {
    /** @type {Naming[]} */
    const all = [];
    const expanded = plain.split("\n").filter(line => line[0] !== " " || !isSymbolic(source.text.join("\n")));
    let values = 0;
    source.lines.forEach(({kind, procedure}, line) => {
        const add = (/** @type {string} */ register, /** @type {string} */ name) => all.push({line, procedure, register, name});
        if (kind === "other" && !/^\s*let\b/.test(source.text[line])) return;
        const words = wordsOf(source.text[line]).map(it => it.word);
        if (kind === "proc") {
            const head = namesOfHead(source.text[line]);
            head.pairs.forEach(([register, name]) => add(register, name));
            values = source.names[procedure] ? head.values : 0;
        } else if (kind === "regs") {
            named(source.text[line]).forEach(({name}, k) => { if (name) add(`v${values + k}`, name); });
        } else if (words[0] === "let") add(words[3], words[1]);
        else if (kind === "instruction") {
            const own = wordsOf(expanded[line] ?? "").map(it => it.word);
            own.forEach((word, k) => { if (k && /^[vd]\d+$/.test(word) && words[k] !== word && words[k]) add(word, words[k]); });
        }
    });
    return all;
}

/** Returns the name that a register has at a line, or the register.
 * @param {Naming[]} all @param {number} procedure @param {number} line @param {string} register */
export function nameAt(all, procedure, line, register) {
    let name = register;
    for (const it of all) if (it.procedure === procedure && it.line <= line && it.register === register) name = it.name;
    return name;
}

/** @type {Map<string, string> | undefined} */
let groups;
/** Returns the group of a word.
 * @param {string} word */
function groupOf(word) {
    groups ??= new Map(Object.entries(GRAMMAR).flatMap(([group, words]) => words.split(" ").map(it => /** @type {[string, string]} */ ([it, group]))));
    return groups.get(word) ?? (/^[vd](1[0-5]|[0-9])$/.test(word) ? (word[0] === "v" ? "value" : "right") : /^-?\d+$/.test(word) ? "number" : /^\+\d+$/.test(word) ? "skip" : "");
}

/** Returns the coloured pieces of a line, which together are the line.
 * @param {string} line @returns {{text: string, group: string}[]} */
export function coloured(line) {
    /** @type {{text: string, group: string}[]} */
    const pieces = [];
    const label = /^\s*[A-Za-z]\w*:(?=\s|;|$)/.exec(line);
    if (label) pieces.push({text: label[0], group: "label"});
    for (const [text] of line.slice(label?.[0].length ?? 0).matchAll(/;.*|"(?:[^"\\]|\\.)*"?|[+-]?[\w]+|[^\w;"+-]+|[+-]/g)) {
        const group = text[0] === ";" ? "comment" : text[0] === '"' ? "text" : groupOf(text);
        pieces.push({text, group});
    }
    return pieces;
}
