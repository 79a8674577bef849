// @ts-check
// SPDX-License-Identifier: Apache-2.0
// Parses the library's replies, which docs/FORMAT.md describes.
import {wordsOf} from "./source.js";

/** @typedef {import("./source.js").Source} Source */
/** A rejection: its code, its line (from 0, or -1), its reason, and the columns of the word at fault.
 * @typedef {{number: string, line: number, reason: string, from: number, to: number}} Rejection */
/** @typedef {{procedure: number, kind: string, budget: string, more: string}} Budget */
/** Whether outputs are the same in every order of events; else the line (from 0) that may make them differ.
 * @typedef {{same: boolean, line: number}} EventOrder */
/** The result of `check`, with the first rejection and further ones; with `--order` it has the order.
 * @typedef {{accepted: boolean, budgets: Budget[], engines: number, workers: number, order: EventOrder | null, rejection: Rejection | null, further: Rejection[], text: string}} Verdict */

/** Parses the reply to `check`.
 * @param {string} text @param {Source} source @returns {Verdict} */
export function readVerdict(text, source) {
    const lines = text.split("\n"), needs = /^needs engines (\d+) workers (\d+)/m.exec(text), accepted = lines[0] === "accepted";
    const budgets = [...text.matchAll(/^proc (\d+) (?:.* )?(control|leaf) (?:.* )?budget (\d+)(.*)$/gm)].map(it => ({procedure: +it[1], kind: it[2], budget: it[3], more: it[4].replace(/\(\w+\)/, "").trim()}));
    const [rejection = null, ...further] = accepted ? [] : readRejections(text, source);
    return {accepted, budgets, engines: +(needs?.[1] ?? 0), workers: +(needs?.[2] ?? 0), order: readOrder(text, source), rejection, further, text};
}

/** Reads the line of `check --order` or `run --order`; null if there is none.
 * @param {string} text @param {Source} source @returns {EventOrder | null} */
export function readOrder(text, source) {
    const found = /^order (?:same|may show in procedure (\d+) at place (\d+))$/m.exec(text);
    return found && {same: found[1] === undefined, line: source.places[+found[1]]?.[+found[2]] ?? -1};
}

/** The first line of an error after a text's first. */
const FURTHER = /^(?:also (?=[ANV]\d+ (?:at line|in procedure) )|more than \d+ errors$)/;

/** Reads all rejections of a text. The line after the first one of each quotes the program, so it begins no further one.
 * @param {string} text @param {Source} source */
function readRejections(text, source) {
    /** @type {string[][]} */
    const parts = [];
    for (const line of text.split("\n")) {
        const part = parts[parts.length - 1];
        if (!part || part.length > 1 && FURTHER.test(line)) parts.push([line.replace(FURTHER, "refused ")]);
        else part.push(line);
    }
    return parts.flatMap(part => rejectionOf(part, source) ?? []);
}

/** Reads a text's first rejection; null if the text has none.
 * @param {string} text @param {Source} source */
export const readRejection = (text, source) => readRejections(text, source)[0] ?? null;

/** Reads a rejection from its lines. Only the first line decides, since the others quote the program.
 * @param {string[]} lines @param {Source} source @returns {Rejection | null} */
function rejectionOf([first, ...rest], source) {
    const number = /^refused ([A-Z]\d+)/.exec(first)?.[1], details = rest.filter(line => line);
    if (!number) return null;
    const found = /^refused [AHN]\d+ at line (\d+)/.exec(first) ?? /^at line (\d+)/.exec(details[0] ?? "");
    const line = found ? +found[1] - 1 : placed(first, source);
    const [from, to] = line >= 0 ? fault(source.text[line] ?? "", details) : [0, 0];
    return {number, line, reason: reasonOf(details, source.text[line] ?? ""), from, to};
}

/** Returns the line of a rejection that names a procedure and a place, or -1.
 * @param {string} first @param {Source} source */
function placed(first, source) {
    const found = /in procedure (\d+)\b.* at place (\d+)/.exec(first);
    return found ? source.places[+found[1]]?.[+found[2]] ?? source.heads[+found[1]] ?? -1 : -1;
}

/** Returns the columns of the word at fault, or else of all words of the line.
 * @param {string} line @param {string[]} details @returns {[number, number]} */
function fault(line, details) {
    const words = wordsOf(line), [first, last] = [words[0], words[words.length - 1]];
    if (!first) return [0, line.length];
    const end = last.at + last.word.length;
    for (const detail of details) {
        const counted = /^word (\d+), column (\d+)/.exec(detail);
        if (counted) {
            const word = words[+counted[1] - 1];
            return word ? [word.at, word.at + word.word.length] : [end, end + 1];
        }
        const called = /^([vd]\d+) \((\w+)\)/.exec(detail) ?? /^([vd]\d+)\b()/.exec(detail) ?? /^([^\s:]+)():/.exec(detail);
        const word = called && words.slice(1).find(it => it.word === called[1] || it.word === called[2]);
        if (word) return [word.at, word.at + word.word.length];
    }
    return [first.at, end];
}

/** Returns the reason of a rejection: its details without the lines that quote the program.
 * @param {string[]} details @param {string} line */
function reasonOf(details, line) {
    const quoted = line.trim(), isQuote = (/** @type {string} */ it) => it === quoted || it.length > 150 && quoted.startsWith(it.slice(0, 150));
    const said = details.filter(it => !isQuote(it.trim()) && !/^(at line \d+\b[^:]*|expands to): /.test(it));
    return said.join("; ").replace(/^word \d+, column \d+: /, "");
}

/** Returns the rights that a check by places lists, by line: each as the register, and its mode and type.
 * @param {string} text @param {Source} source @returns {Map<number, [string, string][]>} */
export function readPlaces(text, source) {
    const held = new Map(), listing = text.split("\n");
    let at = 0;
    source.lines.forEach(({kind, place}, k) => {
        if (kind === "proc" && /^procedure \d+/.test(listing[at] ?? "")) at++;
        const line = listing[at++] ?? "", prefix = kind === "instruction" ? `${String(place).padStart(5)}  ` : "";
        if (!prefix || !line.startsWith(prefix)) return;
        const rest = line.slice(prefix.length + source.text[k].replace(/\s+$/, "").length);
        const rights = rest.split(/ {2,}/).filter(it => it).map(it => /^(d\d+)\b.*?\b((?:closed|ref|write) .*)$/.exec(it.trim()));
        held.set(k, rights.flatMap(it => it ? [[it[1], it[2]]] : []));
    });
    return held;
}

/** Splits the answer of a traced run into the lines of its events and its report.
 * @param {string} text @returns {{trace: string, report: string}} */
export function readTrace(text) {
    const head = "events\n", end = text.startsWith(head) ? text.indexOf("\nend\n", head.length - 1) : -1;
    return end < 0 ? {trace: "", report: text} : {trace: text.slice(head.length, end + 1), report: text.slice(end + 5)};
}

/** Returns an explanation as its parts: what a number means, and what was asked, the usual mistake and its mending.
 * @param {string} text @returns {{meaning: string, parts: [string, string][]}} */
export function readExplanation(text) {
    const [first = "", ...rest] = text.split("\n"), parts = rest.map(line => /^ {2}([^:]+): (.*)$/.exec(line));
    return {meaning: first.replace(/^[A-Z]\d+: /, ""), parts: parts.flatMap(it => it ? [[it[1], onPage(it[2])]] : [])};
}

// How explanations for the command line read on this page.
/** @type {[RegExp, string][]} */
const ON_PAGE = [
    [/give the option --text, or look at what `tw asm` alone says/, "open the text again from its file"],
    [/with --text the word is reported, and what was expected; /, ""],
    [/give --limit a number in the range/, "set the field `limit` to a number in the range"],
    [/give the numbers that `tw check` prints/, "set engines and workers to the numbers below the program"],
    [/--(workers|engines|servers|limit)/g, "the field `$1`"],
    [/`tw explain (\w+)`/g, "$1"],
    [/hex text is given without --text/, "this page reads text alone"],
];
/** @param {string} text */
const onPage = text => ON_PAGE.reduce((text, [from, to]) => text.replace(from, to), text);
