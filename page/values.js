// @ts-check
// SPDX-License-Identifier: Apache-2.0
// Types, values and input words, as docs/FORMAT.md and docs/MACHINE.md define them.

/** A type as its words: `int`, `text`, `cont` or `tcont` before a type, or `map` or `tmap` before `int`, `text` or `sum`.
 * @typedef {string} Type */
/** A scalar: an int or a text.
 * @typedef {bigint | string} Scalar */
/** An input: its type, and its value or its members by subscript.
 * @typedef {{type: Type, value: Scalar | Map<Scalar, Scalar>}} Input */

const encoder = new TextEncoder();
export const LEAST = -(2n ** 63n);
const GREATEST = 2n ** 63n - 1n;
export const LONGEST_TEXT = 4096;

/** Returns the UTF-8 bytes of a text.
 * @param {string} text */
export const bytesOf = text => encoder.encode(text);

/** Returns the number of UTF-8 bytes of a text.
 * @param {string} text */
export const byteLength = text => bytesOf(text).length;

const decoder = new TextDecoder("utf-8", {ignoreBOM: true});
/** Returns the text of UTF-8 bytes.
 * @param {Uint8Array} bytes */
export const textOf = bytes => decoder.decode(bytes);

/** Returns whether a number fits 64 bits, signed.
 * @param {bigint} number */
export const fits = number => LEAST <= number && number <= GREATEST;

/** Returns the type of a container's members.
 * @param {Type} type @returns {Type} */
export const elementOf = type => type.slice(type.indexOf(" ") + 1);

/** Returns whether a type is a container.
 * @param {Type} type */
export const isContainer = type => /^t?cont /.test(type);

/** Returns whether a type is a map.
 * @param {Type} type */
export const isMap = type => /^t?map /.test(type);

/** Returns the type of a map's values.
 * @param {Type} type @returns {Type} */
export const entryOf = type => type.endsWith("text") ? "text" : "int";

/** Orders subscripts: ints by value, texts by their UTF-8 bytes.
 * @param {Scalar} one @param {Scalar} other */
export function order(one, other) {
    if (typeof one === "bigint" || typeof other === "bigint") return one < other ? -1 : one > other ? 1 : 0;
    const left = encoder.encode(one), right = encoder.encode(other);
    for (let k = 0; k < left.length && k < right.length; k++) if (left[k] !== right[k]) return left[k] - right[k];
    return left.length - right.length;
}

/** Returns a text in quotes, as a report writes it.
 * @param {string} text */
export function quote(text) {
    const escaped = text.replace(/["\\]/g, "\\$&").replace(/\n/g, "\\n");
    return `"${escaped.replace(/[\0-\x1f\x7f]/g, sign => "\\x" + sign.charCodeAt(0).toString(16).padStart(2, "0"))}"`;
}

/** Returns a scalar as a report writes it, without its type.
 * @param {Scalar} value */
export const shown = value => typeof value === "bigint" ? String(value) : quote(value);

/** Reads an escaped text without its quotes; null if an escape is wrong.
 * @param {string} inside */
function unquote(inside) {
    let wrong = false;
    const text = inside.replace(/\\(x[0-7][0-9a-fA-F]|["\\n]|)/g, (_, name) => {
        if (!name) wrong = true;
        return name === "n" ? "\n" : name[0] === "x" ? String.fromCharCode(parseInt(name.slice(1), 16)) : name;
    });
    return wrong ? null : text;
}

/** Reads one end of a pair: an int, or a text in quotes.
 * @param {string} word @param {boolean} quoted @returns {Scalar | null} */
function readScalar(word, quoted) {
    if (quoted) return unquote(word.slice(1, -1));
    const number = BigInt(word);
    return fits(number) ? number : null;
}

const INT = "-?[0-9]+", TEXT = '"(?:[^"\\\\]|\\\\.)*"';
/** The list forms of an input word: prefix, type, whether the subscript and the member are texts.
 * @type {[string, Type, boolean, boolean][]} */
const LISTS = [["ints:", "cont int", false, false], ["texts:", "cont text", false, true], ["tints:", "tcont int", true, false], ["ttexts:", "tcont text", true, true]];

/** Reads the pairs of a list word; null if it has another form.
 * @param {string} rest @param {boolean} byText @param {boolean} ofTexts */
function readPairs(rest, byText, ofTexts) {
    const members = new Map();
    if (!rest) return members;
    const pair = new RegExp(`(${byText ? TEXT : INT})=(${ofTexts ? TEXT : INT})(,|$)`, "suy");
    for (let at = 0, more = true; more; at = pair.lastIndex) {
        pair.lastIndex = at;
        const found = pair.exec(rest);
        if (!found) return null;
        const key = readScalar(found[1], byText), value = readScalar(found[2], ofTexts);
        if (key === null || value === null) return null;
        members.set(key, value);
        more = found[3] === ",";
        if (!more && pair.lastIndex < rest.length) return null;
    }
    return members;
}

/** Reads an input word; null if it has none of the forms.
 * @param {string} word @returns {Input | null} */
export function readInput(word) {
    if (word.startsWith("text:")) return {type: "text", value: word.slice(5)};
    if (word.startsWith("int:")) {
        if (!/^int:-?[0-9]+$/.test(word)) return null;
        const value = readScalar(word.slice(4), false);
        return value === null ? null : {type: "int", value};
    }
    for (const [prefix, type, byText, ofTexts] of LISTS) {
        const value = word.startsWith(prefix) ? readPairs(word.slice(prefix.length), byText, ofTexts) : null;
        if (value) return {type, value};
    }
    return null;
}

/** Returns what is wrong with an input word; empty if nothing is.
 * @param {string} word */
export function inputFault(word) {
    if (readInput(word)) return "";
    if (/^\s*-?[0-9]+\s*$/.test(word)) return `write int:${word.trim()}, with the type before the number`;
    if (/^\s*-?[0-9]+(\s*,\s*-?[0-9]+)*\s*$/.test(word)) return `write ints:${word.split(",").map((part, k) => `${k}=${part.trim()}`).join(",")}, with a subscript before each number`;
    if (/^int:/.test(word)) return "after int: comes one whole number of 64 bits, without blanks";
    if (/^t?ints:/.test(word)) return word.startsWith("t") ? 'after tints: come pairs like "a"=1, with a comma between two, no blanks' : "after ints: come pairs like 1=7, with a comma between two, no blanks";
    if (/^t?texts:/.test(word)) return word.startsWith("tt") ? 'after ttexts: come pairs like "a"="b", with a comma between two' : 'after texts: come pairs like 1="a", with a comma between two';
    return "an input begins with int: text: ints: texts: tints: or ttexts:";
}

/** Returns an input word without the blanks and curly quotes that phones and habits put in: outside of texts, and not in a text input.
 * @param {string} word */
export function normal(word) {
    if (/^\s*text:/.test(word)) return word;
    const straight = /"/.test(word) ? word : word.replace(/[\u201c\u201d\u201e\u00ab\u00bb]/g, '"');
    return straight.trim().replace(/"(?:[^"\\]|\\.)*"|\s+/g, it => it[0] === '"' ? it : "");
}

/** Returns why a program's opening would refuse an input; empty if it wouldn't.
 * @param {string} word @param {boolean} [ofMap] whether it is for a map */
export function openingFault(word, ofMap = false) {
    const input = readInput(word);
    if (!input) return "";
    const {value} = input, texts = value instanceof Map ? [...value].flat() : [value], keys = value instanceof Map ? [...value.keys()] : [];
    if (texts.some(it => typeof it === "string" && byteLength(it) > LONGEST_TEXT)) return "a text has over 4,096 bytes";
    if (keys.length > (ofMap ? ENTRIES : MEMBERS)) return ofMap ? "it has over 100,000 values" : "it has over 1,000 members";
    if (/^t?(ints|texts):/.test(word) && keys.length < pairsIn(word)) return "a subscript is there twice";
    const wrong = keys.findIndex((key, k) => k > 0 && order(keys[k - 1], key) >= 0);
    return wrong > 0 ? `the subscripts have to rise: ${shown(keys[wrong])} is after ${shown(keys[wrong - 1])}` : "";
}
const MEMBERS = 1000, ENTRIES = 100000;

/** Returns how many pairs a list word has.
 * @param {string} word */
const pairsIn = word => [...word.replace(/"(?:[^"\\]|\\.)*"/g, "").matchAll(/=/g)].length;
