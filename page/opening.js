// @ts-check
// SPDX-License-Identifier: Apache-2.0
// Opens a file: a program as text, hex text or bytes, and a trace after it, also one of a run in threads.
import {$} from "./dom.js";
import {LARGE} from "./editor.js";

/** A file's program and the lines of its trace; empty if it has none.
 * @typedef {{program: string, trace: string}} Parts */

/** The most actors of a layout, by their letter. */
const MOST = {e: 4, w: 16};

/** Returns whether a text is taken: a large one is asked about.
 * @param {string} what @param {number} length */
export const sure = (what, length) => length <= LARGE || confirm(`${what} has ${Math.round(length / LARGE)} MB, and the page may be slow. Take it?`);

/** Parts a file into its program and its trace.
 * @param {string} text @returns {Parts} */
export function parted(text) {
    const at = /^events\s*$/m.exec(text);
    if (!at) return {program: text, trace: ""};
    const rest = text.slice(at.index + at[0].length).replace(/^\s*\n/, ""), end = /^end\s*$/m.exec(rest);
    return {program: text.slice(0, at.index), trace: (end ? rest.slice(0, end.index) : rest).replace(/\r/g, "").trim().replace(/(.)$/, "$1\n")};
}

/** Returns how many actors of a kind a trace has.
 * @param {string} trace @param {"e" | "w"} letter */
export function actorsIn(trace, letter) {
    let most = 0;
    for (const [, number] of trace.matchAll(new RegExp(`^\\w+ ${letter}(\\d+)`, "gm"))) most = Math.max(most, +number);
    return Math.min(MOST[letter], most + 1);
}

/** Returns the least number of servers with which each notice of a trace is delivered by the one that its datum falls to.
 * @param {string} trace */
export function serversIn(trace) {
    const delivered = [...trace.matchAll(/^deliver s(\d+) (\d+)/gm)];
    return [1, 2, 3].find(count => delivered.every(([, server, datum]) => +datum % count === +server)) ?? 4;
}

/** Returns bytes as hex text.
 * @param {Uint8Array} bytes */
const hexOf = bytes => Array.from(bytes, it => it.toString(16).padStart(2, "0")).join("");

/** Returns a file's text; bytes of a program become hex text.
 * @param {Uint8Array} bytes */
export function textOf(bytes) {
    try {
        const text = new TextDecoder("utf-8", {fatal: true}).decode(bytes);
        return text.includes("\0") ? hexOf(bytes) : text.replace(/\r\n/g, "\n");
    } catch {
        return hexOf(bytes);
    }
}

export class Opening {
    /** @param {import("./library.js").Library} library @param {(words: string) => void} say
     * @param {(program: string, trace: string, layout: number[], name: string) => Promise<void>} put */
    constructor(library, say, put) {
        this.library = library;
        this.say = say;
        this.put = put;
        const field = /** @type {HTMLInputElement} */ ($("file"));
        $("open").addEventListener("click", () => field.click());
        field.addEventListener("change", () => { if (field.files?.[0]) this.take(field.files[0]); field.value = ""; });
        addEventListener("dragover", event => { if (event.dataTransfer?.types.includes("Files")) event.preventDefault(); });
        addEventListener("drop", event => { const file = event.dataTransfer?.files[0]; if (file) { event.preventDefault(); this.take(file); } });
    }

    /** Opens a file.
     * @param {File} file */
    async take(file) {
        if (!sure(file.name, file.size)) return;
        const {program, trace} = parted(textOf(new Uint8Array(await file.arrayBuffer()))), isHex = /^[\s0-9a-fA-F]+$/.test(program);
        const reply = isHex ? await this.library.session(["disasm"], program) : null;
        if (reply && reply.status !== 0) { this.say(`${file.name} isn't a program: ${reply.text.split("\n")[0]}`); return; }
        const layout = trace ? [actorsIn(trace, "e"), serversIn(trace), actorsIn(trace, "w"), Math.max(10000, Math.min(1000000, trace.split("\n").length))] : [1, 1, 1, 10000];
        await this.put(reply?.text ?? program, trace, layout, file.name.replace(/\.\w+$/, ""));
    }
}
