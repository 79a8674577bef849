// @ts-check
// SPDX-License-Identifier: Apache-2.0
// A program out of its bytes, as docs/BYTES.md writes them. The library assembles the text; nothing is refused here.
import {textOf} from "./values.js";

/** @typedef {import("./values.js").Type} Type */
/** A parameter: a mode and a type.
 * @typedef {{mode: string, type: Type}} Param */
/** An operand: a register, a number, a text, a type, a target or a list of registers.
 * @typedef {number | bigint | string | null | number[]} Operand */
/** An instruction: its name, and its operands in order.
 * @typedef {{name: string, operands: any[]}} Instruction */
/** @typedef {{kind: "control" | "leaf", params: Param[], regs: Type[], code: Instruction[]}} Procedure */

const MODES = ["", "val", "closed", "ref", "write"], WORDS = ["", "int", "text", "cont", "tcont", "map", "tmap"], ENTRIES = ["", "int", "text", "sum"];

// Of each code its name, and its operands: r register, n number, t text, s skip, y type, p procedure, g target, a arguments, c turns.
/** @type {Record<number, [string, string]>} */
const CODES = {
    0x01: ["INT", "rn"], 0x02: ["TEXT", "rt"], 0x03: ["COPY", "rr"],
    0x10: ["ADD", "rrrs"], 0x11: ["SUB", "rrrs"], 0x12: ["MUL", "rrrs"], 0x13: ["DIV", "rrrs"], 0x14: ["REM", "rrrs"],
    0x18: ["CAT", "rrrs"], 0x19: ["LEN", "rr"], 0x1a: ["SHOW", "rr"], 0x1b: ["READI", "rrs"],
    0x20: ["JMP", "s"], 0x21: ["JEQ", "rrs"], 0x22: ["JLT", "rrs"], 0x23: ["REPEAT", "c"], 0x24: ["END", ""], 0x2b: ["LAST", ""],
    0x30: ["NEW", "rry"], 0x31: ["STORE", "rr"], 0x32: ["GET", "rr"], 0x33: ["INS", "rrrs"], 0x34: ["LOOK", "rrrs"],
    0x35: ["SIZE", "rr"], 0x36: ["SUBAT", "rrrs"], 0x37: ["DUPR", "rr"], 0x38: ["DUPW", "rr"], 0x39: ["DROPR", "r"], 0x3a: ["DROPW", "r"],
    0x40: ["RULE", "pnga"], 0x41: ["PUT", "pnga"], 0x42: ["RET", ""],
    0x50: ["TINS", "rrrs"], 0x51: ["TLOOK", "rrrs"], 0x52: ["TSUBAT", "rrrs"], 0x53: ["RULEV", "prga"], 0x54: ["PUTV", "prga"],
    0x60: ["MINS", "rrrs"], 0x61: ["MGET", "rrrs"], 0x62: ["MADD", "rrr"],
    0x70: ["BYTE", "rrrs"], 0x71: ["SLICE", "rrrrs"], 0x72: ["FIND", "rrrrs"], 0x73: ["SPAN", "rrrrs"], 0x74: ["UNTIL", "rrrrs"], 0x75: ["MULDIV", "rrrrs"],
    0x76: ["AND", "rrrs"], 0x77: ["OR", "rrrs"], 0x78: ["XOR", "rrrs"], 0x79: ["SHL", "rrrs"], 0x7a: ["SHR", "rrrs"], 0x7b: ["WMUL", "rrrs"], 0x7c: ["WADD", "rrrs"],
    0x7d: ["JTLT", "rrs"],
};
/** The instructions that may skip. */
export const SKIPS = new Set(Object.values(CODES).filter(([, letters]) => letters.endsWith("s")).map(([name]) => name));

/** Reads bytes from the left. */
class Reader {
    /** @param {Uint8Array} bytes */
    constructor(bytes) { this.bytes = bytes; this.view = new DataView(bytes.buffer, bytes.byteOffset); this.at = 0; }
    byte() { return this.bytes[this.at++]; }
    two() { this.at += 2; return this.view.getUint16(this.at - 2); }
    eight() { this.at += 8; return this.view.getBigInt64(this.at - 8); }
    text() { const length = this.two(); this.at += length; return textOf(this.bytes.subarray(this.at - length, this.at)); }
    /** @returns {Type} */
    type() {
        const word = WORDS[this.byte()];
        return word.endsWith("cont") ? `${word} ${this.type()}` : word.endsWith("map") ? `${word} ${ENTRIES[this.byte()]}` : word;
    }
    /** Reads as many items as a byte says.
     * @template T @param {() => T} item @returns {T[]} */
    list(item) { return Array.from({length: this.byte()}, item); }
    /** @param {string} letter @returns {Operand} */
    operand(letter) {
        switch (letter) {
            case "n": return this.eight();
            case "t": return this.text();
            case "s": case "c": return this.two();
            case "y": return this.type();
            case "g": { const target = this.byte(); return target ? target - 1 : null; }
            case "a": return this.list(() => this.byte());
            default: return this.byte();
        }
    }
    /** @returns {Instruction} */
    instruction() {
        const [name, letters] = CODES[this.byte()];
        return {name, operands: [...letters].map(letter => this.operand(letter))};
    }
    /** @returns {Procedure} */
    procedure() {
        const kind = this.byte() ? "leaf" : "control";
        const params = this.list(() => ({mode: MODES[this.byte()], type: this.type()}));
        const regs = this.list(() => this.type());
        return {kind, params, regs, code: Array.from({length: this.two()}, () => this.instruction())};
    }
}

/** Returns the procedures of a program that is given as hex text.
 * @param {string} hex @returns {Procedure[]} */
export function decode(hex) {
    const digits = hex.replace(/\s/g, "").match(/../g) ?? [];
    const reader = new Reader(Uint8Array.from(digits, pair => parseInt(pair, 16)));
    reader.at = 4;
    return reader.list(() => reader.procedure());
}
