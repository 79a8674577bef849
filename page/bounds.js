// @ts-check
// SPDX-License-Identifier: Apache-2.0
// Bounds the events of a run of an accepted program: its dearest walk, where RULE and PUT cost what they start too.
import {SKIPS} from "./program.js";

/** @typedef {import("./program.js").Procedure} Procedure */
/** @typedef {import("./program.js").Instruction} Instruction */

/** Returns the place of the END of each REPEAT.
 * @param {Instruction[]} code */
function endsOf(code) {
    /** @type {number[]} */
    const open = [], ends = new Map();
    code.forEach(({name}, place) => {
        if (name === "REPEAT") open.push(place);
        if (name === "END") ends.set(open.pop(), place);
    });
    return ends;
}

/** Returns the cost of the dearest walk through a procedure. From the last place to the first, the cost of each place is that of the
 * dearest walk from there to the END of its loop, or to a RET.
 * @param {Instruction[]} code @param {(instruction: Instruction) => bigint} price */
export function dearestWalk(code, price) {
    const ends = endsOf(code);
    /** @type {bigint[]} */
    const costs = Array(code.length + 1).fill(0n);
    for (let place = code.length - 1; place >= 0; place--) {
        const {name, operands} = code[place], next = costs[place + 1], skipped = costs[place + 1 + Number(operands[operands.length - 1])] ?? 0n;
        let rest = next;
        if (name === "RET" || name === "END") rest = 0n;
        else if (name === "JMP") rest = skipped;
        else if (name === "REPEAT") rest = BigInt(operands[0]) * next + costs[ends.get(place) + 1];
        else if (SKIPS.has(name)) rest = next > skipped ? next : skipped;
        costs[place] = price(code[place]) + rest;
    }
    return costs[0];
}

/** Thrown if procedures start one another in a cycle. */
class Endless extends Error {}

/** Returns how many events a run has at most; null if procedures start one another in a cycle, so that there is no bound.
 * @param {Procedure[]} program */
export function mostEvents(program) {
    /** The bounds of tasks, their Take included; null while one is computed.
     * @type {Map<number, bigint | null>} */
    const known = new Map();
    const task = (/** @type {number} */ procedure) => {
        if (known.get(procedure) === null) throw new Endless();
        if (!known.has(procedure)) {
            known.set(procedure, null);
            known.set(procedure, 1n + dearestWalk(program[procedure].code, price));
        }
        return /** @type {bigint} */ (known.get(procedure));
    };
    /** A RULE costs itself, an Ask and a Deliver for each `closed` parameter, and a Release.
     * @param {Instruction} instruction @returns {bigint} */
    const price = ({name, operands}) => {
        if (!/^(RULE|PUT)/.test(name)) return 1n;
        const waits = program[operands[0]].params.filter(({mode}) => mode === "closed").length;
        return 1n + (name.startsWith("RULE") ? BigInt(2 * waits + 1) : 0n) + task(operands[0]);
    };
    try {
        return task(0);
    } catch (error) {
        if (error instanceof Endless) return null;
        throw error;
    }
}
