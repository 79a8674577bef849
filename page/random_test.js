// SPDX-License-Identifier: Apache-2.0
// Compares the page's machine with the library on traces of random programs (tools/fuzz makes them), in turn and in other orders:
// random_test.js MODULE.wasm COUNT [SEED]. After a trace, and after a part of it, both have to report the same; steps back have to lead to the states
// that are reached from the start. Ends with `N passed, 0 failed`.
import {spawn} from "node:child_process";
import path from "node:path";
import readline from "node:readline";
import {isDeepStrictEqual} from "node:util";
import {copyOf, open, report, step} from "./machine.js";
import {begin} from "./module.js";
import {decode} from "./program.js";
import {readTrace} from "./replies.js";
import {Run} from "./run.js";
import {readInput} from "./values.js";

const [module, count, seed = "1"] = process.argv.slice(2), session = await begin(module), folder = path.dirname(new URL(import.meta.url).pathname);
let passed = 0, failed = 0, events = 0, walked = 0;
const kinds = new Map(), plain = text => text.replace(/^(waits|rule) .*\n/gm, "");

// Compares the machines after some events of a trace.
function compare(what, {hex, words, layout}, lines, options) {
    const program = decode(hex), state = open(program, words.map(readInput), layout[1]), wanted = plain(session(["replay", ...options, ...words], `${hex}\nevents\n${lines.map(it => `${it}\n`).join("")}end\n`).text);
    for (const line of lines) step(state, program, line);
    if (report(state) === wanted) { passed++; return; }
    failed++;
    console.log("FAILED", what, JSON.stringify(report(state)), JSON.stringify(wanted));
}

// Makes steps back in a run, and now and then by one on or by a jump, and compares each state with the one that is reached from the start.
function walk(what, {number, hex, words, layout: [engines, servers, workers]}, lines) {
    const setting = {program: decode(hex), source: {heads: [0]}, names: [], inputs: words.map(readInput), engines, servers, workers};
    const run = new Run(setting, 4).follow(lines.map(it => `${it}\n`).join("")), state = open(setting.program, setting.inputs, servers), places = [lines.length], states = new Map();
    for (let k = 1; k < 24; k++) places.push(k % 12 ? Math.max(0, Math.min(lines.length, places[k - 1] + (k % 5 ? -1 : 1))) : number * 7919 % (lines.length + 1));
    for (let k = 0; k <= lines.length; k++) {
        if (k) step(state, setting.program, lines[k - 1]);
        if (places.includes(k)) states.set(k, copyOf(state));
    }
    const wrong = places.find(it => !isDeepStrictEqual({...run.at(it), undo: null}, states.get(it)));
    if (wrong !== undefined) { failed++; console.log("FAILED", what, "another state by a step back to event", wrong); return; }
    walked++;
}

// Makes runs of a program, in turn and in two orders, and compares the machines.
function tryRun(it) {
    if (it.words.some(word => /[\0\n]/.test(word))) return;
    const options = ["--engines", "--servers", "--workers"].flatMap((name, k) => [name, String(it.layout[k])]);
    for (const order of [[], ["--in-turn", "--seed", String(it.number + 1)], ["--in-turn", "--seed", String(it.number + 1000000)]]) {
        const {text} = session(["run", "--trace", "--limit", "400", ...order, ...options, ...it.words], it.hex), {trace, report: end} = readTrace(text), lines = trace.split("\n").slice(0, -1);
        if (!lines.length) { kinds.set("not run", (kinds.get("not run") ?? 0) + 1); return; }
        for (const line of lines) kinds.set(line.split(" ")[0], (kinds.get(line.split(" ")[0]) ?? 0) + 1);
        events += lines.length;
        compare(`program ${it.number} ${order.join(" ")}`, it, lines, options);
        compare(`program ${it.number} ${order.join(" ")} in part`, it, lines.slice(0, (it.number * 7919) % (lines.length + 1)), options);
        walk(`program ${it.number} ${order.join(" ")}`, it, lines);
        if (!/^(quiet|stuck \d+|limit)$/m.test(end)) { failed++; console.log("FAILED", it.number, "has no end", end); }
    }
}

const maker = spawn("python3", ["-B", `${folder}/random_runs.py`, seed, count], {stdio: ["ignore", "pipe", "inherit"]});
let made = 0;
for await (const line of readline.createInterface({input: maker.stdout})) { tryRun(JSON.parse(line)); made++; }
if (made !== +count) { failed++; console.log("FAILED", made, "programs of", count); }
console.log(`${made} programs, ${passed / 2} traces of ${events} events, ${walked} walked back: ${[...kinds].map(([kind, times]) => `${kind} ${times}`).join(", ")}`);
console.log(`${passed} passed, ${failed} failed`);
process.exitCode = failed ? 1 : 0;
