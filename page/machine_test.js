// SPDX-License-Identifier: Apache-2.0
// Compares the page's machine with the library: machine_test.js MODULE.wasm PAGE_FOLDER EXAMPLES. Each example runs with its own layout and with
// others, and every prefix of its events must lead to the report that the library's replay writes. It ends with `N passed, 0 failed`.
import fs from "node:fs";
import {dearestWalk, mostEvents} from "./bounds.js";
import {diagramOf} from "./diagram.js";
import {followInParts} from "./follower.js";
import {open, report, step} from "./machine.js";
import {viewOf} from "./model.js";
import {begin} from "./module.js";
import {decode} from "./program.js";
import {readPlaces, readTrace, readVerdict} from "./replies.js";
import {Run} from "./run.js";
import {namings, scan, wordsOf} from "./source.js";
import {inputFault, normal, openingFault, readInput} from "./values.js";

const [module, folder, examplesFolder] = process.argv.slice(2);
const session = await begin(module);
const groups = JSON.parse(fs.readFileSync(`${folder}/examples.json`, "utf8"));
let passed = 0, failed = 0;
const say = (is, ...what) => { if (is) passed++; else { failed++; console.log("FAILED", ...what); } };

// Returns a report without the rules of a deadlock, as the page's machine writes it.
const plain = text => text.replace(/^(waits|rule) .*\n/gm, "");

// Follows a run, and compares every prefix.
async function compare(name, text, words, [engines, servers, workers]) {
    const options = ["--engines", engines, "--servers", servers, "--workers", workers].map(String), limit = ["--limit", "1000"];
    const {text: answer} = session(["run", "--text", "--trace", ...limit, ...options, ...words], text), {trace} = readTrace(answer), events = trace.split("\n").slice(0, -1);
    say(events.length > 0, name, "has no events", answer.slice(0, 200));
    const expanded = session(["asm", "--names", "--plain"], text).text, source = scan(text, expanded), program = decode(session(["asm", "--names"], text).text), names = namings(source, expanded);
    const setting = {program, source, names, inputs: words.map(readInput), engines, servers, workers}, run = new Run(setting).follow(trace);
    const state = open(program, setting.inputs, servers);
    sameInParts(name, setting, run, trace);
    const views = [], viewed = k => JSON.stringify([viewOf(run, run.at(k), k, new Map()), diagramOf(run, run.at(k))]);
    for (let k = 0; k <= events.length; k++) {
        if (k) delivered(name, state, events[k - 1]);
        if (k) step(state, program, events[k - 1]);
        const wanted = session(["replay", "--text", ...options, ...words], `${text}\nevents\n${events.slice(0, k).join("\n")}\nend\n`).text;
        say(report(state) === plain(wanted), name, "event", k, JSON.stringify(report(state)), JSON.stringify(wanted));
        if (k % 7 === 0) { say(report(run.at(k)) === report(state), name, "another state at", k); views.push(viewed(k)); }
    }
    for (let k = events.length; k >= 0; k--) say(k % 7 ? run.at(k) : viewed(k) === views[k / 7], name, "another view by a step back to", k);
    const places = readPlaces(session(["check", "--text", "--places"], text).text, source), verdict = readVerdict(session(["check", "--text", "--order"], text).text, source);
    say(verdict.order && (verdict.order.same || /\b(T?INS|MINS)\b/.test(source.text[verdict.order.line])), name, "another order", verdict.order);
    say(verdict.accepted && verdict.budgets.length === program.length, name, "verdict", verdict);
    say(source.places.every((code, k) => code.length === program[k].code.length), name, "lines of places", source.places.map(it => it.length));
    say(verdict.budgets.every(({budget, procedure}) => dearestWalk(program[procedure].code, () => 1n) === BigInt(budget)), name, "other budgets", verdict.budgets);
    say(events.length <= Number(mostEvents(program)), name, "more events than bounded", events.length, mostEvents(program));
    heldRights(name, run, places);
    if (report(state).endsWith("quiet\n")) left(name, state);
}

// Checks that a run that is sent in parts has the same events and states, and that each event is the trace's line.
function sameInParts(name, setting, run, trace) {
    const other = new Run(setting);
    followInParts(setting, trace, ({chunk, kept}) => { other.track.append(structuredClone(chunk)); for (const it of kept) other.keeper.keep(it); }, 7, 11);
    const lines = trace.split("\n");
    say(other.length === run.length && run.length === lines.length - 1, name, "another number of events", other.length, run.length);
    for (let k = 1; k <= run.length; k++) {
        say(JSON.stringify(other.event(k)) === JSON.stringify(run.event(k)), name, "in parts another event", k);
        say(run.track.line(k) === lines[k - 1], name, "another line", k, run.track.line(k), lines[k - 1]);
    }
    for (const k of [run.length, run.length >> 1, 0, run.length >> 2]) say(report(other.at(k)) === report(run.at(k)), name, "in parts another state after", k);
}

// Checks the bounds of a run that can be counted by hand, and of one without a bound.
function bounds() {
    const of = text => mostEvents(decode(session(["asm"], text).text)), leaf = "proc leaf closed int write int\nregs int\nDROPR d0\nSTORE d1 v0\nRET\n";
    // Take, twice REPEAT's turn of NEW, STORE, NEW, RULE, DROPR and END; RULE: one Ask, one Deliver, Release, Take, three instructions; REPEAT and RET.
    const text = `proc control\nregs int\nREPEAT 2\nNEW d0 d1 int\nSTORE d0 v0\nNEW d0 d2 int\nRULE 1 0 any 1 0\nDROPR d2\nEND\nRET\n${leaf}`;
    say(of(text) === BigInt(1 + 2 * (6 + 1 + 1 + 1 + 1 + 3) + 2), "a bound", of(text));
    say(of("proc control\nregs\nPUT 1 0 any\nRET\nproc control\nregs\nPUT 1 0 any\nRET\n") === null, "a bound of a cycle");
}

// Checks that a frame's registers hold data exactly where the verifier lists rights.
function heldRights(name, run, places) {
    for (let k = 0; k <= run.length; k++)
        for (const frame of run.at(k).frames.values()) {
            const line = run.setting.source.places[frame.procedure][frame.place], full = frame.rights.flatMap((id, register) => id ? [`d${register}`] : []);
            say(String(full) === String((places.get(line) ?? []).map(([register]) => register)), name, "rights at event", k, "line", line + 1, full, places.get(line));
        }
}

// Checks that a notice is delivered by the server that has it.
function delivered(name, state, event) {
    const [kind, actor, ...numbers] = event.split(" "), [datum, rule, param] = numbers.map(Number);
    if (kind !== "deliver") return;
    const notice = state.notices.get(16 * rule + param);
    say(notice && notice.datum === datum && `s${notice.server}` === actor, name, event, "is a notice of another server", notice);
}

// Checks that at the end of a run that is quiet only outputs and their members are left, for which nothing waits: all other data are freed.
function left(name, state) {
    const kept = new Set(state.outputs), live = [...state.data.values()];
    for (const datum of live) if (kept.has(datum.id)) for (const id of datum.members?.values() ?? []) kept.add(id);
    say(live.every(({id, waiters}) => kept.has(id) && !waiters.length), name, "data that nobody can use", live.map(({id}) => id), [...kept]);
}

// Programs with what no example has: texts that aren't ASCII, a freed container with members, numbers that READI doesn't take, priorities,
// a stored register, and (of two workers) a better task for another worker.
const MORE = [
    ["texts", 'version 2\nproc control write tcont text write text write int\nregs text text int\nTEXT v0 "\\x41é\\n\\"\\\\"\nTEXT v1 "ﬀ😀"\nNEW d3 d4 text\nSTORE d3 v0\nTINS d0 v1 d4 a\nJMP b\na:\nDROPR d4\nb:\nNEW d3 d4 text\nSTORE d3 v1\nTINS d0 v0 d4 c\nJMP d\nc:\nDROPR d4\nd:\nCAT v0 v0 v1 e\ne:\nLEN v2 v0\nDROPW d0\nSTORE d1 v0\nSTORE d2 v2\nRET\n', []],
    ["freed", "proc control write int\nregs int\nNEW d1 d2 cont int\nNEW d3 d4 int\nSTORE d3 v0\nINS d1 v0 d4 a\nJMP b\na:\nDROPR d4\nb:\nDROPW d1\nDROPR d2\nNEW d1 d2 int\nDROPR d2\nSTORE d1 v0\nSTORE d0 v0\nRET\n", []],
    ["arithmetic", "proc control write int\nregs int int int\nINT v0 -9\nINT v1 4\nDIV v2 v0 v1 a\na:\nREM v2 v0 v1 b\nb:\nINT v1 9223372036854775807\nADD v2 v1 v1 c\nMUL v2 v1 v1 c\nSUB v2 v0 v1 c\nINT v2 5\nc:\nREPEAT 3\nADD v2 v2 v0 d\nd:\nREPEAT 2\nJLT v2 v0 e\nADD v2 v2 v2 e\ne:\nEND\nEND\nSTORE d0 v2\nRET\n", []],
    ["priorities", "proc control write int write int write int\nregs int\nPUT 1 -1 any 0\nPUT 1 5 any 1\nPUT 1 5 0 2\nRET\nproc leaf write int\nregs int\nSTORE d0 v0\nRET\n", []],
    ["subscripts", 'version 2\nproc control write tcont int\nregs text int\nTEXT v0 "b\\x1f"\nNEW d1 d2 int\nSTORE d1 v1\nTINS d0 v0 d2 a\nJMP b\na:\nDROPR d2\nb:\nTEXT v0 "aa"\nNEW d1 d2 int\nSTORE d1 v1\nTINS d0 v0 d2 c\nJMP d\nc:\nDROPR d2\nd:\nDROPW d0\nRET\n', []],
    ["numbers", 'proc control write int\nregs int text\nINT v0 3\nTEXT v1 "007"\nREADI v0 v1 a\nINT v0 8\na:\nTEXT v1 "-0"\nREADI v0 v1 b\nINT v0 9\nb:\nSTORE d0 v0\nRET\n', []],
];
const FOR_TWO = "proc control write int write int\nregs\nPUT 1 0 any\nPUT 1 0 any\nPUT 2 9 1 0\nPUT 2 0 any 1\nRET\nproc leaf\nregs\nREPEAT 5\nNEW d0 d1 cont int\nDROPW d0\nDROPR d1\nEND\nRET\nproc leaf write int\nregs int\nSTORE d0 v0\nRET\n";
// Worker 1 ends its first task before worker 0, while a task for worker 0 alone waits.
const FOR_ONE = FOR_TWO.replace("PUT 1 0 any\nPUT 2 9 1", "PUT 3 0 any\nPUT 2 9 0") + "proc leaf\nregs\nNEW d0 d1 cont int\nDROPW d0\nDROPR d1\nRET\n";

// Checks that the page and the program accept the same input words.
function words() {
    const echo = 'proc control ref int write int\nregs int\nDROPR d0\nSTORE d1 v0\nRET\n';
    for (const word of ["int:7", "int:-0", "int:007", "int:9223372036854775808", "int:-9223372036854775808", "int:", "int: 7", "int:+7", "7", "Int:7", "text:", "ints:", "ints:1=2", "ints:1=2,", "ints:,", "ints:1=2,3", "ints:1=2 ,3=4", "tints:a=1", 'tints:"a"=1', 'texts:1="a,b",2="\\x41"', 'texts:1="a\\q"', 'texts:1="\\x80"', 'ttexts:"a"="b"', 'ttexts:"a"=1', 'texts:1="a']) {
        const refused = /^input word 1 refused/.test(session(["run", "--text", word], echo).text);
        say((readInput(word) === null) === refused && !!inputFault(word) === refused, "input word", word, readInput(word), refused);
    }
}

// Checks that the example of each instruction is accepted, has the instruction, and runs to its end.
async function lessons() {
    const parts = fs.readFileSync(`${folder}/lessons.txt`, "utf8").split("\n== ").slice(1);
    for (const part of parts) {
        const [head, ...lines] = part.split("\n"), [names, inputs = ""] = head.split(" | ");
        for (const name of names.split(" ")) {
            const text = lines.filter(it => !it.startsWith(": ")).join("\n").replaceAll("@", name), verdict = session(["check", "--text"], text).text;
            say(verdict.startsWith("accepted") && new RegExp(`^${name}\\b`, "m").test(text), "the example of", name, verdict);
            await compare(`the example of ${name}`, text, inputs.split(" ").filter(it => it), [1, 1, 1]);
            say(session(["run", "--text", ...inputs.split(" ").filter(it => it)], text).text.endsWith("quiet\n"), "the example of", name, "doesn't end");
        }
    }
}

// Checks that runs in other orders are runs of the library's machine, that they end, and that the outputs are those in turn: no example depends on the order.
async function orders() {
    let several = 0, single = 0;
    for (const it of groups.flatMap(group => group.examples).filter(it => !it.ends.startsWith("refused"))) {
        const path = [`${examplesFolder}/${it.name}.twn`, `${examplesFolder}/${it.name}.tw`, `${folder}/${it.name}.twn`].find(path => fs.existsSync(path)), text = fs.readFileSync(path, "utf8");
        const traces = new Set(), words = it.inputs ?? [], servers = 2, options = ["--engines", "2", "--servers", "2", "--workers", "3"];
        const program = decode(session(["asm", "--names"], text).text), inTurn = plain(session(["run", "--text", ...options, ...words], text).text);
        for (let seed = 1; seed <= 5; seed++) {
            const {trace, report: said} = readTrace(session(["run", "--text", "--trace", "--in-turn", "--seed", String(seed), ...options, ...words], text).text);
            const state = open(program, words.map(readInput), servers);
            for (const event of trace.split("\n").slice(0, -1)) step(state, program, event);
            say(plain(said) === inTurn && report(state) === inTurn, it.name, "order", seed, said, report(state), inTurn);
            traces.add(trace);
        }
        if (traces.size > 1) several++; else single++;
    }
    say(several > 10, "few examples have several orders", several, single);
    const race = session(["replay", "--text", "--workers", "2"], `${RACE}\nevents\n`).text, outputs = new Set();
    say(race.includes("running"), "the race", race);
    for (let seed = 1; seed <= 120; seed++) {
        outputs.add(session(["run", "--text", "--workers", "2", "--in-turn", "--seed", String(seed)], RACE).text);
    }
    say(outputs.size === 2, "a race for a subscript has", outputs.size, "outcomes");
}
// Two tasks insert at one subscript, each its own member.
const RACE = "proc control write cont int\nregs int int\nINT v1 1\nDUPW d1 d0\nPUT 1 0 any 1 0\nPUT 1 0 any 0 1\nRET\nproc leaf write cont int val int\nregs int int\nNEW d1 d2 int\nSTORE d1 v0\nINS d0 v1 d2 a\nJMP b\na:\nDROPR d2\nb:\nDROPW d0\nRET\n";

// Checks what is done with inputs that phones and habits spoil, and what the opening refuses.
function normals() {
    const is = [["int: 7 ", "int:7"], ["ints:1=7, 2=-3", "ints:1=7,2=-3"], ["texts:1=\u201ca b\u201d , 2=\u201cc\u201d", 'texts:1="a b",2="c"'], ['texts:1="a, \u201cb\u201d"', 'texts:1="a, \u201cb\u201d"'], ["text: a  b ", "text: a  b "], ['tints:"a b" = 1', 'tints:"a b"=1']];
    for (const [word, wanted] of is) say(normal(word) === wanted, "normal", word, normal(word));
    const echo = type => `version 2\nproc control ref ${type} write int\nregs int\nDROPR d0\nSTORE d1 v0\nRET\n`, many = Array.from({length: 1001}, (_, k) => `${k}=1`);
    const types = {int: "int", text: "text", ints: "cont int", texts: "cont text", tints: "tcont int", ttexts: "tcont text"};
    for (const word of ["ints:2=1,1=2", "ints:1=1,1=2", "ints:-1=1,0=1,5=1", 'tints:"b"=1,"a"=1', 'tints:"a"=1,"a"=2', 'tints:"Z"=1,"a"=1', `text:${"x".repeat(4096)}`, `text:${"é".repeat(2049)}`, `texts:1="${"x".repeat(4097)}"`, `tints:"${"x".repeat(4097)}"=1`, `ints:${many.join(",")}`, `ints:${many.slice(1).join(",")}`, 'texts:1="a=b",2="c=d"']) {
        const refused = /^refused O02/.test(session(["run", "--text", word], echo(types[/^\w+/.exec(word)[0]])).text);
        say(!!openingFault(word) === refused, "opening", word.slice(0, 40), openingFault(word), refused);
    }
}

// Checks that the words of a comment are none of the text's.
function comments() {
    const source = scan('proc control ; main\nregs ; n: int\nTEXT v0 "a;b" ; c\n; RET\nRET\n');
    say(source.names[0] === "" && String(source.places[0]) === "2,4", "a text with comments", source.names, source.places);
    say(String(wordsOf(source.text[2]).map(({word}) => word)) === 'TEXT,v0,"a;b"', "words", wordsOf(source.text[2]));
}

for (const it of groups.flatMap(group => group.examples)) {
    if (it.ends.startsWith("refused")) continue;
    for (const path of [`${examplesFolder}/${it.name}.tw`, `${examplesFolder}/${it.name}.twn`, `${folder}/${it.name}.twn`].filter(path => fs.existsSync(path)))
        for (const layout of [[it.engines ?? 1, it.servers ?? 1, it.workers ?? 1], [2, 2, 3], [4, 3, 16]]) await compare(path, fs.readFileSync(path, "utf8"), it.inputs ?? [], layout);
}
for (const [name, text, inputs] of MORE) for (const layout of [[1, 1, 1], [2, 2, 2]]) await compare(name, text, inputs, layout);
await compare("targets", FOR_TWO, [], [1, 1, 2]);
await compare("a target", FOR_ONE, [], [1, 1, 2]);
await lessons();
await orders();
words();
normals();
comments();
bounds();
console.log(`${passed} passed, ${failed} failed`);
process.exitCode = failed ? 1 : 0;
