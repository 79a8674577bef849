// @ts-check
// SPDX-License-Identifier: Apache-2.0
// Describes a step: its event in a sentence, and the state after it in rows.
import {count, firstTasks, isClosed, jumps, lines, rising, standing, subscripts, waiting} from "./machine.js";
import {callName, nameAt, uncommented} from "./source.js";
import {shown} from "./values.js";

/** @typedef {import("./run.js").Run} Run */
/** @typedef {import("./run.js").Event} Event */
/** @typedef {import("./machine.js").State} State */
/** @typedef {import("./machine.js").Datum} Datum */
/** @typedef {import("./machine.js").Frame} Frame */
/** @typedef {import("./machine.js").Task} Task */
/** @typedef {import("./values.js").Scalar} Scalar */
/** A row: its key, its cells, its datum and its line.
 * @typedef {{key: string, cells: string[], datum?: number, line?: number, changed?: boolean, gone?: boolean}} Row */
/** An actor that runs a task.
 * @typedef {{actor: string, title: string, line: number, next: string, values: Row[], rights: Row[], spent: string}} Running */
/** The first rows of a table, and how many there are in all.
 * @typedef {{rows: Row[], all: number}} Table */
/** @typedef {{running: Running[], idle: string[], rules: Table, control: Table, leaf: Table, notices: Table, data: Table, outputs: string, refused: string[]}} View */

/** The rows of a table that are made; a few more than are shown, so that a row that moves up isn't taken for a new one. */
const MADE = 160;
/** The members of a container, or the values of a map, that are shown. */
const MEMBERS = 12;

/** Returns the first of a state's things, as rows.
 * @template T @param {Map<number, T>} things @param {(it: T) => Row} row @returns {Table} */
const firstRows = (things, row) => ({rows: rising(things, MADE).map(row), all: things.size});

const KINDS = /** @type {Record<string, string>} */ ({e: "engine", s: "server", w: "worker"});
/** Returns an actor in words, as `worker 1`.
 * @param {string} actor */
export const actorName = actor => `${KINDS[actor[0]]} ${actor.slice(1)}`;

/** Returns what a datum is called in a run.
 * @param {Run} run @param {number} id */
export const dataName = (run, id) => run.label(id) ? `${run.label(id)} (datum ${id})` : `datum ${id}`;

/** Returns the statement of a line, without its comment.
 * @param {Run} run @param {number} line */
const statement = (run, line) => uncommented(run.setting.source.text[line] ?? "").trim();

/** The values of an instruction on data, as far as they are known: its subscript, what it takes or gives, and what is at the subscript then.
 * @typedef {{key?: Scalar, value?: Scalar, now?: Scalar}} Told */
/** @param {Scalar | undefined} value @param {string} before @param {string} without what is said if the value isn't known */
const said = (value, before = "", without = "") => value === undefined ? without : `${before}${shown(value)}`;

/** A description of each instruction on data.
 * @type {Record<string, (data: string[], event: Event, told: Told) => string>} */
const DID = {
    NEW: ([it]) => `makes ${it}, with a right to write it and one to read it`,
    STORE: ([it], _, {value}) => `stores ${said(value, "", "a value")} in ${it}, which closes it`,
    GET: ([it], _, {value}) => `reads ${it}${said(value, " = ")}`,
    INS: ([into, member], {refused}, {key}) => refused ? `finds the subscript${said(key, " ")} taken in ${into}, and skips` : `puts ${member} into ${into}${said(key, " at ")}`,
    LOOK: ([from, member], {refused}, {key}) => refused ? `finds no such subscript in ${from}${said(key, ": ")}, and skips` : `finds ${member} in ${from}${said(key, " at ")}, and gets a right to read it`,
    MINS: ([into], {refused}, {key, value}) => refused ? `finds the subscript${said(key, " ")} taken in ${into}, and skips` : `puts ${said(value, "", "a value")} into ${into}${said(key, " at ")}`,
    MADD: ([into], _, {key, value, now}) => value === undefined ? `adds to a value of ${into}` : `adds ${shown(value)} to ${into}${said(key, " at ")}${said(now, ", now ")}`,
    MGET: ([from], {refused}, {key, value}) => refused ? `finds no such subscript in ${from}${said(key, ": ")}, and skips` : `reads ${said(key, "", "a value of ")}${key === undefined ? "" : " of "}${from}${said(value, " = ")}`,
    SIZE: ([it], _, {value}) => `counts the members or values of ${it}${said(value, ": ")}`,
    SUBAT: ([it], {refused}, {value}) => refused ? `finds no further subscript in ${it}, and skips` : `reads a subscript of ${it}${said(value, ": ")}`,
    DUPR: ([it]) => `copies its right to read ${it}`,
    DUPW: ([it]) => `copies its right to write ${it}`,
    DROPR: ([it]) => `gives up its right to read ${it}`,
    DROPW: ([it]) => `gives up a right to write ${it}`,
};
/** Which operand of an instruction on data is the register of its subscript, of the value that it takes, and of the one that it gives.
 * @type {Record<string, number>} */
const KEYS = {INS: 1, MINS: 1, MADD: 1, LOOK: 2, MGET: 2};
/** @type {Record<string, number>} */
const TAKES = {STORE: 1, MINS: 2, MADD: 2};
/** @type {Record<string, number>} */
const GIVES = {GET: 0, MGET: 0, SIZE: 0, SUBAT: 0};

/** Returns the name of an instruction on data; of those with texts as subscripts, that of the others.
 * @param {string} name */
const plainName = name => name.replace(/^T(INS|LOOK|SUBAT)$/, "$1");

/** Returns the values of an event.
 * @param {Run} run @param {Event} event @param {Scalar[]} before the value registers before it @param {State} state the state after it @returns {Told} */
export function toldOf(run, event, before, state) {
    if (event.kind !== "call") return {};
    const {name: full, operands} = run.setting.program[event.procedure].code[event.places[0]], name = plainName(full);
    const after = state.frames.get(event.actor)?.values ?? [], key = name in KEYS ? before[operands[KEYS[name]]] : undefined;
    const value = name in TAKES ? before[operands[TAKES[name]]] : name in GIVES && !event.refused ? after[operands[GIVES[name]]] : undefined;
    return {key, value, now: key === undefined ? undefined : state.data.get(event.data[0])?.entries?.get(key)};
}

/** Returns what an event does, in a sentence.
 * @param {Run} run @param {Event} event @param {Told} [told] its values */
export function sentence(run, event, told = {}) {
    const words = describe(run, event, told);
    return words[0].toUpperCase() + words.slice(1);
}

/** @param {Run} run @param {Event} event @param {Told} told */
function describe(run, event, told) {
    const {source, program} = run.setting, who = actorName(event.actor), data = event.data.map(id => dataName(run, id)), called = callName(source, event.procedure);
    switch (event.kind) {
        case "take": return `${who} takes task ${event.task}: ${called}`;
        case "end": return `${who} ends task ${event.task}, ${called}`;
        case "local": return `${who} computes: ${event.count > 1 ? `${event.count} instructions` : statement(run, event.lines[0])}${event.refused && event.count === 1 ? ", which has no result, and skips" : ""}`;
        case "ask": return `${who} asks for rule ${event.rule} whether ${data[0]} is closed: ${event.refused ? "not yet, so the rule waits" : "it is"}`;
        case "deliver": return `${who} notifies rule ${event.rule} that ${data[0]} is closed`;
        case "release": return `${who} turns rule ${event.rule} into task ${event.made}: ${called} may begin`;
    }
    const {name, operands} = program[event.procedure].code[event.places[0]];
    if (event.makes === "rule") return `${who} makes rule ${event.made}: ${callName(source, operands[0])} begins when what it waits for is closed`;
    if (event.makes === "task") return `${who} puts task ${event.made}: ${callName(source, operands[0])}`;
    return `${who} ${DID[plainName(name)]?.(data, event, told) ?? name}`;
}

/** Returns how often a step executed each local instruction, in words; empty for one alone.
 * @param {Map<string, number> | null} counts */
export const tallied = counts => counts ? [...counts].sort(([, one], [, other]) => other - one).map(([name, count]) => `${count} ${name}`).join(", ") : "";

/** Returns a datum's content in words.
 * @param {Datum} datum */
export function content(datum) {
    if (!datum.members && !datum.entries) return datum.value === null ? "not yet written" : shown(datum.value);
    const held = (/** @type {Scalar} */ key) => datum.entries ? shown(/** @type {Scalar} */ (datum.entries.get(key))) : datum.members?.get(key);
    const some = subscripts(datum, MEMBERS).map(key => `${shown(key)} → ${held(key)}`).join(", "), size = count(datum), what = datum.entries ? "value" : "member";
    return size ? `${size} ${what}${size > 1 ? "s" : ""}: ${some}${size > MEMBERS ? ", .." : ""}` : `no ${what}s`;
}

/** Returns what an argument is called.
 * @param {Run} run @param {import("./machine.js").Argument} argument */
export const argumentName = (run, argument) => "value" in argument ? shown(argument.value) : run.label(argument.datum) || `datum ${argument.datum}`;

/** Returns a call in words, as `square(3, squares)`.
 * @param {Run} run @param {Task} task */
const callOf = (run, task) => `${callName(run.setting.source, task.procedure)}(${task.args.map(it => argumentName(run, it)).join(", ")})`;

/** Returns the rows of a frame's registers.
 * @param {Run} run @param {string} actor @param {Frame} frame @param {Map<number, [string, string][]>} places @returns {Running} */
function runningOf(run, actor, frame, places) {
    const {source, names, program} = run.setting, {procedure, place} = frame, line = source.places[procedure][place] ?? -1;
    const named = (/** @type {string} */ register) => nameAt(names, procedure, line, register), held = new Map(places.get(line) ?? []);
    const values = frame.values.map((value, k) => ({key: `${actor} v${k}`, cells: [named(`v${k}`), program[procedure].regs[k], shown(value)]}));
    const rights = frame.rights.flatMap((id, k) => id ? [{key: `${actor} d${k}`, datum: id, cells: [named(`d${k}`), held.get(`d${k}`) ?? "right", dataName(run, id)]}] : []);
    const loops = frame.loops.length ? `; ${frame.loops.map(({left}) => left).join(" and ")} turn${frame.loops.length > 1 || frame.loops[0].left > 1 ? "s" : ""} left` : "";
    return {actor, title: `task ${frame.task}: ${callName(source, procedure)}`, line, next: statement(run, line), values, rights, spent: `${frame.spent} instruction${frame.spent === 1 ? "" : "s"} done${loops}`};
}

/** Returns the row of a rule.
 * @param {Run} run @param {import("./machine.js").Rule} rule @returns {Row} */
function ruleRow(run, rule) {
    const waits = rule.stages.flatMap((stage, k) => stage ? [`${argumentName(run, rule.args[k])}: ${stage === "unasked" ? "not asked yet" : stage === "waiting" ? "waiting" : "closed"}`] : []);
    return {key: `rule ${rule.number}`, line: run.ruleLine(rule.number), cells: [`rule ${rule.number}`, callOf(run, rule), waits.join(", ") || "nothing, it is ready", `engine ${rule.engine}`]};
}

/** Returns the rows of the tasks that wait for one kind of actor, the best first.
 * @param {Run} run @param {State} state @param {string} kind @returns {Table} */
function queueRows(run, state, kind) {
    const actor = kind === "control" ? "engine" : "worker";
    return {all: waiting(state, kind), rows: firstTasks(state, kind, MADE).map(task => ({key: `task ${task.number}`, cells: [`task ${task.number}`, callOf(run, task), `priority ${task.priority}`, task.target === null ? `any ${actor}` : `${actor} ${task.target} alone`]}))};
}

/** Returns the row of a datum.
 * @param {Run} run @param {Datum} datum @returns {Row} */
function dataRow(run, datum) {
    const waits = datum.waiters.slice(0, MEMBERS).map(it => `rule ${it.rule}`).join(", ") + (datum.waiters.length > MEMBERS ? ", .." : "");
    return {key: `datum ${datum.id}`, datum: datum.id, cells: [String(datum.id), run.label(datum.id), datum.type, content(datum), isClosed(datum) ? "closed" : "open", `${datum.reads} / ${datum.writes}`, waits]};
}

/** Returns the last insertions that were refused up to an event, in words.
 * @param {Run} run @param {number} event */
function refusedInsertions(run, event) {
    const {program} = run.setting, all = run.track.refusedUpTo(event, 500);
    const named = all.filter(it => /^(T?INS|MINS)$/.test(program[run.track.procedureOf(it)].code[run.track.placesOf(it)[0]].name));
    return named.slice(-8).map(it => `event ${it}: ${sentence(run, run.event(it))}`);
}

/** Returns what a state shows.
 * @param {Run} run @param {State} state @param {number} event @param {Map<number, [string, string][]>} places @returns {View} */
export function viewOf(run, state, event, places) {
    const {actors} = run;
    return {
        running: actors.flatMap(actor => { const frame = state.frames.get(actor); return frame ? [runningOf(run, actor, frame, places)] : []; }),
        idle: actors.filter(actor => actor[0] !== "s" && !state.frames.has(actor)),
        rules: firstRows(state.rules, it => ruleRow(run, it)), control: queueRows(run, state, "control"), leaf: queueRows(run, state, "leaf"),
        notices: firstRows(state.notices, it => ({key: `notice ${it.datum} ${it.rule} ${it.param}`, cells: [`server ${it.server}`, `${dataName(run, it.datum)} is closed`, `for rule ${it.rule}`]})),
        data: firstRows(state.data, it => dataRow(run, it)), outputs: outputsOf(run, state),
        refused: refusedInsertions(run, event),
    };
}

/** Returns the outputs of a state and its standing, a line each.
 * @param {Run} run @param {State} state */
function outputsOf(run, state) {
    const all = state.outputs.map((id, k) => `${run.label(id) || `output ${k}`}: ${lines(state, state.data.get(id), MEMBERS).join("\n")}`);
    return [...all, {quiet: "all is done", running: "running"}[standing(state)] ?? `${standing(state)}: rules wait for ever`].join("\n");
}

/** Returns what local instructions compute, with the values: `3 + 3 = 6`. Empty for several at once.
 * @param {Run} run @param {Event} event @param {Scalar[]} before the value registers before it @param {Scalar[]} after */
export function computed(run, event, before, after) {
    if (event.kind !== "local" || event.count > 1) return "";
    const {name, operands} = run.setting.program[event.procedure].code[event.places[0]], sign = SIGNS[name];
    const given = (/** @type {number} */ k) => shown(before[operands[k]]), result = shown(after[operands[0]] ?? "");
    if (sign) return `${given(1)} ${sign} ${given(2)} ${event.refused ? "has no result" : `= ${result}`}${name[0] === "W" ? " modulo 2^64" : ""}`;
    if (/^J(EQ|LT|TLT)$/.test(name)) return `${given(0)} ${name === "JEQ" ? "=" : "<"} ${given(1)}? ${jumps(name, before[operands[0]], before[operands[1]]) ? "yes: it skips" : "no"}`;
    if (/^(COPY|LEN|SHOW|READI)$/.test(name)) return event.refused ? `${given(1)} is no number` : `${given(1)} gives ${result}`;
    if (/^(BYTE|SLICE|FIND|SPAN|UNTIL|MULDIV)$/.test(name)) return `${operands.slice(1, -1).map((_, k) => given(k + 1)).join(", ")} ${event.refused ? "have no result" : `give ${result}`}`;
    return "";
}
/** The signs of instructions with two operands.
 * @type {Record<string, string>} */
const SIGNS = {
    ADD: "+", SUB: "-", MUL: "×", DIV: "÷", REM: "rem", CAT: "and", AND: "and", OR: "or", XOR: "xor", SHL: "up by", SHR: "down by", WMUL: "×", WADD: "+",
};

/** Marks the rows that an event changed, and adds those that it took away.
 * @param {Row[]} now @param {Row[]} before @returns {Row[]} */
export function compared(now, before) {
    const old = new Map(before.map(row => [row.key, row.cells.join("\0")])), keys = new Set(now.map(row => row.key));
    const gone = before.filter(row => !keys.has(row.key)).map(row => ({...row, gone: true}));
    return [...now.map(row => ({...row, changed: old.get(row.key) !== row.cells.join("\0")})), ...gone];
}

