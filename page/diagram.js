// @ts-check
// SPDX-License-Identifier: Apache-2.0
// Draws a small state: tasks and rules at the left, data as boxes at the right, and rights as arrows from the one to the other.
import {h, s} from "./dom.js";
import {firstTasks, isClosed, rising, waiting} from "./machine.js";
import {argumentName, content, dataName} from "./model.js";
import {callName} from "./source.js";

/** @typedef {import("./run.js").Run} Run */
/** @typedef {import("./machine.js").State} State */
/** A box: its key, its two lines, and its look.
 * @typedef {{key: string, title: string, words: string, look: string, datum?: number}} Box */
/** An arrow from a holder to a datum, or a line from a container to a member.
 * @typedef {{from: string, to: string, look: "reads" | "writes" | "waits" | "holds"}} Arrow */
/** @typedef {{holders: Box[], data: Box[], arrows: Arrow[]}} Diagram */

const MOST = 20, HIGH = 38, GAP = 8, LEFT = 250, RIGHT = 380, WIDE = 640;

/** Returns the diagram of a state; null if it has no data, or too many things.
 * @param {Run} run @param {State} state @returns {Diagram | null} */
export function diagramOf(run, state) {
    const {data, rules, frames} = state;
    if (!data.size || data.size > MOST || rules.size + waiting(state) + frames.size > MOST) return null;
    /** @type {Arrow[]} */
    const arrows = rising(data).flatMap(it => [...it.members?.values() ?? []].map(member => /** @type {Arrow} */ ({from: `d${it.id}`, to: `d${member}`, look: "holds"})));
    const holders = run.actors.flatMap(actor => { const frame = frames.get(actor); return frame ? [running(run, actor, frame, arrows)] : []; });
    for (const rule of rising(rules)) holders.push(boxOf(run, rule, `rule ${rule.number}`, "rule", arrows));
    for (const task of firstTasks(state, "", MOST)) holders.push(boxOf(run, task, `task ${task.number}`, "task", arrows));
    const boxes = rising(data).map(it => ({key: `d${it.id}`, datum: it.id, title: `${dataName(run, it.id)}: ${it.type}`, words: content(it), look: isClosed(it) ? "closed" : "open"}));
    return {holders, data: boxes, arrows: arrows.filter(it => boxes.some(({key}) => key === it.to))};
}

/** Returns the box of a frame, and adds the arrows of its rights.
 * @param {Run} run @param {string} actor @param {import("./machine.js").Frame} frame @param {Arrow[]} arrows @returns {Box} */
function running(run, actor, frame, arrows) {
    const {source} = run.setting, key = `frame ${actor}`, writes = run.writesAt(frame.procedure, frame.place);
    frame.rights.forEach((id, k) => { if (id) arrows.push({from: key, to: `d${id}`, look: writes.has(k) ? "writes" : "reads"}); });
    return {key, title: `${actor}: ${callName(source, frame.procedure)}`, words: `task ${frame.task}`, look: "frame"};
}

/** Returns the box of a rule or a waiting task, and adds the arrows of its arguments.
 * @param {Run} run @param {import("./machine.js").Task & {stages?: string[]}} it @param {string} key @param {string} look @param {Arrow[]} arrows @returns {Box} */
function boxOf(run, it, key, look, arrows) {
    const {program, source} = run.setting;
    it.args.forEach((argument, k) => {
        if (!("datum" in argument)) return;
        const waits = it.stages && it.stages[k] && it.stages[k] !== "ready", mode = program[it.procedure].params[k].mode;
        arrows.push({from: key, to: `d${argument.datum}`, look: mode === "write" ? "writes" : waits ? "waits" : "reads"});
    });
    const values = it.args.flatMap(argument => "value" in argument ? [argumentName(run, argument)] : []);
    return {key, title: `${callName(source, it.procedure)}${values.length ? `(${values.join(", ")})` : ""}`, words: key, look};
}

/** Draws a state.
 * @param {Diagram} diagram @param {(id: number) => void} pick called with a datum that is picked */
export function draw({holders, data, arrows}, pick) {
    const places = new Map([...holders.map((it, k) => /** @type {[string, number]} */ ([it.key, k])), ...data.map((it, k) => /** @type {[string, number]} */ ([it.key, k]))]);
    const middle = (/** @type {string} */ key) => (places.get(key) ?? 0) * (HIGH + GAP) + GAP + HIGH / 2, height = Math.max(holders.length, data.length) * (HIGH + GAP) + GAP;
    return h("div.scroller", {}, s("svg.diagram", {viewBox: `0 0 ${WIDE} ${height}`, role: "img", "aria-label": described(holders, data, arrows)}, heads(),
        ...arrows.map(it => it.look === "holds" ? holds(middle(it.from), middle(it.to)) : arrow(it.look, middle(it.from), middle(it.to))),
        ...holders.map(it => box(it, 4, LEFT - 4, middle(it.key))), ...data.map(it => box(it, RIGHT, WIDE - RIGHT - 30, middle(it.key), pick))),
    );
}

/** The heads of arrows. */
function heads() {
    const head = (/** @type {string} */ look, /** @type {string} */ d) => s(`marker`, {id: `head-${look}`, viewBox: "0 0 10 10", refX: 9, refY: 5, markerWidth: 9, markerHeight: 9, orient: "auto"}, s(`path.head.${look}`, {d}));
    return s("defs", {}, head("writes", "M0 0L10 5L0 10Z"), head("reads", "M0 0L10 5L0 10"), head("waits", "M0 0L10 5L0 10"));
}

/** @param {string} look @param {number} from @param {number} to */
const arrow = (look, from, to) => s(`path.arrow.${look}`, {d: `M ${LEFT} ${from} C ${LEFT + 60} ${from} ${RIGHT - 60} ${to} ${RIGHT - 2} ${to}`, "marker-end": `url(#head-${look})`});
/** @param {number} from @param {number} to */
const holds = (from, to) => s("path.arrow.holds", {d: `M ${WIDE - 30} ${from} C ${WIDE} ${from} ${WIDE} ${to} ${WIDE - 30} ${to}`});

/** @param {Box} it @param {number} x @param {number} width @param {number} y @param {(id: number) => void} [pick] */
function box({title, words, look, datum}, x, width, y, pick) {
    const most = Math.floor(width / 7.4), cut = (/** @type {string} */ text) => text.length > most ? `${text.slice(0, most - 2)}..` : text;
    const made = s(`g.box.${look}`, datum === undefined ? {} : {onclick: () => pick?.(datum)}, s("title", {}, `${title}: ${words}`), s("rect", {x, y: y - HIGH / 2, width, height: HIGH, rx: look === "closed" || look === "open" ? 2 : 10}));
    made.append(s("text.name", {x: x + 8, y: y - 4}, cut(title)), s("text.words", {x: x + 8, y: y + 12}, cut(words)));
    return made;
}

/** Says a diagram in words.
 * @param {Box[]} holders @param {Box[]} data @param {Arrow[]} arrows */
function described(holders, data, arrows) {
    const does = {reads: "may read", writes: "writes", waits: "waits for", holds: "has"}, name = (/** @type {string} */ key) => { const it = [...holders, ...data].find(it => it.key === key); return it ? it.title : key; };
    return [...data.map(it => `${it.title}, ${it.look}, ${it.words}`), ...arrows.map(it => `${name(it.from)} ${does[it.look]} ${name(it.to)}`)].join("; ");
}
