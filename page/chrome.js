// @ts-check
// SPDX-License-Identifier: Apache-2.0
// Writes a run as a trace for Chrome's and Perfetto's viewers: tasks as slices of their actor, events as instants, and arrows to tasks from what made them.
// A microsecond there is an event's place in the order, since a trace has no times.
import {actorName, sentence} from "./model.js";
import {callName} from "./source.js";

/** @typedef {import("./run.js").Run} Run */

/** Returns the slices of an actor's tasks, with arrows to them.
 * @param {Run} run @param {number} actor its number */
const slicesOf = (run, actor) => run.track.tasksOf(actor, 1, run.length).flatMap(task => {
    const {track} = run, from = track.takenAt(task), to = track.endOf(task), made = track.makerOf("task", task), name = callName(run.setting.source, track.procedureOf(from)), flow = {name: "task", cat: "task", id: task, pid: 1};
    const tid = made && run.actors.indexOf(track.actorOf(made)) + 1; // A viewer draws an arrow only from a slice, and a release is in none.
    const released = made && track.kindOf(made) === "release" ? [{name: "release", cat: "release", ph: "X", pid: 1, tid, ts: made, dur: 1, args: {task}}] : [];
    const arrow = made ? [...released, {...flow, ph: "s", tid, ts: made}, {...flow, ph: "f", bp: "e", tid: actor + 1, ts: from}] : [];
    return [{name, cat: "task", ph: "X", pid: 1, tid: actor + 1, ts: from, dur: to - from + 1, args: {task}}, ...arrow];
});

/** Returns a run as such a trace, in JSON.
 * @param {Run} run @param {string} title */
export function chromeTrace(run, title) {
    const named = [{name: "process_name", ph: "M", pid: 1, args: {name: `${title}: in order, not in time`}}, ...run.actors.flatMap((actor, k) => [{name: "thread_name", ph: "M", pid: 1, tid: k + 1, args: {name: actorName(actor)}}, {name: "thread_sort_index", ph: "M", pid: 1, tid: k + 1, args: {sort_index: k}}])];
    const instants = Array.from({length: run.length}, (_, k) => {
        const event = run.event(k + 1);
        return {name: event.kind, cat: "event", ph: "i", s: "t", pid: 1, tid: run.actors.indexOf(event.actor) + 1, ts: k + 1, args: {event: sentence(run, event), lines: event.lines.map(line => line + 1)}};
    });
    const lines = [...named, ...run.actors.flatMap((_, k) => slicesOf(run, k)), ...instants].map(it => JSON.stringify(it));
    return `{"displayTimeUnit": "ns", "otherData": {"clock": "the order of events"}, "traceEvents": [\n${lines.join(",\n")}\n]}\n`;
}
