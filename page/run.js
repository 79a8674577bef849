// @ts-check
// SPDX-License-Identifier: Apache-2.0
// A run: its events with their effects, and the state after each. Some states are kept; the others are computed from the nearest one before. From the
// state that was asked for last, events are undone.
import {copyOf, open, sizeOf, step, TooLong} from "./machine.js";
import {nameAt} from "./source.js";
import {firstOf, Track} from "./track.js";

/** @typedef {import("./machine.js").State} State */
/** @typedef {import("./machine.js").Fact} Fact */
/** @typedef {import("./values.js").Input} Input */
/** @typedef {import("./program.js").Procedure} Procedure */
/** @typedef {import("./source.js").Source} Source */
/** @typedef {import("./source.js").Naming} Naming */
/** What a run begins with.
 * @typedef {{program: Procedure[], inputs: Input[], engines: number, servers: number, workers: number}} Opening */
/** The opening of a run, its program's text and names, and the rights at each line.
 * @typedef {Opening & {source: Source, names: Naming[], places?: Map<number, [string, string][]>}} Setting */
/** An event, with its lines.
 * @typedef {Fact & {lines: number[]}} Event */
/** A state after so many events, with the number of things in it.
 * @typedef {{count: number, state: State, size: number}} Kept */

/** Local instructions that are followed in all, and between two kept states; events between two kept states; things in all kept states; and the last
 * events that can be undone. */
const FOLLOWED = 20000000, WORK = 300000, SPACING = 50, THINGS = 80000, BACK = 5000;

/** Returns all actors of a layout, in their order.
 * @param {Opening} opening */
export const actorsOf = ({engines, servers, workers}) => [...many("e", engines), ...many("s", servers), ...many("w", workers)];
/** @param {string} letter @param {number} count */
const many = (letter, count) => Array.from({length: count}, (_, k) => letter + k);

/** Chooses which states are kept: so often that going to an event is quick, and so seldom that they don't fill the memory. */
export class Keeper {
    /** @param {State} first */
    constructor(first) {
        this.spacing = SPACING;
        this.things = 0;
        /** @type {Kept[]} */
        this.kept = [{count: 0, state: first, size: 0}];
    }

    /** Returns whether the state after so many events should be kept.
     * @param {number} count @param {number} work the local instructions since the last one */
    wants(count, work) { return count - this.kept[this.kept.length - 1].count >= this.spacing || work >= WORK; }

    /** Keeps a state. If that makes too many things, every second state is dropped.
     * @param {Kept} it */
    keep(it) {
        this.kept.push(it);
        this.things += it.size;
        while (this.kept.length > 2 && (this.things > THINGS || this.kept.length > 400)) {
            this.kept = this.kept.filter((_, k) => k % 2 === 0);
            this.things = this.kept.reduce((sum, {size}) => sum + size, 0);
            this.spacing *= 2;
        }
    }

    /** Returns the last kept state of at most so many events.
     * @param {number} count */
    before(count) { return this.kept[firstOf(this.kept.length, k => this.kept[k].count > count) - 1]; }
}

/** Executes the events of a trace, one after the other. */
export class Follower {
    /** @param {Opening} opening @param {string} trace its lines */
    constructor(opening, trace) {
        this.program = opening.program;
        this.state = open(opening.program, opening.inputs, opening.servers);
        this.trace = trace;
        this.at = 0;
        this.count = 0;
        this.left = FOLLOWED;
        this.work = 0;
        /** A message, if an event is too long to be followed. */
        this.cut = "";
    }

    /** Executes some events, up to one that is too long; then `cut` says so. Returns whether there are more.
     * @param {import("./track.js").Columns} track @param {number} most @param {(state: State) => void} after called after each, with the state */
    more(track, most, after) {
        for (const {trace} = this; most > 0 && this.at < trace.length && !this.cut; most--) {
            const end = trace.indexOf("\n", this.at), line = trace.slice(this.at, end < 0 ? trace.length : end);
            if (!this.one(track, line)) break;
            this.at += line.length + 1;
            after(this.state);
        }
        return !this.cut && this.at < this.trace.length;
    }

    /** @param {import("./track.js").Columns} track @param {string} line */
    one(track, line) {
        try {
            const fact = step(this.state, this.program, line, this.left);
            this.left -= fact.count;
            this.work += fact.count;
            this.count++;
            track.add(fact);
            return true;
        } catch (error) {
            if (!(error instanceof TooLong)) throw error;
            this.cut = `Event ${this.count + 1} has ${error.message}. The page follows ${FOLLOWED.toLocaleString("en")}; the library made the rest.`;
            return false;
        }
    }
}

export class Run {
    /** Begins with the opening; `follow` computes the rest.
     * @param {Setting} setting @param {number} back how many events can be undone */
    constructor(setting, back = BACK) {
        this.setting = setting;
        this.back = back;
        this.actors = actorsOf(setting);
        this.track = new Track(this.actors);
        /** A message, if an event is too long to be followed.
         * @type {string} */
        this.cut = "";
        const first = open(setting.program, setting.inputs, setting.servers);
        this.keeper = new Keeper(first);
        /** The state that was asked for last, and what takes back each of the last events before it. */
        this.now = {count: 0, state: copyOf(first)};
        /** @type {(() => void)[][]} */
        this.undos = [];
        /** The names of main's data, by id, and of the data that the program makes, by place.
         * @type {Map<number, string>} */
        this.given = new Map();
        /** @type {Map<number, string>} */
        this.made = new Map();
        this.nameInputs(first);
    }

    /** Gives the data of main's parameters their names.
     * @param {State} state */
    nameInputs(state) {
        const {source, names} = this.setting, head = source.heads[0], [[task]] = state.tasks.values();
        task.args.forEach((it, k) => {
            if (!("datum" in it)) return;
            const register = `d${k}`, name = nameAt(names, 0, head, register), datum = /** @type {import("./machine.js").Datum} */ (state.data.get(it.datum));
            this.given.set(it.datum, name === register ? datum.from : name);
            for (const [key, id] of datum.members ?? []) this.given.set(id, `${this.given.get(it.datum)} at ${key}`);
        });
    }

    /** Follows a trace to its end, here.
     * @param {string} trace */
    follow(trace) {
        const follower = new Follower(this.setting, trace);
        follower.more(this.track, Infinity, state => this.keepAt(follower, state));
        this.cut = follower.cut;
        return this;
    }

    /** @param {Follower} follower @param {State} state */
    keepAt(follower, state) {
        if (!this.keeper.wants(follower.count, follower.work)) return;
        this.keeper.keep({count: follower.count, state: copyOf(state), size: sizeOf(state)});
        follower.work = 0;
    }

    get length() { return this.track.length; }

    /** Returns which right registers have a right to write before a place. The verifier's listing says it, by line.
     * @param {number} procedure @param {number} place */
    writesAt(procedure, place) {
        const line = this.setting.source.places[procedure][place], held = this.setting.places?.get(line) ?? [];
        return new Set(held.filter(([, right]) => right.startsWith("write")).map(([register]) => +register.slice(1)));
    }

    /** Returns what a datum is called in the program; empty if it has no name.
     * @param {number} id */
    label(id) {
        const given = this.given.get(id), event = this.track.makerOf("datum", id);
        if (given !== undefined || !event) return given ?? "";
        const procedure = this.track.procedureOf(event), [place] = this.track.placesOf(event), key = procedure * 65536 + place;
        const known = this.made.get(key) ?? this.nameMade(procedure, place);
        this.made.set(key, known);
        return known;
    }

    /** @param {number} procedure @param {number} place */
    nameMade(procedure, place) {
        const {source, names, program} = this.setting, register = `d${program[procedure].code[place].operands[1]}`;
        const name = nameAt(names, procedure, source.places[procedure][place], register);
        return name === register ? "" : name;
    }

    /** Returns the ids of the first data.
     * @param {number} most */
    dataIds(most) {
        const all = Math.max(this.track.makers.datum.length - 1, ...this.given.keys());
        return Array.from({length: Math.max(0, Math.min(all, most))}, (_, k) => k + 1);
    }

    /** Returns the line of the RULE that made a rule.
     * @param {number} rule */
    ruleLine(rule) {
        const event = this.track.makerOf("rule", rule);
        return event ? this.placeLines(event)[0] ?? 0 : 0;
    }

    /** @param {number} event */
    placeLines(event) {
        const places = this.setting.source.places[this.track.procedureOf(event)] ?? [];
        return this.track.placesOf(event).flatMap(place => places[place] ?? []);
    }

    /** Returns the lines of an event.
     * @param {number} event */
    linesOf(event) {
        const {track} = this, kind = track.kindOf(event), lines = this.placeLines(event);
        if (kind === "take") lines.push(this.setting.source.heads[track.procedureOf(event)]);
        if (kind === "ask" || kind === "deliver" || kind === "release") lines.push(this.ruleLine(track.ruleOf(event)));
        return lines;
    }

    /** @param {number} event @returns {Event} */
    event(event) { return {...this.track.fact(event), lines: this.linesOf(event)}; }

    /** Returns the state after so many events. It is changed by the next call.
     * @param {number} count @returns {State} */
    at(count) {
        const kept = this.keeper.before(count), {back} = this;
        if (count < this.now.count - this.undos.length || kept.count > this.now.count + back) { this.now = {count: kept.count, state: copyOf(kept.state)}; this.undos = []; }
        const {now, undos} = this;
        for (; now.count > count; now.count--) for (const undo of undos.pop()?.reverse() ?? []) undo();
        for (; now.count < count; now.count++) {
            const undo = now.state.undo = count - now.count <= back ? /** @type {(() => void)[]} */ ([]) : null;
            step(now.state, this.setting.program, this.track.line(now.count + 1));
            if (undo && undos.push(undo) > back) undos.shift();
        }
        return now.state;
    }

    /** Returns the nearest event before or after one that meets a test; 0 if there is none.
     * @param {number} from @param {1 | -1} way @param {(event: number) => boolean} meets */
    find(from, way, meets) {
        for (let k = from + way; k >= 1 && k <= this.length; k += way) if (meets(k)) return k;
        return 0;
    }
}
