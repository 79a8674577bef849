// @ts-check
// SPDX-License-Identifier: Apache-2.0
// The events of a run with their effects, in columns of numbers: about 30 bytes an event, so that a page can hold a million.

/** @typedef {import("./machine.js").Fact} Fact */
/** Columns of a stretch of events, to be appended to those before; `data` and `places` are lists, whose ends are columns.
 * @typedef {{count: number, small: Uint8Array, large: Uint32Array, data: Uint32Array, lists: number[][]}} Chunk */

export const KINDS = ["take", "local", "call", "end", "ask", "deliver", "release"], MAKES = ["", "datum", "rule", "task"];
const NOWHERE = 255, SMALL = 5, LARGE = 5;

/** Returns the first place of a list for which a test holds, as it does for all after it; the list's length if there is none.
 * @param {number} length @param {(place: number) => boolean} meets */
export function firstOf(length, meets) {
    let low = 0;
    for (let high = length; low < high;) {
        const middle = low + high >> 1;
        if (meets(middle)) high = middle; else low = middle + 1;
    }
    return low;
}

/** A list of numbers that grows, without a gap in memory for each.
 * @template {Uint8Array | Uint32Array} T */
class Column {
    /** @param {new (length: number) => T} type */
    constructor(type) {
        this.type = type;
        this.all = new type(256);
        this.length = 0;
    }
    /** @param {number} more */
    room(more) {
        if (this.length + more <= this.all.length) return;
        const wider = new this.type(Math.max(this.length + more, Math.ceil(this.all.length * 1.5)));
        wider.set(this.all.subarray(0, this.length));
        this.all = wider;
    }
    /** @param {number} value */
    push(value) { this.room(1); this.all[this.length++] = value; }
    /** @param {T} values */
    append(values) { this.room(values.length); this.all.set(values, this.length); this.length += values.length; }
    /** @returns {T} */
    whole() { return /** @type {T} */ (this.all.slice(0, this.length)); }
}

/** The columns alone, as a thread sends them in parts. */
export class Columns {
    /** @param {string[]} actors */
    constructor(actors) {
        this.actors = actors;
        this.numbers = new Map(actors.map((actor, k) => [actor, k]));
        this.length = 0;
        /** Of each event: its kind, actor, procedure, parameter and what it made, with a bit for a refusal. */
        this.small = new Column(Uint8Array);
        /** Of each event: its task, its rule or its count, what it made, its list of places, and the end of its data. */
        this.large = new Column(Uint32Array);
        this.data = new Column(Uint32Array);
        /** The different lists of places.
         * @type {number[][]} */
        this.lists = [];
        /** @type {Map<string, number>} */
        this.known = new Map();
    }

    /** Adds the effect of the next event.
     * @param {Fact} fact */
    add(fact) {
        const {kind, procedure, param, makes, refused} = fact, actor = this.numbers.get(fact.actor) ?? 0;
        for (const id of fact.data) this.data.push(id);
        for (const value of [KINDS.indexOf(kind), actor, procedure < 0 ? NOWHERE : procedure, Math.min(param, 255), MAKES.indexOf(makes) * 2 + (refused ? 1 : 0)]) this.small.push(value);
        for (const value of [fact.task, kind === "local" ? fact.count : fact.rule, fact.made, this.listOf(fact.places), this.data.length]) this.large.push(value);
        this.length++;
    }

    /** Returns the number of a list of places.
     * @param {number[]} places */
    listOf(places) {
        const key = String(places), known = this.known.get(key);
        if (known !== undefined) return known;
        this.known.set(key, this.lists.push(places) - 1);
        return this.lists.length - 1;
    }

    /** Returns all columns, to be sent.
     * @returns {Chunk} */
    chunk() { return {count: this.length, small: this.small.whole(), large: this.large.whole(), data: this.data.whole(), lists: this.lists}; }
}

/** All events of a run. Lists by number say when each datum, rule and task was made, and when each task was taken and ended. */
export class Track extends Columns {
    /** @param {string[]} actors */
    constructor(actors) {
        super(actors);
        this.makers = {datum: new Column(Uint32Array), rule: new Column(Uint32Array), task: new Column(Uint32Array)};
        this.taken = new Column(Uint32Array);
        this.ended = new Column(Uint32Array);
        /** The calls that were refused. */
        this.refused = new Column(Uint32Array);
        /** The tasks of each actor, in their order.
         * @type {Column<Uint32Array>[]} */
        this.tasks = actors.map(() => new Column(Uint32Array));
    }

    /** @param {Fact} fact */
    add(fact) {
        super.add(fact);
        this.index(this.length);
    }

    /** Appends columns that were sent.
     * @param {Chunk} chunk */
    append({count, small, large, data, lists}) {
        const numbers = lists.map(it => this.listOf(it)), before = this.data.length;
        for (let k = 0; k < count; k++) {
            large[k * LARGE + 3] = numbers[large[k * LARGE + 3]];
            large[k * LARGE + 4] += before;
        }
        this.small.append(small);
        this.large.append(large);
        this.data.append(data);
        for (let k = 0; k < count; k++) this.index(++this.length);
    }

    /** Notes of an event what it made, took or ended.
     * @param {number} event */
    index(event) {
        const at = (event - 1) * SMALL, kind = KINDS[this.small.all[at]], makes = this.small.all[at + 4] >> 1, actor = this.small.all[at + 1], task = this.taskOf(event);
        if (makes) put(this.makers[/** @type {"datum" | "rule" | "task"} */ (MAKES[makes])], this.large.all[(event - 1) * LARGE + 2], event);
        if (kind === "take") { put(this.taken, task, event); this.tasks[actor].push(task); }
        if (kind === "end") put(this.ended, task, event);
        if (kind === "call" && this.small.all[at + 4] % 2) this.refused.push(event);
    }

    /** Returns for each actor, and each of so many columns of equally many events, whether the actor has an event there.
     * @param {number} wide */
    columns(wide) {
        const seen = new Uint8Array(wide * this.actors.length), step = wide / this.length, {all} = this.small;
        for (let k = 0; k < this.length; k++) seen[all[k * SMALL + 1] * wide + Math.floor(k * step)] = 1;
        return seen;
    }

    /** @param {number} event */
    kindOf(event) { return KINDS[this.small.all[(event - 1) * SMALL]]; }
    /** @param {number} event */
    actorOf(event) { return this.actors[this.small.all[(event - 1) * SMALL + 1]]; }
    /** @param {number} event */
    procedureOf(event) { const it = this.small.all[(event - 1) * SMALL + 2]; return it === NOWHERE ? -1 : it; }
    /** @param {number} event */
    taskOf(event) { return this.large.all[(event - 1) * LARGE]; }
    /** @param {number} event */
    ruleOf(event) { return this.kindOf(event) === "local" ? 0 : this.large.all[(event - 1) * LARGE + 1]; }
    /** @param {number} event */
    placesOf(event) { return this.lists[this.large.all[(event - 1) * LARGE + 3]] ?? []; }

    /** Returns whether an event has to do with a datum.
     * @param {number} event @param {number} id */
    touches(event, id) {
        for (let k = this.dataFrom(event); k < this.large.all[(event - 1) * LARGE + 4]; k++) if (this.data.all[k] === id) return true;
        return false;
    }
    /** @param {number} event */
    dataFrom(event) { return event > 1 ? this.large.all[(event - 2) * LARGE + 4] : 0; }

    /** Returns the effect of an event.
     * @param {number} event @returns {Fact} */
    fact(event) {
        const [kind, , , param, makes] = this.small.all.subarray((event - 1) * SMALL, event * SMALL), [task, number, made, , end] = this.large.all.subarray((event - 1) * LARGE, event * LARGE);
        const isLocal = KINDS[kind] === "local";
        return {
            kind: KINDS[kind], actor: this.actorOf(event), task, procedure: this.procedureOf(event), places: this.placesOf(event), data: [...this.data.all.subarray(this.dataFrom(event), end)],
            rule: isLocal ? 0 : number, param, count: isLocal ? number : 1, refused: makes % 2 === 1, makes: /** @type {Fact["makes"]} */ (MAKES[makes >> 1]), made,
        };
    }

    /** Returns an event's line in a trace.
     * @param {number} event */
    line(event) {
        const {kind, actor, count, rule, param, data} = this.fact(event);
        switch (kind) {
            case "local": return `local ${actor} ${count}`;
            case "ask": return `ask ${actor} ${rule} ${param}`;
            case "deliver": return `deliver ${actor} ${data[0]} ${rule} ${param}`;
            case "release": return `release ${actor} ${rule}`;
            default: return `${kind} ${actor}`;
        }
    }

    /** Returns the event that made a datum, a rule or a task; 0 if it was there at the start.
     * @param {"datum" | "rule" | "task"} what @param {number} number */
    makerOf(what, number) { return number < this.makers[what].length ? this.makers[what].all[number] : 0; }
    /** Returns the last refused calls up to an event.
     * @param {number} event @param {number} most */
    refusedUpTo(event, most) {
        const {all, length} = this.refused, end = firstOf(length, k => all[k] > event);
        return [...all.subarray(Math.max(0, end - most), end)];
    }
    /** @param {number} task */
    takenAt(task) { return task < this.taken.length ? this.taken.all[task] : 0; }
    /** @param {number} task */
    endOf(task) { return task < this.ended.length && this.ended.all[task] || this.length; }

    /** Returns the tasks that an actor had between two events.
     * @param {number} actor @param {number} first @param {number} last */
    tasksOf(actor, first, last) {
        const {all, length} = this.tasks[actor], found = [];
        for (let k = firstOf(length, k => this.endOf(all[k]) >= first); k < length && this.takenAt(all[k]) <= last; k++) found.push(all[k]);
        return found;
    }
}

/** Puts an event at a number, with zeros before it.
 * @param {Column<Uint32Array>} column @param {number} number @param {number} event */
function put(column, number, event) {
    if (number >= column.length) { column.room(number + 1 - column.length); column.length = number + 1; }
    column.all[number] = event;
}
