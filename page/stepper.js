// @ts-check
// SPDX-License-Identifier: Apache-2.0
// Steps through a run: plays it, moves forward and back, and shows each event in the program, the state and the timeline.
import {$, h} from "./dom.js";
import {tally} from "./machine.js";
import {actorName, computed, dataName, sentence, tallied, toldOf, viewOf} from "./model.js";
import {diagramOf} from "./diagram.js";
import {grouped} from "./verdict.js";
import {show} from "./view.js";

/** @typedef {import("./run.js").Run} Run */
/** @typedef {import("./run.js").Event} Event */
/** @typedef {import("./editor.js").Editor} Editor */
/** @typedef {import("./timeline.js").Timeline} Timeline */

/** Data that can be picked in the list of what to step through, and milliseconds between two looks at a run that grows. */
const PICKED = 300, SELDOM = 700;
/** The most local instructions of a step that are counted by their names. */
const COUNTED = 300000;

export class Stepper {
    /** @param {Editor} editor @param {() => void} moved called when another event is shown */
    constructor(editor, moved) {
        this.editor = editor;
        this.moved = moved;
        /** @type {Run | null} */
        this.run = null;
        /** @type {Timeline | null} */
        this.timeline = null;
        /** @type {Map<number, [string, string][]>} */
        this.places = new Map();
        this.at = 0;
        /** The views of the states that were looked at last, by the number of events.
         * @type {Map<number, import("./model.js").View>} */
        this.views = new Map();
        this.grew = 0;
        this.timer = 0;
        this.stale = false;
        /** Whether the page itself began to play; then any touch stops it. */
        this.gentle = false;
        /** Whether the reader has scrolled the program while it plays; then it isn't scrolled for them. */
        this.away = false;
        this.slider = /** @type {HTMLInputElement} */ ($("step"));
        this.by = /** @type {HTMLSelectElement} */ ($("by"));
        this.speed = /** @type {HTMLSelectElement} */ ($("speed"));
        this.bind();
    }

    bind() {
        this.slider.addEventListener("input", () => this.go(+this.slider.value));
        $("back").addEventListener("click", () => this.move(-1));
        $("on").addEventListener("click", () => this.move(1));
        $("first").addEventListener("click", () => { this.stop(); this.go(0); });
        $("last").addEventListener("click", () => { this.stop(); this.go(this.run?.length ?? 0); });
        $("play").addEventListener("click", () => this.timer ? this.stop() : this.play(false));
        this.by.addEventListener("change", () => this.buttons());
        this.speed.addEventListener("change", () => { if (this.timer) this.play(this.gentle); });
        for (const kind of ["pointerdown", "keydown"]) document.addEventListener(kind, () => { if (this.gentle) setTimeout(() => this.gentle && this.stop()); }, true);
        for (const kind of ["wheel", "touchmove", "keydown"]) $("editor").addEventListener(kind, () => { this.away = this.timer !== 0; }, {passive: true});
        document.addEventListener("keydown", event => this.key(event));
    }

    /** Steps by `.` and `,` outside of fields, and by F10 everywhere.
     * @param {KeyboardEvent} event */
    key(event) {
        const field = /^(INPUT|TEXTAREA|SELECT)$/.test(/** @type {HTMLElement} */ (event.target).tagName ?? ""), plain = !event.ctrlKey && !event.metaKey && !event.altKey;
        const way = event.key === "F10" ? event.shiftKey ? -1 : 1 : !field && plain ? {".": 1, ",": -1}[event.key] : 0;
        if (!way || !this.run) return;
        event.preventDefault();
        this.move(way > 0 ? 1 : -1);
    }

    /** Takes a run, and shows one of its events.
     * @param {Run} run @param {Map<number, [string, string][]>} places @param {number} event */
    take(run, places, event) {
        this.stop();
        Object.assign(this, {run, places, stale: false, views: new Map()});
        this.fresh();
        this.timeline?.show(run);
        this.grown(false);
        this.go(Math.min(event, run.length));
    }

    /** Shows that the run belongs to the program. */
    fresh() {
        this.stale = false;
        document.body.classList.remove("stale");
    }

    /** Takes more events of the run. While more are to come it is done now and then.
     * @param {boolean} part */
    grown(part) {
        const {run} = this, now = performance.now();
        if (!run || part && now - this.grew < SELDOM) return;
        this.grew = now;
        const option = (/** @type {string} */ value, /** @type {string} */ text) => h("option", {value}, text), chosen = this.by.value;
        this.slider.max = String(run.length);
        this.by.replaceChildren(option("all", "each event"), option("line", "events of the cursor's line"),
            h("optgroup", {label: "events of an actor"}, ...run.actors.map(it => option(it, actorName(it)))),
            h("optgroup", {label: "events of a datum"}, ...run.dataIds(PICKED).map(id => option(`d${id}`, dataName(run, id)))));
        this.by.value = chosen || "all";
        if (!this.by.value) this.by.value = "all";
        $("cut").textContent = run.cut;
        $("at").textContent = this.position;
        this.timeline?.grown();
        this.buttons();
    }

    get position() { return `event ${grouped(this.at)} of ${grouped(this.run?.length ?? 0)}`; }

    /** Marks the run as older than the program. */
    leave() {
        this.stop();
        this.stale = true;
        document.body.classList.add("stale");
    }

    /** @returns {(event: number) => boolean} */
    get test() {
        const by = this.by.value, line = this.editor.line, run = /** @type {Run} */ (this.run);
        if (by === "line") return event => run.linesOf(event).includes(line);
        if (/^d\d/.test(by)) return event => run.track.touches(event, +by.slice(1));
        return by === "all" ? () => true : event => run.track.actorOf(event) === by;
    }
    /** Moves to the next or the previous event.
     * @param {1 | -1} way */
    move(way) {
        if (!this.run) return;
        this.stop();
        const to = way < 0 && this.by.value === "all" ? this.at - 1 : this.run.find(this.at, way, this.test);
        if (to > 0 || way < 0 && this.by.value === "all") this.go(Math.max(0, to));
        else $("what").textContent = `There is no such event ${way > 0 ? "after" : "before"} this one.`;
    }

    /** Steps through the events of one datum, or of one line.
     * @param {string} by */
    pick(by) {
        this.by.value = by;
        this.buttons();
        $("on").focus();
    }

    /** Returns the view of the state before an event, what its actor's value registers are there, and which local instructions it then executes.
     * @param {Run} run @param {number} event */
    before(run, event) {
        const state = run.at(event - 1);
        const frame = state.frames.get(run.track.actorOf(event)), {kind, count, procedure} = run.track.fact(event);
        const counts = frame && kind === "local" && count > 1 && count <= COUNTED ? tally(run.setting.program[procedure], frame, count) : null;
        return {view: this.views.get(event - 1) ?? viewOf(run, state, event - 1, this.places), values: [...frame?.values ?? []], counts};
    }

    /** Shows an event, and the state after it.
     * @param {number} event */
    go(event) {
        const {run} = this;
        if (!run) return;
        this.at = event;
        this.slider.value = String(event);
        const before = event ? this.before(run, event) : null, state = run.at(event), happened = event ? run.event(event) : null;
        const now = this.views.get(event) ?? viewOf(run, state, event, this.places);
        this.views = new Map([[event - 1, before?.view ?? now], [event, now]]);
        $("at").textContent = this.position;
        $("what").replaceChildren(...happened && before ? this.told(run, happened, before, state) : ["Nothing has happened yet: main waits for an engine."]);
        this.slider.setAttribute("aria-valuetext", `${$("at").textContent}: ${$("what").textContent}`);
        show(now, before?.view ?? now, diagramOf(run, state), {pickDatum: id => this.pick(`d${id}`), pickLine: line => this.online(line)});
        this.light(happened, now.running);
        this.timeline?.point(event);
        this.buttons();
        this.moved();
    }

    /** Returns an event's sentence with its values, in which each datum can be picked.
     * @param {Run} run @param {Event} event @param {{values: import("./values.js").Scalar[], counts: Map<string, number> | null}} before @param {import("./machine.js").State} state */
    told(run, event, {values, counts}, state) {
        const sum = computed(run, event, values, state.frames.get(event.actor)?.values ?? []) || tallied(counts), words = `${sentence(run, event, toldOf(run, event, values, state))}${sum && `: ${sum}`}`;
        /** @type {(string | HTMLElement)[]} */
        let parts = [words];
        for (const id of [...new Set(event.data)].sort((one, other) => other - one)) { // "datum 2" is in "datum 21", too.
            const name = dataName(run, id);
            parts = parts.flatMap(part => typeof part === "string" ? part.split(name).flatMap((it, k) => k ? [h("button.link", {title: `step through the events of datum ${id}`, onclick: () => this.pick(`d${id}`)}, name), it] : [it]) : [part]);
        }
        return parts;
    }

    /** Lights the event's lines, and marks where actors go on.
     * @param {Event | null} happened @param {import("./model.js").Running[]} running */
    light(happened, running) {
        if (this.stale) return;
        /** @type {Map<number, string[]>} */
        const next = new Map();
        for (const {actor, line} of running) next.set(line, [...next.get(line) ?? [], actor]);
        const line = this.away ? undefined : happened?.lines[0] ?? running[0]?.line;
        this.editor.mark({hits: new Set(happened?.lines), next}, line);
    }

    /** Moves to the next event of a line, or else to its first.
     * @param {number} line */
    online(line) {
        const {run} = this;
        if (!run || this.stale) return;
        this.stop();
        const meets = (/** @type {number} */ event) => run.linesOf(event).includes(line), to = run.find(this.at, 1, meets) || run.find(0, 1, meets);
        if (to) this.go(to);
        else $("what").textContent = `No event is of line ${line + 1}.`;
    }

    buttons() {
        const length = this.run?.length ?? 0;
        /** @type {[string, boolean][]} */
        const all = [["back", this.at === 0], ["first", this.at === 0], ["on", this.at === length], ["last", this.at === length]];
        for (const [id, off] of all) $(id).setAttribute("aria-disabled", String(off));
        $("play").textContent = this.timer ? "Pause" : "Play";
    }

    /** Plays from here, or from the start where the end is reached.
     * @param {boolean} gentle */
    play(gentle) {
        if (!this.run) return;
        this.stop();
        this.gentle = gentle;
        this.away = false;
        $("what").setAttribute("aria-live", "off");
        if (this.at === this.run.length) this.go(0);
        this.timer = setInterval(() => this.tick(), +this.speed.value);
        this.buttons();
    }

    tick() {
        const {run} = this;
        if (!run || this.at >= run.length) { this.stop(); return; }
        const to = this.by.value === "all" ? this.at + 1 : run.find(this.at, 1, this.test);
        to ? this.go(to) : this.stop();
        if (this.at === run.length) this.stop();
    }

    stop() {
        const played = this.timer;
        clearInterval(this.timer);
        this.timer = 0;
        this.gentle = this.away = false;
        $("what").setAttribute("aria-live", "polite");
        this.buttons();
        if (played) this.moved();
    }
}
