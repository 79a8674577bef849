// @ts-check
// SPDX-License-Identifier: Apache-2.0
// Draws the events as markers in a row for each actor, and all of them small in a strip below. Only what is in sight is drawn, so a million events take no
// longer than fifty.
import {$, h, s} from "./dom.js";
import {actorName, sentence} from "./model.js";
import {callName} from "./source.js";

/** @typedef {import("./run.js").Run} Run */

const LANE = 44, HEAD = 22, WIDEST = 22, LARGEST = 1600000, ZOOMED = 16000000, STRIP = 6, DRAWN = 400;
/** The shape of a marker of half size r, by the event's kind: kinds differ by more than their colour.
 * @type {Record<string, (r: number) => string>} */
export const SHAPES = {
    take: r => `M${-r} ${-r}L${r} 0L${-r} ${r}Z`,
    local: r => `M${-r} ${-r}H${r}V${r}H${-r}Z`,
    call: r => `M${-r} 0A${r} ${r} 0 1 1 ${r} 0A${r} ${r} 0 1 1 ${-r} 0Z`,
    end: r => `M${-r / 2} ${-r}H${r / 2}V${r}H${-r / 2}Z`,
    ask: r => `M0 ${-r}L${r} 0L0 ${r}L${-r} 0ZM0 ${-r / 2.5}L${-r / 2.5} 0L0 ${r / 2.5}L${r / 2.5} 0Z`,
    deliver: r => `M0 ${-r}L${r} 0L0 ${r}L${-r} 0Z`,
    release: r => `M${-r} ${r}L0 ${-r}L${r} ${r}Z`,
};
/** What the kinds are called in the legend. */
const CALLED = {take: "take", local: "compute", call: "data, tasks", end: "end", ask: "ask", deliver: "tell", release: "release"};

export class Timeline {
    /** @param {HTMLElement} names @param {HTMLElement} box @param {HTMLElement} caption @param {(event: number) => void} go */
    constructor(names, box, caption, go) {
        this.names = names;
        this.box = box;
        this.outer = /** @type {HTMLElement} */ (box.parentElement);
        this.strip = /** @type {HTMLCanvasElement} */ ($("strip"));
        this.caption = caption;
        this.go = go;
        /** @type {Run | null} */
        this.run = null;
        /** @type {Map<string, number>} */
        this.lanes = new Map();
        this.now = 0;
        this.wide = WIDEST;
        /** The width of a column that the reader chose; 0 if none. */
        this.chosen = 0;
        this.drawn = "";
        /** The mark of the event below the tasks, and its task's lines above them. */
        this.under = s("g");
        this.over = s("g");
        this.bind();
    }

    bind() {
        const {box, strip} = this;
        box.addEventListener("scroll", () => this.draw());
        box.addEventListener("keydown", event => this.key(event));
        box.addEventListener("wheel", event => { if (event.ctrlKey) { event.preventDefault(); this.zoom(Math.exp(-event.deltaY / 200), event.clientX - box.getBoundingClientRect().left); } }, {passive: false});
        for (const [id, by] of Object.entries({"zoom-in": 2, "zoom-out": 0.5, "zoom-all": 0})) $(id).addEventListener("click", () => this.zoom(by));
        new ResizeObserver(() => { this.draw(); this.overview(); }).observe(box);
        for (const kind of ["pointerdown", "pointermove"]) strip.addEventListener(kind, event => this.fromStrip(/** @type {PointerEvent} */ (event)));
        $("legend").replaceChildren(...Object.entries(SHAPES).flatMap(([kind, shape]) => [s("svg.key", {viewBox: "-7 -7 14 14"}, s(`path.${kind}`, {d: shape(6)})), CALLED[/** @type {keyof typeof CALLED} */ (kind)], " "]), "· order of events, not duration");
    }

    /** Shows a run.
     * @param {Run} run */
    show(run) {
        this.run = run;
        this.chosen = 0;
        this.lanes = new Map(run.actors.map((actor, k) => [actor, k]));
        this.names.replaceChildren(h("div", {style: `height:${HEAD}px`}), ...run.actors.map(actor => h("div.lane-name", {style: `height:${LANE}px`}, actorName(actor))));
        this.box.scrollLeft = this.outer.scrollTop = 0;
        this.grown();
    }

    /** Shows more events of the run. */
    grown() {
        this.wide = this.chosen || Math.min(WIDEST, LARGEST / Math.max(1, this.run?.length ?? 1));
        this.drawn = "";
        this.draw();
        this.overview();
    }

    /** Makes the columns wider or narrower, between the whole run in sight and the widest ones.
     * @param {number} by 0 for the whole run @param {number} at what stays where it is: a place of the box, or else the event */
    zoom(by, at = this.x(this.now) - this.box.scrollLeft) {
        const {box, run} = this, length = Math.max(1, run?.length ?? 1), least = Math.min(WIDEST, (box.clientWidth - 20) / length);
        const here = at < 0 || at > box.clientWidth ? box.clientWidth / 2 : at, event = (box.scrollLeft + here) / this.wide;
        this.chosen = Math.max(least, Math.min(WIDEST, ZOOMED / length, this.wide * by));
        this.grown();
        box.scrollLeft = event * this.wide - here;
        this.draw();
    }

    /** @param {KeyboardEvent} event */
    key(event) {
        const by = /** @type {Record<string, number>} */ ({"+": 2, "=": 2, "-": 0.5, "0": 0})[event.key];
        if (by !== undefined && !event.ctrlKey && !event.metaKey) { event.preventDefault(); this.zoom(by); return; }
        const way = /** @type {Record<string, number>} */ ({ArrowLeft: -1, ArrowRight: 1})[event.key];
        if (!way || !this.run) return;
        event.preventDefault();
        this.go(Math.max(0, Math.min(this.run.length, this.now + way)));
    }

    /** Goes to the event at a place of the strip.
     * @param {PointerEvent} event */
    fromStrip(event) {
        if (!this.run || !event.buttons) return;
        const {left, width} = this.strip.getBoundingClientRect();
        this.go(Math.max(0, Math.min(this.run.length, Math.round((event.clientX - left) / width * this.run.length))));
    }

    /** Marks an event, and brings it into sight.
     * @param {number} event */
    point(event) {
        this.now = event;
        const x = this.x(event), {scrollLeft, clientWidth} = this.box, {outer} = this;
        if (x < scrollLeft + 40 || x > scrollLeft + clientWidth - 80) this.box.scrollLeft = x - clientWidth / 3;
        const y = event && this.run ? this.y(this.run.track.actorOf(event)) : 0;
        if (event && (y < outer.scrollTop + HEAD || y + LANE > outer.scrollTop + outer.clientHeight)) outer.scrollTop = y - outer.clientHeight / 2;
        this.draw();
    }

    /** The middle of an event's column.
     * @param {number} event */
    x(event) { return (event - 0.5) * this.wide; }
    /** The top of an actor's lane.
     * @param {string} actor */
    y(actor) { return HEAD + (this.lanes.get(actor) ?? 0) * LANE; }

    /** Draws what is in sight, unless that is drawn; then the marked event alone is drawn anew. */
    draw() {
        const {run, box, wide} = this, state = `${box.scrollLeft} ${box.clientWidth}`, height = HEAD + this.lanes.size * LANE;
        if (!run) return;
        if (state !== this.drawn) this.sheet(run, height);
        this.drawn = state;
        this.under.replaceChildren(...this.now ? [s("rect.now", {x: this.x(this.now) - wide / 2, y: 0, width: Math.max(wide, 2), height})] : []);
        this.over.replaceChildren(...this.threads());
        this.window();
    }

    /** Draws what is in sight, without the marked event.
     * @param {Run} run @param {number} height */
    sheet(run, height) {
        const {box, wide} = this, first = Math.max(1, Math.floor(box.scrollLeft / wide) - 2), last = Math.min(run.length, Math.ceil((box.scrollLeft + box.clientWidth) / wide) + 2);
        const width = Math.max(box.clientWidth, run.length * wide + 20);
        const seen = run.actors.flatMap((_, k) => run.track.tasksOf(k, first, last).slice(0, DRAWN));
        box.replaceChildren(s("svg", {width, height, role: "img", "aria-label": `${run.length} events in ${this.lanes.size} lanes`},
            ...run.actors.map((actor, k) => s(`rect.lane${k % 2 ? ".odd" : ""}`, {x: 0, y: this.y(actor), width, height: LANE})),
            this.under, ...this.ticks(first, last), ...seen.flatMap(task => this.bar(task)), this.over, ...this.marks(run, first, last)));
    }

    /** @param {number} first @param {number} last */
    ticks(first, last) {
        const least = Math.max(1, 60 / this.wide), power = 10 ** Math.floor(Math.log10(least)), every = [1, 2, 5, 10].map(it => it * power).find(it => it >= least) ?? 10 * power, all = [];
        for (let k = Math.ceil(first / every) * every; k <= last; k += every) all.push(s("text.tick", {x: this.x(k), y: 14}, String(k)));
        return all;
    }

    /** The lines of the marked event's task: from the event that made it, and to the tasks that this event makes. */
    threads() {
        const {run, now} = this;
        if (!run || !now) return [];
        const {task, makes, made} = run.track.fact(now);
        return [task, makes === "task" ? made : 0].flatMap(it => it ? this.thread(it) : []);
    }

    /** The line from the event that made a task to its beginning.
     * @param {number} task */
    thread(task) {
        const run = /** @type {Run} */ (this.run), made = run.track.makerOf("task", task), taken = run.track.takenAt(task);
        if (!made || !taken) return [];
        const [x1, y1, x2, y2] = [this.x(made), this.y(run.track.actorOf(made)) + 30, this.x(taken), this.y(run.track.actorOf(taken)) + 30];
        return [s("path.thread", {d: `M ${x1} ${y1} C ${x2} ${y1} ${x1} ${y2} ${x2} ${y2}`}, s("title", {}, `task ${task}, made at event ${made}, taken at event ${taken}`))];
    }

    /** The bar of a task, with its name where it has room.
     * @param {number} task */
    bar(task) {
        const run = /** @type {Run} */ (this.run), {track} = run, taken = track.takenAt(task), end = track.endOf(task), left = this.x(taken) - this.wide / 2, width = (end - taken + 1) * this.wide;
        const y = this.y(track.actorOf(taken)), name = callName(run.setting.source, track.procedureOf(taken)), from = Math.max(left, this.box.scrollLeft), room = left + width - from;
        const bar = s("rect.bar", {x: left, y: y + 20, width, height: 20, rx: 4}, s("title", {}, `task ${task}: ${name}, events ${taken} to ${end}`));
        return room > 28 ? [bar, s("text.task", {x: from + 3, y: y + 14}, name.slice(0, Math.floor(room / 7)))] : [bar];
    }

    /** @param {Run} run @param {number} first @param {number} last */
    marks(run, first, last) {
        const all = [], stride = Math.max(1, Math.floor(2 / this.wide)), size = Math.max(1, Math.min(7, this.wide / 2 - 3));
        for (let k = first; k <= last; k += stride) {
            const kind = run.track.kindOf(k), text = () => `${k}: ${sentence(run, run.event(k))}`;
            const mark = s(`path.mark.${kind}`, {d: SHAPES[kind](size), transform: `translate(${this.x(k)} ${this.y(run.track.actorOf(k)) + 30})`, onclick: () => this.go(k), onmouseenter: () => { this.caption.textContent = text(); }});
            if (last - first < DRAWN) mark.append(s("title", {}, text()));
            all.push(mark);
        }
        return all;
    }

    /** Draws all events small: a row for each actor. */
    overview() {
        const {run, strip} = this, width = strip.clientWidth;
        strip.hidden = !run || run.length * this.wide <= this.box.clientWidth;
        $("strip-box").hidden = strip.hidden;
        if (!run || strip.hidden || !strip.clientWidth && !width) return;
        strip.width = strip.clientWidth;
        strip.height = Math.max(18, run.actors.length * STRIP);
        strip.style.height = `${strip.height}px`;
        const pen = /** @type {CanvasRenderingContext2D} */ (strip.getContext("2d")), wide = strip.width, seen = run.track.columns(wide);
        pen.fillStyle = getComputedStyle(strip).color;
        seen.forEach((there, k) => { if (there) pen.fillRect(k % wide, Math.floor(k / wide) * STRIP + 1, 1, STRIP - 2); });
        this.window();
    }

    /** Shows in the strip which part is in sight above it. */
    window() {
        const {run, box} = this;
        if (!run || this.strip.hidden) return;
        const all = run.length * this.wide, at = $("strip-window");
        at.style.left = `${box.scrollLeft / all * 100}%`;
        at.style.width = `${Math.max(0.5, Math.min(100, box.clientWidth / all * 100))}%`;
    }
}
