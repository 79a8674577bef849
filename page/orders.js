// @ts-check
// SPDX-License-Identifier: Apache-2.0
// Other orders of events, each by a seed of the library's: shows one, looks for one with other outputs, and asks whether there can be one.
import {$, h} from "./dom.js";
import {readOrder} from "./replies.js";
import {counted, grouped} from "./verdict.js";

/** What can be run.
 * @typedef {{text: string, words: string[], limit: number, outputs: string[], checked: import("./app.js").Checked, setting: import("./run.js").Setting}} Runnable */

/** The orders among which another result is looked for. */
const TRIED = 1000;
const LIMITED = "The limit ended the run, so its result isn't known. Raise the limit.";

/** Returns the words that ask for an order.
 * @param {number} seed 0 for the order in turn */
export const ordered = seed => seed ? ["--in-turn", "--seed", String(seed)] : [];

export class Orders {
    /** @param {import("./library.js").Library} library @param {() => Promise<Runnable | null>} runnable
     * @param {(seed: number) => Promise<string | null>} run runs an order, shows it and returns its report
     * @param {(line: number) => void} lead leads to a line @param {(done: number, all: number) => void} bar */
    constructor(library, runnable, run, lead, bar) {
        this.library = library;
        this.runnable = runnable;
        this.run = run;
        this.lead = lead;
        this.bar = bar;
        /** The seed of the run that is shown. */
        this.shown = 0;
        /** The program with its words whose orders are counted; the seed that was tried last; how many were compared, and how many had the same outputs. */
        this.about = "";
        this.tried = this.all = this.same = 0;
        $("another").addEventListener("click", () => this.busy(this.another()));
        $("other-result").addEventListener("click", () => this.busy(this.search()));
        $("only-result").addEventListener("click", () => this.busy(this.only()));
    }

    /** Marks the page as busy; app.js replaces it.
     * @param {Promise<void>} work */
    busy(work) { return work; }

    /** Notes which run is shown. One in turn begins to count anew.
     * @param {number} seed */
    began(seed) {
        this.shown = seed;
        if (!seed) this.tried = this.all = this.same = 0;
        $("order").textContent = seed ? `Order ${grouped(seed)}.` : "";
    }

    /** Returns the outputs of an order without showing it; null if it was stopped.
     * @param {Runnable} it @param {number} seed */
    async outputs({text, words, limit}, seed) {
        const reply = await this.library.session(["run", "--text", "--limit", String(limit), ...ordered(seed), ...words], text);
        return reply && !reply.failed ? outputsIn(reply.text) : null;
    }

    /** Runs the next order, shows it, and says whether the outputs are those in turn. */
    async another() {
        const it = await this.runnable();
        if (!it) return;
        const about = [it.text, it.limit, ...it.words].join("\0");
        if (about !== this.about) Object.assign(this, {about, tried: 0, all: 0, same: 0});
        const seed = this.tried = Math.max(this.tried, this.shown) + 1, inTurn = await this.outputs(it, 0), report = inTurn === null ? null : await this.run(seed);
        if (report === null) { $("order").textContent = "stopped"; return; }
        const outputs = outputsIn(report), same = inTurn === outputs;
        if (isCut(inTurn) || isCut(outputs)) { $("order").textContent = `Order ${grouped(seed)}. ${LIMITED}`; return; }
        this.all++;
        if (same) this.same++;
        this.say(seed, same, this.all > 1 ? ` Of ${grouped(this.all)} orders ${grouped(this.same)} had the outputs of the run in turn.` : "");
    }

    /** Says what came of an order.
     * @param {number} seed @param {boolean} same @param {string} [more] */
    say(seed, same, more = "") {
        const what = same ? "the outputs are the same" : "the outputs differ: two tasks wanted one subscript, and the first got it. See the insertions that were refused";
        $("order").textContent = `Order ${grouped(seed)}: ${what}.${more}`;
    }

    /** Shows the first order whose outputs aren't those in turn, of some. */
    async search() {
        const it = await this.runnable(), inTurn = it && await this.outputs(it, 0);
        if (!it) return;
        if (isCut(inTurn)) { $("order").textContent = LIMITED; return; }
        let cut = 0;
        for (let seed = 1; seed <= TRIED; seed++) {
            this.bar(seed, TRIED);
            $("order").textContent = `Order ${grouped(seed)} of ${grouped(TRIED)} is tried ..`;
            const outputs = inTurn === null ? null : await this.outputs(it, seed);
            if (outputs === null) { this.bar(0, 0); $("order").textContent = "stopped"; return; }
            if (isCut(outputs)) cut++;
            else if (outputs !== inTurn) { await this.run(seed); this.say(seed, false); return; }
        }
        this.bar(0, 0);
        $("order").textContent = `${counted(TRIED - cut, "order")} had the outputs of the run in turn.${cut ? ` The limit ended ${grouped(cut)} others.` : ""}`;
    }

    /** Says whether outputs can depend on the order of events, and leads to the line that may make them. */
    async only() {
        const it = await this.runnable(), reply = it && await this.library.session(["run", "--text", "--order", "--limit", String(it.limit), ...it.words], it.text);
        if (!it) return;
        const order = reply && readOrder(reply.text, it.checked.source);
        $("order").replaceChildren(...order ? this.answer(order, it.checked.source) : [isCut(reply?.text ?? "") ? LIMITED : "stopped"]);
    }

    /** @param {import("./replies.js").EventOrder} order @param {import("./source.js").Source} source */
    answer({same, line}, source) {
        if (same) return ["This is the only result: no order of events has other outputs."];
        const leads = h("button.link", {id: "contested", onclick: () => this.lead(line)}, `line ${line + 1}`);
        return ["There may be other results: tasks may want one subscript in ", leads, `, ${(source.text[line] ?? "").trim()}.`];
    }
}

/** Returns the lines of a report that are its outputs and its end.
 * @param {string} report */
const outputsIn = report => report.replace(/^(waits|rule) .*\n/gm, "");

/** Returns whether the limit ended a run, so that its outputs say nothing of another order.
 * @param {string | null} report */
const isCut = report => /^limit$/m.test(report ?? "");
