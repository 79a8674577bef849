// @ts-check
// SPDX-License-Identifier: Apache-2.0
// Shows what a run answered.
import {$, h} from "./dom.js";

/** What a run answered: its report and its trace; with its words, its program, its limit, the seed of its order, and whether the trace is a file's.
 * @typedef {{report: string, trace: string, words: string[], text: string, limit: number, seed: number, read: boolean}} Answer */

/** The most characters of a report that are shown. */
export const SHOWN = 200000;

export class Results {
    constructor() {
        /** @type {Answer} */
        this.last = {report: "", trace: "", words: [], text: "", limit: 10000, seed: 0, read: false};
    }

    /** @param {Answer} last */
    take(last) { this.last = last; }

    /** Shows a report, with how the run ended, and its outputs in words.
     * @param {string} report @param {string} kind @param {string} words @param {string[]} outputs */
    show(report, kind, words, outputs = []) {
        $("out").className = `out ${kind}`;
        $("out").textContent = report.length > SHOWN ? `${report.slice(0, SHOWN)}\n.. ${report.length - SHOWN} characters more; the download has them` : report;
        $("out").hidden = !report;
        $("ended").textContent = words;
        $("results").replaceChildren(...outputs.slice(0, 16).map(it => h("li", {}, it.length > 300 ? `${it.slice(0, 300)}..` : it)));
        for (const id of ["answer-why", "numbers"]) $(id).hidden = true;
        this.circle(report);
    }

    /** Shows the rules of a circle.
     * @param {string} report */
    circle(report) {
        const links = [...report.matchAll(/^waits (\d+) (\d+) (\d+)/gm)], made = new Map([...report.matchAll(/^rule (\d+) .*?, made (at line .*)$/gm)].map(it => [it[1], ` (${it[2]})`]));
        $("circle").hidden = !links.length;
        $("circle-rules").replaceChildren(...links.slice(0, 200).map(it => h("li", {}, `rule ${it[1]}${made.get(it[1]) ?? ""} waits for datum ${it[2]}, which rule ${it[3]} would write`)));
    }
}
