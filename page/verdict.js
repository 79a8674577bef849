// @ts-check
// SPDX-License-Identifier: Apache-2.0
// The sentences about a check and about the end of a run.
import {h} from "./dom.js";
import {readExplanation} from "./replies.js";
import {callName} from "./source.js";

/** @typedef {import("./replies.js").Verdict} Verdict */
/** @typedef {import("./replies.js").Rejection} Rejection */
/** @typedef {import("./library.js").Library} Library */

/** Returns a number with commas.
 * @param {string | number | bigint} number */
export const grouped = number => BigInt(number).toLocaleString("en");

/** Returns a count with its noun.
 * @param {number} count @param {string} noun */
export const counted = (count, noun) => `${grouped(count)} ${noun}${count === 1 ? "" : "s"}`;

/** Returns the sentence of a program that is accepted.
 * @param {Verdict} verdict @param {import("./source.js").Source} source @param {bigint | null} most its events
 * @param {{limit: number, rules: boolean}} run the limit of its events, and whether it has a RULE */
export function accepted({budgets, engines, workers, order}, source, most, {limit, rules}) {
    const budget = budgets.slice(0, 3).map(it => `${callName(source, it.procedure)} ${grouped(it.budget)}`.replace(/(\d)(?= \S+$)/, "$1:")).join(", "), more = budgets.length > 3 ? " and others" : "";
    const needs = [engines > 1 && `${engines} engines`, workers > 1 && `${workers} workers`].filter(it => it).join(" and ");
    const events = most === null ? "Its tasks start one another in a circle, so the limit ends a run." : `A run has at most ${grouped(most)} events.`;
    const ends = [rules && "get stuck", (most === null || most > BigInt(limit)) && "reach its limit"].filter(it => it).join(", or ");
    return `Accepted: no task of it can fail.${ends && ` A run may still ${ends}.`} Budgets: ${budget}${more}. ${events}${needs ? ` It needs ${needs}.` : ""}${order ? ` ${orderOf(order)}` : ""}`;
}

/** Returns a sentence with its full stop.
 * @param {string} words */
export const stopped = words => /[.?!:]$/.test(words) ? words : `${words}.`;

/** Returns the sentence about the order of events.
 * @param {import("./replies.js").EventOrder} order */
const orderOf = ({same, line}) => same ? "All its runs that end have the same outputs, in every order of events." : `Its outputs may depend on the order of events, by line ${line + 1}.`;

/** Returns the sentence about a rejection. A budget's numbers have commas, as elsewhere.
 * @param {Rejection} rejection */
export function refusedAt({number, line, reason}) {
    const said = number === "V17" ? reason.replace(/\d{5,}/g, grouped) : reason;
    return `Refused by ${number}${line >= 0 ? ` in line ${line + 1}` : ""}${said && `: ${said}`}`;
}

/** Shows what a rejection's code means.
 * @param {Library} library @param {HTMLElement} box @param {Rejection | null} rejection */
export async function explain(library, box, rejection) {
    const reply = rejection && await library.session(["explain", rejection.number], "");
    box.hidden = !reply || reply.status !== 0;
    if (!rejection || !reply || reply.status !== 0) return;
    const {meaning, parts} = readExplanation(reply.text);
    box.replaceChildren(h("b", {}, `${rejection.number}: `, ...coded(meaning)), h("dl", {}, ...parts.flatMap(([name, words]) => [h("dt", {}, name), h("dd", {}, ...coded(words))])));
}

/** Returns words with the parts between backticks as code.
 * @param {string} words */
export const coded = words => words.split("`").map((part, k) => k % 2 ? h("code", {}, part) : part);

/** How runs end, by the exit status.
 * @type {Record<number, string>} */
const ENDS = {0: "Done: nothing is left to do.", 3: "Stuck: rules wait for one another.", 4: "Ended by the limit of events.", 5: "Memory ran out."};
/** @param {number} status @param {Rejection | null} rejection */
export const endOf = (status, rejection) => rejection ? `Not run: ${rejection.number}.` : ENDS[status] ?? `Status ${status}.`;

/** Returns the outputs of a report with their names, as `answer = 12`; containers show their members.
 * @param {string} report @param {string[]} names */
export function outputsOf(report, names) {
    return [...report.matchAll(/^out (\d+) (.*)\n((?: {2}.*\n)*)/gm)].map(([, number, what, members]) => {
        const name = names[+number] ?? `output ${number}`, value = /^(?:int|text) (.*)$/.exec(what)?.[1];
        if (value !== undefined) return `${name} = ${value}`;
        if (what === "unset") return `${name} isn't written`;
        const all = members.split("\n").filter(it => it).map(it => it.replace(/^ {2}at (".*?[^\\]"|""|\S+) (?:int|text) /, "$1: ").trim());
        return `${name} = {${all.slice(0, 20).join(", ")}${all.length > 20 ? ", .." : ""}}${/ open /.test(what) ? ", still open" : ""}`;
    });
}
