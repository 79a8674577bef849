// @ts-check
// SPDX-License-Identifier: Apache-2.0
// Shows the state after an event: running tasks, what waits, and data.
import {$, h} from "./dom.js";
import {actorName, compared} from "./model.js";
import {draw} from "./diagram.js";

/** @typedef {import("./model.js").View} View */
/** @typedef {import("./model.js").Row} Row */
/** @typedef {import("./model.js").Table} Table */
/** @typedef {import("./model.js").Running} Running */
/** The handlers for a picked datum or line.
 * @typedef {{pickDatum: (id: number) => void, pickLine: (line: number) => void}} Picks */

/** The most rows of a table that are shown, and the most registers of a task before those that are unchanged are folded away. */
const MOST = 150, REGISTERS = 6;
/** Which folded parts the reader has opened. */
const opened = new Set();

/** Returns a part that can be folded; it stays as the reader left it.
 * @param {string} key @param {string} title @param {HTMLElement} inside @param {boolean} open */
function folded(key, title, inside, open) {
    const made = /** @type {HTMLDetailsElement} */ (h("details", {}, h("summary", {}, title), inside));
    made.open = open !== opened.has(key);
    made.addEventListener("toggle", () => { if (made.open === open) opened.delete(key); else opened.add(key); });
    return made;
}

/** Returns a row of a table.
 * @param {Row} row @param {Picks} picks */
function rowOf(row, picks) {
    const cells = row.cells.map((text, k) => {
        if (k || row.datum === undefined || row.gone) return h("td", {}, text);
        const title = `step through the events of datum ${row.datum}`;
        return h("td", {}, h("button.link", {title, "aria-label": `${text}: ${title}`, onclick: () => picks.pickDatum(row.datum ?? 0)}, text));
    });
    if (row.changed) cells[cells.length - 1].append(h("span.hidden", {}, " (changed)"));
    if (row.gone) cells[cells.length - 1].append(h("span.hidden", {}, " (gone)"));
    return h(`tr.${row.gone ? "gone" : row.changed ? "changed" : ""}`, {}, ...cells);
}

/** Returns a table of rows, or null where there are none.
 * @param {string} caption @param {string[]} heads @param {Row[]} rows @param {number} all @param {Picks} picks */
function table(caption, heads, rows, all, picks) {
    if (!rows.length) return null;
    const body = h("tbody", {}, ...rows.slice(0, MOST).map(row => rowOf(row, picks)));
    if (all > MOST) body.append(h("tr", {}, h("td", {colspan: heads.length}, `.. and ${all - MOST} more`)));
    return h("div.scroller", {tabindex: 0, role: "group", "aria-label": caption},
        h("table", {}, h("caption", {}, caption), h("thead", {}, h("tr", {}, ...heads.map(it => h("th", {scope: "col"}, it)))), body));
}

/** Returns a table with what differs from the one before.
 * @param {string} caption @param {string[]} heads @param {Table} now @param {Table} before @param {Picks} picks */
const difference = (caption, heads, now, before, picks) => table(caption, heads, compared(now.rows, before.rows), now.all, picks);

/** Returns the tables of a task's registers: of many, those that didn't change are folded away.
 * @param {Row[]} rows @param {Picks} picks */
function registers(rows, picks) {
    const heads = ["name", "type or right", "value or datum"], changed = rows.filter(it => it.changed || it.gone);
    const all = table("registers", heads, rows, rows.length, picks);
    if (rows.length <= REGISTERS || !all) return [all];
    return [table("changed registers", heads, changed, changed.length, picks), folded("registers", `all ${rows.length} registers`, all, false)];
}

/** Returns the card of an actor that runs a task.
 * @param {Running} now @param {Running | undefined} before @param {Picks} picks */
function card(now, before, picks) {
    const rows = compared([...now.values, ...now.rights], before && before.title === now.title ? [...before.values, ...before.rights] : []);
    return h("article.card", {"aria-label": actorName(now.actor)},
        h("h4", {}, h("span.chip", {}, now.actor), ` ${actorName(now.actor)}, ${now.title}`),
        h("p.faint", {}, now.spent, now.next ? "; next: " : "", now.next ? h("button.link", {title: `step through the events of line ${now.line + 1}`, onclick: () => picks.pickLine(now.line)}, `${now.line + 1}: ${now.next}`) : ""),
        ...registers(rows, picks));
}

/** Returns a part of the state, with its title.
 * @param {string} title @param {...(Node | null)} children */
const part = (title, ...children) => h("section.part", {}, h("h3", {}, title), ...children);

/** Shows a state, with what differs from the one before, and its diagram if it has one.
 * @param {View} now @param {View} before @param {import("./diagram.js").Diagram | null} diagram @param {Picks} picks */
export function show(now, before, diagram, picks) {
    const cards = now.running.map(it => card(it, before.running.find(old => old.actor === it.actor), picks));
    const idle = now.idle.length ? h("p.faint", {}, `no task: ${now.idle.map(actorName).join(", ")}`) : null;
    const waiting = [
        difference("rules: tasks that wait for data", ["rule", "task", "waits for", "of"], now.rules, before.rules, picks),
        difference("tasks that wait for an engine, the best first", ["task", "call", "priority", "for"], now.control, before.control, picks),
        difference("tasks that wait for a worker, the best first", ["task", "call", "priority", "for"], now.leaf, before.leaf, picks),
        difference("messages on their way", ["from", "message", "to"], now.notices, before.notices, picks),
    ].filter(it => it);
    $("state").replaceChildren(part("Running", ...cards, idle), part("Waiting", ...waiting.length ? waiting : [h("p.faint", {}, "nothing waits")]));
    showData(now, before, diagram, picks);
}

/** Shows the data of a state, as a diagram if they are few, and as a table.
 * @param {View} now @param {View} before @param {import("./diagram.js").Diagram | null} diagram @param {Picks} picks */
function showData(now, before, diagram, picks) {
    const all = difference("data that are alive", ["id", "name", "type", "content", "state", "readers / writers", "waited for by"], now.data, before.data, picks) ?? h("p.faint", {}, "no data are alive");
    const shown = diagram ? [draw(diagram, picks.pickDatum), h("p.faint", {}, "Arrows: filled, a right to write; open, to read; dashed, a rule waits for it."), folded("data", "the data as a table", all, false)] : [all];
    const refused = now.refused.length ? part("Insertions that were refused", h("ul", {}, ...now.refused.map(it => h("li", {}, it)))) : null;
    $("data").replaceChildren(part("Data", ...shown), ...refused ? [refused] : [], part("Outputs so far", h("pre.out", {tabindex: 0, "aria-label": "outputs so far"}, now.outputs)));
}
