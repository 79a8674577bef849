// @ts-check
// SPDX-License-Identifier: Apache-2.0
// Writes a script for Python that makes the page's run with the package yuglemit.
import {readInput} from "./values.js";

/** Returns a value as Python writes it. Texts are as in JSON, which Python reads alike.
 * @param {any} value @returns {string} */
function literal(value) {
    if (value instanceof Map) return `{${[...value].map(([by, it]) => `${literal(by)}: ${literal(it)}`).join(", ")}}`;
    return typeof value === "bigint" ? String(value) : JSON.stringify(value);
}

/** Returns the script.
 * @param {import("./share.js").Kept} run @param {string} title */
export function pythonOf({text, inputs, layout: [engines, servers, workers, limit], seed}, title) {
    const given = inputs.flatMap(word => readInput(word) ?? []).map(it => literal(it.value)), lines = text.split("\n").map(line => `    ${JSON.stringify(line)},\n`);
    const options = Object.entries({engines, servers, workers, limit, ...seed ? {seed} : {}}).map(([name, it]) => `${name}=${it}`);
    return `"""Makes a run of ${title} with the package yuglemit, and prints its report."""\nimport yuglemit\n\nTEXT = "\\n".join([\n${lines.join("")}])\n\nreport = yuglemit.load_text(TEXT).run(${[...given, ...options].join(", ")})\nprint(report.text, end="")\n`;
}
