// SPDX-License-Identifier: Apache-2.0
// Makes a run, and prints it as a trace for Chrome's and Perfetto's viewers, like the page's button.
// Usage: chrome_of.js TW FILE [WORDS OF tw run].. Inputs are words with their type, such as int:39.
import {spawnSync} from "node:child_process";
import fs from "node:fs";
import path from "node:path";
import {chromeTrace} from "./chrome.js";
import {decode} from "./program.js";
import {readTrace} from "./replies.js";
import {Run} from "./run.js";
import {namings, scan} from "./source.js";
import {readInput} from "./values.js";

const [tw, file, ...words] = process.argv.slice(2);

/** Prints why there is no trace, and ends.
 * @param {string} why @returns {never} */
function fail(why) {
    process.stderr.write(`chrome_of: ${why}\n`);
    process.exit(1);
}

/** Returns what a command of tw prints about the program.
 * @param {string[]} asked */
function ask(...asked) {
    const done = spawnSync(tw, asked, {input, maxBuffer: 1 << 28});
    return done.error ? fail(done.error.message) : done.stdout.toString();
}

/** Returns how many actors an option sets, as `--workers 4` or `--workers=4`.
 * @param {string} option */
function actors(option) {
    const at = words.findIndex(it => it === option || it.startsWith(`${option}=`));
    return at < 0 ? 1 : Number(words[at] === option ? words[at + 1] : words[at].slice(option.length + 1));
}

if (!file) fail("usage: chrome_of.js TW FILE [WORDS OF tw run]..");
if (!fs.existsSync(file)) fail(`${file} isn't there`);
const input = fs.readFileSync(file, "utf8"), plain = ask("asm", "--names", "--plain"), source = scan(input, plain), {trace, report} = readTrace(ask("run", "--text", "--trace", ...words));
if (!trace) fail(report.trim() || "the run has no trace");
const program = decode(ask("asm", "--names")), inputs = words.flatMap(word => readInput(word) ?? []);
if (inputs.length !== program[0].params.filter(({mode}) => mode !== "write").length) fail("inputs are words with their type, such as int:39");
const setting = {program, source, names: namings(source, plain), inputs, engines: actors("--engines"), servers: actors("--servers"), workers: actors("--workers")};
process.stdout.write(chromeTrace(new Run(setting).follow(trace), path.parse(file).name));
