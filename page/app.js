// @ts-check
// SPDX-License-Identifier: Apache-2.0
// Connects the parts of the page: checks the text as it is typed, and runs it.
import {mostEvents} from "./bounds.js";
import {Breaking} from "./breaking.js";
import {Completion} from "./complete.js";
import {Contents} from "./contents.js";
import {$, h} from "./dom.js";
import {Editor, LARGE} from "./editor.js";
import {Fields} from "./fields.js";
import {Files} from "./files.js";
import {Following} from "./follow.js";
import {hintFor} from "./hints.js";
import {arrowKeys, print} from "./keys.js";
import {Learning} from "./learning.js";
import {Library} from "./library.js";
import {Manual} from "./manual.js";
import {Opening, sure} from "./opening.js";
import {ordered, Orders} from "./orders.js";
import {load} from "./own.js";
import {decode} from "./program.js";
import {Programs} from "./programs.js";
import {readPlaces, readRejection, readTrace, readVerdict} from "./replies.js";
import {Results} from "./results.js";
import {linked} from "./share.js";
import {nameAt, namings, scan} from "./source.js";
import {Stepper} from "./stepper.js";
import {Timeline} from "./timeline.js";
import {Tour} from "./tour.js";
import {readInput} from "./values.js";
import {accepted, coded, counted, endOf, explain, grouped, outputsOf, refusedAt, stopped} from "./verdict.js";

/** @typedef {import("./contents.js").Page} Page */
/** @typedef {import("./contents.js").Group} Group */
/** @typedef {import("./replies.js").Verdict} Verdict */
/** The result of a check.
 * @typedef {{text: string, source: import("./source.js").Source, verdict: Verdict, places: Map<number, [string, string][]>, names: import("./source.js").Naming[], program: import("./program.js").Procedure[] | null}} Checked */

/** The groups of examples, and the scripts of threads; the build puts them here.
 * @type {Group[]} */
const GROUPS = /*@EXAMPLES@*/ [];
const WORKER = /*@WORKER@*/ "", FOLLOWER = /*@FOLLOWER@*/ "";

const PAUSE = 120;
const editor = new Editor($("text"), $("paint"), $("gutter"));
const library = new Library(WORKER, busy => { stoppable(busy); });
const following = new Following(FOLLOWER);
const fields = new Fields($("inputs"), () => { asTyped(false); });
const stepper = new Stepper(editor, () => { if (!stepper.timer) contents.save(); });
const timeline = new Timeline($("lane-names"), $("lanes"), $("mark"), event => { stepper.stop(); stepper.go(event); });
const contents = new Contents(editor, fields, GROUPS, () => ({event: stepper.at, seed: orders.shown}));
const results = new Results();
const learning = new Learning(editor, contents, text => during(openText(text)));
const completion = new Completion(editor, () => checked?.source ?? null);
const files = new Files(library, editor, contents, results, () => stepper.run);
const orders = new Orders(library, () => runnable(), seed => run(0, false, seed), line => lead(line), bar);
const programs = new Programs(contents, say, (page, remembered) => open(page, remembered));
const opening = new Opening(library, say, (program, trace, layout, name) => opened(program, trace, layout, name));
const breaking = new Breaking(library, contents, editor, {check: () => check(), leave: () => stepper.leave(), undo: () => restore(() => contents.undo())});
const tour = new Tour(), manual = new Manual();

/** @type {Checked | null} */
let checked = null;
let asked = 0, typing = 0, shows = 0, read = "";

/** Shows a message below the head of the page.
 * @param {string} words */
function say(words) { $("said").textContent = words; }

/** Marks the page as busy until some work is done; tests wait for it.
 * @param {Promise<any>} work */
async function during(work) {
    document.body.dataset.state = "busy";
    const mine = ++asked;
    await work;
    if (mine === asked) document.body.dataset.state = "ready";
}

/** Enables Stop while something can be stopped.
 * @param {boolean} busy */
function stoppable(busy) { /** @type {HTMLButtonElement} */ ($("stop")).disabled = !busy && !following.worker; }

/** Restores contents, and shows their event.
 * @param {() => Page | null} take */
async function restore(take) {
    const what = take();
    if (!what) return;
    breaking.forget();
    say("Your program is back as it was.");
    await during(shown(what, false));
}

/** Checks and runs what was put on the page, unless it is large. If it can't be run, no other program's run stays there.
 * @param {Page} page @param {boolean} playing */
async function shown(page, playing) {
    const before = shows, isLarge = editor.text.length > LARGE;
    if (isLarge) unread();
    else { await check(); await run(page.event, playing, page.seed); }
    contents.save();
    if (shows !== before) return;
    for (const id of ["controls", "running", "data", "state"]) $(id).hidden = true;
    stepper.run = null;
}

/** Puts the cursor on a line, and brings it into sight.
 * @param {number} line */
function lead(line) {
    const at = editor.lines.slice(0, line).reduce((sum, it) => sum + it.length + 1, 0);
    editor.field.focus();
    editor.field.setSelectionRange(at, at + (editor.lines[line] ?? "").length);
    editor.reveal(line);
}

// As one types.

/** Checks the text at the next pause in typing.
 * @param {boolean} edited whether the text changed */
function asTyped(edited) {
    if (edited || stepper.run) stepper.leave();
    document.body.dataset.state = "busy";
    clearTimeout(typing);
    contents.save();
    if (editor.text.length > LARGE) unread();
    else typing = setTimeout(() => during(check()), PAUSE);
}

/** Takes a large text that is pasted, if it is wanted, as a program of its own.
 * @param {InputEvent} event */
function pasted(event) {
    const {field} = editor, data = event.data ?? "";
    if (editor.setting || data.length <= LARGE) return;
    event.preventDefault();
    if (sure("The pasted text", data.length)) open(contents.fresh(field.value.slice(0, field.selectionStart) + data + field.value.slice(field.selectionEnd)));
}

/** Says that a large text is checked only when it is run. */
function unread() {
    checks++;
    asked++;
    checked = null;
    for (const id of ["why", "perhaps"]) $(id).hidden = true;
    cannot(`The text has ${Math.round(editor.text.length / LARGE)} MB. Run checks it, and then runs it.`);
    document.body.dataset.state = "ready";
}

let checks = 0;
/** Checks the text, and shows the verdict. */
async function check() {
    clearTimeout(typing);
    const mine = ++checks, text = editor.text;
    const replies = await Promise.all([["check", "--text", "--order"], ["check", "--text", "--places"], ["asm", "--names"], ["asm", "--names", "--plain"]].map(words => library.session(words, text)));
    if (mine !== checks) return;
    const trouble = replies.find(it => !it || it.failed);
    if (trouble !== undefined) { cannot(trouble?.failed ?? "The check was stopped."); return; }
    const [judged, listed, bytes, plain] = replies.map(it => it?.text ?? ""), source = scan(text, plain), verdict = readVerdict(judged, source);
    const program = replies[2]?.status === 0 ? decode(bytes) : null;
    checked = {text, source, verdict, places: readPlaces(listed, source), names: program ? namings(source, plain) : [], program};
    if (program) fields.ask(program, parameterNames(checked));
    await showVerdict(checked);
}

/** Returns the names of main's parameters.
 * @param {Checked} it */
function parameterNames({program, names, source}) {
    return (program?.[0].params ?? []).map((_, k) => nameAt(names, 0, source.heads[0], `d${k}`));
}

/** Returns the names of main's outputs.
 * @param {Checked} it */
const outputNames = it => parameterNames(it).filter((_, k) => it.program?.[0].params[k].mode === "write").map((name, k) => /^d\d+$/.test(name) ? `output ${k}` : name);

/** Shows the verdict: beside the heads, at the fault, and below the text.
 * @param {Checked} it */
async function showVerdict({verdict, source, program}) {
    const {rejection, further, budgets} = verdict, heads = new Map(budgets.map(({procedure, budget, more}) => [source.heads[procedure], `budget ${grouped(budget)}${more ? `, ${more}` : ""}`]));
    const most = verdict.accepted && program ? mostEvents(program) : null, hint = rejection ? hintFor(rejection, source) : "";
    if (most !== null) heads.set(source.heads[0], `${heads.get(source.heads[0])}, run ${grouped(most)}`);
    editor.mark({faults: faultsOf(rejection ? [rejection, ...further] : []), heads});
    $("text").setAttribute("aria-invalid", String(!!rejection));
    $("verdict").className = verdict.accepted ? "good" : "bad";
    $("verdict").replaceChildren(...verdict.accepted ? [accepted(verdict, source, most, {limit: fields.layout[3], rules: (program ?? []).some(({code}) => code.some(({name}) => name.startsWith("RULE")))})] : rejection ? [stopped(refusedAt(rejection)), ...coded(hint && ` ${hint}`)] : [verdict.text]);
    $("stale").textContent = `This run is of the program or the inputs before your change. ${verdict.accepted ? "Press Run." : "Repair the program, then press Run."}`;
    $("perhaps").hidden = !further.length;
    $("perhaps-list").replaceChildren(...further.map(({line, number, reason}) => h("li", {}, h("button.link", {onclick: () => lead(line)}, `line ${line + 1}`), `: ${number}${reason && `: ${reason}`}`)));
    await explain(library, $("why"), rejection);
    learning.showPython();
    showHeld();
}

/** Returns what is wrong in lines. All errors but the first are so only perhaps.
 * @param {import("./replies.js").Rejection[]} all */
const faultsOf = all => new Map(all.filter(it => it.line >= 0).map(({line, from, to, number, reason}, k) => [line, {from, to, perhaps: k > 0, message: `${k ? "perhaps " : ""}${number}: ${reason || "see below"}`}]));

/** Reports that the library doesn't answer.
 * @param {string} words */
function cannot(words) {
    $("verdict").className = "bad";
    $("verdict").textContent = words;
}

/** Shows the rights that are held at the cursor's line, in the margin and below the text, and what its word means. */
function showHeld() {
    learning.helpAtCursor();
    if (!checked || checked.text !== editor.text) return;
    const {line} = editor, {source, places, names} = checked, at = source.lines[line];
    const rights = (places.get(line) ?? []).map(([register, right]) => `${nameAt(names, at.procedure, line - 1, register)} ${right}`);
    const text = at?.kind !== "instruction" ? "" : rights.length ? rights.join(" · ") : places.has(line) ? "no rights" : "";
    $("held").textContent = text ? `Line ${line + 1} has: ${text}` : "";
    editor.mark({held: text && rights.length ? {line, text} : null});
}

// Runs.

/** Returns the checked program with its words, if it can be run; else says why not. */
async function runnable() {
    if (!checked || checked.text !== editor.text) await check();
    const it = checked;
    if (!it || it.text !== editor.text || !it.program) { if (it && !it.program) refuse(); return null; }
    if (!it.verdict.accepted) { refuse(); return null; }
    const wrong = fields.wrong();
    if (wrong) { results.show("", "bad", `${wrong} It isn't run.`); return null; }
    const [engines, servers, workers, limit] = fields.layout, inputs = fields.words().flatMap(word => readInput(word) ?? []);
    return {text: it.text, words: [...fields.options, ...fields.words()], limit, outputs: outputNames(it), checked: it, setting: {program: it.program, source: it.source, names: it.names, places: it.places, inputs, engines, servers, workers}};
}

/** Says that a program that is refused isn't run. */
function refuse() {
    results.show("", "bad", "The checker refuses it, so it isn't run. Repair the program, then press Run.");
    stepper.leave();
}

let runs = 0;
/** Runs the program, shows one of the events, and returns the report; null if it was stopped.
 * @param {number} event @param {boolean} playing @param {number} seed of the order of events; 0 for the one in turn
 * @returns {Promise<string | null>} */
async function run(event, playing, seed = 0) {
    const it = await runnable();
    if (!it) return null;
    const mine = ++runs;
    following.stop();
    $("trace-read").hidden = true;
    orders.began(seed);
    progress(0, 0);
    results.show("", "", "running ..");
    const reply = await library.session(["run", "--text", "--trace", "--limit", String(it.limit), ...ordered(seed), ...it.words], it.text);
    if (mine !== runs) return null;
    if (!reply || reply.failed) { results.show("", "bad", reply?.failed ?? "stopped"); return null; }
    const {trace, report} = readTrace(reply.text), rejection = readRejection(report, it.checked.source);
    results.take({report, trace, words: it.words, text: it.text, limit: it.limit, seed, read: false});
    results.show(report, reply.status ? "bad" : "good", `${endOf(reply.status, rejection)} ${counted(linesIn(trace), "event")}, ${reply.ms.toFixed(1)} ms.`, outputsOf(report, it.outputs));
    await explain(library, $("answer-why"), rejection);
    if (rejection) stepper.leave();
    else await show(it.setting, trace, event, playing);
    return report;
}

/** Returns the number of lines of a trace.
 * @param {string} trace */
function linesIn(trace) {
    let count = 0;
    for (let at = trace.indexOf("\n"); at >= 0; at = trace.indexOf("\n", at + 1)) count++;
    return count;
}

/** Follows a trace, and shows one of its events as soon as it is there.
 * @param {import("./run.js").Setting} setting @param {string} trace @param {number} event @param {boolean} playing */
async function show(setting, trace, event, playing) {
    const all = linesIn(trace);
    let shown = false;
    shows++;
    const work = following.follow(setting, trace, (made, part) => {
        if (shown) stepper.grown(part);
        else { for (const id of ["controls", "running", "data", "state"]) $(id).hidden = false; stepper.take(made, setting.places ?? new Map(), part ? 0 : event); }
        if (part && !shown && event) stepper.go(Math.min(event, made.length));
        shown = true;
        progress(made.length, part && made.length < all ? all : 0);
        if (!part && playing && !matchMedia("(prefers-reduced-motion: reduce)").matches) stepper.play(true);
    });
    stoppable(false);
    const whole = await work;
    stepper.grown(false);
    progress(stepper.run?.length ?? 0, 0, whole);
    if (whole && event > stepper.at && stepper.at === 0) stepper.go(Math.min(event, stepper.run?.length ?? 0));
    stoppable(false);
}

/** Shows how far a run is followed.
 * @param {number} event @param {number} all 0 if that's done @param {boolean} whole */
function progress(event, all, whole = true) {
    bar(event, all);
    $("followed").textContent = all ? `following event ${grouped(event)} of ${grouped(all)}` : whole ? "" : `followed up to event ${grouped(event)}, then stopped`;
}

/** Shows how much of some work is done.
 * @param {number} done @param {number} all 0 if that's all of it */
function bar(done, all) {
    const it = /** @type {HTMLProgressElement} */ ($("following"));
    it.hidden = !all;
    it.max = all || 1;
    it.value = done;
}

// The beginning.

/** Puts an example, or a program of the reader's own, on the page, and runs it.
 * @param {Page | null} page @param {boolean} remembered whether Undo has what was there */
async function open(page, remembered = false) {
    if (!page) return;
    if (!remembered) contents.remember();
    breaking.forget();
    contents.put(page, true);
    say("");
    await during(shown(page, page.event === 0));
}

/** Puts a file's program on the page, as an own one, and follows its trace if it has one. A trace alone is taken for one of the program that is there.
 * @param {string} program @param {string} trace @param {number[]} layout @param {string} name */
async function opened(program, trace, layout, name) {
    const alone = trace !== "" && !program.trim();
    if (alone) fields.layout = layout;
    else {
        await open({...contents.fresh(program), layout});
        contents.keepAs(name);
    }
    read = trace;
    $("trace-read").hidden = !trace;
    if (alone || trace && !fields.words().length) await during(followRead());
}

/** Follows the trace that was read from a file, once the library has replayed it. */
async function followRead() {
    const it = await runnable();
    if (!it) return;
    const reply = await library.session(["replay", "--text", ...it.words], `${it.text}\nevents\n${read}end\n`), report = reply?.text ?? "";
    const wrong = !reply || reply.failed || [1, 2, 6].includes(reply.status) && !/^running$/m.test(report);
    results.show(report, wrong ? "bad" : "good", wrong ? "The trace isn't one of this program, with these inputs and actors." : `The trace of the file: ${counted(linesIn(read), "event")}.`, outputsOf(report, it.outputs));
    if (wrong) { stepper.leave(); return; }
    $("trace-read").hidden = true;
    results.take({report, trace: read, words: it.words, text: it.text, limit: it.limit, seed: 0, read: true});
    await show(it.setting, read, 0, false);
}

/** Puts a text on the page, such as an instruction's example, and runs it.
 * @param {Page} page */
const openText = page => open(page);

/** Connects buttons, fields and keys. */
function bind() {
    const {pick, spelling} = contents;
    pick.addEventListener("focus", () => contents.list());
    pick.addEventListener("change", () => open(contents.listed(pick.value, "names")));
    spelling.addEventListener("change", () => open(contents.listed(contents.example.split(" ")[0], spelling.value)));
    $("text").addEventListener("input", event => {
        if (editor.setting) return;
        contents.edited(/^history/.test(/** @type {InputEvent} */ (event).inputType ?? ""));
        asTyped(true);
    });
    $("text").addEventListener("beforeinput", event => pasted(/** @type {InputEvent} */ (event)));
    for (const kind of ["keyup", "click", "focus"]) $("text").addEventListener(kind, () => showHeld());
    for (const id of ["run", "again"]) $(id).addEventListener("click", () => during(run(0, true)));
    $("stop").addEventListener("click", () => { library.stop(); following.stop(); });
    $("undo").addEventListener("click", () => restore(() => contents.undo()));
    $("redo").addEventListener("click", () => restore(() => contents.redo()));
    $("share").addEventListener("click", () => files.share());
    $("share-file").addEventListener("click", () => during(files.give("text")));
    $("tour").addEventListener("click", () => { stepper.stop(); tour.begin(); });
    $("stats").addEventListener("click", () => during(files.numbers()));
    for (const button of document.querySelectorAll("[data-give]")) button.addEventListener("click", () => during(files.give(button.getAttribute("data-give") ?? "")));
    breaking.buttons(work => during(work));
    $("follow-trace").addEventListener("click", () => during(followRead()));
    orders.busy = work => during(work);
    document.addEventListener("keydown", event => { if (event.key === "Enter" && (event.ctrlKey || event.metaKey)) { event.preventDefault(); during(run(0, true)); } });
    addEventListener("hashchange", () => { if (/^#p=/.test(location.hash)) location.reload(); else manual.open(location.hash); });
    stepper.timeline = timeline;
    editor.online = line => stepper.online(line);
    completion.bind();
    arrowKeys();
    print(editor);
}

/** Returns what the page shows at first: the example of the address, its link, the last own program, or the first example. */
async function first() {
    const wanted = new URLSearchParams(location.search).get("example")?.replace(/\.twn?$/, ""), {linked: link, wrong} = await linked(), known = wanted && contents.examples.has(wanted);
    if (wrong) say("The address has a link that is broken.");
    if (wanted && !known) say(`There is no example called ${wanted}. This is the first one.`);
    const [own] = wanted ? [] : contents.mine(), example = contents.ofExample(known ? wanted : GROUPS[0].examples[0].name, "names");
    if (link && (contents.textOf(link) || !link.example)) return contents.ofLink(link);
    return own ?? example;
}

/** Shows the first program. */
async function begin() {
    const address = location.hash;
    bind();
    await load();
    say("");
    const page = await first();
    if (!page) return;
    contents.put(page, false);
    await shown(page, page.event === 0 && !page.own);
    for (const it of document.querySelectorAll("[inert]")) it.removeAttribute("inert");
    manual.open(address);
    document.body.dataset.state = "ready";
    document.body.dataset.readyAfter = String(Math.round(performance.now()));
}

if (typeof WebAssembly === "object" && typeof DecompressionStream === "function" && typeof BigInt === "function") begin();
else { $("old").hidden = false; $("whole").hidden = true; }
