// SPDX-License-Identifier: Apache-2.0
// Uses the page as a reader would, looks at what a reader sees, and compares it with the program tw:
// test.js INDEX.html TW EXAMPLES SCREENSHOTS [WIDE.wasm NARROW.wasm]; with ONLY=steps,tour in the environment just these parts.
// With BROWSER=firefox it is used in Firefox, and else in Chromium.
import {spawnSync} from "node:child_process";
import fs from "node:fs";
import os from "node:os";
import path from "node:path";
import zlib from "node:zlib";
import {PATIENCE, pause} from "./browser.js";

const {open, LACKS = []} = await import(process.env.BROWSER === "firefox" ? "./firefox.js" : "./browser.js");
const [index, tw, examples, pictures, wide, narrow] = process.argv.slice(2), address = "file://" + path.resolve(index);
const folder = path.dirname(new URL(import.meta.url).pathname), groups = JSON.parse(fs.readFileSync(`${folder}/examples.json`, "utf8"));
let passed = 0, failed = 0;
const say = (is, ...what) => { if (is) passed++; else { failed++; console.log("FAILED", ...what); } };
/** A part that takes longer, in ms, fails by its name, and the next one has a new browser. So does one of its commands. */
const LIMIT = 240000 * PATIENCE;
const command = (name, words, more) => {
    const ran = spawnSync(name, words, {maxBuffer: 1 << 28, timeout: LIMIT, ...more});
    if (ran.error) throw ran.error;
    return {status: ran.status, text: ran.stdout.toString(), trouble: ran.stderr.toString()};
};
const native = (words, input) => command(tw, words, {input});

// The actions of a reader, and what is seen.
class Reader {
    constructor(page) { this.page = page; }
    js(text) { return this.page.evaluate(text); }
    ready() { return this.page.until('document.body.dataset.state === "ready"', 60000); }
    // The text of an element as it is shown; empty where it is hidden.
    seen(what) { return this.js(`(() => { const it = document.querySelector(${JSON.stringify(what)}); return it?.checkVisibility() ? it.innerText.trim() : ""; })()`); }
    value(id) { return this.js(`document.getElementById("${id}").value`); }
    async click(what) {
        const at = await this.js(`(() => { const it = document.querySelector(${JSON.stringify(what)}); it.scrollIntoView({block: "center"}); const {x, y, width, height} = it.getBoundingClientRect(); return [x + width / 2, y + height / 2]; })()`);
        return this.handled("click", async () => { for (const type of ["mousePressed", "mouseReleased"]) await this.page.ask("Input.dispatchMouseEvent", {type, x: at[0], y: at[1], button: "left", clickCount: 1}); });
    }
    async key(key, modifiers = 0, code = key) {
        const number = {Tab: 9, Enter: 13, Escape: 27, ArrowLeft: 37, ArrowRight: 39, ArrowUp: 38, ArrowDown: 40, Home: 36, End: 35, z: 90, a: 65}[key] ?? 0, text = key === "Enter" && !modifiers ? "\r" : undefined;
        return this.handled("keyup", async () => { for (const type of ["keyDown", "keyUp"]) await this.page.ask("Input.dispatchKeyEvent", {type, key, code, windowsVirtualKeyCode: number, modifiers, text: type === "keyDown" ? text : undefined, commands: type === "keyDown" && modifiers === 2 && key === "z" ? ["undo"] : undefined}); });
    }
    async type(text) { await this.page.ask("Input.insertText", {text}); return this.pause(); }
    // Acts, and waits until the page has this event: on a busy machine the browser answers earlier.
    async handled(kind, act) {
        await this.js(`document.body.dataset.handled = ""; addEventListener("${kind}", () => { document.body.dataset.handled = "yes"; }, {capture: true, once: true})`);
        await act();
        await this.page.until('document.body.dataset.handled === "yes"', 3000);
        return this.pause();
    }
    async pause() { await pause(40); return this.ready(); }
    async choose(id, value) {
        await this.js(`(() => { const it = document.getElementById("${id}"); it.value = ${JSON.stringify(value)}; document.body.dataset.state = "busy"; it.dispatchEvent(new Event("change")); if (${id !== "pick" && id !== "spelling"}) document.body.dataset.state = "ready"; })()`);
        return this.pause();
    }
    async write(id, text) {
        await this.js(`(() => { const it = document.getElementById("${id}"); it.focus(); it.select(); })()`);
        return this.type(text);
    }
    async size(width, height = 900) { await this.page.ask("Emulation.setDeviceMetricsOverride", {width, height, deviceScaleFactor: 1, mobile: width < 600}); return this.pause(); }
    async scheme(value) { await this.page.ask("Emulation.setEmulatedMedia", {features: [{name: "prefers-color-scheme", value}]}); return this.pause(); }
    async go(to) { await this.page.ask("Page.navigate", {url: "about:blank"}); await this.page.ask("Page.navigate", {url: to}); await this.page.until('document.body?.dataset.state === "ready"', 60000); }
    // Opens the page without saved contents. The old document saves nothing any more: it could do so until it is gone, and a large one is gone late. The
    // contents are cleared in the new one. A database is deleted when nothing has it open, and not by a document that is left earlier.
    async forget() {
        await this.js("Storage.prototype.setItem = IDBObjectStore.prototype.put = () => {}; 0");
        const {identifier} = await this.page.ask("Page.addScriptToEvaluateOnNewDocument", {source: "try { localStorage.clear(); indexedDB.deleteDatabase('yuglemit own').onsuccess = () => { window.isEmpty = true; }; } catch {}"});
        await this.page.ask("Page.navigate", {url: "about:blank"});
        for (let again = 0; again === 0 || again < 9 && await this.js('document.querySelector("#pick [value^=own]") !== null'); again++) { await pause(300); await this.go(address); await this.page.until("window.isEmpty === true"); }
        await this.page.ask("Page.removeScriptToEvaluateOnNewDocument", {identifier});
    }
    // Waits until the address has contents that meet a test, and returns it.
    async saved(meets) {
        for (let again = 0; again < 500; again++, await pause(20)) {
            const link = await this.js("location.href"), letters = /#p=([\w-]+)$/.exec(link)?.[1];
            if (letters && meets(JSON.parse(zlib.inflateRawSync(Buffer.from(letters, "base64url")).toString()))) return link;
        }
        return "";
    }
    // Moves to an event by the slider.
    async event(number) { await this.js(`(() => { const it = document.getElementById("step"); it.value = ${number}; it.dispatchEvent(new Event("input")); })()`); return this.pause(); }
    async shot(name, whole = false) { if (pictures) fs.writeFileSync(`${pictures}/${name}.png`, Buffer.from((await this.page.ask("Page.captureScreenshot", {format: "png", captureBeyondViewport: whole})).data, "base64")); }
}

// Does what returns its time by the page's clock in ms. Returns that, or what the page has computed if that is less: on a busy machine the clock says little.
// Computed is what the main thread does alone, or else all threads of the process that did most.
async function took(page, act, alone = true) {
    const before = new Map(page.computed().map(it => [it.thread, it.ms])), clock = await act(), spent = new Map();
    for (const {id, thread, ms} of page.computed()) if (!alone || id === thread) spent.set(id, (spent.get(id) ?? 0) + ms - (before.get(thread) ?? 0));
    return Math.round(Math.min(clock / PATIENCE, Math.max(...spent.values())));
}

// The options and inputs of the fields.
async function fieldWords(reader) {
    const inputs = await reader.js('[...document.querySelectorAll("#inputs input")].map(it => it.dataset.prefix + it.value)'), options = [];
    for (const actor of ["engines", "servers", "workers"]) options.push("--" + actor, await reader.value(actor));
    return [...options, ...inputs];
}

// At first a program with names is shown, which plays from its start until it is touched.
async function firstSight(reader, page) {
    const {identifier} = await page.ask("Page.addScriptToEvaluateOnNewDocument", {source: `addEventListener("DOMContentLoaded", () => new MutationObserver((_, watch) => { if (document.body.dataset.state !== "ready") return; window.first = document.getElementById("at").textContent; watch.disconnect(); }).observe(document.body, {attributes: true}))`});
    const after = await took(page, async () => { await reader.forget(); return reader.js("+document.body.dataset.readyAfter"); }, false);
    await page.ask("Page.removeScriptToEvaluateOnNewDocument", {identifier});
    say(after < 3000, "ready late", after);
    say((await reader.value("text")).startsWith("names\n"), "no names at first");
    say((await reader.js("window.first")) === "event 0 of 22", "not at the first event", await reader.js("window.first"));
    say((await reader.seen("#play")) === "Pause", "it doesn't play");
    say(await page.until('!document.getElementById("at").textContent.startsWith("event 0 ")', 10000), "nothing plays");
    say((await reader.js("scrollY")) === 0 && await reader.js('document.getElementById("controls").getBoundingClientRect().bottom < innerHeight'), "the run is out of sight");
    await reader.key("Shift");
    say((await reader.seen("#play")) === "Play", "a touch doesn't end it");
    say((await reader.js('document.activeElement === document.body')), "something has the focus");
    const {length} = zlib.gzipSync(fs.readFileSync(index), {level: 9});
    console.log(`ready after ${after} ms, ${length} bytes compressed`);
    say(length < 800000, "the page is too large", length);
}

// Each example runs at the first click, with what the page has for it, and as tw runs it.
async function allExamples(reader) {
    for (const it of groups.flatMap(group => group.examples)) {
        for (const [spelled, file] of [["names", `${it.name}.twn`], ["numbers", `${it.name}.tw`]]) {
            const whole = [`${examples}/${file}`, `${folder}/${file}`].find(name => fs.existsSync(name));
            if (!whole) continue;
            if ((await reader.value("pick")) !== it.name) await reader.choose("pick", it.name);
            if ((await reader.seen("#spelled")) && (await reader.value("spelling")) !== spelled) await reader.choose("spelling", spelled);
            const text = fs.readFileSync(whole, "utf8"), what = `${it.name} ${spelled}`;
            say((await reader.value("text")) === text, what, "another text");
            if (it.ends.startsWith("refused")) {
                say((await reader.seen("#verdict")).includes(it.ends.slice(8)), what, "not refused", await reader.seen("#verdict"));
                say((await reader.seen("#why")).startsWith(it.ends.slice(8) + ": "), what, "no explanation", await reader.seen("#why"));
                continue;
            }
            const wanted = native(["run", "--text", "--in-turn", ...await fieldWords(reader)], text);
            say(wanted.text.split("\n").includes(it.ends), what, "tw ends otherwise", wanted.text);
            say((await reader.seen("#out")) === wanted.text.trim(), what, "another report", await reader.seen("#out"), wanted.text);
            const count = +(await reader.js('document.getElementById("step").max'));
            await reader.event(count);
            say((await reader.seen("#data")).includes({quiet: "all is done"}[it.ends] ?? it.ends), what, "the state isn't at its end");
            if (it.ends.startsWith("stuck")) say((await reader.seen("#circle li")).startsWith("rule "), what, "no circle");
        }
    }
}

// A step lights its line, and shows registers, data, rules and queues, and what changed.
async function steps(reader) {
    await reader.forget();
    await reader.key("Shift");
    await reader.event(0);
    await reader.click("#data details summary");
    const seen = [], all = +(await reader.js('document.getElementById("step").max'));
    for (let k = 1; k <= all; k++) {
        await reader.click("#on");
        const shown = await reader.seen("#what"), lines = await reader.js('[...document.querySelectorAll("#paint .hit")].map(it => it.innerText)');
        seen.push(shown);
        say((await reader.seen("#at")) === `event ${k} of ${all}`, "not at event", k, await reader.seen("#at"));
        say(lines.length > 0, "no line is lit at event", k, shown);
        if (/computes: ADD/.test(shown)) say(lines[0].startsWith("ADD value value value"), "another line is lit", lines);
        if (/takes task/.test(shown)) say(/value/.test(await reader.seen("#state article table")), "no registers", k);
        if (/makes middle/.test(shown)) say(/middle.*int.*not yet written.*open.*1 \/ 1/s.test(await reader.seen("[aria-label='data that are alive'] tr.changed")), "no new datum", await reader.seen("#data"));
        say(await reader.js(`(() => { const now = document.querySelectorAll("#lanes .now"), {left, right} = now[0].getBoundingClientRect(), mark = [...document.querySelectorAll("#lanes .mark")].find(it => it.textContent.startsWith("${k}: ")).getBoundingClientRect(); return now.length === 1 && left <= mark.left && mark.right <= right; })()`), "the timeline doesn't follow", k);
    }
    for (const part of ["takes task 1: main", "makes rule 2", "not yet, so the rule waits", "turns rule 2 into task 2", "stores 6 in middle (datum 3), which closes it", "notifies rule 1 that middle (datum 3) is closed", "ends task 3"]) say(seen.some(it => it.includes(part)), "no event", part, seen);
    await reader.click("#back");
    say((await reader.seen("#at")) === `event ${all - 1} of ${all}`, "no step back");
    await reader.click("#first");
    await reader.choose("by", "s0");
    await reader.click("#on");
    say((await reader.seen("#what")).startsWith("Server 0 notifies"), "no event of an actor", await reader.seen("#what"));
    await reader.choose("by", "d3");
    await reader.click("#first"); await reader.click("#on");
    say((await reader.seen("#what")).includes("makes middle"), "no event of a datum", await reader.seen("#what"));
    await reader.js('(() => { const it = document.getElementById("text"), at = it.value.indexOf("STORE to"); it.focus(); it.setSelectionRange(at, at); })()');
    await reader.choose("by", "line");
    await reader.click("#on");
    say(/stores \d+ in /.test(await reader.seen("#what")), "no event of a line", await reader.seen("#what"));
    await reader.click("#gutter [data-line='16']");
    say((await reader.seen("#what")).includes("ends task"), "a line's number goes nowhere", await reader.seen("#what"));
    say(/^\d+: /.test(await reader.js('document.querySelector("#lanes .mark title").textContent')), "a mark has no text");
    await reader.choose("by", "all");
    await reader.event(1);
    await reader.js('document.getElementById("lanes").focus()');
    await reader.key("ArrowRight");
    say((await reader.seen("#at")).startsWith("event 2 "), "arrow keys don't step", await reader.seen("#at"));
    const names = await reader.js('(() => { const box = document.getElementById("lanes").getBoundingClientRect(); return [...document.querySelectorAll(".lane-name")].every(it => it.getBoundingClientRect().right <= box.left + 1); })()');
    say(names, "lane names lie in the picture");
    for (const name of ["mapreduce", "word_count", "for_one_worker"]) {
        await reader.go(`${address}?example=${name}`); await reader.key("Shift");
        const [there, back] = await reader.js('(() => { const shown = () => ["at", "what", "state", "data"].map(id => document.getElementById(id).textContent).join("\\n"), all = +document.getElementById("step").max, walk = button => Array.from({length: all}, () => { document.getElementById(button).click(); return shown(); }); document.getElementById("first").click(); const start = shown(), there = walk("on"); return [[start, ...there], [...walk("back").reverse(), there[all - 1]]]; })()');
        say(there.length > 5 && there.every((it, k) => it === back[k]), name, "a step back shows something else at", there.findIndex((it, k) => it !== back[k]));
    }
}

// As one types: the fault is underlined with its message, the rights of the line are shown, and budgets are next to the heads.
async function typing(reader) {
    await reader.forget();
    const text = await reader.value("text");
    say(/budget 4, run 23.*budget 5/s.test(await reader.seen("#paint")), "no budget beside a head");
    await reader.write("text", text.replace("STORE to value", "STORE to valu"));
    say((await reader.seen("#paint .fault")) === "valu", "the word isn't underlined", await reader.seen("#paint .fault"), await reader.seen("#verdict"));
    say(/^N04: /.test(await reader.seen("#paint .note.bad")), "no message at the word", await reader.seen("#paint .note.bad"));
    await reader.write("text", text.replace("RET\n\nproc", "STORE answer x\nRET\n\nproc").replace("regs\n", "regs x: int\n"));
    say((await reader.seen("#paint .fault")) === "answer", "the register isn't underlined", await reader.seen("#paint .fault"), await reader.seen("#verdict"));
    await reader.write("text", text);
    await reader.js('(() => { const it = document.getElementById("text"), at = it.value.indexOf("DROPR from"); it.setSelectionRange(at, at); })()');
    await reader.key("ArrowRight");
    say(/from closed int.*to write int/.test(await reader.seen("#held")), "no rights of the line", await reader.seen("#held"));
    say(/from closed int.*to write int/.test(await reader.seen("#paint")), "no rights in the margin");
    const groupsSeen = await reader.js('[...new Set([...document.querySelectorAll("#paint [class^=tw-]")].map(it => it.className))].sort()');
    for (const group of ["tw-instruction", "tw-statement", "tw-word", "tw-number", "tw-label", "tw-comment"]) say(groupsSeen.includes(group), "no colour", group, groupsSeen);
    say((await reader.js('[...document.querySelectorAll("#paint .line")].map(it => [...it.childNodes].filter(part => !part.classList.contains("note")).map(part => part.textContent).join("")).join("\\n")')) === text, "painted otherwise than it stands");
    await reader.write("input-0", "seven");
    say((await reader.seen("#input-0-fault")).includes("whole number"), "a wrong input isn't marked", await reader.seen("#input-0-fault"));
    await reader.write("input-0", "7");
    await reader.write("workers", "17");
    say((await reader.seen("#layout-fault")) === "workers: 1 to 16", "a wrong number isn't marked", await reader.seen("#layout-fault"));
    await reader.write("workers", "2");
    await reader.js('document.getElementById("text").focus()');
    await reader.key("Enter", 2);
    say((await reader.seen("#out")) === "out 0 int 28\nquiet", "Ctrl+Enter doesn't run", await reader.seen("#out"));
    const reached = [];
    for (let k = 0; k < 2; k++) { await reader.key("Tab"); reached.push(await reader.js("document.activeElement.id")); }
    say(String(reached) === "more,input-0", "Tab stays in the text", reached);
}

// All errors of a text are shown at once, as tw reports them: those after the first as perhaps ones; and none that only follows.
async function errors(reader) {
    await reader.forget(); await reader.key("Shift");
    const text = await reader.value("text"), shown = () => reader.js('[...document.querySelectorAll("#perhaps-list li")].map(it => it.textContent)'), hidden = () => reader.js('document.getElementById("perhaps").hidden');
    const wrong = ["proc control write int write int", "regs int", "INT v0 seven", "INT v0 7", "STOR d0 v0", "STORE d0 v0", "also A01 at line 4", "RET", "proc leaf write int", "regs int", "GET v0 d0", "ADD v0 v0", "STORE d0 v0", "RET", "proc leaf write int", "regs int", "STORE d0 v1", "STORE d0 v0", "RET"].join("\n");
    const wanted = [["3", "A02"], ["5", "A01"], ["7", "A01"], ["12", "A02"], ["17", "V01"]], judged = native(["check", "--text"], wrong).text;
    say(String([...judged.matchAll(/^(?:refused|also) (\w+) (?:at line (\d+)$|in procedure .*\nat line (\d+))/gm)].map(it => [it[2] ?? it[3], it[1]]).filter(it => it[0] !== "4")) === String(wanted), "tw reports others", judged);
    await reader.write("text", wrong);
    say((await reader.seen("#verdict")).startsWith("Refused by A02 in line 3"), "another first error", await reader.seen("#verdict"));
    const found = await shown();
    say(String(found.map(it => /^line (\d+): (\w+): ./.exec(it)?.slice(1))) === String(wanted.slice(1)), "other errors", found, wanted);
    say((await reader.js('document.querySelectorAll("#paint .fault").length')) >= wanted.length && (await reader.js('[...document.querySelectorAll("#paint .note.bad")].filter(it => it.textContent.startsWith("perhaps ")).length')) === wanted.length - 1, "not marked", await reader.seen("#paint"));
    await reader.click("#perhaps-list li:nth-child(2) button");
    say((await reader.js('document.getElementById("text").value.slice(0, document.getElementById("text").selectionStart).split("\\n").length')) === 7, "it leads elsewhere", found);
    await reader.write("text", text.replace("STORE to value", "STORE to valu"));
    say(await hidden(), "what only follows is shown", await shown());
    await reader.write("text", text);
    say(await hidden() && (await reader.seen("#verdict")).startsWith("Accepted"), "old errors stay", await shown());
    await reader.write("text", `proc control\nregs int\n${"ADD v0\n".repeat(30)}RET\n`);
    say((await shown()).length === 19, "not twenty errors", await shown());
}

// A large text is asked about, and doesn't freeze the page: its beginning is shown, and it is checked when it is run.
async function large(reader) {
    await reader.forget(); await reader.key("Shift");
    const {page} = reader, small = await reader.value("text"), asked = [], seven = fs.readFileSync(`${examples}/store_seven.tw`, "utf8"), line = "; a remark of a large text, with some words in it\n";
    const answering = accept => page.on("Page.javascriptDialogOpening", ({message}) => { asked.push(message); page.ask("Page.handleJavaScriptDialog", {accept}); });
    const paste = () => reader.js(`void (() => { const it = document.getElementById("text"); it.focus(); it.select(); window.allowed = it.dispatchEvent(new InputEvent("beforeinput", {inputType: "insertFromPaste", data: ${JSON.stringify(line)}.repeat(${Math.floor(15.9 * 1048576 / line.length)}) + ${JSON.stringify(seven)}, cancelable: true, bubbles: true})); })()`);
    const watch = () => reader.js('void (() => { let last = performance.now(); clearInterval(window.watching); window.longest = 0; window.watching = setInterval(() => { const now = performance.now(); window.longest = Math.max(window.longest, now - last); last = now; }, 50); })()'), longest = async () => Math.round(await reader.js("window.longest"));
    answering(false);
    await paste(); await reader.pause();
    say(asked.length === 1 && asked[0].includes("16 MB") && (await reader.value("text")) === small && !await reader.js("window.allowed"), "not asked", asked);
    answering(true);
    const pasted = await took(page, async () => { await watch(); await paste(); await reader.pause(); return longest(); });
    say((await reader.seen("#verdict")) === "The text has 16 MB. Run checks it, and then runs it." && (await reader.value("text")).length < 30000 && await reader.js('document.getElementById("text").readOnly'), "shown as a whole", await reader.seen("#verdict"));
    const ran = await took(page, async () => { await watch(); await reader.js('document.getElementById("run").click()'); await reader.pause(); return longest(); });
    say((await reader.seen("#out")) === "out 0 int 7\nquiet" && (await reader.seen("#verdict")).startsWith("Accepted"), "not run", await reader.seen("#out"), await reader.seen("#verdict"));
    console.log(`16 MB: the page waits for ${pasted} ms when it is pasted, ${ran} ms in a run`);
    say(pasted < 1000 && ran < 2000, "the page freezes", pasted, ran);
    await reader.click("#undo");
    say((await reader.value("text")) === small && !await reader.js('document.getElementById("text").readOnly'), "no way back", (await reader.value("text")).slice(0, 60));
}

// Nothing is lost: by a reload, by another example, by a link.
async function kept(reader) {
    await reader.forget();
    const own = "; my own é\nproc control closed int write int\nregs int\nGET v0 d0\nDROPR d0\nSTORE d1 v0\nRET\n";
    await reader.write("text", own);
    await reader.write("input-0", "41");
    await reader.write("workers", "3");
    await reader.click("#run");
    await reader.key("Shift");
    await reader.event(3);
    const link = await reader.saved(it => it.event === 3);
    say(link.includes("#p="), "nothing in the address", link);
    const same = async what => {
        say((await reader.value("text")) === own && (await reader.value("input-0")) === "41" && (await reader.value("workers")) === "3", what, "lost", await reader.value("text"));
        say((await reader.seen("#at")).startsWith("event 3 "), what, "another event", await reader.seen("#at"));
    };
    await reader.go(address);
    await same("by a reload");
    await reader.choose("pick", "fan_out");
    say((await reader.value("text")) !== own, "no example");
    await reader.key("Shift");
    await reader.click("#undo");
    await same("by picking an example");
    await reader.choose("pick", "fan_out");
    await reader.js('document.getElementById("text").focus()');
    await reader.key("z", 2);
    await pause(400); await reader.ready();
    say((await reader.value("text")) === own && (await reader.value("input-0")) === "41", "Ctrl+Z brings nothing back", (await reader.value("text")).slice(0, 60));
    await reader.js("localStorage.clear(); indexedDB.deleteDatabase('yuglemit own')");
    await reader.go(link);
    await same("by a link");
    await reader.click("#share");
    say((await reader.value("link")).startsWith("#p=") && (await reader.seen("#said")).includes("nobody else can open its address") && (await reader.seen("#share-file")) === "Download the text", "a page from disk is shared", await reader.value("link"), await reader.seen("#said"));
    await reader.go(`${address}?example=nope`);
    say((await reader.seen("#said")).includes("no example called nope") && (await reader.value("text")).length > 0, "an unknown example", await reader.seen("#said"));
    await reader.go(`${address}#p=broken`);
    say((await reader.seen("#said")).includes("broken"), "a broken link", await reader.seen("#said"));
    await reader.go(`${address}?example=barrier`);
    say((await reader.value("pick")) === "barrier" && (await reader.seen("#out")).startsWith("out 0 int 8"), "an example by its address");
}

// Each mistake is refused by the rule that it is for, with the explanation of tw, and undone.
async function mistakes(reader) {
    await reader.forget(); await reader.key("Shift");
    const rules = {"Forget to give up a right": "V10", "Write it twice": "V04", "Never write it": "V10", "Read before it is there": "V04", "Use a right that is gone": "V04", "Store a text in an int": "V02", "Jump back": "A05", "Loop for too long": "V17"};
    const text = await reader.value("text"), buttons = await reader.js('[...document.querySelectorAll("#mistakes button")].map(it => it.innerText)');
    say(String(buttons) === String(Object.keys(rules)), "other mistakes", buttons);
    for (const [k, title] of buttons.entries()) {
        await reader.click(`#mistakes button:nth-child(${k + 1})`);
        const shown = await reader.seen("#broken"), planted = await reader.value("text"), verdict = native(["check", "--text"], planted).text;
        say(verdict.startsWith(`refused ${rules[title]} `) && shown.includes(`Refused by ${rules[title]} in line `), title, "isn't refused by", rules[title], verdict, shown);
        const meaning = native(["explain", rules[title]], "").text.split("\n")[0].slice(5).replace(/`/g, "");
        say(shown.includes(meaning), title, "isn't explained", shown);
        say(await reader.js('!!document.querySelector("#paint .fault")'), title, "isn't underlined");
        await reader.click("#broken button");
        say((await reader.value("text")) === text, title, "isn't undone");
    }
    for (const name of ["fan_out", "words", "matrix"]) {
        await reader.choose("pick", name); await reader.key("Shift"); // What plays moves the buttons.
        for (let k = 1; k <= buttons.length; k++) { await reader.click(`#mistakes button:nth-child(${k})`); say((await reader.seen("#broken")).length > 40, name, k, "says nothing"); }
        await reader.click("#broken button");
    }
}

// The tour has six steps, works by keyboard, and can be left.
async function tour(reader) {
    await reader.forget();
    await reader.click("#tour");
    for (let k = 1; k <= 6; k++) {
        say((await reader.seen("#tour-box h3")).startsWith(`${k} of 6: `), "no step", k, await reader.seen("#tour-box h3"));
        say(await reader.js('(() => { const {top, left, bottom, right} = document.getElementById("tour-box").getBoundingClientRect(); return top >= 0 && left >= 0 && bottom <= innerHeight && right <= innerWidth; })()'), "step out of sight", k);
        if (k < 6) await reader.key("Enter");
    }
    await reader.key("Enter");
    say((await reader.seen("#tour-box")) === "" && (await reader.js("document.activeElement.id")) === "tour", "the tour doesn't end");
    await reader.click("#tour"); await reader.key("Escape");
    say((await reader.seen("#tour-box")) === "", "the tour can't be left");
}

// Downloads are what tw writes.
async function downloads(reader) {
    const room = fs.mkdtempSync(path.join(os.tmpdir(), "downloads-"));
    // Waits until files with these endings are there, with their contents: a browser first makes an empty file.
    const given = async (...endings) => { for (const from = Date.now(); Date.now() - from < 5000 * PATIENCE && (fs.readdirSync(room).some(it => /(part|crdownload)$/.test(it)) || !endings.every(it => fs.statSync(`${room}/pipeline.${it}`, {throwIfNoEntry: false})?.size)); await pause(50)); };
    await reader.page.ask("Browser.setDownloadBehavior", {behavior: "allow", downloadPath: room});
    await reader.go(`${address}?example=pipeline`); await reader.key("Shift");
    const words = await fieldWords(reader), text = await reader.value("text"), run = ["run", "--text", "--in-turn"];
    const trace = native([...run, "--trace", ...words], text).text.match(/^events\n[^]*?^end\n/m)[0];
    const wanted = {twn: text, hex: native(["asm", "--names"], text).text, txt: native([...run, ...words], text).text, history: `${native(["asm", "--names"], text).text}${trace}`};
    for (const what of ["text", "bytes", "report", "trace", "timeline"]) await reader.click(`[data-give=${what}]`);
    wanted.svg = native([...run, "--picture", ...words], text).text;
    await given(...Object.keys(wanted));
    for (const [ending, is] of Object.entries(wanted)) say(fs.existsSync(`${room}/pipeline.${ending}`) && fs.readFileSync(`${room}/pipeline.${ending}`, "utf8") === is, "another file", ending, fs.readdirSync(room));
    say(native(["replay", `${room}/pipeline.history`, ...words.filter(it => !it.startsWith("--limit"))], "").text === wanted.txt, "the trace isn't replayed from its file");
    await reader.click("[data-give=trace]");
    const lines = [await reader.seen("#command code")];
    await reader.click("[data-give=chrome]");
    await given("json");
    chromeShape(JSON.parse(fs.readFileSync(`${room}/pipeline.json`, "utf8")).traceEvents, trace.split("\n").length - 3);
    say(command("node", [`${folder}/chrome_of.js`, tw, `${examples}/pipeline.twn`, "--in-turn", ...words]).text === fs.readFileSync(`${room}/pipeline.json`, "utf8"), "the script makes another Chrome trace");
    const schema = command("python3", ["-c", "import json, sys, jsonschema; jsonschema.validate(json.load(open(sys.argv[1])), json.load(open(sys.argv[2])))", `${room}/pipeline.json`, `${folder}/chrome.schema.json`]);
    if (/No module named/.test(schema.trouble)) console.log("left out: the schema of the Chrome trace, since Python's jsonschema isn't installed");
    else say(schema.status === 0, "the Chrome trace has another form", schema.trouble.slice(-600));
    await reader.click("#stats");
    say((await reader.seen("#numbers")) === native([...run, "--stats", ...words], text).text.trim(), "other numbers");
    await reader.write("limit", "9"); await reader.click("#run"); await reader.key("Shift");
    fs.rmSync(`${room}/pipeline.svg`);
    await reader.click("[data-give=timeline]");
    await given("svg");
    say(fs.readFileSync(`${room}/pipeline.svg`, "utf8").includes(">ended by limit</text>"), "a timeline's head");
    await reader.write("limit", "10000");
    await reader.click("#another");
    fs.rmSync(`${room}/pipeline.history`); fs.rmSync(`${room}/pipeline.txt`); fs.rmSync(`${room}/pipeline.hex`);
    for (const what of ["report", "trace", "bytes", "python"]) { await reader.click(`[data-give=${what}]`); lines.push(await reader.seen("#command code")); }
    await given("txt", "history", "hex", "py");
    say(fs.readFileSync(`${room}/pipeline.history`, "utf8").includes(native([...run, "--trace", "--seed", "1", ...words], text).text.match(/^events\n[^]*?^end\n/m)[0]), "not the order's trace");
    for (const line of [lines[2], lines[3]]) say(command("sh", ["-c", line.replace(/^tw/, path.resolve(tw))], {cwd: room}).text === fs.readFileSync(`${room}/pipeline.txt`, "utf8"), "the command prints otherwise", line);
    const script = command("sh", ["-c", lines[4]], {cwd: room, env: {...process.env, PYTHONPATH: path.resolve(folder, "../embed/python"), ...process.env.YUGLEMIT_LIBRARY ? {} : {TW_OUT: "release"}}});
    say(lines[4] === "python3 pipeline.py" && script.text === fs.readFileSync(`${room}/pipeline.txt`, "utf8"), "Python prints otherwise", script.text, script.trouble);
    fs.rmSync(room, {recursive: true, force: true});
}

// A trace for Chrome has a slice for each task, an instant for each event, and each arrow's two ends.
function chromeShape(all, events) {
    const of = ph => all.filter(it => it.ph === ph);
    say(of("i").length === events && of("i").every((it, k) => it.ts === k + 1 && it.tid > 0), "other instants", of("i").length, events);
    say(of("X").length > 1 && of("X").every(it => it.dur > 0 && it.ts > 0 && it.name), "other slices");
    say(of("s").length > 0 && String(of("s").map(it => it.id)) === String(of("f").map(it => it.id)), "arrows without an end");
    say(of("s").every(it => of("X").some(({tid, ts, dur}) => tid === it.tid && ts <= it.ts && it.ts < ts + dur)), "an arrow from no slice");
    say(of("M").filter(it => it.name === "thread_name").length === new Set(all.filter(it => it.tid).map(it => it.tid)).size, "rows without a name");
}

// Long checks can be stopped; long texts are shown.
async function long(reader) {
    await reader.forget();
    await reader.write("text", "proc control write int\nregs int\nREPEAT 1000\nREPEAT 1000\nREPEAT 300\nINT v0 1\nEND\nEND\nEND\nSTORE d0 v0\nRET\n");
    await reader.js('document.getElementById("run").click()');
    await pause(400);
    say(await reader.js('!document.getElementById("stop").disabled'), "a run can't be stopped");
    await reader.js('document.getElementById("stop").click()'); await reader.ready();
    say((await reader.seen("#ended")) === "stopped", "not stopped", await reader.seen("#ended"));
    await reader.write("text", "proc control write int\nregs int\nREPEAT 1000\nREPEAT 1000\nREPEAT 30\nINT v0 1\nEND\nEND\nEND\nSTORE d0 v0\nRET\n");
    await reader.click("#run");
    say((await reader.seen("#out")) === "out 0 int 1\nquiet" && (await reader.seen("#cut")).includes("local instructions"), "a long event", await reader.seen("#out"), await reader.seen("#cut"));
    await reader.write("text", "proc control\nregs int\nREPEAT 1000\nREPEAT 1000\nPUT 1 0 any\nEND\nEND\nRET\nproc leaf\nregs\nRET\n");
    await reader.click("#run"); await reader.key("Shift"); await reader.event(10000);
    say((await reader.seen("#at")) === "event 10,000 of 10,000" && (await reader.seen("#ended")).startsWith("Ended by the limit"), "many events", await reader.seen("#at"), await reader.seen("#ended"));
    say((await reader.js('document.querySelectorAll("#lanes svg *").length')) < 3000, "all marks are drawn");
    await reader.write("text", "names\nversion 4\nproc control main(numbers: closed map int, answer: write int)\nregs subscript: int, index: int, one: int\nINT one 1\nREPEAT 20\nREPEAT 1000\nSUBAT subscript numbers index none\nnone:\nADD index index one over\nover:\nEND\nEND\nDROPR numbers\nSTORE answer subscript\nRET\n");
    await reader.js('(() => { const it = document.getElementById("input-0"); it.value = Array.from({length: 20000}, (_, k) => `${k}=1`).join(","); it.dispatchEvent(new Event("input")); })()');
    await reader.ready();
    await reader.write("limit", "100000");
    const read = await took(reader.page, async () => { const from = Date.now(); await reader.click("#run"); await reader.page.until('document.getElementById("step").max === "40005" && document.body.dataset.state === "ready"', 60000); return Date.now() - from; }, false);
    console.log(`20,000 subscripts of a map are read in ${read} ms`);
    say((await reader.seen("#out")) === "out 0 int 19999\nquiet" && read < 10000, "a large map takes", read, await reader.seen("#out"));
    await reader.key("Shift");
    await reader.write("limit", "10000");
    await reader.write("text", "proc control\nregs\nRET\n");
}

// Each part that can be reached has a name, in both colours and both sizes nothing is wider than the screen, and text can be read.
async function everywhere(reader) {
    await reader.forget();
    const {nodes} = await reader.page.ask("Accessibility.getFullAXTree"), touched = nodes.filter(it => !it.ignored && /^(button|combobox|textbox|slider|spinbutton|link)$/.test(it.role?.value));
    say(touched.length > 25, "few things to touch", touched.length);
    for (const it of touched) say(it.name?.value, "no name", it.role.value, JSON.stringify(it.properties));
    await reader.js("document.activeElement.blur(), scrollTo(0, 0)");
    const reached = new Set();
    for (let k = 0; k < 120; k++) { await reader.page.ask("Input.dispatchKeyEvent", {type: "keyDown", key: "Tab", code: "Tab", windowsVirtualKeyCode: 9}); reached.add(await reader.js("document.activeElement.id")); }
    for (const id of ["pick", "tour", "share", "text", "input-0", "engines", "run", "play", "on", "step", "by", "speed", "lanes", "stats"]) say(reached.has(id), "not reached by Tab", id);
    for (const scheme of ["light", "dark"]) {
        await reader.scheme(scheme);
        say((await reader.js(CONTRAST)).length === 0, scheme, "too little contrast", await reader.js(CONTRAST));
        for (const width of [1300, 375]) {
            await reader.size(width);
            for (const name of ["first", "words", "store_twice", "stuck_on_itself"]) {
                await reader.choose("pick", name);
                say(await reader.js("document.documentElement.scrollWidth <= innerWidth"), name, width, "is wider than the screen", await reader.js("document.documentElement.scrollWidth"));
            }
        }
    }
    await reader.size(1300);
}

// Returns the visible texts whose contrast with their background is below 4.5.
const CONTRAST = `(() => {
    const rgb = text => (text.match(/[\\d.]+/g) ?? []).map(Number), shine = ([r, g, b]) => [r, g, b].map(c => c / 255).map(c => c <= 0.03928 ? c / 12.92 : ((c + 0.055) / 1.055) ** 2.4).reduce((sum, c, k) => sum + c * [0.2126, 0.7152, 0.0722][k], 0);
    const backdrop = it => { for (; it; it = it.parentElement) { const color = rgb(getComputedStyle(it).backgroundColor); if (color.length === 3 || color[3] > 0.9) return color; } return [255, 255, 255]; };
    const wrong = new Set();
    for (const it of document.querySelectorAll("body *")) {
        if (!it.checkVisibility() || it.id === "text" || it.closest("[aria-disabled=true], :disabled, svg, #stale, .stale, select") || ![...it.childNodes].some(part => part.nodeType === 3 && part.data.trim())) continue;
        const [one, other] = [shine(rgb(getComputedStyle(it).color)), shine(backdrop(it))].sort((a, b) => b - a), ratio = (one + 0.05) / (other + 0.05);
        if (ratio < 4.5) wrong.add(it.tagName + "." + it.className + " " + it.textContent.slice(0, 20) + " " + ratio.toFixed(2));
    }
    return [...wrong];
})()`;

// Texts of 64 procedures, and of 16 KB.
const LONG_TEXTS = {"64 procedures": 8, "16 KB": 20};
const longText = remarks => "proc control write int\nregs int\nPUT 1 0 any 0\nRET\n" + `proc leaf write int\nregs int\n${"; a remark\n".repeat(remarks)}INT v0 1\nSTORE d0 v0\nRET\n`.repeat(63);

// Editing never freezes: the page changes a long text within 0.2 s, by a planted mistake, by Undo and by a picked example. The least of three times counts.
async function quick(reader) {
    const changed = what => reader.js(`new Promise(done => { const text = document.getElementById("text"), old = text.value, from = performance.now(); ${what}; const look = () => text.value === old ? setTimeout(look) : done(performance.now() - from); look(); })`);
    const undo = 'document.getElementById("undo").click()', plant = 'document.querySelector("#mistakes button:nth-child(3)").click()', choose = 'document.getElementById("pick").value = "fan_out"; document.getElementById("pick").dispatchEvent(new Event("change"))';
    for (const [name, remarks] of Object.entries(LONG_TEXTS)) {
        await reader.forget(); await reader.key("Shift");
        await reader.js(`(() => { const it = document.getElementById("text"); it.value = ${JSON.stringify(longText(remarks))}; document.body.dataset.state = "busy"; it.dispatchEvent(new Event("input")); })()`);
        await reader.ready();
        const keys = [];
        for (let k = 0; k < 9; k++) {
            keys.push(await took(reader.page, () => reader.js('(() => { const it = document.getElementById("text"); it.focus(); it.setSelectionRange(30, 30); const from = performance.now(); document.execCommand("insertText", false, ";"); document.getElementById("paint").offsetHeight; return performance.now() - from; })()')));
            await reader.ready();
        }
        console.log(`${name}, a key: ${keys.join(", ")} ms`);
        say(Math.min(...keys) < 200, name, "a key takes", keys);
        await reader.js(`(() => { const it = document.getElementById("text"); it.value = ${JSON.stringify(longText(remarks))}; document.body.dataset.state = "busy"; it.dispatchEvent(new Event("input")); })()`);
        await reader.ready();
        const times = {plant: [], "undo of it": [], pick: [], "undo of the pick": []};
        for (let again = 0; again < 3; again++)
            for (const [what, act] of [["plant", plant], ["undo of it", undo], ["pick", choose], ["undo of the pick", undo]]) { times[what].push(await took(reader.page, () => changed(act), false)); await reader.ready(); }
        for (const [what, all] of Object.entries(times)) { console.log(`${name}, ${what}: ${all.join(", ")} ms`); say(Math.min(...all) < 200, name, what, "takes", all); }
        say((await reader.value("text")) === longText(remarks), name, "another text");
    }
}

// A million events are followed in a thread: with progress, with Stop, in little memory; a step is quick then.
async function millions(reader) {
    await reader.forget(); await reader.key("Shift");
    await reader.write("limit", "900000");
    const text = turns => `proc control\nregs int\nREPEAT 1000\nREPEAT ${turns}\nPUT 1 0 any\nEND\nEND\nRET\nproc leaf\nregs\nRET\n`, heap = async () => { const {totalSize, backingStorageSize} = await reader.page.ask("Runtime.getHeapUsage"); return (totalSize + backingStorageSize) / 1e6; };
    await reader.write("text", text(300));
    await reader.js('document.getElementById("run").click()');
    say(await reader.page.until('/following event [\\d,]+ of 900,000/.test(document.getElementById("followed").innerText) && !document.getElementById("following").hidden', 60000), "no progress", await reader.seen("#followed"));
    say(await reader.js('!document.getElementById("stop").disabled'), "following can't be stopped");
    await reader.js('document.getElementById("stop").click()'); await reader.ready();
    say(/followed up to event [\d,]+, then stopped/.test(await reader.seen("#followed")), "not stopped", await reader.seen("#followed"));
    await reader.js('document.getElementById("run").click()');
    let most = 0;
    for (let ready = false; !ready; ready = await reader.js('document.body.dataset.state === "ready" && document.getElementById("step").max === "900000"')) { most = Math.max(most, await heap()); await pause(100); }
    console.log(`900,000 events in ${Math.round(most)} MB`);
    say(most < 200, "memory", most);
    say((await reader.seen("#at")).endsWith("of 900,000"), "not all events", await reader.seen("#at"));
    await reader.event(900000);
    say((await reader.seen("#data")).includes("running"), "another end", await reader.seen("#data"));
    const step = button => took(reader.page, () => reader.js(`(() => { const from = performance.now(); document.getElementById("${button}").click(); document.body.offsetHeight; return performance.now() - from; })()`));
    await reader.event(800000);
    for (const button of ["on", "back"]) { const times = []; for (let k = 0; k < 9; k++) times.push(await step(button)); console.log(`a step ${button} at event 800,000: ${times.join(", ")} ms`); say(times[0] < 200 && [...times].sort((one, other) => one - other)[4] < 100, "at 800,000", button, "takes", times); }
    await reader.write("limit", "100000");
    await reader.click("#run"); await reader.key("Shift");
    await reader.event(50000);
    const width = () => reader.js('+document.querySelector("#lanes svg").getAttribute("width")');
    await reader.click("#zoom-all");
    say(await width() <= await reader.js('document.getElementById("lanes").clientWidth'), "not the whole run", await width());
    for (let k = 0; k < 14; k++) await reader.js('document.getElementById("lanes").focus(); document.getElementById("lanes").dispatchEvent(new KeyboardEvent("keydown", {key: "+"}))');
    say(await width() >= 20 * 100000 && await reader.js('(() => { const box = document.getElementById("lanes").getBoundingClientRect(), now = document.querySelector("#lanes .now").getBoundingClientRect(); return now.left >= box.left && now.right <= box.right; })()'), "no zoom", await width());
    for (const button of ["on", "back"]) { const times = []; for (let k = 0; k < 5; k++) times.push(await step(button)); say(Math.min(...times) < 100, button, "takes", times); }
    await reader.write("limit", "10000");
}

// One's own program is never lost: by a link, by an example, by Undo, by closing the page at once.
async function own(reader) {
    const begun = Date.now(); await reader.forget(); await reader.key("Shift");
    const first = await reader.value("text"), mine = first.replace("; Doubles a number twice.", "; Mine, and nobody else's."), other = `${address}#p=${zlib.deflateRawSync(JSON.stringify({text: "proc control\nregs\nRET\n", inputs: [], layout: [1, 1, 1, 100], event: 0, example: ""})).toString("base64url")}`;
    await reader.write("text", mine);
    say((await reader.js('document.getElementById("pick").selectedOptions[0].textContent')).startsWith("Mine, and nobody else's."), "the list doesn't know it", await reader.value("pick"));
    await reader.go(other);
    say((await reader.value("text")).startsWith("proc control\nregs"), "no link");
    await reader.go(address);
    say((await reader.value("text")) === mine, "lost by a link", await reader.value("text"));
    await reader.go(`${address}?example=barrier`);
    await reader.go(address);
    say((await reader.value("text")) === mine, "lost by an example");
    await reader.choose("pick", "first");
    say((await reader.value("text")) === first, "the example can't be had back");
    await reader.write("text", first.replace("answer", "result"));
    await reader.click("#undo");
    say((await reader.value("text")) === first, "no Undo of an edit", await reader.value("text"));
    await reader.click("#redo");
    say((await reader.value("text")) === first.replace("answer", "result"), "no Redo");
    // A busy browser may bring back programs of an earlier part. Numbers are times.
    const listed = await reader.js(`[...document.querySelectorAll("#pick option")].map(it => [it.value, it.textContent]).filter(([value]) => +value.replace("own ", "") >= ${begun})`);
    say(listed.length === 2, "not two changed examples", listed);
    say(await reader.js('document.querySelectorAll("#pick optgroup[label=\'Your own programs\']").length') === 0, "a change makes an own program");
    await reader.choose("pick", listed.find(([, title]) => title.startsWith("Mine"))[0]);
    say((await reader.value("text")) === mine, "the list loses one");
    await reader.js('(() => { const it = document.getElementById("text"); it.focus(); it.setSelectionRange(0, 0); document.execCommand("insertText", false, "; last\\n"); })()');
    await reader.go(address);
    say((await reader.value("text")) === `; last\n${mine}`, "lost by closing", (await reader.value("text")).slice(0, 40));
    const insert = text => reader.js(`(() => { const it = document.getElementById("text"); it.focus(); it.setSelectionRange(0, 0); document.execCommand("insertText", false, ${JSON.stringify(text)}); })()`);
    const texts = () => reader.js('JSON.parse(localStorage.getItem("yuglemit own")).map(it => it.text.split("\\n")[0])');
    await reader.js('(() => { const all = JSON.parse(localStorage.getItem("yuglemit own")); all[0].text = "; from another page\\n"; all[0].when = Date.now() + 1; localStorage.setItem("yuglemit own", JSON.stringify(all)); })()');
    await insert("; from this page\n");
    await reader.page.until('JSON.parse(localStorage.getItem("yuglemit own")).some(it => it.text.startsWith("; from this page"))', 5000);
    say((await texts()).includes("; from another page") && (await texts()).includes("; from this page"), "lost by another page", await texts());
}

// Own programs have names, and none is dropped: there are more than the storage takes, one is deleted and brought back, and a full browser says so.
async function programs(reader) {
    await reader.forget(); await reader.key("Shift");
    const mine = () => reader.js('[...document.querySelectorAll("#pick optgroup[label=\'Your own programs\'] option")].map(it => it.textContent.replace(/ \\([^(]*\\)$/, ""))'), first = await reader.value("text");
    await reader.write("text", first.replace("answer", "result"));
    await reader.click("#name-it");
    await reader.write("name", "Kept one"); await reader.key("Enter");
    say(String(await mine()) === "Kept one", "not kept", await mine());
    for (let k = 2; k <= 16; k++) {
        await reader.click("#new");
        await reader.write("text", (await reader.value("text")).replace("A new program.", `Number ${k}`));
    }
    await reader.key("Shift"); await pause(500);
    await reader.go(address); await reader.key("Shift");
    say((await mine()).length === 16 && (await mine()).includes("Kept one") && (await mine()).includes("Number 2"), "a program is dropped", await mine());
    await reader.click("#name-it"); await reader.write("name", "Other"); await reader.click("#unnamed");
    say((await reader.seen("#naming")) === "" && !(await mine()).includes("Other"), "Cancel renames", await mine());
    await reader.click("#name-it"); await reader.write("name", "Last"); await reader.key("Enter");
    say((await reader.seen("#name-it")) === "Rename" && (await mine()).includes("Last"), "not renamed", await mine());
    const text = await reader.value("text");
    await reader.click("#delete");
    say((await mine()).length === 15 && (await reader.value("text")) === first && (await reader.seen("#said")) === "Last is deleted. Undo brings it back.", "not deleted", await mine(), await reader.seen("#said"));
    await reader.click("#undo"); await reader.key("Shift"); await pause(500);
    say((await reader.value("text")) === text && (await reader.value("pick")).startsWith("own "), "no undo of Delete", await reader.value("text"));
    await reader.go(address); await reader.key("Shift");
    say((await mine()).length === 16 && (await mine()).includes("Last"), "the undo isn't kept", await mine());
    await reader.js('Storage.prototype.setItem = () => { throw new DOMException("", "QuotaExceededError"); }; IDBObjectStore.prototype.put = Storage.prototype.setItem; 0');
    await reader.write("text", `; more\n${text}`);
    say(await reader.page.until('/storage is full/.test(document.getElementById("said").textContent)', 5000), "a full browser says nothing", await reader.seen("#said"));
}

// Files are opened: a text, hex text, bytes, and the trace of a run in 24 threads, which is followed.
async function opening(reader) {
    const room = fs.mkdtempSync(path.join(os.tmpdir(), "opening-"));
    await reader.page.ask("Browser.setDownloadBehavior", {behavior: "allow", downloadPath: room});
    const race = "proc control write cont int\nregs int int\nINT v1 1\nDUPW d1 d0\nPUT 1 0 any 1 0\nPUT 1 0 any 0 1\nRET\nproc leaf write cont int val int\nregs int int\nNEW d1 d2 int\nSTORE d1 v0\nINS d0 v1 d2 a\nJMP b\na:\nDROPR d2\nb:\nDROPW d0\nRET\n";
    const hex = native(["asm"], race).text, actors = ["--engines", "4", "--servers", "4", "--workers", "16"], ran = native(["run", "--text", "--trace", ...actors], race).text, trace = ran.match(/^events\n[^]*?^end\n/m)[0], wanted = native(["disasm"], hex).text;
    const take = async (name, content) => {
        fs.writeFileSync(`${room}/${name}`, content);
        const {root} = await reader.page.ask("DOM.getDocument"), {nodeId} = await reader.page.ask("DOM.querySelector", {nodeId: root.nodeId, selector: "#file"});
        await reader.page.ask("DOM.setFileInputFiles", {files: [`${room}/${name}`], nodeId});
        await pause(800); await reader.ready(); await reader.key("Shift");
        return reader.value("text");
    };
    await reader.forget(); await reader.key("Shift");
    say((await take("a.tw", race)) === race && (await reader.js('document.getElementById("pick").selectedOptions[0].textContent')).startsWith("a ("), "a text isn't opened", await reader.value("text"));
    say((await take("b.hex", hex)) === wanted, "hex text isn't opened", await reader.value("text"), await reader.seen("#said"));
    say((await take("c.bin", Buffer.from(hex.replace(/\s/g, ""), "hex"))) === wanted, "bytes aren't opened", await reader.value("text"));
    say((await take("d.history", hex + trace)) === wanted && (await reader.seen("#ended")) === `The trace of the file: ${trace.split("\n").length - 3} events.`, "a trace isn't followed", await reader.seen("#ended"));
    say((await reader.seen("#at")).endsWith(`of ${trace.split("\n").length - 3}`) && ran.endsWith(`${await reader.seen("#out")}\n`), "another run", await reader.seen("#at"), await reader.seen("#out"));
    await reader.click("#stats");
    say((await reader.seen("#numbers")) === native(["replay", "--text", "--stats", ...await fieldWords(reader)], `${wanted}\n${trace}`).text.trim(), "another run's numbers", await reader.seen("#numbers"));
    await reader.click("[data-give=python]");
    say((await reader.seen("#command")) === "The run on the page is a file's trace, which Trace has.", "a command for another run", await reader.seen("#command"));
    await reader.click("#share");
    say((await reader.seen("#said")).endsWith("It has the program and its inputs, but not the file's trace."), "a link with a trace", await reader.seen("#said"));
    const mapped = fs.readFileSync(`${examples}/mapreduce.twn`, "utf8"), long = native(["run", "--text", "--in-turn", "--seed", "6", "--trace", ...actors, "ints:-1=2,4=3,5=-4"], mapped), events = long.text.match(/^events\n[^]*?^end\n/m)[0];
    say(!/ s3 /.test(events) && /^deliver s0 8 /m.test(events), "this trace needs no fourth server", events);
    await take("f.history", native(["asm", "--names"], mapped).text + events);
    say((await reader.seen("#trace-read")).includes("fill them in as they were") && (await reader.value("servers")) === "4", "other actors", await reader.seen("#trace-read"), await reader.value("servers"));
    await reader.write("input-0", "-1=2"); await reader.click("#follow-trace");
    say((await reader.seen("#ended")) === "The trace isn't one of this program, with these inputs and actors.", "another trace is followed", await reader.seen("#ended"));
    await reader.write("input-0", "-1=2,4=3,5=-4"); await reader.click("#follow-trace");
    say((await reader.seen("#ended")) === `The trace of the file: ${events.split("\n").length - 3} events.` && (await reader.seen("#trace-read")) === "" && long.text.endsWith(`end\n${await reader.seen("#out")}\n`), "a trace with inputs isn't followed", await reader.seen("#ended"), await reader.seen("#out"));
    await reader.click("#run"); await reader.key("Shift");
    const there = await reader.value("text");
    say((await take("g.txt", long.text)) === there && (await reader.seen("#ended")) === `The trace of the file: ${events.split("\n").length - 3} events.` && (await reader.seen("#trace-read")) === "", "a trace alone isn't followed", await reader.value("text"), await reader.seen("#ended"));
    await reader.js(`(() => { const moved = new DataTransfer(); moved.items.add(new File([${JSON.stringify(race)}], "dropped.tw")); for (const kind of ["dragover", "drop"]) document.body.dispatchEvent(new DragEvent(kind, {dataTransfer: moved, bubbles: true, cancelable: true})); })()`);
    await reader.page.until(`document.getElementById("text").value === ${JSON.stringify(race)}`, 5000); await reader.ready();
    say((await reader.value("text")) === race && (await reader.js('document.getElementById("pick").selectedOptions[0].textContent')).startsWith("dropped ("), "a drop isn't opened", await reader.seen("#said"));
    const before = await reader.value("text");
    say((await take("e.hex", "00 01")) === before && (await reader.seen("#said")).startsWith("e.hex isn't a program: refused"), "another file is opened", await reader.seen("#said"));
    fs.rmSync(room, {recursive: true, force: true});
}

// Small things that misled: two loops' turns, a tab before a fault, a hint's full stop, an old message, a manual's address.
async function small(reader, page) {
    const {identifier} = await page.ask("Page.addScriptToEvaluateOnNewDocument", {source: 'addEventListener("DOMContentLoaded", () => { window.loading = [document.querySelectorAll("[inert]").length, document.getElementById("said")?.textContent]; });'});
    await reader.go(`${address}?example=row_products`); await reader.key("Shift"); await reader.event(20);
    say(!/\d, \d+ turns left/.test(await reader.seen("#state")) && /\d and \d+ turns left/.test(await reader.seen("#state")), "turns that read as one number", (await reader.seen("#state")).slice(0, 400));
    await reader.forget(); await reader.key("Shift");
    say(String(await reader.js("window.loading")) === "2,The page is loading .." && !await reader.js('document.querySelector("[inert]")'), "the page is used before it is loaded", await reader.js("window.loading"));
    await page.ask("Page.removeScriptToEvaluateOnNewDocument", {identifier});
    const text = await reader.value("text");
    await reader.write("text", text.replace("STORE to value  ", "\tSTORE\tto\tvalu  "));
    const [end, note] = await reader.js('(() => { const fault = document.querySelector("#paint .fault"); return [fault.getBoundingClientRect().right, fault.parentElement.querySelector(".note.bad").getBoundingClientRect().left]; })()');
    say(note >= end, "the message covers the text", end, note);
    say(/Refused by N04 in line \d+: [^]*\. Did you mean/.test(await reader.seen("#verdict")), "no full stop before a hint", await reader.seen("#verdict"));
    await reader.go(`${address}#manual-BUILD-`);
    say((await reader.seen("#manual-title")) === "Programs in Python", "a link to the manual opens none", await reader.seen("#manual-title"));
    await reader.js('document.querySelector("#manual-contents li:last-child a").click()');
    say(!await reader.js('document.getElementById("manual-back").disabled'), "no way back");
    await reader.write("manual-search", "single-assignment");
    say((await reader.seen("#manual-found")).startsWith("The machine"), "the manual isn't searched", await reader.seen("#manual-text"));
    await reader.js('document.querySelector("#manual-found a").click()');
    say((await reader.seen("#manual-title")) === "The machine", "a place that was found doesn't open");
    await reader.click("#manual-back"); await reader.click("#manual-back");
    say((await reader.seen("#manual-title")) === "Programs in Python", "Back leads elsewhere", await reader.seen("#manual-title"));
    await reader.write("manual-search", "add to a map");
    const found = await reader.js('[...document.querySelectorAll("#manual-found li")].map(it => it.innerText)'), which = found.findIndex(it => it.includes("MADD d s v"));
    say(found.length < 20 && which >= 0 && found[which].startsWith("The machine: "), "the manual's search by words", found);
    await reader.click(`#manual-found li:nth-child(${which + 1}) a`);
    say((await reader.seen("#manual-text .hit")).includes("MADD d s v") && await reader.js('(() => { const box = document.getElementById("manual-text").getBoundingClientRect(), hit = document.querySelector("#manual-text .hit").getBoundingClientRect(); return hit.top >= box.top && hit.bottom <= box.bottom; })()'), "what was found isn't in sight", await reader.seen("#manual-text .hit"));
    await reader.click("#manual-back");
    say((await reader.value("manual-search")) === "add to a map" && (await reader.js('document.querySelectorAll("#manual-found li").length')) === found.length, "no way back to what was found", await reader.value("manual-search"));
    await reader.click("#manual-close");
    await reader.js('document.getElementById("reference").open = true');
    await reader.write("search", "add to a map");
    say((await reader.js('[...document.querySelectorAll("#instructions > details:not([hidden])")].map(it => it.id)')).includes("instruction-MADD"), "a search by words finds nothing", await reader.seen("#found"));
    await reader.go(`${address}?example=words`); await reader.key("Shift");
    const said = await reader.js('(() => { const it = document.getElementById("step"), all = []; for (let k = 1; k <= Math.min(150, +it.max); k++) { it.value = k; it.dispatchEvent(new Event("input")); all.push(document.getElementById("what").textContent); } return all; })()');
    for (const part of [/ = /, /stores .* in .*, which closes it/, /computes: \d+ instructions: \d+ [A-Z]+/]) say(said.some(it => part.test(it)), "no values in the sentences", part, said.slice(0, 30));
    await reader.event(said.findIndex(it => /stores .* in /.test(it)) + 1);
    await reader.click("#what button.link");
    say(/^d\d/.test(await reader.value("by")), "a datum of the sentence can't be picked", await reader.value("by"));
    await reader.write("text", "proc control write int\nregs int int\nSTORE d0 v0\nINT v1 1\nNEW d3 d4 cont int\nREPEAT 19\nNEW d1 d2 int\nSTORE d1 v0\nADD v0 v0 v1 z\nz:\nINS d3 v0 d2 a\nJMP b\na:\nDROPR d2\nb:\nEND\nDROPW d3\nDROPR d4\nRET\n");
    await reader.click("#run"); await reader.key("Shift");
    const put = await reader.js('(() => { const it = document.getElementById("step"), all = []; for (let k = 1; k <= +it.max; k++) { it.value = k; it.dispatchEvent(new Event("input")); all.push([document.getElementById("what").textContent, ...[...document.querySelectorAll("#what button")].map(it => it.textContent)]); } return all.filter(([words]) => /puts/.test(words)).pop(); })()');
    say(String(put) === "Engine 0 puts datum 21 into datum 2 at 19,datum 21,datum 2", "a datum's name is taken for another's", put);
    await reader.go(`${address}?example=word_count`); await reader.key("Shift");
    const sums = await reader.js('(() => { const it = document.getElementById("step"), all = []; for (let k = 1; k <= +it.max; k++) { it.value = k; it.dispatchEvent(new Event("input")); all.push(document.getElementById("what").textContent); } return all.filter(it => /adds /.test(it)); })()');
    say(String(sums.map(it => /adds 1 to counts .*(?="(of|the)", now (\d)$)/.exec(it)?.slice(1))) === "of,1,the,1,of,2", "no sums in the sentences", sums);
    await reader.size(390, 844);
    await reader.forget(); await reader.key("Shift"); await reader.event(6);
    for (const [part, inside] of [["state", "#state article"], ["data", "#data .diagram"]]) {
        await reader.event(2);
        await reader.js(`document.querySelector("${inside}").scrollIntoView({block: "start"})`);
        const before = await reader.js(`document.getElementById("${part}").innerText`), [top, bottom, steps] = await reader.js(`(() => { const it = document.querySelector("${inside}").getBoundingClientRect(), controls = document.getElementById("controls").getBoundingClientRect(); return [it.top, Math.min(it.bottom, innerHeight), [controls.top, controls.bottom]]; })()`);
        say(steps[0] >= 0 && steps[1] <= 844 && (top >= steps[1] - 1 || steps[0] > top + 100) && bottom - top > 100, "steps and", part, "aren't both in sight", top, bottom, steps);
        const at = await reader.js('(() => { const {x, y, width, height} = document.getElementById("on").getBoundingClientRect(); return [x + width / 2, y + height / 2]; })()'), scrolled = await reader.js("scrollY");
        for (let k = 0; k < 4; k++) await reader.handled("click", async () => { for (const type of ["mousePressed", "mouseReleased"]) await page.ask("Input.dispatchMouseEvent", {type, x: at[0], y: at[1], button: "left", clickCount: 1}); });
        say((await reader.js(`document.getElementById("${part}").innerText`)) !== before && Math.abs((await reader.js("scrollY")) - scrolled) < 200, part, "doesn't change in sight", scrolled, await reader.js("scrollY"));
    }
    for (const part of ["state", "data", "writing"]) {
        await reader.js(`document.getElementById("${part}").scrollIntoView({block: "start"})`);
        say(await reader.js('(() => { const {top, bottom} = document.getElementById("on").getBoundingClientRect(); return top >= 0 && bottom <= innerHeight; })()'), "the steps are out of sight at", part);
    }
    await reader.size(1280, 800); await reader.js("scrollTo(0, 0)");
    say(await reader.js('document.getElementById("data").getBoundingClientRect().top < 700'), "data are below", await reader.js('document.getElementById("data").getBoundingClientRect().top'));
    for (const [width, columns] of [[1690, 2], [1700, 3], [2560, 3]]) {
        await reader.size(width, 1300); await reader.js("scrollTo(0, 0)");
        const [lefts, right, drawn] = await reader.js('[new Set(["writing", "running", "data"].map(id => document.getElementById(id).getBoundingClientRect().left)).size, ...["#data", "#data .diagram"].map(it => document.querySelector(it).getBoundingClientRect().right)]');
        say(lefts === columns && (columns === 2 || right > Math.min(width * 0.95, 2200)) && drawn <= right + 1, "other columns at", width, lefts, right, drawn);
    }
    await reader.size(1300);
}

// Results that are no longer those of the program are dimmed; the verdict promises what is proved.
async function old_results(reader) {
    await reader.forget(); await reader.key("Shift");
    say((await reader.seen("#verdict")).startsWith("Accepted: no task of it can fail. A run may still get stuck. Budgets"), "another promise", await reader.seen("#verdict"));
    await reader.write("limit", "10");
    say((await reader.seen("#verdict")).startsWith("Accepted: no task of it can fail. A run may still get stuck, or reach its limit."), "nothing about the limit", await reader.seen("#verdict"));
    await reader.write("limit", "10000");
    await reader.choose("pick", "store_seven"); await reader.key("Shift");
    say((await reader.seen("#verdict")).startsWith("Accepted: no task of it can fail. Budgets"), "store_seven can't get stuck", await reader.seen("#verdict"));
    await reader.choose("pick", "store_twice");
    say((await reader.seen("#state")) === "" && (await reader.seen("#controls")) === "" && !(await reader.seen("#ended")).includes("events"), "another program's run stays", await reader.seen("#ended"));
    for (const what of ["#stats", "[data-give=trace]"]) { await reader.click(what); say((await reader.seen("#said")) === "There is no run on the page." && (await reader.seen("#numbers")) === "" && (await reader.seen("#command")) === "", "another program's", what, await reader.seen("#said")); await reader.js('document.getElementById("said").textContent = ""'); }
    await reader.choose("pick", "first"); await reader.key("Shift");
    say((await reader.seen("#verdict")).endsWith("All its runs that end have the same outputs, in every order of events."), "nothing about the order", await reader.seen("#verdict"));
    say((await reader.seen("#results")) === "answer = 12" && (await reader.seen("#ended")).startsWith("Done: nothing is left to do."), "no outputs in words", await reader.seen("#results"));
    await reader.click("#stats");
    const text = await reader.value("text"), dim = () => reader.js('["answer", "numbers", "state", "data", "timeline"].map(id => +getComputedStyle(document.getElementById(id)).opacity)');
    say((await dim()).every(it => it === 1), "dimmed at first", await dim());
    await reader.write("text", text.replace("STORE to value", "; STORE to value"));
    say((await dim()).every(it => it < 1) && (await reader.seen("#stale")).includes("Repair the program, then press Run."), "old results look new", await dim(), await reader.seen("#stale"));
    await reader.click("#run");
    say((await reader.seen("#ended")).includes("Repair the program"), "Run says nothing", await reader.seen("#ended"));
    await reader.write("text", text);
    say((await reader.seen("#stale")).includes("Press Run."), "no advice", await reader.seen("#stale"));
    await reader.click("#run");
    say((await dim()).slice(2).every(it => it === 1) && (await reader.seen("#numbers")) === "", "old numbers", await reader.seen("#numbers"));
}

// The language is explained: at the cursor, in the panel of instructions, whose examples run, in the glossary, in the manual and in Python.
async function learning(reader) {
    await reader.forget(); await reader.key("Shift");
    const at = async word => { await reader.js(`(() => { const it = document.getElementById("text"), at = it.value.indexOf(${JSON.stringify(word)}) + 1; it.focus(); it.setSelectionRange(at, at); it.dispatchEvent(new Event("click")); })()`); return reader.seen("#help"); };
    say((await at("STORE to")).startsWith("STORE d v writes a value into a datum, once and for all"), "no help at STORE", await at("STORE to"));
    say(/begins when the datum is closed|nobody has a right to write it/.test(await at("closed int")), "no help at closed", await at("closed int"));
    say(/Refused, and skips, if it doesn't fit 64 bits/.test(await at("ADD value")), "no refusal of ADD", await at("ADD value"));
    await reader.click("#more");
    say((await reader.seen("#instruction-ADD pre")).includes("ADD one one two refused") && (await reader.seen("#instruction-ADD")).includes("all int"), "no card of ADD", await reader.seen("#instruction-ADD"));
    const names = await reader.js('[...document.querySelectorAll("#instructions > details")].map(it => it.id.slice(12))'), grammar = fs.readFileSync(path.join(examples, "../script/install/tw.vim"), "utf8").match(/twInstruction (.*)/)[1].split(" ");
    say(String([...names].sort()) === String([...grammar].sort()), "other instructions", names);
    await reader.write("search", "remainder");
    say((await reader.js('[...document.querySelectorAll("#instructions > details:not([hidden])")].map(it => it.id)')).join() === "instruction-REM", "the search finds otherwise");
    await reader.js('document.getElementById("search").value = ""; document.getElementById("search").dispatchEvent(new Event("input"))');
    for (const name of ["ADD", "TLOOK", "RULEV"]) {
        await reader.js(`document.body.dataset.state = "busy"; document.querySelector("#instruction-${name} button").click()`); await reader.ready(); await reader.key("Shift");
        say(new RegExp(`^${name} `, "m").test(await reader.value("text")) && (await reader.seen("#out")).endsWith("quiet"), name, "can't be tried", await reader.seen("#out"), await reader.seen("#verdict"));
    }
    await reader.click("#words summary");
    for (const word of ["right", "datum", "closed", "rule", "engine", "budget"]) say((await reader.seen("#glossary")).includes(word), "no word", word);
    await reader.click("footer a[href='#manual-MACHINE-']");
    say((await reader.seen("#manual-title")) === "The machine" && (await reader.seen("#manual-text")).includes("single-assignment future"), "no manual", await reader.seen("#manual-title"));
    await reader.js('[...document.querySelectorAll("#manual-text a")].find(it => it.getAttribute("href").startsWith("#manual-FORMAT")).click()');
    say((await reader.seen("#manual-title")) === "Texts, inputs and reports", "no link in the manual", await reader.seen("#manual-title"));
    await reader.click("#manual-close");
    say((await reader.seen("footer")).includes(`Yuglemit ${fs.readFileSync(path.join(examples, "../VERSION"), "utf8").trim()}.`), "no version");
    await reader.choose("pick", "pipeline"); await reader.key("Shift");
    await reader.click("#python summary");
    say((await reader.seen("#python-text")) === fs.readFileSync(path.join(examples, "../embed/python/tests/programs/pipeline.py"), "utf8").trim(), "no Python", await reader.seen("#python-text"));
    await reader.choose("pick", "stuck_on_itself");
    say((await reader.seen("#python")) === "", "Python of a program that has none");
}

// Words are completed: Tab takes the first, the arrow keys choose, Enter at the end of a word is a line end.
async function completion(reader) {
    await reader.forget(); await reader.key("Shift");
    const typed = async (line, signs) => {
        await reader.js(`(() => { const it = document.getElementById("text"), at = it.value.indexOf(${JSON.stringify(line)}); it.focus(); it.setSelectionRange(at, at); })()`);
        for (const sign of signs) await reader.page.ask("Input.insertText", {text: sign});
        await reader.ready();
        return reader.js('[...document.querySelectorAll("#offers:not([hidden]) [role=option] b")].map(it => it.textContent)');
    };
    say(String(await typed("\nSTORE to", "\nDR")) === "DROPR,DROPW", "no instructions", await reader.seen("#offers"));
    await reader.key("ArrowDown"); await reader.key("ArrowDown"); await reader.key("Enter");
    say((await reader.value("text")).includes("too_large:\nDROPW\nSTORE to"), "Enter takes nothing", (await reader.value("text")).slice(-80));
    await reader.forget(); await reader.key("Shift");
    await typed("\nSTORE to", "\nDR"); await reader.key("Enter");
    say((await reader.value("text")).includes("too_large:\nDR\n\nSTORE to"), "Enter isn't a line end", (await reader.value("text")).slice(-80));
    await reader.forget(); await reader.key("Shift");
    say(String(await typed("\nRET\n\nproc", "\nRULE dou")) === "double", "no procedure", await reader.seen("#offers"));
    await reader.key("Tab");
    say((await reader.value("text")).includes("\nRULE double\nRET\n\nproc"), "Tab takes nothing", (await reader.value("text")).slice(0, 400));
    say((await reader.js("document.activeElement.id")) === "text" && (await reader.js('document.getElementById("offers").hidden')), "the list stays");
    await reader.forget(); await reader.key("Shift");
    say((await typed("\nADD value", "\nCOPY val")).includes("value"), "no register");
    await reader.key("Escape");
    say(await reader.js('document.getElementById("offers").hidden'), "Escape leaves the list");
}

// Another order of events: other events, the same outputs, as tw's replay says; a race for a subscript has different ones, and the page says which was refused.
async function another(reader) {
    await reader.go(`${address}?example=mapreduce`); await reader.key("Shift");
    const before = await reader.seen("#out"), said = [];
    for (let k = 1; k <= 3; k++) { await reader.click("#another"); said.push(await reader.seen("#order")); say(said[k - 1].startsWith(`Order ${k}: the outputs are the same.`), "another order", said); }
    await reader.event(7);
    const link = await reader.saved(it => it.seed === 3 && it.event === 7), there = await reader.seen("#what");
    await reader.go(link); await reader.key("Shift");
    say((await reader.seen("#order")) === "Order 3." && (await reader.seen("#what")) === there, "a link loses the order", await reader.seen("#order"), there);
    await reader.click("#another");
    say((await reader.seen("#order")) === "Order 4: the outputs are the same.", "orders that weren't tried are counted", await reader.seen("#order"));
    await reader.event(+(await reader.js('document.getElementById("step").max')));
    say((await reader.seen("#data")).includes("all is done") && (await reader.seen("#out")) === before, "the order doesn't end", await reader.seen("#data"));
    const race = "proc control write cont int\nregs int int\nINT v1 1\nDUPW d1 d0\nPUT 1 0 any 1 0\nPUT 1 0 any 0 1\nRET\nproc leaf write cont int val int\nregs int int\nNEW d1 d2 int\nSTORE d1 v0\nINS d0 v1 d2 a\nJMP b\na:\nDROPR d2\nb:\nDROPW d0\nRET\n";
    await reader.write("text", race);
    await reader.write("workers", "2");
    await reader.click("#run"); await reader.key("Shift");
    await reader.click("#other-result");
    const [, seed] = /^Order (\d+): the outputs differ/.exec(await reader.seen("#order")) ?? [];
    say(seed && native(["run", "--text", "--in-turn", "--seed", seed, "--workers", "2"], race).text.trim() === (await reader.seen("#out")) && (await reader.seen("#out")) !== native(["run", "--text", "--in-turn", "--workers", "2"], race).text.trim(), "no other result", await reader.seen("#order"), await reader.seen("#out"));
    await reader.event(+(await reader.js('document.getElementById("step").max')));
    say(/Insertions that were refused\s+event \d+: Worker \d finds the subscript taken/.test(await reader.seen("#data")), "no refused insertion", await reader.seen("#data"));
    await reader.click("#only-result");
    say((await reader.seen("#order")).includes("There may be other results"), "no answer", await reader.seen("#order"));
    await reader.click("#contested");
    say((await reader.js('(() => { const it = document.getElementById("text"); return it.value.slice(it.selectionStart, it.selectionEnd); })()')) === "INS d0 v1 d2 a", "it leads elsewhere");
    await reader.write("text", "proc control write int write int\nregs\nPUT 1 0 any 0\nPUT 1 0 any 1\nRET\nproc leaf write int\nregs int\nSTORE d0 v0\nRET\n");
    say((await reader.seen("#verdict")).includes(" Budgets: main 3, procedure 1: 2. "), "budgets that read as one number", await reader.seen("#verdict"));
    await reader.write("limit", "5");
    await reader.click("#run");
    const limited = "The limit ended the run, so its result isn't known. Raise the limit.", answers = [];
    for (const button of ["another", "other-result", "only-result"]) { await reader.click(`#${button}`); answers.push(await reader.seen("#order")); }
    say(String(answers) === String([`Order 1. ${limited}`, limited, limited]), "what the limit ended is compared", answers);
    await reader.go(`${address}?example=barrier`); await reader.key("Shift");
    await reader.click("#only-result");
    say((await reader.seen("#order")).startsWith("This is the only result"), "no only result", await reader.seen("#order"));
    await reader.js('document.getElementById("other-result").click()');
    say(await reader.page.until('/^Order \\d+ of 1,000 is tried/.test(document.getElementById("order").textContent) && !document.getElementById("stop").disabled', 60000), "no progress", await reader.seen("#order"));
    say((await reader.seen("#followed")) === "" && await reader.js('!document.getElementById("following").hidden'), "orders are tried like events", await reader.seen("#followed"));
    await reader.js('document.getElementById("stop").click()'); await reader.ready();
    say((await reader.seen("#order")) === "stopped" && await reader.js('document.getElementById("following").hidden'), "not stopped", await reader.seen("#order"));
    await reader.click("#other-result");
    await reader.page.until('/^1,000 orders/.test(document.getElementById("order").textContent)', 60000);
    say((await reader.seen("#order")).startsWith("1,000 orders had the outputs"), "not all orders", await reader.seen("#order"));
}

// Links that lie or are broken do no harm.
async function links(reader) {
    const link = what => `${address}#p=${zlib.deflateRawSync(typeof what === "string" ? what : JSON.stringify(what)).toString("base64url")}`, text = "proc control write int\nregs int\nINT v0 7\nSTORE d0 v0\nRET\n";
    const of = more => ({text, inputs: [], layout: [1, 1, 1, 100], event: 0, example: "", ...more});
    for (const [event, shown] of [[-5, "event 0 of 4"], [2.5, "event 2 of 4"], ["x", "event 0 of 4"], [1e9, "event 4 of 4"]]) {
        await reader.go(link(of({event}))); await reader.key("Shift");
        say((await reader.seen("#at")) === shown, "event", event, await reader.seen("#at"));
    }
    await reader.go(link(of({layout: [-1, 2.5, 99, "x"]})));
    say(String(await reader.js('["engines", "servers", "workers", "limit"].map(id => document.getElementById(id).value)')) === "1,2,16,1", "a layout");
    await reader.go(link(of({example: "fan_out names"})));
    say((await reader.value("text")) === text && (await reader.value("pick")) === "", "a link lies about its example", await reader.value("pick"));
    const from = Date.now();
    await reader.go(link(JSON.stringify(of({text: "x".repeat(20000000)}))));
    say((await reader.seen("#said")).includes("broken") && Date.now() - from < 5000 * PATIENCE, "a link of 20 MB", await reader.seen("#said"), Date.now() - from);
    await reader.go(link("[1, 2"));
    say((await reader.seen("#said")).includes("broken"), "a link without contents");
}

// The page forbids itself every request.
async function policy(reader, page) {
    await reader.forget();
    const tried = await reader.js(`Promise.all([
        fetch("https://example.com/").then(() => "fetch", () => ""), fetch("data:text/plain,x").then(() => "data", () => ""),
        new Promise(done => { const it = new Image(); it.onload = () => done("image"); it.onerror = () => done(""); it.src = "https://example.com/x.png"; }),
        new Promise(done => { const it = document.createElement("script"); it.onload = () => done("script"); it.onerror = () => done(""); it.src = "https://example.com/x.js"; document.head.append(it); }),
        new Promise(done => { const it = document.createElement("script"); it.textContent = "window.injected = true"; document.head.append(it); done(window.injected ? "inline" : ""); }),
        new Promise(done => { const it = document.createElement("link"); it.rel = "stylesheet"; it.onload = () => done("style"); it.onerror = () => done(""); it.href = "https://example.com/x.css"; document.head.append(it); }),
        Promise.resolve().then(() => { try { return new WebSocket("wss://example.com/") && "" } catch { return ""; } }),
        Promise.resolve(navigator.sendBeacon("https://example.com/") ? "" : "")])`);
    const refused = page.messages.splice(0).filter(it => /Content Security Policy/.test(it)).length;
    say(tried.every(it => it === "") && refused >= 7, "a request isn't forbidden", tried, refused);
    say((await page.ask("Runtime.evaluate", {expression: "Function('return 1')()", allowUnsafeEvalBlockedByCSP: false})).exceptionDetails, "a text is run as a script");
    page.messages.splice(0);
    say(await reader.js(`document.querySelector("meta[http-equiv]").content.startsWith("default-src 'none'; script-src 'sha256-")`), "no policy");
}

// Inputs are checked at their fields, and what phones put in is taken.
async function inputs(reader) {
    await reader.go(`${address}?example=words`); await reader.key("Shift");
    const fault = async text => { await reader.write("input-0", text); return reader.seen("#input-0-fault"); };
    say((await reader.seen("#inputs label")).startsWith("words"), "no name", await reader.seen("#inputs label"));
    say((await fault('3="of",1="the"')).includes("have to rise"), "an order", await fault('3="of",1="the"'));
    say((await fault('1="of",1="the"')).includes("twice"), "a subscript twice");
    say((await fault(`1="${"x".repeat(4097)}"`)).includes("4,096"), "a long text");
    await reader.click("#run");
    say((await reader.seen("#ended")).startsWith("The input words is wrong: a text has over 4,096 bytes."), "no field is named", await reader.seen("#ended"));
    say((await fault("1=\u201cof\u201d, 2=\u201cthe\u201d")) === "", "curly quotes", await fault("1=\u201cof\u201d, 2=\u201cthe\u201d"));
    await reader.click("#run"); await reader.key("Shift");
    say((await reader.seen("#out")).endsWith("quiet"), "not run", await reader.seen("#ended"));
    await reader.write("workers", "0");
    await reader.click("#run");
    say((await reader.seen("#ended")).includes("workers: 1 to 16"), "a layout", await reader.seen("#ended"));
    await reader.forget(); await reader.key("Shift");
    const hint = async (from, to) => { const text = await reader.value("text"); await reader.write("text", text.replace(from, to)); const shown = await reader.seen("#verdict"); await reader.write("text", text); return shown; };
    say((await hint("STORE to value", "STORE to vlue")).includes("Did you mean value?"), "no hint at a name", await hint("STORE to value", "STORE to vlue"));
    say((await hint("RULE double", "RULE doubl")).endsWith("no procedure has this name; did you mean double?"), "another hint at a procedure", await hint("RULE double", "RULE doubl"));
    say((await hint("; Doubles", "// Doubles")).includes("Comments begin with ;"), "no hint at a comment", await hint("; Doubles", "// Doubles"));
    say((await hint("names\n", "")).includes("begin the text with the line names"), "no hint at names", await hint("names\n", ""));
}

// Data are boxes, and rights are arrows, for up to twenty data; then there is a table.
async function diagram(reader) {
    await reader.forget(); await reader.key("Shift"); await reader.event(4);
    const boxes = () => reader.js('[...document.querySelectorAll("#data .box[class~=open], #data .box[class~=closed]")].map(it => it.textContent)'), arrows = look => reader.js(`document.querySelectorAll("#data .arrow.${look}").length`);
    say((await boxes()).length === 3 && (await boxes()).some(it => /middle \(datum 3\): int.*not yet written/.test(it)), "other boxes", await boxes());
    say((await arrows("writes")) === 2 && (await arrows("waits")) === 2, "other arrows", await arrows("writes"), await arrows("waits"), await arrows("reads"));
    say(/middle \(datum 3\): int, open, not yet written; .*double writes middle \(datum 3\)/.test(await reader.js('document.querySelector("#data .diagram").getAttribute("aria-label")')), "not in words", await reader.js('document.querySelector("#data .diagram").getAttribute("aria-label")'));
    await reader.js('document.querySelector("#data .box.open").dispatchEvent(new MouseEvent("click", {bubbles: true}))');
    say(/^d\d/.test(await reader.value("by")), "a box can't be picked", await reader.value("by"));
    await reader.write("text", "proc control closed cont int write int\nregs int\nDROPR d0\nSTORE d1 v0\nRET\n");
    for (const [members, shown] of [[18, 1], [19, 0]]) {
        await reader.write("input-0", Array.from({length: members}, (_, k) => `${k}=1`).join(","));
        await reader.click("#run"); await reader.key("Shift"); await reader.event(1);
        say((await reader.js('document.querySelectorAll("#data .diagram").length')) === shown && (await reader.js('document.querySelectorAll("#data tbody tr").length')) === members + 2, members, "members as another picture");
    }
}

// Paper gets the whole program and the report; the lit line is seen in forced colours; marks differ by their shape, and are seen on all grounds.
async function looks(reader) {
    await reader.forget(); await reader.key("Shift"); await reader.event(3);
    await reader.js('dispatchEvent(new Event("beforeprint"))');
    await reader.page.ask("Emulation.setEmulatedMedia", {media: "print"});
    const shown = await reader.js('document.body.innerText');
    say((await reader.value("text")).split("\n").every(line => shown.includes(line)) && shown.includes("out 0 int 12") && !shown.includes("Take the tour"), "other print", shown);
    await reader.page.ask("Emulation.setEmulatedMedia", {media: "", features: [{name: "forced-colors", value: "active"}]});
    await reader.pause();
    say((await reader.js('getComputedStyle(document.querySelector("#paint .hit")).outlineStyle')) === "solid", "the line isn't seen in forced colours");
    await reader.shot("forced");
    for (const scheme of ["light", "dark"]) {
        await reader.page.ask("Emulation.setEmulatedMedia", {media: "", features: [{name: "prefers-color-scheme", value: scheme}]});
        say((await reader.js(MARKS)).length === 0, scheme, "a mark isn't seen", await reader.js(MARKS));
    }
    const shapes = await reader.js('[...document.querySelectorAll("#legend path")].map(it => it.getAttribute("d"))');
    say(shapes.length === 7 && new Set(shapes).size === 7, "kinds have one shape", shapes);
    const drawn = fs.readFileSync(`${examples}/pipeline.svg`, "utf8"), words = [...drawn.matchAll(/<path class="(\w+)" d="M[\d ]+"><\/path>\n<text class="label" x="\d+" y="22">([^<]+)</g)].map(it => [it[1], it[2]]);
    const legend = await reader.js('[[...document.querySelectorAll("#legend path")].map(it => it.getAttribute("class")), document.getElementById("legend").textContent]');
    say(words.length === 7 && String(words.map(it => it[0])) === String(legend[0]) && legend[1].startsWith(words.map(it => it[1]).join(" ")) && drawn.includes(": order of events, not duration<") && legend[1].endsWith("order of events, not duration"), "tw's timeline has another legend", words, legend);
    await reader.scheme("light");
    for (const [width, height] of [[360, 225], [720, 450]]) {
        await reader.size(width, height);
        const covered = await reader.js('(() => { const it = document.getElementById("controls"), {height} = it.getBoundingClientRect(); return getComputedStyle(it).position === "sticky" ? height / innerHeight : 0; })()');
        say(covered < 0.35 && await reader.js("document.documentElement.scrollWidth <= innerWidth"), width, "covered by", covered);
    }
    await reader.size(1300);
}

// Returns the marks of the timeline that have less than 3 to 1 with the bars or the rows.
const MARKS = `(() => {
    const rgb = value => { const made = document.createElement("canvas").getContext("2d"); made.fillStyle = value; made.fillRect(0, 0, 1, 1); return [...made.getImageData(0, 0, 1, 1).data]; };
    const shine = ([r, g, b]) => [r, g, b].map(it => (it /= 255) <= 0.03928 ? it / 12.92 : ((it + 0.055) / 1.055) ** 2.4).reduce((sum, it, k) => sum + it * [0.2126, 0.7152, 0.0722][k], 0);
    const of = name => shine(rgb(getComputedStyle(document.documentElement).getPropertyValue("--" + name).trim())), wrong = [];
    for (const kind of ["take", "local", "call", "end", "ask", "deliver", "release"]) for (const ground of ["bar", "card", "odd"]) {
        const [one, other] = [of(kind), of(ground)].sort((a, b) => b - a), ratio = (one + 0.05) / (other + 0.05);
        if (ratio < 3) wrong.push(kind + " on " + ground + " " + ratio.toFixed(2));
    }
    return wrong;
})()`;

// The timeline is scrolled to the event in both directions, has an overview, and lines of the marked task alone; keys step; steps say what is computed.
async function timeline(reader) {
    await reader.go(`${address}?example=words`); await reader.key("Shift");
    await reader.write("workers", "12");
    await reader.click("#run"); await reader.key("Shift");
    const inSight = event => reader.js(`(() => { const box = document.getElementById("timeline").getBoundingClientRect(), lane = document.querySelectorAll(".lane-name")[${event}].getBoundingClientRect(); return lane.top >= box.top - 1 && lane.bottom <= box.bottom + 1; })()`);
    const all = +(await reader.js('document.getElementById("step").max')), seen = new Set();
    for (let k = 1; k <= all; k += 9) {
        await reader.event(k);
        const actor = (await reader.seen("#what")).match(/^(Engine|Server|Worker) (\d+)/), lane = {Engine: 0, Server: 2, Worker: 3}[actor[1]] + +actor[2];
        seen.add(lane);
        say(await inSight(lane), "lane", lane, "isn't in sight at", k);
        say((await reader.js('document.querySelectorAll("#lanes .thread").length')) <= 2, "lines of others at", k);
    }
    say(seen.size > 4, "few lanes", [...seen]);
    const zoomed = await reader.js('(() => { const box = document.getElementById("lanes"), width = () => +box.querySelector("svg").getAttribute("width"), at = () => (box.scrollLeft + 200) / width(), old = [width(), at()]; box.scrollLeft = 900; old[1] = at(); const wheel = by => box.dispatchEvent(new WheelEvent("wheel", {ctrlKey: true, deltaY: by, clientX: box.getBoundingClientRect().left + 200, bubbles: true, cancelable: true})); wheel(100); const small = [width(), at()]; wheel(-100); return [...old, ...small, width(), at()]; })()');
    say(zoomed[2] < zoomed[0] * 0.7 && Math.abs(zoomed[4] - zoomed[0]) < 30 && Math.abs(zoomed[3] - zoomed[1]) < 0.01 && Math.abs(zoomed[5] - zoomed[1]) < 0.01, "the wheel zooms otherwise", zoomed);
    const box = await reader.js('(() => { const {x, y, width, height} = document.getElementById("strip").getBoundingClientRect(); return {x, y, width, height}; })()');
    say(box.width > 200 && box.height > 10, "no overview", box);
    await reader.js('document.getElementById("strip").scrollIntoView({block: "center"})');
    const at = await reader.js('(() => { const {x, y, width} = document.getElementById("strip").getBoundingClientRect(); return [x + width / 2, y + 5]; })()');
    for (const type of ["mousePressed", "mouseReleased"]) await reader.page.ask("Input.dispatchMouseEvent", {type, x: at[0], y: at[1], button: "left", buttons: type === "mousePressed" ? 1 : 0, clickCount: 1});
    const there = +(await reader.value("step"));
    say(Math.abs(there - all / 2) < all / 20, "the overview leads elsewhere", there, all);
    await reader.forget(); await reader.key("Shift"); await reader.event(0);
    await reader.js("document.activeElement.blur()");
    await reader.key("."); await reader.key("."); await reader.key(",");
    say((await reader.seen("#at")).startsWith("event 1 "), "keys don't step", await reader.seen("#at"));
    await reader.click("#last");
    say((await reader.seen("#at")) === "event 22 of 22", "not at the end", await reader.seen("#at"));
    const steps = [];
    for (let k = 0; k <= 22; k++) { await reader.event(k); steps.push(await reader.seen("#what")); }
    say(steps.some(it => it.endsWith("computes: ADD value value value too_large: 3 + 3 = 6")), "no sum", steps);
    await reader.click("#play");
    say((await reader.js('document.getElementById("what").getAttribute("aria-live")')) === "off", "a screen reader hears each event");
    await reader.click("#play");
    await reader.js('document.querySelector("#mistakes button").focus()');
    await reader.key("ArrowRight");
    say((await reader.js("document.activeElement.textContent")) === "Write it twice", "no arrow keys in toolbars");
    await reader.click("#mistakes button:nth-child(1)");
    say((await reader.seen("#broken .change")).includes("- ") && (await reader.seen("#broken")).includes("Show it in the program"), "the mistake isn't shown", await reader.seen("#broken"));
}

// A browser without WebAssembly gets advice, with a screenshot.
async function old(reader) {
    const {identifier} = await reader.page.ask("Page.addScriptToEvaluateOnNewDocument", {source: "delete window.WebAssembly;"});
    await reader.page.ask("Page.navigate", {url: "about:blank"}); await reader.page.ask("Page.navigate", {url: address});
    await reader.page.until('document.getElementById("old") && !document.getElementById("old").hidden', 10000);
    say(/Safari 16.4/.test(await reader.seen("#old")) && await reader.js('document.querySelector("#old svg").getBoundingClientRect().width > 100') && (await reader.seen("#whole")) === "", "an old browser", await reader.seen("#old"));
    await reader.page.ask("Page.removeScriptToEvaluateOnNewDocument", {identifier});
    await reader.go(address);
}

// The narrowed module computes what the wide one does.
async function narrowed(reader) {
    if (!wide) return;
    await reader.go(address);
    const results = [];
    for (const file of [wide, narrow]) results.push(await reader.js(`WebAssembly.instantiate(Uint8Array.from(atob("${fs.readFileSync(file).toString("base64")}"), sign => sign.charCodeAt(0))).then(it => String(it.instance.exports.go(12345n)))`));
    say(results[0] === results[1] && results[0].length > 3, "the narrowed module differs", results);
}

// Takes screenshots to look at, and for README.md.
async function screens(reader) {
    if (!pictures) return;
    fs.mkdirSync(pictures, {recursive: true});
    await reader.size(1300, 950); await reader.scheme("light");
    await reader.forget(); await reader.key("Shift"); await reader.event(0); await reader.shot("start");
    await reader.go(`${address}?example=mapreduce`); await reader.key("Shift"); await reader.event(30); await reader.shot("step");
    await reader.forget();
    await reader.write("text", (await reader.value("text")).replace("double 0 any number", "dubble 0 any number").replace("GET value from", "GET value form").replace("ADD value value value too_large", "ADD value value")); await reader.shot("refusal");
    await reader.forget(); await reader.key("Shift");
    await reader.click("#mistakes button:nth-child(2)"); await reader.js('document.getElementById("breaking").scrollIntoView({block: "end"})'); await reader.shot("break");
    await reader.forget(); await reader.click("#tour"); await reader.key("Enter"); await reader.key("Enter"); await reader.shot("tour"); await reader.key("Escape");
    await reader.scheme("dark");
    await reader.go(`${address}?example=fan_out`); await reader.key("Shift"); await reader.event(40); await reader.js("scrollTo(0, 0)"); await reader.shot("dark"); await reader.shot("dark-whole", true);
    await reader.size(375, 800); await reader.scheme("light");
    await reader.forget(); await reader.key("Shift"); await reader.event(12); await reader.js("scrollTo(0, 0)"); await reader.shot("phone"); await reader.shot("phone-whole", true);
    await reader.size(1300);
}

// Opens the page in a new browser; if it can't be driven, in another one, some seconds later.
async function begin(tries = 5) {
    try {
        page = await open(address);
    } catch (error) {
        console.log(error.message);
        if (tries === 1) throw error;
        await pause(10000 * (6 - tries));
        return begin(tries - 1);
    }
    reader = new Reader(page);
    say(await page.until('document.body?.dataset.state === "ready"', 60000), "the page isn't ready");
}

// Ends the browser. What it said is an error.
async function end() {
    say(page.messages.length === 0, "messages", page.messages);
    await page.close();
}

/** How often a browser may be lost, by its connection or its end, so that a part is done once more in a new one. */
const LOSSES = 3;
let losses = 0;

// Does a part, for LIMIT ms at most. If it fails by more than what it compares, the next one gets a new browser. So does the part itself if its browser
// was lost.
async function within(part) {
    let late = 0, lost = "";
    const limit = new Promise((_, fail) => { late = setTimeout(() => fail(new Error(`it isn't done in ${LIMIT / 1000} s`)), LIMIT); });
    try {
        await Promise.race([part(reader, page), limit]);
    } catch (error) {
        lost = page.lost();
        if (lost && losses++ < LOSSES) console.log(`${part.name}: ${lost}; it is done once more`);
        else { lost = ""; say(false, part.name, error.stack); }
        await end();
        await begin();
    } finally {
        clearTimeout(late);
    }
    if (lost) await within(part);
}

let page, reader;
await begin();
const only = process.env.ONLY?.split(",");
for (const part of [firstSight, steps, typing, errors, large, kept, mistakes, tour, downloads, quick, millions, own, programs, opening, small, old_results, learning, completion, another, links, policy, inputs, diagram, looks, timeline, everywhere, allExamples, long, old, narrowed, screens].filter(it => !LACKS.includes(it.name) && (!only || only.includes(it.name)))) {
    const from = Date.now(), failures = failed;
    await within(part);
    console.log(`${part.name}: ${failed === failures ? "well" : "FAILED"}, ${((Date.now() - from) / 1000).toFixed(1)} s`);
}
await end();
if (losses) console.log(`the browser was lost ${losses} times`);
if (LACKS.length) console.log(`left out in this browser: ${LACKS.join(", ")}`);
console.log(`${passed} passed, ${failed} failed`);
process.exitCode = failed ? 1 : 0;
