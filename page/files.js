// @ts-check
// SPDX-License-Identifier: Apache-2.0
// Downloads, the link to share, and the statistics of a run.
import {chromeTrace} from "./chrome.js";
import {$, download, h} from "./dom.js";
import {ordered} from "./orders.js";
import {pythonOf} from "./python.js";
import {SHOWN} from "./results.js";

/** Returns a word of a command as a shell reads it.
 * @param {string} word */
const quoted = word => /^[\w:=,.-]+$/.test(word) ? word : `'${word.replace(/'/g, "'\\''")}'`;

export class Files {
    /** @param {import("./library.js").Library} library @param {import("./editor.js").Editor} editor
     * @param {import("./contents.js").Contents} contents @param {import("./results.js").Results} results @param {() => import("./run.js").Run | null} run the run that is shown */
    constructor(library, editor, contents, results, run) {
        this.library = library;
        this.editor = editor;
        this.contents = contents;
        this.results = results;
        this.run = run;
    }

    /** The program followed by the events of its last run. */
    get history() { const {text, trace} = this.results.last; return `${text}\nevents\n${trace}end\n`; }

    /** Returns a file's extension, its text and its type.
     * @param {string} what @returns {Promise<[string, string, string]>} */
    async file(what) {
        const {library, editor, results} = this, ask = async (/** @type {string[]} */ words, /** @type {string} */ text) => (await library.session(words, text))?.text ?? "";
        switch (what) {
            case "text": return [/^\s*names\b/m.test(editor.text) ? "twn" : "tw", editor.text, "text/plain"];
            case "bytes": return ["hex", await ask(["asm", "--names"], editor.text), "text/plain"];
            case "trace": return ["history", `${await ask(["asm", "--names"], results.last.text)}${this.history.slice(results.last.text.length + 1)}`, "text/plain"];
            case "timeline": {
                const {text, words, limit, seed, read} = results.last; // A run's own picture says that its limit ended it, which a trace can't.
                return ["svg", await (read ? ask(["picture", "--text", ...words], this.history) : ask(["run", "--text", "--picture", "--limit", String(limit), ...ordered(seed), ...words], text)), "image/svg+xml"];
            }
            case "python": return ["py", pythonOf(this.contents.current, this.fileName), "text/x-python"];
            case "chrome": { const run = this.run(); return ["json", run ? chromeTrace(run, this.fileName) : "", "application/json"]; }
            default: return ["txt", results.last.report, "text/plain"];
        }
    }

    /** Hands a file to the reader.
     * @param {string} what */
    async give(what) {
        if (!/^(text|bytes|python)$/.test(what) && this.lacksRun()) return;
        const [ending, text, type] = await this.file(what);
        const name = `${this.fileName}.${ending}`, command = this.command(what, name), elsewhere = this.results.last.read && what !== "trace";
        if (text) download(name, text, type);
        $("command").hidden = !command;
        $("command").replaceChildren(...elsewhere ? ["The run on the page is a file's trace, which Trace has."] : ["On a command line: ", h("code", {}, command)]);
    }

    /** Says so if the page has no run, such as that of a program that is refused. */
    lacksRun() {
        if (!this.run()) say("There is no run on the page.");
        return !this.run();
    }

    /** The name of files: the example's or the program's, without its extension. */
    get fileName() {
        const {example, name} = this.contents;
        return example.split(" ")[0] || name.trim().replace(/[^\p{L}\p{N}]+/gu, "_").replace(/^_+|_+$/g, "").toLowerCase() || "program";
    }

    /** Returns the line of command that makes the run on the page from a file; empty if there is none.
     * @param {string} what @param {string} name */
    command(what, name) {
        const {words, limit, seed} = this.results.last, run = ["run", "--in-turn", ...ordered(seed).slice(1), "--limit", String(limit)], verb = /** @type {Record<string, string[]>} */ ({text: run, bytes: run, trace: ["replay"]})[what];
        if (what === "python") return `python3 ${name}`;
        return verb ? ["tw", ...verb, name, ...words].map(quoted).join(" ") : "";
    }

    /** Shows the link to the current contents, and copies it. A page from disk has no link that others can open. */
    async share() {
        const linked = await this.contents.saveNow(), field = /** @type {HTMLInputElement} */ ($("link")), disk = location.protocol === "file:";
        if (!linked) { say("The program is too long for a link. Download its text below, and send that."); return; }
        $("sharing").hidden = false;
        $("share-file").hidden = !disk;
        field.value = disk ? location.hash : location.href;
        field.focus();
        field.select();
        const copied = await navigator.clipboard?.writeText(field.value).then(() => true, () => false) ?? document.execCommand("copy");
        const has = this.results.last.read ? "It has the program and its inputs, but not the file's trace." : "It has the program, its inputs, the order and the event.";
        if (disk) say(`This page is a file on your computer, so nobody else can open its address. Send the text${copied ? "; or append what is copied" : "; or append this"} to the address of a page that others can open. ${has}`);
        else say(`${copied ? "The link is copied." : "Copy the link."} ${has}`);
    }

    /** Shows the statistics of a run. */
    async numbers() {
        if (this.lacksRun()) return;
        const {text, words, limit, seed, read} = this.results.last, verb = read ? ["replay"] : ["run", "--limit", String(limit), ...ordered(seed)];
        const reply = await this.library.session([...verb, "--text", "--stats", ...words], read ? this.history : text);
        $("numbers").hidden = false;
        $("numbers").textContent = reply?.text.slice(0, SHOWN) ?? "stopped";
    }
}

/** @param {string} words */
function say(words) { $("said").textContent = words; }
