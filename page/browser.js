// SPDX-License-Identifier: Apache-2.0
// Drives a Chromium without a screen over its pipe: opens a page, evaluates what is asked there, and takes screenshots.
import {spawn} from "node:child_process";
import fs from "node:fs";
import os from "node:os";
import path from "node:path";

/** How many times as long as on a quiet machine anything may take. */
export const PATIENCE = +(process.env.PATIENCE ?? 1);
export const pause = time => new Promise(go => setTimeout(go, time));

const LIMIT = 60000 * PATIENCE;
/** A browser that runs, with its folder and what it was asked. No answer is waited for longer than LIMIT ms, nor after the browser has ended. */
export class Browser {
    constructor(command, options) {
        this.home = fs.mkdtempSync(path.join(os.tmpdir(), "browser-"));
        this.child = spawn(command, options(this.home), {stdio: ["ignore", "ignore", "ignore", "pipe", "pipe"]});
        process.on("exit", () => this.child.kill("SIGKILL"));
        this.gone = new Promise(go => this.child.once("exit", (status, signal) => go(this.end(`${command} has ended, by ${signal ?? status}`))));
        this.write = () => {};
        this.ended = this.lost = "";
        this.count = 0;
        this.waiting = new Map();
    }

    ask(method, params = {}, more = {}) {
        return new Promise((done, fail) => {
            const id = ++this.count, wrong = why => fail(new Error(`${method}: ${why}, at ${JSON.stringify(params).slice(0, 300)}`));
            if (this.ended) { wrong(this.ended); return; }
            const late = setTimeout(() => this.answer({id, error: {}, message: `no answer in ${LIMIT / 1000} s`}), LIMIT);
            this.waiting.set(id, it => { clearTimeout(late); it.error ? wrong(it.message ?? it.error.message) : done(it.result); });
            this.write(JSON.stringify({id, method, params, ...more}));
        });
    }

    answer(it) {
        this.waiting.get(it.id)?.(it);
        this.waiting.delete(it.id);
    }

    // Notes that the browser has ended; it is lost, unless the page is to blame.
    end(why, lost = true) {
        if (lost && !this.ended) this.lost = why;
        this.ended ||= why;
        for (const id of [...this.waiting.keys()]) this.answer({id, error: {}, message: why});
    }

    // Returns how long each thread of the browser's processes has computed, in ms, by its process and number.
    computed() {
        const numbers = folder => { try { return fs.readdirSync(folder).map(Number).filter(it => it); } catch { return []; } }, parents = new Map();
        const read = file => { try { return fs.readFileSync(file, "utf8"); } catch { return ""; } }; // It may have ended.
        for (const id of numbers("/proc")) parents.set(id, +(/\) \w (\d+)/.exec(read(`/proc/${id}/stat`))?.[1] ?? 0));
        const isMine = id => id === this.child.pid || parents.has(id) && isMine(parents.get(id));
        return [...parents.keys()].filter(isMine).flatMap(id => numbers(`/proc/${id}/task`).map(thread => ({id, thread, ms: +read(`/proc/${id}/task/${thread}/schedstat`).split(" ")[0] / 1e6})));
    }

    // Waits until an expression of the page is true. Returns whether it became so in some ms of a quiet machine.
    async until(evaluate, text, most) {
        for (const from = Date.now(); !this.ended && Date.now() - from < most * PATIENCE; await pause(20)) if (await evaluate(text).catch(() => false)) return true;
        if (this.ended) throw new Error(this.ended);
        return false;
    }

    async close() {
        this.end("the browser is closed");
        this.child.kill("SIGKILL");
        await this.gone;
        await pause(300);
        fs.rmSync(this.home, {recursive: true, force: true, maxRetries: 9, retryDelay: 200});
    }
}

/** Returns what drives a browser. One that can't be driven is closed. */
export async function driven(browser, drive) {
    try {
        return await drive(browser);
    } catch (error) {
        await browser.close();
        throw error;
    }
}

const begin = (width, height) => new Browser("chromium", home => ["--headless", "--no-sandbox", "--disable-gpu", `--user-data-dir=${home}`, `--window-size=${width},${height}`, "--remote-debugging-pipe", "about:blank"]);
export const open = (address, width = 1300, height = 1000) => driven(begin(width, height), async browser => {
    const messages = [], heard = new Map(), [, , , input, output] = browser.child.stdio;
    let rest = "", sessionId;
    input.on("error", () => {}); // The browser has ended, which it says elsewhere.
    browser.write = text => input.write(`${text}\0`);
    output.setEncoding("utf8").on("data", data => {
        rest += data;
        for (let end; (end = rest.indexOf("\0")) >= 0; rest = rest.slice(end + 1)) {
            const it = JSON.parse(rest.slice(0, end));
            if (it.id) browser.answer(it);
            else if (it.method === "Inspector.targetCrashed") browser.end("the page has crashed", false);
            else if (heard.has(it.method)) heard.get(it.method)(it.params);
            else if (it.method === "Runtime.exceptionThrown") messages.push(it.params.exceptionDetails.exception?.description || it.params.exceptionDetails.text);
            else if (it.method === "Runtime.consoleAPICalled") messages.push(it.params.args.map(arg => arg.value ?? arg.description).join(" "));
            else if (it.method === "Log.entryAdded") messages.push(it.params.entry.text);
        }
    });
    const ask = (method, params) => browser.ask(method, params, {sessionId});
    const {targetId} = (await ask("Target.getTargets")).targetInfos.find(it => it.type === "page");
    ({sessionId} = await ask("Target.attachToTarget", {targetId, flatten: true}));
    for (const domain of ["Page", "Runtime", "Log"]) await ask(`${domain}.enable`);
    await ask("Page.navigate", {url: address});
    const evaluate = async text => {
        const it = await ask("Runtime.evaluate", {expression: text, awaitPromise: true, returnByValue: true});
        if (it.exceptionDetails) throw new Error(it.exceptionDetails.exception?.description || it.exceptionDetails.text);
        return it.result.value;
    };
    return {ask, evaluate, messages, on: (method, act) => heard.set(method, act), until: (text, most = 30000) => browser.until(evaluate, text, most), computed: () => browser.computed(), lost: () => browser.lost, close: () => browser.close()};
});
