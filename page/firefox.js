// SPDX-License-Identifier: Apache-2.0
// Drives a Firefox without a screen over WebDriver BiDi, which the browser itself speaks, by the calls of Chromium's protocol that test.js makes.
import fs from "node:fs";
import net from "node:net";
import {Browser, driven, PATIENCE, pause} from "./browser.js";

const KEYS = {Tab: "\uE004", Enter: "\uE006", Escape: "\uE00C", ArrowLeft: "\uE012", ArrowUp: "\uE013", ArrowRight: "\uE014", ArrowDown: "\uE015", Home: "\uE011", End: "\uE010", Shift: "\uE008"};
const CONTROL = "\uE009";
/** The parts of test.js that ask for what BiDi hasn't: media, accessibility trees, the browser's own evaluation. */
export const LACKS = ["policy", "looks", "everywhere", "screens"];

// Returns the port that a browser has taken, once it listens: one that no other browser has.
function portOf({home}) { try { return JSON.parse(fs.readFileSync(`${home}/WebDriverBiDiServer.json`, "utf8")).ws_port; } catch { return 0; } }

// Returns the first frame of some bytes: its kind, its text and its end; null if it isn't whole.
function frameOf(bytes) {
    const short = bytes[1] & 127, head = short === 127 ? 10 : short === 126 ? 4 : 2;
    if (bytes.length < head) return null;
    const end = head + (short === 127 ? Number(bytes.readBigUInt64BE(2)) : short === 126 ? bytes.readUInt16BE(2) : short);
    return bytes.length < end ? null : {kind: bytes[0] & 15, text: bytes.toString("utf8", head, end), end};
}

const MASK = [85, 170, 51, 204];
// Returns a text as a client's frame.
function framed(text) {
    const bytes = Buffer.from(text), {length} = bytes, head = Buffer.alloc(length < 126 ? 2 : length < 65536 ? 4 : 10);
    head[0] = 0x81;
    head[1] = 128 | (length < 126 ? length : length < 65536 ? 126 : 127);
    if (head.length === 4) head.writeUInt16BE(length, 2);
    if (head.length === 10) head.writeBigUInt64BE(BigInt(length), 2);
    return Buffer.concat([head, Buffer.from(MASK), bytes.map((it, k) => it ^ MASK[k & 3])]);
}

// Connects to a WebSocket, and returns what sends a text; null if that fails. From a process's 4,097th message on node 20's own client masks wrongly,
// and Firefox then closes the connection.
const connected = (port, heard, closed) => new Promise(done => {
    let rest = Buffer.alloc(0), open = false;
    const socket = net.connect(port, "127.0.0.1", () => socket.write(`GET /session HTTP/1.1\r\nHost: 127.0.0.1:${port}\r\nUpgrade: websocket\r\nConnection: Upgrade\r\nSec-WebSocket-Version: 13\r\nSec-WebSocket-Key: ${"A".repeat(22)}==\r\n\r\n`));
    socket.on("error", () => {}).on("close", () => { done(null); if (open) closed(); }).on("data", data => {
        rest = Buffer.concat([rest, data]);
        const end = rest.indexOf("\r\n\r\n");
        if (!open && end < 0) return;
        if (!open) { open = true; rest = rest.subarray(end + 4); done(text => socket.write(framed(text))); }
        for (let frame; (frame = frameOf(rest)); rest = rest.subarray(frame.end)) if (frame.kind === 1) heard(frame.text);
    });
});

// Connects to the browser once it listens. If the connection is closed since the browser has ended, that is said.
async function connect(browser, heard) {
    const closed = () => setTimeout(() => browser.end("Firefox has closed its connection"), 500);
    for (const from = Date.now(); !browser.ended && Date.now() - from < 120000 * PATIENCE; await pause(200)) {
        const port = portOf(browser), write = port && await connected(port, heard, closed);
        if (write) return write;
    }
    throw new Error("Firefox doesn't listen");
}

// Returns the value that a reply describes.
function valueOf({type, value}) {
    if (type === "array") return (value ?? []).map(valueOf);
    if (type === "object") return Object.fromEntries((value ?? []).map(([key, it]) => [key, valueOf(it)]));
    if (type === "number" && typeof value === "string") return Number(value);
    return value ?? (type === "undefined" ? undefined : null);
}

const begin = () => new Browser("firefox-esr", home => ["--headless", "--no-remote", "--profile", home, "--remote-debugging-port=0"]);
export const open = (address, width = 1300, height = 1000) => driven(begin(), async browser => {
    const messages = [], heard = new Map(), send = (method, params) => browser.ask(method, params);
    browser.write = await connect(browser, text => {
        const it = JSON.parse(text);
        if (it.id) browser.answer(it);
        else if (it.method === "log.entryAdded") messages.push(it.params.text);
        else if (it.method === "browsingContext.userPromptOpened") heard.get("Page.javascriptDialogOpening")?.(it.params);
    });
    await send("session.new", {capabilities: {alwaysMatch: {unhandledPromptBehavior: {default: "ignore"}}}});
    // A window of its own has the focus; in the first one Enter presses no button.
    const {context} = await send("browsingContext.create", {type: "window"}), act = (type, id, actions, more = {}) => send("input.performActions", {context, actions: [{type, id, actions, ...more}]});
    await send("session.subscribe", {events: ["log.entryAdded", "browsingContext.userPromptOpened"]});
    const found = expression => send("script.evaluate", {expression, target: {context}, awaitPromise: true, userActivation: true, serializationOptions: {maxObjectDepth: 12}});
    const evaluate = async text => {
        const it = await found(text);
        if (it.type === "exception") throw new Error(it.exceptionDetails.text);
        return valueOf(it.result);
    };
    const size = viewport => send("browsingContext.setViewport", {context, viewport});
    const calls = {
        "Input.dispatchMouseEvent": ({type, x, y}) => act("pointer", "mouse", type === "mousePressed" ? [{type: "pointerMove", x: Math.round(x), y: Math.round(y)}, {type: "pointerDown", button: 0}] : [{type: "pointerUp", button: 0}]),
        "Input.dispatchKeyEvent": ({type, key, modifiers}) => type === "keyUp" ? {} : act("key", "keys", [...modifiers === 2 ? [{type: "keyDown", value: CONTROL}] : [], {type: "keyDown", value: KEYS[key] ?? key}, {type: "keyUp", value: KEYS[key] ?? key}, ...modifiers === 2 ? [{type: "keyUp", value: CONTROL}] : []]),
        "Input.insertText": ({text}) => evaluate(`void document.execCommand("insertText", false, ${JSON.stringify(text)})`),
        "Emulation.setDeviceMetricsOverride": ({width, height}) => size({width, height}),
        // Firefox takes a change of address by the old document for the end of a navigation, and then never answers the next one: so the place is looked at.
        "Page.navigate": async ({url}) => {
            await send("browsingContext.navigate", {context, url, wait: "none"});
            if (!await browser.until(evaluate, `document.readyState === "complete" && location.href.replace(/#.*/, "") === ${JSON.stringify(url.replace(/#.*/, ""))}`, 30000)) throw new Error(`${url} isn't reached`);
        },
        "Page.addScriptToEvaluateOnNewDocument": async ({source}) => ({identifier: (await send("script.addPreloadScript", {functionDeclaration: `() => { ${source} }`, contexts: [context]})).script}),
        "Page.removeScriptToEvaluateOnNewDocument": ({identifier}) => send("script.removePreloadScript", {script: identifier}),
        "Page.captureScreenshot": ({captureBeyondViewport}) => send("browsingContext.captureScreenshot", {context, origin: captureBeyondViewport ? "document" : "viewport"}),
        "Page.handleJavaScriptDialog": ({accept}) => send("browsingContext.handleUserPrompt", {context, accept}),
        "Browser.setDownloadBehavior": ({downloadPath}) => send("browser.setDownloadBehavior", {downloadBehavior: {type: "allowed", destinationFolder: downloadPath}}),
        "DOM.getDocument": () => ({root: {nodeId: 0}}),
        "DOM.querySelector": async ({selector}) => ({nodeId: (await found(`document.querySelector("${selector}")`)).result.sharedId}),
        "DOM.setFileInputFiles": ({files, nodeId}) => send("input.setFiles", {context, element: {sharedId: nodeId}, files}),
        "Runtime.getHeapUsage": () => ({totalSize: 0, backingStorageSize: 0}),
    };
    const ask = async (method, params = {}) => {
        if (!calls[method]) throw new Error(`${method} has no equal in BiDi`);
        return calls[method](params);
    };
    await size({width, height});
    await ask("Page.navigate", {url: address});
    return {
        ask, evaluate, messages, on: (method, act) => heard.set(method, act),
        until: (text, most = 30000) => browser.until(evaluate, text, most),
        computed: () => browser.computed(), lost: () => browser.lost,
        close: () => browser.close(),
    };
});
