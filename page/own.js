// @ts-check
// SPDX-License-Identifier: Apache-2.0
// The reader's own programs, which are never dropped, and changed examples that weren't kept, which are for a month. The browser's database has all of
// them. Its storage has the last ones, since it takes them at once, also when the page is closed: a page in another process of a busy browser may be shown
// an older storage. Of two copies of a program the later one counts. A deleted one leaves a mark, so that no other page brings it back.
import {whole} from "./share.js";

/** @typedef {import("./share.js").Kept} Kept */
/** A program: its contents, a number that stays while it is edited, when it was edited last, the name that the reader gave it, whether it is kept
 * as an own program, and whether it is deleted.
 * @typedef {Kept & {id: number, when: number, name: string, kept: boolean, gone: boolean}} Own */

const KEY = "yuglemit own", STORED = 12, LONGEST = 1 << 20, PATIENCE = 2000, MONTH = 30 * 86400000;
/** The programs out of the database, and those that this page has saved.
 * @type {Map<number, Own>} */
const known = new Map();
/** The numbers of those that the database has. */
const based = new Set();

/** Reads programs that were saved; what isn't one is left out. Those of earlier versions are own ones.
 * @param {any} all @returns {Own[]} */
const read = all => Array.isArray(all) ? all.flatMap(it => { const kept = whole(it); return kept ? [{...kept, id: Number(it.id), when: Number(it.when), name: String(it.name ?? ""), kept: it.kept !== false, gone: it.gone === true}] : []; }) : [];

/** Returns the programs of the storage.
 * @returns {Own[]} */
function stored() {
    try {
        return read(JSON.parse(localStorage.getItem(KEY) ?? "[]"));
    } catch {
        return []; // The storage is blocked, or another page has written it.
    }
}

/** Returns all records, the last edited first.
 * @returns {Own[]} */
function records() {
    const all = new Map(known);
    for (const it of stored()) if ((all.get(it.id)?.when ?? 0) <= it.when) all.set(it.id, it);
    return [...all.values()].sort((one, other) => other.when - one.when);
}

/** Returns the programs that aren't deleted, the last edited first. */
export const owns = () => records().filter(it => !it.gone);

/** Saves a program, in place of its earlier text. Returns whether the database or the storage has it.
 * @param {Own} own @returns {Promise<boolean>} */
export async function keepOwn(own) {
    known.set(own.id, own);
    based.delete(own.id);
    const written = store(own), kept = await inBase("readwrite", base => { base.put(own); });
    if (kept) based.add(own.id);
    return written || kept;
}

/** Writes a program into the storage, where those that the database has give way. Returns whether there was space. A long one is left to the database.
 * @param {Own} own */
function store(own) {
    if (own.text.length > LONGEST) return false;
    const others = records().filter(it => it.id !== own.id), must = others.filter(it => !based.has(it.id)), may = others.filter(it => based.has(it.id)).slice(0, STORED);
    for (let count = may.length; count >= 0; count = count ? count >> 1 : -1) {
        try {
            localStorage.setItem(KEY, JSON.stringify([own, ...must, ...may.slice(0, count)]));
            return true;
        } catch {
            // There isn't space for so many.
        }
    }
    return false;
}

/** Does something with the database's store. Returns whether it was done.
 * @param {IDBTransactionMode} mode @param {(store: IDBObjectStore) => void} act @returns {Promise<boolean>} */
const inBase = (mode, act) => new Promise(done => {
    try {
        const asked = indexedDB.open(KEY, 1);
        asked.onupgradeneeded = () => { asked.result.createObjectStore("programs", {keyPath: "id"}); };
        asked.onerror = () => done(false);
        asked.onsuccess = () => {
            const moved = asked.result.transaction("programs", mode);
            moved.oncomplete = moved.onabort = ({type}) => { asked.result.close(); done(type === "complete"); };
            try { act(moved.objectStore("programs")); } catch { moved.abort(); }
        };
    } catch {
        done(false); // The database is blocked.
    }
});

/** Reads the database, and takes out what is no longer wanted there. It doesn't wait for long.
 * @returns {Promise<void>} */
export const load = () => new Promise(done => {
    setTimeout(done, PATIENCE);
    inBase("readwrite", base => {
        const asked = base.getAll();
        asked.onsuccess = () => {
            for (const it of read(asked.result)) {
                if ((it.gone || !it.kept) && Date.now() - it.when > MONTH) { base.delete(it.id); continue; }
                known.set(it.id, it);
                based.add(it.id);
            }
        };
    }).then(() => done());
});

/** Returns what a program is called in a list: its name, its first remark or its first line, and when it was edited.
 * @param {Own} own */
export function ownTitle({text, when, name}) {
    return `${name || firstOf(text)} (${new Date(when).toLocaleString([], {day: "numeric", month: "short", hour: "2-digit", minute: "2-digit"})})`;
}

/** Returns a text's first remark, or else its first line.
 * @param {string} text */
export function firstOf(text) {
    const lines = text.split("\n", 50).map(it => it.trim());
    return (lines.find(it => it.startsWith(";"))?.replace(/^;+\s*/, "") || lines.find(it => it && it !== "names") || "empty").slice(0, 40);
}
