// @ts-check
// SPDX-License-Identifier: Apache-2.0
// Follows a long run in a thread of its own, and sends the events in parts: a first one soon, then larger ones, with the states to be kept.
import {copyOf, sizeOf} from "./machine.js";
import {actorsOf, Follower, Keeper} from "./run.js";
import {Columns} from "./track.js";

/** A part: columns of events, states, and whether it is the last.
 * @typedef {{chunk: import("./track.js").Chunk, kept: import("./run.js").Kept[], cut: string, last: boolean}} Part */

const FIRST = 2000, NEXT = 25000;

/** Follows a trace, and sends its parts.
 * @param {import("./run.js").Opening} opening @param {string} trace @param {(part: Part) => void} send @param {number} first @param {number} next the events of parts */
export function followInParts(opening, trace, send, first = FIRST, next = NEXT) {
    const follower = new Follower(opening, trace), keeper = new Keeper(copyOf(follower.state)), actors = actorsOf(opening);
    // Each part has columns of its own, since this thread doesn't need what it has sent.
    for (let more = true, part = first; more; part = next) {
        /** @type {import("./run.js").Kept[]} */
        const kept = [];
        const track = new Columns(actors);
        more = follower.more(track, part, state => {
            if (!keeper.wants(follower.count, follower.work)) return;
            const it = {count: follower.count, state: copyOf(state), size: sizeOf(state)};
            keeper.keep({...it, state: keeper.kept[0].state});
            kept.push(it);
            follower.work = 0;
        });
        send({chunk: track.chunk(), kept: kept.filter(it => keeper.kept.some(({count}) => count === it.count)), cut: follower.cut, last: !more});
    }
}

/** Follows the trace that the page sends, and sends the parts back.
 * @param {MessageEvent<{opening: import("./run.js").Opening, trace: string}>} event */
globalThis.onmessage = ({data: {opening, trace}}) => followInParts(opening, trace, part => postMessage(part, {transfer: [part.chunk.small.buffer, part.chunk.large.buffer, part.chunk.data.buffer]}));
