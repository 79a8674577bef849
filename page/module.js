// SPDX-License-Identifier: Apache-2.0
// Begins the library's module in node, for tests.
import fs from "node:fs";

/** Returns a function that gives the library's reply to words and an input. */
export async function begin(file) {
    const x = (await WebAssembly.instantiate(fs.readFileSync(file))).instance.exports, ROOM = 1 << 24;
    return (words, input) => {
        const bytes = [new TextEncoder().encode(words.join("\n")), new TextEncoder().encode(input)];
        const places = [bytes[0].length, bytes[1].length, ROOM, 1].map(length => x.yuglemit_room(BigInt(length + 1)));
        bytes.forEach((it, k) => new Uint8Array(x.memory.buffer).set(it, Number(places[k])));
        const length = Number(x.yuglemit_session(places[0], BigInt(bytes[0].length), places[1], BigInt(bytes[1].length), places[2], BigInt(ROOM), places[3]));
        const text = new TextDecoder().decode(new Uint8Array(x.memory.buffer, Number(places[2]), length)), [status] = new Uint8Array(x.memory.buffer, Number(places[3]), 1);
        places.forEach(place => x.yuglemit_free(place));
        return {status, text};
    };
}
