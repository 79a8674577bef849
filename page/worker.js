// SPDX-License-Identifier: Apache-2.0
// Calls the module, in a thread of the browser's own, so that the page can end one that runs long.
let x;
const made = performance.now();

// Decodes the module from its letters, which are compressed bytes.
async function begin() {
    const packed = Uint8Array.from(atob(self.wasm), sign => sign.charCodeAt(0));
    const bytes = await new Response(new Blob([packed]).stream().pipeThrough(new DecompressionStream("gzip"))).arrayBuffer();
    x = (await WebAssembly.instantiate(bytes, {})).instance.exports;
}
const ready = begin();

// Returns the output of the command tw with these arguments and this input, and its exit status.
function session(words, input) {
    const encoder = new TextEncoder();
    words = encoder.encode(words.join("\n"));
    input = encoder.encode(input);
    for (let length = 1 << 20;;) {
        const places = [words.length, input.length, length, 1].map(n => x.yuglemit_room(BigInt(n + 1)));
        if (places.some(place => place === 0n)) return {status: 5, text: "memory\n"};
        let memory = new Uint8Array(x.memory.buffer);
        memory.set(words, Number(places[0]));
        memory.set(input, Number(places[1]));
        const all = Number(x.yuglemit_session(places[0], BigInt(words.length), places[1], BigInt(input.length), places[2], BigInt(length), places[3]));
        memory = new Uint8Array(x.memory.buffer);
        const status = memory[Number(places[3])];
        const text = new TextDecoder().decode(memory.slice(Number(places[2]), Number(places[2]) + Math.min(all, length)));
        for (const place of places) x.yuglemit_free(place);
        if (all <= length) return {status, text};
        length = all;
    }
}

onmessage = async ({data: {number, words, input}}) => {
    try {
        await ready;
    } catch (error) {
        return postMessage({number, failed: `this browser can't begin the module: ${error.message}`});
    }
    try {
        const from = performance.now(), reply = session(words, input);
        postMessage({number, ...reply, ms: performance.now() - from, made: from - made, memory: x.memory.buffer.byteLength});
    } catch (error) {
        postMessage({number, failed: `the module stopped: ${error.message}`});
    }
};
