// @ts-check
// SPDX-License-Identifier: Apache-2.0
// Saves the page's contents in the address.

/** The page's contents: text, inputs, layout (engines, servers, workers, limit), event, the example's name if the text is unchanged, and the seed of the
 * order of the run that is shown; 0 for the one in turn.
 * @typedef {{text: string, inputs: string[], layout: number[], event: number, example: string, seed: number}} Kept */

const LONGEST_LINK = 30000, LONGEST_TEXT = 1 << 20;

/** Turns bytes through a stream into others.
 * @param {Uint8Array} bytes @param {GenericTransformStream} through */
const through = async (bytes, through) => new Uint8Array(await new Response(new Blob([bytes]).stream().pipeThrough(through)).arrayBuffer());

/** Encodes bytes as base64url.
 * @param {Uint8Array} bytes */
function lettersOf(bytes) {
    let binary = "";
    for (const byte of bytes) binary += String.fromCharCode(byte);
    return btoa(binary).replace(/\+/g, "-").replace(/\//g, "_").replace(/=+$/, "");
}

/** Encodes contents: an example by its name, another text compressed.
 * @param {Kept} kept */
export async function packed(kept) {
    const short = kept.example ? {...kept, text: ""} : kept;
    return lettersOf(await through(new TextEncoder().encode(JSON.stringify(short)), new CompressionStream("deflate-raw")));
}

/** Unpacks bytes, up to a length; beyond it, the contents are taken as broken.
 * @param {Uint8Array} bytes */
async function inflated(bytes) {
    const reader = new Blob([bytes]).stream().pipeThrough(new DecompressionStream("deflate-raw")).getReader(), decoder = new TextDecoder();
    let text = "";
    for (let it = await reader.read(); !it.done; it = await reader.read()) {
        text += decoder.decode(it.value, {stream: true});
        if (text.length > LONGEST_TEXT) { reader.cancel(); throw new Error("too long"); }
    }
    return text + decoder.decode();
}

/** Returns a whole number within bounds; for anything else the least.
 * @param {any} it @param {number} least @param {number} most */
const within = (it, least, most) => { const number = Math.floor(Number(it)); return number >= least ? Math.min(number, most) : least; };

/** Returns contents of which each part has its type; null if they aren't contents.
 * @param {any} it @returns {Kept | null} */
export function whole(it) {
    const good = it && typeof it.text === "string" && Array.isArray(it.inputs) && Array.isArray(it.layout) && it.layout.length === 4;
    if (!good) return null;
    const layout = [4, 4, 16, 1000000].map((most, k) => within(it.layout[k], 1, most));
    return {text: it.text, inputs: it.inputs.slice(0, 16).map(String), layout, event: within(it.event, 0, 1000000), example: String(it.example ?? ""), seed: within(it.seed ?? 0, 0, 1000000000)};
}

/** Decodes contents; null if they are broken.
 * @param {string} letters @returns {Promise<Kept | null>} */
export async function unpacked(letters) {
    try {
        const binary = atob(letters.replace(/-/g, "+").replace(/_/g, "/"));
        return whole(JSON.parse(await inflated(Uint8Array.from(binary, sign => sign.charCodeAt(0)))));
    } catch {
        return null;
    }
}

let keeping = 0;
/** Puts contents into the address. Returns whether they fit. Of two calls the later one counts, whichever is packed first.
 * @param {Kept} kept */
export async function keep(kept) {
    const mine = ++keeping, letters = kept.text.length > LONGEST_TEXT ? "" : await packed(kept), fits = letters !== "" && letters.length <= LONGEST_LINK;
    if (mine !== keeping) return fits;
    try {
        history.replaceState(null, "", fits ? `#p=${letters}` : location.pathname + location.search);
    } catch {
        // Some browsers let a page change its address just so often; the next change keeps it.
    }
    return fits;
}

/** Returns the contents of the address, and whether it has a broken link.
 * @returns {Promise<{linked: Kept | null, wrong: boolean}>} */
export async function linked() {
    const letters = /^#p=([\w-]*)/.exec(location.hash)?.[1], it = letters ? await unpacked(letters) : null;
    return {linked: it, wrong: /^#p=/.test(location.hash) && !it};
}
