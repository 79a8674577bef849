// @ts-check
// SPDX-License-Identifier: Apache-2.0
// Calls the library in a worker (worker.js), so that a long run can be stopped.

/** A reply: the exit status, the text and the time it took; or the browser's error.
 * @typedef {{status: number, text: string, ms: number, memory: number, failed?: string}} Reply */

/** A memory beyond which a new thread is begun, so that the browser gets it back. */
const MEMORY = 100000000;

export class Library {
    /** @param {string} source the script of the thread, with the module in it @param {(busy: boolean) => void} busy */
    constructor(source, busy) {
        this.source = URL.createObjectURL(new Blob([source], {type: "text/javascript"}));
        this.busy = busy;
        this.count = 0;
        /** @type {Map<number, (reply: Reply | null) => void>} */
        this.waiting = new Map();
        this.worker = this.begin();
    }

    begin() {
        const worker = new Worker(this.source);
        worker.onmessage = ({data}) => this.answered(data.number, data);
        worker.onerror = event => [...this.waiting.keys()].forEach(number => this.answered(number, {status: -1, text: "", ms: 0, memory: 0, failed: event.message}));
        return worker;
    }

    /** @param {number} number @param {Reply} reply */
    answered(number, reply) {
        const end = this.waiting.get(number);
        this.waiting.delete(number);
        this.busy(this.waiting.size > 0);
        end?.(reply);
        if (reply.failed || !this.waiting.size && reply.memory > MEMORY) this.stop();
    }

    /** Stops all calls; their callers get null.
     */
    stop() {
        this.worker.terminate();
        const ends = [...this.waiting.values()];
        this.waiting.clear();
        this.worker = this.begin();
        this.busy(false);
        ends.forEach(end => end(null));
    }

    /** Returns the output of the command tw for these words and this input; null if it was stopped.
     * @param {string[]} words @param {string} input @returns {Promise<Reply | null>} */
    session(words, input) {
        this.busy(true);
        return new Promise(end => {
            this.waiting.set(++this.count, end);
            this.worker.postMessage({number: this.count, words, input});
        });
    }
}
