// @ts-check
// SPDX-License-Identifier: Apache-2.0
// Follows the events of a run: a short one at once, a long one in a thread (follower.js), whose parts are appended as they come.
import {Run} from "./run.js";

/** The length of a trace that is followed at once. */
const SHORT = 60000;

export class Following {
    /** @param {string} source the script of the thread */
    constructor(source) {
        this.source = URL.createObjectURL(new Blob([source], {type: "text/javascript"}));
        /** @type {Worker | null} */
        this.worker = null;
        this.stopped = () => {};
    }

    /** Follows a trace. `grown` is called with the run when the first events are there, and after each further part; the promise ends with the last.
     * @param {import("./run.js").Setting} setting @param {string} trace @param {(run: Run, part: boolean) => void} grown @returns {Promise<boolean>} whether it wasn't stopped */
    follow(setting, trace, grown) {
        this.stop();
        const run = new Run(setting);
        if (trace.length < SHORT) { grown(run.follow(trace), false); return Promise.resolve(true); }
        return new Promise(done => {
            const worker = this.worker = new Worker(this.source);
            this.stopped = () => done(false);
            worker.onerror = event => { run.cut = `The page can't follow the run: ${event.message}`; grown(run, true); this.stop(); };
            worker.onmessage = ({data}) => {
                append(run, data);
                grown(run, true);
                if (data.last) { this.stopped = () => {}; this.stop(); done(true); }
            };
            const {program, inputs, engines, servers, workers} = setting;
            worker.postMessage({opening: {program, inputs, engines, servers, workers}, trace});
        });
    }

    /** Ends the thread. What is followed so far stays. */
    stop() {
        this.worker?.terminate();
        this.worker = null;
        this.stopped();
        this.stopped = () => {};
    }
}

/** Appends a part of a run.
 * @param {Run} run @param {import("./follower.js").Part} part */
function append(run, {chunk, kept, cut}) {
    run.track.append(chunk);
    for (const it of kept) run.keeper.keep(it);
    run.cut = cut;
}
