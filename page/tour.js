// @ts-check
// SPDX-License-Identifier: Apache-2.0
// A tour of six steps. It doesn't block the page, and Escape or a button leaves it.
import {h} from "./dom.js";
import {coded} from "./verdict.js";

/** A step: its target, its title and its words.
 * @typedef {{at: string, title: string, words: string}} Step */

/** @type {Step[]} */
const STEPS = [
    {at: "#editor", title: "A program", words: "It has procedures. A task runs one of them, once, from its head to RET. `main` runs first. Tasks share data, and each datum is written once. Words after a ; are comments."},
    {at: "#verdict", title: "Checked as you type", words: "The checker reads the program at each pause. It follows who may read and write what. No task of a program that it accepts ever fails, and each ends within its budget. Rules may still wait for one another for ever."},
    {at: "#controls", title: "Event by event", words: "A run is a list of events. Play them, or step forward and back. The line of the event is lit in the program, and the margin there shows where each actor continues."},
    {at: "#state", title: "The state after the event", words: "Here are the running tasks with their registers, and what waits for what. What the event changed is marked. Above are the data, with arrows from those who have rights on them."},
    {at: "#breaking", title: "Try to break it", words: "Each button plants a mistake, and the checker says which rule refuses it. Undo brings your program back."},
    {at: "#learn", title: "Learn the language", words: "All words and instructions, each with an example to try; and the manual. Help is at the cursor too, and words are completed as you type. Then write your own program, and share it by a link."},
];

export class Tour {
    constructor() {
        this.step = -1;
        /** @type {HTMLElement | null} */
        this.box = null;
        /** @type {Element | null} */
        this.before = null;
        document.addEventListener("keydown", event => { if (event.key === "Escape") this.leave(); });
        for (const kind of ["resize", "scroll"]) addEventListener(kind, () => this.place());
    }

    begin() {
        this.before = document.activeElement;
        this.go(0);
    }

    leave() {
        if (!this.box) return;
        document.querySelector(".toured")?.classList.remove("toured");
        this.box.remove();
        this.box = null;
        this.step = -1;
        if (this.before instanceof HTMLElement) this.before.focus({preventScroll: true});
    }

    /** Shows a step.
     * @param {number} step */
    go(step) {
        this.step = step;
        document.querySelector(".toured")?.classList.remove("toured");
        this.box?.remove();
        const {at, title, words} = STEPS[step], last = step === STEPS.length - 1, target = document.querySelector(at);
        const next = h("button.first", {id: "tour-next", onclick: () => last ? this.leave() : this.go(step + 1)}, last ? "Done" : "Next");
        this.box = h("div.tour", {id: "tour-box", role: "dialog", "aria-label": `tour, step ${step + 1} of ${STEPS.length}`},
            h("h3", {}, `${step + 1} of ${STEPS.length}: ${title}`), h("p", {}, ...coded(words)),
            h("div.row", {}, next, step > 0 && h("button", {onclick: () => this.go(step - 1)}, "Back"), !last && h("button", {id: "tour-leave", onclick: () => this.leave()}, "Leave the tour")));
        document.body.append(this.box);
        target?.classList.add("toured");
        target?.scrollIntoView({block: "center"});
        this.place();
        next.focus({preventScroll: true});
    }

    /** Lays the box below its target, or above where there is no room. */
    place() {
        if (!this.box) return;
        const target = document.querySelector(STEPS[this.step].at), {left, top, bottom} = target?.getBoundingClientRect() ?? {left: 0, top: 0, bottom: 0};
        const {offsetHeight, offsetWidth} = this.box, below = bottom + 10 + offsetHeight < innerHeight;
        const y = below ? bottom + 10 : Math.max(10, Math.min(top - offsetHeight - 10, innerHeight - offsetHeight - 10));
        this.box.style.top = `${y}px`;
        this.box.style.left = `${Math.max(8, Math.min(left, innerWidth - offsetWidth - 16))}px`;
    }
}
