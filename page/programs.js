// @ts-check
// SPDX-License-Identifier: Apache-2.0
// The buttons for one's own programs: a new one, keeping a changed example, renaming and deleting.
import {$} from "./dom.js";

export class Programs {
    /** @param {import("./contents.js").Contents} contents @param {(words: string) => void} say
     * @param {(page: import("./contents.js").Page | null, remembered: boolean) => Promise<void>} open */
    constructor(contents, say, open) {
        this.contents = contents;
        this.say = say;
        this.field = /** @type {HTMLInputElement} */ ($("name"));
        $("new").addEventListener("click", () => open(contents.fresh(), false).then(() => $("text").focus()));
        $("name-it").addEventListener("click", () => this.ask());
        $("naming").addEventListener("submit", event => { event.preventDefault(); this.named(); });
        $("naming").addEventListener("keydown", event => { if (event.key === "Escape") this.close(); });
        $("unnamed").addEventListener("click", () => this.close());
        $("delete").addEventListener("click", () => this.drop(open));
    }

    /** Asks for the program's name. */
    ask() {
        $("naming").hidden = false;
        this.field.value = this.contents.called;
        this.field.focus();
        this.field.select();
    }

    /** Keeps the program by the name in the field. */
    named() {
        this.contents.keepAs(this.field.value);
        this.close();
        this.say(`Kept as ${this.contents.called}.`);
    }

    close() {
        $("naming").hidden = true;
        $("name-it").focus();
    }

    /** Deletes the program, and opens the first example.
     * @param {(page: import("./contents.js").Page | null, remembered: boolean) => Promise<void>} open */
    async drop(open) {
        const {contents} = this, called = contents.drop();
        await open(contents.ofExample(contents.groups[0].examples[0].name, "names"), true);
        this.say(`${called} is deleted. Undo brings it back.`);
    }
}
