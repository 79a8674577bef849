// @ts-check
// SPDX-License-Identifier: Apache-2.0
// The fields above Run: an input for each that main asks for, and how many actors there are.
import {$, h} from "./dom.js";
import {inputFault, isMap, normal, openingFault} from "./values.js";

/** @typedef {import("./program.js").Procedure} Procedure */

/** The prefix of an input's word, by its type.
 * @type {Record<string, string>} */
const PREFIX = {int: "int:", text: "text:", "cont int": "ints:", "cont text": "texts:", "tcont int": "tints:", "tcont text": "ttexts:",
    "map int": "ints:", "map sum": "ints:", "map text": "texts:", "tmap int": "tints:", "tmap sum": "tints:", "tmap text": "ttexts:"};
/** A sample value for each prefix.
 * @type {Record<string, string>} */
const SAMPLE = {"int:": "7", "text:": "any words", "ints:": "1=7,2=-3", "texts:": '1="a",2="b"', "tints:": '"a"=1,"b"=2', "ttexts:": '"a"="x"'};
/** The numbers of the layout, each with its greatest.
 * @type {[string, number][]} */
const NUMBERS = [["engines", 4], ["servers", 4], ["workers", 16], ["limit", 1000000]];

export class Fields {
    /** @param {HTMLElement} box @param {() => void} changed */
    constructor(box, changed) {
        this.box = box;
        this.changed = changed;
        /** Main's inputs; null until they are known.
         * @type {{name: string, prefix: string, ofMap: boolean}[] | null} */
        this.asked = null;
        for (const [name, most] of NUMBERS) $(name).addEventListener("input", () => { this.markNumber(name, most); changed(); });
    }

    /** Shows a field for each input of main, and keeps their values.
     * @param {Procedure[]} program @param {string[]} names of main's parameters */
    ask(program, names) {
        const inputs = program[0].params.map(({mode, type}, k) => ({mode, type, name: names[k]})).filter(it => it.mode !== "write");
        const asked = inputs.map(({type, name}, k) => ({name: /^d\d+$/.test(name) ? `input ${k + 1}` : name, prefix: PREFIX[type] ?? "", ofMap: isMap(type)}));
        if (JSON.stringify(asked) === JSON.stringify(this.asked)) return;
        const words = this.words();
        this.asked = asked;
        this.show(words);
    }

    /** Puts the words of another program into fields, which are named when it is known.
     * @param {string[]} words */
    set(words) {
        this.asked = null;
        this.show(words);
    }

    /** Shows a field for each input, with its word.
     * @param {string[]} words */
    show(words) {
        const rows = this.asked ?? words.map((word, k) => ({name: `input ${k + 1}`, prefix: /^\w+:/.exec(word)?.[0] ?? ""}));
        this.box.replaceChildren(...rows.map(({name, prefix}, k) => {
            const word = words[k] ?? "", value = word.startsWith(prefix) ? word.slice(prefix.length) : word;
            const field = h("input", {type: "text", spellcheck: "false", autocapitalize: "off", autocomplete: "off", id: `input-${k}`, "data-prefix": prefix, placeholder: SAMPLE[prefix] ?? "", "aria-describedby": `input-${k}-fault`, oninput: () => { this.mark(); this.changed(); }});
            /** @type {HTMLInputElement} */ (field).value = value;
            return h("div.input", {}, h("label", {for: `input-${k}`}, `${name} `, h("code", {}, prefix)), field, h("span.bad", {id: `input-${k}-fault`}));
        }));
        this.mark();
    }

    /** @returns {HTMLInputElement[]} */
    get inputs() { return [...this.box.querySelectorAll("input")]; }

    /** Returns the words of all inputs. */
    words() {
        return this.inputs.map(field => {
            const prefix = field.dataset.prefix ?? "", {value} = field;
            return prefix === "text:" ? prefix + value : normal(value.trim().startsWith(prefix) ? value : prefix + value);
        });
    }

    /** Marks wrong inputs. Returns the first fault, with the field's name; empty if there is none. */
    mark() {
        const words = this.words(), rows = this.inputs.map((field, k) => {
            const fault = field.value.trim() || field.dataset.prefix !== "int:" ? inputFault(words[k]) || openingFault(words[k], this.asked?.[k]?.ofMap) : "a number is wanted";
            field.setAttribute("aria-invalid", String(!!fault));
            $(`input-${k}-fault`).textContent = fault;
            return fault && `The input ${this.asked?.[k]?.name ?? k + 1} is wrong: ${fault}.`;
        });
        return rows.find(it => it) ?? "";
    }

    /** Marks a wrong number of the layout. Returns the fault.
     * @param {string} name @param {number} most */
    markNumber(name, most) {
        const field = /** @type {HTMLInputElement} */ ($(name)), good = /^\d+$/.test(field.value) && +field.value >= 1 && +field.value <= most;
        field.setAttribute("aria-invalid", String(!good));
        $("layout-fault").textContent = good ? "" : `${name}: 1 to ${most.toLocaleString("en")}`;
        return $("layout-fault").textContent ?? "";
    }

    /** Returns what is wrong with the fields; empty if the program can be run with them. */
    wrong() {
        const faults = NUMBERS.map(([name, most]) => this.markNumber(name, most)), bad = faults.find(it => it) ?? "";
        $("layout-fault").textContent = bad;
        return this.mark() || bad && `A number below the program is wrong: ${bad}.`;
    }

    /** The numbers of engines, servers and workers, and the limit. */
    get layout() { return NUMBERS.map(([name]) => +(/** @type {HTMLInputElement} */ ($(name)).value)); }
    set layout(numbers) { NUMBERS.forEach(([name], k) => { /** @type {HTMLInputElement} */ ($(name)).value = String(numbers[k]); }); }

    /** The words of the command line for the layout. */
    get options() { return NUMBERS.slice(0, 3).flatMap(([name], k) => [`--${name}`, String(this.layout[k])]); }

    /** All actors, in their order. */
    get actors() {
        return ["e", "s", "w"].flatMap((letter, kind) => Array.from({length: this.layout[kind]}, (_, k) => letter + k));
    }
}
