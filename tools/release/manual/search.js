// @ts-check
// Searches the manual: the sections of index.js that have a word beginning with each word of the query. Headings count more than text.

/** @typedef {[page: string, title: string, heading: string, words: string]} Section */

const MOST = 30;

/** Returns how well a section fits a word: 4 if it is the heading, 3 in its heading or title, 1 in its text, 0 not at all.
 * @param {Section} section @param {string} word @returns {number} */
function fit([, title, heading, words], word) {
    if (heading.toLowerCase() === word) return 4;
    if (` ${heading} ${title}`.toLowerCase().includes(` ${word}`)) return 3;
    return ` ${words}`.includes(` ${word}`) ? 1 : 0;
}

/** Returns the sections that fit all words of a query, the best first.
 * @param {Section[]} index @param {string} query @returns {Section[]} */
function search(index, query) {
    const words = query.toLowerCase().split(/\s+/).filter(it => it);
    const found = words.length ? index.map(section => ({section, fits: words.map(word => fit(section, word))})).filter(it => it.fits.every(one => one)) : [];
    const sum = (/** @type {{fits: number[]}} */ it) => it.fits.reduce((a, b) => a + b, 0);
    return found.sort((a, b) => sum(b) - sum(a)).slice(0, MOST).map(it => it.section);
}

/** Shows what fits the query as it is typed.
 * @param {Section[]} index */
function begin(index) {
    const query = /** @type {HTMLInputElement} */ (document.getElementById("query")), list = /** @type {HTMLElement} */ (document.getElementById("found"));
    query.addEventListener("input", () => list.replaceChildren(...search(index, query.value).map(([page, title, heading]) => {
        const item = document.createElement("li"), link = document.createElement("a");
        link.href = page;
        link.textContent = title === heading ? title : `${title}: ${heading}`;
        item.append(link);
        return item;
    })));
    list.addEventListener("click", () => { query.value = ""; list.replaceChildren(); });
}

// @ts-ignore: the tests call it as a module of node, where there is no document
if (typeof document === "undefined") module.exports = {search}; else begin(INDEX);
