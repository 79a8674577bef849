"""Tests of ./dev words on small texts."""

import unittest
from unittest import mock

from tools.common.testing import Table, folder_of, put, replace
from tools.sources import words


def kinds(text: str, path: str = "docs/A.md") -> list[str]:
    """Returns the kinds of the findings in a Markdown text."""
    return [it.kind for it in words.markdown_findings({path: words.markdown_lines(text)})]


class Documents(Table):
    def test_words(self) -> None:
        self.compare(
            kinds,
            ("a word of the left column", "The line is told at the end.\n", ["word"]), ("capitals count as small letters", "Behind it is a label.\n", ["word"]),
            ("a phrase", "This is a text with names.\n", ["word"]), ("part of a word is none", "The outlaws retold a shutdown of the in-law.\n", []),
            ("code spans", "The line `refused behind` and ``a `law` b`` are output.\n", []), ("a span over two lines", "The command `tw picture\nFILE behind` draws.\n", []),
            ("code blocks", "Before.\n\n```\nstands behind\n```\n\nAfter.\n", []), ("indented blocks", "Before.\n\n    stands\n    behind\n\nAfter.\n", []),
            ("an item isn't one", "- An item\n    that stands.\n", ["word"]), ("targets of links", "See [it](https://example.org/picture).\n", []),
            ("tables are checked", "| A | B |\n|---|---|\n| x | the law |\n", ["word"]),
        )
        found = list(words.wrong_words("a", words.markdown_lines("One.\n\nA law.\n")))
        self.assertEqual([(it.line, it.text) for it in found], [(3, "law: theorem")])

    def test_exceptions(self) -> None:
        replace(self, words, ALLOWED=(words.Allowed("docs/A.md", "the law of large numbers", "its name"),))
        self.compare(
            kinds, ("the phrase is allowed", "By the law of large numbers it holds.\n", []), ("the word alone is not", "By the law it holds.\n", ["word"]),
            ("nor in another file", "By the law of large numbers it holds.\n", "docs/B.md", ["word"]),
        )
        self.assertEqual([it.kind for it in words.useless_exceptions()], ["exception"])

    def test_sentences(self) -> None:
        short, items = "Ten words. " * 40, "".join(f"- item {number} of the list has some words\n" for number in range(10))
        self.compare(
            kinds, ("forty words pass", short + " ".join(["Word"] + ["word"] * 39) + ".\n", []), ("forty-one do not", short + " ".join(["Word"] + ["word"] * 40) + ".\n", ["sentence"]),
            ("a mean over the limit", (" ".join(["Word"] + ["word"] * 22) + ". ") * 3 + "\n", ["mean"]), ("items of a list are sentences of their own", items, []),
            ("tables have no sentences", "| " + "word " * 25 + "| " + "word " * 25 + "|\n", []),
        )
        self.assertEqual([it.text for it in words.sentences(words.markdown_lines("One two\nthree. Four\nfive.\n"))], ["One two three.", "Four five."])

    def test_repeats(self) -> None:
        def found(first: str, second: str, path: str = "b.md") -> int:
            return len(list(words.repeated({"a.md": words.markdown_lines(first), path: words.markdown_lines(second)})))

        text = "one two three four five six seven eight"
        self.compare(
            found, ("eight words", text + " a", "b " + text, 1), ("seven are not", "one two three four five six seven a", "b one two three four five six seven", 0),
            ("a pair of paragraphs is found once", "a b c d e f g h i j k", "a b c d e f g h i j k", 1), ("code spans count by their words", "`a` b c d e f g h", "`x` b c d e f g h", 0),
            ("one document may repeat itself", "a b c d e f g h\n\na b c d e f g h\n", "", 0), ("a log may repeat", "a b c d e f g h", "a b c d e f g h", "CHANGELOG.md", 0),
        )

    def test_links(self) -> None:
        def found(target: str) -> int:
            documents = {"docs/A.md": words.markdown_lines(f"# A\n\n[it]({target})\n"), "docs/B.md": words.markdown_lines("# The `b` of B's\n")}
            return len(list(words.dead_links("docs/A.md", documents)))

        self.compare(found, *((it, it, 0) for it in ("B.md", "B.md#the-b-of-bs", "#a", "../README.md", "../tools", "https://example.org/x")))
        self.compare(found, *((it, it, 1) for it in ("C.md", "B.md#c", "#b", "../docs/none.png")))


def dead_names(test: unittest.TestCase, text: str, files: dict[str, str]) -> list[tuple[int, str]]:
    """Returns what a document of docs/ names that isn't there, in a folder with these files."""
    root = folder_of(test)
    put(root, files)
    words.code_of.cache_clear()
    words.first_parts.cache_clear()
    test.addCleanup(words.first_parts.cache_clear)
    with mock.patch.object(words, "ROOT", root):
        return [(it.line, it.text) for it in words.dead_code("docs/D.md", words.markdown_lines(text))]


class Code(Table):
    def found(self, text: str) -> list[tuple[int, str]]:
        source = {"b.rt": "/// Calls gone.\npub fn one(x: u8) {}\nenum Two { Three }\n", "c.antt": "abbrev pub four : T\nfour = five\n"}
        return dead_names(self, text, {**{f"crates/tw_a/src/{name}": it for name, it in source.items()}, "crates/tw_a/specs/machine/D.antt": "six : T\n"})

    def test_sources(self) -> None:
        self.compare(
            self.found, ("what is there", "In `tw_a/src/b.rt`: `one`, `Two`, and `crates/tw_a/src/c.antt`: `four`. A `gone`.\n", []),
            ("a source", "A.\n\n| `tw_a/src/gone.rt`: `one` | `tw_a/src` |\n", [(3, "there is no crates/tw_a/src/gone.rt")]),
            ("functions", "- `tw_a/src/b.rt`: `one`,\n  `gone` and\n  `Three`\n", [(1, "tw_a/src/b.rt has no gone"), (1, "tw_a/src/b.rt has no Three")]),
            ("a name that is only used", "`tw_a/src/c.antt`: `four` → `five`\n", [(1, "tw_a/src/c.antt has no five")]),
        )

    def test_definitions_and_paths(self) -> None:
        self.compare(
            self.found, ("what is there", "`tw_a/specs`: `machine`, `machine/D`; `tw_a/specs/machine`: `D`; `tw_a/specs/machine/D`; `tw_a::one`, `tw_a::Two::four`, `tw_a::six`\n", []),
            ("definitions of a folder", "A.\n\n`tw_a/specs`: `machine`,\n`D` and `E`\n", [(3, "tw_a/specs has no D"), (3, "tw_a/specs has no E")]),
            ("definitions", "`tw_a/specs/D`, `tw_a/specs/machine/E`\n", [(1, "there is no crates/tw_a/specs/D"), (1, "there is no crates/tw_a/specs/machine/E")]),
            ("paths", "`tw_a::gone`, `tw_a::Two::five` and\n`tw_b::one`\n", [(1, "tw_a has no gone"), (1, "tw_a has no five"), (2, "tw_b has no one")]),
        )


class Files(Table):
    def found(self, text: str) -> list[tuple[int, str]]:
        files = ("docs/more/A.md", "tools/a.py", "crates/tw_a/proofs/B.antt", "crates/tw_code/specs/machine/C.antt")
        return dead_names(self, text, dict.fromkeys(files, ""))

    def test_files(self) -> None:
        self.compare(
            self.found, ("what is there", "`tools/a.py`, `docs/more/`, `tw_a/proofs/B`, `tw_a/proofs/B.antt`, `machine/C` and `crates/tw_code/specs/machine`\n", []),
            ("a file beside the document", "`more/A.md`\n", []), ("in another folder", "`tools/A.md`\n", [(1, "there is no tools/A.md")]),
            ("in later lines", "A.\n\n- `tools/b.py` and\n  `docs/more/B.md`\n", [(3, "there is no tools/b.py"), (4, "there is no docs/more/B.md")]),
            ("others", "`machine/D`, `tw_b/proofs`, `crates/tw_a/specs`\n", [(1, f"there is no {it}") for it in ("machine/D", "tw_b/proofs", "crates/tw_a/specs")]),
            ("other spans", "`1/2`, `a/b`, `/tools/b`, `tools/b c`, `tools/*.c`, `crates/NAME/tests` and `crates/tw_a/out/b`\n\n```\n`tools/b`\n```\n", []),
            ("sources and definitions are found once", "`tw_a/src/b.rt`, and\n`tw_a/proofs`: `machine/C`,\n`machine/E`. `tools/b`\n",
             [(1, "there is no crates/tw_a/src/b.rt"), (3, "there is no machine/E"), (3, "there is no tools/b")]),
        )


class Sources(Table):
    def test_comments(self) -> None:
        self.compare(
            lambda text, suffix: [it.text for it in words.comment_lines(text, suffix)],
            ("only comments are read", "/// Returns it.\nfn law() {}\n// `law`\n", ".rt", ["Returns it.", "CODE"]),
            ("those of definitions", "--| Says it.\nlaw : T\n-- And so.\n", ".antt", ["Says it.", "And so."]),
            ("lines for tools are left out", "# SPDX-License-Identifier: MIT\n# Says it.\n# shellcheck shell=sh\n", ".sh", ["Says it."]),
            ("types are left out", "// @param {Law} it\n", ".js", ["@param CODE it"]),
            ("blocks of code are left out", "# Says it:\n#\n#   it law\n#   it two\n#\n# And so.\n#   more\n", ".sh", ["Says it:", "", "", "And so.", "  more"]),
        )
        text = '"""Says it.\n\n    it law\n"""\n# And so.\ndef law():\n    """Returns `law`.\n\n    >>> law()\n    """\n'
        self.assertEqual([it for it in words.comment_lines(text, ".py") if it.text], [(1, "Says it."), (5, "And so."), (7, "Returns CODE.")])

    def test_openings(self) -> None:
        self.compare(
            lambda text: len(list(words.wrong_openings("a", words.comment_lines(text, ".rt")))),
            *((text, text, count) for text, count in (("/// What it is.", 1), ("/// The same, but more.", 1), ("/// Somewhere.", 0), ("/// Returns.\n/// So it is.", 0))),
        )

    def test_functions_without_a_doc_line(self) -> None:
        text = "trait T {\n    /// Says it.\n    fn one(&self);\n    fn two(&self);\n}\n\nimpl T for U {\n    ghost of = { x };\n\n    fn one(&self) {}\n}\n"
        self.compare(
            lambda text: [it.text.split()[0] for it in words.undocumented("crates/a/src/a.rt", text)],
            ("a doc line is enough", "/// Adds one.\n#[inline]\npub fn add() {}\n", []), ("those without one", "pub fn one() {}\n\n    pub const fn two() {}\n", ["one", "two"]),
            ("a comment is none", "// Adds one.\npub fn add() {}\n", ["add"]), ("an empty line ends it", "/// A type.\n\npub fn add() {}\n", ["add"]),
            ("private functions", "fn one() {}\npub(crate) fn two() {}\npub unsafe extern \"C\" fn three() {}\n", ["one", "two", "three"]), ("methods of traits", text, ["two", "one"]),
            ("other lines", "// fn one() {}\nlet two = fn_of(three);\nghost fn_four = { fn };\n", []),
        )


class Counts(unittest.TestCase):
    def test_groups(self) -> None:
        findings = [words.Finding("crates/a/src/b.rt", 1, "word", ""), words.Finding("tools/a.py", 1, "word", ""), words.Finding("tools/b.sh", 2, "word", "")]
        self.assertEqual(words.counts_of(findings), {"crates rt: word": 1, "tools: word": 2})

    def test_a_count_may_fall_and_not_rise(self) -> None:
        self.assertEqual(list(words.risen({"a": 1}, {"a": 2, "b": 1})), [])
        self.assertEqual(len(list(words.risen({"a": 3, "c": 1}, {"a": 2}))), 2)
