"""Tests of what ./dev words asks of documents: senses, homes, cells and ceilings."""

import unittest

from tools.common.testing import Table
from tools.sources import senses, words


def kinds(text: str, path: str = "docs/A.md") -> list[str]:
    """Returns the kinds of the findings in a Markdown text."""
    return [it.kind for it in words.markdown_findings({path: words.markdown_lines(text), "docs/NAMES.md": []})]


class Senses(Table):
    def test_senses(self) -> None:
        wrong = ("The program is refused.", "It takes the number of events.", "Use it in place of one.", "A circle of calls.", "An input word.", "64-bit words.",
                 "The loader refuses it.", "Its order has jobs.", "The order's field.", "The least place from i.")
        right = ("An INS is refused.", "The number of a rule rises.", "Any number of tasks.", "A circle of rules.", "The place is 0.", "The order of events.",
                 "Its order is kept.", "The loop's first place.", "It checks neither place nor budget.")
        self.compare(kinds, *((text, f"{text}\n", ["word"]) for text in wrong), *((text, f"{text}\n", []) for text in right))
        self.assertEqual(kinds("Its limit is that of the run, and those before it do so.\n"), ["word"] * 3)
        self.assertEqual(list(words.wrong_words("a.py", words.comment_lines("# It is that of the run.\n", ".py"))), [])

    def test_homes(self) -> None:
        self.compare(
            kinds, ("a section without a link", "# A\n\nNothing after the 65th head is read.\n", ["home"]),
            ("a link in the section", "# A\n\nNothing after the 65th head is read.\n\nSee [it](NAMES.md).\n", []),
            ("a link in another section", "# A\n\nSee [it](NAMES.md).\n\n## B\n\nNothing after the 65th head is read.\n", ["home"]),
        )
        self.assertEqual(list(senses.homeless("docs/NAMES.md", [(1, "the 65th head")])), [])
        self.assertIn("crates/tw_host/README.md", senses.targets("docs/A.md", "[it](../crates/tw_host#waking)"))

    def test_each_home_is_there_and_explains_its_subject(self) -> None:
        texts = words.texts_here()
        for home in senses.HOMES:
            for path in home.homes:
                self.assertIn(path, texts)
            self.assertRegex(" ".join(texts[home.homes[0]].split()), home.expression, home.subject)

    def test_cells(self) -> None:
        self.compare(
            kinds, ("forty words pass", "| a | " + "word " * 40 + "|\n", []), ("forty-one do not", "| a | " + "word " * 41 + "|\n", ["cell"]),
            ("a code span is a word", "| a | " + "word " * 39 + "`a b c d` |\n", []), ("what a tool wrote", "<!-- ./dev x -->\n| a | " + "word " * 41 + "|\n<!-- end -->\n", []),
        )


class Ceilings(unittest.TestCase):
    def test_groups_and_their_ceilings(self) -> None:
        counts = senses.words_by_group({"README.md": "a b", "SECURITY.md": "a", "docs/A.md": "a b c", "docs/B.md": "d", "crates/a/README.md": "a"})
        self.assertEqual(counts, {"README.md: words": 2, "top: words": 1, "docs: words": 4, "crates: words": 1})
        self.assertEqual(senses.ceilings({"docs: words": 1001, "README.md: words": 7}), {"README.md: words": 1900, "docs: words": 1500})
        self.assertEqual(list(words.risen({"docs: words": 5}, {"docs: words": 5})), [])
        self.assertEqual(list(words.risen({"docs: words": 6}, {"docs: words": 5})), ["docs: words: 6, at most 5 (./dev words --words lists them)"])
