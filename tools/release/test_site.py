"""Tests of ./dev site: Markdown to HTML, pages, links and the search."""

import json
import re
import shutil
import subprocess
import unittest
from unittest import mock

from tools import ROOT
from tools.common.testing import Table
from tools.release import site
from tools.release.convert import Style, anchor, rendered


def html_of(text: str) -> str:
    """Returns the HTML of a text whose links lead where they say, except one to `none`."""
    return rendered(text, Style(lambda target: None if target == "none" else target, lambda target: target))


class Markdown(Table):
    def test_html(self) -> None:
        self.compare(
            html_of,
            ("paragraphs", "One `a < b`\n**two `c`** & three.\n\nFour.\n", "<p>One <code>a &lt; b</code> <b>two <code>c</code></b> &amp; three.</p><p>Four.</p>"),
            ("links and images", "[`a` b](c.md#d) [out](none) ![it](e.svg)\n", '<p><a href="c.md#d"><code>a</code> b</a> out <img src="e.svg" alt="it"></p>'),
            ("headings", "# A `b` of C's\n## D\n", '<h1 id="a-b-of-cs">A <code>b</code> of C\'s</h1><h2 id="d">D</h2>'),
            ("lists", "- one\n  more\n- two\n\nAfter.\n", "<ul><li>one more</li><li>two</li></ul><p>After.</p>"),
            ("blocks in lists", "1. one\n\n   ```\n   a < b\n   ```\n\n2. two\n", "<ol><li>one<pre>a &lt; b\n</pre></li><li>two</li></ol>"),
            ("code and comments", "```sh\n# a | b\n```\n<!-- made -->\n\n    c d\n", "<pre># a | b\n</pre><pre>c d\n</pre>"),
        )
        table = html_of("| A | B |\n|---|---|\n| `x \\| y` | |\n")
        self.assertIn("<th>A</th><th>B</th></tr></thead><tbody><tr><td><code>x | y</code></td><td></td></tr>", table)
        self.assertEqual(anchor("What isn't proved, and by whom"), "what-isnt-proved-and-by-whom")


class Site(unittest.TestCase):
    def test_each_document_has_a_page_and_links_lead_somewhere(self) -> None:
        self.assertEqual(site.faults(ROOT), [])

    def test_faults(self) -> None:
        documents = [site.Document("README.md", "README", "T", "# T\n\n[it](#gone)\n"), site.Document("more/A.md", "more-A", "A", "No title.\n")]
        with mock.patch.object(site, "documents_of", return_value=documents):
            self.assertEqual(site.faults(ROOT), ["more/A.md: no title", "more/A.md: in no group of the contents", "README.html: README.html#gone leads nowhere"])

    def test_names(self) -> None:
        names = [site.name_of(path) for path in ("README.md", "docs/FORMAT.md", "embed/c/README.md", "crates/tw_host/README.md")]
        self.assertEqual(names, ["README", "FORMAT", "embed-c", "tw_host"])

    def test_a_document_without_a_title_is_found(self) -> None:
        self.assertIsNone(site.title_of("A text.\n\n# Later\n"))
        self.assertEqual(site.title_of("# The `b`\n"), "The b")

    def test_the_archive_is_the_same_each_time(self) -> None:
        self.assertEqual(site.archive(ROOT), site.archive(ROOT))


@unittest.skipUnless(shutil.which("node"), "node isn't installed")
class Search(unittest.TestCase):
    def found(self, query: str) -> list[str]:
        """Returns the pages that a query finds."""
        index = site.site(ROOT)["index.js"].decode().removeprefix("const INDEX = ").rstrip(";\n")
        script = f"const {{search}} = require({json.dumps(str(ROOT / site.ASSETS / 'search.js'))}); console.log(JSON.stringify(search(JSON.parse(require('fs').readFileSync(0)), {json.dumps(query)})))"
        ran = subprocess.run(["node", "-e", script], input=index, capture_output=True, text=True, check=True)
        return [str(row[0]) for row in json.loads(ran.stdout)]

    def test_what_is_found(self) -> None:
        """A heading comes first, and all words have to fit; no query finds nothing."""
        self.assertEqual(self.found("Bounds")[0], "FORMAT.html#bounds")
        self.assertIn("BYTES.html#faults", self.found("F03 incomplete"))
        self.assertEqual((self.found("F03 wolpertinger"), self.found("  ")), ([], []))
        self.assertIn("FORMAT.html", {re.sub("#.*", "", page) for page in self.found("order of events")})
