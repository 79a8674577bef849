"""Makes the manual as a site: all documents as HTML, contents by reader, and a search that needs no server.

    ./dev site FOLDER           writes the site into a new folder; open its index.html
    ./dev site --archive FILE   writes it as an archive, which is the same for the same documents
    ./dev site --check          fails if a document has no title, is in no group of the contents, or a link of the site leads nowhere

`./dev release` makes manual.tar of it, and `./tw install` unpacks that below share/doc. index.js has the words of each section, as JSON in a variable,
since a page that is opened as a file may not fetch one.
"""

import html
import io
import json
import posixpath
import re
import tarfile
from pathlib import Path
from typing import NamedTuple, Optional

from tools import ROOT
from tools.release.convert import Style, anchor, rendered
from tools.sources.words import files_here

# The contents: what a reader wants to do, and the documents for it. Crates are added by their names.
READERS: tuple[tuple[str, str], ...] = (
    ("Begin", "README docs/FIRST examples/README docs/IDIOMS docs/BUILD"),
    ("Look something up", "docs/FORMAT docs/MACHINE docs/BYTES docs/NAMES CHANGELOG"),
    ("Run a service", "docs/HOSTING docs/MANY SECURITY"),
    ("Call the library", "embed/README embed/c/README embed/cpp/README embed/rust/README embed/python/README docs/ABI"),
    ("Believe it", "docs/PROOFS docs/CONTRACTS release/README docs/DECISIONS"),
    ("Change it", "CONTRIBUTING docs/ARCHITECTURE docs/PROVING docs/ADDING docs/STYLE tools/README bench/README page/README"),
)
# Files beside the documents to which their links lead.
BESIDE = (".svg", ".schema.json")
ASSETS = Path("tools/release/manual")


class Document(NamedTuple):
    """A document: its path, its name in the site, its title and its text."""

    path: str
    name: str
    title: str
    text: str


def name_of(path: str) -> str:
    """Returns a document's name in the site: FORMAT, embed-c, tw_host."""
    parts = path.removesuffix(".md").split("/")
    kept = [it for it in parts if it not in ("docs", "crates")]
    return "-".join(kept[:-1] if len(kept) > 1 and kept[-1] == "README" else kept)


def title_of(text: str) -> Optional[str]:
    """Returns a document's title, its first line, without signs of code."""
    found = re.match(r"# (.*)", text)
    return found[1].replace("`", "") if found else None


def documents_of(root: Path) -> list[Document]:
    """Returns the documents of a repository, without forms for forges and copies for cases."""
    paths = sorted(it for it in files_here() if it.endswith(".md") and not it.startswith(".") and "/data/" not in it)
    texts = {path: (root / path).read_text(encoding="utf-8") for path in paths}
    return [Document(path, name_of(path), title_of(text) or name_of(path), text) for path, text in texts.items()]


def groups_of(documents: list[Document]) -> list[tuple[str, list[Document]]]:
    """Returns the contents: each group with its documents."""
    named = {it.path: it for it in documents}
    groups = [(reader, [named[f"{path}.md"] for path in paths.split() if f"{path}.md" in named]) for reader, paths in READERS]
    return [*groups, ("Crates", [it for it in documents if it.path.startswith("crates/")])]


def resolved(path: str, target: str) -> str:
    """Returns the file to which a document's link leads."""
    return posixpath.normpath(posixpath.join(posixpath.dirname(path), target))


def style_of(document: Document, documents: list[Document]) -> Style:
    """Returns how a document is written: its links lead to pages of the site, to files beside them, or out."""
    pages = {it.path: f"{it.name}.html" for it in documents}

    def link(target: str) -> Optional[str]:
        file, sign, place = target.partition("#")
        to = resolved(document.path, file) if file else document.path
        if target.startswith("http"):
            return target
        if to.endswith(BESIDE):
            return posixpath.basename(to)
        page = pages.get(to) or pages.get(f"{to}/README.md")
        return f"{page}{sign}{place}" if page else None

    return Style(link, lambda target: posixpath.basename(target) if target.endswith(BESIDE) else None)


def sections(document: Document) -> list[tuple[str, str, str]]:
    """Returns the sections of a document: anchor, heading and text. Blocks of code belong to them."""
    found, fenced = [("", document.title, [""])], False
    for line in document.text.split("\n"):
        fenced ^= line.startswith("```")
        head = None if fenced else re.match(r"#+ (.*)", line)
        if head and len(found) + len(found[0][2]) > 2:
            words = re.sub(r"\[(.*?)\]\(.*?\)", r"\1", head[1])
            found.append((anchor(words), words.replace("`", ""), [""]))
        elif not head:
            found[-1][2].append(line)
    return [(place, head, " ".join(lines)) for place, head, lines in found]


def index_of(documents: list[Document]) -> str:
    """Returns what the search reads: of each section its page, anchor, document's title, heading and words."""
    rows = []
    for it in documents:
        for place, head, text in sections(it):
            words = sorted(set(re.findall(r"[\w.:+-]*\w", f"{head} {text}".lower())))
            rows.append([f"{it.name}.html" + (f"#{place}" if place else ""), it.title, head, " ".join(words)])
    return json.dumps(rows, ensure_ascii=False, separators=(",", ":"))


def framed(title: str, body: str, version: str) -> str:
    """Returns a page of the site."""
    return (
        f'<!doctype html>\n<html lang="en"><head><meta charset="utf-8"><meta name="viewport" content="width=device-width, initial-scale=1">'
        f'<title>{html.escape(title)} - Yuglemit</title><link rel="stylesheet" href="style.css"></head><body>\n'
        f'<header><a href="index.html">Yuglemit {html.escape(version)}</a><input id="query" type="search" placeholder="Search" aria-label="Search the manual"></header>\n'
        f'<ul id="found" aria-live="polite"></ul>\n<main>{body}</main>\n<script src="index.js"></script><script src="search.js"></script></body></html>\n'
    )


def contents(groups: list[tuple[str, list[Document]]]) -> str:
    """Returns the first page's text."""
    parts = ["<h1>The manual</h1>"]
    for reader, documents in groups:
        parts.append(f"<h2>{reader}</h2><ul>" + "".join(f'<li><a href="{it.name}.html">{html.escape(it.title)}</a></li>' for it in documents) + "</ul>")
    return "".join(parts)


def site(root: Path) -> dict[str, bytes]:
    """Returns the files of the site by their names."""
    documents, version = documents_of(root), (root / "VERSION").read_text(encoding="utf-8").strip()
    files = {f"{it.name}.html": framed(it.title, rendered(it.text, style_of(it, documents)), version) for it in documents}
    files["index.html"] = framed("The manual", contents(groups_of(documents)), version)
    files["index.js"] = f"const INDEX = {index_of([it for _, some in groups_of(documents) for it in some])};\n"
    made = {name: text.encode() for name, text in files.items()}
    for path in sorted(root.glob("docs/*.schema.json")) + [root / "examples/pipeline.svg", root / "bench/results.svg", root / ASSETS / "style.css", root / ASSETS / "search.js"]:
        made[path.name] = path.read_bytes()
    return made


def archive(root: Path) -> bytes:
    """Returns the site as an archive that is the same for the same documents."""
    room = io.BytesIO()
    with tarfile.open(fileobj=room, mode="w", format=tarfile.USTAR_FORMAT) as packed:
        for name, text in sorted(site(root).items()):
            member = tarfile.TarInfo(f"html/{name}")
            member.size, member.mode = len(text), 0o644
            packed.addfile(member, io.BytesIO(text))
    return room.getvalue()


def faults(root: Path) -> list[str]:
    """Returns what is wrong with the site."""
    documents = documents_of(root)
    shown = {it.path for _, some in groups_of(documents) for it in some}
    found = [f"{it.path}: no title" for it in documents if not title_of(it.text)] + [f"{it.path}: in no group of the contents" for it in documents if it.path not in shown]
    files = site(root)
    places = {name: set(re.findall(r' id="([^"]*)"', text.decode())) for name, text in files.items() if name.endswith(".html")}
    for name in places:
        for target in re.findall(r' (?:href|src)="([^"]*)"', files[name].decode()):
            page, _, place = html.unescape(target).partition("#")
            if not target.startswith("http") and (page not in files or place and place not in places.get(page, set())):
                found.append(f"{name}: {target} leads nowhere")
    return found


def main(words: list[str]) -> int:
    """Does what the arguments say; returns an exit status."""
    if words == ["--check"]:
        wrong = faults(ROOT)
        print("\n".join([*wrong, f"{len(site(ROOT))} checked, {len(wrong)} faults"]))
        return 1 if wrong else 0
    if words[:1] == ["--archive"] and len(words) == 2:
        Path(words[1]).write_bytes(archive(ROOT))
        return 0
    if len(words) != 1 or words[0].startswith("-"):
        print(__doc__)
        return 2
    Path(words[0]).mkdir(parents=True)
    for name, text in site(ROOT).items():
        Path(words[0], name).write_bytes(text)
    return 0
