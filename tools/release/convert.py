"""Makes HTML of this repository's Markdown: headings, paragraphs, lists, tables, code, images and links. The page and the site of all documents use it."""

import html
import re
from collections.abc import Callable
from typing import NamedTuple, Optional

TOKEN = re.compile(r"``(?P<two>.+?)``|`(?P<code>[^`]+)`|!\[(?P<alt>[^\]]*)\]\((?P<image>[^)\s]+)\)|\[(?P<text>(?:`[^`]*`|[^\]`])*)\]\((?P<target>[^)\s]+)\)|\*\*(?P<bold>(?:`[^`]*`|.)+?)\*\*")
ITEM = re.compile(r"(?:[-*]|\d+\.) +")


class Style(NamedTuple):
    """How a document is written: where its links lead (None: the text alone), where its images are, the beginning of its anchors, the first level."""

    link: Callable[[str], Optional[str]]
    image: Callable[[str], Optional[str]]
    prefix: str = ""
    level: int = 1


def anchor(heading: str) -> str:
    """Returns a heading's anchor, as forges make it."""
    return re.sub(r"\s", "-", re.sub(r"[^\w\s-]", "", heading.replace("`", "").lower()).strip())


def token(found: re.Match[str], style: Style) -> str:
    """Returns the HTML of code, an image, a link or bold words."""
    code = found["two"] or found["code"]
    if code:
        return f"<code>{html.escape(code.strip() if found['two'] else code, quote=False)}</code>"
    if found["image"]:
        source = style.image(found["image"])
        return f'<img src="{html.escape(source)}" alt="{html.escape(found["alt"])}">' if source else ""
    if found["bold"]:
        return f"<b>{inline(found['bold'], style)}</b>"
    words, target = inline(found["text"], style), style.link(found["target"])
    return f'<a href="{html.escape(target)}">{words}</a>' if target else words


def inline(text: str, style: Style) -> str:
    """Returns a line's text with its code, emphasis, images and links."""
    made, at = "", 0
    for found in TOKEN.finditer(text):
        made += html.escape(text[at : found.start()], quote=False) + token(found, style)
        at = found.end()
    return made + html.escape(text[at:], quote=False)


def table(lines: list[str], style: Style) -> str:
    """Returns a table."""
    rows = [[inline(cell.strip().replace("\\|", "|"), style) for cell in re.split(r"(?<!\\)\|", line.strip().removeprefix("|").removesuffix("|"))] for k, line in enumerate(lines) if k != 1]
    head, body = "".join(f"<th>{cell}</th>" for cell in rows[0]), "".join("<tr>" + "".join(f"<td>{cell}</td>" for cell in row) + "</tr>" for row in rows[1:])
    return f'<div class="scroller" tabindex="0"><table><thead><tr>{head}</tr></thead><tbody>{body}</tbody></table></div>'


def heading(line: str, style: Style) -> str:
    """Returns a heading with its anchor."""
    signs, _, text = line.partition(" ")
    level = min(len(signs) + style.level - 1, 5)
    place = anchor(re.sub(r"\[(.*?)\]\(.*?\)", r"\1", text))
    return f'<h{level} id="{style.prefix}{place}">{inline(text, style)}</h{level}>'


def until(lines: list[str], start: int, end: Callable[[str], bool]) -> int:
    """Returns the index of the first line from a start on that ends a block, or how many lines there are."""
    return next((k for k in range(start, len(lines)) if end(lines[k])), len(lines))


def listed(lines: list[str], style: Style) -> str:
    """Returns a list. What is indented below an item belongs to it."""
    items: list[list[str]] = []
    for line in lines:
        found = ITEM.match(line)
        if found:
            items.append([line[found.end() :]])
            width = found.end()
        else:
            items[-1].append(line[min(width, len(line) - len(line.lstrip())) :])
    name = "ol" if lines[0][0].isdigit() else "ul"
    written = (re.sub(r"^<p>(.*?)</p>", r"\1", rendered("\n".join(item), style), flags=re.S) for item in items)
    return f"<{name}>" + "".join(f"<li>{text}</li>" for text in written) + f"</{name}>"


def end_of_list(lines: list[str], start: int) -> int:
    """Returns the index of the line after a list: an empty line ends it, if neither an item nor an indented line follows."""
    for k in range(start, len(lines)):
        after = lines[k + 1] if k + 1 < len(lines) else ""
        if not lines[k].strip() and not (ITEM.match(after) or after.startswith("  ")):
            return k
    return len(lines)


def block(lines: list[str], start: int, style: Style) -> tuple[str, int]:
    """Returns the HTML of the block that begins at a line, and the index of the line after it."""
    line = lines[start]
    if line.startswith("```"):
        end = until(lines, start + 1, lambda it: it.startswith("```"))
        return f"<pre>{html.escape(chr(10).join(lines[start + 1 : end]) + chr(10), quote=False)}</pre>", end + 1
    if line.startswith("<!--"):
        return "", until(lines, start, lambda it: "-->" in it) + 1
    if re.match(r"#+ ", line):
        return heading(line, style), start + 1
    if line.startswith("|"):
        end = until(lines, start, lambda it: not it.startswith("|"))
        return table(lines[start:end], style), end
    if ITEM.match(line):
        end = end_of_list(lines, start)
        return listed(lines[start:end], style), end
    if line.startswith("    "):
        end = until(lines, start, lambda it: not it.startswith("    "))
        return f"<pre>{html.escape(chr(10).join(it[4:] for it in lines[start:end]) + chr(10), quote=False)}</pre>", end
    end = until(lines, start + 1, lambda it: not it.strip() or bool(re.match(r"#+ |\||```|<!--", it)) or bool(re.match(r"[-*] ", it)))
    return f"<p>{inline(' '.join(it.strip() for it in lines[start:end]), style)}</p>", end


def rendered(text: str, style: Style) -> str:
    """Returns a document."""
    lines, made, at = text.split("\n"), "", 0
    while at < len(lines):
        if lines[at].strip():
            written, at = block(lines, at, style)
            made += written
        else:
            at += 1
    return made
