"""Does what the arguments of ./dev say."""

import importlib
import os
import sys
from typing import Any

from tools import ROOT
from tools.harnesses import TOOLS, Tool, path_of

README = ROOT / "tools" / "README.md"
# Commands with a module of their own.
COMMANDS = {"check": "tools.night.check", "night": "tools.night.night", "record": "tools.night.record"}


def module_of(file: str) -> Any:
    """Returns the module of a file below tools/."""
    return importlib.import_module(f"tools.{file.removesuffix('.py').replace('/', '.')}")


def run_tool(tool: Tool, words: list[str]) -> int:
    """Runs a tool in this process; returns its exit status."""
    path, (file, *first) = path_of(tool.file), tool.file.split()
    if path.suffix == ".sh" or tool.file.startswith("./"):
        os.execv(path, [str(path), *words])
    sys.argv[0] = f"./dev {tool.name}"
    return int(module_of(file).main([*first, *words]))


def listed() -> str:
    """Returns a line for each tool."""
    return "\n".join(f"{tool.name:17} {tool.what}" for tool in TOOLS)


def table() -> str:
    """Returns the tools of each folder, as rows for tools/README.md. Kinds of fuzz tests are one."""
    names: dict[str, list[str]] = {}
    for tool in TOOLS:
        folder = str(path_of(tool.file).relative_to(ROOT)).rpartition("/")[0].removesuffix("/believe")
        names.setdefault(folder, []).append("fuzz_KIND" if tool.name.startswith("fuzz_") else tool.name)
    rows = (f"| `{folder}` | {', '.join(f'`{name}`' for name in dict.fromkeys(found))} |" for folder, found in sorted(names.items()))
    return "\n".join(["| Folder | Tools |", "|---|---|", *rows]) + "\n"


def with_table(document: str) -> str:
    """Returns a document with the table between its marks."""
    before, begin, rest = document.partition("<!-- ./dev list -->\n")
    return before + begin + table() + rest[rest.index("<!-- end -->"):]


def main(usage: str, words: list[str]) -> int:
    """Does what the arguments say; returns an exit status."""
    name, *rest = words or [""]
    if name in COMMANDS:
        return int(importlib.import_module(COMMANDS[name]).main(rest))
    if name == "run":
        return int(importlib.import_module(COMMANDS["night"]).run_here(rest))
    if name == "list":
        if rest == ["--make"]:
            README.write_text(with_table(README.read_text(encoding="utf-8")), encoding="utf-8")
        print(listed())
        return 0
    for tool in TOOLS:
        if tool.name == name:
            return run_tool(tool, rest)
    print(usage.strip(), file=sys.stdout if name in ("--help", "-h") else sys.stderr)
    return 0 if name in ("--help", "-h") else 2
