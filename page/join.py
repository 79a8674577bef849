# SPDX-License-Identifier: Apache-2.0
"""Writes the page as one file: join.py ROOT WASM, with the repository and the module."""
import base64
import gzip
import hashlib
import json
import os
import re
import sys
from pathlib import Path

from manual import manual
from reference import reference

IMPORT = re.compile(r'^import \{([\w, $]+)\} from "\./(\w+)\.js";$', re.M)
EXPORT = re.compile(r"^export (?=(?:async )?(?:function|const|let|class) ([\w$]+))", re.M)
KEYWORDS = re.compile(r"^syntax keyword tw(\w+) (.*)$", re.M)


def read(path: str) -> str:
    """Returns the text of a file."""
    with open(path, encoding="utf-8") as file:
        return file.read()


def order(folder: str, name: str, done: list[str]) -> list[str]:
    """Returns the modules that a module needs, each after those that it needs, and itself last."""
    for _, other in IMPORT.findall(read(f"{folder}/{name}.js")):
        if other not in done:
            order(folder, other, done)
    if name not in done:
        done.append(name)
    return done


def uncommented(text: str) -> str:
    """Returns a script without the comments that have lines of their own."""
    return re.sub(r"^[ \t]*(?:/\*\*(?:[^*]|\*(?!/))*\*/|//.*)\n", "", text, flags=re.M)


def wrapped(folder: str, name: str) -> str:
    """Returns a module as a function that is called once, whose value has what the module exports."""
    text = uncommented(read(f"{folder}/{name}.js"))
    exported = EXPORT.findall(text)
    text = IMPORT.sub(lambda it: f"const {{{it[1]}}} = of_{it[2]};", text)
    text = EXPORT.sub("", text)
    if re.search(r"^(import|export)\b", text, re.M):
        raise ValueError(f"{name}.js has an import or export of another form")
    return f"const of_{name} = (() => {{\n{text}\nreturn {{{', '.join(exported)}}};\n}})();\n"


def spellings(folder: str, examples: str, name: str) -> dict[str, str]:
    """Returns the texts of an example, by their syntax."""
    texts = {}
    for spelled, path in (("names", f"{examples}/{name}.twn"), ("numbers", f"{examples}/{name}.tw"), ("names", f"{folder}/{name}.twn")):
        if os.path.exists(path):
            texts[spelled] = read(path)
    if not texts:
        raise ValueError(f"there is no example {name}")
    return texts


def groups(folder: str, examples: str) -> list[dict[str, object]]:
    """Returns the groups of examples with their texts. Each file of the folder must be in one."""
    listed: list[dict[str, object]] = json.loads(read(f"{folder}/examples.json"))
    named = set()
    for group in listed:
        some = group["examples"]
        assert isinstance(some, list)
        for it in some:
            named.add(it["name"])
            it["texts"] = spellings(folder, examples, it["name"])
    missing = {re.sub(r"\.twn?$", "", it) for it in os.listdir(examples) if re.search(r"\.twn?$", it)} - named
    if missing:
        raise ValueError(f"examples.json lacks {sorted(missing)}")
    return listed


def literal(what: object) -> str:
    """Returns a value as JavaScript for a script element."""
    return json.dumps(what, ensure_ascii=False).replace("</", "<\\/").replace("<!--", "<\\!--")


def examples_of(root: str) -> list[dict[str, object]]:
    """Returns the groups of examples, each example with its source in Python if the tests of Python's builder have one."""
    listed = groups(f"{root}/page", f"{root}/examples")
    for group in listed:
        some = group["examples"]
        assert isinstance(some, list)
        for it in some:
            path = f"{root}/embed/python/tests/programs/{it['name']}.py"
            if os.path.exists(path):
                it["python"] = read(path)
    return listed


def worker(folder: str, wasm: bytes) -> str:
    """Returns the script of the thread that calls the module."""
    return f'self.wasm = "{base64.b64encode(gzip.compress(wasm, 9, mtime=0)).decode()}";\n{uncommented(read(f"{folder}/worker.js"))}'


def script_of(root: str, wasm: bytes) -> str:
    """Returns the page's script."""
    folder = f"{root}/page"
    script = "".join(wrapped(folder, name) for name in order(folder, "app", []))
    for mark, value in (
        ("@GRAMMAR@*/ {}", {group.lower(): words for group, words in KEYWORDS.findall(read(f"{root}/script/install/tw.vim"))}),
        ("@EXAMPLES@*/ []", examples_of(root)),
        ("@REFERENCE@*/ []", reference(Path(root))),
        ("@GLOSSARY@*/ {}", json.loads(read(f"{folder}/glossary.json"))),
        ('@FOLLOWER@*/ ""', '"use strict";\n' + "".join(wrapped(folder, name) for name in order(folder, "follower", []))),
        ('@WORKER@*/ ""', worker(folder, wasm)),
    ):
        if script.count(f"/*{mark}") != 1:
            raise ValueError(f"the script must have {mark} once")
        script = script.replace(f"/*{mark}", literal(value))
    return f"// SPDX-License-Identifier: Apache-2.0\n{script.strip()}"


def policy(script: str) -> str:
    """Returns the policy that forbids every request. Only this script runs, it may begin the module, and threads of its own."""
    digest = base64.b64encode(hashlib.sha256(f"\n{script}\n".encode()).digest()).decode()
    return f"default-src 'none'; script-src 'sha256-{digest}' 'wasm-unsafe-eval'; worker-src blob:; style-src 'unsafe-inline'; img-src data:; base-uri 'none'; form-action 'none'"


def page(root: str, wasm: bytes) -> str:
    """Returns the page."""
    script = script_of(root, wasm)
    text = read(f"{root}/page/page.html")
    for mark, value in (("@STYLE@", read(f"{root}/page/page.css").strip()), ("@VERSION@", read(f"{root}/VERSION").strip()), ("@MANUAL@", manual(Path(root))), ("@POLICY@", policy(script)), ("@SCRIPT@", script)):
        text = text.replace(mark, value, 1)
    return text


if __name__ == "__main__":
    with open(sys.argv[2], "rb") as opened:
        print(page(sys.argv[1], opened.read()))
