# SPDX-License-Identifier: Apache-2.0
"""Makes HTML of the parts of the manual, for the page. Links lead from part to part; others are text alone."""

from __future__ import annotations

import sys
from pathlib import Path
from typing import Optional

sys.path.insert(0, str(Path(__file__).resolve().parent.parent))
from tools.release.convert import Style, rendered  # noqa: E402

PARTS = {"FIRST": "A first lesson", "FORMAT": "Texts, inputs and reports", "NAMES": "Names", "MACHINE": "The machine", "IDIOMS": "Idioms", "BUILD": "Programs in Python"}


def style_of(part: str) -> Style:
    """Returns how a part is written: its anchors begin with its name, and its title is the dialog's."""

    def link(target: str) -> Optional[str]:
        name, _, place = target.partition("#")
        to = name.removesuffix(".md").split("/")[-1] if name else part
        return f"#manual-{to}-{place}" if to in PARTS else None

    return Style(link, lambda _: None, f"manual-{part}-", 3)


def manual(root: Path) -> str:
    """Returns the parts as templates, which the page puts into its dialog when one is opened."""
    texts = {part: (root / f"docs/{part}.md").read_text(encoding="utf-8") for part in PARTS}
    return "\n".join(f'<template id="manual-{part}" data-title="{title}">{rendered(texts[part], style_of(part))}</template>' for part, title in PARTS.items())
