"""The tools of this repository, by purpose: ./dev runs them."""

from pathlib import Path

ROOT = Path(__file__).resolve().parent.parent
