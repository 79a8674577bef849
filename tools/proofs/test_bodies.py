"""Tests of ./dev bodies."""

import re
import unittest
from types import SimpleNamespace
from typing import Any
from unittest.mock import patch

from tools.common.testing import folder_of, put
from tools.proofs import bodies, hollow
from tools.proofs.hollow import Trial

LOW = [9, 1, 30, 2, 1, 13]


class Thing:
    """A function or a body, with what `rt plant` knows of it."""

    def __init__(self, **parts: Any) -> None:
        self.__dict__.update(parts)


def function(name: str, **more: Any) -> Any:
    """Returns a function of the module `low`."""
    return Thing(**{"name": name, "shown": name, "module": ("low",), "block": None, "in_trait": False, "symbols": [], **more})


def body(of: Any, text: str, kind: str = "not-run") -> Any:
    """Returns a body under a function's contract."""
    return Thing(f=of, body=text, kind=kind, why="", name=f"{of.name}_{text}", same=None)


def trial_of(parts: dict[Any, list[list[Any]]], answers: dict[str, str]) -> tuple[Trial, list[int]]:
    """Returns a `Trial`, and how many bodies its checks had. A check answers by bodies: `wrong` isn't Rattle, and `long` has no end beside others."""
    trial, checks = Trial.__new__(Trial), list[int]()

    def check(names: list[str]) -> str:
        kinds = [answers[name[-1]] for name in names]
        checks.append(len(names))
        if "wrong" in kinds:
            return f"src/lib.rt:{kinds.index('wrong')}:1: error: no\n"
        return "" if "long" in kinds and kinds[1:] else "only=1 holes=0\n"

    def read(plants: list[Any], _: str) -> None:
        for plant in plants:
            plant.kind, _, plant.why = answers[plant.body].partition(": ")

    trial.copy = SimpleNamespace(check=check)
    trial.copy.write = lambda plants: setattr(trial.copy, "lines", {("src/lib.rt", at): plant for at, plant in enumerate(plants)})
    trial.plant = SimpleNamespace(read=read, ERROR=re.compile(r"(?m)^(src/\S+\.rt):(\d+):\d+: error"), NO_END="no end")
    trial.each, trial.bodies = 1, parts
    return trial, checks


class OfBodies(unittest.TestCase):
    def test_rows_and_their_report(self) -> None:
        root = folder_of(self)
        put(root, {"VERSION": "0.1\n", "release/BODIES": "gone 0.1 1a 1 refused\n"})
        put(root, {f"crates/{name}/src/lib.rt": "" for name in ("low", "high", "new")})
        with patch.object(bodies, "sources_of", lambda root, name: f"{(root / 'crates' / name / 'src/lib.rt').stat().st_size}a"):
            bodies.note(root, "high", LOW)
            bodies.note(root, "low", [1] * 6)
            put(root, {"VERSION": "0.2\n", "crates/low/src/lib.rt": "fn", "crates/high/src/lib.rt": "fn"})
            bodies.note(root, "low", LOW)
            high, low, total, left = bodies.report(root).splitlines()
        self.assertEqual(low, "low 0.2 2a 9 functions 1 untried 30 refused 2 equal 1 through 13 unjudged")
        self.assertEqual(high, low.replace("low 0.2 2a", "high 0.1 0a"))
        self.assertEqual([total, left], ["all 18 functions 2 untried 60 refused 4 equal 2 through 26 unjudged", "none of these sources: high, new"])

    def test_a_report_without_rows_or_of_an_earlier_form(self) -> None:
        root = folder_of(self)
        put(root, {"crates/low/src/lib.rt": ""})
        with patch.object(bodies, "sources_of", lambda root, name: "1a"):
            self.assertEqual(bodies.report(root), "all\nnone of these sources: low")
            put(root, {"release/BODIES": " ".join(["low 0.1", *bodies.counted(LOW)]) + "\n\n"})
            self.assertEqual(bodies.report(root), "all\nnone of these sources: low")

    def test_paths(self) -> None:
        source: Any = SimpleNamespace(declared={"Low": [(("home",), "struct")]})
        method = SimpleNamespace(ty=["Low"], trait=["tw_a", ":", ":", "From", "<", "i64", ">"], is_trait=False, generics=["T"])
        self.assertEqual(hollow.path_of(source, function("f")), ["low", "f"])
        self.assertEqual(hollow.path_of(source, function("f", block=method, owner="Low")), ["home", "Low", "f"])
        self.assertEqual(hollow.path_of(source, function("f", block=method, in_trait=True)), ["low", "LowFromI64", "f"])
        method.ty = ["T"]
        self.assertEqual(hollow.path_of(source, function("f", block=method, in_trait=True)), ["low", "AnyFromI64", "f"])

    def test_bodies_that_may_not_compile_are_last(self) -> None:
        texts = [("Low { at: 0 }", "constant"), ("Some(0)", "constant"), ("None", "failure"), ("tw_a::Low::new(0)", "call")]
        made = [SimpleNamespace(text=text, kind=kind) for text, kind in texts]
        self.assertEqual([it.text for it in hollow.spread(made)], ["None", "Some(0)", "Low { at: 0 }", "tw_a::Low::new(0)"])

    def test_a_method_of_a_trait_has_one_body_at_a_time(self) -> None:
        f, g = function("f", in_trait=True), function("g")
        self.assertEqual([it.body for it in hollow.in_place([body(f, "a"), body(g, "b"), body(f, "c"), body(g, "d")])], ["a", "b", "d"])

    def test_a_check_judges(self) -> None:
        plants = [body(function("f"), text) for text in "abcde"]
        trial, checks = trial_of({}, {"a": "refused: by", "b": "wrong", "c": "long", "d": "not-judged: no holes", "e": "elsewhere: call"})
        trial.read(plants)
        self.assertEqual([it.kind for it in plants], ["refused", "not-source", "long", "proves", "not-source"])
        self.assertEqual(checks, [5, 4, 2, 1, 1, 2])

    def test_a_proof_that_two_bodies_replace_is_removed_once(self) -> None:
        f, g = (function(name, symbols=["low::Low::f"]) for name in "fg")
        trial, _ = trial_of({}, dict.fromkeys("abf", "refused: by"))
        trial.room, trial.crate = folder_of(self), SimpleNamespace(name="low")
        put(trial.room, {"proofs/Low/f/Proof.antt": "proved"})
        trial.read([body(f, "a"), body(g, "b")])
        self.assertIn("f_spec = ?", (trial.room / "proofs/Low/f/Proof.antt").read_text(encoding="utf-8"))

    def test_counts(self) -> None:
        f, g, h = function("f"), function("g"), function("h")
        some = [body(f, "a", "not-source"), body(f, "b", "refused"), body(f, "c")]
        unproved = [[], [body(g, "a")], [body(g, "b", "refused")]]
        limit = [body(h, "b", "not-judged"), body(h, "a", "proves"), body(h, "c")]
        trial, _ = trial_of({f: [some, [body(f, "d", "proves")], [body(f, "e", "same")]], g: unproved, h: [limit, [], []]}, {})
        self.assertEqual([hollow.name_of(it) for it in trial.left()], ["g: { a }"])
        self.assertEqual(trial.counts(), [3, 1, 1, 1, 1, 2])
        self.assertEqual([hollow.name_of(it) for it in trial.let_through()], ["h: { a }"])
