"""Tests of ./dev json_cases and ./dev json_runs on wrong objects."""

import pathlib
import unittest
from typing import Any
from unittest import mock

from tools.common.testing import said
from tools.cases import json_cases
from tools.program import json_runs
from tools.cases.files import Case
from tools.night.runner import PART

QUIET: dict[str, Any] = {"events": 4, "instructions": 3, "kinds": ["int"], "outputs": [7], "status": "quiet"}
REPORT = 'out 0 int 7\nout 1 text "a\\x09\\"\\\\"\nout 2 cont int closed 1\n  at 5 int 6\nout 3 unset\nstuck 2\nwaits 1 4 2\nwaits 2 5 1\n'


def case(kind: str, wanted: str) -> Case:
    return Case("one", kind, "", wanted, pathlib.Path("one.case"), 1, 1)


class Objects(unittest.TestCase):
    def expected(self, kind: str, wanted: str) -> list[Any]:
        return [one.found for one in json_cases.objects_of(case(kind, wanted))]

    def test_whole_output(self) -> None:
        self.assertEqual(self.expected("tw explain --json e1", '0 unread {"text":"a / {b"}'), [{"text": "a / {b"}])

    def test_lines(self) -> None:
        self.assertEqual(self.expected("called run --each", '1 {"line":1} / {"line":2}'), [{"line": 1}, {"line": 2}])

    def test_others(self) -> None:
        for kind, wanted in (("tw run", "0 quiet"), ("tw run --json --trace", "2 unread command line refused"), ("phrases explain --json", '{"a | 0')):
            self.assertEqual(self.expected(kind, wanted), [])


@unittest.skipUnless(json_cases.validators(), "jsonschema is not installed")
class Schemas(unittest.TestCase):
    def fits(self, command: str, found: dict[str, Any]) -> bool:
        return not json_cases.faults(json_cases.validators(), command, found)

    def test_run(self) -> None:
        self.assertTrue(self.fits("run", QUIET))
        wrongs: list[dict[str, Any]] = [{"status": "running"}, {"pending": 1}, {"events": -1}, *({"outputs": [it]} for it in (1.5, 2**63, [])), {"kinds": ["none"]}]
        for wrong in wrongs:
            self.assertFalse(self.fits("run", QUIET | wrong), wrong)
        for member in QUIET:
            self.assertFalse(self.fits("run", {key: value for key, value in QUIET.items() if key != member}), member)

    def test_no_object(self) -> None:
        wrongs: list[dict[str, Any]] = [{}, {"status": "quiet"}, {"status": "refused", "error": ["H01"]}, {"status": "refused", "error": {"code": "H01"}}]
        for command in json_cases.COMMANDS:
            for wrong in wrongs:
                self.assertFalse(self.fits(command, wrong), (command, wrong))


class WholeCheck(unittest.TestCase):
    def lines(self) -> tuple[int, list[str]]:
        status, text = said(json_cases.main, [])
        return status, text.splitlines()

    @unittest.skipUnless(json_cases.validators(), "jsonschema is not installed")
    def test_a_wrong_schema_fails(self) -> None:
        right = json_cases.schema_of
        with mock.patch.object(json_cases, "schema_of", lambda command: {**right(command), "required": ["nothing_has_this"]}):
            status, lines = self.lines()
        self.assertEqual((status, lines[-1].split(", ")[1]), (1, f"{lines[-1].split()[0]} complaints"))

    def test_schemas_that_are_left_out_are_said(self) -> None:
        with mock.patch.object(json_cases, "validators", return_value={}):
            self.assertEqual(PART.findall("\n".join(self.lines()[1])), ["the schemas, since jsonschema isn't installed"])


class Unseen(unittest.TestCase):
    def test_each_status(self) -> None:
        schema: dict[str, Any] = {"oneOf": [{"properties": {"status": {"enum": ["a", "b"]}, "more": {}}}, {"properties": {"status": {"const": "c"}}}]}
        objects: list[dict[str, Any]] = [{"status": "a", "more": 1}, {"status": "b"}]
        seen = [json_cases.Expected("one", "run", found) for found in objects]
        found = [line.removeprefix("run: no case has ") for line in json_cases.unseen("run", schema, seen)]
        self.assertEqual(found, ["`more` with the status b", "`status` with the status c"])

    def test_stopped_runs(self) -> None:
        schema: dict[str, Any] = {"oneOf": [{"properties": {"status": {"enum": ["quiet", "stopped"]}}}]}
        found = [line.split("has ")[1] for line in json_cases.unseen("run", schema, [])]
        self.assertEqual(found, ["`status` with the status quiet"])

    def test_members_of_errors(self) -> None:
        schema: dict[str, Any] = {"$defs": {"error": {"properties": {"code": {}, "line": {}}}}}
        seen = [json_cases.Expected("one", "run", {"status": "refused", "error": {"code": "H01"}}), json_cases.Expected("two", "run", {"status": "quiet"})]
        self.assertEqual(json_cases.unseen_of_errors("run", schema, seen), ["run: no case has an error with `line`"])

    def test_errors_of_lines(self) -> None:
        lines = ["refused V15 in procedure 2 at place 5", "at line 9 in work: DROPW d0", "d0 holds write int"]
        self.assertEqual(json_runs.error_members(lines, []), {"code": "V15", "procedure": 2, "place": 5, "line": 9, "lines": lines})
        self.assertEqual(json_runs.error_members(["refused O07", "tasks: bound 3, at most 2"], [])["code"], "O07")
        self.assertEqual(json_runs.error_members(["trap C5 at event 2"], []), {"code": "C5", "event": 2, "lines": ["trap C5 at event 2"]})

    def test_columns(self) -> None:
        def column(*lines: str) -> Any:
            return json_runs.error_members([f"refused {lines[0]} at line 1", *lines[1:]], [lines[1] if len(lines) > 1 else ""]).get("column")

        self.assertEqual(column("A02", "RET 7", "word 2, column 5: one word too many, found 7"), 5)
        self.assertIsNone(column("A02", "RET one", "expands to: RET 7", "word 2, column 5: one word too many, found 7"))
        self.assertIsNone(column("A02"))
        self.assertEqual(column("N04", "INT totl 7 ; totl", "totl: the name means nothing here"), 5)
        self.assertEqual(column("N04", 'TEXT totl "a" ; b', "totl: the name means nothing here"), 6)
        self.assertIsNone(column("N04", 'TEXT totl "a" ; totl', "totl: the name means nothing here"))
        self.assertEqual(column("N01", "regs as: a:", "a: needs a type after it"), 10)
        self.assertIsNone(column("N04", "ADD a a b", "a: the name means nothing here"))
        self.assertIsNone(column("N03", "proc leaf a(b", "a(b: this can't be a name"))
        self.assertEqual(column("N04", "INT " + "x" * 201, "x" * 200 + " ..: the name means nothing here"), 5)


class Differences(unittest.TestCase):
    def test_report(self) -> None:
        found = {"status": "stuck", "pending": 2, "circle": [[1, 4, 2], [2, 5, 1]], "events": 9, "instructions": 8}
        found |= {"outputs": [7, 'a\t"\\', {"5": 6}, None], "kinds": ["int", "text", "cont int closed", "unset"]}
        session = json_runs.Session("one", "run", (), b"")
        self.assertEqual(list(json_runs.differences(session, 3, REPORT.encode(), found)), [])
        for key in ("status", "pending", "circle", "outputs", "kinds"):
            self.assertEqual(len(list(json_runs.differences(session, 3, REPORT.encode(), found | {key: 1}))), 1, key)
