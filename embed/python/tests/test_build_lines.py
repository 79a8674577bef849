# SPDX-License-Identifier: Apache-2.0
"""A run that is stuck leads to the line that was refused; errors say what to write; and parameters have their own names."""

from __future__ import annotations

import pickle
import unittest
from typing import Any, List, Tuple

from yuglemit import Unfinished, load
from yuglemit.build import BuildError, build_text

HEAD = "from yuglemit.build import Array, Int, Map, Out, Sum, Table, Text, check, control, each, insert, leaf, nth, out\n"
LEAVES = """@leaf(otherwise=0)
def add(x: Int, y: Int) -> Int:
    return x + y
@leaf
def fill(n: Int, r: Out[Map[Int, Int]]) -> None:
    out.r[n] = 10 // n
@leaf
def two(n: Int, r: Out[Map[Int, Int]], s: Out[Table[Text]]) -> None:
    for i in range(3):
        for j in range(2):
            out.r[n * (2 * i + j)] = i
    out.s[str(n)] = 'a'
@leaf
def row(n: Int) -> Array[Int]:
    a = Array[Int]()
    a[1] = 10 // n
    a[n] = n
    return a
@leaf
def both(n: Int, r: Out[Map[Int, Int]]) -> Array[Int]:
    a = Array[Int]()
    out.r[n] = 10 // n
    a[n] = n
    return a
@leaf
def size(a: Array[Int]) -> Int:
    return len(a)
@leaf
def of_map(m: Map[Int, Int]) -> Int:
    return len(m)
"""
MAIN = "@control\ndef main(x: Int, m: Map[Int, Int], t: Text, y: Out[Int], r: Out[Map[Int, Int]], s: Out[Table[Text]]) -> None:\n"
FIRST = (HEAD + LEAVES + MAIN).count("\n") + 1  # the first line of main's body


def told(body: str, *inputs: Any) -> Tuple[str, List[str], List[Any]]:
    """How a run of main with a body ends, what it says was refused, and its outputs."""
    program = build_text(HEAD + LEAVES + MAIN + "".join(f"    {line}\n" for line in body.split("\n")), "folder/a.py").program
    report = program.run(*inputs, limit=1_000_000)
    return report.end, report.refused(), report.partial


class Control(unittest.TestCase):
    """Each cause of a control function has its line and its words."""

    def test_causes(self) -> None:
        for body, x, words in (
            ("out.y = x * x", 2**62, "out.y = x * x: the result leaves 64 bits"),
            ("z = 5\nout.y = z // x", 0, "out.y = z // x: the divisor is 0"),
            ("z = 10 // x\nz = x * x\nout.y = z", 2**62, "z = x * x: the result leaves 64 bits"),
            ("out.y = int(t)", 0, "out.y = int(t): the text is no number"),
            ("u = t + t\nfor i in range(11):\n    u = u + u\nout.y = x", 0, "u = u + u: the text has more than 4096 bytes"),
            ("out.y = m[x]", 7, "out.y = m[x]: m[x] isn't there"),
            ("out.y = nth(m, x)", 7, "out.y = nth(m, x): nth(m, x) isn't there"),
            ("out.r[x] = 1\nout.r[x] = 2\nout.y = 1", 7, "out.r[x] = 2: the subscript x is taken"),
            ("for i in each(m, 2):\n    pass\nout.y = 1", 1, "for i in each(m, 2):: m has more than 2 values, the most of this loop"),
            ("for i in each(range(x), 2):\n    pass\nout.y = 1", 3, "for i in each(range(x), 2):: range(x) has more than 2 numbers, the most of this loop"),
            ("for i in range(3):\n    for j in range(3):\n        z = 5 // (x - i * j)\n        z = z * x\nout.y = 1", 4, "z = 5 // (x - i * j): the divisor is 0"),
            ("for i in range(3):\n    for j in each(range(x), 9):\n        z = 5 // (x - 2)\nout.y = x * x", 10, "for j in each(range(x), 9):: range(x) has more than 9 numbers, the most of this loop"),
            ("k = add(x, 1)\nl = add(k, x)\nout.r[x] = 5 // x\nout.y = add(k, l)", 0, "out.r[x] = 5 // x: the divisor is 0"),
        ):
            with self.subTest(body):
                lines = body.split("\n")
                number = max(place for place, line in enumerate(lines) if line.strip() == words[: len(line.strip())])
                end, notes, _ = told(body, x, [1, 2, 3], "ab")
                self.assertEqual((end, notes), ("stuck", [f"a.py:{FIRST + number}: {words}"]))

    def test_what_waits_leads_there(self) -> None:
        """Rules that wait for what a refused task would write aren't what is shown."""
        body = "p = add(x, 1)\nq = add(p, 2)\nkept = Map[Int, Int]()\nn = of_map(kept)\nfill(x, kept)\nout.y = add(q, add(n, 1))"
        end, notes, _ = told(body, 0, [], "")
        self.assertEqual((end, notes), ("stuck", [f"a.py:{(HEAD + LEAVES).split(chr(10)).index('    out.r[n] = 10 // n') + 1}: out.r[n] = 10 // n: the divisor is 0"]))


class Leaves(unittest.TestCase):
    """A leaf function that writes containers alone leaves them open when it is refused, and else they close as if nothing watched."""

    def test_one_container(self) -> None:
        body = "for i in range(3):\n    fill(x + i, out.r)\nout.y = 1"
        self.assertEqual(told(body, 1, [], ""), ("quiet", [], [1, {1: 10, 2: 5, 3: 3}, {}]))
        end, notes, outputs = told(body, -1, [], "")
        self.assertEqual((end, [it.split(": ", 1)[1] for it in notes], outputs), ("stuck", ["out.r[n] = 10 // n: the divisor is 0"], [1, {-1: -10, 1: 10}, {}]))

    def test_a_container_made_here(self) -> None:
        """One in a loop, too, whose task runs after it is complete."""
        body = "total = 0\nfor i in range(3):\n    kept = Map[Int, Int]()\n    fill(x + i, kept)\n    fill(x + i + 9, kept)\n    total = add(total, of_map(kept))\nout.y = total"
        self.assertEqual(told(body, 1, [], "")[::2], ("quiet", [6, {}, {}]))
        self.assertEqual(told(body, -1, [], "")[::2], ("stuck", [None, {}, {}]))

    def test_two_containers(self) -> None:
        body = "two(x, out.r, out.s)\nout.y = 1"
        self.assertEqual(told(body, 1, [], ""), ("quiet", [], [1, {0: 0, 1: 0, 2: 1, 3: 1, 4: 2, 5: 2}, {"1": "a"}]))
        end, notes, outputs = told(body, 0, [], "")
        self.assertEqual((end, [it.split(": ", 1)[1] for it in notes]), ("stuck", ["out.r[n * (2 * i + j)] = i: the subscript n * (2 * i + j) is taken"]))
        self.assertEqual(outputs, [1, {0: 0}, {}])

    def test_containers_that_are_results(self) -> None:
        for body, wanted, refused in (
            ("out.y = size(row(x))", [2, {}, {}], [None, {}, {}]),
            ("a = row(x)\nout.y = size(a)", [2, {}, {}], [None, {}, {}]),
            ("a = both(x, out.r)\nout.y = size(a)", [1, {3: 3}, {}], [None, {}, {}]),
            ("row(x)\nout.y = 4", [4, {}, {}], [4, {}, {}]),
        ):
            with self.subTest(body):
                self.assertEqual(told(body, 3, [], ""), ("quiet", [], wanted))
                end, notes, outputs = told(body, 0, [], "")
                self.assertEqual((end, [it.rsplit(": ", 1)[1] for it in notes], outputs), ("stuck", ["the divisor is 0"], refused))

    def test_a_container_that_is_returned(self) -> None:
        text = HEAD + LEAVES + "@control\ndef f(x: Int) -> Array[Int]:\n    return row(x)\n@control\ndef g(x: Int) -> Map[Int, Int]:\n    a = Map[Int, Int]()\n    fill(x, a)\n    return a\n"
        text += "@control\ndef main(x: Int, y: Out[Int], z: Out[Int]):\n    out.y = size(f(x))\n    out.z = of_map(g(x))\n"
        program = build_text(text).program
        self.assertEqual([(it.end, it.partial) for it in map(program.run, (3, 0))], [("quiet", [2, 1]), ("stuck", [None, None])])

    def test_waiting_for_another_container(self) -> None:
        """A task that fills one container waits for another that is watched, too."""
        text = HEAD + LEAVES + "@leaf\ndef copied(a: Map[Int, Int], n: Int, b: Out[Map[Int, Int]]):\n    for i, v in each(a):\n        out.b[i] = v * n\n"
        text += "@control\ndef main(x: Int, y: Out[Map[Int, Int]]):\n    a = Map[Int, Int]()\n    fill(x, a)\n    copied(a, x, out.y)\n    out.y[0] = 7\n"
        program = build_text(text).program
        self.assertEqual([(it.end, it.partial) for it in map(program.run, (5, 0))], [("quiet", [{0: 7, 5: 10}]), ("stuck", [{0: 7}])])

    def test_each_order_of_events(self) -> None:
        """More actors and other orders end alike, with the same outputs and the same line."""
        text = HEAD + LEAVES + MAIN + "    two(x, out.r, out.s)\n    for i in range(4):\n        fill(100 + x + i, out.r)\n    a = row(x + 1)\n    out.y = add(size(a), x)\n"
        program = build_text(text, "a.py").program
        for x in (7, 0, -1):
            reports = [program.run(x, [], "", engines=2, servers=2, workers=3, seed=seed) for seed in range(1, 15)]
            self.assertEqual({it.end for it in reports}, {"quiet" if x == 7 else "stuck"})
            self.assertEqual({str((it.partial, it.refused())) for it in reports}, {str((reports[0].partial, reports[0].refused()))}, x)

    def test_eight_parameters(self) -> None:
        text = "@leaf\ndef f(a: Int, b: Int, c: Int, d: Int, e: Int, g: Int, h: Int, r: Out[Array[Int]]):\n    out.r[a] = {}\n@control\ndef main(x: Int, r: Out[Array[Int]]):\n    f(x, x, x, x, x, x, x, out.r)\n"
        with self.assertRaisesRegex(BuildError, "f has 8 parameters and results, and an instruction in it may be refused: give it one less"):
            build_text(HEAD + text.format("a * a"))
        fine = text.replace("    out.r[a] = {}", "    if check(insert(out.r, a, b)):\n        pass")
        self.assertEqual(build_text(HEAD + fine).program.run(3).outputs, [{3: 3}])

    def test_a_result_that_nobody_reads(self) -> None:
        text = "@leaf(otherwise=-1)\ndef f(n: Int, r: Out[Array[Int]]) -> Int:\n    out.r[n] = n\n    return n\n@control\ndef main(x: Int, r: Out[Array[Int]], y: Out[Int]):\n    {}f(x, out.r)\n    f(x, out.r)\n    out.y = 1\n"
        with self.assertRaisesRegex(BuildError, "nothing reads the result of f, which says whether an instruction was refused"):
            build_text(HEAD + text.format("z = "))
        fine = text.replace("    f(x, out.r)\n    out.y = 1\n", "    out.y = z\n").format("z = ")
        self.assertEqual(build_text(HEAD + fine).program.run(3).outputs, [{3: 3}, 3])

    def test_names_of_helpers(self) -> None:
        """Functions and variables may be called as the text calls its own procedures and registers."""
        names = ("never", "never_1", "guard", "guard_2", "copy_1", "record", "kept", "own", "waits", "size", "refused", "cause_1")
        for name in names:
            a, b, c = [it for it in names if it != name][:3]
            text = HEAD + f"@leaf\ndef {name}(n: Int, r: Out[Array[Int]]):\n    out.r[n] = 10 // n\n@leaf\ndef f({a}: Int) -> Int:\n    return {a}\n"
            text += f"@control\ndef main({b}: Int, r: Out[Array[Int]], y: Out[Int]):\n    {name}({b}, out.r)\n    {name}(f({b} * 2), out.r)\n    {c} = f({b})\n    k = f({c})\n    out.y = k\n"
            program = build_text(text).program
            self.assertEqual([(it.end, it.partial) for it in map(program.run, (1, 0))], [("quiet", [{1: 10, 2: 5}, 1]), ("stuck", [{}, 0])], name)


    def test_functions_that_are_compiled_before_and_after_helpers(self) -> None:
        text = HEAD + "@leaf(otherwise=-1)\ndef never_1(n: Int) -> Int:\n    return n * n\n@control\ndef later(n: Int) -> Int:\n    return never_1(n)\n"
        for first in ("later", "never_1"):
            its = text + f"@control\ndef main(x: Int, y: Out[Int]):\n    z = 10 // x\n    out.y = {first}(z)\n"
            program = build_text(its).program
            self.assertEqual([(it.end, it.partial) for it in map(program.run, (5, 0))], [("quiet", [4]), ("stuck", [None])])


class Reports(unittest.TestCase):
    def test_unfinished_says_the_line(self) -> None:
        program = build_text(HEAD + "@control\ndef main(x: Int, y: Out[Int]):\n    out.y = 10 // x\n", "a.py").program
        report = program.run(0)
        with self.assertRaisesRegex(Unfinished, r'^the run ended with "stuck" after \d+ events, .*: a.py:4: out.y = 10 // x: the divisor is 0. `partial` has'):
            _ = report.outputs
        again = pickle.loads(pickle.dumps(report))
        self.assertEqual((again.refused(), again.refused(timeout=60.0), program.run(5).refused()), (report.refused(), report.refused(), []))

    def test_a_long_run_isnt_made_again(self) -> None:
        body = "    for i in each(range(x), 30_000):\n        out.y[i] = i\n    out.y[0] = 1\n"
        report = build_text(HEAD + f"@control\ndef main(x: Int, y: Out[Map[Int, Int]]):\n{body}").program.run(30_000)
        self.assertEqual(report.refused(), ["<text>:6: out.y[0] = 1: the subscript 0 is taken"])
        report = build_text(HEAD + f"@control\ndef main(x: Int, y: Out[Map[Int, Int]]):\n{body.replace('30_000', '100_000')}").program.run(100_000)
        with self.assertRaisesRegex(Unfinished, "its rules wait for one another"):
            _ = report.outputs


class Texts(unittest.TestCase):
    def test_notes_are_comments(self) -> None:
        """What a line or a name of a file has can't end the comment."""
        line = "out.y = 10 // x; z = 'a; \\x1b\u2028\"'  # \u202e RULE never_1"
        for file in ("a\nRET\n.py", "a;b.py", "\udcff.py"):
            program = build_text(HEAD + f"@control\ndef main(x: Int, y: Out[Int]):\n    {line}\n", file).program
            notes = program.run(0).refused()
            self.assertEqual(len(notes), 1)
            self.assertRegex(notes[0], r"^[ -~]+:4: out.y = 10 // x; z = [^\u2028\u202e\x1b]*: the divisor is 0$")

    def test_many_causes(self) -> None:
        """A function that would be too long with a way for each cause has one for all, which names the function."""
        sums = "".join(f"    z = z + x * {number}\n" for number in range(2, 800))
        text = HEAD + "@control\ndef main(x: Int, y: Out[Int]):\n    z = x\n" + sums + "    out.y = z\n"
        program = build_text(text, "a.py").program
        self.assertEqual(program.run(1).outputs, [sum(range(2, 800)) + 1])
        self.assertEqual(program.run(2**62).refused(), ["a.py:3: an instruction of main is refused"])
        leaf = "@leaf\ndef f(x: Int, r: Out[Array[Int]]):\n    z = x\n" + sums + "    out.r[0] = z\n@control\ndef main(x: Int, r: Out[Array[Int]]):\n    f(x, out.r)\n"
        program = build_text(HEAD + leaf, "a.py").program
        self.assertEqual(program.run(1).outputs, [{0: sum(range(2, 800)) + 1}])
        report = program.run(2**63 // 300_000)
        self.assertEqual((report.end, report.refused()), ("stuck", ["an instruction of a leaf function is refused"]))

    def test_other_programs_have_no_notes(self) -> None:
        text = "names\nproc control main(y: write int)\nregs\nNEW own waits int\nRULE never_1 0 any waits own y\nRET\nproc leaf never_1(closed int, write int, write int)\nregs int\nDROPR d0\nSTORE d1 v0\nSTORE d2 v0\nRET\n"
        self.assertEqual(load(text).run().refused(), [])

    def test_parameters_have_their_own_names(self) -> None:
        text = "@leaf(otherwise=0)\ndef f(size: Int, word: Text) -> Int:\n    return size + byte_length(word)\n@control\ndef main(size: Int, word: Text, xs: Array[Int], y: Out[Int]):\n    size = size + 1\n    out.y = f(f(size, word), word)\n"
        program = build_text(HEAD + text).program
        self.assertEqual(list(map(str, program.parameters)), ["size: int", "word: text", "xs: cont int"])
        self.assertEqual(program.run(3, "ab", {}).outputs, [8])


class Advice(unittest.TestCase):
    """An error of what Python has and the language hasn't says what to write."""

    def test_each(self) -> None:
        for line, message in (
            ("n = sum(i * i for i in range(10))", r"sum\(i \* i for i in range\(10\)\) is not of the language: add in a loop: total \+= value"),
            ("x = [i for i in range(3)]", "write a for loop"),
            ("for i, x in enumerate(m):\n        pass", r"for subscript, member in each\(..\) has both"),
            ("print(n)", "does nothing here: nothing is printed, an output is set"),
            ("for w in 'a b'.split():\n        pass", r"for word in split\(text, \" \"\)"),
            ("m.append(3)", "there are no methods"),
            ("x = m.get(3)", "there are no methods"),
            ("n = max(m)", "max takes 2 arguments: compare in a loop"),
            ("try:\n        pass\n    except E:\n        pass", r"try is not of the language: if check\(..\)"),
            ("x = {1: 2}", r"Map\[..\]\(\) makes a container"),
            ("x = lambda: 3", "write a function with @leaf"),
            ("x = 1.5", "numbers are ints"),
            ("x = True", "1 and 0"),
            ("global q", "global is not of the language: assignments, if"),
        ):
            with self.subTest(line), self.assertRaisesRegex(BuildError, f"^<text>:3:\\d+: .*{message}"):
                build_text(f"@leaf(otherwise=0)\ndef f(n: Int, m: Map[Int, Int]) -> Int:\n    {line}\n    return n\n@control\ndef main(n: Int, m: Map[Int, Int], y: Out[Int]):\n    out.y = f(n, m)\n")

    def test_functions_of_the_file(self) -> None:
        """A function may be called like one of Python."""
        text = "@leaf(otherwise=0)\ndef sum(n: Int) -> Int:\n    return n + 1\n@control\ndef main(n: Int, y: Out[Int]):\n    out.y = sum(sum(n))\n"
        self.assertEqual(build_text(HEAD + text).program.run(3).outputs, [5])


if __name__ == "__main__":
    unittest.main()
