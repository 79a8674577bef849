"""Compares programs that are loaded once with the program tw: ./dev loaded says how."""

import subprocess
import sys
from pathlib import Path

from tools.common.sessions import sessions

root, room, tw, *watch = sys.argv[1:]
examples = Path(root, "examples")

Answer = tuple[int, bytes]


def started(words: list[str], data: bytes = b"") -> Answer:
    """Returns the status and the text of a program. What tw says of codes isn't printed, but what valgrind says of the others is."""
    errors = subprocess.DEVNULL if words[0] == tw else None
    done = subprocess.run(words, input=data, stdout=subprocess.PIPE, stderr=errors, check=False)
    return done.returncode, done.stdout


def assembled(path: Path) -> bytes | None:
    """Returns the bytes of an example, if it can be assembled."""
    words = ["--names"] if path.suffix == ".twn" else []
    status, text = started([tw, "asm", *words], path.read_bytes())
    return bytes.fromhex(text.decode()) if status == 0 else None


def inputs_of(path: Path) -> list[list[str]]:
    """Returns the inputs that examples/sessions.txt shows for an example, without options; and none."""
    shown = dict.fromkeys(it.inputs for it in sessions() if it.command == "run" and it.path.stem == path.stem and it.path.suffix != ".hex" and it.inputs)
    return [[], *(list(words) for words in shown)]


def wanted(path: Path, inputs: list[str]) -> Answer:
    """Returns the status and the lines of outputs that the program prints."""
    status, text = started([tw, "run", "--text", "--in-turn", *inputs], path.read_bytes())
    return status, b"".join(line for line in text.splitlines(True) if line.startswith((b"out ", b"  at ")))


def is_same(path: Path, source: bytes, inputs: list[str]) -> bool:
    """Compares the run of an example in one of its formats. Where tw refuses it, the status is enough."""
    status, text = started([*watch, f"{room}/loaded", *inputs], source)
    is_alike = (status, b"" if status == 1 else text) == wanted(path, inputs)
    if not is_alike:
        print("DIFFERS", path.name, inputs, status, text[:100])
    return is_alike


def compare_examples() -> tuple[int, int]:
    """Returns how many runs are the same, and how many differ."""
    counts = {True: 0, False: 0}
    for path in sorted(examples.glob("*.tw")) + sorted(examples.glob("*.twn")):
        code = assembled(path)
        for inputs in inputs_of(path) if code is not None else []:
            for source in (code or b"", (code or b"").hex().encode(), path.read_bytes()):
                counts[is_same(path, source, inputs)] += 1
    return counts[True], counts[False]


BEGINS = ("ints:", "texts:", "tints:", "ttexts:")
MEMBERS = ('1=2', '1="b"', '"a"=2', '"a"="b"')
CONTAINERS = ("{0}", "{0},", ",{0}", "{0},,{0}", "{0} ", " {0}", "{0}x", "x", "1", '"a"', "1=", "=2", '"a"=', '="b"', '1="b', '"a=2', '"a"="b', "1:2", "1=x", "x=2", "a=2", "{0};{0}")
NUMBERS = ("7", "-7", "007", "-0", "9223372036854775807", "-9223372036854775808")
NO_NUMBERS = ("", "x", "-", "--7", "+7", " 7", "7 ", "7x", "0x7", "7.5", "9223372036854775808", "-9223372036854775809", "9" * 40)


def input_words() -> list[str]:
    """Returns words that are inputs, and such that are none."""
    containers = [begin + form.format(member) for begin in BEGINS for member in MEMBERS for form in CONTAINERS]
    numbers = [*NUMBERS, *NO_NUMBERS]
    members = [f"ints:{number}=2" for number in numbers] + [f"ints:1={number}" for number in numbers] + [f'tints:"a"={number}' for number in numbers]
    return ["7", "x", "int", "Int:7", "text:", "text:a=1", *BEGINS, *dict.fromkeys(containers), *(f"int:{number}" for number in numbers), *members]


def is_word_refused(words: list[str], data: bytes) -> bool:
    """Returns whether a program says that its second input is none, with status 2; a program that takes two minutes hasn't said so."""
    try:
        done = subprocess.run(words, input=data, stdout=subprocess.PIPE, stderr=subprocess.DEVNULL, timeout=120, check=False)
    except subprocess.TimeoutExpired:
        return False
    return done.returncode == 2 and done.stdout.startswith(b"input word 2 refused\n")


def has_same_word(word: str) -> bool:
    """Compares whether the library's example and tw take a word as an input; main has one input only, so nothing runs."""
    data = b"proc control closed int\nregs\nDROPR d0\nRET\n"
    is_alike = is_word_refused([f"{room}/loaded", "int:1", word], data) == is_word_refused([tw, "run", "-", "--text", "int:1", word], data)
    if not is_alike:
        print("DIFFERS", word)
    return is_alike


def compare_words() -> tuple[int, int]:
    """Returns how many words both take or reject, and of how many one does; without valgrind, as in CI, of each fourth."""
    alike = [has_same_word(word) for word in input_words()[:: 1 if watch else 4]]
    return sum(alike), len(alike) - sum(alike)


def main() -> int:
    """Makes all checks."""
    program = Path(room, "program")
    program.write_bytes(assembled(examples / "read_number.twn") or b"")
    hostile, text = started([*watch, f"{room}/hostile", str(program), "65536"])
    print(text.decode(), end="")
    cpp, text = started([*watch, f"{room}/cpp", str(examples)]) if Path(room, "cpp").exists() else (0, b"C++: no compiler\n")
    print(text.decode(), end="")
    same, differ = compare_examples()
    taken, strange = compare_words()
    print(f"{taken} input words taken alike, {strange} not")
    print(f"{same} same, {differ} differ")
    return int(hostile + cpp != 0 or differ + strange != 0 or same == 0)


if __name__ == "__main__":
    sys.exit(main())
