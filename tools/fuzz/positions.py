"""Reads where a text has an error off the lines that are printed: for ./dev json_runs and tools/fuzz/kinds/texts.py."""

import re

# The signs that separate names in a line, and those that may also follow one.
PARTING = r" \t\r(),"
ENDING = PARTING + ":;"
# A word; a no-break space is part of one, and a quoted text is one with its blanks.
WORD = re.compile(r'"(?:[^"\\]|\\.)*"[^ \t\r]*|[^ \t\r]+')
# The end of a word that is cut.
CUT = " .."
# A hidden character, as it is printed.
HIDDEN = re.compile(r"\\u\{([0-9a-f]+)\}")
# The reason of which the name has its own colon.
OF_A_COLON = "needs a type after it"
# The first line of an error after a text's first.
FURTHER = re.compile(r"also [ANV]\d\d( at line \d+| in procedure \d+ at place \d+)|more than 20 errors")


def errors_in(lines: list[str]) -> list[list[str]]:
    """Returns the lines of each error of a text."""
    heads = [0, *(number for number in range(2, len(lines)) if FURTHER.fullmatch(lines[number]))]
    return [lines[head:end] for head, end in zip(heads, [*heads[1:], len(lines)])]


def name_pattern(reason: str) -> str:
    """Returns an expression for the name of which a line says something."""
    name, _, said = reason.partition(": ")
    name = HIDDEN.sub(lambda found: chr(int(found[1], 16)), name)
    if said.startswith(OF_A_COLON):
        name += ":"
    if name.endswith(CUT):
        return re.escape(name.removesuffix(CUT)) + f"[^{ENDING}]*"
    return re.escape(name)


def of_name(line: str, reason: str) -> tuple[int, int]:
    """Returns word and column of the name of which the last line says something; zeros unless the code of the text's line has it once."""
    code = line if '"' in line else line.split(";")[0]
    name = name_pattern(reason)
    places = [found.start() for found in re.finditer(rf"(?<![^{PARTING}]){name}(?![^{ENDING}])", code)]
    if len(places) != 1 or re.search(f"[{PARTING}]", reason.partition(": ")[0].removesuffix(CUT)):
        return 0, 0
    return len(WORD.findall(line[: places[0] + 1])), places[0] + 1


def of_error(lines: list[str], line: str) -> tuple[int, int]:
    """Returns word and column of the first error of these lines in a line of a text; zeros if it is at no word, or if the line expands to another."""
    lines = errors_in(lines)[0]
    if len(lines) > 3 and (lines[3].startswith("at line ") or " A01 " in lines[0]):  # the head of the procedure that is called; what to type
        lines = lines[:3]
    if len(lines) != 3 or not re.match("(refused|also) [AN]", lines[0]):
        return 0, 0
    if re.match("(refused|also) N", lines[0]):
        return of_name(line, lines[2])
    word = re.match(r"word (\d+), column (\d+): ", lines[2])
    return (int(word[1]), int(word[2])) if word else (0, 0)
