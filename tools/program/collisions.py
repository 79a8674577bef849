"""Makes names that collide where the hash of names has a fixed seed, for the worst inputs of ./dev hostile.

Each name starts at one of the first groups of a table, so that finding one passes all before it. Names hashed with the text they are in don't collide.
"""

from collections.abc import Iterator

SEED = 0x243F6A8885A308D3
MULTIPLIER = 0x9E3779B97F4A7C15
MASK = (1 << 64) - 1
LETTERS = b"abcdefghijklmnopqrstuvwxyz"
LENGTH = 8
GROUP_LOAD = 9
SPREAD = 256


def folded(a: int, b: int) -> int:
    """Returns the two halves of a product of 128 bits, joined by xor."""
    product = a * b
    return (product & MASK) ^ (product >> 64)


def group_count(entries: int) -> int:
    """Returns how many groups a table of this many entries has."""
    count = 1
    while GROUP_LOAD * count < entries:
        count *= 2
    return count


def after_letter(state: int, letter: int) -> int:
    """Returns the hash's state after one byte more."""
    return folded(state ^ letter * 0x10101, MULTIPLIER ^ 2)


def fronts(length: int) -> Iterator[tuple[bytes, int]]:
    """Yields each text of this many letters that begins a name, with the state after it."""
    if length == 0:
        yield b"", folded(SEED ^ LENGTH, MULTIPLIER ^ 16)
        return
    for front, state in fronts(length - 1):
        for letter in LETTERS:
            yield front + bytes([letter]), after_letter(state, letter)


def colliding(count: int) -> Iterator[str]:
    """Yields names that start in the first groups of a table of this many names."""
    groups = group_count(count)
    first = max(groups // SPREAD, 1)
    left = count
    for front, state in fronts(LENGTH - 1):
        for letter in LETTERS:
            end = after_letter(state, letter)
            if (end ^ (end >> 32)) & (groups - 1) < first and left > 0:
                left -= 1
                yield (front + bytes([letter])).decode("ascii")
        if left == 0:
            return
