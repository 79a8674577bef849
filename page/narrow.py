# SPDX-License-Identifier: Apache-2.0
"""Makes a wasm64 module one with 32-bit memory, which every browser of today has: narrow.py <WIDE >NARROW.

Addresses stay 64 bits wide in registers, globals and memory, so nothing that the module computes changes. If an instruction
takes an address, a size of memory or a table index, it is truncated to 32 bits first, as
`wasm-opt --memory64-lowering` does. Truncation loses nothing, since all addresses lie in a memory of at most 4 GiB."""
import sys

WRAP, EXTEND_SIGNED, EXTEND = b"\xa7", b"\xac", b"\xad"
I32, I64, F32, F64 = 0x7F, 0x7E, 0x7D, 0x7C
STORED = {0x36: I32, 0x37: I64, 0x38: F32, 0x39: F64, 0x3A: I32, 0x3B: I32, 0x3C: I64, 0x3D: I64, 0x3E: I64}
# The instructions by how many numbers follow their opcode.
NUMBERS = {**{code: 0 for code in (0x00, 0x01, 0x05, 0x0B, 0x0F, 0x1A, 0x1B, 0xD1, *range(0x45, 0xC5))},
           **{code: 1 for code in (0x02, 0x03, 0x04, 0x0C, 0x0D, 0x10, 0x12, *range(0x20, 0x27), 0x3F, 0x40, 0x41, 0x42, 0xD0, 0xD2)},
           **{code: 2 for code in (0x11, 0x13)}}


def leb(number: int) -> bytes:
    """Returns an unsigned number as LEB128."""
    out = bytearray()
    while number > 0x7F:
        out.append(number & 0x7F | 0x80)
        number >>= 7
    return bytes([*out, number])


class Reader:
    """Reads a module from the left."""

    def __init__(self, data: bytes) -> None:
        self.data, self.at = data, 0

    def byte(self) -> int:
        """Returns the next byte."""
        self.at += 1
        return self.data[self.at - 1]

    def number(self) -> int:
        """Returns the next number, read as unsigned LEB128; of a signed one just the length is right."""
        value = shift = 0
        while True:
            byte = self.byte()
            value |= (byte & 0x7F) << shift
            shift += 7
            if byte < 0x80:
                return value

    def take(self, length: int) -> bytes:
        """Returns so many bytes."""
        self.at += length
        return self.data[self.at - length:self.at]

    def over(self) -> bool:
        """Returns whether all is read."""
        return self.at == len(self.data)


class Body:
    """A function's body, and the locals that are added to it."""

    def __init__(self, code: Reader, locals_before: int, wide_table: bool) -> None:
        self.code, self.first, self.wide_table = code, locals_before, wide_table
        self.added: list[int] = []
        self.out = bytearray()

    def local(self, kind: int, which: int = 0) -> bytes:
        """Returns the number of a local of this type that is the body's own: the first, or the second."""
        places = [k for k, it in enumerate(self.added) if it == kind]
        while len(places) <= which:
            places.append(len(self.added))
            self.added.append(kind)
        return leb(self.first + places[which])

    def under(self, kind: int) -> bytes:
        """Truncates the address below the top of the stack, which is of this type."""
        top = self.local(kind)
        return b"\x21" + top + WRAP + b"\x20" + top

    def bulk(self, code: int) -> bytes:
        """Truncates the three operands of memory.copy (10), or the first and the last of memory.fill (11)."""
        last, middle = self.local(I32), self.local(I32, 1)
        cut = WRAP if code == 10 else b""
        return WRAP + b"\x21" + last + cut + b"\x21" + middle + WRAP + b"\x20" + middle + b"\x20" + last

    def skip(self, code: int) -> None:
        """Skips the immediates of an opcode."""
        if code == 0x0E:
            for _ in range(self.code.number() + 1):
                self.code.number()
        elif code == 0x1C:
            self.code.take(self.code.number())
        elif code in (0x43, 0x44):
            self.code.take(4 if code == 0x43 else 8)
        elif code in NUMBERS:
            for _ in range(NUMBERS[code]):
                self.code.number()
        else:
            raise ValueError(f"instruction {code:#x} isn't known")

    def prefixed(self) -> None:
        """Copies an instruction with the prefix fc."""
        start = self.code.at - 1
        code = self.code.number()
        if code > 11 or code in (8, 9):
            raise ValueError(f"instruction fc {code} isn't known")
        for _ in range({10: 2, 11: 1}.get(code, 0)):
            self.code.number()
        self.out += (self.bulk(code) if code >= 10 else b"") + self.code.data[start:self.code.at]

    def access(self, code: int) -> None:
        """Copies a load or a store, whose offset may be written longer than 32 bits allow."""
        align, offset = self.code.number(), self.code.number()
        self.out += self.under(STORED[code]) if code in STORED else WRAP
        self.out += bytes([code]) + leb(align) + leb(offset)

    def instruction(self) -> None:
        """Copies an instruction, with its addresses truncated."""
        start = self.code.at
        code = self.code.byte()
        if code == 0xFC:
            self.prefixed()
            return
        if 0x28 <= code <= 0x3E:
            self.access(code)
            return
        self.skip(code)
        if code == 0x40 or code in (0x11, 0x13) and self.wide_table:
            self.out += WRAP
        self.out += self.code.data[start:self.code.at]
        self.out += {0x3F: EXTEND, 0x40: EXTEND_SIGNED}.get(code, b"")


def narrow_body(body: bytes, params: int, wide_table: bool) -> bytes:
    """Returns a function's body for 32-bit memory."""
    code = Reader(body)
    groups = code.number()
    start = code.at
    declared = 0
    for _ in range(groups):
        declared += code.number()
        code.byte()
    head = body[start:code.at]
    made = Body(code, params + declared, wide_table)
    while not code.over():
        made.instruction()
    added = b"".join(b"\x01" + bytes([kind]) for kind in made.added)
    return leb(groups + len(made.added)) + head + added + bytes(made.out)


def narrow_limits(reader: Reader) -> bytes:
    """Returns limits without the mark of 64 bits."""
    flags = reader.byte()
    start = reader.at
    for _ in range(2 if flags & 1 else 1):
        reader.number()
    return bytes([flags & ~4]) + reader.data[start:reader.at]


def narrow_segments(content: bytes, elements: bool) -> bytes:
    """Returns data or element segments whose offsets are of 32 bits."""
    reader = Reader(content)
    count = reader.number()
    out = bytearray(leb(count))
    for _ in range(count):
        if reader.number() != 0 or reader.byte() not in (0x41, 0x42):
            raise ValueError("a segment isn't at a constant offset of memory 0 or table 0")
        start = reader.at
        reader.number()
        out += b"\x00\x41" + reader.data[start:reader.at] + bytes([reader.byte()])
        start = reader.at
        length = reader.number()
        if elements:
            for _ in range(length):
                reader.number()
        else:
            reader.take(length)
        out += content[start:reader.at]
    return bytes(out)


class Module:
    """Facts about a module while its sections are read."""

    def __init__(self) -> None:
        self.params: list[int] = []
        self.types: list[int] = []
        self.wide_table = False

    def read_types(self, content: bytes) -> None:
        """Keeps how many parameters each type has."""
        reader = Reader(content)
        for _ in range(reader.number()):
            reader.byte()
            self.params.append(reader.number())
            reader.take(self.params[-1])
            reader.take(reader.number())

    def narrow_code(self, content: bytes) -> bytes:
        """Returns the code section for 32-bit memory."""
        reader = Reader(content)
        count = reader.number()
        bodies = [narrow_body(reader.take(reader.number()), self.params[kind], self.wide_table) for kind in self.types[:count]]
        return leb(count) + b"".join(leb(len(body)) + body for body in bodies)

    def section(self, kind: int, content: bytes) -> bytes:
        """Returns a section for 32-bit memory."""
        reader = Reader(content)
        if kind == 1:
            self.read_types(content)
        elif kind == 2:
            raise ValueError("the module imports something")
        elif kind == 3:
            self.types = [reader.number() for _ in range(reader.number())]
        elif kind == 4:
            head = reader.take(2)
            self.wide_table = bool(content[2] & 4)
            return head + narrow_limits(reader) + content[reader.at:]
        elif kind == 5:
            return reader.take(1) + narrow_limits(reader) + content[reader.at:]
        elif kind in (9, 11) and (kind == 11 or self.wide_table):
            return narrow_segments(content, kind == 9)
        elif kind == 10:
            return self.narrow_code(content)
        return content


def narrow(wide: bytes) -> bytes:
    """Returns the module for 32-bit memory."""
    reader, module = Reader(wide), Module()
    out = bytearray(reader.take(8))
    while not reader.over():
        kind = reader.byte()
        content = module.section(kind, reader.take(reader.number()))
        out += bytes([kind]) + leb(len(content)) + content
    return bytes(out)


if __name__ == "__main__":
    sys.stdout.buffer.write(narrow(sys.stdin.buffer.read()))
