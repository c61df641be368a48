#!/usr/bin/env python3
"""Rewrites a finished WebAssembly module from a 64-bit memory to a 32-bit one.

Why: the library is compiled for a 64-bit memory, and browsers from before 2025 have 32-bit ones alone.

What changes. Pointers stay i64 in locals, globals and signatures, so the functions are called as before. Each address is narrowed
(i32.wrap_i64) where it reaches a load, a store, memory.copy or memory.fill, and so is the length of the last two. The memory's
declaration and the places of its data become 32-bit ones. The custom section target_features, which asks for a 64-bit memory, is left
out. Types, globals, exports and all other instructions stay as they are.

What that rests on. The memory is far smaller than 2^32 bytes, so in a 64-bit memory an access from there on is an error. Here such an
address would lose its upper half and be another one, maybe within the memory. The library is proved to make no such access, but the
rewriting is not proved, nor is this program. So the module that it makes is run on the fixed lists too, as the one it is made from.

What is not named below is refused: any other section, instruction or form. The engine checks the types of the whole when it compiles
it.

Usage: docs/lesson/narrow.py IN.wasm OUT.wasm
"""
import sys

HEADER = b"\0asm\1\0\0\0"

# Sections, by their numbers. Those that are copied say nothing of the memory's width.
CUSTOM, TYPE, MEMORY, CODE, DATA = 0, 1, 5, 10, 11
FUNCTION, GLOBAL, EXPORT, DATA_COUNT = 3, 6, 7, 12
COPIED = {FUNCTION, GLOBAL, EXPORT, DATA_COUNT}
COPIED_CUSTOM, DROPPED_CUSTOM = {b"name", b"producers"}, {b"target_features"}

I32, I64 = 0x7F, 0x7E
NO_VALUE = 0x40

# Instructions.
BLOCK, LOOP, IF, END, BR_TABLE = 0x02, 0x03, 0x04, 0x0B, 0x0E
LOCAL_GET, LOCAL_SET = 0x20, 0x21
I32_CONST, I64_CONST = 0x41, 0x42
WRAP = b"\xA7"
PREFIX, MEMORY_COPY, MEMORY_FILL = 0xFC, 10, 11
LOADS = {0x28, 0x29, *range(0x2C, 0x36)}
STORES = {0x36: I32, 0x37: I64, 0x3A: I32, 0x3B: I32, 0x3C: I64, 0x3D: I64, 0x3E: I64}
# By what follows the opcode: nothing, an index, a number with a sign.
BARE = {
    0x00, 0x01, 0x05, END, 0x0F, 0x1A, 0x1B,    # unreachable, nop, else, end, return, drop, select
    *range(0x45, 0x5B),                         # comparisons of i32 and i64
    *range(0x67, 0x8B),                         # arithmetic of both
    0xA7, 0xAC, 0xAD, *range(0xC0, 0xC5),       # wrap, extend
}
INDEXED = {0x0C, 0x0D, 0x10, LOCAL_GET, LOCAL_SET, 0x22, 0x23, 0x24}    # br, br_if, call, of locals, of globals
NUMBERED = {I32_CONST, I64_CONST}


class Refused(Exception):
    """The module has something that is not known here."""


class Reader:
    """The bytes of a module from one place to another."""

    def __init__(self, module, at, end):
        self.module, self.at, self.end = module, at, end

    def refuse(self, what):
        raise Refused(f"{what}, before byte {self.at} of the module")

    def more(self):
        return self.at < self.end

    def take(self, count):
        if count > self.end - self.at:
            self.refuse("a part that ends too early")
        self.at += count
        return self.module[self.at - count:self.at]

    def byte(self):
        return self.take(1)[0]

    def part(self):
        """A part by itself: its length, and then its bytes."""
        length = self.unsigned()
        self.take(length)
        return Reader(self.module, self.at - length, self.at)

    def unsigned(self):
        return self._number()[0]

    def signed(self):
        number, bits = self._number()
        return number - (1 << bits) if number >> (bits - 1) else number

    def _number(self):
        """A number in LEB128, and how many bits of it are stored. Ten bytes are the most, of a number of 64 bits."""
        number = bits = 0
        while bits < 70:
            byte = self.byte()
            number |= (byte & 0x7F) << bits
            bits += 7
            if byte < 0x80:
                return number, bits
        return self.refuse("a number of more than ten bytes")

    def vector(self, element):
        """The elements of a vector, each read by `element`."""
        return [element(self) for _ in range(self.unsigned())]

    def finish(self):
        if self.more():
            self.refuse("a part that goes on after its last element")


def unsigned(number):
    """A number in LEB128."""
    encoded = bytearray()
    while number >= 0x80:
        encoded.append(number & 0x7F | 0x80)
        number >>= 7
    return bytes(encoded) + bytes([number])


def signed(number):
    """A number in LEB128 with a sign."""
    encoded = bytearray()
    while not -0x40 <= number < 0x40:
        encoded.append(number & 0x7F | 0x80)
        number >>= 7
    return bytes(encoded) + bytes([number & 0x7F])


def vector(elements):
    return unsigned(len(elements)) + b"".join(elements)


def sized(content):
    return unsigned(len(content)) + content


# ---- instructions

class Temporaries:
    """Locals added to a function: only those that its body needs, after its own."""

    def __init__(self, first):
        self.first, self.types, self.places = first, [], {}

    def place(self, kind, name=""):
        """The local of that type and name, as an index."""
        if (kind, name) not in self.places:
            self.places[kind, name] = self.first + len(self.types)
            self.types.append(kind)
        return unsigned(self.places[kind, name])


def put(place):
    return bytes([LOCAL_SET]) + place


def got(place):
    return bytes([LOCAL_GET]) + place


def instruction(reader, temporaries):
    """The next instruction, rewritten."""
    start = reader.at
    code = reader.byte()
    if code in LOADS:
        return WRAP + access(code, reader)
    if code in STORES:
        # The address lies below the value.
        value = temporaries.place(STORES[code])
        return put(value) + WRAP + got(value) + access(code, reader)
    if code == PREFIX:
        return bulk(reader, temporaries)
    if code in INDEXED:
        reader.unsigned()
    elif code in NUMBERED:
        reader.signed()
    elif code in (BLOCK, LOOP, IF):
        block_type(reader)
    elif code == BR_TABLE:
        reader.vector(Reader.unsigned)
        reader.unsigned()
    elif code not in BARE:
        reader.refuse(f"an instruction that is not known: 0x{code:02x}")
    return reader.module[start:reader.at]


def access(code, reader):
    """A load or a store. Its offset is written anew: of an address of 64 bits it may take ten bytes, and of one of 32 five at most."""
    alignment, offset = reader.unsigned(), reader.unsigned()
    if alignment > 3:
        reader.refuse(f"an access with the alignment or flags {alignment}")
    if offset >= 1 << 32:
        reader.refuse(f"an access at the offset {offset}")
    return bytes([code]) + unsigned(alignment) + unsigned(offset)


def bulk(reader, temporaries):
    """memory.copy or memory.fill. Of what lies on the stack the two upper ones are put aside, so that the lowest can be narrowed."""
    code = reader.unsigned()
    if code not in (MEMORY_COPY, MEMORY_FILL):
        reader.refuse(f"an instruction that is not known: 0x{PREFIX:02x} {code}")
    memories = [reader.unsigned() for _ in range(2 if code == MEMORY_COPY else 1)]
    if any(memories):
        reader.refuse("an instruction on a second memory")
    middle, length = temporaries.place(I32), temporaries.place(I32, "length")
    wrap_middle = WRAP if code == MEMORY_COPY else b""      # the address copied from, or the byte to fill with
    aside = WRAP + put(length) + wrap_middle + put(middle) + WRAP
    return aside + got(middle) + got(length) + bytes([PREFIX, code, *memories])


def block_type(reader):
    """No value, one value or an index of a type: none of them depends on the memory."""
    kind = reader.signed()
    if kind < 0 and kind + 0x80 not in (NO_VALUE, I32, I64):
        reader.refuse("a block of a type that is not known")


def value_type(reader):
    kind = reader.byte()
    if kind not in (I32, I64):
        reader.refuse(f"a value of a type that is not known: 0x{kind:02x}")
    return kind


# ---- sections

def parameter_counts(reader):
    """How many parameters each type of function has."""
    def parameters(reader):
        if reader.byte() != 0x60:
            reader.refuse("a type that is not that of a function")
        count = len(reader.vector(value_type))
        reader.vector(value_type)
        return count
    return reader.vector(parameters)


def narrowed_memory(reader):
    """One memory, its limits in pages of 64 KiB; the flags are 4 for 64 bits and 1 for a limit above."""
    if reader.unsigned() != 1:
        reader.refuse("another number of memories than one")
    flags = reader.byte()
    if flags not in (4, 5):
        reader.refuse(f"a memory that is shared, not of 64 bits or not known: flags {flags}")
    limits = [reader.unsigned() for _ in range(1 + flags % 2)]
    if max(limits) > 1 << 16:
        reader.refuse("a memory of more than 2^32 bytes")
    return vector([bytes([flags % 2]) + b"".join(map(unsigned, limits))])


def narrowed_function(reader, parameters):
    """The body of a function."""
    groups = reader.vector(lambda reader: (reader.unsigned(), value_type(reader)))
    temporaries = Temporaries(parameters + sum(count for count, _ in groups))
    code = []
    while reader.more():
        code.append(instruction(reader, temporaries))
    if not code or code[-1] != bytes([END]):
        reader.refuse("a function without an end")
    groups += [(1, kind) for kind in temporaries.types]
    return sized(vector([unsigned(count) + bytes([kind]) for count, kind in groups]) + b"".join(code))


def narrowed_code(reader, parameters):
    bodies = reader.vector(Reader.part)
    if len(bodies) != len(parameters):
        reader.refuse("another number of bodies than of functions")
    return vector([narrowed_function(body, count) for body, count in zip(bodies, parameters)])


def narrowed_segment(reader):
    """Bytes that the memory has at the start, and their place, a constant."""
    if reader.unsigned() != 0 or reader.byte() != I64_CONST:
        reader.refuse("data that has no constant place in the memory")
    place = reader.signed()
    if not 0 <= place < 1 << 32 or reader.byte() != END:
        reader.refuse("data that has no constant place in a memory of 2^32 bytes")
    content = reader.part()
    as_i32 = place - (1 << 32) if place >> 31 else place
    return bytes([0, I32_CONST]) + signed(as_i32) + bytes([END]) + sized(content.take(content.end - content.at))


def keeps_custom(reader):
    """Whether a custom section stays, by its name."""
    part = reader.part()
    name = part.take(part.end - part.at)
    if name not in COPIED_CUSTOM | DROPPED_CUSTOM:
        reader.refuse(f"a custom section that is not known: {name}")
    return name in COPIED_CUSTOM


def narrow(module):
    """The module on a 32-bit memory."""
    module = bytes(module)
    reader = Reader(module, 0, len(module))
    if reader.take(8) != HEADER:
        reader.refuse("no WebAssembly module of version 1")
    written, seen = [HEADER], set()
    types, parameters = [], []
    while reader.more():
        number, section = reader.byte(), reader.part()
        if number in seen:
            reader.refuse(f"a section that stands there twice: {number}")
        content = module[section.at:section.end]
        if number == CUSTOM:
            if keeps_custom(section):
                written.append(bytes([number]) + sized(content))
            continue
        seen.add(number)
        if number == TYPE:
            types = parameter_counts(section)
            section.finish()
        elif number == FUNCTION:
            indexes = Reader(module, section.at, section.end).vector(Reader.unsigned)
            if any(index >= len(types) for index in indexes):
                section.refuse("a function of no type")
            parameters = [types[index] for index in indexes]
        elif number == MEMORY:
            content = narrowed_memory(section)
            section.finish()
        elif number == CODE:
            content = narrowed_code(section, parameters)
            section.finish()
        elif number == DATA:
            content = vector(section.vector(narrowed_segment))
            section.finish()
        elif number not in COPIED:
            section.refuse(f"a section that is not known: {number}")
        written.append(bytes([number]) + sized(content))
    if not {MEMORY, CODE} <= seen:
        reader.refuse("no memory or no code")
    return b"".join(written)


def main(arguments):
    if len(arguments) != 2:
        sys.exit("usage: docs/lesson/narrow.py IN.wasm OUT.wasm")
    try:
        with open(arguments[0], "rb") as file:
            module = narrow(file.read())
        with open(arguments[1], "wb") as file:
            file.write(module)
    except (OSError, Refused) as error:
        sys.exit(f"docs/lesson/narrow.py: {error}")


if __name__ == "__main__":
    main(sys.argv[1:])
