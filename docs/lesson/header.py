#!/usr/bin/env python3
"""What a C header of this library declares, as data: include/store_io.h read without a compiler.

signatures(text) gives each function as {"parameters": [...], "result": KIND}. A parameter has a name and a kind:

    "bytes", "const bytes"  a pointer to bytes and the length after it
    "array", "const array"  a pointer to `count` numbers of `bits` bits; a pointer to one number has the count 1
    "wide"                  a number of 64 bits: uint64_t or size_t
    "narrow"                a number of `bits` bits, 8, 16 or 32

What the function must not write is const. A result is "wide" or "narrow".

constants(text) gives each constant of the enums, and SIO_VERSION, as a number.

A line or a declaration of another form is an error, and so is a header without a function or without a constant: what the header says
is read whole or not at all.

Usage: docs/lesson/header.py HEADER.h    prints {"signatures": ..., "constants": ...}, both in the header's order.
"""
import json
import re
import sys

# The lines that declare nothing.
FRAME = {
    "#ifndef STORE_IO_H", "#define STORE_IO_H", "#include <stddef.h>", "#include <stdint.h>",
    "#ifdef __cplusplus", 'extern "C" {', "}", "#endif",
}

# The pointers to an array whose size is in the header's comments alone: C takes a pointer to const bytes by its first byte.
SIZES = {
    ("sio_region_name_padded", "raw"): "SIO_NAME_LEN",
    ("sio_write_entry", "name"): "SIO_NAME_LEN",
}

BITS = {"uint8_t": 8, "uint16_t": 16, "uint32_t": 32, "uint64_t": 64, "size_t": 64}

COMMENT = re.compile(r"/\*.*?\*/", re.DOTALL)
MACRO = re.compile(r"#define (SIO_\w+) (\d+)")
ENUM = re.compile(r"enum \{ ([^{}]*) \}")
ENUMERATOR = re.compile(r"(SIO_\w+) = (\d+)")
FUNCTION = re.compile(r"(\w+) (sio_\w+)\((.*)\)")
NUMBER = re.compile(r"(\w+) (\w+)")
POINTER = re.compile(r"(const )?(\w+) \*(\w+)")
ARRAY = re.compile(r"(const )?(\w+) \(\*(\w+)\)\[(\w+)\]")


class Unreadable(Exception):
    """The header has something that is not understood."""


def declarations(text):
    """The macros with a number, and the declarations, each on one line."""
    rest, macros = [], []
    for line in COMMENT.sub(" ", text).split("\n"):
        line = " ".join(line.split())
        macro = MACRO.fullmatch(line)
        if macro:
            macros.append(macro.groups())
        elif line.startswith("#") and line not in FRAME:
            raise Unreadable(f"a line that cannot be read: {line}")
        elif line not in FRAME:
            rest.append(line)
    *whole, last = " ".join(rest).split(";")
    if last.strip():
        raise Unreadable(f"a declaration without an end: {last.strip()}")
    return macros, [" ".join(declaration.split()) for declaration in whole]


def constants(text):
    """The constants by name."""
    pairs, found = [], {}
    macros, whole = declarations(text)
    for declaration in whole:
        enum = ENUM.fullmatch(declaration)
        if not enum and declaration.startswith("enum"):
            raise Unreadable(f"an enum that cannot be read: {declaration}")
        for part in enum[1].split(", ") if enum else []:
            enumerator = ENUMERATOR.fullmatch(part)
            if not enumerator:
                raise Unreadable(f"a constant that cannot be read: {part}")
            pairs.append(enumerator.groups())
    for name, number in macros + pairs:
        if name in found:
            raise Unreadable(f"a constant that stands there twice: {name}")
        found[name] = int(number)
    if "SIO_VERSION" not in found or not pairs:
        raise Unreadable("no SIO_VERSION, or no other constant")
    return found


def signatures(text):
    """The functions by name."""
    numbers, found, sizes = constants(text), {}, dict(SIZES)
    for declaration in declarations(text)[1]:
        if ENUM.fullmatch(declaration):
            continue
        function = FUNCTION.fullmatch(declaration)
        if not function:
            raise Unreadable(f"a declaration that cannot be read: {declaration}")
        result, name, parameters = function.groups()
        if name in found:
            raise Unreadable(f"a function that stands there twice: {name}")
        found[name] = {"parameters": read_parameters(name, parameters, numbers, sizes), "result": kind_of(result, name)}
    if not found:
        raise Unreadable("no function")
    if sizes:
        raise Unreadable(f'no such parameter: {", ".join(" of ".join(reversed(key)) for key in sizes)}')
    return found


def read_parameters(function, text, numbers, sizes):
    """The parameters of a function. What of `sizes` is used is taken out of it."""
    found = []
    words = [] if text == "void" else text.split(", ")
    while words:
        word = words.pop(0)
        if array := ARRAY.fullmatch(word):
            const, kind, name, size = array.groups()
            found.append(array_of(function, name, const, kind, size, numbers))
        elif pointer := POINTER.fullmatch(word):
            const, kind, name = pointer.groups()
            if kind == "uint8_t" and words and re.fullmatch(r"size_t \w+", words[0]):
                length = words.pop(0)
                if length not in ("size_t len", f"size_t {name}_len"):
                    raise Unreadable(f"{function}: {length} is no name for the length of {name}")
                found.append({"name": name, "kind": f'{const or ""}bytes'})
                continue
            size = sizes.pop((function, name), None) if const else None
            if const and not size:
                raise Unreadable(f"{function}: the size of {name} is not known")
            found.append(array_of(function, name, const, kind, size, numbers))
        elif number := NUMBER.fullmatch(word):
            kind, name = number.groups()
            found.append({"name": name, "kind": kind_of(kind, function), "bits": bits_of(kind, function)})
        else:
            raise Unreadable(f"{function}: a parameter that cannot be read: {word}")
    return found


def array_of(function, name, const, kind, size, numbers):
    """A parameter that is a pointer to as many numbers as the constant `size` says, or to one."""
    if size and size not in numbers:
        raise Unreadable(f"{function}: no constant {size}")
    return {"name": name, "kind": f'{const or ""}array', "bits": bits_of(kind, function), "count": numbers[size] if size else 1}


def bits_of(kind, function):
    if kind not in BITS:
        raise Unreadable(f"{function}: a type that is not known: {kind}")
    return BITS[kind]


def kind_of(kind, function):
    """Whether JavaScript has a number of this type as a BigInt or as a Number."""
    return "wide" if bits_of(kind, function) == 64 else "narrow"


def main(arguments):
    if len(arguments) != 1:
        sys.exit("usage: docs/lesson/header.py HEADER.h")
    try:
        with open(arguments[0], encoding="utf-8") as file:
            text = file.read()
        print(json.dumps({"signatures": signatures(text), "constants": constants(text)}))
    except (OSError, UnicodeError, Unreadable) as error:
        sys.exit(f"docs/lesson/header.py: {error}")


if __name__ == "__main__":
    main(sys.argv[1:])
