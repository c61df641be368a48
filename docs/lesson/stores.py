#!/usr/bin/env python3
"""The stores of the lesson, read from docs/TRAINING.md, which is their one source: what was written, what is found in the slots, and the
judge's answer. From here come the input of `verdicts`, the pictures and the page.

    docs/lesson/stores.py list           the names of all stores
    docs/lesson/stores.py input STORE    the input of `verdicts`
    docs/lesson/stores.py json           all that is read, for the page and the test
    docs/lesson/stores.py words          the words of an answer of `verdicts`, which it reads
    docs/lesson/stores.py check PROGRAM  runs every input through the program, and compares codes and words
"""
import json
import re
import subprocess
import sys
from pathlib import Path

from header import constants

ROOT = Path(__file__).resolve().parents[2]
LESSON = ROOT / "docs" / "TRAINING.md"
HEADER = ROOT / "include" / "store_io.h"

COLUMNS = ["pair", "slot", "status", "generation", "number", "owner", "operator", "checksum", "link"]
ABSENT = "–"
# What a section tells of a store, by the words in bold that its paragraphs begin with.
PARAGRAPHS = {
    "newcomer": "What a newcomer would say",
    "judge": "What the judge says",
    "why": "Why",
    "cost": "What it costs",
    "todo": "What to do",
}
# What the lesson says what to do of.
TODO = ["InFlight", "Unconfirmed", "Lost", "Damage"]
# The tables of words by the name of their column, and the beginning of the constants that have the same words in the C header.
WORDS = {"status": "SIO_STATUS_", "standing": "SIO_STANDING_", "verdict": "SIO_SLOT_VERDICT_", "slot": "SIO_SLOT_"}

# A line of what happened.
WRITE = re.compile(
    r"Pair (?P<pair>\d+): the (?P<record>volume record|page)"
    r"(, fares at (?P<cents>\d+) cents)?(, clean mark (?P<clean>set))?(, owner (?P<owner>\d+))?(, operator (?P<operator>\d+))?"
    r"(, by a service tool to slot (?P<slot>[AB]) as generation (?P<generation>\d+))?\."
    r"( The power cut came after (?P<bytes>\d+) bytes\.| The power cut left only sector (?P<sector>\d+) new\.)?"
)
HARM = re.compile(r"Slot (?P<slot>[AB]) of pair (?P<pair>\d+)(: a byte of its (?P<part>header|payload) is damaged| cannot be read)\.")


class Fault(Exception):
    """The lesson says something that cannot be read, or that does not hold."""


def number(text):
    return None if text is None else int(text)


# ---- reading the lesson


def rows(lines, heads):
    """The rows of the first table among the lines that has these heads."""
    wanted = "| " + " | ".join(heads) + " |"
    if wanted not in lines:
        raise Fault(f"there is no table {wanted}")
    found = []
    for line in lines[lines.index(wanted) + 2:]:
        if not line.startswith("|"):
            break
        cells = [cell.strip() for cell in line.strip("|").split("|")]
        if len(cells) != len(heads):
            raise Fault(f"another number of columns than {len(heads)}: {line}")
        found.append(cells)
    return found


def read_words(lines):
    """The words of the library and what they mean, in the order of their codes."""
    words = {}
    for name in WORDS:
        table = rows(lines, ["code", name, "meaning"])
        for place, (code, _, _) in enumerate(table):
            if int(code, 16) != place:
                raise Fault(f"the codes of the words for a {name} do not count from 00: {code}")
        words[name] = [{"word": word, "meaning": meaning} for _, word, meaning in table]
    return words


def read_fares(lines):
    """The price a kilometre beyond 40 by the block that its fare table begins at, and the journeys of a day in km. The sums hold."""
    heads = ["generation of pair 1", "fare table at block", "a km beyond 40", "46 km", "58 km", "100 km", "sum"]
    kilometres = [int(head.split()[0]) for head in heads[3:6]]
    fares = {}
    for place, (generation, block, cents, *journeys, total) in enumerate(rows(lines, heads), 1):
        if int(generation) != place:
            raise Fault(f"the generations of the fares do not count from 1: {generation}")
        sums = [800 + (km - 40) * int(cents) for km in kilometres]
        for km, cell, fare in zip(kilometres, journeys, sums):
            if cell != f"800 + {km - 40} × {cents} = {fare}":
                raise Fault(f"a journey of {km} km at {cents} cents does not cost what stands there: {cell}")
        if int(total) != sum(sums):
            raise Fault(f"the journeys at {cents} cents do not add up to {total}")
        fares[int(block)] = int(cents)
    return {"fares": fares, "journeys": kilometres}


def read_event(text):
    write = WRITE.fullmatch(text)
    harm = HARM.fullmatch(text)
    if write:
        event = {name: number(write[name]) for name in ("pair", "cents", "operator", "generation", "bytes", "sector")}
        event.update(slot=write["slot"], clean=write["clean"] is not None, owner=number(write["owner"]) or 1, text=text.split(" The power cut ")[0])
        if (event["pair"] == 0) != (write["record"] == "volume record") or (event["cents"] is not None) != (event["pair"] == 1):
            raise Fault(f"another record than the pair has: {text}")
        return event
    if harm:
        return {"pair": int(harm["pair"]), "slot": harm["slot"], "harm": harm["part"] or "unread", "text": text}
    raise Fault(f"what happened cannot be read: {text}")


def read_value(cell):
    """A number or the name of a checksum, and whether the judge is given it: not where it stands in parentheses."""
    if cell == ABSENT:
        return None
    given = not cell.startswith("(")
    inner = cell.strip("()")
    return {"value": int(inner) if inner.isdigit() else inner, "given": given}


def read_slots(table):
    """The slots of each pair, and the pairs' operators."""
    pairs, operators = [], []
    for place, cells in enumerate(table):
        row = dict(zip(COLUMNS, cells))
        if (int(row["pair"]), row["slot"]) != (place // 2, "AB"[place % 2]):
            raise Fault(f"the slots are not in their order: pair {row['pair']}, slot {row['slot']}")
        slot = {name: read_value(row[name]) for name in ("generation", "number", "owner", "checksum", "link")}
        slot["status"] = row["status"]
        if place % 2 == 0:
            pairs.append([slot])
            operators.append(int(row["operator"]))
        else:
            pairs[-1].append(slot)
            if operators[-1] != int(row["operator"]):
                raise Fault(f"pair {row['pair']} is of two operators")
    if not pairs or len(pairs[-1]) != 2:
        raise Fault("there is no slot B")
    return pairs, operators


def paragraphs(lines):
    """The paragraphs of a section that are text: no table, list, picture or heading."""
    blocks = "\n".join(lines).split("\n\n")
    return [" ".join(block.split()) for block in blocks if block and not re.match(r"[|#!]|\d+\. ", block)]


def read_events(lines):
    """What happened, line by line: writes, of which the last may be cut, and then damage."""
    written = [match.groups() for match in (re.fullmatch(r"(\d+)\. (.*)", line) for line in lines) if match]
    if [int(place) for place, _ in written] != list(range(1, len(written) + 1)):
        raise Fault("the lines of what happened do not count from 1")
    events = [read_event(text) for _, text in written]
    writes = [event for event in events if "harm" not in event]
    if not writes or events[:len(writes)] != writes:
        raise Fault("there is no write, or one after the damage")
    if any(event["bytes"] is not None or event["sector"] is not None for event in writes[:-1]):
        raise Fault("a write is cut that is not the last one")
    return [text for _, text in written], events


def check_prices(events, fares):
    """Each write of pair 1 has the price of its generation, but for what a tool writes."""
    planned = [event["cents"] for event in events if event["pair"] == 1 and "harm" not in event and event["slot"] is None]
    if planned != list(fares.values())[:len(planned)]:
        raise Fault(f"pair 1 is written with the prices {planned}, and its generations have {list(fares.values())}")


def check_costs(text, sums):
    """A sum is that of some generation, and a difference of two is what stands there."""
    for total in re.findall(r"\b\d{4}\b", text):
        if int(total) not in sums:
            raise Fault(f"no generation has the sum {total}")
    for taken, right, difference, way in re.findall(r"(\d{4})(?: cents)? in the place of (\d{4})[:,] (\d+) cents too (little|much)", text):
        if (int(right) - int(taken)) * (1 if way == "little" else -1) != int(difference):
            raise Fault(f"{taken} in the place of {right} is not {difference} cents too {way}")


def read_store(name, title, lines):
    texts = paragraphs(lines)
    written, events = read_events(lines)
    pairs, operators = read_slots(rows(lines, COLUMNS))
    mark = re.search(r"^Clean mark: (not )?set\. ", "\n".join(lines), re.M)
    if not mark:
        raise Fault("there is no clean mark")
    store = {"name": name, "title": title, "intro": texts[0], "written": written, "events": events, "clean": mark[1] is None}
    store.update(slots=pairs, operators=operators)
    store["answer"] = [{"codes": codes.strip("`"), "words": words} for codes, words in rows(lines, ["codes", "in words"])]
    for key, head in PARAGRAPHS.items():
        found = [text for text in texts if text.startswith(f"**{head}.** ")]
        if len(found) != 1:
            raise Fault(f"there is not one paragraph '{head}'")
        store[key] = found[0].split(".** ", 1)[1]
    for event in events:
        if "harm" not in event and (event["operator"] or 0) != operators[event["pair"]]:
            raise Fault(f"pair {event['pair']} is written for another operator than the table has")
    return store


def sections(lines):
    """Each heading with the lines up to the next one of any depth."""
    found = []
    for line in lines:
        if line.startswith("#"):
            found.append((line, []))
        elif found:
            found[-1][1].append(line)
    return found


def read_lesson(path=LESSON):
    lines = path.read_text(encoding="utf-8").split("\n")
    words, fares, todo = read_words(lines), read_fares(lines), rows(lines, ["the judge says", "what it means at a depot", "what to do"])
    if [said for said, _, _ in todo] != TODO:
        raise Fault(f"what to do is said of others than {', '.join(TODO)}")
    sums = [sum(800 + (km - 40) * cents for km in fares["journeys"]) for cents in fares["fares"].values()]
    stores = []
    for heading, body in sections(lines):
        match = re.fullmatch(r"#+ (Store|Question) (\d+): (.*)", heading)
        if not match:
            continue
        try:
            stores.append(read_store(f"{match[1].lower()}-{match[2]}", match[3], body))
            check_prices(stores[-1]["events"], fares["fares"])
            check_costs(stores[-1]["cost"], sums)
        except (Fault, ValueError, IndexError) as fault:
            raise Fault(f"{match[1]} {match[2]}: {fault}") from fault
    if not stores:
        raise Fault("there are no stores")
    return {"words": words, **fares, "todo": todo, "heads": PARAGRAPHS, "stores": stores}


# ---- the words


def camel(constant):
    """The word of a constant of the C header: BAD_HEADER_CRC is BadHeaderCrc."""
    return "".join(part.capitalize() for part in constant.split("_"))


def check_words(words):
    """The words of the lesson are those of the C header's constants, and the example host's are the same."""
    numbers = constants(HEADER.read_text(encoding="utf-8"))
    for name, beginning in WORDS.items():
        others = [other for other in WORDS.values() if other.startswith(beginning) and other != beginning]
        named = {
            camel(constant[len(beginning):]): code
            for constant, code in numbers.items()
            if constant.startswith(beginning) and not any(constant.startswith(other) for other in others)
        }
        if name == "slot":
            named = {word.lower() if word == "None" else word: code for word, code in named.items()}
        here = {entry["word"]: code for code, entry in enumerate(words[name])}
        if here != named:
            raise Fault(f"the words for a {name} are {here}, and the header's constants {named}")
    host = (ROOT / "examples" / "host.c").read_text(encoding="utf-8")
    for name in WORDS:
        array = re.search(r"\b%s_names\[\] = \{([^}]*)\}" % name, host)
        said = re.findall(r'"(\w+)"', array[1]) if array else []
        if said[:len(words[name])] != [entry["word"] for entry in words[name]]:
            raise Fault(f"examples/host.c has other words for a {name}: {said}")


def word(words, name, code):
    if code >= len(words[name]):
        raise Fault(f"there is no {name} with the code {code:02x}")
    return words[name][code]["word"]


# The page says the same in docs/lesson/view.js, and docs/lesson/check.js holds it to what is said here.
def pair_words(words, place, codes):
    """What four codes say of a pair."""
    standing, winner, a, b = bytes.fromhex(codes)
    return (
        f"Pair {place}: {word(words, 'standing', standing)}, winner {word(words, 'slot', winner)}, "
        f"A {word(words, 'verdict', a)}, B {word(words, 'verdict', b)}"
    )


def store_words(words, codes):
    """What nine codes say of a store."""
    answer = bytes.fromhex(codes)
    writable, clean, refused, owners = answer[5:]
    heal = f"{word(words, 'slot', answer[0])} of pair {int.from_bytes(answer[1:5], 'little')}" if answer[0] else "nothing"
    return "; ".join([
        f"Heal {heal}",
        "the store may be written" if writable else "the store may not be written",
        "the clean mark counted" if clean else "the clean mark did not count",
        "a pair is refused" if refused else "no pair is refused",
        "two owners" if owners else "one owner",
    ])


def answer_words(words, codes):
    """What an answer says, line by line."""
    return [pair_words(words, pair, line) for pair, line in enumerate(codes[:-1])] + [store_words(words, codes[-1])]


# ---- the input of verdicts


def checksum(name, pair):
    """A number that stands for a checksum: a byte four times, by pair and generation. Only which ones are equal matters."""
    if name == "none":
        return 0
    match = re.fullmatch(r"of (\d+)( again)?", name)
    if not match or int(match[1]) > 15 or pair > 14:
        raise Fault(f"no checksum has the name '{name}'")
    return ((0xf0 if match[2] else 16 * pair) + int(match[1])) * 0x01010101


def part(words, pair, slot):
    """The part of a slot in its pair's frame, as FORMAT.md, "Frames" has it."""
    def given(name):
        cell = slot[name]
        if cell is None or not cell["given"]:
            return 0
        return checksum(cell["value"], pair) if name in ("checksum", "link") else cell["value"]

    statuses = [entry["word"] for entry in words["status"]]
    if slot["status"] not in statuses:
        raise Fault(f"pair {pair}: there is no status {slot['status']}")
    code = statuses.index(slot["status"])
    header = slot["generation"] is not None and slot["generation"]["given"]
    facts = 2 if header else 1 if slot["checksum"] else 0
    fields = [(given("generation"), 8), (given("number"), 8), (given("checksum"), 4), (given("link"), 4), (given("owner"), 8)]
    numbers = [(code, 1), (facts, 1), *fields]
    return b"".join(value.to_bytes(width, "little") for value, width in numbers)


def verdicts_input(words, store):
    lines = ["01" if store["clean"] else "00"]
    for pair, (slots, operator) in enumerate(zip(store["slots"], store["operators"])):
        frame = b"".join(part(words, pair, slot) for slot in slots) + bytes([operator])
        lines.append(frame.hex())
    return "\n".join(lines) + "\n"


# ---- the commands


def check(lesson, program):
    words = lesson["words"]
    check_words(words)
    for store in lesson["stores"]:
        printed = subprocess.run([program], input=verdicts_input(words, store), capture_output=True, text=True, check=True).stdout
        expected = [line["codes"] for line in store["answer"]]
        if printed != "".join(line + "\n" for line in expected):
            raise Fault(f"{store['name']}: the lesson expects {expected}, and {program} printed {printed.split()}")
        for line, meant in zip(store["answer"], answer_words(words, expected)):
            if line["words"] != meant:
                raise Fault(f"{store['name']}: '{line['codes']}' is '{meant}', and not '{line['words']}'")
    print(f"docs/lesson/stores.py: {len(lesson['stores'])} stores of docs/TRAINING.md have the answers that stand there, in codes and in words")


def main(arguments):
    lesson = read_lesson()
    match arguments:
        case ["list"]:
            print("\n".join(store["name"] for store in lesson["stores"]))
        case ["input", name] if any(store["name"] == name for store in lesson["stores"]):
            print(verdicts_input(lesson["words"], next(store for store in lesson["stores"] if store["name"] == name)), end="")
        case ["json"]:
            print(json.dumps(lesson, ensure_ascii=False, indent=1))
        case ["words"]:
            print("\n".join(answer_words(lesson["words"], sys.stdin.read().split())))
        case ["check", program]:
            check(lesson, program)
        case _:
            raise Fault("what is wanted? list, input STORE, json, words or check PROGRAM; list prints the stores")


if __name__ == "__main__":
    try:
        main(sys.argv[1:])
    except (Fault, OSError, ValueError, IndexError, subprocess.CalledProcessError) as fault:
        sys.exit(f"docs/lesson/stores.py: {fault}")
