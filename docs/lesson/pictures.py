#!/usr/bin/env python3
"""The pictures of the lesson: each store as it is found and as it is judged, from docs/TRAINING.md, and the slot, from the layout at the
head of crates/slot/src/slot.rt, whose fields must have the offsets and widths that crates/slot/specs/Header.antt gives them.

    docs/lesson/pictures.py write    writes every picture to docs/lesson/
    docs/lesson/pictures.py check    the pictures that are there are those drawn, and docs/TRAINING.md shows each of them

No picture is drawn with a text that leaves its box, is small, or has too little contrast with its ground.
"""
import re
import sys
from html import escape
from typing import NamedTuple

from stores import LESSON, ROOT, Fault, read_lesson, store_words, word

FOLDER = ROOT / "docs" / "lesson"
LAYOUT = ROOT / "crates" / "slot" / "src" / "slot.rt"
DEFINITION = ROOT / "crates" / "slot" / "specs" / "Header.antt"

MOST_WIDTH = 720
SMALLEST = 13
TOOTH = 7
# How wide a character is taken to be, in parts of the font's size.
PLAIN_CHARACTER, BOLD_CHARACTER = 0.6, 0.65
LEAST_CONTRAST = 4.5

WHITE, INK, FAINT, LINE = "#ffffff", "#1a1a1a", "#595959", "#4a5568"
VALID_GROUND, DAMAGED_GROUND = "#f1f6fb", "#fdeeec"
HEADER_GROUND, PAYLOAD_GROUND, ZEROS_GROUND = "#f1f6fb", "#fdf5e3", "#f3f3f3"
# The ground of a verdict, and its text.
VERDICTS = {
    "Winner": ("#1b6b3a", WHITE),
    "Nothing": ("#5f6773", WHITE),
    "OlderDamaged": ("#74461f", WHITE),
    "InFlight": ("#f6a21e", INK),
    "Damage": ("#b4231c", WHITE),
}


# ---- drawing


def luminance(colour):
    """The relative luminance of #rrggbb, as WCAG 2 defines it."""
    parts = [int(colour[place:place + 2], 16) / 255 for place in (1, 3, 5)]
    red, green, blue = [part / 12.92 if part <= 0.04045 else ((part + 0.055) / 1.055) ** 2.4 for part in parts]
    return 0.2126 * red + 0.7152 * green + 0.0722 * blue


def contrast(one, other):
    darker, lighter = sorted([luminance(one), luminance(other)])
    return (lighter + 0.05) / (darker + 0.05)


def text_width(words, size, bold):
    return len(words) * size * (BOLD_CHARACTER if bold else PLAIN_CHARACTER)


class Area(NamedTuple):
    """A rectangle of one colour, which text must not leave."""

    x: int
    y: int
    width: int
    height: int
    ground: str = WHITE

    def part(self, left, right):
        """The area without so much at its left and at its right."""
        return self._replace(x=self.x + left, width=self.width - left - right)


class Picture:
    def __init__(self, title, description, width, height):
        if width > MOST_WIDTH:
            raise Fault(f"the picture '{title}' is {width} wide, and {MOST_WIDTH} is the most")
        self.whole = Area(0, 0, width, height)
        self.lines = [
            f'<svg xmlns="http://www.w3.org/2000/svg" width="{width}" height="{height}" viewBox="0 0 {width} {height}" role="img"'
            f' aria-label="{escape(description)}" font-family="sans-serif" font-size="{SMALLEST}" fill="{INK}" shape-rendering="crispEdges">',
            f"<title>{escape(title)}</title>",
            f'<rect width="{width}" height="{height}" fill="{WHITE}"/>',
        ]

    def stroke(self, path, ground="none", dashed=False):
        dashes = ' stroke-dasharray="5 4"' if dashed else ""
        self.lines.append(f'<path d="{path}" fill="{ground}" stroke="{LINE}"{dashes}/>')

    def box(self, area, torn=False, dashed=False):
        """A box with a line around it; the right edge of a torn one is a saw."""
        right, bottom = area.x + area.width, area.y + area.height
        edge = f"l-{TOOTH} {TOOTH}l{TOOTH} {TOOTH}" * (area.height // (2 * TOOTH)) if torn else ""
        self.stroke(f"M{area.x} {area.y}H{right}{edge}V{bottom}H{area.x}Z", area.ground, dashed)

    def text(self, area, baseline, words, bold=False, size=SMALLEST, ink=INK, end=False):
        """A line of text whose letters stand on the baseline, at the left of the area or at its end."""
        wide, whole = text_width(words, size, bold), self.whole
        if size < SMALLEST:
            raise Fault(f"the text '{words}' is small")
        if wide > area.width or baseline - size < area.y or baseline + 0.3 * size > area.y + area.height:
            raise Fault(f"the text '{words}' leaves its box: it is {wide:.0f} wide, and the box {area.width}")
        if min(area.x, area.y, whole.width - area.x - area.width, whole.height - area.y - area.height) < 0:
            raise Fault(f"the box of the text '{words}' leaves the picture")
        if contrast(ink, area.ground) < LEAST_CONTRAST:
            raise Fault(f"the text '{words}' has too little contrast with its ground: {contrast(ink, area.ground):.2f}")
        style = [f'x="{area.x + area.width if end else area.x}" y="{baseline}"']
        style += ['text-anchor="end"'] if end else []
        style += ['font-weight="bold"'] if bold else []
        style += [f'font-size="{size}"'] if size != SMALLEST else []
        style += [f'fill="{ink}"'] if ink != INK else []
        self.lines.append(f"<text {' '.join(style)}>{escape(words)}</text>")

    def svg(self):
        return "\n".join([*self.lines, "</svg>", ""])


# ---- a store

MARGIN, GAP, PAIR, BOX = 10, 12, 108, 284
STORE_WIDTH = MARGIN + PAIR + BOX + GAP + BOX + MARGIN
STRIP, BODY = 22, 84
LEADING = 18
# The values of a slot, in the two columns of its box.
LEFT_VALUES, RIGHT_VALUES = ["generation", "number", "owner"], ["checksum", "link"]
LEFT_COLUMN = 120


class Judged(NamedTuple):
    """The judge's answer in words; `heal` is a pair and the place of a slot in it."""

    standings: list
    verdicts: list
    heal: tuple | None
    store: str


def read_answer(words, store):
    lines = [line["codes"] for line in store["answer"]]
    if not re.fullmatch("([0-9a-f]{8} ){%d}[0-9a-f]{18}" % len(store["slots"]), " ".join(lines)):
        raise Fault(f"{store['name']}: the answer has not four codes for each pair and nine for the store")
    *codes, whole = [bytes.fromhex(line) for line in lines]
    return Judged(
        standings=[word(words, "standing", code[0]) for code in codes],
        verdicts=[[word(words, "verdict", verdict) for verdict in code[2:]] for code in codes],
        heal=(int.from_bytes(whole[1:5], "little"), whole[0] - 1) if whole[0] else None,
        store=store_words(words, lines[-1]),
    )


def known(words, status):
    """The word of a status, which the library must have."""
    if status not in [entry["word"] for entry in words["status"]]:
        raise Fault(f"there is no status {status}")
    return status


def value_words(name, cell):
    """A value as the table has it: in parentheses where the judge is not given it."""
    return f"{name} {cell['value']}" if cell["given"] else f"{name} ({cell['value']})"


def slot_words(slot):
    values = [value_words(name, slot[name]) for name in LEFT_VALUES + RIGHT_VALUES if slot[name]]
    return ", ".join([slot["status"], *values])


def pair_lines(store, place):
    """What stands below a pair's name."""
    kind = ["page"] if place else ["volume record", "mark set" if store["clean"] else "mark not set"]
    return [*kind, f"operator {store['operators'][place]}"] if any(store["operators"]) else kind


def describe(store, judged):
    """The picture in words, for those who do not see it."""
    found = []
    for place, slots in enumerate(store["slots"]):
        found.append(", ".join([f"Pair {place}", *pair_lines(store, place), *([judged.standings[place]] if judged else [])]))
        for index, slot in enumerate(slots):
            verdict = f"{judged.verdicts[place][index]}, " if judged else ""
            healed = ", to be healed" if judged and judged.heal == (place, index) else ""
            found.append(f"{'AB'[index]}: {verdict}{slot_words(slot)}{healed}")
    return ". ".join(found + ([judged.store] if judged else [])) + "."


def wrap(text, width):
    """The text, or two lines of it, as even as they can be, broken at a '; '."""
    if text_width(text, SMALLEST, False) <= width:
        return [text]
    breaks = [match.start() + 1 for match in re.finditer("; ", text)]
    half = min(breaks, key=lambda place: abs(2 * place - len(text)))
    return [text[:half], text[half + 1:]]


def draw_pair(picture, area, store, place, judged):
    first = area.y + (16 if judged else 19)
    picture.text(area, first, f"pair {place}", bold=True, size=14)
    below = pair_lines(store, place)
    for line, words in enumerate(below, 1):
        picture.text(area, first + 2 + line * LEADING, words)
    if judged:
        picture.text(area, first + 2 + (len(below) + 1) * LEADING, judged.standings[place], bold=True)


def draw_verdict(picture, strip, verdict, healed):
    if verdict not in VERDICTS:
        raise Fault(f"there is no colour for the verdict {verdict}")
    ground, ink = VERDICTS[verdict]
    strip = strip._replace(ground=ground)
    picture.box(strip)
    half = strip.width // 2
    picture.text(strip.part(10, half), strip.y + 16, verdict, bold=True, size=14, ink=ink)
    if healed:
        picture.text(strip.part(half, 10), strip.y + 16, "to be healed", bold=True, ink=ink, end=True)


def draw_slot(picture, area, name, slot):
    """The box of a slot. One that is neither Valid nor Blank has a torn edge, so that the colour is not the only sign."""
    torn = slot["status"] not in ("Valid", "Blank")
    blank = slot["status"] == "Blank"
    area = area._replace(ground=DAMAGED_GROUND if torn else WHITE if blank else VALID_GROUND)
    picture.box(area, torn, dashed=blank)
    picture.text(area.part(10, 10), area.y + 19, name, bold=True, size=14)
    picture.text(area.part(30, 14), area.y + 19, slot["status"], bold=True, size=14)
    for names, column in ((LEFT_VALUES, area.part(10, BOX - LEFT_COLUMN)), (RIGHT_VALUES, area.part(LEFT_COLUMN, 14))):
        for line, value in enumerate(names, 1):
            if cell := slot[value]:
                picture.text(column, area.y + 21 + line * LEADING, value_words(value, cell), ink=INK if cell["given"] else FAINT)


def draw_store(store, title, judged=None):
    strip = STRIP if judged else 0
    row = strip + BODY + GAP
    answer = wrap(judged.store, STORE_WIDTH - 2 * MARGIN) if judged else []
    bottom = MARGIN + len(store["slots"]) * row
    height = bottom + len(answer) * LEADING + MARGIN if judged else bottom - GAP + MARGIN
    picture = Picture(title, f"{title}. {describe(store, judged)}", STORE_WIDTH, height)
    for place, slots in enumerate(store["slots"]):
        y = MARGIN + place * row
        draw_pair(picture, Area(MARGIN, y, PAIR, row - GAP), store, place, judged)
        for index, slot in enumerate(slots):
            x = MARGIN + PAIR + index * (BOX + GAP)
            draw_slot(picture, Area(x, y + strip, BOX, BODY), "AB"[index], slot)
            if judged:
                draw_verdict(picture, Area(x, y, BOX, STRIP), judged.verdicts[place][index], judged.heal == (place, index))
    for line, words in enumerate(answer, 1):
        picture.text(Area(MARGIN, bottom, STORE_WIDTH - 2 * MARGIN, height - bottom), bottom + line * LEADING - 4, words)
    return picture.svg()


def store_pictures(words, store):
    """Both pictures of a store, by the names of their files."""
    for slot in sum(store["slots"], []):
        known(words, slot["status"])
    spoken = store["name"].replace("-", " ").capitalize()
    return {
        f"{store['name']}.svg": draw_store(store, f"{spoken} as it is found"),
        f"{store['name']}-judged.svg": draw_store(store, f"{spoken} as it is judged", read_answer(words, store)),
    }


# ---- the slot

SLOT_TITLE = "A slot from its first byte to its last, and what slot B reads as after a cut at each place"
SLOT_WIDTH, HEAD = 720, 36
# The columns of the picture, by their left edges and widths.
OFFSETS, FIELDS, CUTS, READS = (6, 48), (60, 190), (280, 96), (390, 322)
DEFINED = re.compile(r"^ *(\w+) = (?:le w(\d+) s (\d+)|take (\d+) (?:s|\(drop (\d+) s\)));$", re.M)
LAID_OUT = re.compile(r"^// \| (\d+) \| (\d+) \| (\w+) \|", re.M)


class Field(NamedTuple):
    start: int
    width: int
    name: str


class Cut(NamedTuple):
    """What a cut leaves: the rows of the picture that it falls in, none where it falls between two, and what slot B then reads."""

    rows: range
    after: str
    status: str
    why: str

    def lines(self):
        return [self.status, self.why] if self.status else [self.why]


def read_definition(text):
    """The fields of the definition by their offsets: a number of so many bits, or so many bytes from an offset on."""
    defined = {}
    for name, bits, offset, width, dropped in DEFINED.findall(text):
        start = int(offset or dropped or 0)
        if start in defined:
            raise Fault(f"two fields of the definition start at {start}")
        defined[start] = Field(start, int(width) if width else int(bits) // 8, re.sub("^reserved[012]$", "reserved", name))
    return defined


def read_layout(layout, definition):
    """The fields of the header: each starts where the one before it ends, and is the definition's."""
    fields = [Field(int(start), int(width), name) for start, width, name in LAID_OUT.findall(layout)]
    defined = read_definition(definition)
    end = 0
    for field in fields:
        if field.start != end:
            raise Fault(f"the layout does not continue at {end}, before {field.name}")
        end += field.width
        if field.start not in defined:
            raise Fault(f"the definition does not have {field.name} of the layout")
        if defined.pop(field.start) != field:
            raise Fault(f"layout and definition differ in {field.name}")
    if defined:
        raise Fault(f"the layout does not have {', '.join(field.name for field in defined.values())}")
    names = [field.name for field in fields]
    if names[:2] != ["magic", "header_crc32c"] or names[-1] != "reserved":
        raise Fault("the layout does not begin with magic and header_crc32c and end with reserved")
    return fields


def cuts(fields, words):
    """Every place that a cut can fall in, by the bytes that are new then. The rows below the header's are the payload and the zeros."""
    checksum, body, zeros = fields[1].start, fields[2].start, fields[-1].start
    end = zeros + fields[-1].width
    last = len(fields) - 1
    header, payload, valid, blank = (known(words, status) for status in ("BadHeaderCrc", "BadPayloadCrc", "Valid", "Blank"))
    return [
        Cut(range(0, 0), "0", "", "as before"),
        Cut(range(0, 1), f"1 to {checksum - 1}", "", "left out of what is proved"),
        Cut(range(1, 1), f"{checksum}", "", f"as before; in a {blank} slot {header}"),
        Cut(range(1, 2), f"{checksum + 1} to {body - 1}", header, "a checksum mixed of new and old bytes"),
        Cut(range(2, last), f"{body} to {zeros - 1}", header, "the new checksum over a header partly new"),
        Cut(range(last, last + 1), f"{zeros} to {end}", payload, "the new header whole, the payload old"),
        Cut(range(last + 1, last + 2), f"{end + 1} to {end - 1}+n", payload, "the payload partly new"),
        Cut(range(last + 2, last + 3), f"from {end}+n", valid, "the new slot"),
    ]


def slot_rows(fields):
    """The rows of the picture from the top: offset, name, width and ground."""
    end = fields[-1].start + fields[-1].width
    rows = [(str(field.start), field.name, str(field.width), HEADER_GROUND) for field in fields]
    return [*rows, (str(end), "payload", "n", PAYLOAD_GROUND), (f"{end}+n", "zeros", "", ZEROS_GROUND)]


def row_height(places, row):
    """A row is as high as a line of text, or as what stands beside it alone, with room for a label at its border."""
    alone = [cut for cut in places if cut.rows == range(row, row + 1)]
    at_border = any(not cut.rows and cut.rows.start in (row, row + 1) for cut in places)
    return LEADING * len(alone[0].lines()) + (22 if at_border else 10) if alone else LEADING


def draw_cut(picture, edges, cut):
    """A line from a border between two rows, or a bracket along rows, and beside it what the cut leaves."""
    top, bottom = edges[cut.rows.start], edges[cut.rows.stop]
    right, middle = FIELDS[0] + FIELDS[1], (top + bottom) // 2
    if top == bottom:
        picture.stroke(f"M{right} {top}H{CUTS[0] - 6}")
    else:
        picture.stroke(f"M{right + 4} {top + 4}h8V{bottom - 4}h-8M{right + 12} {middle}H{CUTS[0] - 6}")
    height = LEADING * len(cut.lines())
    box = Area(READS[0], middle - height // 2, READS[1], height)
    picture.text(Area(CUTS[0], box.y, CUTS[1], height), middle + 5, cut.after)
    for line, words in enumerate(cut.lines()):
        picture.text(box, box.y + 14 + LEADING * line, words, bold=words == cut.status)


def draw_row(picture, top, bottom, row):
    offset, name, width, ground = row
    box = Area(FIELDS[0], top, FIELDS[1], bottom - top, ground)
    baseline = (top + bottom) // 2 + 5
    picture.box(box)
    picture.text(Area(OFFSETS[0], top, OFFSETS[1], box.height), baseline, offset, ink=FAINT, end=True)
    picture.text(box.part(8, 34), baseline, name)
    if width:
        picture.text(box.part(158, 8), baseline, width, end=True)


def draw_layout(fields, words):
    """slot.svg."""
    rows, places = slot_rows(fields), cuts(fields, words)
    edges = [HEAD]
    for row in range(len(rows)):
        edges.append(edges[-1] + row_height(places, row))
    described = ". ".join(": ".join([cut.after, ", ".join(cut.lines())]) for cut in places)
    picture = Picture(SLOT_TITLE, f"{SLOT_TITLE}. Cut after {described}.", SLOT_WIDTH, edges[-1] + MARGIN)
    for (left, width), head in ((OFFSETS, "offset"), (FIELDS, "field"), (CUTS, "cut after"), (READS, "slot B then reads")):
        picture.text(Area(left, 0, width, HEAD), 17, head, ink=FAINT)
    picture.text(Area(FIELDS[0], 0, FIELDS[1], HEAD), 17, "bytes", ink=FAINT, end=True)
    for row, top, bottom in zip(rows, edges, edges[1:]):
        draw_row(picture, top, bottom, row)
    for cut in places:
        draw_cut(picture, edges, cut)
    return picture.svg()


# ---- the commands


def pictures(lesson):
    """Every picture, by the name of its file."""
    fields = read_layout(LAYOUT.read_text(encoding="utf-8"), DEFINITION.read_text(encoding="utf-8"))
    drawn = {"slot.svg": draw_layout(fields, lesson["words"])}
    for store in lesson["stores"]:
        drawn.update(store_pictures(lesson["words"], store))
    return {name: picture.encode() for name, picture in drawn.items()}


def write(drawn):
    for name, picture in drawn.items():
        (FOLDER / name).write_bytes(picture)
    print(f"docs/lesson/pictures.py: {len(drawn)} pictures written")


def check(drawn):
    there = {path.name for path in FOLDER.glob("*.svg")}
    shown = set(re.findall(r"^!\[[^\]]+\]\(lesson/([^()]*\.svg)\)$", LESSON.read_text(encoding="utf-8"), re.M))
    for name, picture in drawn.items():
        if name not in there:
            raise Fault(f"docs/lesson/{name} is missing")
        if (FOLDER / name).read_bytes() != picture:
            raise Fault(f"docs/lesson/{name} is not the picture that is drawn")
        if name not in shown:
            raise Fault(f"docs/TRAINING.md does not show docs/lesson/{name}")
    for name in sorted(there | shown):
        if name not in drawn:
            raise Fault(f"docs/lesson/{name} is there or is shown, and is not drawn")
    print(f"docs/lesson/pictures.py: {len(drawn)} pictures are as drawn, and docs/TRAINING.md shows each of them")


def main(arguments):
    match arguments:
        case ["write"]:
            write(pictures(read_lesson()))
        case ["check"]:
            check(pictures(read_lesson()))
        case _:
            raise Fault("what is wanted? write or check")


if __name__ == "__main__":
    try:
        main(sys.argv[1:])
    except (Fault, OSError, ValueError) as fault:
        sys.exit(f"docs/lesson/pictures.py: {fault}")
