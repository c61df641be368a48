#!/usr/bin/env python3
"""Makes docs/lesson.html: one file with the lesson, the scripts and the library's module, twice.

Usage: docs/lesson/make.py MODULE.wasm OUT.html

The text is that of docs/TRAINING.md, so that page and document say the same; the parts of the page lie beside this file.
"""
import base64
import html
import json
import re
import sys
from pathlib import Path

import header
import stores
from narrow import narrow
from pictures import DEFINITION, LAYOUT, VERDICTS, read_layout

HERE = Path(__file__).resolve().parent
ROOT = HERE.parents[1]
README = ROOT / "README.md"
EXAMPLE = ROOT / "examples" / "store.txt"


# ---- Markdown, as far as the lesson has it


def inline(text):
    text = html.escape(text, quote=False)
    text = re.sub(r"`([^`]+)`", r"<code>\1</code>", text)
    text = re.sub(r"\*\*([^*]+)\*\*", r"<b>\1</b>", text)
    return re.sub(r"\[([^\]]+)\]\(([^)]+)\)", r'<a href="\2">\1</a>', text)


def table(lines):
    heads, _, *rows = [[inline(cell.strip()) for cell in line.strip("|").split("|")] for line in lines]
    head = "".join(f'<th scope="col">{cell}</th>' for cell in heads)
    body = "\n".join("<tr>" + "".join(f"<td>{cell}</td>" for cell in row) + "</tr>" for row in rows)
    return f'<div class="wide"><table>\n<thead><tr>{head}</tr></thead>\n<tbody>\n{body}\n</tbody></table></div>'


def items(lines, indent=0):
    """The items of a list, each with the lines below it, which may hold a deeper list."""
    mark = re.compile(rf" {{{indent}}}(- |\d+\. )(.*)")
    found = []
    for line in lines:
        match = mark.fullmatch(line)
        if match:
            found.append([match[2]])
        elif found:
            found[-1].append(line)
        else:
            raise stores.Fault(f"a list begins with another line: {line}")
    return found


def listing(lines, indent=0):
    kind = "ol" if re.match(r" *\d", lines[0]) else "ul"
    out = []
    for item in items(lines, indent):
        deeper = next((i for i, line in enumerate(item) if i > 0 and re.match(r" +(- |\d+\. )", line)), len(item))
        text = inline(" ".join(line.strip() for line in item[:deeper]))
        below = "\n" + listing(item[deeper:], len(item[deeper]) - len(item[deeper].lstrip())) if deeper < len(item) else ""
        out.append(f"<li>{text}{below}</li>")
    return f"<{kind}>\n" + "\n".join(out) + f"\n</{kind}>"


def picture(line):
    """A picture as a part of the page."""
    path = re.fullmatch(r"!\[[^\]]*\]\(([^)]+)\)", line)[1]
    return (ROOT / "docs" / path).read_text(encoding="utf-8").rstrip("\n")


def markdown(lines):
    out = []
    for block in "\n".join(lines).strip("\n").split("\n\n"):
        rows = block.split("\n")
        if block.startswith("|"):
            out.append(table(rows))
        elif block.startswith("!["):
            out.append(picture(block))
        elif re.match(r"- |\d+\. ", block):
            out.append(listing(rows))
        else:
            out.append("<p>" + inline(" ".join(rows)) + "</p>")
    return "\n".join(out)


# ---- the parts of the page


def store_section(store):
    kind, number = store["name"].split("-")

    def told(key):
        return f"<p><b>{stores.PARAGRAPHS[key]}.</b> {inline(store[key])}</p>"

    written = "\n".join(f"<li>{inline(text)}</li>" for text in store["written"])
    return f"""<section class="store" id="{store['name']}" aria-labelledby="{store['name']}-title">
<h3 id="{store['name']}-title">{kind.capitalize()} {number}: {inline(store['title'])}</h3>
<p>{inline(store['intro'])}</p>
<ol>
{written}
</ol>
<div class="guess"></div>
<div class="found"></div>
<div class="told" hidden>
{told("newcomer")}
{told("judge")}
<div class="judged"></div>
{told("why")}
{told("cost")}
<div class="sums"></div>
{told("todo")}
<details class="try"><summary>Cut the last write of this store elsewhere</summary></details>
</div>
</section>"""


def store_links(lesson):
    def link(name, title):
        return f'<a href="#{name}">{name.replace("-", " ").capitalize()}: {inline(title)}</a>'

    links = "\n".join(link(store["name"], store["title"]) for store in lesson["stores"])
    return f'<nav aria-label="the stores">\n{links}\n</nav>'


def word_table(words):
    return table(["| word | meaning |", "|---|---|", *(f"| {entry['word']} | {entry['meaning']} |" for entry in words)])


def example():
    """README's store and the answer that README shows."""
    codes = re.findall(r"^    ([0-9a-f]{8,})$", README.read_text(encoding="utf-8"), re.M)
    return {"input": EXAMPLE.read_text(encoding="utf-8"), "output": "".join(code + "\n" for code in codes)}


def data(value):
    """A value as JSON that may stand in an element of HTML."""
    return json.dumps(value, ensure_ascii=False, separators=(",", ":")).replace("</", "<\\/")


def page_data(lesson):
    """What the scripts need of the lesson; its text is in the page already."""
    kept = ("name", "events", "operators", "answer")
    return {
        "words": lesson["words"],
        "fares": lesson["fares"],
        "journeys": lesson["journeys"],
        "stores": [{key: store[key] for key in kept} for store in lesson["stores"]],
        "example": example(),
        "layout": {field.name: field.start for field in read_layout(LAYOUT.read_text(encoding="utf-8"), DEFINITION.read_text(encoding="utf-8"))},
    }


def make(module):
    lesson, declared = stores.read_lesson(), (ROOT / "include" / "store_io.h").read_text(encoding="utf-8")
    headed = {heading.lstrip("# "): body for heading, body in stores.sections(stores.LESSON.read_text(encoding="utf-8").split("\n"))}
    parts = {
        "colours": lambda _: " ".join(f"--{verdict}: {ground}; --on-{verdict}: {ink};" for verdict, (ground, ink) in VERDICTS.items()),
        "stores": lambda _: "\n".join([store_links(lesson), *(store_section(store) for store in lesson["stores"])]),
        "words": lambda kind: word_table(lesson["words"][kind]),
        "section": lambda name: markdown(headed[name]),
        "file": lambda name: (HERE / name).read_text(encoding="utf-8").rstrip("\n"),
        "header": lambda _: data({"signatures": header.signatures(declared), "constants": header.constants(declared)}),
        "lesson": lambda _: data(page_data(lesson)),
        "built": lambda _: base64.b64encode(module).decode(),
        "narrow": lambda _: base64.b64encode(narrow(module)).decode(),
    }
    template = (HERE / "page.html").read_text(encoding="utf-8")
    return re.sub(r"<!-- (\w+)(?:: ([^>]+))? -->", lambda match: parts[match[1]](match[2]), template)


if __name__ == "__main__":
    if len(sys.argv) != 3:
        sys.exit(__doc__.split("\n\n")[1])
    Path(sys.argv[2]).write_text(make(Path(sys.argv[1]).read_bytes()), encoding="utf-8")
