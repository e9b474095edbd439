"""What is printed from the sources: whole files, and parts of pages, each between two marks, the first of which names
what is printed."""
import difflib
import re

from parts.compare import Differs
from parts.pages import BEGIN, END, TOP, page_text
from parts.sources import CRATES, TEXTS

# A part has no other part's mark in it, which would be lost with its text.
PART = re.compile(rf"(?ms)^{BEGIN}(\w+)(?: (\S+))?-->\n((?:(?!^{BEGIN}).)*?)^{END}$")


def printed(page, printers):
    """The text of a page, with each of its parts as it is printed now, and what each part names."""
    named = []

    def part(found):
        kind, names = found[1], (found[2] or "").split(",")
        if kind not in printers:
            raise Differs(f"{page}: nothing prints {kind}")
        named.extend((kind, name) for name in ([found[2]] if kind == "code" else names))
        begin, _, _ = found[0].partition("\n")
        return "\n".join([begin, *printers[kind](*filter(None, names)), END])

    text = page_text(page)
    made, count = PART.subn(part, text)
    if {len(re.findall(rf"(?m)^{mark}", text)) for mark in (BEGIN, END)} != {count}:
        raise Differs(f"{page}: a mark without its other one")
    return made, named


def print_all(pages, files):
    """The text of each page and file as it is printed now, how many parts these have, and which parts lack."""
    texts, count, wrong = {name: make() for name, make in files.items()}, 0, []
    for page, (printers, listed) in pages.items():
        texts[page], named = printed(page, printers)
        wrong += [f"{page}: no part prints {' '.join(each)}" for each in listed() if each not in named]
        wrong += [f"{page}: two parts print {' '.join(each)}" for each in sorted(set(named)) if named.count(each) > 1]
        count += len(named)
    return texts, count, wrong


def difference(name, text):
    for number, (old, new) in enumerate(zip(page_text(name).split("\n"), text.split("\n")), 1):
        if old != new:
            return f"{name}:{number}: the sources have:\n{new}\n`scripts/documents --write` prints it"
    return f"{name}: `scripts/documents --write` prints another text"


def write_all(pages, files):
    """Writes each page and file that would be printed otherwise, and prints which lines change: some are promises."""
    for name, text in print_all(pages, files)[0].items():
        before = page_text(name)
        if text != before:
            (TOP / name).write_text(text)
            TEXTS[TOP / name] = text
            lines = difflib.unified_diff(before.split("\n"), text.split("\n"), name, "is written", n=0, lineterm="")
            print("\n".join(lines))


def shown(file):
    """How a page names a file: of a crate by the names of both, of scripts/ by its path."""
    if file.suffix != ".rt":
        return file.relative_to(TOP).as_posix()
    crate, _, *rest = file.relative_to(CRATES).with_suffix("").parts
    return "/".join([crate.removeprefix("oneshot_"), *rest])


def table(heads, rows):
    """A table of Markdown."""
    return [f"| {' | '.join(heads)} |", "|---" * len(heads) + "|", *(f"| {' | '.join(row)} |" for row in rows)]
