"""Pages of Markdown: their blocks of code and their tables."""
import collections
import re

from parts.compare import Differs
from parts.sources import CRATES, text_of

TOP = CRATES.parent
BEGIN, END = "<!--printed: ", "<!--end-->"
Block = collections.namedtuple("Block", "line language is_printed lines")


def page_text(page):
    return text_of(TOP / page)


def fold(text):
    return " ".join(text.split())


def blocks(page):
    """The blocks of a page, each with its first line, and whether it is between two marks."""
    is_printed, block = False, None
    for number, line in enumerate(page_text(page).split("\n"), 1):
        if re.match(r"\s*~~~|\s+```", line):
            raise Differs(f"{page}:{number}: a block of code begins with ``` at the margin")
        if line.startswith("```"):
            if block:
                yield block
            block = None if block else Block(number, line[3:].strip(), is_printed, [])
        elif block:
            block.lines.append(line)
        elif line.startswith((BEGIN, END)):
            is_printed = line.startswith(BEGIN)
    if block:
        raise Differs(f"{page}:{block.line}: a block of code has no end")


def rows(page):
    """The rows of all tables of a page, each with the heads of its table."""
    heads = None
    for line in page_text(page).split("\n"):
        cells = [cell.strip() for cell in line.strip()[1:-1].split("|")]
        if not line.startswith("|"):
            heads = None
        elif heads is None:
            heads = cells
        elif not cells[0].startswith("---"):
            yield heads, cells
