"""The listings of the pages: a file, or items of one, each with the lines of docs and attributes above it."""
import re

from parts.compare import Differs
from parts.functions import block_end, functions
from parts.sources import CRATES, text_of


def item(text, name):
    """The text of a function, a type, a constant, a ghost member, the impl of a trait, the imports from a module, or
    (`uses`) the ghost imports; of proofs, that of an abbreviation."""
    if name == "uses":
        return "\n\n".join(re.findall(r"(?m)^ghost use .*;$", text))
    start = re.search(rf"(?m)^(?: *(?:///|#\[).*\n)* *(?:pub )?(?:(fn|struct|enum|type|const) {name}\b|"
                      rf"ghost {name} =|impl(?:<.*?>)? {name}\b|use {name}\b|abbrev pub {name} :)", text)
    if not start:
        raise Differs(f"no source has {name}")
    if start[1] == "fn":
        function = next(each for each in functions(text) if each.name.split("::")[-1] == name)
        end = text.index(function.head + function.body) + len(function.head + function.body)
    elif start[0].startswith("abbrev"):
        end = re.compile(r"\n*\Z|\n\n").search(text, start.end()).start()
    else:
        stop = re.compile(r"(?m)\{|;$").search(text, start.end())
        end = block_end(text, stop.start()) if stop[0] == "{" else stop.end()
        end += text.startswith(";", end)
    return text[start.start():end]


def code(path, *names):
    """Prints these items of a file below crates/, or the file."""
    file = CRATES / path
    if not file.exists():
        raise Differs(f"there is no crates/{path}")
    text = text_of(file)
    pieces = [item(text, name) for name in names] or [text.rstrip("\n")]
    language = "antt" if file.suffix == ".antt" else "rust"
    return [f"```{language}", *"\n\n".join(pieces).split("\n"), "```"]
