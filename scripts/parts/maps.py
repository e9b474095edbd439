"""The picture and the list of the crates, as docs/ARCHITECTURE.md prints them from crates.txt."""
import re

from parts.compare import Differs
from parts.sources import CRATES, beneath, crates, sections, text_of

# The tests are in the list alone.
UNDRAWN = "Tests"


def arrows(names):
    """The arrows from each of these crates to those that stand on it and not on another one that does."""
    known, above = crates(), {name: [] for name in names}
    for upper in names:
        lower = [name for name in known[upper] if name in names]
        for name in lower:
            if not any(name in beneath(other) for other in lower if other != name):
                above[name].append(upper)
    return [f"    {name}-->{' & '.join(uppers)}" for name, uppers in above.items() if uppers]


def picture():
    """Prints the picture."""
    drawn = {heading: names for heading, names in sections().items() if not heading.startswith(UNDRAWN)}
    lines = ["```mermaid", "flowchart BT"]
    for number, (heading, names) in enumerate(drawn.items()):
        lines += [f"    subgraph part{number} [{heading.replace(',', '')}]", *(f"        {name}" for name in names)]
        lines.append("    end")
    inside = [name for names in drawn.values() for name in names]
    return [*lines, *arrows(inside), "```"]


def head(crate):
    """The first sentence of a crate's root."""
    root = next((CRATES / crate / "src" / name for name in ("lib.rt", "main.rt")
                 if (CRATES / crate / "src" / name).exists()), None)
    text = re.match(r"(?://!.*\n)+", text_of(root)) if root else None
    if not text:
        raise Differs(f"crates/{crate}: its root file does not begin with a `//!` line")
    words = " ".join(line.removeprefix("//!").strip() for line in text[0].split("//!\n")[0].split("\n"))
    return words.strip().split(". ")[0].removesuffix(".")


def list_crates():
    """Prints the list."""
    lines = []
    for heading, names in sections().items():
        lines += ["" if lines else None, f"{heading}:", "", *(f"- `{name}`: {head(name)}." for name in names)]
    return [line for line in lines if line is not None]
