"""The crates of crates.txt, and their source files (.rt)."""
import functools
import pathlib
import re

CRATES = pathlib.Path(__file__).resolve().parent.parent.parent / "crates"
# Each text of the repository that was read. A planted difference is another text here.
TEXTS = {}


def text_of(file):
    """The text of a file of the repository, which is read once."""
    if file not in TEXTS:
        TEXTS[file] = file.read_text()
    return TEXTS[file]


def crates():
    """Each crate of crates.txt, and the libraries that its line lists."""
    return crates_in(text_of(CRATES.parent / "crates.txt"))


@functools.cache
def crates_in(text):
    lines = re.findall(r"(?m)^([a-z0-9_]+)[^:\n]*:(.*)$", text)
    return {name: libraries.split() for name, libraries in lines}


def sections():
    """The crates under each heading of crates.txt."""
    found = {}
    for line in text_of(CRATES.parent / "crates.txt").split("\n\n"):
        heading, _, rest = line.partition("\n")
        found[heading.removeprefix("# ")] = re.findall(r"(?m)^([a-z0-9_]+)[^:\n]*:", rest)
    return {heading: names for heading, names in found.items() if names}


def section(heading):
    """The crates under the heading that begins so."""
    return next((names for name, names in sections().items() if name.startswith(heading)), [])


def beneath(crate):
    """This crate and those that it stands on, in their order; none if it is not listed."""
    listed, found, left = crates(), set(), [crate]
    while left:
        name = left.pop()
        if name in listed and name not in found:
            found.add(name)
            left += listed[name]
    return [name for name in listed if name in found]


@functools.cache
def sources(*names):
    """The source files of these crates."""
    return [file for name in names for file in sorted((CRATES / name / "src").rglob("*.rt"))]


def place(file):
    return file.relative_to(CRATES.parent)


def code_of(file):
    """The text of a file without its comments."""
    return without_comments(text_of(file))


@functools.cache
def without_comments(text):
    return re.sub(r'("(?:[^"\\\n]|\\.)*")|//.*', lambda found: found[1] or "", text)
