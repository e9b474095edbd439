"""Names that a crate's definitions and proofs give twice: a reader who meets one has to know which is meant."""
import collections
import re

from parts.compare import none_of
from parts.sources import CRATES, place, text_of

# A definition that another module can use, at the beginning of a line or in a `module _`. The goals of one function
# have their names from it, so their files are left out, and so are the fields of records.
DEFINES = re.compile(r"^(?P<record>(?:abbrev )?(?:pub )?record )?(?:  )?(?:abbrev |unfoldable )?(?:pub )?"
                     r"(?:data |record )?"
                     r"(?P<name>[A-Za-z_][\w'-]*)(?= [({:])")
# A public data type, whose constructors stand two columns to the right of it.
DATA = re.compile(r"(?P<indent>(?:  )?)pub data ")
CONSTRUCTOR = re.compile(r"(?P<indent> +)(?P<name>[A-Za-z_][\w'-]*) :")
OF_GOALS = ("Answers.antt", "Invariants.antt", "Proof.antt")


def defined_in(text):
    """The names that a file defines, each with whether it is public. Fields and constructors are left out."""
    in_type = False
    for line in text.split("\n"):
        if line and not line.startswith(" "):
            in_type = bool(re.match(r"(pub )?(record|data) ", line))
        if not (in_type and line.startswith(" ")) and (found := DEFINES.match(line)):
            yield found["name"], "pub " in line


def constructors_in(text):
    """The constructors of the public data types that a file defines."""
    column = None
    for line in text.split("\n"):
        if data := DATA.match(line):
            column = len(data["indent"]) + 2
        elif column and line.strip() and not line.startswith(" " * column):
            column = None
        elif column and (found := CONSTRUCTOR.match(line)) and len(found["indent"]) == column:
            yield found["name"]


def compare_doubles():
    public, private = collections.defaultdict(set), collections.defaultdict(set)
    for file in sorted(CRATES.glob("*/specs/**/*.antt")) + sorted(CRATES.glob("*/proofs/**/*.antt")):
        if file.name in OF_GOALS:
            continue
        crate, text = file.relative_to(CRATES).parts[0], text_of(file)
        for name in constructors_in(text):
            public[crate, name].add(str(place(file)))
        for name, is_public in defined_in(text):
            (public if is_public else private)[crate, name].add(str(place(file)))
    twice = {key: files | private[key] for key, files in public.items() if len(files | private[key]) > 1}
    none_of([f"{crate}: {name} is defined twice: {' and '.join(sorted(files))}"
             for (crate, name), files in twice.items()])
    return {"names that a crate defines once": len(public)}
