"""Which names a program in somebody else's repository may have."""
import re
import subprocess
import tempfile

from parts.places import Refused
from parts.sources import crates

# `rt new` makes crates of these names, but git ignores `out`, and the others are crates of the language.
KEPT_FREE = ("alloc", "out", "rattle", "test")


def look_at_name(name):
    """Refuses a name that no crate can have, or that a crate of this library, of Rattle, or of the language has."""
    if not name:
        raise Refused("--new wants the name of a program, and got none")
    if not re.fullmatch("[a-z][a-z0-9_]*", name):
        raise Refused(f"{name!r} cannot name a crate: take lowercase letters, digits and _, with a letter first")
    if name in crates():
        raise Refused(f"{name} is a crate of this library: take another name")
    if name in KEPT_FREE:
        raise Refused(f"{name} is a name of the language or of the toolchain: take another name")
    ask_toolchain(name)


def ask_toolchain(name):
    """`rt new` refuses keywords and the names of Rattle's libraries."""
    with tempfile.TemporaryDirectory() as folder:
        try:
            asked = subprocess.run(["rt", "new", f"{folder}/{name}"], cwd=folder, capture_output=True, text=True)
        except OSError as reason:
            raise Refused("--new asks `rt` whether a crate may have this name, and `rt` is not in PATH") from reason
    if asked.returncode:
        raise Refused(asked.stderr.strip().removeprefix("rt: ").replace("the folder another", "it another"))
