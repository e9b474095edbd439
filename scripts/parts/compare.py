"""How a script compares. Each comparison counts what it compared, or raises `Differs`; it has to count at least what
stands beside it in the script, and to see each difference that is planted for it."""
import collections
import contextlib
import io
import sys
from unittest import mock

from parts.groups import end_on_signals
from parts.sources import CRATES, TEXTS, text_of

# A function that returns how many things it compared, by the names of these things; how many these are at least; and
# the differences that it has to see, each a context in which one is planted. How many these are is counted too.
Comparison = collections.namedtuple("Comparison", "compare least plants")
PLANTED = "planted differences"


class Differs(Exception):
    """What differs, and where."""


def none_of(wrong):
    if wrong:
        raise Differs("\n".join(wrong))


@contextlib.contextmanager
def text_in_place(name, old, new):
    """Plants a difference: a file of the repository reads as if it had `new` in place of `old`."""
    file = CRATES.parent / name
    if old not in text_of(file):
        raise LookupError(f"{name}: no difference can be planted, since it does not have: {old}")
    with mock.patch.dict(TEXTS, {file: text_of(file).replace(old, new)}):
        yield


def texts(*plants):
    """Differences that are texts in place of others."""
    return [(text_in_place, *plant) for plant in plants]


def sees(compare, plant):
    """Whether a comparison differs where this is planted."""
    make, *words = plant
    with make(*words):
        try:
            compare()
        except Differs:
            return True
    return False


def counted(comparison):
    """What a comparison counted, as text."""
    compare, least, plants = comparison
    name, counts = compare.__name__, compare() | {PLANTED: len(plants)}
    none_of([f"{name}: {counts.get(what, 0)} {what}, where there have to be at least {number}"
             for what, number in least.items() if counts.get(what, 0) < number]
            + [f"{name}: no least number of {what}" for what in counts if what not in least])
    none_of([f"{name} does not see what is planted: {plant[1:]}" for plant in plants if not sees(compare, plant)])
    return ", ".join(f"{number} {what}" for what, number in counts.items())


def run(script, *comparisons):
    """Makes each comparison, also after one that differs, and ends with status 1 where one did."""
    end_on_signals()
    failed = not comparisons
    for comparison in comparisons:
        try:
            print(f"{script}: {counted(comparison)}", flush=True)
        except (Differs, LookupError) as wrong:
            failed = True
            print(wrong, file=sys.stderr)
    sys.exit(1 if failed else 0)


def status_of(*comparisons):
    """With which status `run` ends."""
    with mock.patch.multiple(sys, stdout=io.StringIO(), stderr=io.StringIO(), exit=mock.DEFAULT) as replaced:
        run("compare", *comparisons)
    return replaced["exit"].call_args[0][0]


def try_run():
    """Ends the script unless `run` fails where it has to, for a comparison of one number."""
    number = {"is": 1}

    def compare():
        none_of(["it differs"] * (number["is"] != 1))
        return {"numbers": 1}

    right = Comparison(compare, {"numbers": 1, PLANTED: 1}, [(mock.patch.dict, number, {"is": 2})])
    wrong = {
        "a difference": right._replace(compare=lambda: none_of(["it differs"])),
        "too few": right._replace(least={"numbers": 2, PLANTED: 1}),
        "too few planted differences": right._replace(least={"numbers": 1, PLANTED: 2}),
        "no least number": right._replace(least={}),
        "no least number of planted differences": right._replace(least={"numbers": 1}),
        "a difference that is not seen": right._replace(plants=[*right.plants, (mock.patch.dict, number, {"is": 1})]),
        "no planted difference": right._replace(plants=[]),
    }
    passed = [name for name, comparison in wrong.items() if status_of(right, comparison, right) != 1]
    if passed or status_of(right) != 0 or status_of() != 1:
        sys.exit(f"parts/compare.py: it does not fail for {', '.join(passed) or 'nothing compared'}")


# A damaged `run` would not try itself.
try_run()
