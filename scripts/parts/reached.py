"""The definitions by which a contract or a law is stated, as docs/COVERAGE.md prints them: how many of them a computed
example reaches, by names, and which none does.

A contract is stated by what its clauses name, and by what the definitions of that name in turn. So is a law, which is
the contract of a function whose body does nothing; the first name of its clause is the law itself, and needs no example
where only laws name it. An example is what a clause names of a file of examples. Clauses of private functions, what a
type always keeps (`invariant`) and what an operation on the table finds (`then`) are not read: others are proved from
them.
"""
import functools
import re
from fnmatch import fnmatchcase

from parts.compare import Differs
from parts.definitions import NAME, Definitions, imports
from parts.functions import block_end, functions
from parts.printed import table
from parts.sources import CRATES, code_of, crates, sources

# The crates whose definitions state no contract or law that needs an example, and why.
NOT_READ = {
    "oneshot": "names alone",
    "oneshot_channel": "names alone",
    "oneshot_text": "texts, which tests compare with what is read and written",
    "oneshot_streams": "texts, which tests compare with what is read and written",
    "oneshot_loops": "texts, which tests compare with what is read and written",
    "oneshot_memory": "grounds in memory, which serve tests",
}
EXAMPLES = re.compile(
    r"\w+\.\w*Examples\.|oneshot_law_examples\.|\w+\.\w*Order\.W")

# Why no example has to reach some definitions: "crate.File", and names there, also as patterns of the shell.
UNREACHED = [
    ("oneshot_drive.Blocking", "EndsAt Path ReceiveBy Stretch end_of load_of ref_end value_end",
     "the clauses of `find`, from which those of the drivers that call it are proved"),
    ("oneshot_ends.Stays", "*_stays *_stays_on has_lent_on has_lent_back",
     "proofs that the grounds of a receiver cite"),
    ("oneshot_errors.Texts", "*", "texts, which tests compare with what the errors print"),
    ("oneshot_machine.Standing", "*", "what `tables_are_exact` computes of each table"),
    ("oneshot_machine.*", "*_number *_positions *_opens receiver_count",
     "the positions that `tables_are_exact` goes through"),
    ("oneshot_world.Classes", "*", "the law `turns_commute`, which is for all classes"),
]


def crates_with_definitions():
    return [crate for crate in crates() if (CRATES / crate / "specs").exists()]


def read_crates():
    """The crates with definitions that state contracts or laws."""
    return [crate for crate in crates_with_definitions() if crate not in NOT_READ]


@functools.cache
def clauses(text):
    return list(each_clause(text))


def each_clause(text):
    """The clauses of each function that is not private and the ghost members, each with whether it is of a law."""
    for _, owner, head, body in functions(text):
        text = text.replace(head + body, "")
        if re.search(r"\bpub\b", head) or re.search(r"\bfor\b|\btrait\b", owner):
            for clause in re.finditer(r"\b(?:requires|ensures)\b[^{]*(?=\{)", head):
                yield head[clause.end():block_end(head, clause.end())], body == "{}"
    for member in re.finditer(r"\bghost (?!invariant|then)\w+\s*[:=]\s*(?=\{)", text):
        yield text[member.end():block_end(text, member.end())], False


def named_in_clauses(definitions):
    """What contracts name, what laws name, and which of these are laws themselves."""
    contracts, by_laws, laws = set(), set(), set()
    for file in sources(*read_crates()):
        imported = imports(code_of(file))
        for clause, is_law in clauses(code_of(file)):
            names = definitions.named("", imported, clause)
            if is_law:
                by_laws |= names
                laws |= definitions.named("", imported, re.match(rf"\{{\s*({NAME})?", clause)[0])
            else:
                contracts |= names
    return contracts, by_laws, laws


def stated_and_reached():
    """The definitions by which contracts and laws are stated, and those that examples reach."""
    definitions = Definitions(read_crates())
    contracts, by_laws, laws = named_in_clauses(definitions)
    examples = {name for name in by_laws if EXAMPLES.match(name)}
    stated = contracts | by_laws - laws - examples
    beneath_laws = {name for law in laws - examples for name in definitions.next_to(law)}
    return definitions.reached(stated | beneath_laws), definitions.reached(examples)


def reason(name):
    """Why no example has to reach a definition."""
    for module, names, why in UNREACHED:
        if any(fnmatchcase(name, f"{module}.{one}") for one in names.split()):
            return why
    raise Differs(f"{name}: no example reaches it, and UNREACHED of parts/reached.py has no reason")


def of_definitions():
    """Prints how many definitions of each crate an example reaches, and those that none does, by the reason."""
    stated, reached = stated_and_reached()
    rows, others = [], {}
    for crate in crates_with_definitions():
        of_crate = {name for name in stated if name.startswith(f"{crate}.")}
        counts = len(of_crate & reached), len(of_crate - reached)
        rows.append((f"`{crate}`", *map(str, counts), NOT_READ.get(crate, "")))
    for name in sorted(stated - reached):
        others.setdefault(reason(name), []).append(f"`{name}`")
    return [*table(["Crate", "With an example", "Without one", "Why not read"], rows), "",
            *(f"- {why[0].upper()}{why[1:]}: {', '.join(names)}." for why, names in others.items())]
