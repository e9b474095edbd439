"""The contracts, traits and types that docs/CALLING.md and docs/MODEL.md print, and which of them users need.

Users call what the exporting crates of a page export: a function by its own name, or those of a type that are public or
that are of a trait and have a clause. CALLING prints four contracts whole, and of each other one the names of its
clauses, except those that repeat another's; it prints each exported trait whole. MODEL prints each contract, the laws
of an exported module, and what an `EntryLine` and a `CalledLine` show as (their `ghost output`). It lists the types of
the model, each with its module in `oneshot` and its file.
"""
import collections
import re
import textwrap

from parts.compare import Differs
from parts.functions import functions
from parts.pages import fold
from parts.printed import table
from parts.restated import restated
from parts.sources import CRATES, code_of, place, sources, text_of

Page = collections.namedtuple("Page", "exporting beneath")
Contract = collections.namedtuple("Contract", "name owner text file")
CALLING = Page(["oneshot_channel", "oneshot_reply", "oneshot_watch"],
               ["oneshot_ends", "oneshot_errors", "oneshot_word"])
MODEL = Page(["oneshot_replay", "oneshot_text"], ["oneshot_world"])
# The contracts that CALLING prints whole.
WHOLE = ["channel", "Sender::send", "Receiver::try_recv", "AsyncReceiver::poll"]
# The order of the crates in CALLING's table of the other contracts.
IN_ORDER = ["oneshot_ends", "oneshot_reply", "oneshot_watch"]


def files(page):
    return sources(*page.exporting, *page.beneath)


def roots(names):
    return [file for file in sources(*names) if file.name == "lib.rt"]


def modules(names):
    """The modules that users import from these crates."""
    return [file.with_name(f"{module}.rt") for file in roots(names)
            for module in re.findall(r"(?m)^pub mod (\w+);", code_of(file))]


def exported(names):
    """The names that users import from these crates and from their modules."""
    found = set()
    for file in roots(names) + modules(names):
        for listed in re.findall(r"(?m)^pub use [a-z_]+::([^;]*);", code_of(file)):
            found.update(re.findall(r"\w+", listed))
    return found


def laws(names):
    """The functions of the modules that users import from these crates."""
    return {law.name for file in modules(names) for law in functions(code_of(file))}


def own(text):
    """A text of a source file as it stands alone."""
    return textwrap.dedent(text).rstrip()


def written(page):
    """Each function of the page's crates, and what an entry's lines show as."""
    impl = r"(?ms)^(impl \S+ for (EntryLine|CalledLine)) \{(?:(?!^\}).)*?(^ *ghost output .*?;)"
    for file in files(page):
        for name, owner, head, _ in functions(code_of(file)):
            if "trait " not in owner:
                yield Contract(name.split(" for ")[-1], owner, own(head), file)
        for owner, name, output in re.findall(impl, code_of(file)):
            yield Contract(f"{name}::output", owner, own(output), file)


def is_called(contract):
    has_clause = re.search(r"\s(ensures|requires)\s", contract.text)
    return contract.text.startswith(("pub fn ", "ghost ")) or (" for " in contract.owner and has_clause)


def contracts(page):
    """Prints these contracts as one block, each under the head of its impl."""
    def of(*names):
        known = {contract.name: contract for contract in written(page) if is_called(contract)}
        pieces, owner = [], ""
        for name in names:
            if name not in known:
                raise Differs(f"no source has a function {name} with a contract")
            if known[name].owner not in ("", owner):
                owner = known[name].owner
                pieces.append(owner)
            pieces.append(known[name].text)
        return ["```rust", *"\n\n".join(pieces).split("\n"), "```"]
    return of


def traits(page):
    for file in files(page):
        yield from re.findall(r"(?ms)^(pub trait (\w+).*?^\})", text_of(file))


def trait(name):
    """Prints a trait of CALLING's crates."""
    text = next((text for text, other in traits(CALLING) if other == name), None)
    if text is None:
        raise Differs(f"no source has the trait {name}")
    return ["```rust", *text.split("\n"), "```"]


def clauses(text):
    """The clauses of a contract: each by its name, or whole, and after `requires` if it is required."""
    clause = r"(requires|ensures) (\w+ )?\{ (.*?) \}(?= requires | ensures |$)"
    return [f"`{'requires ' * (kind == 'requires')}{name.strip() or formula}`"
            for kind, name, formula in re.findall(clause, fold(text))]


def linked(words, file):
    return f"[{words}](../{place(file).as_posix()})"


def others():
    """The contracts that CALLING does not print whole, nor repeat."""
    names, repeats = exported(CALLING.exporting), {*restated(), *WHOLE}
    for crate in IN_ORDER:
        yield from (contract for contract in written(CALLING) if CRATES / crate in contract.file.parents
                    and contract.name.split("::")[0] in names and contract.name not in repeats and is_called(contract))


def clause_names():
    """Prints a row for each of these contracts, with a link to its file."""
    return table(["Call", "Clauses"], [
        [linked(f"`{contract.name}`", contract.file), ", ".join(clauses(contract.text)) or "none"]
        for contract in others()])


def module_of(file):
    """The module of `oneshot` that has the types of a file of the model."""
    crate, _, *path = file.relative_to(CRATES).with_suffix("").parts
    return {"oneshot_machine": path[0], "oneshot_text": "text"}.get(crate, "replay")


def types():
    """Prints the types of the model but the positions of its tables, each with its module and its file."""
    machine, names, lines = sources("oneshot_machine"), exported(MODEL.exporting), []
    for file in sources("oneshot_machine", *MODEL.beneath, *MODEL.exporting):
        listed = [f"`{name}`" for name in re.findall(r"(?m)^pub (?:enum|struct) (\w+)", code_of(file))
                  if name in names or file in machine and not name.endswith("Pos")]
        if listed:
            lines.append([f"`{module_of(file)}`", ", ".join(listed), linked(place(file).as_posix(), file)])
    return table(["Module", "Types", "File"], lines)


def needed(page, names):
    """The contracts of these names."""
    return [("contracts", contract.name) for contract in written(page)
            if contract.name.split("::")[0] in names and is_called(contract)]


def listed_in_calling():
    names = exported(CALLING.exporting)
    return [*(("contracts", name) for name in WHOLE), ("clauses", ""), ("repeated", ""),
            *(("trait", name) for _, name in traits(CALLING) if name in names)]


def listed_in_model():
    return [*needed(MODEL, exported(MODEL.exporting) | laws(MODEL.exporting)), ("types", "")]
