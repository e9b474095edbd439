"""The calls that oneshot_watch repeats, as docs/CALLING.md prints them: its requests, tickets and futures have each
call of the type that they hold, with the same clauses. Those of a future name replies, and the promise of a request."""
import re

from parts.functions import functions
from parts.pages import fold
from parts.printed import table
from parts.sources import CRATES, code_of, sources

# A type of oneshot_watch, the type whose calls it repeats, and the files that have these.
RESTATED = [
    ("CancellableRequest", "Request", ["oneshot_reply/src/requests.rt"]),
    ("CancellableTicket", "Ticket", ["oneshot_reply/src/ticket.rt"]),
    ("CancellableReply", "AsyncReceiver", ["oneshot_ends/src/future.rt"]),
]
# How the clauses of a future read where its messages are replies and its promise is that of a request.
OF_REPLIES = [
    (r"\(λ message\. P\.keeps (self\.\w+)\.channel\.about message\)",
     r"(λ reply. Q.eq (A.asked reply) \1.channel.about.question ≡ true)"),
    (r"\b(ReceiverGrew|Result) T\b", r"\1 A"),
]


def clauses(files, owner):
    """The clauses of each public call of this type, and of its poll."""
    found = {}
    for name, _, head, _ in [each for file in files for each in functions(code_of(file))]:
        of, _, call = name.split(" for ")[-1].partition("::")
        if of == owner and (re.match(r"\s*pub fn", head) or call == "poll"):
            found[call] = fold(re.search(r"(?s)\s(?:requires|ensures)\s.*|$", head)[0])
    return found


def own_words(clause, owner):
    for pattern, words in OF_REPLIES if owner == "AsyncReceiver" else []:
        clause = re.sub(pattern, words, clause)
    return clause


def calls_of(other, owner, files):
    """The calls of a type, each with whether the other type repeats it."""
    repeats = clauses(sources("oneshot_watch"), other)
    return [(call, repeats.get(call) == own_words(clause, owner))
            for call, clause in clauses([CRATES / file for file in files], owner).items()]


def restated():
    """The calls of oneshot_watch that repeat others, whose contracts are not printed."""
    return {f"{row[0]}::{call}" for row in RESTATED for call, is_same in calls_of(*row) if is_same}


def repeated():
    """Prints which calls are repeated."""
    return table(["Type", "Repeats", "Calls"], [
        (f"`{other}`", f"`{owner}`", ", ".join(f"`{call}`{'' if is_same else ' (with other clauses)'}"
                                               for call, is_same in calls_of(other, owner, files)))
        for other, owner, files in RESTATED])
