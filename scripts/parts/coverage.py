"""What covers what, as docs/COVERAGE.md prints it: which files and pairs of scripts call each public function of
oneshot_channel, and which have each word of oneshot-run in an input."""
import functools
import re

from parts.compare import Differs
from parts.contracts import CALLING, exported, needed, written
from parts.functions import functions
from parts.pages import TOP
from parts.pairs import ALL, FULL, OF_TWO, SHORT, scripts_of
from parts.printed import shown, table
from parts.reference import STARTS
from parts.sources import CRATES, code_of, crates, section, sources, text_of

# The crates of each kind of test. Those of the tests that none names are of the first kind.
KINDS = {
    "Unit": ["oneshot_program_tests"],
    "Race": ["oneshot_rounds"],
    "Interleaving": ["oneshot_explored", "oneshot_calls", "oneshot_conformance"],
    "Out of memory": ["oneshot_out_of_memory"],
    "Original": ["oneshot_original_tests"],
}
# The kinds of tests that have inputs of oneshot-run, with the scripts of the gate that have some.
WITH_INPUTS = {"Unit": ["parts/leads.txt"], "Interleaving": [], "Out of memory": ["faults"]}
# How tests name a value of each type; one of another name is of the first type that has the call.
NAMED = {
    "sender": "Sender", "receiver": "Receiver", "future": "AsyncReceiver", "ticket": "Ticket", "request": "Request",
    "asked": "Ticket", "error": "SendError", "refused": "SendError",
}
# The same of a file that uses oneshot_watch, whose types no other file has.
NAMED_OF_WATCHES = {
    **NAMED, "request": "CancellableRequest", "ticket": "CancellableTicket", "reply": "CancellableReply",
    "watch": "Watch", "gone": "AsyncWatch", "guard": "Guard",
}
OF_WATCHES = {*NAMED_OF_WATCHES.values()} - {*NAMED.values()}
DROPPED = ["Sender", "Receiver", "AsyncReceiver", "SendError", "Request", "Ticket", "Guard"]
# The drivers of calls that have another name than the call.
DRIVERS = {
    "AsyncReceiver::try_recv": ["async_try_recv"], "Sender::drop": ["drop_sender"], "SendError::drop": ["drop_error"],
    "Receiver::drop": ["drop_receiver"], "AsyncReceiver::drop": ["drop_async"],
}
# The calls that the words of a script make (oneshot_calls), by whose word it is.
CALLED = {
    "S": {"closed": "Sender::is_closed", "send": "Sender::send", "drop": "Sender::drop", "dropraw": "Sender::into_raw",
          "raw": "Sender::into_raw Sender::from_raw"},
    "error": {"inner": "SendError::as_inner", "into": "SendError::into_inner", "drop": "SendError::drop"},
    "R": {"closed": "Receiver::is_closed", "full": "Receiver::has_message", "try": "Receiver::try_recv",
          "tries": "Receiver::try_recv", "ref": "Receiver::recv_ref", "recv": "Receiver::recv",
          "deadline": "Receiver::recv_deadline", "timeout": "Receiver::recv_timeout",
          "forever": "Receiver::recv_timeout", "drop": "Receiver::drop", "dropraw": "Receiver::into_raw",
          "raw": "Receiver::into_raw Receiver::from_raw", "future": "Receiver::into_future"},
    "future": {"closed": "AsyncReceiver::is_closed", "full": "AsyncReceiver::has_message",
               "try": "AsyncReceiver::try_recv", "poll": "AsyncReceiver::poll", "polls": "AsyncReceiver::poll",
               "await": "AsyncReceiver::poll", "drop": "AsyncReceiver::drop"},
}
# The calls in place of these, by the kind of a channel (oneshot_explored); none where its ends lack the call.
OF_KIND = {
    "promise": {"Sender::send": "Sender::send_kept"},
    "request": {"Sender::is_closed": "Request::is_cancelled", "Sender::send": "Request::fits Request::answer",
                "Sender::drop": "Request::drop", "Sender::into_raw": "", "Sender::from_raw": "",
                "Receiver::is_closed": "Ticket::is_closed", "Receiver::try_recv": "Ticket::try_take",
                "Receiver::recv": "Ticket::wait", "Receiver::recv_timeout": "Ticket::wait_for",
                "Receiver::into_future": "Ticket::into_future", "Receiver::drop": "Ticket::drop"},
    "watch": {"Sender::drop": "Guard::drop", "Receiver::into_future": "Watch::into_future",
              "AsyncReceiver::poll": "AsyncWatch::poll", "Receiver::drop": "", "AsyncReceiver::drop": ""},
}
# What makes the ends, and what brings one of them on another channel.
MADE_BY = {"promise": ["channel_for"], "request": ["request"], "watch": ["watch"]}
BROUGHT_BY = ["Sender::send", "Receiver::recv"]
# How the script of a sender, or of a future, stands in a test. Each other script is a receiver's.
OF_SENDER = re.compile(r'\b(?:Act|duel)\(\s*(?:&rt,\s*)?("[^"]*")|\bfor sends in \[([^]]*)\]')
OF_FUTURE = re.compile(r'\bBy::Future\(("[^"]*")\)')
# The families of positions of the words, by where a word begins.
FAMILIES = [("Look", "LookPos"), ("Try", "TryPos"), ("Async(?:Try)", "FuturePos"), ("Async", "AsyncDropPos"),
            ("Ref", "RefPos"), ("Timed|.*Clock", "TimedPos"), ("Recv", "ValuePos"),
            ("Into(?:Future)|Poll", "FuturePos"),
            ("DropSwap", "DropPos"), (".*", "SenderPos")]


def crates_of(kind):
    named = {crate for crates in KINDS.values() for crate in crates}
    return [crate for crate in section("Tests") if crate in KINDS[kind]
            or kind == "Unit" and crate not in named]


def joined(names):
    return ", ".join(dict.fromkeys(names))


def calls():
    """The public calls and drops, each as "Type::name" or the name of a function."""
    return [*dict.fromkeys(name for _, name in needed(CALLING, exported(CALLING.exporting))),
            *(f"{name}::drop" for name in DROPPED)]


def edits():
    """Each must-fail edit, with a function that it changes."""
    for edit in sorted(CRATES.glob("*/must-fail/*.edit")):
        for file, old in changed_by(edit):
            yield from ((edit, name) for name in changed_in(text_of(file), old))


def changed_by(edit):
    """The texts that a must-fail edit changes, each with its file."""
    file = None
    for kind, text in re.findall(r"(?m)^(file|old): (.*)$", text_of(edit)):
        if kind == "file":
            file = edit.parent.parent / text.strip()
        else:
            yield file, text


@functools.cache
def changed_in(text, old):
    """The functions in which this part of a text is."""
    at, begins = text.find(old), {}
    for function in functions(text):
        whole = function.head + function.body
        begins[function.name] = text.find(whole), text.find(whole) + len(whole)
    return [name for name, (begin, end) in begins.items() if begin <= at < end]


def contracts():
    """The file of each function that has a clause, by the name of the call."""
    return {contract.name: contract.file for contract in written(CALLING)
            if re.search(r"\s(ensures|requires)\s", contract.text)}


def is_edited(call, edit, function):
    """Whether an edit of this function changes this call: the call itself, or its driver."""
    owner, _, name = call.rpartition("::")
    if function.split(" for ")[-1] == call:
        return True
    drivers = DRIVERS.get(call, [name] if owner in ("Sender", "Receiver", "AsyncReceiver", "SendError") else [])
    return edit.parts[-3] == "oneshot_drive" and function in drivers


def types_with(name, known):
    """The types that have a call of this name."""
    return [call.split("::")[0] for call in known if call.endswith(f"::{name}")]


@functools.cache
def made_in(text, known):
    """The calls that a file with this text makes."""
    made, of_watches = set(), bool(re.search(r"\boneshot(?:_|::)watch\b", text))
    named = NAMED_OF_WATCHES if of_watches else NAMED
    for function in functions(text):
        of_type = re.search(r"\b(Sender|Receiver|AsyncReceiver|SendError|Ticket|Request)\b", function.owner)
        for variable, name, given in re.findall(r"\b(\w+)\s*\.\s*(\w+)\((?:&mut (\w+)\))?", function.body):
            value = given if name == "poll" and given else variable
            owner = of_type and of_type[1] if variable == "self" else named.get(value.rpartition("_")[2])
            owners = [owner for owner in types_with(name, known) if of_watches or owner not in OF_WATCHES]
            if owners and (variable != "self" or owner):
                made.add(f"{owner if owner in owners else owners[0]}::{name}")
        made |= {f"{named[variable.rpartition('_')[2]]}::drop" for variable in re.findall(r"\bdrop\((\w+)\)", text)
                 if variable.rpartition("_")[2] in named}
        made |= set(re.findall(r"(?<![.\w])(?:(?:\w+::)?\w+)(?=\()", function.body))
    return {call for call in made if call in known}


def calls_of(words, end, kinds):
    """The calls that these words of an end make; none if it lacks one. `kinds` has what each end is, and is kept."""
    made = []
    for word in words:
        if word not in CALLED[kinds[end]]:
            return []
        made += CALLED[kinds[end]][word].split()
        kinds[end] = {"send": "error", "future": "future"}.get(word, kinds[end])
    return made


def plain(text):
    """A text with the words of scripts as CALLED has them: of each length of time, and of either task."""
    return re.sub(r"\b(?:zero|far|long|past)(?=timeout|deadline)|(?<=\bpoll)[12]", "", text)


def quoted(text):
    return re.findall(r'"((?:[^"\\]|\\.)*)"', text)


@functools.cache
def called_in(text):
    """The calls that the scripts in the texts of a file make. Each is a script of one end, or the life of a channel: a
    line names the kind of channel, and each line after it has a call before ` = `. Both ends' looks follow such a
    line."""
    called, text = set(), plain(text)
    are_futures = "of_future(" in text and "Receiving::new(" not in text
    for script in quoted(" ".join(map("".join, OF_SENDER.findall(text)))):
        called.update(calls_of(script.split(), "S", {"S": "S"}))
    for script in quoted(" ".join(OF_FUTURE.findall(text))):
        called.update(calls_of(script.split(), "R", {"R": "future"}))
    for script in quoted(OF_FUTURE.sub("", OF_SENDER.sub("", text))):
        channel, *lines = re.split(r"\\n|\n", script)
        if channel not in ("channel", "async_channel"):
            called.update(calls_of(script.split(), "R", {"R": "future" if are_futures else "R"}))
            continue
        kinds = {"S": "S", "R": "R" if channel == "channel" else "future"}
        for end, *words in (line.split(" = ")[0].split() for line in lines):
            called.update(calls_of(words, end, kinds), calls_of(["closed"], "S", {"S": "S"}),
                          calls_of(["closed", "full"], "R", kinds))
    return called


def testing(kind, known):
    """The files of this kind of test, each with the calls that it makes, itself or by a script of real ends."""
    for crate in crates_of(kind):
        uses = crates()[crate]
        has_scripts = "oneshot_calls" in uses and ("oneshot_channel" in uses or "oneshot" in uses)
        for file in sources(crate):
            yield shown(file), made_in(code_of(file), known) | (called_in(code_of(file)) if has_scripts else set())


def imported(file):
    """The files beside this one from which it imports, each with the names."""
    for module, names in re.findall(r"(?m)^use super::(\w+)::([^;]*);", code_of(file)):
        yield file.with_name(f"{module}.rt"), re.findall(r"\w+", names)


def racing(file):
    """What the tests of a file race, as text: the file without those that have to fail, and the scripts that it
    imports; and how many rounds each race has. Nothing if the file has no race."""
    text = code_of(file)
    texts = [text, *(code_of(other) for other, _ in imported(file))]
    rounds = [found[1] for found in (re.search(r"\bconst ROUNDS: u64 = ([\d_]+);", one) for one in texts) if found]
    if not rounds or "#[test]" not in text:
        return "", 0
    failing = re.findall(r"#\[should_panic[^\n]*\]\nfn (\w+)", text)
    for function in functions(text):
        if function.name in failing:
            text = text.replace(function.head + function.body, "")
    scripts = [found[0] for other, names in imported(file) for name in names
               for found in re.finditer(rf"\bconst {name}: \[[^;]*;[^;]*;", code_of(other))]
    return "\n".join([text, *scripts]), int(rounds[0])


def raced(known):
    """The files that race, each with the rounds of a race, and the calls that race with one of the other end."""
    for file in sources(*KINDS["Race"]):
        text, rounds = racing(file)
        yield f"{shown(file)} ({rounds:,})", made_in(text, known) | called_in(text)


@functools.cache
def made_by_pair(pair):
    """The calls that the program makes for a pair: those of both scripts, and those that make and bring the ends."""
    of_kind = OF_KIND.get(pair.kind, {})
    scripts = [("S", pair.sender), ("R", pair.receiver)]
    made = {other for end, script in scripts for call in calls_of(plain(script).split(), end, {end: end})
            for other in of_kind.get(call, call).split()}
    return made | {*MADE_BY.get(pair.kind, ["channel"]), *(BROUGHT_BY if pair.kind in OF_TWO[1:] else [])}


def counted(is_so):
    """Of how many pairs of the gate this is so, and in brackets of how many with --all; nothing if of none."""
    short, whole = (sum(map(is_so, pairs)) for pairs in (SHORT, ALL + FULL))
    return f"{short} ({whole})" if short or whole else ""


def look_at_pairs(known):
    """The program has to make each call that a pair is said to make, and `oneshot_calls` each that a word of a plain
    channel is. No text of them names the drop of an end as such."""
    made, by_words = (set().union(*(made_in(code_of(file), known) for file in sources(*names)))
                      for names in (KINDS["Interleaving"], ["oneshot_calls"]))
    lacks = {call for pair in SHORT + ALL for call in made_by_pair(pair)} - made
    lacks |= {call for pair in SHORT + ALL if not pair.kind for call in made_by_pair(pair)} - by_words - {"channel"}
    if lost := sorted(call for call in lacks if not call.endswith("::drop")):
        raise Differs(f"{KINDS['Interleaving'][0]} makes no call of {', '.join(lost)}")


def of_calls():
    """Prints the table of the calls."""
    known, changed, stated, rows = tuple(calls()), list(edits()), contracts(), []
    look_at_pairs(known)
    files = {kind: list(testing(kind, known)) for kind in KINDS} | {"Race": list(raced(known))}
    for call in known:
        edited = [edit.stem for edit, function in changed if is_edited(call, edit, function)]
        cells = {kind: joined(file for file, made in files[kind] if call in made) for kind in KINDS}
        cells["Interleaving"] = counted(lambda pair: call in made_by_pair(pair))
        file = shown(stated[call]) if call in stated else "none"
        rows.append((f"`{call}`", file, joined(edited), *cells.values()))
    return table(["Call", "Contract", "Edits", *KINDS], rows)


@functools.cache
def words_in(text, alone):
    """The words of the inputs in the texts of a file, each with what its end is. `alone`: the letter of an end may
    lack."""
    found = set()
    for line in re.split(r"\\n|\n|, ", "\n".join(quoted(text)) if '"' in text else text):
        words = [word for word in line.split() if not word.isdigit()]
        for end in words[:1] if words[:1] in (["S"], ["R"]) else "SR" if alone else "":
            kind, names = end, []
            for word in words if words[:1] != [end] else words[1:]:
                if word not in STARTS.get(kind, {}):
                    break
                names.append((kind, word))
                kind = {"send": "error", "future": "future"}.get(word, kind)
            else:
                found.update(names)
    return found


def of_words():
    """Prints the table of the words."""
    changed, rows = list(edits()), []
    for kind, word in [(kind, word) for kind, starts in STARTS.items() for word in starts]:
        family = next(name for pattern, name in FAMILIES if re.match(pattern, STARTS[kind][word]))
        family = "SenderPos" if kind in ("S", "error") else family
        edited = [edit.stem for edit, function in changed
                  if edit.parts[-3] == "oneshot_machine" and function.startswith(f"{family}::")]
        cells = {}
        for test, scripts in WITH_INPUTS.items():
            texts = sources(*crates_of(test)) + [TOP / "scripts" / name for name in scripts]
            cells[test] = joined(shown(file) for file in texts
                                 if (kind, word) in words_in(text_of(file), file.suffix != ".rt"))
        cells["Interleaving"] = counted(lambda pair: (kind, word) in words_in(scripts_of(pair), False))
        begins = {"error": "S send .. ", "future": "R future .. "}.get(kind, f"{kind} ")
        rows.append((f"`{begins}{word}`", joined(edited), *cells.values()))
    return table(["Word", "Edits of its table", *WITH_INPUTS], rows)
