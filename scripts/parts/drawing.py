"""A Mermaid sequence diagram of a trace that oneshot-run printed.

A text that is no whole trace is refused: where a line or its step is none of a trace, where the entries are not
numbered from 1 on, where the word or a place is not as the entries before left it, and where the last two lines are not
there or do not fit the entries.

With the input of the run each call is named where it begins, since a trace does not show which look, receive or drop a
step belongs to. A trace that is not of that input's calls is refused: where an end moves whose script is finished, or
is idle before, and where a reply is none of the call's.
"""
import re

from parts.compare import Differs
from parts.reference import calls_of

WORDS = {
    "0": "0 RECEIVING", "1": "1 UNPARKING", "2": "2 DISCONNECTED", "3": "3 EMPTY", "4": "4 MESSAGE", "-": "no word",
}
OPERATIONS = {"load", "store", "swap", "exchange", "add", "xor"}
STEPS = OPERATIONS | {
    "write-message", "take-message", "drop-message", "write-waker", "take-waker", "withdraw", "park", "clock", "copy",
    "wake", "free", "plain",
}
FOUND = {
    "over": "the deadline is over", "left": "the deadline is to come", "refused": "the copy is refused",
    "token-": "the token is used up", "spurious": "a spurious wakeup",
}
ENTRY = re.compile(r"([1-9]\d*) ([SR]) (?:(idle)|(\S+) ([0-4-])>([0-4-])((?: [^ =]\S*)*)(?: = (.+))?)")
MOVE = re.compile(r"(m|p|w\d+@\d+):(\w+)>(\w+)")
# The replies of a call, by its word in a script; any other word is that of a receive.
REPLIES = {
    "closed": "true|false", "full": "true|false", "send": "Ok|Err", "inner": r"\d+", "into": r"\d+", "drop": "dropped",
    "future": "future", "poll": r"Pending|Ready\(.*\)",
}
RECEIVED = r"Ok\(\d+\)|Err\(\w+\)"
HEAD = """sequenceDiagram
    participant S as sender
    participant W as word
    participant R as receiver
    Note over W: 3 EMPTY"""


class Refused(Differs):
    """Why a line is none of this trace."""


def scripts_of(text):
    """The calls of both ends that an input asks for, each by its words."""
    lines = text.split("\n")[:2]
    try:
        if [line[:1] for line in lines] == ["S", "R"]:
            return {line[0]: [word if number is None else f"{word} {number}" for word, number, _ in calls_of(line)]
                    for line in lines}
    except (IndexError, KeyError, ValueError):
        pass
    raise Refused("the input does not begin with two scripts that oneshot-run reads")


class Calls:
    """The call that each end has under way, and those that its script has left."""

    def __init__(self, left):
        self.left, self.under_way = left, dict.fromkeys("SR")

    def begins(self, side):
        """The call that begins with this end's step, if one does."""
        if self.under_way[side]:
            return None
        if not self.left[side]:
            raise Refused(f"the script of {side} has no call left")
        self.under_way[side] = self.left[side].pop(0)
        return self.under_way[side]

    def ends(self, side, reply):
        call, self.under_way[side] = self.under_way[side], None
        if not re.fullmatch(REPLIES.get(call.split(" ")[0], RECEIVED), reply):
            raise Refused(f"{call} cannot return {reply}")
        # A send that was not refused has no error, which would have the calls that are left.
        if reply == "Ok":
            self.left[side] = []

    def is_idle(self, side):
        if self.under_way[side] or self.left[side]:
            raise Refused(f"the script of {side} is not finished")


class Drawing:
    """What the entries drew so far, and how they left the word, the message and each waker."""

    def __init__(self, calls):
        self.calls = calls
        self.lines = [HEAD]
        self.entries = 0
        self.word = "3"
        self.places = {"m": "NotSent", "p": "Hand"}
        self.rest = self.block = None

    def note(self, lane, text):
        self.lines.append(f"    Note over {lane}: {text}")

    def move(self, name, before, after):
        if self.places.get(name, "New") != before:
            raise Refused(f"the entries before it left {name} in {self.places.get(name, 'New')}")
        self.places[name] = after
        return f"{'message' if name == 'm' else f'waker {name}'} {before} to {after}"

    def entry(self, number, side, idle, step, before, after, fields, reply):
        self.entries += 1
        if self.rest is not None or int(number) != self.entries:
            raise Refused(f"entry {number} is out of order")
        if idle:
            if self.calls:
                self.calls.is_idle(side)
            self.note(side, f"{number} idle")
            return
        if step not in STEPS:
            raise Refused(f"unknown step: {step}")
        if before != self.word:
            raise Refused(f"the entries before it left the word {WORDS[self.word]}")
        self.word = after
        if call := self.calls and self.calls.begins(side):
            self.note(side, f"calls {call}")
        told, notes = self.fields(side, fields.split())
        self.lines.append(f"    {arrow(number, side, step, before, after)}{told}")
        for lane, text in notes + ([(side, f"replies {reply}")] if reply else []):
            self.note(lane, text)
        if self.calls and reply:
            self.calls.ends(side, reply)

    def fields(self, side, fields):
        """What is told behind the arrow, and the notes below it."""
        told, notes = "", []
        for field in fields:
            if move := MOVE.fullmatch(field):
                notes.append((side, self.move(*move.groups())))
            elif field == "token+":
                notes.append(("R", "the token is set"))
            elif field in FOUND:
                told += f", {FOUND[field]}"
            elif re.fullmatch(r"own:\d+", field):
                told += f", of its own task {field[4:]}"
            else:
                raise Refused(f"unknown field: {field}")
        return told, notes

    def ends(self, name, value):
        """The last two lines: where the message is, and whether the block was freed."""
        if name == "rest" and self.rest is None:
            if value.split("(")[0] != self.places["m"] and (value, self.places["m"]) != ("none", "NotSent"):
                raise Refused(f"the entries left the message in {self.places['m']}")
            self.rest = value
        elif name == "block" and self.rest is not None and self.block is None:
            if value != ("freed" if self.word == "-" else "here"):
                raise Refused(f"the entries before it left the word {WORDS[self.word]}")
            self.block = value
            self.note("S,R", f"message {self.rest}, block {value}")
        else:
            raise Refused("this line is there twice, or too early")

    def read(self, line):
        if entry := ENTRY.fullmatch(line):
            self.entry(*entry.groups())
        elif end := re.fullmatch(r"(rest|block) (\S+)", line):
            self.ends(*end.groups())
        else:
            raise Refused("no trace has such a line")


def arrow(number, side, step, before, after):
    """Where a step goes, and what becomes of the word."""
    if step in OPERATIONS:
        becomes = f" becomes {WORDS[after]}" if before != after else " is found" if step == "load" else " stays"
        return f"{side}->>W: {number} {step}, {WORDS[before]}{becomes}"
    word = "no word" if before == "-" else f"word {WORDS[before]}"
    then = f", then {WORDS[after]}" if before != after else ""
    return f"{side}{'-)R' if step == 'wake' else f'->>{side}'}: {number} {step}, {word}{then}"


def draw(trace, scripts=None):
    """The diagram of a trace, with the calls of the scripts if the text of a run's input is given."""
    drawing = Drawing(None if scripts is None else Calls(scripts_of(scripts)))
    lines = trace.split("\n")[:-1] if trace.endswith("\n") else trace.split("\n")
    for number, line in enumerate(lines, 1):
        try:
            drawing.read(line)
        except Refused as why:
            raise Refused(f"line {number}: {line}: {why}") from None
    if drawing.block is None:
        raise Refused(f"line {len(lines) + 1} is missing")
    return "\n".join(drawing.lines)
