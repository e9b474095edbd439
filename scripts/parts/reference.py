"""The text of a run, by tables of its own, which read neither the program nor its definitions.

A row is a position, its step, and where what the step sees leads: to a reply in brackets, or to a position. Where
it sees nothing that matters, one of these stands alone."""

CODES = {"RECEIVING": 0, "UNPARKING": 1, "DISCONNECTED": 2, "EMPTY": 3, "MESSAGE": 4}

SENDER = """
LookClosed | load | DISCONNECTED [true], RECEIVING EMPTY [false]
SendWrite | write-message | SendAdd
SendAdd | add | EMPTY [Ok], RECEIVING SendTakeWaker, DISCONNECTED [Err]
SendTakeWaker | take-waker | SendFinal
SendFinal | swap MESSAGE | UNPARKING EMPTY SendWake, DISCONNECTED SendLateWake
SendWake | wake | [Ok]
SendLateWake | wake | [Err]
DropXor | xor | EMPTY [dropped], RECEIVING DropTakeWaker, DISCONNECTED DropFree
DropTakeWaker | take-waker | DropFinal
DropFinal | swap DISCONNECTED | UNPARKING EMPTY DropWake, DISCONNECTED DropLateWake
DropWake | wake | [dropped]
DropLateWake | wake | DropFree
DropFree | free | [dropped]
ErrorLook | plain | [message]
IntoTake | take-message | IntoFree
IntoFree | free | [message]
ErrorDrop | drop-message | ErrorFree
ErrorFree | free | [dropped]
"""

RECEIVER = """
LookFull | load | MESSAGE [true], RECEIVING UNPARKING DISCONNECTED EMPTY [false]
LookGone | load | DISCONNECTED [true], RECEIVING UNPARKING EMPTY MESSAGE [false]
TryLoad | load | MESSAGE Close, EMPTY [Empty], DISCONNECTED [gone]
Close | store DISCONNECTED | Take
Take | take-message | [message]
CloseOnly | store DISCONNECTED | [gone]
RefLoad | load | MESSAGE Close, DISCONNECTED [gone], EMPTY RefWrite
RefWrite | write-waker | RefSwap
RefSwap | swap RECEIVING | EMPTY RefPark, MESSAGE BackFull, DISCONNECTED BackClosed
BackFull | withdraw | Close
BackClosed | withdraw | CloseOnly
RefPark | park | RefParkLoad
RefParkLoad | load | MESSAGE Close, DISCONNECTED [gone], RECEIVING UNPARKING RefPark
SumClock | clock | TimedStart
EndlessClock | clock | RefLoad
TimedStart | load | MESSAGE Close, DISCONNECTED [gone], EMPTY TimedWrite
TimedWrite | write-waker | TimedSwap
TimedSwap | swap RECEIVING | EMPTY Clock, MESSAGE BackFull, DISCONNECTED BackClosed
Clock | clock | left TimedPark, over EndSwap
TimedPark | park | TimedLoad
TimedLoad | load | MESSAGE Close, DISCONNECTED [gone], RECEIVING UNPARKING Clock
EndSwap | swap EMPTY | RECEIVING EndBack, MESSAGE Close, DISCONNECTED CloseOnly, UNPARKING LatePark
EndBack | withdraw | [Timeout]
LatePark | park | LateLoad
LateLoad | load | MESSAGE Close, DISCONNECTED [gone], EMPTY LatePark
RecvLoad | load | MESSAGE RecvTake, DISCONNECTED RecvGone, EMPTY RecvWrite
RecvWrite | write-waker | RecvSwap
RecvSwap | swap RECEIVING | EMPTY RecvPark, MESSAGE RecvBackFull, DISCONNECTED RecvBackClosed
RecvBackFull | withdraw | RecvTake
RecvBackClosed | withdraw | RecvGone
RecvPark | park | RecvParkLoad
RecvParkLoad | load | MESSAGE RecvTake, DISCONNECTED RecvGone, RECEIVING UNPARKING RecvPark
RecvTake | take-message | RecvGot
RecvGot | free | [message]
RecvGone | free | [gone]
IntoFuture | plain | [future]
PollLoad | load | EMPTY PollCopy, RECEIVING AgainCopy, MESSAGE Close, DISCONNECTED [gone], UNPARKING PollOwn
PollCopy | copy | copied PollWrite, refused PollOwn
PollWrite | write-waker | PollExchange
PollExchange | exchange EMPTY RECEIVING | EMPTY [Pending], MESSAGE PollBackFull, DISCONNECTED PollBackClosed
PollBackFull | withdraw | Close
PollBackClosed | withdraw | [gone]
AgainCopy | copy | copied AgainExchange, refused PollOwn
AgainExchange | exchange RECEIVING EMPTY | RECEIVING AgainBack, MESSAGE Close, DISCONNECTED [gone], UNPARKING PollOwn
AgainBack | withdraw | PollWrite
PollOwn | wake-own | [Pending]
AsyncTryLoad | load | MESSAGE Close, DISCONNECTED [gone], EMPTY RECEIVING UNPARKING [Empty]
AsyncLoad | load | RECEIVING AsyncExchange, UNPARKING DISCONNECTED EMPTY MESSAGE AsyncSwap
AsyncExchange | exchange RECEIVING EMPTY | RECEIVING AsyncBack, UNPARKING DISCONNECTED MESSAGE AsyncSwap
AsyncBack | withdraw | AsyncSwap
AsyncSwap | swap DISCONNECTED | EMPTY UNPARKING [dropped], MESSAGE DropMessage, DISCONNECTED DropFree
DropSwap | swap DISCONNECTED | EMPTY [dropped], MESSAGE DropMessage, DISCONNECTED DropFree
DropMessage | drop-message | DropFree
DropFree | free | [dropped]
"""

# The position at which a word of a script begins. A future's words follow `future`.
STARTS = {
    "S": {"closed": "LookClosed", "send": "SendWrite", "drop": "DropXor"},
    "error": {"inner": "ErrorLook", "into": "IntoTake", "drop": "ErrorDrop"},
    "R": {
        "try": "TryLoad", "ref": "RefLoad", "deadline": "TimedStart", "timeout": "SumClock", "forever": "EndlessClock",
        "full": "LookFull", "closed": "LookGone", "recv": "RecvLoad", "drop": "DropSwap", "future": "IntoFuture"},
    "future": {
        "poll": "PollLoad", "try": "AsyncTryLoad", "full": "LookFull", "closed": "LookGone", "drop": "AsyncLoad"},
}


def table(text):
    """The rows of a table: each position's step, with what it writes, and where what it sees leads."""
    rows = {}
    for line in text.strip().split("\n"):
        position, step, leads = line.split(" | ")
        ends = {}
        for *seen, target in (lead.split(" ") for lead in leads.split(", ")):
            ends.update({CODES.get(one, one): target for one in seen or [None]})
        rows[position] = step.split(" "), ends
    return rows


TABLES = {"S": table(SENDER), "R": table(RECEIVER)}


def calls_of(line):
    """The calls of a script: the word of each, its number if it has one, and where it begins."""
    end, *words = line.split(" ")
    calls, kind = [], end
    while words:
        word = words.pop(0)
        number = int(words.pop(0)) if word in ("send", "poll") else None
        calls.append((word, number, STARTS[kind][word]))
        kind = {"send": "error", "future": "future"}.get(word, kind)
    return calls


class Reference:
    """One run: the shared word and cells, both ends, and the lines so far."""

    def __init__(self, sender, receiver):
        self.calls = {"S": calls_of(sender), "R": calls_of(receiver)}
        self.at = {"S": None, "R": None}
        self.message = next((number for word, number, _ in self.calls["S"] if word == "send"), None)
        self.place = None if self.message is None else "NotSent"
        self.word, self.freed, self.token = CODES["EMPTY"], False, False
        self.cell, self.hand, self.taken = None, "p", None
        self.lines = []
        # Which rows of the tables were used, each with what its step saw.
        self.leads = set()

    def move(self, letter):
        end = "S" if letter == "s" else "R"
        number = len(self.lines) + 1
        if not self.calls[end]:
            self.lines.append(f"{number} {end} idle")
            return
        position = self.at[end] or self.calls[end][0][2]
        (step, *writes), leads = TABLES[end][position]
        before, found, token = self.word, self.seen(step, letter), self.token
        self.leads.add((end, position, found if found in leads else None))
        target = leads.get(found, leads.get(None))
        moved = self.moved_message(step, target, end) + self.moved_waker(step, found, writes, number)
        self.word = self.word_after(step, [CODES[code] for code in writes])
        shown = f"{'-' if self.freed else before}>"
        self.freed = self.freed or step == "free"
        shown += "-" if self.freed else str(self.word)
        extra = {"over": " over", "left": " left", "refused": " refused"}.get(found, "")
        if step == "park":
            extra, self.token = " token-" if token else " spurious", False
        if step == "wake-own":
            extra = f" own:{self.calls['R'][0][1]}"
        reply = f" = {self.reply(end, target[1:-1], step)}" if target.startswith("[") else ""
        if not reply:
            self.at[end] = target
        self.lines.append(f"{number} {end} {step.removesuffix('-own')} {shown}{moved}{extra}{reply}")

    def seen(self, step, letter):
        """What a step sees: a clock, a copy, or the word."""
        if step == "clock":
            return "over" if letter == "o" else "left"
        if step == "copy":
            return "refused" if letter == "n" else "copied"
        return self.word

    def word_after(self, step, writes):
        if step in ("store", "swap"):
            return writes[0]
        if step == "exchange":
            return writes[1] if self.word == writes[0] else self.word
        return {"add": self.word + 1, "xor": self.word ^ 1}.get(step, self.word)

    def moved_message(self, step, target, end):
        taken = "FromError" if end == "S" else "Delivered"
        to = {"write-message": "InCell", "drop-message": "Dropped", "take-message": taken}.get(step)
        to = "InError" if target == "[Err]" else to
        if not to or not self.place:
            return ""
        old, self.place = self.place, to
        return f" m:{old}>{to}"

    def moved_waker(self, step, found, writes, number):
        if step == "write-waker":
            self.cell, self.hand = self.hand, None
            return f" {self.cell}:Hand>Cell"
        if step == "take-waker":
            self.taken, self.cell = self.cell, None
            return f" {self.taken}:Cell>SenderHand"
        if step == "wake":
            used, self.taken = self.taken, None
            self.token = self.token or used == "p"
            return f" {used}:SenderHand>Used" + (" token+" if used == "p" else "")
        if step == "withdraw":
            back, self.cell = self.cell, None
            self.hand = "p" if back == "p" else self.hand
            return f" {back}:Cell>{'Hand' if back == 'p' else 'Dropped'}"
        if step == "copy" and found == "copied":
            self.hand = f"w{self.calls['R'][0][1]}@{number}"
            return f" {self.hand}:New>Hand"
        if step == "exchange" and found != CODES[writes[0]] and self.hand:
            dropped, self.hand = self.hand, None
            return f" {dropped}:Hand>Dropped"
        return ""

    def reply(self, end, reply, step):
        """Ends the call, and shows its reply in the call's words."""
        word, _, _ = self.calls[end].pop(0)
        self.at[end] = None
        # An accepted `send` has no error, and what frees the block, or drops an end, leaves no end.
        if reply in ("Ok", "dropped") or step == "free":
            self.calls[end] = []
        if reply == "future":
            self.hand = None
        if reply == "message":
            shown = str(self.message) if end == "S" else f"Ok({self.message})"
            return f"Ready({shown})" if word == "poll" else shown
        if reply == "gone":
            shown = "Err(RecvError)" if word in ("recv", "ref", "poll") else "Err(Disconnected)"
            return f"Ready({shown})" if word == "poll" else shown
        return f"Err({reply})" if reply in ("Empty", "Timeout") else reply


def all_leads():
    """Each row of the tables, with each that its step may see."""
    return {(end, position, seen) for end, rows in TABLES.items() for position, (_, leads) in rows.items()
            for seen in leads}


def reference(sender, receiver, letters, leads=None):
    """The lines that oneshot-run prints for both scripts and a schedule. Adds the rows that were used to `leads`."""
    run = Reference(sender, receiver)
    for letter in letters:
        run.move(letter)
    if leads is not None:
        leads.update(run.leads)
    rest = f"{run.place}({run.message})" if run.place else "none"
    return [*run.lines, f"rest {rest}", f"block {'freed' if run.freed else 'here'}"]
