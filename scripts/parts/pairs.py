"""The pairs of scripts whose runs are gone through: the words of the program, and the same in an input of
oneshot-run."""
import collections
import functools
import re

# A kind of channel, both scripts, and what is explored of them.
Pair = collections.namedtuple("Pair", "kind sender receiver settings")

SENDERS = ["send", "drop", "closed send", "send inner into", "send drop", "raw send into", "", "closed closed drop"]
TRIES = ["try drop", "try try drop", "try try try drop", "drop", "full closed try drop", "full try full closed drop",
         "raw try drop", "raw drop", ""]
POLLS = ["future drop", "future poll1 drop", "future poll1 poll1 drop", "future poll1 poll2 drop",
         "future poll1 poll2 poll1 drop", "future poll1 poll1 poll1 drop", "future try drop", "future poll1 try drop",
         "future poll1 try poll2 drop", "future poll1 full poll2 full drop", "future try poll1 poll2 try drop",
         "future full poll1 closed poll2 drop", "raw future poll1 drop", "future poll1", "future poll1 poll2",
         "future poll1 poll1", "future try try try drop"]
WAITS = ["recv", "ref drop", "try recv", "raw recv", "ref try drop", "full recv", "forever drop"]
TIMED = ["timeout drop", "zerotimeout drop", "deadline drop", "zerodeadline drop", "timeout try drop",
         "timeout future poll1 drop", "fartimeout drop", "fardeadline drop"]
# Two waits. Beside a drop of the sender, whose xor is tried again and again, their runs do not end in half an hour.
TWICE = ["deadline ref drop", "timeout timeout drop", "timeout recv"]
SENDS = ["send", "closed send", "send inner into", "send drop", "raw send into", ""]
ASKED = ["try drop", "closed try drop", "drop", "recv", "try recv", "timeout drop", "forever drop",
         "future poll1 drop", "future poll1 poll2 drop"]
# Of two channels of one pair of threads. Each thread sends by the one script, and then receives by the other.
BOTH = ["try drop", "drop", "full closed try drop", "raw try drop", "recv", "ref drop", "try recv"]
# Of a guard and its watch (oneshot_watch).
GUARDS, WATCHES = ["drop", ""], ["drop", "future drop", "future poll1 drop", "future poll1 poll1 drop"]
SETTINGS = re.compile(r"(spurious|readings|failing-clock|refused|queues|sent|reduce|seconds)=\d+")
# Two channels of one pair of threads. In the last two kinds the message of the first brings the sender, or the
# receiver, of the second, which is then used by these scripts.
OF_TWO = ["two", "sent-sender", "sent-receiver"]
KINDS = ["", "promise", "request", "nested", "watch", *OF_TWO]


def pairs_of(kind, receivers, settings="", senders=SENDERS):
    return [Pair(kind, sender, receiver, settings) for receiver in receivers for sender in senders]


# With no argument: what ends in three minutes. Left out are the pairs of thousands of runs.
SHORT = (pairs_of("", TRIES) + pairs_of("", POLLS[:4])
         + pairs_of("", POLLS[4:], senders=["send", "closed send", "send inner into"])
         + pairs_of("", ["recv", "ref drop", "forever drop"], senders=["send", "drop", ""])
         + pairs_of("", ["timeout drop", "fardeadline drop"], "readings=1", ["send", "drop"])
         + pairs_of("promise", ["try drop", "future poll1 drop"], senders=SENDERS[:5])
         + pairs_of("request", ["closed try drop", "future poll1 drop", "recv"], senders=["send", "closed send"])
         + pairs_of("nested", ["try drop", "drop"], senders=["send", "send into", "drop"])
         + pairs_of("", ["future poll1 try drop", "future poll1 try poll2 drop", "future full poll1 closed poll2 drop",
                         "future poll1 full poll2 full drop"], senders=["drop"])
         + pairs_of("watch", WATCHES, senders=["drop"])
         + pairs_of("", POLLS[1:4], "refused=1", ["send"])
         + pairs_of("two", BOTH[:3], senders=["send", "drop"]) + pairs_of("two", ["recv"], "spurious=0", ["send", ""])
         + pairs_of("", ["future poll1 poll1"], "queues=1", ["send"])
         + pairs_of("sent-sender", ["try drop", "drop"], "sent=1", ["send", "drop"])
         + pairs_of("sent-receiver", ["try drop", "drop"], "sent=1", ["send", "drop"]))
# A pair, and another whose scripts its runs are held against: some have to differ.
PLANTED = Pair("", "send", "try drop", ""), Pair("", "send", "drop", "")
# With --all.
ALL = (pairs_of("", TRIES) + pairs_of("", POLLS) + pairs_of("", WAITS) + pairs_of("", TIMED, "readings=5")
       + pairs_of("", TWICE, "readings=5", SENDS)
       + pairs_of("", ["timeout drop", "deadline drop", "fartimeout drop"], "readings=3 failing-clock=1", SENDERS[:2])
       + pairs_of("", ["recv", "ref drop", "fartimeout drop"], "spurious=2 readings=2", SENDERS[:2])
       + pairs_of("", ["future poll1 drop", "future poll1 poll2 drop", "future poll1 poll1"], "queues=1", SENDERS[:2])
       + pairs_of("", POLLS[1:6] + POLLS[7:9] + ["future poll1 poll2 poll1 poll2 drop"], "refused=1", SENDERS[:3])
       + pairs_of("two", BOTH[:4], senders=SENDERS[:3]) + pairs_of("two", BOTH[4:], "spurious=0", ["send", "drop", ""])
       + pairs_of("sent-sender", BOTH, "spurious=0 sent=1", ["send", "closed send", "drop", ""])
       + pairs_of("sent-receiver", BOTH, "spurious=0 sent=1", ["send", "closed send", "drop", ""])
       + pairs_of("sent-sender", ["try drop"], "spurious=0", ["send"])
       + pairs_of("sent-receiver", ["try drop"], "spurious=0", ["send"])
       + pairs_of("promise", TRIES[:4] + POLLS[1:4] + ["recv", "timeout drop"], "readings=3", SENDERS[:5])
       + pairs_of("nested", TRIES[:4] + POLLS[1:3] + ["recv"], senders=["send", "send into", "send drop", "drop"])
       + pairs_of("watch", WATCHES, senders=GUARDS)
       + pairs_of("request", ASKED, "readings=3", ["send", "closed send", "send into", "drop", ""])
       + pairs_of("request", ["timeout recv"], "readings=3", ["send", "closed send", "send into", ""]))
# Every interleaving of short scripts, not one run of each order.
FULL = pairs_of("", TRIES + POLLS[:4], "reduce=0", SENDERS[:4])


def words_in(scripts):
    return set(" ".join(scripts).split())


def lacking(pair):
    """What the program or the scheduler lacks of a pair; nothing if it has all."""
    receivers = {"request": ASKED, "watch": WATCHES, **{kind: BOTH for kind in OF_TWO}}.get(
        pair.kind, TRIES + POLLS + WAITS + TIMED + TWICE)
    senders = GUARDS if pair.kind == "watch" else SENDERS
    for script, scripts in ((pair.sender, senders), (pair.receiver, receivers)):
        for word in script.split():
            if word not in words_in(scripts):
                return f"unknown word{', with ' + pair.kind if pair.kind else ''}: {word}"
    for word in pair.settings.split():
        if not SETTINGS.fullmatch(word):
            return f"unknown setting: {word}"
    if pair.kind in OF_TWO and pair.receiver.split()[-1:] not in (["drop"], ["recv"]):
        return "a receiver of two channels is dropped"
    return ""


def may_miss(pair):
    """Whether the runs may miss orders of the model, whose waits may end by chance more often than the scheduler's."""
    return bool(re.search(r"recv|ref|forever|timeout|deadline", pair.receiver))


def name_of(pair):
    words = [pair.kind, f"S {pair.sender}".strip(), f"R {pair.receiver}".strip()]
    return " ".join(word for word in words if word) + (f" ({pair.settings})" if pair.settings else "")


@functools.cache
def scripts_of(pair):
    """Both scripts as lines of an input of oneshot-run, which knows no raw values and no lengths of timeouts."""
    sender = re.sub(r"\braw *", "", pair.sender).replace("send", "send 7")
    receiver = re.sub(r"\braw *|\bfar|\bzero", "", pair.receiver)
    receiver = re.sub(r"\bpoll([12])", r"poll \1", receiver)
    lines = [pair.kind] if pair.kind in OF_TWO else []
    lines += ["refused"] if "refused=1" in pair.settings else []
    return "".join(f"{line}\n" for line in [*lines, f"S {sender}".strip(), f"R {receiver}".strip()])


def arguments_of(pair):
    return [*pair.kind.split(), "S", *pair.sender.split(), "R", *pair.receiver.split()]
