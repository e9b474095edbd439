"""The inputs whose digests oneshot_trace_audit compares, and the first of them on which a program differs."""
import re
import subprocess

from parts.compare import Differs
from parts.reference import reference
from parts.sources import CRATES

SOURCE = CRATES / "oneshot_trace_audit/src/drawn.rt"
SEEDS = range(1, 10_001)
MOVES = 64
PAIR = re.compile(r'"(S[^"\\]*)\\n(R[^"\\]*)",\s*0x[0-9a-f_]+,\s*(0x[0-9a-f_]+)')
MASK = 2**64 - 1


def pairs():
    """The lines of each pair of scripts, with the digest of the pair's texts."""
    return [(sender, receiver, int(digest, 16)) for sender, receiver, digest in PAIR.findall(SOURCE.read_text())]


def schedule(seed):
    """The letters of the moves that a seed draws, by shifts of 64 bits."""
    state, letters = seed, ""
    for _ in range(MOVES):
        state ^= state << 13 & MASK
        state ^= state >> 7
        state ^= state << 17 & MASK
        letters += "ssssrron"[state % 8]
    return letters


def text_of(sender, receiver, seed):
    return "\n".join(reference(sender, receiver, schedule(seed))) + "\n"


def digest_of(sender, receiver):
    """The 64-bit FNV-1a digest of the texts of a pair."""
    state = 0xcbf29ce484222325
    for seed in SEEDS:
        for byte in text_of(sender, receiver, seed).encode():
            state = (state ^ byte) * 0x100000001b3 & MASK
    return state


def hold_digests(sender, receiver, digest):
    """The reference's texts of a pair have the digest of the tests."""
    if digest_of(sender, receiver) != digest:
        raise Differs(f"{sender} beside {receiver}: parts/reference.py has another digest than drawn.rt")
    return f"{sender} beside {receiver}: the digest of drawn.rt"


def hold_program(program, sender, receiver):
    """A program prints the reference's text for each input of a pair; else the first line of the first that differs."""
    for seed in SEEDS:
        given = f"{sender}\n{receiver}\nX {schedule(seed)}\n"
        printed = subprocess.run([program], input=given, capture_output=True, text=True, check=False).stdout.split("\n")
        wanted = text_of(sender, receiver, seed).split("\n")
        for number, (one, other) in enumerate(zip([*printed, "", ""], wanted), 1):
            if one != other:
                raise Differs(f"{given}line {number}: {one or 'nothing'}\nby the reference: {other or 'nothing'}")
    return f"{sender} beside {receiver}: {len(SEEDS):,} inputs, none differs"
