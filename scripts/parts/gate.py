"""What the gate itself has to do: it makes each of its calls, and fails if one fails; and each script makes each of its
comparisons."""
import collections
import os
import pathlib
import re
import signal
import subprocess
import tempfile

from parts.compare import none_of
from parts.sources import CRATES, place, text_of

SCRIPTS, GATE = CRATES.parent / "scripts", CRATES.parent / ".ci" / "run"
# Scripts for users, and one that measures.
TOOLS = {"add-to", "release", "benchmark"}
# What a script without a comparison must have: its last line, and what it tries before it begins.
TRIES = {"schedules": [
    "sees_planted(lambda result: not is_right([result], 1, 2), told)",
    "if not result.is_told or result.differ == 0:", "\nsys.exit(0 if main() else 1)\n",
]}
# What stands for `rt` and for each script: it notes its call, and ends as FAILS and KILLS have it.
CALL = """#!/bin/sh
call="${0##*/}${1:+ $1}"
echo "$call" >> "$CALLED"
"""
SCRIPT = CALL + """[ "$call" != "$KILLS" ] || kill -s KILL "$PPID"
[ "$call" != "$FAILS" ]
"""
TOOLCHAIN = CALL + """echo "$SAYS"
echo '2 passed, 0 failed'
[ -z "$WAITS" ] || exec sleep 600
exit "$STATUS"
"""
# How the gate ended: its status, its last line, and the calls that were made.
Ended = collections.namedtuple("Ended", "status last calls")


def calls_of(text):
    """The scripts that the gate calls, each with its flag."""
    return re.findall(r"[a-z]+(?: --\w+)?", " ".join(re.findall(r"(?m)^ *for script in (.*); do$", text)))


def put(file, text):
    file.parent.mkdir(parents=True, exist_ok=True)
    file.write_text(text)
    file.chmod(0o755)


class Room:
    """A folder with the gate, and with what stands for `rt` and for the scripts."""

    def __init__(self, folder):
        self.folder = pathlib.Path(folder)
        put(self.folder / ".ci/run", text_of(GATE))
        put(self.folder / "bin/rt", TOOLCHAIN)
        for name in {call.split()[0] for call in calls_of(text_of(GATE))}:
            put(self.folder / "scripts" / name, SCRIPT)

    def start(self, **ways):
        """Starts the gate."""
        ways = {"CALLED": f"{self.folder}/called", "PATH": f"{self.folder}/bin:{os.environ['PATH']}",
                "FAILS": "", "KILLS": "", "SAYS": "", "WAITS": "", "STATUS": "0", "TMPDIR": f"{self.folder}", **ways}
        (self.folder / "called").write_text("")
        return subprocess.Popen([self.folder / ".ci/run"], env={**os.environ, **ways}, text=True,
                                stdout=subprocess.PIPE, stderr=subprocess.DEVNULL, start_new_session=True)

    def end(self, gate):
        """How the gate ends."""
        written, _ = gate.communicate()
        return Ended(gate.returncode, (written.splitlines() or [""])[-1],
                     sorted((self.folder / "called").read_text().splitlines()))

    def stopped(self):
        """Whether a signal ends the gate while `rt` runs, and `rt` too, and leaves no folder."""
        gate = self.start(WAITS="yes")
        while "rt ci" not in (self.folder / "called").read_text():
            if gate.poll() is not None:
                return False
        gate.send_signal(signal.SIGTERM)
        try:
            gate.communicate(timeout=60)
        except subprocess.TimeoutExpired:
            os.killpg(gate.pid, signal.SIGKILL)
            gate.communicate()
            return False
        return gate.returncode == 1 and not list(self.folder.glob("tmp.*"))


def expected_ends():
    """The ways in which `rt` and the scripts may end, each with how the gate has to end."""
    calls = calls_of(text_of(GATE))
    every = sorted([*calls, "rt ci"])
    yield {}, Ended(0, "2 passed, 0 failed", every)
    yield {"STATUS": "1"}, Ended(1, "2 passed, 0 failed", every)
    yield {"SAYS": "a: BAD EDIT: b"}, Ended(1, "failed: bad edits", every)
    yield {"KILLS": calls[-3]}, Ended(1, "failed: the scripts beside rt ci", every)
    yield {"FAILS": calls[0], "STATUS": "1"}, Ended(1, f"failed: scripts/{calls[0]} rt ci", every)
    for call in calls:
        yield {"FAILS": call}, Ended(1, f"failed: scripts/{call}", every)


def compare_ends():
    """The gate makes each call, whatever fails, and fails if one does; a signal ends it."""
    count = 0
    with tempfile.TemporaryDirectory() as folder:
        room = Room(folder)
        for ways, expected in expected_ends():
            ended = room.end(room.start(**ways))
            count += 1
            none_of([f"{place(GATE)}, where {ways}: {ended}, in place of {expected}"] if ended != expected else [])
        none_of([] if room.stopped() else [f"{place(GATE)}: a signal does not end it"])
    return {"ends of the gate": count + 1}


def compare_gate():
    """The gate calls each script of the folder but the tools; each script makes its comparisons."""
    calls = calls_of(text_of(GATE))
    there = {file.name for file in SCRIPTS.iterdir() if file.is_file() and re.fullmatch("[a-z]+(-[a-z]+)*", file.name)}
    texts = {file: re.sub(r"(?m)^ *#.*", "", text_of(file))
             for file in [*(SCRIPTS / name for name in sorted(there)), *sorted(SCRIPTS.glob("parts/*.py"))]}
    made = set(re.findall(r"\bComparison\(\s*(compare_\w+)", "".join(texts.values())))
    defined = [(file, name) for file, text in texts.items() for name in re.findall(r"(?m)^def (compare_\w+)", text)]
    none_of([f"{place(GATE)} calls no scripts/{name}"
             for name in sorted(there - TOOLS - {call.split()[0] for call in calls})]
            + [f"{place(file)}: {name} is in no Comparison" for file, name in defined if name not in made]
            + [f"scripts/{name} does not have: {text}" for name, needed in TRIES.items() for text in needed
               if text not in texts[SCRIPTS / name]])
    return {"calls of scripts": len(calls), "comparisons": len(made)}
