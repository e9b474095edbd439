"""Cases of a program, which `rt try` builds once and runs on each: its input, its exit status and what it writes."""
import contextlib
import difflib
import pathlib
import re
import shutil
import subprocess
import tempfile

from parts import groups
from parts.compare import Differs
from parts.sources import CRATES


@contextlib.contextmanager
def copied_crate(name):
    """This crate in a copy of all: `rt ci` may prove those of the repository meanwhile."""
    with tempfile.TemporaryDirectory() as folder:
        top = pathlib.Path(folder)
        shutil.copytree(CRATES, top / "crates", ignore=shutil.ignore_patterns("out"))
        shutil.copy(CRATES.parent / "crates.txt", top)
        yield top / "crates" / name


def try_program(crate, given, *flags, environment=None):
    """Runs a crate's program on each of these inputs, by their names. What they wrote, and what was said of them."""
    with tempfile.TemporaryDirectory() as folder:
        for name, text in given.items():
            (pathlib.Path(folder) / name).write_bytes(text)
        written, said = groups.run(["rt", "try", *flags, "--cases", folder], cwd=crate, env=environment,
                                   stdin=subprocess.DEVNULL, stdout=subprocess.PIPE, stderr=subprocess.PIPE)
    return written.decode(), said.decode(errors="replace")


def same_lines(what, where, written, expected):
    """The lines that a program wrote are those that stand somewhere, and there are some."""
    if not written:
        raise Differs(f"{where}: the program wrote no {what}")
    if written != expected:
        lines = difflib.unified_diff(written, expected, "the program", where, lineterm="")
        raise Differs("\n".join([*lines, f"{where}: {what}: the program wrote other lines"]))


# What the cases of each program wrote: they run once, however many differences are planted in what they have to write.
RAN = {}


class Cases:
    """Cases of one program, in their order, and what they have to write."""

    def __init__(self):
        self.given, self.output, self.errors = {}, [], []

    def add(self, given, status, error="", output="", argument=None):
        """This input ends with this status and line on standard error, and writes this and nothing else."""
        # rt try takes the cases in the order of their names.
        name = f"case-{len(self.output):02}"
        self.given[name] = given.encode("latin-1")
        if argument:
            self.given[f"{name}.args"] = f"{argument}\n".encode()
        self.output.append(f"== {name}\n{output}")
        self.errors += ([error] if error else []) + [f"{name}: status {status}"]

    def compare(self, name, run):
        """Compares what the cases wrote and how they ended with what they have to. `run` runs them."""
        if name not in RAN:
            RAN[name] = run(self.given)
        written, said = RAN[name]
        # What is left are the program's own lines, and how each case ended.
        told = [re.sub(r"^case=(\S+) run=ended status=(\d+) .*", r"\1: status \2", line) for line in said.splitlines()
                if not re.match(r"(allocations|rt): |cases=", line)]
        same_lines("statuses and errors", f"scripts/faults, {name}", told, self.errors)
        same_lines("output", f"scripts/faults, {name}", written.split("\n"), "".join(self.output).split("\n"))
        return {f"cases of {name}": len(self.output)}
