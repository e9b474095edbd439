"""A copy of this library in a temporary folder, and calls of its scripts that add it to another folder there."""
import collections
import hashlib
import os
import pathlib
import re
import runpy
import shutil
import sys
import tempfile
import traceback

from parts.compare import Differs, none_of
from parts.sources import CRATES, text_of

TOP = CRATES.parent
CALLED = ("add-to", "release", "parts/copies.py", "parts/groups.py", "parts/names.py", "parts/places.py",
          "parts/sources.py")
FILES = ("crates.txt", "HANDLES", "LICENSE-APACHE", "LICENSE-MIT", "CHANGELOG.md")
KILLED = 9
Ran = collections.namedtuple("Ran", "status output errors")


def stop_at(writes, error, folder):
    """Kills this process at its Nth write below a folder, in the middle of the file that it writes; or has the write
    fail with this error."""
    left = [writes]

    def stop(event, given):
        writes = event in ("os.mkdir", "os.rename", "os.remove", "os.rmdir") or event == "open" and given[2] & 3
        if not writes or not str(given[0]).startswith(folder):
            return
        left[0] -= 1
        if left[0] < 0 and error:
            raise OSError(error, os.strerror(error), str(given[0]))
        if left[0] < 0:
            left[0] = 9
            if event == "open":
                pathlib.Path(given[0]).write_text("half of it")
            os._exit(KILLED)

    sys.addaudithook(stop)


class Compared:
    """How many things were compared. The first that differs ends the comparison."""

    def __init__(self):
        self.count = 0

    def same(self, what, found, expected):
        self.count += 1
        if found != expected:
            raise Differs(f"{what}: {str(found)[:300]}, in place of {str(expected)[:300]}")

    def works(self, what, ran):
        self.same(what, [ran.status, ran.errors], [0, ""])

    def says(self, what, text, words):
        self.count += 1
        if words not in text:
            raise Differs(f"{what}: it does not say: {words}\n{text[:300]}")

    def same_files(self, what, found, expected):
        names = sorted({*found, *expected})
        self.count += len(names)
        none_of([f"{what}: {name}: {str(found.get(name, 'not there'))[:200]}, in place of "
                 f"{str(expected.get(name, 'not there'))[:200]}"
                 for name in names if found.get(name) != expected.get(name)])

    def refused(self, what, ran, words):
        """It ended with status 2 and one sentence that has these words, and not with an error's number or a trace."""
        self.same(f"{what}: status", ran.status, 2)
        self.says(what, ran.errors, words)
        self.same(f"{what}: lines of errors", [len(ran.errors.splitlines()), "Errno" in ran.errors], [1, False])

    def told(self, what):
        """How many things were compared."""
        return {what: self.count}


def read_from(stream):
    stream.seek(0)
    return stream.read()


def files_in(folder):
    """The files and links in a folder, by their names from there on."""
    names = [pathlib.Path(at, name) for at, folders, files in os.walk(folder) for name in [*files, *folders]]
    return {name.relative_to(folder).as_posix(): f"a link to {os.readlink(name)}" if name.is_symlink()
            else name.read_bytes() for name in names if name.is_symlink() or name.is_file()}


def brought_by(crate):
    """The crates that a call for this one has to bring."""
    lines = (TOP / "scripts" / "parts" / "added.txt").read_text().splitlines()
    return next(line.split(": ")[1].split(" ") for line in lines if line.startswith(f"{crate}: "))


class Library:
    """A copy of this library: whole, or `small`, with one source file a crate. Nothing is proved of it, but some crates
    have a folder out/ as if it were."""

    def __init__(self, small=True):
        self.room = tempfile.TemporaryDirectory()
        self.top, self.mine = pathlib.Path(self.room.name, "library"), pathlib.Path(self.room.name, "mine")
        for name in CALLED:
            # As text, so that a difference that is planted in it is in the copy.
            self.put(f"scripts/{name}", text_of(TOP / "scripts" / name))
        for name in ("add-to", "release"):
            (self.top / "scripts" / name).chmod(0o755)
        for name in FILES:
            self.put(name, text_of(TOP / name))
        self.version = re.search(r"(?m)^## ([0-9.]+)", (TOP / "CHANGELOG.md").read_text())[1]
        for crate in [*brought_by("oneshot"), "hello"]:
            self.copy_crate(crate, small)
        self.put("crates/oneshot_machine/out/rlib/stamp", "proved")
        self.put("crates/oneshot_machine/out/incremental/a/b.oantt", "kept")
        self.put("crates/oneshot_errors/out/rlib/stamp", "proved")
        self.put("bin/rt", "#!/bin/sh\necho \"rt $* in $(basename \"$PWD\")\" >> \"$ASKED\"\nexit \"$RT_STATUS\"\n")
        (self.top / "bin" / "rt").chmod(0o755)

    def __enter__(self):
        return self

    def __exit__(self, *_):
        self.room.cleanup()

    def put(self, name, text):
        (self.top / name).parent.mkdir(parents=True, exist_ok=True)
        (self.top / name).write_text(text)

    def copy_crate(self, crate, small):
        if small:
            root = "main.rt" if (CRATES / crate / "src" / "main.rt").exists() else "lib.rt"
            self.put(f"crates/{crate}/src/{root}", (CRATES / crate / "src" / root).read_text())
            self.put(f"crates/{crate}/must-fail/first.edit", "left out")
            if (CRATES / crate / "stdout").exists():
                self.put(f"crates/{crate}/stdout", (CRATES / crate / "stdout").read_text())
        else:
            shutil.copytree(CRATES / crate, self.top / "crates" / crate, ignore=shutil.ignore_patterns("out"))

    def call(self, script, *words, stop=None, toolchain=None):
        """Calls a script; with `toolchain`, a status, a stand-in for `rt` that ends with it and tells of its calls."""
        sys.stdout.flush()
        with tempfile.TemporaryFile("w+") as output, tempfile.TemporaryFile("w+") as errors:
            # A child has Python and its modules loaded, which saves most of the time of a call.
            child = os.fork()
            if child == 0:
                os.dup2(output.fileno(), 1)
                os.dup2(errors.fileno(), 2)
                self.become(self.top / "scripts" / script, words, stop, toolchain)
            status = os.waitstatus_to_exitcode(os.waitpid(child, 0)[1])
            return Ran(status, read_from(output), read_from(errors))

    def become(self, script, words, stop, toolchain):
        """Runs a script in place of this process."""
        status = 1
        try:
            os.chdir(self.room.name)
            os.environ |= {"ASKED": f"{self.room.name}/asked", "RT_STATUS": str(toolchain)}
            if toolchain is not None:
                os.environ["PATH"] = f"{self.top}/bin:{os.environ['PATH']}"
            for name in [name for name in sys.modules if name.split(".")[0] == "parts"]:
                del sys.modules[name]
            sys.path[0], sys.argv = str(script.parent), [str(script), *map(str, words)]
            if stop:
                stop_at(*stop, str(self.mine))
            runpy.run_path(str(script), run_name="__main__")
            status = 0
        except SystemExit as end:
            status = end.code
        except BaseException:
            traceback.print_exc()
        finally:
            sys.stdout.flush()
            sys.stderr.flush()
            os._exit(status)

    def add(self, *words, **options):
        return self.call("add-to", self.mine, *words, toolchain=options.pop("toolchain", 0), **options)

    def add_up_to(self, writes, *words, error=0):
        """Adds to the folder up to so many writes, and is killed there, or meets this error."""
        return self.add(*words, stop=(writes, error))

    def lines_of(self, names):
        lines = (self.top / "crates.txt").read_text().splitlines()
        return [line for line in lines for name in names if line.startswith((f"{name}:", f"{name} "))]

    def files_of(self, names):
        """The files of these crates but the must-fail edits, by their names from the top on."""
        found = {f"crates/{name}/{file}": text for name in names
                 for file, text in files_in(self.top / "crates" / name).items()}
        return {name: text for name, text in found.items() if "/must-fail/" not in name}

    def expected(self, crate, program=None):
        """All files that have to be there after a call for a crate, and a program."""
        names = brought_by(crate)
        found, lines = self.files_of(names), self.lines_of(names)
        for name in ("LICENSE-APACHE", "LICENSE-MIT"):
            found[f"hekotumi/{name}"] = (self.top / name).read_bytes()
        found["hekotumi/files.txt"] = self.record_of(found, lines)
        found[".gitignore"] = b"crates/*/out/\n"
        found["HANDLES"] = b"Handles allowed: Threads, Wait.\n"
        if program:
            for name in ("src/main.rt", "stdout"):
                found[f"crates/{program}/{name}"] = (self.top / "crates" / "hello" / name).read_bytes()
            lines.append(f"{program} may_wait=1: oneshot_channel")
        found["crates.txt"] = "".join(f"{line}\n" for line in lines).encode()
        return found

    def record_of(self, files, lines):
        sums = {name: text for name, text in files.items() if "/out/" not in name}
        sums |= {f"crates.txt:{line.replace(':', ' ').split(' ')[0]}": line.encode() for line in lines}
        told = [f"{hashlib.sha256(sums[name]).hexdigest()}  {name}\n" for name in sorted(sums)]
        return f"Hekotumi {self.version}, of no commit\n{''.join(told)}".encode()
