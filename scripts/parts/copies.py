"""The library's files in a repository of somebody else, and the record of what was copied.

The record is written before the first copy and again after the last. In between it has for each file the sums that the
file may have, so that a call which was stopped is taken up by the next one."""
import hashlib
import os
import re
import shutil
import subprocess

from parts.places import FILE, FOLDER, Refused, look_above, look_at

LEFT_OUT = {"must-fail", "out"}
LICENSES = ("LICENSE-APACHE", "LICENSE-MIT")
UNFINISHED = "not finished: call scripts/add-to again"
IGNORED = "crates/*/out/"
# The lines of a .gitignore each of which leaves crates/*/out/ out.
IGNORING = {f"{start}out{end}" for start in ("", "**/", "crates/*/", "/crates/*/") for end in ("", "/")}


def sum_of(file):
    return hashlib.sha256(file.read_bytes()).hexdigest()


def sum_of_line(line):
    return hashlib.sha256(line.encode()).hexdigest()


def commit_of(top):
    """The commit of this checkout, and whether its files differ from it."""
    # Its own: a folder without one may lie in a repository of somebody else.
    own = [f"--git-dir={top}/.git", f"--work-tree={top}"]
    told = subprocess.run(["git", *own, "describe", "--always", "--dirty", "--abbrev=40"], cwd=top,
                          capture_output=True, text=True)
    return told.stdout.strip() or "of no commit"


def version_of(top):
    return re.search(r"(?m)^## (\S+?),? ", (top / "CHANGELOG.md").read_text() + " ")[1]


def crate_of(line):
    """The crate that a line of crates.txt is about, or "" where it is about none."""
    return re.match(r"\s*([^\s:#]*)", line)[1]


class Copies:
    """What one call copies to a folder: `plan` each crate, file and line, then `begin`, copy, and `finish`."""

    def __init__(self, top, folder):
        self.top, self.folder = top, folder
        self.list, self.part = folder / "hekotumi" / "files.txt", folder / "hekotumi" / "part"
        self.look_at_places()
        self.known = self.read_record()
        self.planned, self.head = {}, f"Hekotumi {version_of(top)}, {commit_of(top)}"

    def look_at_places(self):
        look_above(self.folder)
        if self.top in [self.folder.resolve(), *self.folder.resolve().parents]:
            raise Refused(f"{self.folder} is in this repository")
        for name in ("crates", "hekotumi"):
            look_at(self.folder / name, FOLDER)
        for name in ("crates.txt", "HANDLES", ".gitignore", "hekotumi/files.txt"):
            look_at(self.folder / name, FILE)

    def read_record(self):
        """For each file and line that was copied earlier, the sums that it may have."""
        known = {}
        for line in self.list.read_text().splitlines()[1:] if self.list.exists() else []:
            found = re.fullmatch(r"([0-9a-f]{64})  (.+)", line)
            if not found:
                raise Refused(f"{self.list} has a line that is no sum and name: {line}")
            known.setdefault(found[2], set()).add(found[1])
        return known

    def files_of(self, crate):
        """Each file of a crate that is copied, by its name from the top on."""
        source = self.top / "crates" / crate
        return {file.relative_to(self.top).as_posix(): file for file in sorted(source.rglob("*"))
                if file.is_file() and file.relative_to(source).parts[0] not in LEFT_OUT}

    def has(self, crate):
        return any(name.startswith(f"crates/{crate}/") for name in self.known)

    def plan_crates(self, crates):
        for crate in crates:
            look_at(self.folder / "crates" / crate, FOLDER)
            if (self.folder / "crates" / crate).exists() and not self.has(crate):
                raise Refused(f"crates/{crate} is there, and hekotumi/files.txt has no file of it: move it away first")
            self.planned |= {name: sum_of(file) for name, file in self.files_of(crate).items()}

    def plan_licenses(self):
        self.planned |= {f"hekotumi/{name}": sum_of(self.top / name) for name in LICENSES}

    def plan_lines(self, lines):
        self.planned |= {f"crates.txt:{crate_of(line)}": sum_of_line(line) for line in lines}

    def plan_program(self, name, files):
        """A program is made once: only a call that was stopped leaves it in the record."""
        place, lines = self.folder / "crates" / name, map(crate_of, self.lines_there())
        look_at(place, FOLDER)
        if not self.has(name) and place.exists():
            raise Refused(f"crates/{name} is there: take another name")
        if not self.has(name) and name in lines:
            raise Refused(f"crates.txt has a line for {name}: take another name")
        self.planned |= {there: sum_of(file) for there, file in files.items()}

    def begin(self):
        """Writes the record with the sums from before and those to come, before anything is copied."""
        if self.list.exists() and UNFINISHED in self.list.read_text():
            print("takes up what an earlier call began")
        both = {name: self.known.get(name, set()) | {self.planned.get(name)} - {None}
                for name in {**self.known, **self.planned}}
        self.record(both, f"; {UNFINISHED}")

    def finish(self, program=None):
        """Writes the record of what is there now; a program is its owner's from then on."""
        kept = {name: sums for name, sums in self.known.items()
                if name.startswith("crates.txt:") or (self.folder / name).exists()}
        done = {name: {total} for name, total in self.planned.items()}
        own = {name: sums for name, sums in {**kept, **done}.items()
               if not program or name != f"crates.txt:{program}" and not name.startswith(f"crates/{program}/")}
        self.record(own, "")

    def record(self, entries, state):
        lines = "".join(f"{total}  {name}\n" for name in sorted(entries) for total in sorted(entries[name]))
        self.write(self.list, f"{self.head}{state}\n{lines}")

    def write(self, file, text):
        """Writes a file as a whole, or not at all."""
        self.part.parent.mkdir(parents=True, exist_ok=True)
        self.part.write_text(text)
        shutil.move(self.part, file)

    def is_own(self, name):
        """Whether a file there is as the library had it, or is not there."""
        there = self.folder / name
        if not os.path.lexists(there):
            return True
        return there.is_file() and sum_of(there) in {*self.known.get(name, ()), self.planned.get(name)}

    def is_there(self, name):
        there = self.folder / name
        return there.is_file() and sum_of(there) == self.planned[name]

    def copy_file(self, source, name):
        there = self.folder / name
        if self.is_there(name):
            return
        if not self.is_own(name):
            print(f"stays as it is: {name}, which was changed there")
            return
        there.parent.mkdir(parents=True, exist_ok=True)
        shutil.copyfile(source, self.part)
        shutil.move(self.part, there)

    def copy_crate(self, crate):
        files, gone = self.files_of(crate), self.gone_from(crate)
        news = [name for name in files if not self.is_there(name)]
        stays = [name for name in news if not self.is_own(name)]
        changed, had = len(news) - len(stays) + len(gone), self.has(crate)
        with_proofs = self.wants_proofs(crate, changed)
        for name in news:
            self.copy_file(files[name], name)
        for name in gone:
            (self.folder / name).unlink()
        if with_proofs:
            self.copy_proofs(crate)
        print(f"{'as it was' if not changed else 'updated' if had else 'added'}: crates/{crate}"
              + (f" ({changed} files)" if changed else ""))

    def gone_from(self, crate):
        """The files that the library has no more, and that were not changed there."""
        old = [name for name in self.known if name.startswith(f"crates/{crate}/") and name not in self.planned]
        return [name for name in old if self.is_own(name) and (self.folder / name).exists()]

    def wants_proofs(self, crate, changed):
        """Whether what is proved of a crate has to be copied. The folder out/part marks that it has not been yet."""
        out = self.folder / "crates" / crate / "out"
        if not (self.top / "crates" / crate / "out").exists():
            return False
        if not changed and out.exists() and not (out / "part").exists():
            return False
        (out / "part").mkdir(parents=True, exist_ok=True)
        return True

    def copy_proofs(self, crate):
        """Copies what is proved of a crate, so that it is not proved again."""
        source, there = self.top / "crates" / crate / "out", self.folder / "crates" / crate / "out"
        for old in [*there.iterdir(), *(there / "part").iterdir()]:
            if old != there / "part":
                shutil.rmtree(old) if old.is_dir() and not old.is_symlink() else old.unlink()
        shutil.copytree(source, there / "part", symlinks=True, dirs_exist_ok=True)
        for new in (there / "part").iterdir():
            new.rename(there / new.name)
        (there / "part").rmdir()

    def copy_licenses(self):
        for name in LICENSES:
            self.copy_file(self.top / name, f"hekotumi/{name}")

    def make_program(self, name, files):
        for there, file in files.items():
            self.copy_file(file, there)
        print(f"made: crates/{name}, which `rt run --jobs 4` proves and runs")

    def lines_there(self):
        file = self.folder / "crates.txt"
        return file.read_text().splitlines() if file.exists() else []

    def add_lines(self, lines):
        """Adds the lines to crates.txt, in place of the library's earlier ones of the same crates."""
        there, before = self.lines_there(), self.lines_there()
        for line in lines:
            name = f"crates.txt:{crate_of(line)}"
            at = next((at for at, other in enumerate(there) if crate_of(other) == crate_of(line)), None)
            if at is None:
                there.append(line)
            elif sum_of_line(there[at]) in self.known.get(name, ()):
                there[at] = line
            elif there[at] != line:
                print(f"stays as it is: crates.txt: {there[at]!r}, which was changed there; the library's is {line!r}")
        if there != before:
            self.write(self.folder / "crates.txt", "\n".join(there) + "\n")

    def add_handles(self):
        file, needed = self.folder / "HANDLES", (self.top / "HANDLES").read_text()
        if not file.exists():
            self.write(file, needed)
        allowed, words = set(re.findall(r"\w+", file.read_text())), re.findall(r"\w+", needed.split(":")[1])
        if not allowed.issuperset(words):
            print(f"stays as it is: HANDLES, which must allow {', '.join(words)}")

    def ignore_proofs(self):
        """Keeps what `rt` makes, gigabytes, out of the commits. `rt new` also adds such a line."""
        file = self.folder / ".gitignore"
        text = file.read_text() if file.exists() else ""
        if not IGNORING & {line.strip() for line in text.splitlines()}:
            self.write(file, text + ("\n" if text and not text.endswith("\n") else "") + f"{IGNORED}\n")
            print(f"added to .gitignore: {IGNORED}")
