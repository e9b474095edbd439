"""Damages of the channel that no contract could state or that a proof would refuse. Each is planted in a copy, which is
built unproved, and some run of its pair has to differ. For that it makes a copy of the toolchain in which a stub,
`unproved.c`, stands in the place of the address sanitizer, and takes the program that `rt try` runs."""
import os
import pathlib
import shutil
import subprocess
import tempfile

from parts.compare import Differs
from parts.groups import run
from parts.pairs import Pair, name_of
from parts.sources import CRATES

STUB = CRATES.parent / "scripts" / "parts" / "unproved.c"
# What is planted, the reason for which runs differ, the file, its text and the other, and the pair that shows it.
DAMAGES = [
    ("the token is not given: a wakeup is lost", "a wakeup is lost", "oneshot_ends/src/token.rt",
     "unparker.unpark_as::<Gives>(&mut pass);", "drop(unparker);", Pair("", "send", "recv", "")),
    ("both ends have one share: a freed block is read", "a freed block is accessed", "oneshot_word/src/opening.rt",
     "Arc::try_clone(&table)?", "unsafe { std::ptr::read(&table) }", Pair("", "send", "try drop", "")),
]


def plant(crates, file, text, other):
    source = crates / file
    before = source.read_text()
    if before.count(text) != 1:
        raise Differs(f"{file} does not have exactly once: {text}")
    source.write_text(before.replace(text, other))


def run_tool(*words):
    ran = subprocess.run(words, capture_output=True, text=True)
    if ran.returncode:
        raise Differs(f"{words[0]}: {ran.stderr}")


def make_kit(folder, copy):
    """A toolchain in whose sanitizer's place the stub stands, which keeps the program as `copy`."""
    kit, made = pathlib.Path(shutil.which("rt")).resolve().parent.parent, folder / "kit"
    for part in ("", "bin", "c"):
        (made / part).mkdir(exist_ok=True)
        for file in (kit / part).iterdir():
            if file.name not in ("bin", "c", "asan.a", "rt", "rtlib.py"):
                (made / part / file.name).symlink_to(file)
    # The two files of the command find the toolchain by their own place.
    for name in ("rt", "rtlib.py"):
        shutil.copy(kit / "bin" / name, made / "bin")
    stub = folder / "unproved.o"
    run_tool(os.environ.get("CC", "cc"), "-O2", f'-DCOPY="{copy}"', "-c", str(STUB), "-o", str(stub))
    run_tool("ar", "rcs", str(made / "c" / "asan.a"), str(stub))
    return made / "bin" / "rt"


def build_unproved(folder, damage=None):
    """The program with a damage, if there is one, built without a proof."""
    copy = folder / "program"
    shutil.copytree(CRATES, folder / "crates", ignore=shutil.ignore_patterns("out", "must-fail"))
    shutil.copy(CRATES.parent / "crates.txt", folder)
    if damage:
        plant(folder / "crates", *damage)
    said, _ = run([str(make_kit(folder, copy)), "try", "--steps", "1"], stdin=subprocess.DEVNULL,
                  cwd=folder / "crates" / "oneshot_explored", stdout=subprocess.PIPE, stderr=subprocess.STDOUT,
                  text=True)
    if not copy.exists():
        raise Differs(said)
    return str(copy)


def is_seen(result, why):
    """Whether the runs are told, and some differ for this reason; without a reason, whether they are right."""
    if why is None:
        return result.complete and not result.wrong()
    reasons = [line.rpartition(": ")[2] for line in result.written.splitlines() if line.startswith("differs: ")]
    return result.is_told and result.differ > 0 and why in reasons


def see_each(explorer_of, title, why, damage, pairs):
    """Builds a program, and tells whether each pair shows what it has to."""
    right = True
    with tempfile.TemporaryDirectory() as folder:
        explorer = explorer_of(build_unproved(pathlib.Path(folder), damage))
        for pair in pairs:
            result = explorer.explore(pair)
            seen = is_seen(result, why)
            print(f"{title}: {name_of(pair)}: {result.differ:,} of {result.runs:,} runs differ"
                  f"{'' if seen else ', WHICH IS WRONG'}")
            shown = result.written if result.differ or not seen else ""
            print("".join(f"    {line}\n" for line in shown.splitlines()), end="", flush=True)
            right = right and seen
    return right


def see_damages(explorer_of):
    """Whether each damage is seen for its reason, and nothing without one."""
    right = see_each(explorer_of, "no damage", None, None, [pair for *_, pair in DAMAGES])
    for title, why, *damage, pair in DAMAGES:
        right = see_each(explorer_of, title, why, damage, [pair]) and right
    return right
