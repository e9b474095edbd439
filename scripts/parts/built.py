"""The compiled programs: those that `rt ci` left in out/, or built now; and the scheduler."""
import hashlib
import os
import pathlib
import re
import shutil
import subprocess
import sys

from parts.compare import Differs
from parts.groups import run
from parts.sources import CRATES, beneath

SCHEDULER = CRATES.parent / "scripts" / "parts" / "schedules"
# The ending of what a compiler makes, as `rt ci` names it.
ENDINGS = {"llvm": "", "rattle": ".by-rattle"}


def sources_of(crate):
    """What a program is built from: its crate's sources and those beneath it, the list of the crates, and the
    toolchain."""
    files = [file for name in beneath(crate) for part in ("src", "specs", "proofs")
             for file in sorted((CRATES / name / part).rglob("*"))]
    rt = pathlib.Path(shutil.which("rt") or "").resolve()
    files += [CRATES.parent / "crates.txt", CRATES / crate / "args", rt, rt.parent.parent / "KIT-ID"]
    return [file for file in files if file.is_file()]


def digest_of(*files):
    """A digest of files, each with its path."""
    digest = hashlib.sha256()
    for file in files:
        digest.update(f"{os.path.relpath(file, CRATES)}\0{file.stat().st_size}\0".encode())
        digest.update(file.read_bytes())
    return digest.hexdigest()


def build_program(crate, compiler):
    """Builds the program, which `rt` puts in the place of LLVM's whatever the compiler."""
    folder = CRATES / crate
    made, program = folder / "out" / crate, folder / "out" / f"{crate}{ENDINGS[compiler]}"
    kept = made.read_bytes() if made != program and made.exists() else None
    words = (folder / "args").read_text().split() if (folder / "args").exists() else []
    is_built = False
    try:
        with open(folder / "stdin" if (folder / "stdin").exists() else os.devnull) as given:
            run(["rt", "run", "--backend", compiler, "--", *words], cwd=folder, stdin=given, stdout=subprocess.DEVNULL)
        is_built = True
    finally:
        # An interrupt may leave the other compiler's program in the place of LLVM's.
        if made != program and made.exists():
            shutil.move(made, program) if is_built else made.unlink()
        if kept:
            made.write_bytes(kept)
            made.chmod(0o755)


def find_program(crate, compiler="llvm"):
    program = CRATES / crate / "out" / f"{crate}{ENDINGS[compiler]}"
    if not is_new(program, crate):
        print(f"proving and building {crate}, which takes minutes the first time", file=sys.stderr,
              flush=True)
        build_program(crate, compiler)
        record_of(program).unlink(missing_ok=True)
    if not is_new(program, crate):
        raise Differs(f"{crate} was not built")
    return str(program)


def record_of(program):
    return program.with_name(f"{program.name}.sources")


def is_new(program, crate):
    """Whether a program is built from what its sources are now. A record beside it has the digests of both; a program
    beside the record of another is built anew. A program without a record was built by `rt`, which writes none: it has
    to be newer than each source, and gets one."""
    if not program.exists():
        return False
    record, sources = record_of(program), sources_of(crate)
    made, told = digest_of(program), digest_of(*sources)
    if record.exists():
        return record.read_text().split() == [made, told]
    is_newer = program.stat().st_mtime >= max(file.stat().st_mtime for file in sources)
    if is_newer:
        record.write_text(f"{made} {told}\n")
    return is_newer


def compile_library(made, files, *flags):
    """A library of C that is loaded before a program."""
    if re.search(r"[\s:]", str(made)):
        raise Differs(f"{made.parent}: LD_PRELOAD takes no name with a space or a colon: set TMPDIR to another folder")
    words = [os.environ.get("CC", "cc"), "-O2", "-Wall", "-Wextra", "-shared", "-fPIC", *flags, "-o", made, *files]
    ran = subprocess.run(words, capture_output=True, text=True)
    if ran.returncode or ran.stderr or not made.exists():
        raise Differs(ran.stderr or "the C compiler made no library")
    return str(made)


def codes():
    """The codes that the scheduler reads, for the C compiler."""
    found = re.findall(r"(?m)^pub const (\w+): u64 = (\d+);$", (CRATES / "oneshot_codes/src/lib.rt").read_text())
    return [f"-D{name}={number}" for name, number in found if int(number) < 100]


def compile_scheduler(folder):
    files = sorted(SCHEDULER.glob("*.c"))
    return compile_library(folder / "schedules.so", files, "-ftls-model=initial-exec", *codes())
