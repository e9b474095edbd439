"""Lines that no file may have: each rule names files, and what none of their lines may match."""
import functools
import re

from parts.compare import none_of
from parts.sources import CRATES, place, text_of

DEFINITIONS = ("crates/*/specs/**/*.antt", "crates/*/proofs/**/*.antt")
TEXTS = (*DEFINITIONS, "crates/*/src/**/*.rt", "crates/*/must-fail/*.edit",
         ".ci/run", "scripts/[a-z]*[a-z]", "scripts/parts/**/*.py", "scripts/parts/**/*.[ch]")
# 120 columns; 200 of what is one line whatever its length: an import, and a text of a must-fail edit.
LONG = r"^(?! *(?:pub |ghost )?use |old: |new: ).{121}|^.{201}"

# What takes a code of the word, by an example that has a number in place of the name. Operations compute with numbers
# (States.antt), and a written trace has those that its lines print (oneshot_law_examples).
TAKES_A_CODE = {
    "Load 3": r"(?<!O\.)Load", "Swap 2": "Swap", "Store 1": "Store", "Word 4": "Word", "found 2": "found",
    "is_swap_of 3": "is_swap_of", "LastFinds 2": "LastFinds", "MadeLate last 2": r"MadeLate \w+",
    "Exchange 3": "Exchange", "Exchange EMPTY 0": r"Exchange \w+", "at_word 4": "at_word", "not_at 4": "not_at",
    "word == 3": "word ==", "new == 3": "new ==", "expected == 3": "expected ==", "n ≡ 3": r"\bn ≡",
    "word ≡ 3": r"\bword ≡", "x.result ≡ 3": r"\.result ≡", "worded log 2": r"worded \w+",
    "worded (l x) 2": r"worded \([^()]*\)", "Finishes 4": "Finishes", "Owes 4": "Owes",
    "InOrder [] [] 3": r"InOrder \[\] \[\]", "Reaches [] [] 3": r"Reaches \[\] \[\]", "Owned xs ys 1": r"Owned \w+ \w+",
}
CODE_AS_NUMBER = rf"(?:\b|(?=\.))(?:{'|'.join(TAKES_A_CODE.values())}) [0-4]\b|\(\w+, \w+\), [0-4],"

RULES = {
    "files without a long line": (TEXTS, LONG),
    "files that name each code of the word": (DEFINITIONS, CODE_AS_NUMBER),
}


@functools.cache
def files_of(patterns):
    return [file for pattern in patterns for file in sorted(CRATES.parent.glob(pattern)) if file.is_file()]


@functools.cache
def matching(text, pattern):
    wrong = re.compile(pattern)
    return [(number, line.strip()) for number, line in enumerate(text.split("\n"), 1) if wrong.search(line)]


def compare_lines():
    none_of([f"{place(file)}:{number}: no line of {title} may be: {line}"
             for title, (patterns, pattern) in RULES.items() for file in files_of(patterns)
             for number, line in matching(text_of(file), pattern)])
    counts = {title: len(files_of(patterns)) for title, (patterns, _) in RULES.items()}
    return counts | {"words that take a code": len(TAKES_A_CODE)}
