"""What no contract states, as docs/TRUST.md prints it: which functions reach the shared table, which look, which pause
or have a loop, and which lines are unsafe or could forget a value."""
import re

from parts.functions import functions
from parts.printed import shown, table
from parts.sources import code_of, section, sources

# Of which crates the functions are read, the words by which one reaches the table, looks, or pauses, and those of them
# that are also looked for beside the functions.
REACHES = {
    "table": (["oneshot_word"], "table|seat|made|[Pp]eek", "[Pp]eek"),
    "looks": (["oneshot_ends", "oneshot_reply", "oneshot_watch"],
              r"(?:\w+\s*\.\s*)*(?:[Pp]eek|is_closed|has_message|is_cancelled)", "[Pp]eek"),
    "pauses": (section("The channel"), r"(?:\w+\s*\.\s*)*(?:yield_now|spin_loop|sleep|forever)",
               "yield_now|spin_loop|sleep|forever"),
}
# By `unsafe` a function could get past what a type may not do; by the others it could forget a value.
UNSAFE = re.compile(r"\b(?:unsafe|forget|ManuallyDrop|MaybeUninit|leak|(?:Box|Arc|Rc)::into_raw)\b")


def uses(code, words):
    """Each use of these words in a text, with the fields and calls that follow."""
    return [re.sub(r"\s", "", use) for use in re.findall(rf"\b(?:{words})\b(?:\s*\.\s*\w+)*", code)]


def done_in(file, words, beside):
    """What each function of a file does with these words, and where those of `beside` are named beside them. A loop is
    always read, since it makes an operation more than once."""
    code = rest = code_of(file)
    for name, _, head, body in functions(code):
        yield f"`{name}`", uses(body, f"{words}|for|while|loop")
        rest = rest.replace(head + body, "")
    yield "beside the functions", uses(rest, beside)


def reaches(what):
    """Prints which functions reach this, and what each does there in its order."""
    crates, words, beside = REACHES[what]
    return table(["Function", "File", "In this order"], [
        (name, shown(file), ", ".join(f"`{use}`" for use in used))
        for file in sources(*crates) for name, used in done_in(file, words, beside) if used])


def unsafe():
    """Prints the lines of the channel that are unsafe or could forget a value."""
    return table(["File", "Line"], [
        (shown(file), f"`{line.strip()}`") for file in sources(*section("The channel"))
        for line in code_of(file).split("\n") if UNSAFE.search(line)])
