"""The codes, the operations and the transition tables of oneshot_machine, as docs/PROTOCOL.md prints them."""
import re

from parts.pages import TOP, fold
from parts.printed import table
from parts.sources import text_of

SPECS = TOP / "crates" / "oneshot_machine" / "specs"
FAMILIES = ["Look", "TryRecv", "ByRef", "Timed", "Value", "Future", "AsyncDrop", "Drop"]

REPLIES = {
    "Sent": "Ok", "Refused": "Err", "Yes": "true", "No": "false", "Message": "the message", "Empty": "Err(Empty)",
    "Timeout": "Err(Timeout)", "Disconnected": "Err(Disconnected)", "Pending": "Pending", "Future": "the future",
    "Done": "dropped",
}
SIGHTS = {
    "Over true": "over", "Over false": "not over", "Refused true": "refused", "Refused false": "a copy",
    "Token true": "token", "Token false": "spurious", "Done": "",
}
FORMS = {
    "word": ("the same", lambda word: word),
    "new": ("x", lambda word: "x"),
    "word + 1": ("the word and one", lambda word: word + 1),
    "bit_xor word 1": ("the word xor 1", lambda word: word ^ 1),
    "if word == expected then new else word": ("b where the word is a, else the same", lambda word: ""),
}


def equations(file):
    """The equations of the definitions of a file, each with the name of its definition."""
    for definition in re.split(r"(?m)^abbrev pub ", text_of(file))[1:]:
        lines = [line for line in definition.split("\n\n")[0].split("\n") if not line.startswith("--")]
        for equation in re.split(r"\n(?=[a-z])", "\n".join(lines))[1:]:
            left, _, right = fold(equation).partition(" = ")
            yield definition.split()[0], left.partition(" ")[2], right


def with_arguments(text, separator):
    """"Name(first, second)" of "Name first second"."""
    name, *arguments = text.split() or [""]
    return f"{name}({separator.join(arguments)})" if arguments else name


def position(text):
    """A position without its family, with what it keeps in brackets."""
    text = fold(re.sub(r"[()]", " ", text))
    return with_arguments(re.sub(r"^(Look|Try|Ref|Timed|Value|Future|AsyncDrop|Drop) ", "", text), " ")


def operation(text):
    return with_arguments(re.sub(r"^T\.(Word O\.)?", "", re.sub(r"[()]", "", text)), ", ")


def outcome(text):
    if reply := re.match(r"Answers R\.(.*)", text):
        return REPLIES.get(reply[1], f"no word for {reply[1]}")
    return f"`{position(re.sub('^Goes ', '', text))}`"


def sight(text):
    return f"`{text[5:]}`" if text.startswith("Word ") else SIGHTS.get(text, f"no word for {text}")


def outcomes(right):
    """The rows of one position: those beside each other with one outcome are one."""
    groups = []
    for seen, then in re.findall(r"\(([^,]*), (.*?)\)(?= ∷ )", right):
        if not groups or groups[-1][1] != outcome(then):
            groups.append(([], outcome(then)))
        groups[-1][0].append(sight(seen))
    return ". ".join(then if seen == [""] else f"{one_of(seen)}: {then}" for seen, then in groups)


def one_of(words):
    return " or ".join([", ".join(words[:-1]), words[-1]] if len(words) > 1 else words)


def positions(name):
    """The table of the positions of a family, or of the sender."""
    steps, rows = {}, []
    for definition, left, right in equations(SPECS / f"{name}.antt"):
        at = position(left)
        if definition.endswith("_step"):
            steps[at.partition("(")[0]] = operation(right)
        elif definition.endswith("_rows"):
            rows.append((f"`{at}`", f"`{steps[at.partition('(')[0]]}`", outcomes(right)))
    return table(["Position", "Step", "Then"], rows)


def starts(name):
    """The table of the position at which each call begins."""
    return table(["Call", "Begins at"], [
        (f"`{position(left.replace('RS.', ''))}`", f"`{position(right)}`")
        for definition, left, right in equations(SPECS / f"{name}.antt") if definition.endswith("_start")])


def codes():
    code = text_of(TOP / "crates/oneshot_machine/src/states.rt")
    told = re.findall(r"(?m)^/// (.*)\.\npub const ([A-Z]*): u8 = ([0-9]*);$", code)
    return table(["Code", "Name", "Meaning"], [(number, f"`{name}`", meaning) for meaning, name, number in told])


def operations():
    rows = {}
    for definition, left, form in equations(SPECS / "States.antt"):
        if definition == "word_after":
            name = re.sub(r"[()]| word$", "", left)
            name = name.replace(" expected new", "(a, b)").replace(" new", "(x)")
            words, after = FORMS.get(form, (f"no words for {form}", lambda word: ""))
            rows.setdefault((words, *(str(after(word)) for word in range(5))), []).append(f"`{name}`")
    return table(["Operation", "The word afterwards", *map(str, range(5))],
                 [(", ".join(names), *cells) for cells, names in rows.items()])


PRINTERS = {"codes": codes, "operations": operations, "starts": starts, "positions": positions}


def listed():
    """What the page has to print."""
    return [("codes", ""), ("operations", ""), ("starts", "Sender"), ("starts", "Receiver"), ("positions", "Sender"),
            *(("positions", family) for family in FAMILIES)]
