"""The functions of a source file (.rt), read as text."""
import collections
import functools
import re

from parts.compare import Differs

# "Trait for Type::name", the head of the impl or trait that it is of, what stands before its body, and its body, which
# may be none.
Function = collections.namedtuple("Function", "name owner head body")


def block_end(text, start):
    """Where the braces that open first after `start` are closed."""
    depth = 0
    for brace in re.finditer(r"[{}]", text[start:]):
        depth += 1 if brace[0] == "{" else -1
        if depth == 0:
            return start + brace.end()
    raise Differs(f"braces have no end: {text[start:start + 40]}")


def without_generics(text):
    before = None
    while text != before:
        text, before = re.sub(r"<[^<>]*>", " ", text), text
    return " ".join(text.split())


@functools.cache
def functions(text):
    """Each function of a text: "Trait for Type::name", the head of the impl or trait that it is of, what stands before
    its body, and its body, which may be none."""
    return list(each_function(text))


def each_function(text):
    owners = [(head.start(), block_end(text, head.start()), " ".join(head[0].split()))
              for head in re.finditer(r"(?m)^(?:pub )?(?:unsafe )?(?:impl|trait)\b[^{]*", text)]
    for start in re.finditer(r"(?m)^ *(?:pub(?:\(\w+\))? )?(?:\w+ )*fn (\w+)", text):
        end = start.end()
        while (part := re.search(r";|\{|\b(?:requires|ensures)\b", text[end:])) and part[0] not in ";{":
            end = block_end(text, end + part.start())
        body = end = end + part.start()
        if part[0] == "{":
            end = block_end(text, body)
        owner = "".join(head for begin, until, head in owners if begin < start.start() < until)
        name = re.sub(r"^.*(impl|trait) ", "", without_generics(owner)) + "::" if owner else ""
        yield Function(name + start[1], owner, text[start.start():body], text[body:end])
