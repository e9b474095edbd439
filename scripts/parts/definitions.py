"""The definitions of specs/ (.antt), read as text: what each names of the others."""
import functools
import re

from parts.sources import CRATES, text_of

NAME = r"[A-Za-z_][A-Za-z0-9_']*"


class Definitions:
    """The definitions of these crates, each as "crate.File.name", and what a text names of them."""

    def __init__(self, crates):
        # A variant of a type stands for its type.
        self.bodies, self.types, self.imports = {}, {}, {}
        for crate in crates:
            for file in sorted((CRATES / crate / "specs").glob("*.antt")):
                module = f"{crate}.{file.stem}"
                self.imports[module], found = declared_in(text_of(file))
                for name, variants, part in found:
                    self.bodies[f"{module}.{name}"] = part
                    self.types.update({f"{module}.{variant}": f"{module}.{name}" for variant in variants})

    def named(self, module, imported, text):
        names, files = imported
        found = set()
        for first, second in names_in(text):
            name = f"{files[first]}.{second}" if first in files else names.get(first, f"{module}.{first}")
            found.add(self.types.get(name, name))
        return {name for name in found if name in self.bodies}

    def next_to(self, name):
        module = name.rpartition(".")[0]
        return self.named(module, self.imports[module], self.bodies[name]) - {name}

    def reached(self, names):
        """These, and all that their bodies name."""
        seen, left = set(), list(names)
        while left:
            if (name := left.pop()) not in seen:
                seen.add(name)
                left += self.next_to(name)
        return seen


@functools.cache
def names_in(text):
    """Each name in a text, with the name that follows it after a point."""
    return set(re.findall(rf"(?<![\w.'])({NAME})(?:\.({NAME}))?", text))


@functools.cache
def declared_in(text):
    """What a file of definitions imports, and each definition with its variants and its text."""
    text, found = re.sub(r"--.*", "", text), []
    for part in re.split(r"(?m)^ *(?=abbrev pub|unfoldable pub|pub record|pub data)", text)[1:]:
        kind, name = re.match(rf"\w+ (\w+) ({NAME})", part).groups()
        part = re.sub(r"(?m)^module .*", "", part)
        found.append((name, re.findall(rf"(?m)^ +({NAME}) :", part) if kind == "data" else [], part))
    return imports(text), found


@functools.cache
def imports(text):
    """What each imported name is, and which file each other name of a file is."""
    names, files = {}, {}
    for path, listed, alias in re.findall(r"(?m)^\s*(?:ghost )?use Rattle\.([\w.]+?)(?:\.\{(.*)\}| as (\w+));?$", text):
        path = path.replace(".specs.", ".")
        files.update({alias: path} if alias else {})
        for item in listed.split(", "):
            name, _, other = item.partition(" as ")
            names[other or name] = f"{path}.{name}"
    return names, files
