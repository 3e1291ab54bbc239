"""The clauses of the code: functions, types, traits and impls of a source file, read as text.

Types, traits and functions are found by their words, clauses by their braces. Nothing of a body is read.
"""

import re
from dataclasses import dataclass, field
from pathlib import Path

NAME = re.compile(r"[A-Za-z_]\w*")
GHOST_USE = re.compile(r"ghost use ([\w.]+?)(?:\.\{([^}]*)\}| as (\w+))?;")
USE = re.compile(r"(?<!ghost )\b(pub )?use ([^;]+);")
MODULE = re.compile(r"^ *(pub )?mod (\w+);", re.M)
CLAUSE = re.compile(r"(?:(?:requires|ensures)\*?(?: \w+)?|ghost \w+:) ?$")
BEGIN = re.compile(
    r"(?<![\w.])(?:(?P<ghost_use>ghost use\b)|(?P<public>pub(?P<within>\([^)]*\))? )?"
    r"(?:ghost (?P<ghost>\w+) ?[:=] ?\{|(?:final |const |unsafe |extern \"\" )*(?P<kind>fn|struct|enum|trait) |(?P<impl>impl\b)))"
)


@dataclass(eq=False)
class Item:
    """A function, a type, a trait or an impl: its head, its clauses or ghost members, and what stands in it."""

    file: Path
    kind: str
    name: str
    is_public: bool
    owner: "Item" = None
    head: str = ""
    body: str = ""
    trait: str = ""
    clauses: list = field(default_factory=list)
    ghosts: list = field(default_factory=list)
    inner: list = field(default_factory=list)


def blanked(text):
    """A text without comments, and with nothing in its strings."""
    text = re.sub(r'"(?:\\.|[^"\\])*"|//[^\n]*', lambda found: '""' if found[0][0] == '"' else "", text)
    return re.sub(r"b?'[{}()\[\]]'", "' '", text)


def closing(text, at):
    """The place behind the bracket that closes the one at a place."""
    depth = 0
    for place in range(at, len(text)):
        depth += (text[place] in "{([") - (text[place] in "})]")
        if depth == 0:
            return place + 1
    raise ValueError("a bracket that nothing closes")


def parts(text):
    """The parts of a list that commas separate outside of brackets."""
    found, depth = [""], 0
    for sign in text:
        depth += (sign == "{") - (sign == "}")
        if sign == "," and depth == 0:
            found.append("")
        else:
            found[-1] += sign
    return [part for part in found if part.strip()]


def paths(text):
    """The paths of a `use` of Rust."""
    text = re.sub(r"\s+", " ", text.strip())
    if "{" not in text:
        return [text]
    at = text.index("{")
    return [text[:at] + path for part in parts(text[at + 1:closing(text, at) - 1]) for path in paths(part)]


def function(item, text, at):
    """Reads a function from behind its name on, and gives the place behind it."""
    begun = at
    while True:
        if text[at] in "([":
            at = closing(text, at)
        elif text[at] == ";":
            item.head += text[begun:at]
            return at + 1
        elif text[at] == "{":
            end, clause = closing(text, at), CLAUSE.search(text[begun:at])
            if not clause:
                item.head += text[begun:at]
                return end
            item.head += text[begun:begun + clause.start()]
            item.clauses.append(text[at + 1:end - 1])
            begun = at = end
        else:
            at += 1


def block(item, text, at):
    """Reads an impl or a trait from behind its first word on, and gives the place behind it."""
    begin = text.index("{", at)
    item.head, end = text[at:begin], closing(text, begin)
    if item.kind == "impl":
        bare, depth = re.sub(r"\bwhere\b.*", "", item.head, flags=re.S).replace("->", "  ").strip(), 0
        while bare.startswith("<") or depth:
            depth += (bare[0] == "<") - (bare[0] == ">")
            bare = bare[1:] if depth else bare[1:].strip()
        trait, _, own = bare.rpartition(" for ")
        item.trait = re.match(r"[\w:]*", trait)[0].split("::")[-1]
        item.name = re.search(r"\w*", re.sub(r"^&(?:'\w+ )?(?:mut )?", "", own))[0]
    item.inner = items(item.file, text[begin + 1:end - 1], item)
    return end


def items(file, text, owner=None):
    """The functions, types, traits and impls of a text; ghost members go to their owner."""
    found, at = [], 0
    while begin := BEGIN.search(text, at):
        at = begin.end()
        if begin["ghost_use"]:
            continue
        if begin["ghost"]:
            end = closing(text, at - 1)
            if owner:
                owner.ghosts.append((begin["ghost"], text[at:end - 1]))
            at = end
            continue
        name = NAME.match(text, at)
        kind = begin["kind"] or "impl"
        if kind == "fn" and not name:
            continue
        public = bool(begin["public"]) and not begin["within"]
        item = Item(file, {"struct": "type", "enum": "type"}.get(kind, kind), name[0] if name else "", public, owner)
        found.append(item)
        if kind == "fn":
            at = function(item, text, name.end())
        elif kind in ("impl", "trait"):
            at = block(item, text, at)
        else:
            begin = min(text.find(sign, at) % (len(text) + 1) for sign in "{(;")
            item.head, end = text[name.end():begin], closing(text, begin) if text[begin] != ";" else begin
            item.body = text[begin:end]
            items(file, text[begin + 1:end - 1], item)
            at = end
    return found


class Source:
    """A source file: what it brings in, its modules, and its items."""

    def __init__(self, file):
        text = blanked(file.read_text())
        self.file, self.items = file, items(file, text)
        self.modules = [(name, bool(public)) for public, name in MODULE.findall(text)]
        self.ghosts, self.uses, self.passed = {}, {}, []
        for module, names, alias in GHOST_USE.findall(text):
            for name in parts(names) if names else [None]:
                its, _, own = (word.strip() for word in (name or "").partition(" as "))
                self.ghosts.setdefault(own or its or alias or module.split(".")[-1], set()).add((module, its or None))
        for public, tree in USE.findall(text):
            for path in paths(tree):
                its, _, own = (word.strip() for word in path.partition(" as "))
                self.uses[own or its.split("::")[-1]] = its
                self.passed += [its] * bool(public)
