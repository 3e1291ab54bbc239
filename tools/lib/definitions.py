"""The definitions of crates/*/specs: what each says, and on which others it rests.

Names are resolved as text: by the `use` lines of a file and by what the file defines. Words of the kit's libraries aren't followed.
"""

import re
from dataclasses import dataclass, field
from pathlib import Path

ROOT = Path(__file__).resolve().parent.parent.parent
CRATES = ROOT / "crates"

HEAD = re.compile(r"(?:(?:unfoldable|abbrev|opaque|partial) )*pub (?:record |data |abbrev |unfoldable )?([^\s:(]+)")
PRIVATE = re.compile(r"(?:(?:unfoldable|abbrev) )?(?:record |data )?([A-Za-z_][\w']*)\s.*:\s*Type 0")
MODULE = re.compile(r"module _ ")
INNER = re.compile(r" +(?:(?:unfoldable|abbrev) )*pub (?:record |data )?([^\s:(]+)")
WORD = re.compile(r"[A-Za-z_◌][\w']*(?:\.[A-Za-z_][\w']*)?")
TYPE = re.compile(r"^pub(?:\(crate\))? (?:struct|enum) (\w+).*?(?:^\}|;)\n", re.M | re.S)


@dataclass(eq=False)
class Definition:
    """A definition with the comment above it, and the file in which it stands; or a type that the code declares."""

    file: Path
    names: list
    lines: list
    comment: list
    rests_on: set = field(default_factory=set)

    @property
    def crate(self):
        return self.file.relative_to(CRATES).parts[0]

    def code(self):
        """Its lines without those of comments and without empty ones."""
        return [line for line in self.lines if line.strip() and not line.strip().startswith("--")]

    def constructors(self):
        """The constructors of a data type, where it is one."""
        return re.findall(r"^ +(?:pub )?(\w+) :", "\n".join(self.lines), re.M) if re.search(r"\bdata ", self.lines[0]) else []


def words_of(lines):
    """The words of comment lines, without those of attributes between them."""
    return " ".join(re.sub(r"^\s*(?:--|//[/!]?) ?", "", line).strip() for line in lines if not line.lstrip().startswith("#[")).strip()


def file_of(module):
    """The file of specs/ that a module's name stands for."""
    _, crate, _, *rest = module.split(".")
    return CRATES / crate / "specs" / ("/".join(rest) + ".antt")


def imports(line):
    """What a `use` line brings in: by each word the module and the name there, or the module alone."""
    found = re.match(r"use ([\w.]+)\.\{(.*)\}", line)
    if found:
        pairs = (item.strip().split(" as ") for item in found[2].split(","))
        return {pair[-1].strip(): (found[1], pair[0].strip()) for pair in pairs}
    found = re.match(r"use ([\w.]+)(?: as (\w+))?", line)
    return {found[2] or found[1].split(".")[-1]: (found[1], None)}


def read(file):
    """What a file of specs/ says at its head, what it brings in, and its definitions in their order."""
    head, brought, found, comment, current = [], {}, [], [], None
    for line in file.read_text().splitlines():
        name = HEAD.match(line) or (not line.startswith(" ") and PRIVATE.match(line))
        if line.startswith("use "):
            if not found:
                head, comment = head + comment, []
            brought |= imports(line)
        elif line.startswith("pub use ") or line.startswith("pub mod "):
            current = None
        elif name or MODULE.match(line):
            current = Definition(file, [name[1]] if name else [], [line], comment)
            found.append(current)
            comment = []
        elif line.startswith("--"):
            comment, current = [*comment, line], None
        elif not line.strip():
            if current:
                current.lines.append(line)
            comment = []
        elif current or found:
            current = current or found[-1]
            current.lines.append(line)
            inner = INNER.match(line)
            if inner and MODULE.match(current.lines[0]):
                current.names.append(inner[1])
    for definition in found:
        while not definition.lines[-1].strip():
            definition.lines.pop()
    return head, brought, found


def declared(module):
    """The type of the code that a module of `declared` stands for."""
    parts = module.split(".")
    crate, rest = parts[1], parts[4:]
    if rest and rest[-1] in ("TheVariants", "TheInside"):
        rest = rest[:-1]
    for file in sorted((CRATES / crate / "src").rglob("*.rt")):
        text = file.read_text()
        for match in TYPE.finditer(text):
            if match[1] == rest[-1]:
                above = text[:match.start()].splitlines()
                comment = []
                while above and re.match(r"\s*(///|#\[)", above[-1]):
                    comment.insert(0, above.pop())
                return Definition(file, [match[1]], match[0].splitlines(), comment)
    return None


class Specs:
    """All definitions of the crates, each with those on which it rests."""

    def __init__(self):
        self.heads, self.order, self.by_name, self.types = {}, [], {}, {}
        brought = {}
        for file in sorted(CRATES.glob("*/specs/**/*.antt")):
            self.heads[file], brought[file], found = read(file)
            self.order += found
            for definition in found:
                for name in [*definition.names, *definition.constructors()]:
                    self.by_name[file, name] = definition
        for definition in self.order:
            words = {word for line in definition.code() for word in WORD.findall(line)}
            reached = (self.meant(definition.file, brought[definition.file], word) for word in words)
            definition.rests_on = {it for it in reached if it and it is not definition}

    def meant(self, file, brought, word):
        """The definition that a word of a file means, or the type of the code, or none."""
        first, _, second = word.partition(".")
        if first not in brought:
            return self.by_name.get((file, first))
        module, name = brought[first]
        if not module.startswith("Rattle.") or module.split(".")[2:3] != ["specs"]:
            return None
        if ".specs.declared." in module:
            return self.type_of(module)
        return self.by_name.get((file_of(module), name or second))

    def type_of(self, module):
        if module not in self.types:
            it = declared(module)
            same = it and next((other for other in self.types.values() if other and other.file == it.file and other.names == it.names), None)
            self.types[module] = same or it
        return self.types[module]

    def below(self, roots, closed=frozenset()):
        """All that these definitions rest on, themselves included, without closed ones and what is reached by these alone."""
        seen, left = set(), list(roots)
        while left:
            it = left.pop()
            if it not in seen and it not in closed:
                seen.add(it)
                left += it.rests_on
        return seen

    def named(self, path, name):
        """The definition of a name in a file, given below crates/."""
        return self.by_name[CRATES / path, name]
