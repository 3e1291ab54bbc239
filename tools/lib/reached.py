"""Which definitions of specs/ a promise rests on.

A promise is a public clause of a crate of SURFACE (of what it exports: functions, methods and traits, and the views and invariants
of types), or a law of any crate. It rests on the definitions that it cites, on the views of the types that its function takes and
gives, and on all below. Words are resolved as text, so it may be said of a few definitions too many.
"""

import re

import crate_list
from clauses import NAME, Source
from definitions import CRATES, Definition, Specs

# The crates whose clauses are promises: the device, its hosts and their threads, the library for C, memory that a guest writes.
SURFACE = ("world", "workers", "close_audit", "lock_scopes", "worker_steps", "c_calls", "vscsi_c", "live_mem", "host_bus")

# The crates of which no device has all yet: no unit's disk is backed. Nothing is said of the sides of their definitions.
AHEAD = ("backed_store", "shared_trace", "host_trace")

WORD = re.compile(r"[A-Za-z_][\w']*(?:\.[A-Za-z_][\w']*)?")
FIELD = re.compile(r"^ *(?:pub(?:\([^)]*\))? )?(\w+): (.*)", re.M)


def crate_of(item):
    """The crate in which something stands."""
    return item.file.relative_to(CRATES).parts[0]


def is_law(item):
    """Whether a function is a law: a public one of a file or a folder of laws."""
    return item.is_public and any(part.removesuffix(".rt").endswith("laws") for part in item.file.relative_to(CRATES).parts)


def is_inner(definition):
    """Whether a definition stands in specs/Inner."""
    return definition.file.relative_to(CRATES).parts[2] == "Inner"


class Reached:
    """Definitions, types and traits, each with what it rests on."""

    def __init__(self, specs=None):
        self.crates = crate_list.names()
        self.specs = specs or Specs()
        self.sources = {file: Source(file) for crate in self.crates for file in sorted((CRATES / crate / "src").rglob("*.rt"))}
        self.types, self.impls, self.functions = {}, {}, []
        for source in self.sources.values():
            self.sort(source.items)

    def sort(self, items):
        """Notes types and traits by crate and name, impls by those of their type, and functions."""
        for item in items:
            key = (crate_of(item), item.name)
            if item.kind in ("type", "trait"):
                self.types[key] = item
            elif item.kind == "impl":
                self.impls.setdefault(key, []).append(item)
            else:
                self.functions.append(item)
            self.sort(item.inner)

    # What a crate exports

    def exported(self, crate):
        """The names that the public modules of a crate have or pass on, and the paths of what they pass on."""
        names, passed = set(), set()
        left = [file for file in (CRATES / crate / "src/lib.rt", CRATES / crate / "src/main.rt") if file in self.sources]
        while left:
            file = left.pop()
            source = self.sources[file]
            passed.update(source.passed)
            names |= {item.name for item in source.items if item.is_public} | {path.split("::")[-1] for path in source.passed}
            folder = file.parent if file.stem in ("lib", "main") else file.with_suffix("")
            left += [folder / f"{name}.rt" for name, public in source.modules if public]
        return names, passed

    def is_public(self, item, names):
        """Whether a user of a crate that exports these names can call a function."""
        if item.owner is None:
            return item.is_public and item.name in names
        return item.owner.name in names and (item.is_public or item.owner.kind == "trait" or bool(item.owner.trait))

    # What a name means

    def at_path(self, crate, path, depth=4):
        """The type or trait that a path means in a crate, or none."""
        first, name = path.split("::")[0], path.split("::")[-1]
        crate = first if first in self.crates else crate
        if (crate, name) in self.types or depth == 0:
            return self.types.get((crate, name))
        further = {it for source in self.sources.values() if crate_of(source) == crate for it in source.passed if it.endswith(f"::{name}")}
        return next((found for it in sorted(further) if (found := self.at_path(crate, it, depth - 1))), None)

    def in_scope(self, item, word):
        """The type or trait that a word means where something stands, or none."""
        here = self.types.get((crate_of(item), word))
        if here and here.file == item.file:
            return here
        path = self.sources[item.file].uses.get(word)
        return self.at_path(crate_of(item), path) if path else None

    def node(self, meant):
        """What a word of a clause or of a definition means: a type of the code as it stands there."""
        if isinstance(meant, Definition) and meant.file.suffix == ".rt":
            return self.types.get((meant.crate, meant.names[0]))
        return meant

    def cited(self, item, text):
        """What a clause or a ghost member names."""
        found = set()
        for word in set(WORD.findall(text)):
            first = word.split(".")[0]
            found.add(self.in_scope(item, first))
            for brought in self.sources[item.file].ghosts.get(first, ()):
                found.add(self.node(self.specs.meant(item.file, {first: brought}, word)))
        return found - {None}

    def named(self, item, text):
        """The types and traits that a signature or a field names."""
        return {found for word in set(NAME.findall(text)) if (found := self.in_scope(item, word))}

    # What something rests on

    def of_function(self, item):
        """What a function's clauses and signature name."""
        head = item.head + (item.owner.head if item.owner else "")
        return self.named(item, head).union(*(self.cited(item, clause) for clause in item.clauses))

    def of_ghosts(self, item, but=()):
        """What the ghost members of a type, a trait or an impl name."""
        return set().union(*(self.cited(item, text) for name, text in item.ghosts if name not in but))

    def models(self, item):
        """The `impl Model` of a type: none, or one."""
        return [it for it in self.impls.get((crate_of(item), item.name), []) if it.trait == "Model"]

    def looking(self, item, found):
        """The lines of those definitions that look into a type, of these and all below them."""
        looking, left = set(), {it for it in found if isinstance(it, Definition)}
        while left:
            new = {it for it in left if any(self.node(other) is item for other in it.rests_on)}
            looking |= new
            left = set().union(*(it.rests_on for it in new)) - looking
        return " ".join(line for it in looking for line in it.code())

    def of_view(self, item, members=("Value", "view")):
        """What a type's view names, and the types of the fields that it shows. Without a view these are all."""
        models = self.models(item)
        found = set().union(*(self.cited(item, text) for model in models for name, text in model.ghosts if name in members))
        views = " ".join(text for model in models for name, text in model.ghosts if name in members) + self.looking(item, found)
        shown = " ".join(kind for name, kind in FIELD.findall(item.body) if re.search(rf"\.{name}\b", views)) if models else item.body
        return found | self.named(item, item.head + shown)

    def of_type(self, item, but=("invariant",)):
        """What a type's value rests on: its view, and its ghost members."""
        return (self.of_ghosts(item) | self.of_view(item)).union(*(self.of_ghosts(model, but) for model in self.models(item)))

    def of_trait(self, item):
        """What a trait's members rest on."""
        return (self.of_ghosts(item) | self.named(item, item.head)).union(*(self.of_function(it) for it in item.inner))

    def of_impl(self, item):
        """What an impl says of the members of its trait."""
        return self.of_ghosts(item).union(*(self.of_function(it) for it in item.inner))

    def of(self, node):
        """What a definition, a type or a trait rests on."""
        if isinstance(node, Definition):
            return {self.node(it) for it in node.rests_on} - {None}
        return self.of_trait(node) if node.kind == "trait" else self.of_type(node)

    def below(self, roots):
        """All that these rest on, themselves included, and what reached types say of the members of reached traits."""
        seen, left = set(), set(roots)
        while left:
            seen |= left
            left = set().union(*(self.of(node) for node in left)) - seen
            if not left:
                impls = [it for key, found in self.impls.items() if self.types.get(key) in seen for it in found if it.trait != "Model"]
                left = set().union(*(self.of_impl(it) for it in impls if self.in_scope(it, it.trait) in seen)) - seen
        return seen

    # Promises

    def promises(self, crate):
        """What the public clauses of a crate of the surface name."""
        names, passed = self.exported(crate)
        own = {it for name in names if (it := self.types.get((crate, name)))}
        others = {it for path in passed if (it := self.at_path(crate, path))}
        calls = {(path.split("::")[0], path.split("::")[-1]) for path in passed}
        found = (own | others).union(*(self.of_type(it, ()) for it in own if it.kind == "type"))
        for item in self.functions:
            key = (crate_of(item), item.owner.name if item.owner else item.name)
            if key[0] == crate and self.is_public(item, names):
                found |= self.of_function(item)
            elif self.is_public(item, {key[1]}) and (self.types.get(key) in others if item.owner else key in calls):
                found |= self.of_function(item)
        return found

    def definitions(self):
        """The definitions that a promise rests on."""
        laws = (self.of_function(item) for item in self.functions if is_law(item))
        roots = set().union(*(self.promises(crate) for crate in SURFACE), *laws)
        return {it for it in self.below(roots) if isinstance(it, Definition)}


def misplaced(specs):
    """What stands on the wrong side of specs/Inner, a line each; and of either side how many definitions and lines it has."""
    reached = Reached(specs).definitions()
    lines = []
    for it in specs.order:
        if crate_of(it) in AHEAD:
            continue
        where = f"{it.file.relative_to(CRATES)}: {', '.join(it.names)}"
        if it in reached and is_inner(it):
            lines.append(f"{where}: a promise rests on it, so it belongs out of specs/Inner")
        if it not in reached and not is_inner(it):
            lines.append(f"{where}: no promise rests on it, so it belongs in specs/Inner")
    sides = ([it for it in specs.order if is_inner(it) == side] for side in (False, True))
    return lines, [f"{len(side)} of {sum(len(it.code()) for it in side)} lines" for side in sides]
