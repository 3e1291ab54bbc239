"""Wrong bodies: what an edit changes, and whether the prover refuses it.

An edit is tried on a copy of its crate, over the libraries that `rt ci` left below it. The functions that it changes are
checked alone, and the whole crate where these are still proved or where no function holds the change.

Edits of different functions can be tried together, in one check of all these functions. What it says of a function is then
of that function's edit: a proof rests on what the functions that it calls promise, and not on their bodies. An edit that
such a check says nothing of its own about is tried alone.
"""

import re
import shutil
import subprocess
import sys
import tempfile
from functools import cache
from pathlib import Path

from kit import kit

ROOT = Path(__file__).resolve().parent.parent.parent

# The folders of a crate that hold edits: those that `rt ci` tries, and all others.
FOLDERS = ("must-fail", "edits")

# What became of a try. A clause refused it: the prover found no proof of a goal. An answer did, written by hand, whose type is
# another than that of the goal. Only a name did, which a proof cites and which is gone: that says little. The prover met a
# limit of its own; nothing refused it; it can't be applied or read; nothing is known.
CLAUSE, ANSWER, NAME, LIMIT, PROVED, BAD, UNKNOWN = "clause", "answer", "name", "limit", "proved", "bad", "unknown"

# How many edits are tried together at most.
TOGETHER = 40

PARTS = ("src", "specs", "proofs")
FUNCTION = re.compile(r"( *)(?:pub(?:\([a-z]+\))? )?(?:const )?(?:final )?(?:unsafe )?(?:extern \"C\" )?fn (\w+)")
OWNER = re.compile(r"(?:unsafe )?(?:impl(?:<.*?>)? (?:(\w+)(?:<.*>)? for )?&?(?:mut )?(\w+)|(?:pub(?:\([a-z]+\))? )?trait (\w+))")
TYPE = re.compile(r"^(?:pub(?:\([a-z]+\))? )?(?:struct|enum|trait) (\w+)", re.M)
# What a check says of a function or another item, below what it says isn't proved of it.
ITEM = re.compile(r"(?:fn|struct|enum|trait|impl|closure) (\S+): ")
# What isn't proved; what is wrong in the text of a proof, by its folder, which is its function's path, or of a definition;
# whether that is what a tactic looked for and didn't find; and whether it is a name that is gone.
OPEN = re.compile(r"note: src/\S+:\d+:\d+: (?:it is not proved that|`search` found no proof) ")
WRONG = re.compile(r"(?:\./)?(?:proofs/(?:(\S+)/)?|specs/(?:\S+/)?)[\w+]+\.antt:\d+:\d+: error")
SOUGHT = re.compile(r"`(?:search|grind|omega)`: (?:no proof of|the goal)|the goal fails at")
OF_NAMES = re.compile(r"has no field|is not in scope|has no `|was not admitted")
LIMITS = re.compile(r"ran out of (stack|the (steps|memory) that)|(outgrew the memory limit|stopped at the step limit) \(")


def edits_of(name):
    """A crate's edits, by file."""
    return [edit for folder in FOLDERS for edit in sorted((ROOT / "crates" / name / folder).glob("*.edit"))]


def applied(edit):
    """The files that an edit changes, as they were and as they are then, or why it can't be applied."""
    crate, path, old, texts, was = edit.parent.parent, None, None, {}, {}
    for line in edit.read_text().splitlines():
        word, _, rest = line.partition(": ") if ": " in line else line.partition(":")
        if word == "file":
            path = rest.strip()
        elif word == "old":
            old = rest
        elif word == "new":
            if not path or not old:
                return None, "a `new` stands before any `file` or `old`"
            if not (crate / path).is_file():
                return None, f"there is no file {path}"
            was.setdefault(path, (crate / path).read_text())
            text = texts.get(path, was[path])
            if text.count(old) != 1:
                return None, f"an `old` stands {text.count(old)} times in {path}"
            texts[path], old = text.replace(old, rest), None
    return ({path: (was[path], texts[path]) for path in texts}, None) if texts else (None, "it has no pair of `old` and `new`")


def changed_lines(was, now):
    """The numbers of the lines of a text that differ in the other, which has as many."""
    return [number for number, (one, other) in enumerate(zip(was.splitlines(), now.splitlines())) if one != other]


def function_at(lines, number):
    """The path of the function that holds a line, below its module, or none."""
    for at in range(number, -1, -1):
        found = FUNCTION.match(lines[at])
        if found and f"{found[1]}}}" in lines[at:number]:
            return None
        if found:
            break
    else:
        return None
    if not found[1]:
        return found[2]
    owner = next((it for it in map(OWNER.match, reversed(lines[:at])) if it), None)
    return f"{owner[2] or owner[3]}{owner[1] or ''}::{found[2]}" if owner else None


def module(path):
    """The path of the module that a file of src/ is, and `::` where there is one."""
    names = [it for it in path.removesuffix(".rt").split("/")[1:] if it not in ("lib", "main")]
    return "".join(f"{name}::" for name in names)


@cache
def homes(crate):
    """The module that declares each type of a crate, which is where the prover has its methods, by the type's name."""
    files = sorted((crate / "src").rglob("*.rt"))
    return {name: module(str(path.relative_to(crate))) for path in files for name in TYPE.findall(path.read_text())}


def functions(crate, texts):
    """The paths of the functions of a crate that an edit changes, or none where something else is changed."""
    found = []
    for path, (was, now) in texts.items():
        names = [function_at(was.splitlines(), number) for number in changed_lines(was, now)]
        if not path.startswith("src/") or not names or None in names:
            return []
        found += [homes(crate).get(name.split("::")[0] if "::" in name else "", module(path)) + name for name in names]
    return sorted(set(found))


def check(crate, texts, paths):
    """Checks a copy of a crate with these texts, these functions alone or the whole: the status, and the lines. A check of the
    whole goes on from what an `rt check` of the crate left in its out/incremental, if it did.
    """
    kept = ROOT / "crates" / crate / "out/incremental"
    if paths or not kept.is_dir():
        return checked(crate, texts, [word for path in paths for word in ("--only", path)])
    return checked(crate, texts, ["--incremental", "incremental"], kept)


def checked(crate, texts, flags, kept=None):
    """Checks a copy of a crate with these texts and flags, and with this folder beside it, if one is named."""
    sys.path.insert(0, str(kit() / "bin"))
    import rtlib

    # A crate's words print a line.
    words = rtlib.Crate(str(ROOT / "crates" / crate), str(ROOT), {}).words(["--jobs", "1"], keeps=False)
    with tempfile.TemporaryDirectory(prefix="vscsi-edit-") as room:
        for part in PARTS:
            if (ROOT / "crates" / crate / part).is_dir():
                shutil.copytree(ROOT / "crates" / crate / part, Path(room) / part)
        for path, (_, text) in texts.items():
            (Path(room) / path).write_text(text)
        if kept:
            shutil.copytree(kept, Path(room) / kept.name)
        run = subprocess.run([rtlib.RATTLE, "check", *words, *flags], cwd=room, stdin=subprocess.DEVNULL, stdout=subprocess.PIPE, stderr=subprocess.STDOUT, text=True, errors="replace")
    return run.returncode, run.stdout.splitlines()


def refused_by(lines):
    """What refused an edit of which a check says this, and the first line that says so."""
    for came, says in ((CLAUSE, lambda line: OPEN.match(line) or SOUGHT.search(line)), (ANSWER, lambda line: not OF_NAMES.search(line))):
        first = next(filter(says, lines), None)
        if first:
            return came, first
    return NAME, lines[0]


def verdict(status, lines):
    """What a check of one edit says of it."""
    last = lines[-1] if lines else ""
    found = [line for line in lines if OPEN.match(line) or WRONG.match(line)]
    if status == 0:
        return PROVED, ""
    if status == 1 and found and re.match(r"only=|logic=not-proved", last):
        return refused_by(found)
    if status == 3 and any(LIMITS.search(line) for line in lines):
        return LIMIT, next(line for line in lines if LIMITS.search(line))
    if status == 1 and any(re.search(r"\berror\[[\w-]+\]", line) for line in lines):
        return BAD, next(line for line in lines if re.search(r"\berror\[[\w-]+\]", line))
    return UNKNOWN, f"its check ended with status {status}: {last}"


def by_function(crate, lines):
    """What a check says isn't right of each function of a crate."""
    said, waiting, texts = {}, [], {}
    for line in lines:
        item, wrong = ITEM.match(line), WRONG.match(line)
        if item:
            said[item[1].removeprefix(f"{crate}::")] = waiting
            waiting = []
        elif OPEN.match(line):
            waiting.append(line)
        elif wrong and wrong[1]:
            texts.setdefault(wrong[1].replace("/", "::"), []).append(line)
    return {path: found + texts.get(path, []) for path, found in said.items()}


def tried(edit):
    """Tries an edit: what became of it, and the first line that says why."""
    texts, why = applied(edit)
    if why:
        return BAD, why
    crate = edit.parent.parent
    paths = functions(crate, texts)
    if paths:
        came, why = verdict(*check(crate.name, texts, paths))
        if came in (CLAUSE, ANSWER, NAME, LIMIT):
            return came, why
    return verdict(*check(crate.name, texts, []))


def groups(edits):
    """The edits of a crate in groups that can be tried together, no two of which change the same function."""
    found, alone = [], []
    changed = {edit: functions(edit.parent.parent, applied(edit)[0] or {}) for edit in edits}
    for edit in sorted(edits, key=lambda edit: changed[edit]):
        if not changed[edit]:
            alone.append([edit])
            continue
        fits = (group for group in found if len(group) < TOGETHER and not any({*changed[it]} & {*changed[edit]} for it in group))
        group = next(fits, None)
        if group is None:
            found.append([edit])
        else:
            group.append(edit)
    return found + alone


def merged(several):
    """The texts of several edits of different lines as one edit."""
    found = {}
    for path, (was, now) in (pair for texts in several for pair in texts.items()):
        lines = found.setdefault(path, (was, was))[1].splitlines(keepends=True)
        for number in changed_lines(was, now):
            lines[number] = now.splitlines(keepends=True)[number]
        found[path] = was, "".join(lines)
    return found


def tried_together(group):
    """Tries a group of edits, and gives what became of each, with why."""
    if len(group) == 1:
        return {group[0]: tried(group[0])}
    crate, texts = group[0].parent.parent, {edit: applied(edit)[0] for edit in group}
    paths = {edit: functions(crate, texts[edit]) for edit in group}
    status, lines = check(crate.name, merged(texts.values()), sorted(path for edit in group for path in paths[edit]))
    said = by_function(crate.name, lines)
    if status != 1 or not said:
        # One of them can't be read, or meets a limit.
        half = len(group) // 2
        return {**tried_together(group[:half]), **tried_together(group[half:])}
    own = {edit: [line for path in paths[edit] for line in said.get(path, [])] for edit in group}
    return {edit: refused_by(own[edit]) if own[edit] else tried(edit) for edit in group}


def unread(group):
    """The edits of a group that the compiler refuses, each with its first error. Nothing is proved."""
    crate, texts = group[0].parent.parent, [applied(edit)[0] for edit in group]
    # No function has this name, so the check ends behind the compiler's front end.
    _, lines = checked(crate.name, merged(texts), ["--start", "no function"])
    errors = [line for line in lines if re.match(r"src/\S+: error\[", line)]
    if not errors and not any("has no function `no function`" in line for line in lines):
        sys.exit(f"edits: {crate.name} can't be read: {lines[-1] if lines else ''}")
    if not errors or len(group) == 1:
        return {group[0]: errors[0]} if errors else {}
    half = len(group) // 2
    return {**unread(group[:half]), **unread(group[half:])}


SELF_TEST = """\
./proofs/base/Base/accept/Answers.antt:21:59: error: `invariant_of-self`: record `After` has no field `number`
./proofs/chain/kept/Answers.antt:8:37: error: `returns`: as printed, the two types differ only where one has `1`
./proofs/chain/narrowed/Answers.antt:12:98: error: `returns`: `search`: no proof of `c.items ≡ few`
note: src/base.rt:180:5: it is not proved that what the function ensures holds when it returns (`returns`)
fn low::base::Base::is_broken: no proof: expected answers in ./proofs/base/Base/is_broken/Answers.antt; `search` did not prove `returns`
fn low::base::Base::accept: not proved; it calls `low::base::Base::is_broken`, which is not proved
fn low::base::Base::keep: no proof: it calls `low::base::Base::accept`, which is not proved
fn low::chain::kept: not proved
note: src/chain.rt:148:9: `search` found no proof (`invariant_of-self`); `search` gave up at one of its limits
fn low::chain::Chain::begin: no proof: expected answers in ./proofs/chain/Chain/begin/Answers.antt; `search` did not prove `invariant_of-self`
fn low::chain::narrowed: not proved
fn low::chain::parts: proved
only=7 proved=1"""


def self_test():
    """Whether what a check says of several edits is told of each."""
    said = {path: lines and refused_by(lines)[0] for path, lines in by_function("low", SELF_TEST.splitlines()).items()}
    wanted = {"base::Base::is_broken": CLAUSE, "base::Base::accept": NAME, "base::Base::keep": [], "chain::kept": ANSWER,
              "chain::Chain::begin": CLAUSE, "chain::narrowed": CLAUSE, "chain::parts": []}
    assert said == wanted, said
    both = merged([{"src/a.rt": ("one\ntwo\n", "1\ntwo\n")}, {"src/a.rt": ("one\ntwo\n", "one\n2\n")}])
    assert both == {"src/a.rt": ("one\ntwo\n", "1\n2\n")}, both
