"""What ./check passed: out/passed names the sources, the kit, the result, and the sum of each file that was built."""

import hashlib
import json
import subprocess
from pathlib import Path

import versions

ROOT = Path(__file__).resolve().parent.parent.parent
STAMP = ROOT / "out/passed"


def built():
    """Returns the files that a release is made of, by their places below the repository."""
    shared = f"libvscsi.so.{versions.version()}"
    library = [f"out/gate/{name}" for name in ("libvscsi.a", shared, "vscsi.h")]
    programs = [f"out/gate/{kind}/{name}" for kind in ("static", "dynamic") for name in ("vscsi", "vscsi-vhost-user")]
    return [*library, *programs]


def said(*words):
    """Returns what a command prints, without the end of its line, or nothing where it fails or isn't there."""
    try:
        run = subprocess.run(words, cwd=ROOT, capture_output=True, text=True)
    except FileNotFoundError:
        return ""
    return run.stdout.strip() if run.returncode == 0 else ""


def sources():
    """Returns the commit, its tree and its time in seconds. Returns nothing where the sources aren't those of a commit."""
    if not said("git", "rev-parse", "HEAD") or said("git", "status", "--porcelain"):
        return None
    commit, tree, when = said("git", "log", "-1", "--format=%H %T %ct").split()
    return {"commit": commit, "tree": tree, "when": int(when)}


def sums(root=ROOT):
    """Returns the SHA-256 of each built file that is there."""
    files = {name: root / name for name in built()}
    return {name: hashlib.sha256(file.read_bytes()).hexdigest() for name, file in files.items() if file.is_file()}


def facts(before, result):
    """Returns what a release tells of the run that passed it: of these sources, with this last line."""
    compiler = said("cc", "--version").split("\n")[0]
    return {**before, "kit": said("rt", "version"), "compiler": compiler, "result": result, "sums": sums()}


def begin():
    """Removes the stamp of an earlier run, and returns the sources that this run begins with."""
    STAMP.unlink(missing_ok=True)
    return sources()


def end(before, result, times):
    """Writes the stamp of a run that passed. Returns false where its sources weren't those of one commit throughout."""
    if before is None or before != sources():
        return False
    STAMP.write_text(json.dumps({**facts(before, result), "times": times}, indent=1) + "\n")
    return True


def refusal(root=ROOT, now=None):
    """Says why no release can be made of what stands there, or returns nothing."""
    file = root / STAMP.relative_to(ROOT)
    if not file.is_file():
        return "there is no out/passed: ./check hasn't passed here, or its sources weren't those of a commit"
    passed, now = json.loads(file.read_text()), now or sources()
    if now is None:
        return "the sources aren't those of a commit: commit them, and let ./check pass"
    if passed["tree"] != now["tree"]:
        return f"./check passed the sources of {passed['commit']}, and these are others: let it pass"
    found = sums(root)
    for name in built():
        if name not in found or found[name] != passed["sums"].get(name):
            return f"{name} isn't the file that ./check passed: let it pass once more"
    return None


def read():
    """Returns what the stamp says."""
    return json.loads(STAMP.read_text())
