"""The version that the file VERSION names, and the places of the sources and documents that say it too."""

import re
from pathlib import Path

ROOT = Path(__file__).resolve().parent.parent.parent

# What says the version: a file, and how it stands there. The first that matches is looked at: what isn't released yet says none.
PLACES = (
    ("crates/vscsi/src/words.rt", r'\.version\("([^"]*)"\)'),
    ("crates/vscsi_c/include/vscsi.h", r"The version of this header: (\d+\.\d+\.\d+)\."),
    ("CHANGELOG.md", r"^## \[(?!Unreleased\])([^]]*)\]"),
)

# The name and the version in the title of a manual page.
TITLE = r'^\.TH \S+ \d "[^"]*" "\S+ ([^"]*)"'


def version(root=ROOT):
    """Returns the version, as MAJOR.MINOR.PATCH. Ends the program where VERSION isn't one line of that form."""
    text = (root / "VERSION").read_text()
    if not re.fullmatch(r"\d+(\.\d{1,3}){2}\n", text) or any(int(part) > 255 for part in text.split(".")[1:]):
        raise SystemExit(f"VERSION isn't a line MAJOR.MINOR.PATCH, the last two at most 255: {text!r}")
    return text.strip()


def macros(root):
    """Returns the version that the header's macros have."""
    found = dict(re.findall(r"#define VSCSI_VERSION_(\w+) (\d+)$", (root / "crates/vscsi_c/include/vscsi.h").read_text(), re.M))
    return ".".join(found.get(part, "none") for part in ("MAJOR", "MINOR", "PATCH"))


def stated(root=ROOT):
    """Returns each place that says a version, with the version that it says, or 'none' where it says none."""
    pages = [(f"docs/{page.name}", TITLE) for page in sorted((root / "docs").glob("*.[1-8]"))]
    said = []
    for name, form in (*PLACES, *pages):
        found = re.search(form, (root / name).read_text(), re.M)
        said.append((name, found[1] if found else "none"))
    return [*said, ("the macros of crates/vscsi_c/include/vscsi.h", macros(root))]
