"""What vscsi.h says: its version, its calls, and each comment with what it stands before."""

import re
from pathlib import Path

HEADER = Path(__file__).resolve().parent.parent.parent / "crates/vscsi_c/include/vscsi.h"

# A declared call, behind its result.
CALL = re.compile(r"^(?:[\w ]+?[ *])(vscsi_\w+)\([^;{]*\);", re.M)


def version(header=HEADER):
    """The version, as MAJOR.MINOR.PATCH."""
    found = dict(re.findall(r"#define VSCSI_VERSION_(\w+) (\d+)", header.read_text()))
    return ".".join(found[word] for word in ("MAJOR", "MINOR", "PATCH"))


def bare(text):
    """The text without its comments."""
    return re.sub(r"/\*.*?\*/", "", text, flags=re.S)


def calls(header=HEADER):
    """The names of the declared calls, in their order."""
    return CALL.findall(bare(header.read_text()))


def plain(comment):
    """The text of a comment, a paragraph an item; the answers of a call are one of their own."""
    lines = [re.sub(r"^\s*\*? ?", "", line) for line in comment.strip()[2:-2].split("\n")]
    return [" ".join(part.split()) for part in re.split(r"\n\s*\n|(?<=\.)\n(?=VSCSI_|The first of these)", "\n".join(lines))]


def parts(header=HEADER):
    """The comment at the head, and each other comment at a line's beginning with the code behind it."""
    found = re.split(r"^(/\*.*?\*/)\n", header.read_text(), flags=re.S | re.M)
    pairs = [(plain(found[at]), found[at + 1].strip("\n")) for at in range(1, len(found), 2)]
    return pairs[0][0], [(text, code.split("#ifdef __cplusplus")[0].strip("\n")) for text, code in pairs[1:]]
