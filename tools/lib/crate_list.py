"""The crates that crates.txt names, and on which of each other they stand."""

from pathlib import Path

ROOT = Path(__file__).resolve().parent.parent.parent


def below():
    """The crates of this repository that each crate names, by its name, in the order of the lines."""
    lines = [line.split("#")[0].partition(":") for line in (ROOT / "crates.txt").read_text().splitlines()]
    named = {head.split()[0]: crates.split() for head, colon, crates in lines if colon}
    return {name: [it for it in crates if it in named] for name, crates in named.items()}


def names():
    """The names of the crates, in the order of the lines."""
    return list(below())
