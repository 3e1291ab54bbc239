"""The benchmark in C: examples/c/bench.c, over the library that `tools/build/c_library` left in a folder: out/c. And what it is held
against: the same guest over examples/c/floor.c."""

import subprocess
import sys
from pathlib import Path

ROOT = Path(__file__).resolve().parent.parent.parent
FOLDER = ROOT / "out/c"


# The header as it stands in the crate, for what needs no library.
HEADER = ROOT / "crates/vscsi_c/include"


def compiled(folder, name, *words, guest="bench"):
    """A program of a guest of examples/c, built anew."""
    program = folder / name
    subprocess.run(["cc", "-std=c11", "-O2", f"-I{folder}", ROOT / f"examples/c/{guest}.c", *words, "-o", program], check=True)
    return program


def built(folder=FOLDER, guest="bench"):
    """The benchmark, or another guest, over the library."""
    archive = folder / "libvscsi.a"
    if not archive.exists():
        sys.exit(f"there is no {archive}: tools/build/c_library builds it")
    return compiled(folder, guest, archive, guest=guest)


def live(folder=FOLDER):
    """The benchmark over the library's device on live memory."""
    return compiled(folder, "bench_live", "-DLIVE", folder / "libvscsi.a")


def floors(folder=FOLDER):
    """The same over the least that a device does, with one copy of the data, and with as many as the library makes."""
    floor = ROOT / "examples/c/floor.c"
    return compiled(folder, "floor", floor), compiled(folder, "floor_copies", "-DCOPIES", floor)


def floor_of_threads(folder):
    """The same guest, and the least that a device does, in one thread or in two: examples/c/floor_threads.c."""
    program = Path(folder) / "floor_threads"
    source = ROOT / "examples/c/floor_threads.c"
    subprocess.run(["cc", "-std=c11", "-O2", "-DCOPIES", f"-I{HEADER}", source, "-o", program, "-lpthread"], check=True)
    return program
