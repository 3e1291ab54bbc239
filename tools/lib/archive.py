"""The files of a release, below one folder, and the archive of them: the same bytes for the same files, whenever it is made."""

import gzip
import hashlib
import io
import shutil
import tarfile
from importlib.machinery import SourceFileLoader
from pathlib import Path

import versions

ROOT = Path(__file__).resolve().parent.parent.parent
BUILT = ROOT / "out/gate"
DOCUMENTS = "share/doc/vscsi"
SUMS = f"{DOCUMENTS}/SHA256SUMS"

# Programs that are built where their libraries are.
CLIENTS = ("vscsi-ctl",)

# The documents at the top of the repository that a user reads.
PAGES = ("README.md", "CHANGELOG.md", "SECURITY.md", "CONTRIBUTING.md")


def name():
    """Returns the name of the archive without its ending, which is that of its folder."""
    return f"vscsi-{versions.version()}-x86_64-linux"


def library():
    """Returns the tool that builds and installs the library."""
    return SourceFileLoader("c_library", str(ROOT / "tools/build/c_library")).load_module()


def is_program(path):
    """Says whether a file is to be run."""
    return path.is_dir() or bool(path.stat().st_mode & 0o100)


def manuals():
    """Returns the manual pages that the repository has, by their section."""
    return [(page, page.suffix[1:]) for page in sorted((ROOT / "docs").glob("*.[1-8]"))]


def proved(facts):
    """Returns the text of PROVED: what the files of a release were built from, and what passed."""
    lines = [f"vscsi {versions.version()} for Linux on x86-64 was built by ./check, which passed.", ""]
    lines += [f"{word:9} {facts[word]}" for word in ("commit", "tree", "kit", "compiler", "result")]
    lines += ["", "The files that it built, with their SHA-256:", ""]
    return "\n".join([*lines, *(f"{value}  {file}" for file, value in sorted(facts["sums"].items())), ""])


def put_documents(folder, facts):
    """Puts documents, examples, manual pages and PROVED below a folder."""
    documents = folder / DOCUMENTS
    for part in ("docs", "examples"):
        shutil.copytree(ROOT / part, documents / part)
    for page in PAGES:
        shutil.copy(ROOT / page, documents)
    for page, section in manuals():
        (folder / f"share/man/man{section}").mkdir(parents=True, exist_ok=True)
        shutil.copy(page, folder / f"share/man/man{section}")
    for part in ("systemd", "vhost-user"):
        shutil.copytree(ROOT / "daemon" / part, documents / part)
    (documents / "PROVED").write_text(proved(facts))


def put_sums(folder):
    """Writes the sums of all files below a folder, in the form that `sha256sum -c` reads."""
    files = [path for path in sorted(folder.rglob("*")) if path.is_file() and not path.is_symlink()]
    lines = [f"{hashlib.sha256(path.read_bytes()).hexdigest()}  {path.relative_to(folder)}\n" for path in files]
    (folder / SUMS).write_text("".join(lines))


def stage(folder, facts):
    """Puts all files of a release below a folder that is empty."""
    tool = library()
    tool.install(BUILT, "", str(folder))
    (folder / "lib/pkgconfig/vscsi.pc").write_text(tool.package("${pcfiledir}/../.."))
    (folder / "bin").mkdir()
    for program in ("vscsi", "vscsi-vhost-user", *CLIENTS):
        if program not in CLIENTS or (BUILT / "static" / program).is_file():
            shutil.copy(BUILT / "static" / program, folder / "bin")
    put_documents(folder, facts)
    put_sums(folder)


def pack(folder, when, into):
    """Writes an archive of a folder, with this time in seconds for each file, owned by root, in the order of names."""
    raw = io.BytesIO()
    with tarfile.open(fileobj=raw, mode="w", format=tarfile.USTAR_FORMAT) as tar:
        for path in sorted(folder.rglob("*")):
            entry = tar.gettarinfo(path, f"{name()}/{path.relative_to(folder)}")
            entry.uid = entry.gid = 0
            entry.uname = entry.gname = "root"
            entry.mtime = when
            entry.mode = 0o777 if entry.issym() else 0o755 if is_program(path) else 0o644
            with open(path, "rb") if entry.isreg() else io.BytesIO() as file:
                tar.addfile(entry, file)
    with open(into, "wb") as out, gzip.GzipFile("", "wb", 9, out, 0) as packed:
        packed.write(raw.getvalue())
    return into

