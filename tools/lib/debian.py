"""Debian packages of what a release has: the program, the shared library, what a C compiler needs, and the daemon."""

import gzip
import hashlib
import os
import re
import shutil
import subprocess
import tempfile
from email.utils import formatdate
from pathlib import Path

import archive
import c_header
import stamp
import versions

ROOT = archive.ROOT
SOURCES = ROOT / "tools/lib/debian_files"

# The folder of libraries for this processor.
LIBRARIES = "usr/lib/x86_64-linux-gnu"

# The revision of the packages of one version.
REVISION = 1


def version():
    """Returns the version of the packages."""
    return f"{versions.version()}-{REVISION}"


def packages():
    """Returns the fields of each package, by its name."""
    parts = (SOURCES / "packages").read_text().strip().split("\n\n")
    return {re.match(r"Package: (\S+)\n", part)[1]: part for part in parts}


def put(root, place, *files, mode=0o644):
    """Copies files into a folder below a root."""
    (root / place).mkdir(parents=True, exist_ok=True)
    for file in files:
        shutil.copy(file, root / place)
        (root / place / Path(file).name).chmod(mode)


def put_packed(root, place, name, text):
    """Writes a text into a folder below a root, compressed as Debian has it."""
    (root / place).mkdir(parents=True, exist_ok=True)
    (root / place / f"{name}.gz").write_bytes(gzip.compress(text.encode(), 9, mtime=0))


def put_pages(root, section, pages):
    """Puts manual pages, texts by their names, below a root."""
    for name, text in pages.items():
        put_packed(root, f"usr/share/man/man{section}", name, text)


def put_program(root, name):
    """Puts a program with its manual page, where there is one."""
    put(root, "usr/bin", archive.BUILT / "dynamic" / name, mode=0o755)
    subprocess.run(["strip", root / "usr/bin" / name], check=True)
    page = ROOT / f"docs/{name}.1"
    put_pages(root, 1, {page.name: page.read_text()} if page.is_file() else {})


def put_vscsi(root, facts):
    """Puts the program vscsi with the manual page of its scripts, documents and examples."""
    put_program(root, "vscsi")
    page = ROOT / "docs/vscsi-script.5"
    put_pages(root, 5, {page.name: page.read_text()})
    documents = "usr/share/doc/vscsi"
    put(root, documents, *(ROOT / page for page in ("README.md", "SECURITY.md", "CONTRIBUTING.md")))
    put(root, f"{documents}/docs", *(it for it in (ROOT / "docs").iterdir() if it.suffix in (".md", ".svg")))
    put(root, f"{documents}/examples", *(it for it in (ROOT / "examples").iterdir() if it.is_file()))
    (root / documents / "PROVED").write_text(archive.proved(facts))


def shared():
    """Returns the name of the shared library's file, and that by which programs find it."""
    number = versions.version()
    return f"libvscsi.so.{number}", f"libvscsi.so.{number.split('.')[0]}"


def symbols():
    """Returns which version of the library each call needs, in the form of Debian's symbols files."""
    since = {}
    for said, code in c_header.parts()[1]:
        found = re.search(r"\bSince (\d+\.\d+)\.", " ".join(said))
        since.update({name: f"{found[1]}.0" if found else "1.0.0" for name in c_header.CALL.findall(code)})
    name = shared()[1]
    major = name.split(".")[-1]
    lines = [f"{name} libvscsi1 #MINVER#", "* Build-Depends-Package: libvscsi-dev"]
    lines += [f" {call}@VSCSI_{major} {since[call]}" for call in sorted(since)]
    return "\n".join([*lines, f" VSCSI_{major}@VSCSI_{major} 1.0.0", ""])


def put_library(root, _):
    """Puts the shared library, and what packages of programs over it read."""
    file, found_by = shared()
    put(root, LIBRARIES, archive.BUILT / file)
    subprocess.run(["strip", "--strip-unneeded", root / LIBRARIES / file], check=True)
    (root / LIBRARIES / found_by).symlink_to(file)
    (root / "DEBIAN/shlibs").write_text(f"libvscsi {found_by.split('.')[-1]} libvscsi1 (>= {versions.version()})\n")
    (root / "DEBIAN/symbols").write_text(symbols())
    (root / "DEBIAN/triggers").write_text("activate-noawait ldconfig\n")


def put_development(root, _):
    """Puts the header, the static library, vscsi.pc, manual pages and examples in C."""
    put(root, "usr/include", archive.BUILT / "vscsi.h")
    put(root, LIBRARIES, archive.BUILT / "libvscsi.a")
    subprocess.run(["strip", "--strip-debug", "--enable-deterministic-archives", root / LIBRARIES / "libvscsi.a"], check=True)
    (root / LIBRARIES / "libvscsi.so").symlink_to(shared()[0])
    tool = archive.library()
    package = tool.package("/usr").replace("${prefix}/lib", f"${{prefix}}/{LIBRARIES.removeprefix('usr/')}")
    (root / LIBRARIES / "pkgconfig").mkdir()
    (root / LIBRARIES / "pkgconfig/vscsi.pc").write_text(package)
    with tempfile.TemporaryDirectory() as room:
        tool.install(archive.BUILT, "", room)
        put_pages(root, 3, {page.name: page.read_text() for page in Path(room).glob("share/man/man3/*")})
    put(root, "usr/share/doc/libvscsi-dev", ROOT / "docs/C.md")
    put(root, "usr/share/doc/libvscsi-dev/examples", *(ROOT / "examples/c").iterdir())


def put_daemon(root, _):
    """Puts the daemon with its unit, its user and the folder of its words."""
    for program in ("vscsi-vhost-user", *archive.CLIENTS):
        if (archive.BUILT / "dynamic" / program).is_file():
            put_program(root, program)
    put(root, "usr/share/qemu/vhost-user", ROOT / "daemon/vhost-user/50-vscsi.json")
    put(root, "lib/systemd/system", ROOT / "daemon/systemd/vscsi-vhost-user@.service")
    put(root, "usr/lib/sysusers.d", ROOT / "daemon/systemd/vscsi-vhost-user.conf")
    put(root, "usr/share/doc/vscsi-vhost-user", ROOT / "docs/DAEMON.md", ROOT / "docs/RELEASE.md")
    (root / "etc/vscsi").mkdir(parents=True)
    for script in ("postinst", "postrm"):
        shutil.copy(SOURCES / f"vscsi-vhost-user.{script}", root / "DEBIAN" / script)
        (root / "DEBIAN" / script).chmod(0o755)


PARTS = {"vscsi": put_vscsi, "libvscsi1": put_library, "libvscsi-dev": put_development, "vscsi-vhost-user": put_daemon}


def maintainer():
    """Returns who made the commit that is built, with an address."""
    return stamp.said("git", "log", "-1", "--format=%an <%ae>") or "nobody <root@localhost>"


def put_changes(root, name, facts):
    """Puts the copyright file and both changelogs."""
    documents = f"usr/share/doc/{name}"
    put(root, documents, SOURCES / "copyright")
    put_packed(root, documents, "changelog", (ROOT / "CHANGELOG.md").read_text())
    when = formatdate(facts["when"])
    head = f"vscsi ({version()}) unstable; urgency=medium"
    put_packed(root, documents, "changelog.Debian", f"{head}\n\n  * Package version {versions.version()}.\n\n -- {maintainer()}  {when}\n")


def needed(root):
    """Returns the packages that the programs and libraries below a root need."""
    files = [*root.glob("usr/bin/*"), *root.glob(f"{LIBRARIES}/*.so.*.*.*")]
    if not files:
        return ""
    with tempfile.TemporaryDirectory() as room:
        (Path(room) / "debian").mkdir()
        (Path(room) / "debian/control").write_text("Source: vscsi\n\nPackage: vscsi\nArchitecture: amd64\n")
        words = ["dpkg-shlibdeps", "-O", *(f"-e{file}" for file in files)]
        said = subprocess.run(words, cwd=room, capture_output=True, text=True, check=True).stdout
    return said.strip().removeprefix("shlibs:Depends=")


def put_control(root, fields):
    """Writes the control file of a package, and the sums of its files."""
    places = [it for it in sorted(root.rglob("*")) if it.relative_to(root).parts[0] != "DEBIAN"]
    files = [it for it in places if it.is_file() and not it.is_symlink()]
    # In KiB, and one for each other thing, as Debian counts.
    size = sum(-(-it.stat().st_size // 1024) for it in files) + len(places) - len(files)
    head, rest = fields.split("\n", 1)
    rest = rest.replace("${shlibs}", needed(root)).replace("${version}", version())
    common = [f"Version: {version()}", f"Maintainer: {maintainer()}", f"Installed-Size: {size}"]
    lines = [head, "Source: vscsi", "Architecture: amd64", "Priority: optional", *common, rest, ""]
    (root / "DEBIAN/control").write_text("\n".join(lines))
    lines = [f"{hashlib.md5(it.read_bytes()).hexdigest()}  {it.relative_to(root)}\n" for it in files]
    (root / "DEBIAN/md5sums").write_text("".join(lines))


def set_modes(root):
    """Gives each file and folder the mode that it is installed with, whatever the umask is."""
    for path in (root, *root.rglob("*")):
        if not path.is_symlink():
            path.chmod(0o755 if archive.is_program(path) else 0o644)


def build(facts, into):
    """Builds the packages in a folder, with the commit's time for each file, and returns their paths."""
    shutil.rmtree(into, ignore_errors=True)
    into.mkdir(parents=True)
    for name, fields in packages().items():
        with tempfile.TemporaryDirectory() as place:
            root = Path(place) / name
            (root / "DEBIAN").mkdir(parents=True)
            PARTS[name](root, facts)
            put_changes(root, name, facts)
            put_control(root, fields)
            set_modes(root)
            env = {**os.environ, "SOURCE_DATE_EPOCH": str(facts["when"])}
            words = ["dpkg-deb", "--root-owner-group", "-Zxz", "--build", root, into]
            subprocess.run(words, check=True, env=env, stdout=subprocess.DEVNULL)
    return sorted(into.glob("*.deb"))
