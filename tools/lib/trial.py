"""Tries an archive as its user does: unpacked in an empty folder, with nothing in the environment but a path."""

import json
import os
import re
import shutil
import socket
import subprocess
import tempfile
import time
from pathlib import Path

import archive
import stamp
import versions

EXAMPLE = "share/doc/vscsi/examples"

# The newest version of the C library that the shared library may need.
NEWEST_GLIBC = (2, 14)

BARE = {"PATH": "/usr/bin:/bin"}


def fail(text):
    """Ends the trial."""
    raise SystemExit(f"release: {text}")


def run(*words, **how):
    """Runs a command in the bare environment, and returns what it printed, said and ended with."""
    env = {**BARE, **how.pop("env", {})}
    done = subprocess.run(words, capture_output=True, text=True, timeout=120, env=env, stdin=subprocess.DEVNULL, **how)
    return done.stdout, done.stderr, done.returncode


def unpacked(made, room):
    """Unpacks an archive in a folder, compares its sums, and returns the folder in it."""
    printed, said, status = run("tar", "-xzf", made, "-C", room)
    folder = room / archive.name()
    if status or [it.name for it in room.iterdir()] != [folder.name]:
        fail(f"not unpacked into one folder: {said}")
    printed, said, status = run("sha256sum", "--check", "--strict", archive.SUMS, cwd=folder)
    summed = {line.split(": ")[0] for line in printed.splitlines() if line.endswith(": OK")}
    files = {str(it.relative_to(folder)) for it in folder.rglob("*") if it.is_file() and not it.is_symlink()}
    if status or summed != files - {archive.SUMS}:
        fail(f"SHA256SUMS: {said}{sorted(files ^ summed)}")
    print(f"{archive.name()}: {len(files)} files, with their sums")
    return folder


def plays(folder):
    """Plays each example by the program, and asks for its version."""
    program, examples = folder / "bin/vscsi", sorted((folder / EXAMPLE).glob("*.vscsi"))
    for script in examples:
        named = script.with_suffix(".words")
        words = named.read_text().split() if named.is_file() else ["play", "-"]
        words = [str(script) if word == "-" else word for word in words]
        wanted = script.with_suffix(".stdout").read_text()
        if run(program, *words, cwd=folder) != (wanted, "", 0):
            fail(f"bin/vscsi prints something else for {script.name}")
    if run(program, "--version") != ("", f"vscsi {versions.version()}\n", 2):
        fail(f"bin/vscsi --version: {run(program, '--version')}")
    print(f"bin/vscsi: {len(examples)} examples as they should be")


def links(folder, room):
    """Builds an example in C over either library, as pkg-config says, and runs it."""
    if not shutil.which("pkg-config"):
        print("no pkg-config: nothing is built over the release's libraries")
        return
    paths = {"PKG_CONFIG_PATH": str(folder / "lib/pkgconfig")}
    if run("pkg-config", "--modversion", "vscsi", env=paths)[0].strip() != versions.version():
        fail("vscsi.pc has another version")
    words = run("pkg-config", "--cflags", "--libs", "vscsi", env=paths)[0].split()
    source, wanted = folder / EXAMPLE / "c/write_read.c", (folder / EXAMPLE / "c/write_read.stdout").read_text()
    for way, flags in {"shared": words, "static": [it.replace("-lvscsi", "-l:libvscsi.a") for it in words]}.items():
        program = room / f"write_read.{way}"
        said = run("cc", "-std=c11", source, *flags, "-o", program)
        path = {"LD_LIBRARY_PATH": str(folder / "lib")} if way == "shared" else {}
        if said[2] or run(program, env=path) != (wanted, "", 0):
            fail(f"write_read over the {way} library: {said[1]}")
    print("examples/c/write_read over the shared and over the static library: as it should be")


def tells(folder, room):
    """Asks the daemon for its version and its words, which its manual page has, and gives it a user whom no service knows."""
    program, page = folder / "bin/vscsi-vhost-user", folder / "share/man/man1/vscsi-vhost-user.1"
    printed, said, status = run(program, "--version")
    if status or said or printed.split("\n")[0] != f"vscsi-vhost-user {versions.version()}":
        fail(f"bin/vscsi-vhost-user --version: status {status}, {printed}{said}")
    known = run(program, "--help")[0]
    lacking = set(re.findall(r"--[a-z-]+", known)) - set(re.findall(r"--[a-z-]+", page.read_text().replace("\\-", "-")))
    if "--disk" not in known or lacking:
        fail(f"vscsi-vhost-user.1 lacks {sorted(lacking)}")
    # A static program that asks the system's name services ends by a signal here.
    printed, said, status = run(program, "--socket", room / "none", "--disk", "0:0=1M", "--user", "no-such-user")
    if status != 1 or "no-such-user" not in said:
        fail(f"bin/vscsi-vhost-user --user no-such-user: status {status}, {said}")


def answers(folder, room):
    """Starts the daemon, asks for its features, and ends it."""
    path = room / "socket"
    daemon = subprocess.Popen([folder / "bin/vscsi-vhost-user", "--socket", path, "--disk", "0:0=1M"], env=BARE, stderr=subprocess.PIPE)
    deadline = time.monotonic() + 20
    while not path.exists() and daemon.poll() is None and time.monotonic() < deadline:
        time.sleep(0.02)
    with socket.socket(socket.AF_UNIX) as front:
        front.settimeout(20)
        front.connect(str(path))
        front.sendall(bytes([1, 0, 0, 0, 1, 0, 0, 0, 0, 0, 0, 0]))
        answer = front.recv(20)
    daemon.terminate()
    if daemon.wait(20) or len(answer) != 20:
        fail(f"bin/vscsi-vhost-user: status {daemon.returncode}, {answer}: {daemon.stderr.read()}")
    print("bin/vscsi-vhost-user: starts, answers and ends")


def glibc(file):
    """Returns the newest version of the C library that a file needs, or nothing where it needs none."""
    symbols = run("objdump", "-T", file)[0]
    return max((tuple(map(int, it.split("."))) for it in re.findall(r"\(GLIBC_([\d.]+)\)", symbols)), default=None)


def needs(folder):
    """Looks for what a file needs or says of the machine that built it."""
    for program in ("bin/vscsi", "bin/vscsi-vhost-user"):
        if "INTERP" in run("readelf", "-lW", folder / program)[0] or glibc(folder / program):
            fail(f"{program} isn't linked statically")
    wants = glibc(folder / "lib/libvscsi.so")
    if not wants or wants > NEWEST_GLIBC:
        fail(f"libvscsi.so needs glibc {wants}")
    places = [str(archive.ROOT), tempfile.gettempdir() + "/", str(archive.library().kit()), str(Path.home()) + "/"]
    for file in (it for it in folder.rglob("*") if it.is_file() and it.relative_to(folder).parts[0] in ("bin", "lib", "include")):
        found = [place for place in places if place.encode() in file.read_bytes()]
        if found:
            fail(f"{file.relative_to(folder)} has a path of this machine: {found}")
    print(f"programs need no C library, libvscsi.so glibc {'.'.join(map(str, wants))}; no path of this machine is in them")


def formats(folder):
    """Formats each manual page, where there is a tool for that."""
    if not shutil.which("groff"):
        print("no groff: skipped")
        return
    pages = sorted(folder.glob("share/man/man*/*"))
    for page in pages:
        said = run("groff", "-man", "-ww", "-Tutf8", "-I", "share/man", page, cwd=folder)[1]
        if said:
            fail(f"{page.name}: {said}")
    print(f"{len(pages)} manual pages")


def refuses(room):
    """Tries what a release is refused for: no stamp, other sources, and a file that has changed."""
    (room / "out/gate").mkdir(parents=True)
    for name in stamp.built():
        (room / name).parent.mkdir(exist_ok=True)
        (room / name).write_bytes((archive.ROOT / name).read_bytes())
    file, now = room / "out/passed", {"commit": "c", "tree": "t", "when": 0}

    def refused(sources, wanted):
        said = stamp.refusal(room, sources)
        if not re.search(wanted, said or "none"):
            fail(f"refused in place of {wanted!r}: {said}")

    refused(now, "there is no out/passed")
    file.write_text(json.dumps({**now, "sums": stamp.sums(room)}))
    refused(now, "^none$")
    refused({**now, "tree": "another"}, "these are others")
    for name in stamp.built():
        before = (room / name).read_bytes()
        (room / name).write_bytes(before + b"\0")
        refused(now, f"^{re.escape(name)} isn't the file")
        (room / name).unlink()
        refused(now, f"^{re.escape(name)} isn't the file")
        (room / name).write_bytes(before)
    refused(now, "^none$")
    print("refused without a stamp, of other sources, and with any file changed or gone")


def run_all(make):
    """Makes an archive twice by a call that is given a folder, compares both, and tries one."""
    with tempfile.TemporaryDirectory() as place:
        first, second, room, bare = (Path(place) / it for it in ("first", "second", "room", "bare"))
        for folder in (room, bare):
            folder.mkdir()
        made = make(first)
        # Under another mask the files have other modes, and the archive hasn't.
        before = os.umask(0o077)
        again = make(second)
        os.umask(before)
        if again.read_bytes() != made.read_bytes():
            fail("two archives of the same files differ")
        folder = unpacked(made, bare)
        plays(folder)
        links(folder, room)
        tells(folder, room)
        answers(folder, room)
        needs(folder)
        formats(folder)
        refuses(room)
