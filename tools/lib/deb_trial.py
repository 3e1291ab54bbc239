"""Tries Debian packages on this machine, as root: installs them, uses what they have, and removes them."""

import shutil
import subprocess
import tempfile
import time
from pathlib import Path

import debian
import trial
import versions

NAMES = ["libvscsi1", "libvscsi-dev", "vscsi", "vscsi-vhost-user"]
UNIT = "/lib/systemd/system/vscsi-vhost-user@.service"


def done(*words, **how):
    """Runs a command, and ends with what it says where it fails."""
    said = subprocess.run(words, capture_output=True, text=True, stdin=subprocess.DEVNULL, timeout=300, **how)
    if said.returncode:
        trial.fail(f"{' '.join(map(str, words))}: status {said.returncode}\n{said.stdout}{said.stderr}")
    return said.stdout


def installed():
    """Returns those of the packages that are installed."""
    said = subprocess.run(["dpkg-query", "-W", "-f", "${Package} ${db:Status-Abbrev}\n", *NAMES], capture_output=True, text=True).stdout
    return sorted(line.split()[0] for line in said.splitlines() if line.split()[1:] == ["ii"])


def has_user():
    """Says whether the daemon's user is there."""
    return subprocess.run(["getent", "passwd", "vscsi"], capture_output=True).returncode == 0


def judged(packages):
    """Has lintian look at the packages, where it is there, and compares the shared library's names with the symbols file."""
    if shutil.which("lintian"):
        done("lintian", "--fail-on", "error", *packages)
        print("lintian: no errors")
    with tempfile.TemporaryDirectory() as place:
        room = Path(place)
        (room / "debian").mkdir()
        (room / "debian/control").write_text("Source: vscsi\n\nPackage: libvscsi1\nArchitecture: amd64\n")
        done("dpkg-deb", "-x", next(it for it in packages if it.name.startswith("libvscsi1_")), room / "root")
        (room / "symbols").write_text(debian.symbols())
        words = ["-plibvscsi1", f"-v{debian.version()}", "-Proot", "-Isymbols", "-Oout", "-c4"]
        done("dpkg-gensymbols", *words, cwd=room)
    print("symbols: those of the shared library")


def plays():
    """Plays an example by the installed program, and builds one in C over the installed library."""
    examples = Path("/usr/share/doc/vscsi/examples")
    if done("/usr/bin/vscsi", "play", examples / "write_read.vscsi") != (examples / "write_read.stdout").read_text():
        trial.fail("/usr/bin/vscsi prints something else for write_read.vscsi")
    in_c = Path("/usr/share/doc/libvscsi-dev/examples")
    with tempfile.TemporaryDirectory() as room:
        words = done("pkg-config", "--cflags", "--libs", "vscsi").split()
        done("cc", "-std=c11", in_c / "write_read.c", *words, "-o", f"{room}/program")
        if "libvscsi.so.1 => /" not in done("ldd", f"{room}/program"):
            trial.fail("write_read.c isn't linked with the shared library")
        if done(f"{room}/program") != (in_c / "write_read.stdout").read_text():
            trial.fail("write_read.c prints something else")
    if done("pkg-config", "--modversion", "vscsi").strip() != versions.version():
        trial.fail("vscsi.pc has another version")
    for page in ("vscsi_counts", "vscsi-script"):
        done("man", "--warnings", "-P", "cat", page)
    print("the program, an example in C and two manual pages: as they should be")


def serves():
    """Has the daemon's unit judged, and the daemon run as the user that the package made."""
    with tempfile.TemporaryDirectory() as place:
        unit = Path(place) / "vscsi-vhost-user@web.service"
        shutil.copy(UNIT, unit)
        done("systemd-analyze", "verify", unit)
        done("systemd-analyze", "security", "--offline=yes", "--threshold=15", unit)
        shutil.chown(place, "vscsi", "vscsi")
        path = Path(place) / "socket"
        words = ["setpriv", "--reuid=vscsi", "--regid=vscsi", "--clear-groups", "--no-new-privs"]
        daemon = subprocess.Popen([*words, "/usr/bin/vscsi-vhost-user", "--socket", path, "--disk", "0:0=1M"])
        deadline = time.monotonic() + 20
        while not path.exists() and daemon.poll() is None and time.monotonic() < deadline:
            time.sleep(0.02)
        is_listening = path.is_socket() and path.owner() == "vscsi"
        daemon.terminate()
        if daemon.wait(20) or not is_listening:
            trial.fail(f"the daemon ended with status {daemon.returncode}, listening: {is_listening}")
    print("the unit and the daemon: as they should be")


def run_all(packages):
    """Installs packages, tries them and removes them, whatever became of the trial."""
    if installed():
        trial.fail(f"installed already: {', '.join(installed())}")
    judged(packages)
    lines = [line for it in packages for line in done("dpkg-deb", "-c", it).splitlines()]
    files = {line.split(None, 5)[5] for line in lines if line.startswith("-")}
    had_user = has_user()
    try:
        done("dpkg", "--install", *packages)
        if installed() != sorted(NAMES):
            trial.fail(f"installed are {installed()}")
        plays()
        serves()
    finally:
        done("dpkg", "--purge", *NAMES)
        # A package leaves its user, since files may be that user's. A trial has none.
        if has_user() and not had_user:
            done("userdel", "vscsi")
    left = [file for file in files if Path("/", file).exists()]
    if left or installed():
        trial.fail(f"left behind: {left} {installed()}")
    print(f"removed: {len(files)} files")
