"""Tests the daemon as its operator meets it: its words, its socket, its images, its log, its limits. Part of tools/test/daemon.

Each test is a function of a Room: the program, an empty folder, and what else the machine has. A test ends with an AssertionError
where something isn't so.
"""

import contextlib
import ctypes.util
import errno
import fcntl
import json
import os
import pwd
import random
import re
import resource
import shutil
import signal
import socket
import stat
import struct
import subprocess
import time
import traceback
from pathlib import Path

from front_end import GET_VRING_BASE, QUEUE, FrontEnd

DOCS = Path(__file__).resolve().parent.parent.parent / "docs"
DESCRIPTION = DOCS.parent / "daemon/vhost-user/50-vscsi.json"
MIB = 1 << 20
GET_FEATURES, SET_OWNER, SET_VRING_CALL = 1, 3, 13
# QEMU's bytes: a permission that is used is 100 and its bit, one that isn't shared 200 and its bit.
READS, WRITES, RESIZES = 0, 1, 3
# Seconds that a test waits for what comes soon where the machine has nothing else to do: a disk may have much to write before.
LATE = 60


def fill_file(path, size, fill):
    """Makes a file of so many bytes. Zeros are a hole, which is nothing for the system to write."""
    if fill != b"\0":
        path.write_bytes(fill * size)
        return
    with path.open("wb") as file:
        file.truncate(size)


class Room:
    """Where a test runs: a folder of its own, the daemon, and what was built beside it."""

    def __init__(self, folder, program, shim=None, client=None, ceph=None):
        self.folder, self.program, self.shim, self.client, self.ceph = folder, program, shim, client, ceph
        self.socket = folder / "socket"
        # What the daemon does within a second has this long, since the machine may be busy; sanitizers look for leaks at the end.
        self.late = 2 if shim else 10

    def file(self, name, size=MIB, fill=b"\x5a"):
        """Makes a file of so many bytes."""
        path = self.folder / name
        fill_file(path, size, fill)
        return path

    def ends(self, *words, status, says="", **more):
        """Runs the daemon to its end, which comes by itself, with this status and a text on standard error. Gives its standard output."""
        run = subprocess.run([self.program, *words], capture_output=True, text=True, timeout=LATE, **more)
        assert run.returncode == status, f"{words}: status {run.returncode}, {run.stderr}"
        assert says in run.stderr and (status == 0) == (not run.stderr), f"{words}: {run.stderr!r}"
        return run.stdout

    def refuses(self, *words, says="", **more):
        """The daemon ends with status 1 and a text, and no socket is left."""
        before = self.socket.exists()
        self.ends("--socket", self.socket, *words, status=1, says=says, **more)
        assert self.socket.exists() == before

    @contextlib.contextmanager
    def runs(self, *words, ends=0, by=signal.SIGTERM, path=None, stderr=subprocess.PIPE, **more):
        """A daemon that runs until the block ends, and then is ended by a signal, with this status. With `path` it listens there."""
        path = path or self.socket
        named = [] if any(str(word).startswith("--fd") for word in words) else ["--socket", path]
        # The control socket is the last one.
        last = words[words.index("--control") + 1] if "--control" in words else path
        run = subprocess.Popen([self.program, *named, *words], stderr=stderr, text=True, **more)
        try:
            if named:
                wait_for(lambda: run.poll() is not None or (last.exists() and listens(last)), "the daemon to listen")
                assert run.poll() is None, f"{words}: status {run.returncode}, {run.stderr.read() if run.stderr else ''}"
            yield run
            run.send_signal(by)
            began = time.monotonic()
            assert run.wait(20) == ends, f"{words}: status {run.returncode}"
            assert time.monotonic() - began < self.late, f"{words}: ended late"
        finally:
            run.kill()
            run.wait()
            if run.stderr:
                run.stderr.close()


def load():
    """What else the machine does, of which a wait that ended in vain may come."""
    stalls = Path("/proc/pressure/io")
    lines = [Path("/proc/loadavg").read_text(), *re.findall(r"(?:Dirty|Writeback): *.*", Path("/proc/meminfo").read_text())]
    return "; ".join(" ".join(line.split()) for line in lines + (stalls.read_text().splitlines() if stalls.exists() else []))


def wait_for(is_so, what, seconds=LATE, pause=0.02):
    """Waits until it is so. `what` says what for, or is called for that in the end."""
    end = time.monotonic() + seconds
    while not is_so():
        assert time.monotonic() < end, f"waited for {what() if callable(what) else what} ({load()})"
        time.sleep(pause)


def listens(path):
    """Whether the table of sockets has one that listens at a path. Nothing is connected."""
    lines = Path("/proc/net/unix").read_text(errors="replace").splitlines()
    return any(line.endswith(f" {path}") and line.split()[3] == "00010000" for line in lines)


def connected(path):
    it = socket.socket(socket.AF_UNIX)
    it.connect(str(path))
    it.settimeout(10)
    return it


def message(request, payload=b"", flags=1):
    return struct.pack("<III", request, flags, len(payload)) + payload


def is_served(front):
    """Whether a front end is answered."""
    try:
        front.sendall(message(GET_FEATURES))
        got = front.recv(20)
    except OSError:
        return False
    return len(got) == 20 and struct.unpack("<IIIQ", got)[:3] == (GET_FEATURES, 5, 8) and got[16] & 1 == 1


def serves(path):
    with connected(path) as front:
        return is_served(front)


def is_over(front, seconds):
    """Whether the daemon ends a connection within so many seconds."""
    front.settimeout(seconds)
    try:
        return front.recv(1) == b""
    except ConnectionError:
        return True
    except socket.timeout:
        return False


# The socket.


def test_socket_takes_no_file(room):
    """Only a socket that nobody listens at is ever taken away."""
    disk = room.file("disk.img")
    words = ["--disk", f"0:0=1M,file={disk}"]
    room.ends("--socket", disk, *words, status=1, says="disk.img: ")
    assert disk.read_bytes() == b"\x5a" * MIB
    link, pipe, notes = room.folder / "link", room.folder / "pipe", room.file("notes", 10)
    link.symlink_to(notes)
    os.mkfifo(pipe)
    for path in (link, pipe, notes):
        room.ends("--socket", path, *words, status=1, says=f"{path.name}: ")
    assert link.is_symlink() and pipe.is_fifo() and notes.read_bytes() == b"\x5a" * 10
    stale = socket.socket(socket.AF_UNIX)
    stale.bind(str(room.socket))
    stale.close()
    link.unlink()
    link.symlink_to(room.socket)
    room.ends("--socket", link, *words, status=1, says="link: ")
    assert link.is_symlink() and room.socket.is_socket()
    with room.runs(*words):
        assert serves(room.socket)
    assert not room.socket.exists()


def test_socket_of_another_stays(room):
    """A second daemon is refused at a path that is listened at, and one that took the path over keeps it."""
    with room.runs("--disk", "0:0=1M") as first:
        room.refuses("--disk", "0:0=1M", says="socket: ")
        assert serves(room.socket)
        room.socket.unlink()
        with room.runs("--disk", "0:0=1M"):
            first.terminate()
            assert first.wait(LATE) == 0
            assert serves(room.socket)
    assert not room.socket.exists()


def test_one_of_many_gets_a_path(room):
    """Of daemons that start at once where a stale socket stands, one listens, and the others are refused."""
    for _ in range(5):
        stale = socket.socket(socket.AF_UNIX)
        stale.bind(str(room.socket))
        stale.close()
        words = [room.program, "--socket", room.socket, "--disk", "0:0=1M", "--quiet"]
        # All look at the stale socket before the first one takes it away.
        slowly = {"LD_PRELOAD": str(room.shim), "SLOW": "1"} if room.shim else None
        runs = [subprocess.Popen(words, stderr=subprocess.DEVNULL, env=slowly) for _ in range(6)]
        try:
            wait_for(lambda: sum(run.poll() is None for run in runs) <= 1, "five to be refused")
            wait_for(lambda: listens(room.socket), "one to listen")
            assert sorted(run.poll() or 0 for run in runs) == [0, 1, 1, 1, 1, 1] and serves(room.socket)
        finally:
            for run in runs:
                run.terminate()
                run.wait(LATE)


# Words and statuses.


def test_words(room):
    """Wrong words are status 2 and a text; help and versions are status 0 and on standard output."""
    disk, named = ["--disk", "0:0=1M"], ["--socket", room.socket]
    wrong = [[], ["--socket"], named, disk, [*named, "--disk", "0:1=1M"], ["--queues", "16"], [*named, *disk, "--queues", "5abc"],
             [*named, *disk, "--queues", "17"], [*named, *disk, "--queues", ""], [*named, *disk, "x"], [*named, *disk, "--x"],
             [*named, *disk, "--mode", "888"], [*named, *disk, "--mode", "1777"], [*named, *disk, "--fd", "3"], [*disk, "--fd", "1"],
             [*disk, "--fd", "3", "--mode", "600"], [*named, *disk, "--seccomp", "maybe"], [*named, "--disk", "0:0=1M,snapshot"],
             [*named, *disk, "--poll-max-ns", "10000001"], [*named, *disk, "--poll-max-ns", "-1"], [*named, *disk, "--poll-max-ns"],
             [*named, "--disk", "0:0=1M,grow"], [*named, "--disk", "0:0=1M,file=x", "--log", "x"],
             [*named, "--disk", "0:0=file="], [*named, "--disk", "0:0=file=x,grow"]]
    for words in wrong:
        assert room.ends(*words, status=2) == ""
    usage = room.ends("--help", status=0)
    assert all(word in usage for word in ("--socket", "--disk", "--user", "--log", "snapshot", "grow"))
    told = "".join(rf"\nwith(out)? {what}" for what in ("seccomp", "io_uring", "NBD", "RBD"))
    assert re.fullmatch(rf"vscsi-vhost-user \d+\.\d+\S*{told}\n", room.ends("--version", status=0))


def test_conventions(room):
    """What QEMU's conventions of back ends ask for: capabilities, whatever the other words are, and a file that describes the program."""
    for words in ([], ["--disk", "wrong", "--fd"], ["x", "--x"]):
        assert json.loads(room.ends(*words, "--print-capabilities", status=0)) == {"type": "scsi", "features": []}
        assert json.loads(room.ends("--print-capabilities", *words, status=0)) == {"type": "scsi", "features": []}
    described = json.loads(DESCRIPTION.read_text())
    assert described["type"] == "scsi" and described["binary"] == "/usr/bin/vscsi-vhost-user" and described["description"]


def test_documents(room):
    """The manual page and --help have the same words, and docs/DAEMON.md has no other."""
    words = r"--[a-z][a-z-]*|\b(?:grow|snapshot|detect-zeroes|write-cache|cache-size|direct|read-only|nbd|rbd-conf|rbd-user|rbd|rerror|werror)\b"
    said = [set(re.findall(words, text.replace("\\-", "-"))) for text in (
        room.ends("--help", status=0),
        (DOCS / "vscsi-vhost-user.1").read_text().split(".SH OPTIONS")[1].split(".SH ")[0],
        (DOCS / "DAEMON.md").read_text())]
    assert said[0] == said[1] and said[2] <= said[0] and len(said[0]) > 15, [sorted(it - said[0]) + sorted(said[0] - it) for it in said]


def test_socket_path_is_socket(room):
    words = [room.program, f"--socket-path={room.socket}", "--disk=0:0=1M", "--quiet"]
    with subprocess.Popen(words, stderr=subprocess.DEVNULL) as run:
        wait_for(lambda: listens(room.socket), "the daemon to listen")
        assert serves(room.socket)
        run.send_signal(signal.SIGINT)
        assert run.wait(LATE) == 0 and not room.socket.exists()


def test_read_only_is_refused(room):
    """`ro` is refused, since the guest would be told that its WRITEs were done. `snapshot` says that they are lost."""
    disk = room.file("disk.img")
    room.ends("--socket", room.socket, "--disk", f"0:0=1M,file={disk},ro", status=2, says="snapshot")
    disk.chmod(0o400)
    with room.runs("--disk", f"0:0=1M,file={disk},snapshot"):
        assert serves(room.socket)
        room.ends("--socket", room.folder / "other", "--disk", f"0:0=1M,file={disk}", status=1, says="disk.img: ")


def test_read_only(room):
    """With `read-only=on` a file is opened for reading alone, and daemons share it. What makes no sense beside it is refused by name."""
    disk = room.file("disk.img")
    named = ("--socket", room.socket, "--disk")
    refused = {f"1M,file={disk},read-only=on,snapshot": "read-only=on takes no snapshot", "1M,read-only=on": "read-only=on wants file=PATH",
               f"2M,file={disk},grow,read-only=on": "read-only=on takes no snapshot and no grow",
               f"1M,file={disk},read-only=on,profile=narrow": "read-only=on wants profile=wide"}
    for words, says in refused.items():
        room.ends(*named, f"0:0={words}", status=2, says=says)
    room.refuses("--disk", f"0:0=1M,file={room.folder / 'missing.img'},read-only=on", says="missing.img: No such file")
    disk.chmod(0o400)
    with room.runs("--disk", f"0:0=file={disk},read-only=on"):
        assert serves(room.socket)
        with disk.open("rb") as file:
            assert [is_locked(file, at) for at in (100, 101, 103, 200, 201, 203)] == [True, False, False, False, True, True]
        with room.runs("--disk", f"0:0=1M,file={disk},read-only=on", path=room.folder / "other"):
            pass
    with room.runs("--disk", f"0:0=1M,file={room.file('other.img')},read-only=off"):
        assert serves(room.socket)
    assert disk.read_bytes() == b"\x5a" * MIB


def test_system_refuses(room):
    """What the system refuses is status 1, also where the daemon is to be quiet."""
    room.refuses("--disk", f"0:0=1M,file={room.folder / 'missing.img'},snapshot", says="missing.img: No such file")
    room.refuses("--disk", f"0:0=file={room.folder / 'missing.img'}", says="missing.img: No such file")
    room.refuses("--disk", f"0:0=1M,file={room.folder / 'no/x.img'}", "--quiet", says="x.img: No such file")
    room.refuses("--disk", f"0:0=1M,file={room.folder}", says="directory")
    room.refuses("--disk", "0:0=1M,file=/dev/null", says="/dev/null: ")
    os.mkfifo(room.folder / "pipe")
    room.refuses("--disk", f"0:0=1M,file={room.folder / 'pipe'},snapshot", says="pipe: ")
    room.ends("--socket", room.folder / "no/socket", "--disk", "0:0=1M", status=1, says="no/socket: No such file")
    room.ends("--socket", room.folder / ("x" * 120), "--disk", "0:0=1M", status=1, says="xxx: ")
    room.ends("--fd", "77", "--disk", "0:0=1M", status=1, says="77")
    room.refuses("--disk", "0:0=1M", "--user", "no-such-user", says="no-such-user")
    room.refuses("--disk", "0:0=1M", "--log", room.folder / "no/log", says="no/log: No such file")


# Images.


def test_lengths(room):
    """An image has to be as long as its disk, unless `grow` is said, or no size."""
    disk = room.file("disk.img")
    room.refuses("--disk", f"0:0=2M,file={disk}", says="disk.img: shorter")
    room.refuses("--disk", f"0:0=512K,file={disk}", says="disk.img: longer")
    room.refuses("--disk", f"0:0=512K,file={disk},grow", says="disk.img: longer")
    assert disk.stat().st_size == MIB
    for words in (f"0:0=file={disk}", f"0:0=file={disk},snapshot", f"0:0=1M,file={disk},grow", f"0:0=1M,file={disk}"):
        with room.runs("--disk", words):
            assert disk.stat().st_size == MIB
    with room.runs("--disk", f"0:0=2M,file={disk},grow"):
        assert serves(room.socket)
    assert disk.stat().st_size == 2 * MIB and disk.read_bytes()[:MIB] == b"\x5a" * MIB
    for size in (0, 513):
        room.refuses("--disk", f"0:0=file={room.file('odd.img', size)}", says="odd.img: ")
    # What a daemon leaves that is killed as it makes an image is as no image.
    empty = room.file("empty.img", 0)
    room.refuses("--disk", f"0:0=1M,file={empty},snapshot", says="empty.img: shorter")
    with room.runs("--disk", f"0:0=1M,file={empty}"):
        assert empty.stat().st_size == MIB


def test_commas(room):
    """A comma of a path is written twice."""
    disk = room.file("a,b,,c.img")
    with room.runs("--disk", f"0:0=file={str(disk).replace(',', ',,')},snapshot"):
        assert serves(room.socket)
    with room.runs("--disk", f"0:0=1M,file={room.folder}/new,,"):
        assert (room.folder / "new,").stat().st_size == MIB


def test_new_images(room):
    """A new image is its owner's alone."""
    disk = room.folder / "new.img"
    with room.runs("--disk", f"0:0=3M,file={disk}", umask=0):
        assert stat.S_IMODE(disk.stat().st_mode) == 0o600 and disk.stat().st_size == 3 * MIB
    assert disk.stat().st_blocks == 0


def test_folders_are_synced(room):
    """The entry of a new image stands on the disk before the daemon serves: where its folder can't be synced it is refused."""
    if not room.shim:
        return "needs a program without sanitizers"
    disk = room.folder / "new.img"
    room.refuses("--disk", f"0:0=1M,file={disk}", says="new.img: Input/output error", env={"LD_PRELOAD": str(room.shim), "UNSYNCED": "1"})
    assert not disk.exists()
    room.file("new.img")
    with room.runs("--disk", f"0:0=1M,file={disk}", env={"LD_PRELOAD": str(room.shim), "UNSYNCED": "1"}):
        assert serves(room.socket)
    return None


def test_log_is_no_disk(room):
    """A disk's file isn't taken for the log, by whatever path."""
    disk, link = room.file("disk.img"), room.folder / "link"
    link.symlink_to(disk)
    for log in (disk, link, f"{room.folder}/./disk.img"):
        room.ends("--socket", room.socket, "--disk", f"0:0=file={disk}", "--log", log, status=2, says="a disk is kept there")
    assert disk.read_bytes() == b"\x5a" * MIB


def test_control_is_no_socket_of_guests(room):
    """Front ends and operators have a socket each."""
    if not room.client:
        return "no libjansson-dev"
    room.ends("--socket", room.socket, "--control", room.socket, "--disk", "0:0=1M", status=2, says="--socket is there")
    return None


def test_nothing_is_made_in_vain(room):
    """Where the daemon can't serve, it leaves no new image, and none that grew."""
    new, small = room.folder / "new.img", room.file("small.img")
    words = ["--disk", f"0:0=2M,file={small},grow", "--disk", f"0:1=1M,file={new}"]

    def is_left():
        return not new.exists() and small.stat().st_size == MIB

    room.ends("--socket", room.folder / "no/socket", *words, status=1)
    assert is_left()
    room.ends("--socket", room.file("notes"), *words, status=1)
    assert is_left()
    with room.runs("--disk", "0:0=1M"):
        room.refuses(*words)
        assert is_left()
    room.refuses(*words, "--disk", f"0:2=1M,file={room.folder / 'no/x.img'}", says="x.img: ")
    assert is_left()
    room.refuses(*words, "--disk", f"0:2=1M,file={new}", says="new.img: ")
    assert is_left()
    with room.runs(*words):
        assert new.stat().st_size == MIB and small.stat().st_size == 2 * MIB


def test_loads_before_it_listens(room):
    """Front ends meet a daemon that has loaded its disks; SIGTERM ends it while it still loads."""
    if not room.shim:
        return "needs a program without sanitizers"
    disk, new = room.file("disk.img", 16 * MIB), room.folder / "new.img"
    words = ["--socket", room.socket, "--disk", f"0:0=file={disk}", "--disk", f"0:1=1M,file={new}"]
    run = subprocess.Popen([room.program, *words], stderr=subprocess.DEVNULL, env={"LD_PRELOAD": str(room.shim), "SLOW": "1"})
    try:
        wait_for(new.exists, "the new image")
        time.sleep(0.3)
        assert not room.socket.exists() and run.poll() is None
        run.terminate()
        began = time.monotonic()
        assert run.wait(LATE) == 0 and time.monotonic() - began < room.late
        assert not room.socket.exists() and not new.exists()
    finally:
        run.kill()
        run.wait()
    return None


def test_unreadable(room):
    """An image that can't be read is status 1, and the line names the disk and its path."""
    if not room.shim:
        return "needs a program without sanitizers"
    disk = room.file("disk.img", 8 * MIB)
    words = [room.program, "--socket", room.socket, "--disk", "3:0=1M", "--disk", f"3:9=file={disk}", "--quiet"]
    # It isn't read before it is cut.
    cut = room.folder / "cut"
    run = subprocess.Popen(words, stderr=subprocess.PIPE, text=True, env={"LD_PRELOAD": str(room.shim), "READS_BEHIND": str(cut)})
    try:
        with disk.open("r+b") as file:
            wait_for(lambda: is_locked(file, 100 + RESIZES), "the lock")
            # Else the daemon might see how long it is once it was cut.
            wait_for((room.folder / "cut.waits").exists, "the first read")
            file.truncate(512)
        cut.touch()
        assert run.wait(LATE) == 1 and not room.socket.exists()
        assert f"disk 3:9 ({disk}): it can't be read: Input/output error" in run.stderr.read()
    finally:
        run.kill()
        run.wait()
        run.stderr.close()
    return None


def test_block_devices(room):
    """A block device is taken; its length is what it has."""
    disk = room.file("disk.img", 2 * MIB)
    made = subprocess.run(["losetup", "--find", "--show", disk], capture_output=True, text=True) if shutil.which("losetup") else None
    if made is None or made.returncode:
        return "no loop device can be had"
    device = made.stdout.strip()
    try:
        room.refuses("--disk", f"0:0=1M,file={device}", says=f"{device}: longer")
        room.refuses("--disk", f"0:0=3M,file={device},grow", says=f"{device}: shorter")
        for words in (f"0:0=2M,file={device}", f"0:0=file={device}"):
            with room.runs("--disk", words):
                assert serves(room.socket)
    finally:
        subprocess.run(["losetup", "--detach", device], check=True)
    return None


def lock(file, at, kind=fcntl.F_RDLCK, what=fcntl.F_OFD_SETLK):
    """Locks a byte by the description of an open file, or asks who has it: gives the lock that stands there."""
    return struct.unpack("hhqqi4x", fcntl.fcntl(file, what, struct.pack("hhqqi4x", kind, os.SEEK_SET, at, 1, 0)))[0]


def is_locked(file, at):
    return lock(file, at, fcntl.F_WRLCK, fcntl.F_OFD_GETLK) != fcntl.F_UNLCK


def test_locks(room):
    """Images are locked on QEMU's bytes, both ways, and by flock."""
    disk = room.file("disk.img")
    words = ["--disk", f"0:0=1M,file={disk}"]
    with disk.open("r+b") as file:
        with room.runs(*words):
            assert [is_locked(file, 100 + i) for i in range(4)] == [True, True, False, True]
            assert [is_locked(file, 200 + i) for i in range(4)] == [False, True, False, True]
            with room.runs("--disk", "0:0=1M", path=room.folder / "other"):
                pass
            for word in (words[1], f"{words[1]},snapshot"):
                room.ends("--socket", room.folder / "other", "--disk", word, status=1, says="disk.img: in use")
        with room.runs("--disk", f"0:0=1M,file={disk},snapshot"):
            assert [is_locked(file, at) for at in (100, 101, 103, 200, 201, 203)] == [True, False, False, False, True, True]
            with room.runs("--disk", f"0:0=1M,file={disk},snapshot", path=room.folder / "other"):
                pass
    # Whoever writes, whoever lets nobody write, and whoever lets nobody read.
    held = ((100 + WRITES, True), (200 + WRITES, False), (200 + READS, True), (100 + RESIZES, True), (100 + READS, False))
    for at, is_snapshot_refused in held:
        with disk.open("r+b") as file:
            lock(file, at)
            if at != 100 + READS:
                room.refuses(*words, says="disk.img: in use")
            if is_snapshot_refused:
                room.refuses("--disk", f"0:0=1M,file={disk},snapshot", says="disk.img: in use")
            else:
                with room.runs("--disk", f"0:0=1M,file={disk},snapshot"):
                    pass
    with disk.open("r+b") as file:
        fcntl.flock(file, fcntl.LOCK_EX)
        room.refuses(*words, says="disk.img: in use")


def test_qemu_tools(room):
    """QEMU's own tools refuse what the daemon has, and the other way round."""
    if not shutil.which("qemu-io") or not shutil.which("qemu-img"):
        return "no qemu-io and qemu-img (qemu-utils)"
    disk = room.file("disk.img")
    writes = ["qemu-io", "-f", "raw", "-c", "write -P 1 0 512", disk]
    with room.runs("--disk", f"0:0=1M,file={disk}"):
        copies = ["qemu-img", "convert", "-f", "raw", "-O", "raw", disk, room.folder / "copy.img"]
        for words in (writes, copies, ["qemu-img", "resize", "-f", "raw", disk, "2M"]):
            run = subprocess.run(words, capture_output=True, text=True)
            assert run.returncode and "lock" in run.stderr, (words, run.stderr)
    assert disk.read_bytes() == b"\x5a" * MIB
    assert subprocess.run(writes, capture_output=True).returncode == 0
    with subprocess.Popen(["qemu-io", "-f", "raw", disk], stdin=subprocess.PIPE, stdout=subprocess.PIPE, text=True) as run:
        run.stdin.write("read 0 512\n")
        run.stdin.flush()
        while "read 512" not in run.stdout.readline():
            pass
        room.refuses("--disk", f"0:0=1M,file={disk}", says="disk.img: in use")
        run.stdin.write("quit\n")
        run.stdin.flush()
        run.stdout.read()
    with room.runs("--disk", f"0:0=1M,file={disk}"):
        pass
    return None


# The log.

LINE = re.compile(r"\d{4}-\d\d-\d\dT\d\d:\d\d:\d\d\.\d{3}Z vscsi-vhost-user: (session \d+: )?\S.*")


def flood(front, count):
    """Sends messages that aren't taken, each of which is answered."""
    front.sendall(message(16, struct.pack("<Q", 1 << 3)))  # SET_PROTOCOL_FEATURES: acknowledgements
    for done in range(0, count, 100):
        front.sendall(message(99, b"\0" * 8, 1 | 8) * 100)
        left = 20 * 100
        while left:
            got = front.recv(left)
            assert got, f"the session ended behind {done} messages"
            left -= len(got)


def test_nobody_reads(room):
    """A pipe that is full stops neither the daemon nor its end; its flags stay as they were. The same holds for a socket, and for a pipe
    of another user's, which the daemon can't open by its name.
    """
    room.folder.chmod(0o777)
    for kind in ("pipe", "socket", *(["another's pipe"] if os.geteuid() == 0 else [])):
        ours, theirs = [it.detach() for it in socket.socketpair()] if kind == "socket" else os.pipe()
        try:
            with room.runs("--disk", "0:0=1M", stderr=theirs, user=65534 if kind == "another's pipe" else None):
                if kind != "socket":
                    fcntl.fcntl(theirs, fcntl.F_SETPIPE_SZ, 4096)
                    os.write(theirs, b"x" * 3900)
                with connected(room.socket) as front:
                    flood(front, 3000)
                    assert not fcntl.fcntl(theirs, fcntl.F_GETFL) & os.O_NONBLOCK
                assert serves(room.socket)
        finally:
            os.close(ours)
            os.close(theirs)


def test_lines(room):
    """Lines have the time and the session, come at a limited rate, and those that are left out are counted."""
    log = room.folder / "log"
    began = time.monotonic()
    with room.runs("--disk", "0:0=1M", "--log", log):
        with connected(room.socket) as front:
            flood(front, 5000)
            time.sleep(0.5)
            flood(front, 100)
    lines = log.read_text().splitlines()
    assert all(LINE.fullmatch(line) for line in lines), [line for line in lines if not LINE.fullmatch(line)][:3]
    refused = [line for line in lines if "isn't taken" in line]
    left_out = sum(int(count) for count in re.findall(r"(\d+) lines were left out", "\n".join(lines)))
    most = 150 + 10 * (time.monotonic() - began)
    assert 20 < len(refused) < most and 4900 < left_out + len(refused), (len(refused), left_out)
    assert all("session 1: " in line for line in refused)
    assert stat.S_IMODE(log.stat().st_mode) & 0o077 == 0


def test_quiet(room):
    """A quiet daemon says nothing of sessions."""
    with room.runs("--disk", "0:0=1M", "--quiet") as run:
        with connected(room.socket) as front:
            flood(front, 100)
        assert serves(room.socket)
        run.terminate()
        assert run.stderr.read() == ""


def test_log_is_opened_again(room):
    """SIGHUP has the log's file opened again, and does nothing else."""
    log, old = room.folder / "log", room.folder / "log.1"
    with room.runs("--disk", "0:0=1M", "--log", log) as run:
        log.rename(old)
        run.send_signal(signal.SIGHUP)
        wait_for(log.exists, "the new log")
        assert serves(room.socket)
        wait_for(lambda: "session 1: " in log.read_text(), "a line in the new log")
    assert "session 1: " not in old.read_text()
    with room.runs("--disk", "0:0=1M") as run:
        run.send_signal(signal.SIGHUP)
        assert serves(room.socket)
    assert not room.socket.exists()


def test_names_stay_in_their_line(room):
    """No byte of a path ends a line."""
    disk = room.folder / "a\nb\x1b[2J"
    run = subprocess.run([room.program, "--socket", room.socket, "--disk", f"0:0=file={disk}"], capture_output=True, text=True)
    assert run.returncode == 1 and run.stderr.count("\n") == 1 and "\x1b" not in run.stderr and LINE.fullmatch(run.stderr[:-1])


def test_closed_descriptors(room):
    """With no standard error, no file of the daemon's takes its place."""
    disk = room.folder / "disk.img"
    close = "exec \"$0\" \"$@\" 0<&- 1>&- 2>&-"
    run = subprocess.Popen(["sh", "-c", close, room.program, "--socket", room.socket, "--disk", f"0:0=1M,file={disk}"])
    try:
        wait_for(lambda: listens(room.socket), "the daemon to listen")
        with connected(room.socket) as front:
            flood(front, 100)
        assert all(os.readlink(f"/proc/{run.pid}/fd/{i}") == "/dev/null" for i in range(3))
        run.terminate()
        assert run.wait(LATE) == 0 and disk.read_bytes() == b"\0" * MIB
    finally:
        run.kill()
        run.wait()


# Front ends that let it wait.


def test_second_is_refused(room):
    """One front end is served; another is refused at once. One that goes leaves its place at once."""
    with room.runs("--disk", "0:0=1M") as run:
        with connected(room.socket) as first:
            assert is_served(first)
            for _ in range(3):
                with connected(room.socket) as second:
                    assert is_over(second, 3)
            assert is_served(first)
        for _ in range(200):
            with connected(room.socket) as front:
                front.sendall(message(SET_OWNER) * 100 + b"\0" * 5)
        with connected(room.socket) as front:
            assert is_served(front)
        run.terminate()
        assert "refused" in run.stderr.read()


def test_halves(room):
    """Half a message ends a session in a few seconds, also where the front end has said something before."""
    with room.runs("--disk", "0:0=1M"):
        for said in (0, 2):
            with connected(room.socket) as front, contextlib.ExitStack() as others:
                assert all(is_served(front) for _ in range(said))
                # The rest of a message may come a little later.
                front.sendall(message(SET_OWNER)[:5])
                time.sleep(1)
                front.sendall(message(SET_OWNER)[5:])
                assert is_served(front)
                front.sendall(message(GET_FEATURES)[:5])
                assert is_over(others.enter_context(connected(room.socket)), 3)
                assert is_over(front, 15)
        assert serves(room.socket)


def test_silence(room):
    """A front end that hasn't said a word loses its place to another after a few seconds. One that has said something may be idle, as
    its guest may be stopped.
    """
    with room.runs("--disk", "0:0=1M"):
        with connected(room.socket) as silent:
            with connected(room.socket) as refused:
                assert is_over(refused, 3)
            began = time.monotonic()
            wait_for(lambda: serves(room.socket), "the place of the silent one", 15)
            assert is_over(silent, 3) and time.monotonic() - began > 3
        with connected(room.socket) as front:
            assert is_served(front)
            time.sleep(6)
            with connected(room.socket) as refused:
                assert is_over(refused, 3)
            assert is_served(front)


def test_calls_that_nobody_reads(room):
    """A pipe whose other end is closed, given as a queue's call, ends nothing."""
    ours, theirs = os.pipe()
    os.close(ours)
    with room.runs("--disk", "0:0=1M") as run, FrontEnd(connected(room.socket)) as front:
        front.say(SET_VRING_CALL, struct.pack("<Q", QUEUE), [theirs])
        os.close(theirs)
        for i in range(3):
            front.write(8 * i, b"a" * 4096)
            wait_for(lambda: front.answered() == 1 + i, "a WRITE")  # noqa: B023
        assert front.asks() and run.poll() is None


def taken(run):
    """How many nanoseconds of a processor a process has taken."""
    return int(Path(f"/proc/{run.pid}/schedstat").read_text().split()[0])


def test_idle(room):
    """However it looks at rings, it takes no processor once a guest has been idle for a while."""
    for words in ([], ["--poll"], ["--poll-max-ns", "0"], ["--poll-max-ns", "10000000"]):
        with room.runs("--disk", "0:0=1M", *words) as run, FrontEnd(connected(room.socket)) as front:
            for i in range(6):
                front.write(8 * i, b"a" * 4096)
                wait_for(lambda: front.answered() == 1 + i, "a WRITE")  # noqa: B023
            time.sleep(0.3)
            before = taken(run)
            time.sleep(1)
            assert taken(run) - before < 5_000_000, words
            assert front.asks() and run.poll() is None


def test_nonsense(room):
    """Front ends that send anything, with any descriptors, leave none of them in the daemon, and the next one is served."""
    choose = random.Random(1)
    numbers = (0, 1, 2, 3, 17, 18, 255, 256, 512, 4096, MIB, 1 << 30, 1 << 32 | 1, 16 << 32 | 2, 1 << 52, 1 << 63, (1 << 64) - 1)
    memory = os.memfd_create("guest")
    os.ftruncate(memory, MIB)
    with room.runs("--disk", "0:0=1M", "--quiet") as run, room.file("file").open("rb") as file, contextlib.ExitStack() as ours:
        ends, pipe = socket.socketpair(), os.pipe()
        ours.callback(lambda: [it.close() for it in ends])
        ours.callback(lambda: [os.close(it) for it in (memory, *pipe, kick)])
        kick = os.eventfd(1)
        given = [memory, kick, *pipe, file.fileno(), *(it.fileno() for it in ends)]
        before = len(os.listdir(f"/proc/{run.pid}/fd"))
        for _ in range(200):
            with connected(room.socket) as front, contextlib.suppress(OSError):
                for _ in range(choose.randrange(1, 20)):
                    size = choose.choice((0, 4, 8, 8, 8, 16, 20, 40, 40, 48, 264, 512, 513))
                    payload = b"".join(struct.pack("<Q", choose.choice(numbers)) for _ in range(65))[: choose.choice((size, size, size // 2))]
                    head = struct.pack("<III", choose.randrange(44), choose.choice((1, 1, 1, 1, 9, 9, 0, 5)), size)
                    socket.send_fds(front, [head + payload], [choose.choice(given) for _ in range(choose.choice((0, 0, 1, 1, 2, 8, 9, 20)))])
        assert serves(room.socket) and run.poll() is None
        wait_for(lambda: len(os.listdir(f"/proc/{run.pid}/fd")) == before, "the descriptors to go")


# Files that can't be written for a time.


@contextlib.contextmanager
def driven(room, *words, ends, **more):
    """A daemon with a driver of one request queue, and its log. It is ended by SIGTERM, with this status."""
    log = room.folder / "log"
    with room.runs("--log", log, *words, ends=ends, **more) as run, FrontEnd(connected(room.socket)) as front:
        yield run, front, log


def limit_files(run, most):
    """Lets a process write files up to this length."""
    resource.prlimit(run.pid, resource.RLIMIT_FSIZE, (most, resource.RLIM_INFINITY))


def test_held(room):
    """A request whose file can't be written waits; messages and signals don't; and it goes on once the file can be written. Also a quiet
    daemon says so.
    """
    for goes_on, quiet in ((True, []), (False, ["--quiet"])):
        image = room.folder / f"image{goes_on}"
        with driven(room, "--disk", f"0:0=16M,file={image}", *quiet, ends=0 if goes_on else 1) as (run, front, log):
            front.write(0, b"a" * 4096)
            wait_for(lambda: front.answered() == 1, "the first WRITE")
            limit_files(run, MIB)
            front.write(8192, b"b" * 4096)
            wait_for(lambda: str(image) in log.read_text(), "a line that names the file")
            # It is tried again several times meanwhile, and said once.
            time.sleep(1)
            assert front.asks() and front.answered() == 1 and run.poll() is None
            assert log.read_text().count("can't be written") == 1
            if goes_on:
                limit_files(run, resource.RLIM_INFINITY)
                wait_for(lambda: front.answered() == 2, "the second WRITE")
        text, kept = log.read_text(), image.read_bytes()
        assert os.strerror(errno.EFBIG) in text and ("aren't kept" in text) == (not goes_on)
        assert text.count("can be written again") == goes_on
        assert kept[:4096] == b"a" * 4096 and (not goes_on or kept[4 * MIB :][:4096] == b"b" * 4096)
        log.unlink()


def test_killed(room):
    """What was answered is on the files when the daemon is killed, also where a file can't be written."""
    first, second = room.folder / "first", room.folder / "second"
    words = ["--quiet", "--disk", f"0:0=16M,file={first}", "--disk", f"0:1=16M,file={second}"]
    with room.runs(*words, ends=-signal.SIGKILL, by=signal.SIGKILL) as run, FrontEnd(connected(room.socket)) as front:
        for i in range(10):
            front.write(8 * i, bytes([i + 1]) * 4096, i % 2)
            wait_for(lambda: front.answered() == 1 + i, "a WRITE")  # noqa: B023
        limit_files(run, MIB)
        front.write(8192, b"b" * 4096)
        front.write(0, b"c" * 4096, 1)
        time.sleep(0.5)
        assert front.answered() == 10 and front.asks()
    for i in range(10):
        assert (first, second)[i % 2].read_bytes()[4096 * i :][:4096] == bytes([i + 1]) * 4096


def has(image, at, data):
    """Whether a file has these data there."""
    with image.open("rb") as file:
        file.seek(at)
        return file.read(len(data)) == data


def test_left(room):
    """What a front end that went left unwritten reaches the file once that can be written, with no other front end."""
    image, log = room.folder / "image", room.folder / "log"
    with room.runs("--log", log, "--disk", f"0:0=16M,file={image}") as run:
        with FrontEnd(connected(room.socket)) as front:
            front.write(0, b"a" * 4096)
            wait_for(lambda: front.answered() == 1, "the first WRITE")
            limit_files(run, MIB)
            front.write(8192, b"b" * 4096)
            wait_for(lambda: "can't be written" in log.read_text(), "a file that can't be written")
        wait_for(lambda: "the session is over" in log.read_text(), "the end of the session")
        assert has(image, 4 * MIB, bytes(4096))
        limit_files(run, resource.RLIM_INFINITY)
        wait_for(lambda: has(image, 4 * MIB, b"b" * 4096), "the second WRITE")
        wait_for(lambda: log.read_text().count("can be written again") == 1, "a line that says so")


def test_left_by_guest_that_moves(room):
    """Files that have what a guest left there are let go of, whether its front end is still there or not."""
    for stays in (True, False):
        image, log = room.folder / f"image{stays}", room.folder / "log"
        with room.runs("--log", log, "--disk", f"0:0=16M,file={image}", "--migratable") as run, contextlib.ExitStack() as those:
            front = those.enter_context(FrontEnd(connected(room.socket)))
            file = those.enter_context(image.open("rb"))
            limit_files(run, MIB)
            front.write(8192, b"b" * 4096)
            wait_for(lambda: "can't be written" in log.read_text(), "a file that can't be written")  # noqa: B023
            if stays:
                assert front.stop() == 0
            else:
                front.connection.close()
                wait_for(lambda: "the session is over" in log.read_text(), "the end of the session")  # noqa: B023
            assert is_locked(file, 100 + WRITES) and has(image, 4 * MIB, bytes(4096))
            limit_files(run, resource.RLIM_INFINITY)
            wait_for(lambda: not is_locked(file, 100 + WRITES), "the file to be let go of")  # noqa: B023
            assert has(image, 4 * MIB, b"b" * 4096)
            if stays:
                # What wasn't answered runs once more.
                front.start(0)
                wait_for(lambda: front.answered() == 1, "the WRITE")  # noqa: B023
        log.unlink()


def test_gone_while_it_waits(room):
    """A front end that goes while its message waits leaves its place to the next one at once, and the daemon takes no processor for it."""
    with driven(room, "--disk", f"0:0=16M,file={room.folder / 'image'}", ends=0) as (run, front, log):
        limit_files(run, MIB)
        front.write(8192, b"b" * 4096)
        wait_for(lambda: "can't be written" in log.read_text(), "a file that can't be written")
        before = taken(run)
        front.say(GET_VRING_BASE, struct.pack("<II", QUEUE, 0))
        front.connection.close()
        assert serves(room.socket)
        assert taken(run) - before < 100_000_000 and "another front end came" not in log.read_text()
        limit_files(run, resource.RLIM_INFINITY)


def test_refused_unmap(room):
    """An UNMAP that names more blocks than it may changes nothing, and writes nothing, however large the disk is."""
    image = room.folder / "image"
    with driven(room, "--disk", f"0:0=8T,file={image}", ends=0) as (_, front, _):
        front.refused_unmap()
        wait_for(lambda: front.answered() == 1, "the UNMAP")
        front.write(0, b"a" * 4096)
        wait_for(lambda: front.answered() == 2, "a WRITE")
    assert image.stat().st_blocks <= 64


def test_profiles(room):
    """A disk has the commands of its profile, and of the wide one where no word says which: MODE SENSE (6) is of that alone."""
    words = ["--disk", "0:0=1M", "--disk", "0:1=1M,profile=wide", "--disk", "0:2=1M,profile=narrow"]
    with driven(room, *words, ends=0) as (_, front, _):
        for lun, status in enumerate((0, 0, 2)):
            front.put(bytes.fromhex("1a003f00ff00"), lun=lun, writable=255)
            wait_for(lambda: front.answered() == lun + 1, "a MODE SENSE")  # noqa: B023
            assert front.status(lun) == status, (lun, front.status(lun))
        # 67 bytes follow the first: a header, a block descriptor, and pages of 12, 20, 12 and 12 bytes (SPC-4 7.5.5, SBC-3 6.4).
        for lun in (0, 1):
            assert front.data(lun, 4) == bytes.fromhex("43001008"), front.data(lun, 4).hex()


def page(front, number, lun, code):
    """The page of vital product data of a disk that the request of this number asks for."""
    front.put(bytes([0x12, 1, code, 0, 255, 0]), lun=lun, writable=255)
    wait_for(lambda: front.answered() == number + 1, "an INQUIRY")
    assert front.status(number) == 0, (number, front.status(number))
    data = front.data(number, 255)
    return data[:4 + data[3]]


def naa_of(designators):
    """The NAA of page 83h, 3h and 60 bits, or None where there is no designator of that kind (SPC-4 7.8.6.6)."""
    first = 4 + 4 + designators[7]
    if len(designators) == first:
        return None
    assert designators[first : first + 4] == b"\x01\x03\x00\x08" and len(designators) == first + 12, designators.hex()
    return designators[first + 4 :].hex()


def naas(room, *words, luns=(0,)):
    """What the disks at target 0 say of their NAAs."""
    with driven(room, *words, ends=0) as (_, front, _):
        return [naa_of(page(front, number, lun, 0x83)) for number, lun in enumerate(luns)]


def test_names(room):
    """Each disk tells the names of its words (SPC-4 7.8.6, 7.8.15), and wrong ones are refused."""
    first, second = "profile=wide,serial=FIRST,naa=5000c500a1b2c3d4,vendor=ACME", "serial=SECOND"
    with driven(room, "--disk", f"0:0=1M,{first}", "--disk", f"0:1=1M,{second}", ends=0) as (_, front, _):
        assert page(front, 0, 0, 0x80) == b"\x00\x80\x00\x05FIRST"
        t10 = b"\x02\x01\x00\x0dACME    FIRST"
        assert page(front, 1, 0, 0x83) == b"\x00\x83\x00\x1d" + t10 + bytes.fromhex("010300085000c500a1b2c3d4")
        # A disk in memory alone has an NAA only where it is given one.
        assert page(front, 2, 1, 0x83) == b"\x00\x83\x00\x12" + b"\x02\x01\x00\x0eVSCSI   SECOND"
    named = ("--socket", room.socket, "--disk")
    room.ends(*named, "0:0=1M,serial=S,profile=narrow", status=2, says="profile=narrow has no names")
    room.ends(*named, "0:0=1M,profile=wide,naa=12", status=2, says="naa= wants 16 hexadecimal digits")
    room.ends(*named, f"0:0=1M,{first}", "--disk", f"0:1=1M,{first}", status=2, says="naa= is that of another disk")


def test_kept_naa(room):
    """A disk on a file has an NAA 3h of its own, which stays: it stands beside the image."""
    disk, other = room.file("disk.img"), room.file("other.img")
    kept = room.folder / "disk.img.naa"
    words = ["--disk", f"0:0=file={disk}"]

    def naa():
        return naas(room, *words)[0]

    first = naa()
    assert first and first[0] == "3" and kept.read_text() == first + "\n" and sorted(it.name for it in room.folder.glob("*.naa*")) == [kept.name]
    assert naa() == first
    kept.unlink()
    assert naa() != first
    kept.write_text("5000C500A1B2C3D4")
    assert naa() == "5000c500a1b2c3d4"
    # Of a copy the file is the image's, too.
    twice = room.folder / "other.img.naa"
    shutil.copy(kept, twice)
    room.refuses(*words, "--disk", f"0:1=file={other},profile=wide", says="other.img.naa: the NAA of another disk")
    for text in ("", "x", "300000000000000", "30000000000000000", "6000000000000000", "300000000000000g\n"):
        kept.write_text(text)
        room.refuses(*words, says="disk.img.naa: not 16 hexadecimal digits")
        assert kept.read_text() == text
    kept.unlink()
    # Neither a narrow disk nor one that is given an NAA has any kept.
    for more in (",profile=narrow", ",naa=3000000000000001"):
        with room.runs("--disk", f"0:0=file={disk}{more}"):
            assert serves(room.socket)
        assert not kept.exists()
    with room.runs("--disk", f"0:0=file={disk},snapshot"):
        wait_for(kept.exists, "the NAA")
    # Each image that is made has one.
    made = naas(room, *[word for lun in range(3) for word in ("--disk", f"0:{lun}=1M,file={room.folder / f'made{lun}'}")], luns=range(3))
    assert len(set(made)) == 3 and made == [(room.folder / f"made{lun}.naa").read_text().strip() for lun in range(3)]


def test_naa_of_one_image(room):
    """Of snapshots of one image the first has its NAA: two would be one disk to a guest."""
    disk = room.file("disk.img")
    words = [word for lun in range(3) for word in ("--disk", f"0:{lun}=file={disk},snapshot")]
    for _ in range(2):
        first, *others = naas(room, *words, luns=range(3))
        assert first == (room.folder / "disk.img.naa").read_text().strip() and others == [None, None]


def test_naa_of_a_closed_folder(room):
    """Where an NAA can't be kept, the disk has none, and the log says so."""
    # The longest of names, and one that leaves no room for a file beside its own.
    for name in ("d" * 255, "e" * 250):
        disk = room.file(name)
        with driven(room, "--disk", f"0:0=file={disk}", ends=0) as (_, front, log):
            assert page(front, 0, 0, 0x83) == b"\x00\x83\x00\x19" + b"\x02\x01\x00\x15VSCSI   VSCSI00000000"
            assert f"({disk}): it has no NAA: " in log.read_text(), log.read_text()
        assert not list(room.folder.glob("*.naa*"))
    # One that stands there is read all the same.
    (room.folder / f"{name}.naa").write_text("3000000000000009")
    assert naas(room, "--disk", f"0:0=file={disk}") == ["3000000000000009"]


def test_naa_of_a_poor_file_system(room):
    """An NAA is kept where there are no hard links, and none where its entry may not stand on the file system."""
    if not room.shim:
        return "needs a program without sanitizers"
    disk = room.file("disk.img")
    for fault, kept in (("UNSYNCED", []), ("LINKLESS", ["disk.img.naa"])):
        with driven(room, "--disk", f"0:0=file={disk}", ends=0, env={"LD_PRELOAD": str(room.shim), fault: "1"}) as (_, front, log):
            told = naa_of(page(front, 0, 0, 0x83))
            assert (told is None) == (fault == "UNSYNCED") and ("it has no NAA" in log.read_text()) == (fault == "UNSYNCED"), fault
            assert [it.name for it in room.folder.glob("*.naa*")] == kept
            assert [(room.folder / it).read_text() for it in kept] == [f"{told}\n"] * len(kept)
        log.unlink()
    assert naas(room, "--disk", f"0:0=file={disk}") == [told]
    return None


def test_naa_of_a_start_that_fails(room):
    """A start that fails leaves no NAA behind, whichever of its steps is refused."""
    made = [room.folder / name for name in ("new.img", "new.img.naa", "old.img.naa")]
    words = ["--disk", f"0:0=1M,file={made[0]}", "--disk", f"0:1=1M,file={room.file('old.img')}"]
    short = room.file("short.img", 512)
    room.refuses(*words, "--disk", f"0:2=1M,file={short}", says="shorter than the disk")
    if room.client:
        room.refuses(*words, "--control", room.folder / "none/control", says="none/control")
    # The last step but one: the user can't be taken, though files can be given to it.
    weak = ["setpriv", "--bounding-set=-setuid,-setgid"]
    left_out = None
    if os.geteuid() or not shutil.which(weak[0]):
        left_out = "the user, which wants root and setpriv"
    else:
        run = subprocess.run([*weak, room.program, "--socket", room.socket, *words, "--user", "1"], capture_output=True, text=True, timeout=LATE)
        assert run.returncode == 1 and "the user or the group can't be taken" in run.stderr, run
    assert not [it.name for it in made if it.exists()] and not list(room.folder.glob("*.naa*"))
    return left_out


def test_naa_of_many_starts(room):
    """Daemons that begin at once with one file have one NAA."""
    disk, kept = room.file("disk.img"), room.folder / "disk.img.naa"
    for turn in range(5):
        kept.unlink(missing_ok=True)
        with contextlib.ExitStack() as all_of_them:
            sockets = [room.folder / f"socket{turn}.{count}" for count in range(6)]
            words = ["--disk", f"0:0=file={disk}", "--migratable"]
            runs = [subprocess.Popen([room.program, "--socket", path, *words], stderr=subprocess.PIPE) for path in sockets]
            for run in runs:
                all_of_them.callback(run.communicate)
                all_of_them.callback(run.terminate)
            wait_for(lambda: all(listens(path) for path in sockets), "the daemons to listen")  # noqa: B023
            told = set()
            for path in sockets:
                with FrontEnd(connected(path)) as front:
                    told.add(naa_of(page(front, 0, 0, 0x83)))
                    front.stop()
            assert told == {kept.read_text().strip()}, told
        assert [it.name for it in room.folder.glob("*.naa*")] == [kept.name]


# Disks that are larger than memory.

# How often the daemon is killed while it writes.
KILLS = int(os.environ.get("KILLS", "20"))
NO_RING = "no liburing-dev"
CACHED = ",write-cache=on,cache-size=33M"


def has_ring(room):
    return "with io_uring" in room.ends("--version", status=0)


def test_cache_words(room):
    """Words of a write cache that don't go together are refused by name."""
    named, image = ["--socket", room.socket, "--disk"], room.folder / "image"
    if not has_ring(room):
        room.ends(*named, f"0:0=64M,file={image}{CACHED}", status=2, says="write-cache=on: this daemon is built without liburing")
        return NO_RING
    refused = {f"file={image},write-cache=maybe": "write-cache= wants on or off", f"file={image},write-cache=": "write-cache= wants on or off",
               f"file={image},write-cache=on,write-cache=on": "write-cache= wants on or off, once",
               f"file={image},write-cache=on,direct=1": "direct= wants on or off", f"file={image},write-cache=on,cache-size=x": "cache-size= wants a size",
               f"file={image},write-cache=on,cache-size=64M,cache-size=64M": "cache-size= wants a size, once",
               f"file={image},write-cache=on,cache-size=0": "cache-size= wants a size", f"file={image},write-cache=on,cache-size=32M": "cache-size= is 33M at least",
               f"file={image},cache-size=32M": "cache-size= is 33M at least", f"file={image},direct=on": "direct=on wants write-cache=on or cache-size=",
               f"file={image},write-cache=off,rerror=stop": "rerror= wants write-cache=on or cache-size=",
               f"file={image},werror=report": "werror= wants write-cache=on or cache-size=",
               f"file={image},write-cache=on,werror=ignore": "werror= wants report or stop",
               f"file={image},write-cache=on,werror=stop,werror=stop": "werror= wants report or stop, once",
               "write-cache=on": "write-cache=on wants file=PATH, nbd=URI or rbd=IMAGE", "cache-size=64M": "cache-size= wants file=PATH, nbd=URI or rbd=IMAGE",
               f"file={image},cache-size=64M,snapshot": "cache-size= takes no snapshot",
               f"file={image},write-cache=on,profile=narrow": "write-cache=on wants profile=wide",
               f"file={image},profile=narrow,write-cache=on": "write-cache=on wants profile=wide",
               f"file={image},write-cache=on,snapshot": "write-cache=on takes no snapshot"}
    for words, says in refused.items():
        room.ends(*named, f"0:0=64M,{words}", status=2, says=says)
    room.refuses("--disk", f"0:0=1050112,file={image},write-cache=on,direct=on", says="image: direct=on: the disk has no multiple of 4096 bytes")
    assert not image.exists()
    for words in ("write-cache=off,direct=off", "write-cache=on,direct=off", "write-cache=on,cache-size=33M", "cache-size=33M,profile=narrow"):
        with room.runs("--disk", f"0:0=64M,file={image},{words}"):
            assert serves(room.socket)
    return None


def stamped(page, version):
    return struct.pack("<II", page, version) * 512


def run_cached(front, requests):
    """Runs requests: a page's version to be written, or a page to be read, either also with FUA; or a SYNCHRONIZE CACHE. Gives their
    numbers.
    """
    numbers = range(front.count, front.count + len(requests))
    for kind, page, version in requests:
        if kind.startswith("write"):
            front.write(8 * page, stamped(page, version), fua="FUA" in kind)
        elif kind.startswith("read"):
            front.read(8 * page, 4096, fua="FUA" in kind)
        else:
            front.flush()
    wait_for(lambda: front.answered() == front.count & 0xFFFF, lambda: f"{front.count - numbers[0]} requests from {requests[0]} on, of which "
             f"{(front.answered() - numbers[0]) & 0xFFFF} are answered", pause=0.0005)
    assert not any(front.status(number) for number in numbers), [front.status(number) for number in numbers]
    return numbers


def test_cached(room):
    """A disk that is larger than its memory is read back as it was written, within all limits and within its memory."""
    if not has_ring(room):
        return NO_RING
    choose, image, pages = random.Random(5), room.folder / "image", {}
    for turn, more in enumerate(("", ",direct=on", ",detect-zeroes=unmap")):
        with driven(room, "--disk", f"0:0=1G,file={image}{CACHED}{more}", ends=0) as (run, front, log):
            for version in range(1000 * turn, 1000 * turn + 700):
                batch = [("write", choose.randrange(1 << 15) + 65536, version) for _ in range(16)]
                run_cached(front, batch)
                pages.update({page: version for _, page, version in batch})
            run_cached(front, [("flush", 0, 0)])
            with image.open("rb") as file:
                for page, version in pages.items():
                    file.seek(4096 * page)
                    assert file.read(4096) == stamped(page, version), (page, version)
            sample = choose.sample(sorted(pages), 1600)
            for first in range(0, 1600, 16):
                those = sample[first : first + 16]
                numbers = run_cached(front, [("read", page, 0) for page in those])
                assert all(front.data(number, 4096) == stamped(page, pages[page]) for number, page in zip(numbers, those))
            resident = int(re.search(r"VmRSS:\s+(\d+) kB", Path(f"/proc/{run.pid}/status").read_text())[1])
            assert not room.shim or resident < (33 + 40) * 1024, resident
            # What isn't flushed is there once the daemon has ended.
            run_cached(front, [("write", page, 9999) for page in range(16)])
        assert all(has(image, 4096 * page, stamped(page, 9999)) for page in range(16)), log.read_text()
        log.unlink()
    return None


def test_cached_killed(room):
    """What a guest flushed is on the file when the daemon is killed while it writes, or a later version of the same page is."""
    if not has_ring(room):
        return NO_RING
    image = room.folder / "image"
    kill_and_compare(room, f"0:0=256M,file={image}{CACHED}", image, KILLS)
    return None


def test_cached_forced(room):
    """What a WRITE with FUA wrote, or a READ with FUA read, is on the file when the daemon is killed behind the answer."""
    if not has_ring(room):
        return NO_RING
    image = room.folder / "image"
    for version in range(1, KILLS + 1):
        kind = ("write with FUA", "read with FUA")[version % 2]
        daemon = room.runs("--quiet", "--disk", f"0:0=256M,file={image}{CACHED}", ends=-signal.SIGKILL, by=signal.SIGKILL)
        with daemon, FrontEnd(connected(room.socket)) as front:
            assert caching_of(front) == (1, 1)
            run_cached(front, [("write", page, version) for page in range(8)])
            numbers = run_cached(front, [(kind, 0, version)])
            assert kind.startswith("write") or front.data(numbers[0], 4096) == stamped(0, version)
        assert has(image, 0, stamped(0, version)), (kind, version)
    return None


def kill_and_compare(room, disk, image, kills, through=False, **more):
    """Kills the daemon so many times while a guest writes, and compares what its disk's image has each time: what was flushed, or with
    `through` what was answered.
    """
    choose, flushed, latest, version = random.Random(), {}, {}, 0
    for _ in range(kills):
        with room.runs("--quiet", "--disk", disk, ends=-signal.SIGKILL, by=signal.SIGKILL, **more), FrontEnd(connected(room.socket)) as front:
            for _ in range(choose.randrange(5, 60)):
                version += 1
                pages = [choose.randrange(1 << choose.choice((6, 16))) for _ in range(choose.randrange(1, 15))]
                run_cached(front, [("write", page, version) for page in pages])
                latest.update(dict.fromkeys(pages, version))
                if not through and choose.randrange(3) == 0:
                    run_cached(front, [("flush", 0, 0)])
                    flushed = dict(latest)
            flushed = dict(latest) if through else flushed
            # It is killed amid these.
            version += 1
            pages = {choose.randrange(1 << 16) for _ in range(14)}
            for page in pages:
                front.write(8 * page, stamped(page, version))
                latest[page] = version
            front.flush()
        with image.open("rb") as file:
            for page, least in flushed.items():
                file.seek(4096 * page)
                data = file.read(4096)
                found = struct.unpack("<II", data[:8])
                assert found[0] == page and least <= found[1] <= latest[page] and data == stamped(*found), (page, least, found)
                flushed[page] = latest[page] = found[1]
            # What was lost is no more there, or is older.
            for page in [page for page in latest if page not in flushed]:
                file.seek(4096 * page)
                latest[page] = struct.unpack("<II", file.read(8))[1]
                if not latest[page]:
                    del latest[page]


# A disk that is larger than its memory, and tells of no write cache.
THROUGH = ",write-cache=off,cache-size=33M"


def caching_of(front):
    """DPOFUA and WCE, by MODE SENSE (6) of the caching page (SPC-4 7.5.5, SBC-3 6.4.5)."""
    number = front.count
    front.put(bytes.fromhex("1a080800ff00"), writable=255)
    wait_for(lambda: front.answered() == number + 1, "a MODE SENSE")
    data = front.data(number, 24)
    assert front.status(number) == 0 and data[4] == 8, data
    return data[2] >> 4 & 1, data[6] >> 2 & 1


def test_through(room):
    """Of a disk that is larger than its memory, and has no write cache, the file has each WRITE once that is answered."""
    if not has_ring(room):
        return NO_RING
    choose, pages = random.Random(7), {}
    image = room.folder / "image"
    for turn, more in enumerate((THROUGH, ",cache-size=33M,direct=on", ",cache-size=33M,profile=narrow", THROUGH + ",detect-zeroes=unmap")):
        with driven(room, "--disk", f"0:0=1G,file={image}{more}", ends=0) as (run, front, log):
            assert "narrow" in more or caching_of(front) == (1, 0)
            with image.open("rb") as file:
                for version in range(1000 * turn, 1000 * turn + 100):
                    batch = [("write", choose.randrange(1 << 15) + 65536, version) for _ in range(choose.randrange(1, 17))]
                    run_cached(front, batch)
                    pages.update({page: version for _, page, version in batch})
                    for page in {page for _, page, _ in batch}:
                        file.seek(4096 * page)
                        assert file.read(4096) == stamped(page, version), (page, version)
                # A WRITE of half a page, which is read for that, and an UNMAP.
                front.write(8 * 70001 + 3, b"x" * 512)
                front.put(bytes([0x42, *bytes(7), 24, 0]), struct.pack(">HHIQII", 22, 16, 0, 8 * 70002, 8, 0))
                wait_for(lambda: front.answered() == front.count & 0xFFFF, "a WRITE and an UNMAP")  # noqa: B023
                assert not front.status(front.count - 2) and not front.status(front.count - 1)
                file.seek(4096 * 70001)
                half = stamped(70001, pages[70001]) if 70001 in pages else bytes(4096)
                assert file.read(8192) == half[:1536] + b"x" * 512 + half[2048:] + bytes(4096)
                pages.pop(70001, None), pages.pop(70002, None)
            sample = choose.sample(sorted(pages), min(len(pages), 800))
            for first in range(0, len(sample), 16):
                those = sample[first : first + 16]
                numbers = run_cached(front, [("read", page, 0) for page in those])
                assert all(front.data(number, 4096) == stamped(page, pages[page]) for page, number in zip(those, numbers))
            resident = int(re.search(r"VmRSS:\s+(\d+) kB", Path(f"/proc/{run.pid}/status").read_text())[1])
            assert not room.shim or resident < (33 + 40) * 1024, resident
        log.unlink()
    return None


def test_through_killed(room):
    """What a guest was answered is on the file when the daemon is killed while it writes, or a later version of the same page is."""
    if not has_ring(room):
        return NO_RING
    image = room.folder / "image"
    kill_and_compare(room, f"0:0=256M,file={image}{THROUGH}", image, KILLS, through=True)
    return None


def test_through_held(room):
    """Where a file can't be written a WRITE waits, and what reads alone doesn't. At its end the daemon says what the file lacks."""
    if not has_ring(room):
        return NO_RING
    for goes_on in (True, False):
        image = room.folder / f"image{goes_on}"
        with driven(room, "--disk", f"0:0=64M,file={image}{THROUGH}", ends=0 if goes_on else 1) as (run, front, log):
            limit_files(run, MIB)
            run_cached(front, [("write", 0, 7)])
            front.write(8 * 5000, stamped(5000, 7))
            wait_for(lambda: "can't be written" in log.read_text(), "a line that says so")  # noqa: B023
            front.read(0, 4096)
            wait_for(lambda: front.answered() == 2, "the READ")
            assert front.data(2, 4096) == stamped(0, 7) and front.asks()
            before = taken(run)
            time.sleep(1)
            assert taken(run) - before < 100_000_000 and front.answered() == 2 and log.read_text().count("can't be written") == 1
            if goes_on:
                limit_files(run, resource.RLIM_INFINITY)
                wait_for(lambda: front.answered() == 3, "the WRITE")
                assert not front.status(1)
        text = log.read_text()
        assert (f"disk 0:0: {image}: WRITEs that weren't answered aren't all kept" in text) == (not goes_on), text
        assert has(image, 0, stamped(0, 7)) and has(image, 4096 * 5000, stamped(5000, 7)) == goes_on
        log.unlink()
    return None


def test_cached_held(room):
    """Where a file can't be written WRITEs are answered, and SYNCHRONIZE CACHE waits. At its end the daemon says what the file lacks."""
    if not has_ring(room):
        return NO_RING
    for goes_on in (True, False):
        image = room.folder / f"image{goes_on}"
        with driven(room, "--disk", f"0:0=64M,file={image}{CACHED}", ends=0 if goes_on else 1) as (run, front, log):
            limit_files(run, MIB)
            run_cached(front, [("write", page, 7) for page in (0, 5000, 5001)])
            front.flush()
            wait_for(lambda: "can't be written" in log.read_text(), "a line that says so")  # noqa: B023
            before = taken(run)
            time.sleep(1)
            assert taken(run) - before < 100_000_000 and front.answered() == 3 and front.asks() and log.read_text().count("can't be written") == 1
            if goes_on:
                limit_files(run, resource.RLIM_INFINITY)
                wait_for(lambda: front.answered() == 4, "the SYNCHRONIZE CACHE")
        text = log.read_text()
        assert (f"disk 0:0: {image}: WRITEs behind the last SYNCHRONIZE CACHE aren't all kept" in text) == (not goes_on), text
        assert text.count("can be written again") == goes_on and has(image, 0, stamped(0, 7))
        assert has(image, 4096 * 5000, stamped(5000, 7) + stamped(5001, 7)) == goes_on
        log.unlink()
    return None


def flushed(front):
    """Flushes until that ends with GOOD. Gives how often it didn't."""
    for failed in range(100):
        before = front.answered()
        front.flush()
        wait_for(lambda: front.answered() == before + 1, "a SYNCHRONIZE CACHE")  # noqa: B023
        if not front.status(front.count - 1):
            return failed
    raise AssertionError("no SYNCHRONIZE CACHE ends with GOOD")


def unwritten(block):
    """The sense data of what flushes a page that can't be written (SPC-4 4.5.3): valid and current, MEDIUM ERROR, WRITE ERROR."""
    return b"\xf0\0\x03" + block.to_bytes(4, "big") + b"\x0a\0\0\0\0\x0c\0\0\0\0\0"


def test_reported(room):
    """With werror=report SYNCHRONIZE CACHE, and READ with FUA, of what can't be written end with MEDIUM ERROR, and a WRITE with FUA, or without
    a write cache, waits. Once the file can be written all ends with GOOD, and what was written is there.
    """
    if not has_ring(room):
        return NO_RING
    for more, lost in ((CACHED, "WRITEs behind the last SYNCHRONIZE CACHE"), (THROUGH, "WRITEs that weren't answered")):
        for goes_on in (True, False):
            image = room.folder / f"image{more[1:3]}{goes_on}"
            with driven(room, "--disk", f"0:0=64M,file={image}{more},werror=report", ends=0 if goes_on else 1) as (run, front, log):
                limit_files(run, MIB)
                run_cached(front, [("write", 0, 7)])
                front.write(8 * 5000, stamped(5000, 7), fua=True)
                wait_for(lambda: "can't be written, which its guest is told, and is tried again: File too large" in log.read_text(), "a line")  # noqa: B023
                front.flush()
                wait_for(lambda: front.answered() == 2, "the SYNCHRONIZE CACHE")  # noqa: B023
                front.read(8 * 5000, 4096, fua=True)
                wait_for(lambda: front.answered() == 3, "the READ with FUA")  # noqa: B023
                assert all(front.status(number) == 0x02 and front.sense(number) == unwritten(8 * 5000) for number in (2, 3))
                front.read(8 * 5000, 4096)
                wait_for(lambda: front.answered() == 4, "the READ")  # noqa: B023
                assert front.data(4, 4096) == stamped(5000, 7) and front.asks() and log.read_text().count("can't be written") == 1
                if goes_on:
                    limit_files(run, resource.RLIM_INFINITY)
                    wait_for(lambda: front.answered() == 5 and not front.status(1), "the WRITE")  # noqa: B023
                    assert flushed(front) == 0 and has(image, 4096 * 5000, stamped(5000, 7))
                    run_cached(front, [("write", 5001, 7), ("flush", 0, 0)])
            text = log.read_text()
            assert (f"disk 0:0: {image}: {lost} aren't all kept" in text) == (not goes_on), text
            assert text.count("can be written again") == goes_on and has(image, 0, stamped(0, 7))
            assert has(image, 4096 * 5000, stamped(5000, 7)) == goes_on
            log.unlink()
    return None


def test_cached_left(room):
    """What a front end that went left unwritten reaches the file once that can be written, with no other front end."""
    if not has_ring(room):
        return NO_RING
    image, log = room.folder / "image", room.folder / "log"
    for more in ("", "--migratable"):
        with room.runs("--log", log, "--disk", f"0:0=64M,file={image}{CACHED}", *more.split()) as run, image.open("rb") as file:
            with FrontEnd(connected(room.socket)) as front:
                limit_files(run, MIB)
                run_cached(front, [("write", 5000, 7), ("write", 3, 7)])
                wait_for(lambda: "can't be written" in log.read_text(), "a file that can't be written")
            wait_for(lambda: "the session is over" in log.read_text(), "the end of the session")
            wait_for(lambda: has(image, 4096 * 3, stamped(3, 7)), "the page that can be written")
            with FrontEnd(connected(room.socket)) as front:
                number = run_cached(front, [("read", 5000, 0)])[0]
                assert front.data(number, 4096) == stamped(5000, 7)
            assert not has(image, 4096 * 5000, stamped(5000, 7)) and is_locked(file, 100 + WRITES)
            limit_files(run, resource.RLIM_INFINITY)
            wait_for(lambda: has(image, 4096 * 5000, stamped(5000, 7)), "the other page")
            wait_for(lambda: log.read_text().count("can be written again") == 1, "a line that says so")
            if more:
                wait_for(lambda: not is_locked(file, 100 + WRITES), "the file to be let go of")
        log.unlink()
        image.unlink()
    return None


def test_cached_migratable(room, more=CACHED):
    """Of two daemons with one file each has it while its queue runs, and finds what the other one left, though nobody flushed it."""
    if not has_ring(room):
        return NO_RING
    disk, others = room.file("disk.img", 64 * MIB), room.folder / "others"
    words = ["--disk", f"0:0=64M,file={disk}{more}", "--migratable"]
    with room.runs(*words), room.runs(*words, path=others), FrontEnd(connected(room.socket)) as one, FrontEnd(connected(others)) as two:
        fronts = (one, two)
        for turn in range(1, 9):
            front = fronts[turn % 2]
            if front.count:
                front.start(front.count)
            if turn > 1:
                numbers = run_cached(front, [("read", page, 0) for page in range(8)])
                assert all(front.data(number, 4096) == stamped(page, turn - 1) for page, number in enumerate(numbers)), turn
            run_cached(front, [("write", page, turn) for page in range(8)])
            assert front.stop() == front.count
    assert has(disk, 0, b"".join(stamped(page, 8) for page in range(8)))
    return None


def test_through_migratable(room):
    """So it is without a write cache."""
    return test_cached_migratable(room, THROUGH)


def test_cached_device(room):
    """A block device has what a guest flushed, zeros that are to become holes too."""
    if not has_ring(room):
        return NO_RING
    disk = room.file("disk.img", 64 * MIB)
    made = subprocess.run(["losetup", "--find", "--show", disk], capture_output=True, text=True) if shutil.which("losetup") else None
    if made is None or made.returncode:
        return "no loop device can be had"
    device = Path(made.stdout.strip())
    try:
        for version, more in enumerate(("", ",direct=on", ",detect-zeroes=unmap"), 1):
            with driven(room, "--disk", f"0:0=file={device}{CACHED}{more}", ends=0) as (_, front, _):
                run_cached(front, [("write", page, version) for page in range(16)])
                front.write(8 * 3, bytes(4096))
                run_cached(front, [("flush", 0, 0), ("read", 16383, 0)])
                assert front.data(front.count - 1, 4096) == b"\x5a" * 4096
            for page in range(16):
                assert has(device, 4096 * page, bytes(4096) if page == 3 else stamped(page, version)), (page, version)
    finally:
        subprocess.run(["losetup", "--detach", device], check=True)
    return None


def test_cached_control(room):
    """A disk with a cache gets another size while a guest writes it, and tells of its pages."""
    if not room.client or not has_ring(room):
        return "no libjansson-dev or no liburing-dev"
    path, image = room.folder / "control", room.folder / "image"

    def size(bytes_):
        return asking.ask("resize", disk="0:0", size=bytes_)

    with driven(room, "--disk", f"0:0=64M,file={image}{CACHED}", "--control", path, ends=0) as (_, front, log), Asking(path) as asking:
        run_cached(front, [("write", 16383, 1), ("write", 100, 1)])
        assert size(128 * MIB) == {} and image.stat().st_size == 128 * MIB
        front.put(bytes(6))
        wait_for(lambda: front.answered() == 3 and front.status(2) == 2, "the unit attention")
        run_cached(front, [("write", 32767, 1), ("write", 16384, 1)])
        for page in range(200, 328):
            front.write(8 * page, stamped(page, 2)) if page % 16 else run_cached(front, [("write", page, 2)])
        wait_for(lambda: front.answered() == front.count, "the WRITEs")
        # What is lost comes back as zeros, and nothing is written behind the end.
        assert size(MIB // 2) == {} and size(64 * MIB) == {} and image.stat().st_size == 64 * MIB
        front.put(bytes(6))
        wait_for(lambda: front.answered() == front.count and front.status(front.count - 1) == 2, "the unit attention")
        numbers = run_cached(front, [("read", page, 0) for page in (100, 127, 128, 200, 300, 16383)])
        assert [front.data(number, 4096) for number in numbers] == [stamped(100, 1)] + [bytes(4096)] * 5
        run_cached(front, [("flush", 0, 0)])
        assert has(image, 4096 * 100, stamped(100, 1)) and has(image, 4096 * 200, bytes(4096)) and has(image, 4096 * 16383, bytes(4096))
        told = asking.ask("stats")["disks"][0]
        assert told["pages-written"] >= 2 and told["flushes"] and told["pages-read"] >= 0, told
    with room.runs("--disk", f"0:0=64M,file={image}{CACHED}", "--disk", "0:1=1M", "--control", path), Asking(path) as asking, image.open("r+b") as file:
        assert size(96 * MIB) == {} and image.stat().st_size == 96 * MIB and size(64 * MIB) == {}
        assert asking.ask("attach", disk=f"0:2=64M,file={image}{CACHED}", files=[file.fileno()]) == "BadDisk"
        with FrontEnd(connected(room.socket)) as front:
            run_cached(front, [("write", 9, 3)])
        wait_for(lambda: not asking.ask("stats")["front-end"], "the end of the session")
        assert asking.ask("detach", disk="0:1") == {} and asking.ask("attach", disk="0:1=1M") == {}
        assert has(image, 4096 * 9, stamped(9, 3)), log.read_text()
        with FrontEnd(connected(room.socket)) as front:
            number = run_cached(front, [("read", 9, 0)])[0]
            assert front.data(number, 4096) == stamped(9, 3)
    return None


def counts_open(run, control):
    """Returns what says whether a daemon has as many files open, while it serves a client of its control socket, as it has now."""
    def count():
        with Asking(control) as asking:
            assert "version" in asking.ask("stats")
            return len(os.listdir(f"/proc/{run.pid}/fd"))

    before = count()
    return lambda: count() == before


def test_control_attaches_cached(room):
    """A disk with a cache comes by the words that the command line takes, within the daemon's limits, and is read and written as others."""
    if not room.client or not has_ring(room):
        return "no libjansson-dev or no liburing-dev"
    path, asks = room.folder / "control", asking_by_client(room)
    with room.runs("--disk", "0:0=1M", "--control", path, "--log", room.folder / "log") as run:
        is_same_open = counts_open(run, path)
        for version, more in enumerate(("", ",direct=on", ",detect-zeroes=unmap,rerror=stop,serial=one"), 1):
            image = room.folder / f"image{version}"
            asks("attach", f"0:1=256M,file={image},grow{CACHED}{more}")
            with FrontEnd(connected(room.socket)) as front, image.open("rb") as file:
                assert is_locked(file, 100 + WRITES)
                room.ends("--socket", room.folder / "other", "--disk", f"0:0=file={image}{CACHED}", status=1, says="in use")
                for first in range(0, 9000, 15):
                    for page in range(first, first + 15):
                        front.write(8 * page, stamped(page, version), 1)
                    wait_for(lambda: front.answered() == front.count & 0xFFFF, "WRITEs", pause=0.0005)  # noqa: B023
                front.write(8 * 3, bytes(4096), 1)
                front.flush(1)
                front.read(8 * 5, 4096, 1)
                wait_for(lambda: front.answered() == front.count, "the SYNCHRONIZE CACHE")  # noqa: B023
                assert not front.status(front.count - 2) and front.data(front.count - 1, 4096) == stamped(5, version)
                assert all(has(image, 4096 * page, stamped(page, version) if page != 3 else bytes(4096)) for page in (0, 3, 5, 4000, 8999))
                # What isn't flushed is on the file once the disk is gone, also where it goes at once.
                front.write(8 * 60000, stamped(60000, version), 1)
                wait_for(lambda: front.answered() == front.count, "a WRITE")  # noqa: B023
            wait_for(lambda: not asks("stats")["return"]["front-end"], "the end of the session")
            asks("detach", "0:1")
            assert has(image, 4096 * 60000, stamped(60000, version)) and is_same_open()
        # One that is read only, of which the file can't be written.
        image.chmod(0o400)
        asks("attach", f"0:1=file={image}{CACHED},read-only=on")
        with FrontEnd(connected(room.socket)) as front:
            front.read(8 * 8999, 4096, 1)
            front.write(0, bytes(4096), 1)
            wait_for(lambda: front.answered() == 2, "both")
            # SPC-4 4.5.3 and table F.1: DATA PROTECT, WRITE PROTECTED.
            assert front.data(0, 4096) == stamped(8999, 3) and front.status(1) == 2 and front.sense(1)[2] == 7
    assert has(image, 0, stamped(0, 3))
    # What a guest flushed stays where the daemon is killed.
    image = room.folder / "killed"
    with room.runs("--disk", "0:0=1M", "--control", path, "--quiet", ends=-signal.SIGKILL, by=signal.SIGKILL):
        asks("attach", f"0:1=64M,file={image},grow{CACHED}")
        with FrontEnd(connected(room.socket)) as front:
            front.write(8 * 7, stamped(7, 7), 1)
            front.flush(1)
            wait_for(lambda: front.answered() == 2 and not front.status(1), "the SYNCHRONIZE CACHE")
    assert has(image, 4096 * 7, stamped(7, 7))
    with room.runs("--disk", "0:0=1M", "--control", path):
        asks("attach", f"0:1=file={image}{CACHED}")
    return None


def test_control_refuses_cached(room):
    """A disk with a cache that can't come is refused by name, and nothing is left of it."""
    if not room.client or not has_ring(room):
        return "no libjansson-dev or no liburing-dev"
    path, asks = room.folder / "control", asking_by_client(room)
    image, odd = room.file("image", 64 * MIB), room.file("odd", 1050112)
    with room.runs("--disk", "0:0=1M", "--control", path) as run:
        is_same_open = counts_open(run, path)
        refused_words = {f"file={image},write-cache=on,cache-size=32M": "cache-size= is 33M at least", f"file={image},write-cache=on,snapshot": "takes no snapshot",
                         f"file={image},direct=on": "direct=on wants write-cache=on or cache-size=", f"file={image},write-cache=on,profile=narrow": "wants profile=wide",
                         f"65M,file={image}{CACHED}": "shorter than the disk", f"63M,file={image}{CACHED}": "longer than the disk",
                         f"file={odd}{CACHED},direct=on": "direct=on: the disk has no multiple of 4096 bytes"}
        if "with NBD" in room.ends("--version", status=0):
            refused_words["nbd=nbd://localhost/"] = "nbd=: the daemon has to begin with such a disk"
        for words, says in refused_words.items():
            error = asks("attach", f"0:1={words}", status=1)["error"]
            assert error["name"] == "BadDisk" and says in error["text"], (words, error)
        for flags, more, is_taken in ((os.O_RDWR | os.O_APPEND, "", False), (os.O_RDWR | os.O_DIRECT, "", False), (os.O_RDONLY, "", False),
                                      (os.O_RDWR | os.O_DIRECT, ",direct=on", True), (os.O_RDONLY, ",read-only=on", True)):
            descriptor = os.open(image, flags)
            with Asking(path) as asking:
                said = asking.ask("attach", disk=f"0:1=file={image}{CACHED}{more}", files=[descriptor])
                assert said == ({} if is_taken else "BadDisk"), (flags, more, said)
                assert not is_taken or asking.ask("detach", disk="0:1") == {}
            os.close(descriptor)
        # A file that another daemon has is tried for a second.
        with room.runs("--disk", f"0:0=file={image}{CACHED}", path=room.folder / "other"):
            assert "in use" in asks("attach", f"0:1=file={image}{CACHED}", status=1)["error"]["text"]
        asks("attach", f"0:1=file={image}{CACHED}")
        assert asks("attach", f"0:2=file={image}{CACHED}", status=1)["error"]["name"] == "BadDisk"
        with connected(room.socket) as front:
            assert is_served(front) and asks("attach", f"0:2=1M,file={odd}{CACHED}", status=1)["error"]["name"] == "InUse"
            assert asks("detach", "0:1", status=1)["error"]["name"] == "InUse"
        wait_for(lambda: not asks("stats")["return"]["front-end"], "the end of the session")
        asks("detach", "0:1")
        assert is_same_open()
    assert image.read_bytes() == b"\x5a" * 64 * MIB


def refuse_rings():
    """Has the system refuse io_uring to this process, by libseccomp."""
    library = ctypes.CDLL(ctypes.util.find_library("seccomp"))
    library.seccomp_init.restype = ctypes.c_void_p
    allows, fails, io_uring_setup = 0x7FFF0000, 0x00050000, 425
    rules = ctypes.c_void_p(library.seccomp_init(ctypes.c_uint32(allows)))
    assert not library.seccomp_rule_add(rules, ctypes.c_uint32(fails | errno.EPERM), io_uring_setup, 0) and not library.seccomp_load(rules)


def test_control_without_rings(room):
    """Where the system refuses io_uring a daemon with a control socket serves all the same, and a disk with a cache can't come."""
    if not room.client or not has_ring(room) or not ctypes.util.find_library("seccomp"):
        return "no libjansson-dev, no liburing-dev or no libseccomp"
    path, asks, image = room.folder / "control", asking_by_client(room), room.file("image", 64 * MIB)
    room.refuses("--disk", f"0:0=file={image}{CACHED}", says="write-cache=on: no io_uring: Operation not permitted", preexec_fn=refuse_rings)
    with room.runs("--disk", "0:0=1M", "--control", path, preexec_fn=refuse_rings):
        error = asks("attach", f"0:1=65M,grow,file={image}{CACHED}", status=1)["error"]
        assert error["name"] == "BadDisk" and "began without io_uring" in error["text"] and image.stat().st_size == 64 * MIB
        asks("attach", f"0:1=file={image}")
        assert serves(room.socket)
    return None


def test_control_detaches_cached(room):
    """A disk with a cache goes once its file has all. Where that can't be written it stays, and others go."""
    if not room.client or not has_ring(room):
        return "no libjansson-dev or no liburing-dev"
    path, log, image, other = room.folder / "control", room.folder / "log", room.folder / "image", room.folder / "other"
    disks = [word for lun, it in enumerate((image, other)) for word in ("--disk", f"0:{lun + 1}=64M,file={it}{CACHED}")]
    with room.runs("--disk", "0:0=1M", *disks, "--control", path, "--log", log) as run, Asking(path) as asking:
        limit_files(run, 32 * MIB)
        with FrontEnd(connected(room.socket)) as front:
            front.write(8 * 10000, stamped(10000, 1), 1)
            front.write(8 * 100, stamped(100, 1), 2)
            wait_for(lambda: front.answered() == 2, "two WRITEs")
        wait_for(lambda: not asking.ask("stats")["front-end"], "the end of the session")
        began = time.monotonic()
        assert asking.ask("detach", disk="0:2") == {} and has(other, 4096 * 100, stamped(100, 1)) and time.monotonic() - began < 4
        assert asking.ask("detach", disk="0:1") == "Busy" and time.monotonic() - began > 4 and not has(image, 4096 * 10000, stamped(10000, 1))
        # A request that waits goes on once its file can be written, and takes no processor before.
        before = taken(run)
        asking.connection.sendall(b'{"execute":"detach","arguments":{"disk":"0:1"}}\n')
        time.sleep(0.5)
        assert taken(run) - before < 100_000_000
        limit_files(run, resource.RLIM_INFINITY)
        assert asking.lines.readline() == '{"return":{}}\n' and has(image, 4096 * 10000, stamped(10000, 1))
        with image.open("rb") as file:
            assert not is_locked(file, 100 + WRITES)
        assert asking.ask("detach", disk="0:0") == "BadDisk"
    return None


def test_control_migratable_cached(room):
    """With --migratable a disk with a cache that comes is locked while a queue runs, and two daemons find what the other one left."""
    if not room.client or not has_ring(room):
        return "no libjansson-dev or no liburing-dev"
    first, image, others = room.file("first.img"), room.file("image", 64 * MIB), room.folder / "others"
    paths = (room.folder / "control", room.folder / "controls")
    words = ["--disk", f"0:0=1M,file={first}", "--migratable", "--control"]
    with room.runs(*words, paths[0]), room.runs(*words, paths[1], path=others), image.open("rb") as file:
        for path in paths:
            asking_by_client(room, path)("attach", f"0:1=file={image}{CACHED}")
        assert not is_locked(file, 100 + WRITES)
        with FrontEnd(connected(room.socket)) as one, FrontEnd(connected(others)) as two:
            for turn, front in enumerate((one, two, one, two), 1):
                if front.count:
                    front.start(front.count)
                front.read(8 * 5, 4096, 1)
                wait_for(lambda: front.answered() == front.count, "the READ")  # noqa: B023
                assert front.data(front.count - 1, 4096) == (stamped(5, turn - 1) if turn > 1 else b"\x5a" * 4096)
                front.write(8 * 5, stamped(5, turn), 1)
                wait_for(lambda: front.answered() == front.count, "the WRITE")  # noqa: B023
                assert is_locked(file, 100 + WRITES) and front.stop() == front.count and not is_locked(file, 100 + WRITES)
    assert has(image, 4096 * 5, stamped(5, 4))
    return None


def read_pages(front, pages, versions):
    """Reads pages in this order, and compares each with its version, or with zeros."""
    pages = list(pages)
    for first in range(0, len(pages), 14):
        those = pages[first : first + 14]
        numbers = run_cached(front, [("read", page, 0) for page in those])
        for page, number in zip(those, numbers):
            wanted = stamped(page, versions[page]) if page in versions else bytes(4096)
            assert front.data(number, 4096) == wanted, (page, versions.get(page), front.data(number, 8))


def read_and_write(front, choose, versions, rounds):
    """Reads page after page, so that more is read ahead, writes some of that, and reads on once these are in memory no more. Some are
    written just before the reading ahead begins, others behind that.
    """
    for version in range(rounds):
        start, far = choose.randrange(0, 1 << 15, 512), [(1 << 15) + page for page in choose.sample(range(1 << 14), 8700)]
        read_pages(front, range(start, start + 28), versions)
        for before in (True, False):
            those = [start + choose.randrange(180, 400) for _ in range(12)]
            run_cached(front, [("write", page, 2 * version + before + 1) for page in those])
            versions.update(dict.fromkeys(those, 2 * version + before + 1))
            if before:
                read_pages(front, range(start + 28, start + 154), versions)
        run_cached(front, [("flush", 0, 0)])
        read_pages(front, far, versions)
        read_pages(front, range(start + 154, start + 500), versions)


def test_cached_ahead(room):
    """What is read ahead is never older than what the file or the server has, whenever it is written. It helps, and is told of."""
    if not has_ring(room):
        return NO_RING
    control = ["--control", room.folder / "control"] if room.client else []
    for more in ("", ",direct=on"):
        with driven(room, "--disk", f"0:0=256M,file={room.folder / 'image'}{more}{CACHED}", *control, ends=0) as (_, front, log):
            read_and_write(front, random.Random(9), {}, 4)
            if control:
                with Asking(control[1]) as asking:
                    told = asking.ask("stats")["disks"][0]
                assert told["pages-ahead"] > 400 and told["pages-asked"] >= told["pages-handed-in"] >= told["pages-ahead"], told
                assert told["pages-given"] >= told["pages-kept"] >= 48 and not told["pages-failed"] and not told["pages-unread"], told
        log.unlink()
        (room.folder / "image").unlink()
    # Of long READs that don't follow one another nothing is read that they don't want.
    with driven(room, "--disk", f"0:0=256M,file={room.folder / 'image'}{CACHED}", *control, ends=0) as (_, front, _):
        for number in range(6):
            front.read(8 * 5000 * number, MIB // 2)
            wait_for(lambda: front.answered() == number + 1 and not front.status(number), "a long READ")  # noqa: B023
        if control:
            with Asking(control[1]) as asking:
                told = asking.ask("stats")["disks"][0]
            assert told["pages-asked"] == told["pages-read"] == 6 * 128 and not told["pages-ahead"], told
    if not has_servers(room):
        return None
    # Its writes come behind reads that it was asked for later.
    at = room.folder / "nbd"
    disk = f"0:0={export_of(at)},cache-size=33M"
    with nbdkit(at, "--filter=delay", "memory", "256M", "wdelay=60ms"), driven(room, "--disk", disk, ends=0) as (_, front, _):
        read_and_write(front, random.Random(10), {}, 4)
    return None


# Disks on NBD servers.


NO_SERVER = "no libnbd-dev, no liburing-dev or no nbdkit"
EXPORT = 256 * MIB


def has_servers(room):
    return shutil.which("nbdkit") and "with NBD" in room.ends("--version", status=0)


def export_of(path):
    return f"nbd=nbd+unix:///?socket={path}"


@contextlib.contextmanager
def nbdkit(path, *words):
    """An NBD server that listens at a path, and is killed at the end, if that wasn't done before."""
    run = subprocess.Popen(["nbdkit", "--foreground", "--exit-with-parent", "--unix", path, *map(str, words)], stdin=subprocess.DEVNULL,
                           stderr=subprocess.DEVNULL)
    try:
        wait_for(lambda: run.poll() is not None or listens(path), "nbdkit to listen")
        assert run.poll() is None, f"{words}: status {run.returncode}"
        yield run
    finally:
        end_server(run, path)


def end_server(run, path):
    """Kills a server, as a crash does, and takes away its socket, which it leaves."""
    run.kill()
    run.wait()
    path.unlink(missing_ok=True)


def test_nbd_words(room):
    """Words of a disk on a server that don't go together are refused by name, and so are servers that can't have a disk."""
    at = room.folder / "nbd"
    uri, named = export_of(at), ["--socket", room.socket, "--disk"]
    if "with NBD" not in room.ends("--version", status=0):
        room.ends(*named, f"0:0={uri}", status=2, says="nbd=: this daemon is built without libnbd")
    if not has_servers(room):
        return NO_SERVER
    refused = {f"{uri},file={room.folder / 'image'}": "nbd= stands in place of file=",
               f"{uri},direct=on": "direct=on wants file=PATH", f"{uri},profile=narrow": "write-cache=on wants profile=wide",
               f"{uri},cache-size=32M": "cache-size= is 33M at least", f"{uri},snapshot": "grow and snapshot want file=PATH",
               f"64M,{uri},grow": "grow and snapshot want file=PATH", f"{uri},{uri}": "not T:L=SIZE", "nbd=": "not T:L=SIZE"}
    for words, says in refused.items():
        room.ends(*named, f"0:0={words}", status=2, says=says)
    room.ends(*named, f"0:0={uri}", "--migratable", status=2, says="--migratable: each disk has to be kept on a file")
    room.refuses("--disk", f"0:0={uri}", says="No such file or directory")
    room.refuses("--disk", "0:0=nbd=nbd://localhost:1/", says="Connection refused")
    room.refuses("--disk", f"0:0=nbd=nbds+unix:///?socket={at}", says="TLS")
    sized = ["--filter=blocksize-policy", "memory", "64M"]
    for words, says in ((["--readonly", "memory", "64M"], "the export is read-only"), (["memory", "1000"], "its length is no disk's"),
                        ([*sized, "blocksize-minimum=8192", "blocksize-preferred=8192"], "its least block is longer than 4096 bytes"),
                        ([*sized, "blocksize-minimum=1", "blocksize-preferred=4096", "blocksize-maximum=64K"], "it takes less than 1 MiB at once"),
                        (["eval", "get_size=echo 64M", "pread=exit 1", "pwrite=exit 1"], "the server can't flush")):
        with nbdkit(at, *words):
            room.refuses("--disk", f"0:0={uri}", says=says)
    with nbdkit(at, "memory", "64M"):
        room.refuses("--disk", f"0:0=63M,{uri}", says="longer than the disk")
        room.refuses("--disk", f"0:0=65M,{uri}", says="shorter than the disk")
        for words in (uri, f"64M,{uri}", f"{uri},write-cache=on,cache-size=33M,detect-zeroes=unmap,serial=one", f"{uri},write-cache=off,profile=narrow"):
            with room.runs("--disk", f"0:0={words}"):
                assert serves(room.socket)
    return None


def work_on_server(room, front, choose, image):
    """Writes more pages than are in memory, flushes, and compares what the server's file has, and what is read, with them."""
    pages = {}
    for version in range(700):
        batch = [("write", choose.randrange(1 << 16), version) for _ in range(16)]
        run_cached(front, batch)
        pages.update({page: version for _, page, version in batch})
    run_cached(front, [("flush", 0, 0)])
    with image.open("rb") as file:
        for page, version in pages.items():
            file.seek(4096 * page)
            assert file.read(4096) == stamped(page, version), (page, version)
    sample = choose.sample(sorted(pages), 1600)
    for first in range(0, 1600, 16):
        those = sample[first : first + 16]
        numbers = run_cached(front, [("read", page, 0) for page in those])
        assert all(front.data(number, 4096) == stamped(page, pages[page]) for page, number in zip(those, numbers))


def test_nbd(room):
    """A disk on a server has what a guest flushed, is read back as it was written, and has all once the daemon has ended."""
    if not has_servers(room):
        return NO_SERVER
    at, image, choose = room.folder / "nbd", room.file("image", EXPORT, b"\0"), random.Random(6)
    for more in ("", "cache-size=33M", "detect-zeroes=unmap"):
        with nbdkit(at, "file", image), driven(room, "--disk", f"0:0={export_of(at)},{more or 'serial=a'}", ends=0) as (_, front, log):
            work_on_server(room, front, choose, image)
            # Zeros; and what isn't flushed is there once the daemon has ended.
            front.write(8 * 40, bytes(4096))
            run_cached(front, [("flush", 0, 0), ("read", 40, 0)] + [("write", page, 9999) for page in range(8)])
        assert has(image, 4096 * 40, bytes(4096)), log.read_text()
        assert all(has(image, 4096 * page, stamped(page, 9999)) for page in range(8)), log.read_text()
        log.unlink()
    # With no write cache the server has each WRITE once that is answered.
    with nbdkit(at, "file", image), driven(room, "--disk", f"0:0={export_of(at)},write-cache=off", ends=0) as (_, front, _), image.open("rb") as file:
        assert caching_of(front) == (1, 0)
        for version in range(5000, 5040):
            batch = {choose.randrange(1 << 16) for _ in range(8)}
            run_cached(front, [("write", page, version) for page in batch])
            for page in batch:
                file.seek(4096 * page)
                assert file.read(4096) == stamped(page, version), (page, version)
    # Of a disk that ends within a page no byte is written behind its end, and servers in memory have what was written, too.
    with nbdkit(at, "memory", MIB + 1536):
        for version in (0, 1):
            with driven(room, "--disk", f"0:0={export_of(at)}", ends=0) as (_, front, _):
                front.read(2048, 1536)
                front.write(2048, b"x" * 1536)
                wait_for(lambda: front.answered() == 2, "the last blocks")  # noqa: B023
                assert not front.status(0) and not front.status(1) and front.data(0, 1536) == (b"x" if version else b"\0") * 1536
    return None


def test_nbd_host(room):
    """A disk on a server by its host's name, which is lost and comes again."""
    if not has_servers(room):
        return NO_SERVER
    with socket.socket() as free:
        free.bind(("127.0.0.1", 0))
        port = free.getsockname()[1]
    image = room.file("image", 64 * MIB)
    words = ["nbdkit", "--foreground", "--exit-with-parent", "--ipaddr", "127.0.0.1", "--port", str(port), "file", image]

    def served():
        run = subprocess.Popen(words, stdin=subprocess.DEVNULL, stderr=subprocess.DEVNULL)
        wait_for(lambda: re.search(rf"^ *\d+: 0100007F:{port:04X} .* 0A ", Path("/proc/net/tcp").read_text(), re.M), "nbdkit to listen")
        return run

    run = served()
    try:
        with driven(room, "--disk", f"0:0=nbd=nbd://localhost:{port}/", ends=0) as (_, front, log):
            run_cached(front, [("write", 7, 1), ("flush", 0, 0)])
            run.kill()
            run.wait()
            front.write(8 * 9, stamped(9, 2))
            front.flush()
            wait_for(lambda: "the NBD server is gone" in log.read_text(), "a line that says so")
            run = served()
            wait_for(lambda: front.answered() == 4, "the SYNCHRONIZE CACHE")
            assert has(image, 4096 * 7, stamped(7, 1)) and has(image, 4096 * 9, stamped(9, 2))
    finally:
        run.kill()
        run.wait()
    return None


def test_nbd_killed(room):
    """What a guest flushed is with the server that is killed while the guest writes, or a later version is. Commands wait meanwhile, and
    once the server is there again all goes on: no command fails, and all that was written is kept. Of some servers what wasn't flushed
    goes with them.
    """
    if not has_servers(room):
        return NO_SERVER
    at, image, choose = room.folder / "nbd", room.file("image", EXPORT, b"\0"), random.Random(8)
    pages, version, kills, forgetful = {}, 0, max(KILLS // 2, 1), ["--filter=cache", "file", image, "cache=writeback"]
    disk = f"0:0={export_of(at)},cache-size=33M"
    with contextlib.ExitStack() as last, nbdkit(at, *forgetful) as first, driven(room, "--disk", disk, ends=0) as (_, front, log):
        server = first
        for kill in range(1, 1 + kills):
            for _ in range(choose.randrange(5, 40)):
                version += 1
                batch = [choose.randrange(1 << choose.choice((6, 16))) for _ in range(choose.randrange(1, 15))]
                run_cached(front, [("write", page, version) for page in batch])
                pages.update(dict.fromkeys(batch, version))
                if choose.randrange(3) == 0:
                    run_cached(front, [("flush", 0, 0)])
            # It is killed amid these, or behind some of them.
            version, begun = version + 1, front.count
            batch = [choose.randrange(1 << 16) for _ in range(10)]
            far = choose.choice([page for page in range(1 << 16) if page not in pages and page not in batch])
            front.read(8 * far, 4096)
            for page in batch:
                front.write(8 * page, stamped(page, version))
            pages.update(dict.fromkeys(batch, version))
            if choose.randrange(2):
                front.flush()
            time.sleep(choose.choice((0, 0.001, 0.01)))
            end_server(server, at)
            time.sleep(choose.choice((0, 0.2)))
            # A guest that asks for more meanwhile isn't refused.
            front.flush()
            wait_for(lambda: log.read_text().count("the NBD server is gone") == kill, "a line that says so")  # noqa: B023
            assert front.asks()
            server = last.enter_context(nbdkit(at, *(forgetful if kill % 2 else ["file", image])))
            wait_for(lambda: log.read_text().count("the NBD server is there again") == kill, "the other line")  # noqa: B023
            wait_for(lambda: front.answered() == front.count & 0xFFFF, "all that waited")
            said = [front.status(number) for number in range(begun, front.count)]
            assert not any(said) and front.data(begun, 4096) == bytes(4096), (kill, said)
            run_cached(front, [("flush", 0, 0)])
            with image.open("rb") as file:
                for page, wanted in pages.items():
                    file.seek(4096 * page)
                    assert file.read(4096) == stamped(page, wanted), (page, wanted, kill)
    return None


def test_nbd_errors(room):
    """Where a server fails reads, writes or flushes, commands wait, that is said once, and all goes on once it doesn't."""
    if not has_servers(room):
        return NO_SERVER
    at, image = room.folder / "nbd", room.file("image", 64 * MIB)
    fails = {what: room.folder / f"fails-{what}" for what in ("pread", "pwrite", "zero")}
    words = [word for what, file in fails.items() for word in (f"error-{what}=EIO", f"error-{what}-rate=100%", f"error-{what}-file={file}")]
    with nbdkit(at, "--filter=error", "file", image, *words), driven(room, "--disk", f"0:0={export_of(at)},rerror=stop", ends=0) as (run, front, log):
        fails["pread"].touch()
        front.read(8 * 3, 4096)
        wait_for(lambda: "can't be read, and is tried again: Input/output error" in log.read_text(), "a line")
        assert front.asks() and front.answered() == 0
        fails["pread"].unlink()
        wait_for(lambda: front.answered() == 1, "the READ")
        assert front.data(0, 4096) == b"\x5a" * 4096
        fails["pwrite"].touch()
        run_cached(front, [("write", page, 5) for page in range(100, 110)])
        front.flush()
        wait_for(lambda: "can't be written" in log.read_text(), "a line")
        before = taken(run)
        time.sleep(1)
        assert front.answered() == 11 and taken(run) - before < 100_000_000 and log.read_text().count("can't be written") == 1
        fails["pwrite"].unlink()
        wait_for(lambda: front.answered() == 12 and not front.status(11), "the SYNCHRONIZE CACHE")
        assert all(has(image, 4096 * page, stamped(page, 5)) for page in range(100, 110))
        wait_for(lambda: "can be written again" in log.read_text(), "a line")
    return None


def test_nbd_reported(room):
    """With werror=report a SYNCHRONIZE CACHE ends with MEDIUM ERROR where a server fails a write. Where it is gone that waits."""
    if not has_servers(room):
        return NO_SERVER
    at, image, fails = room.folder / "nbd", room.file("image", 64 * MIB), room.folder / "fails"
    words = [word for what in ("pwrite", "zero") for word in (f"error-{what}=ENOSPC", f"error-{what}-rate=100%", f"error-{what}-file={fails}")]
    disk = f"0:0={export_of(at)},werror=report"
    with contextlib.ExitStack() as last, nbdkit(at, "--filter=error", "file", image, *words) as server, driven(room, "--disk", disk, ends=0) as (_, front, _):
        run_cached(front, [("write", 1, 1), ("flush", 0, 0)])
        fails.touch()
        run_cached(front, [("write", 2, 2)])
        for _ in range(2):
            before = front.answered()
            front.flush()
            wait_for(lambda: front.answered() == before + 1, "a SYNCHRONIZE CACHE")  # noqa: B023
            assert front.status(front.count - 1) == 0x02 and front.sense(front.count - 1) == unwritten(8 * 2)
        fails.unlink()
        flushed(front)
        assert has(image, 4096 * 2, stamped(2, 2))
        end_server(server, at)
        run_cached(front, [("write", 3, 3)])
        before = front.answered()
        front.flush()
        time.sleep(1)
        assert front.answered() == before and front.asks()
        last.enter_context(nbdkit(at, "file", image))
        wait_for(lambda: front.answered() == before + 1 and not front.status(front.count - 1), "the SYNCHRONIZE CACHE")
        assert has(image, 4096 * 3, stamped(3, 3))
    return None


def test_nbd_lost(room):
    """A READ of a page that a server can't read ends with MEDIUM ERROR, and that is said. The page is read once more, and where that fails
    the next READ ends so, too. Behind that all is well, once the server reads the page.
    """
    if not has_servers(room):
        return NO_SERVER
    at, image, fails = room.folder / "nbd", room.file("image", 64 * MIB), room.folder / "fails"
    words = ["--filter=error", "file", image, "error-pread=EIO", "error-pread-rate=100%", f"error-pread-file={fails}"]
    with nbdkit(at, *words), driven(room, "--disk", f"0:0={export_of(at)}", ends=0) as (_, front, log):
        fails.touch()
        front.read(8 * 3, 4096)
        wait_for(lambda: front.answered() == 1, "the READ")
        # SPC-4 4.5.3: valid and current, MEDIUM ERROR, block 24, UNRECOVERED READ ERROR.
        assert front.status(0) == 0x02 and front.sense(0) == bytes.fromhex("f0000300000018 0a00000000 1100 00000000")
        wait_for(lambda: "can't be read, which its guest is told: Input/output error" in log.read_text(), "a line")
        fails.unlink()
        for count in (2, 3):
            front.read(8 * 3, 4096)
            wait_for(lambda: front.answered() == count, "another READ")  # noqa: B023
        assert not front.status(2) and front.data(2, 4096) == b"\x5a" * 4096
    return None


def test_nbd_left(room):
    """A daemon that ends while its server is gone says what isn't kept, and with status 1. Zeros that a server doesn't take are sent."""
    if not has_servers(room):
        return NO_SERVER
    at, image = room.folder / "nbd", room.file("image", 64 * MIB)
    with nbdkit(at, "file", image) as server, driven(room, "--disk", f"0:0={export_of(at)}", ends=1) as (_, front, log):
        run_cached(front, [("write", 1, 1), ("flush", 0, 0)])
        end_server(server, at)
        run_cached(front, [("write", 2, 2)])
    text = log.read_text()
    assert "WRITEs behind the last SYNCHRONIZE CACHE aren't all kept" in text and has(image, 4096, stamped(1, 1)), text
    log.unlink()
    # What a front end left is written with none, once the server is there again. One that goes between two front ends is no matter.
    with contextlib.ExitStack() as last, nbdkit(at, "file", image) as server, room.runs("--log", log, "--disk", f"0:0={export_of(at)}"):
        with FrontEnd(connected(room.socket)) as front:
            run_cached(front, [("write", 1, 3), ("flush", 0, 0)])
            end_server(server, at)
            run_cached(front, [("write", 2, 3)])
        wait_for(lambda: "the session is over" in log.read_text(), "the end of the session")
        server = last.enter_context(nbdkit(at, "file", image))
        wait_for(lambda: has(image, 4096 * 2, stamped(2, 3)), "the page that was left")
        end_server(server, at)
        time.sleep(0.1)
        server = last.enter_context(nbdkit(at, "file", image))
        with FrontEnd(connected(room.socket)) as front:
            numbers = run_cached(front, [("read", 2, 0), ("read", 900, 0), ("write", 4, 4), ("flush", 0, 0)])
            assert [front.data(number, 4096) for number in numbers][:2] == [stamped(2, 3), b"\x5a" * 4096]
            assert has(image, 4096 * 4, stamped(4, 4))
        end_server(server, at)
        with FrontEnd(connected(room.socket)) as front:
            front.read(8 * 901, 4096)
            time.sleep(0.2)
            assert front.answered() == 0 and front.asks()
            last.enter_context(nbdkit(at, "file", image))
            wait_for(lambda: front.answered() == 1 and not front.status(0), "the READ")
    log.unlink()
    disk = f"0:0={export_of(at)},detect-zeroes=unmap"
    with nbdkit(at, "--filter=nozero", "file", image), driven(room, "--disk", disk, ends=0) as (_, front, _):
        front.write(8, bytes(4096))
        run_cached(front, [("flush", 0, 0)])
        assert has(image, 4096, bytes(4096))
    return None


def stop(run):
    """Stops all threads of a process: the signal alone does that by and by."""
    run.send_signal(signal.SIGSTOP)
    states = [Path(f"/proc/{run.pid}/task/{it}/stat") for it in os.listdir(f"/proc/{run.pid}/task")]
    wait_for(lambda: all(it.read_text().rpartition(") ")[2][0] == "T" for it in states), "a process that is stopped")


def test_nbd_silent(room):
    """Beside a server that doesn't answer another disk goes on, and another size of it is refused soon. Beside one that is gone it gets one,
    also once its front end is gone, and the next front end has it.
    """
    if not has_servers(room) or not room.client:
        return NO_SERVER
    at, path, disk = room.folder / "nbd", room.folder / "control", room.file("disk.img", 16 * MIB)
    words = ["--disk", f"0:0=16M,file={disk}{CACHED}", "--disk", f"0:1={export_of(at)}", "--control", path]

    def size(bytes_):
        return asking.ask("resize", disk="0:0", size=bytes_)

    with nbdkit(at, "memory", "64M") as server, driven(room, *words, ends=0) as (run, front, _), Asking(path) as asking:
        # io_uring would give up at once, with a file that was opened so, on dm-crypt and its like.
        opened = [fd for fd in os.listdir(f"/proc/{run.pid}/fd") if os.readlink(f"/proc/{run.pid}/fd/{fd}") == str(disk)]
        flags = [int(re.search(r"flags:\t0(\d+)", Path(f"/proc/{run.pid}/fdinfo/{fd}").read_text())[1], 8) for fd in opened]
        assert opened and not any(it & os.O_NONBLOCK for it in flags), flags
        run_cached(front, [("write", 1, 1)])
        stop(server)
        front.read(8 * 5, 4096, lun=1)
        wait_for(lambda: asking.ask("stats")["disks"][1]["pages-asked"], "the page to be asked for")
        began = time.monotonic()
        answer = size(32 * MIB)
        assert answer == "Busy" and time.monotonic() - began < 5, (answer, time.monotonic() - began)
        front.write(8 * 3, stamped(3, 1))
        wait_for(lambda: front.answered() == 2, "a WRITE beside it")
        assert front.asks()
        server.send_signal(signal.SIGCONT)
        wait_for(lambda: front.answered() == 3, "the READ")
        assert size(32 * MIB) == {} and disk.stat().st_size == 32 * MIB
    words[1] = words[1].replace("16M", "32M")
    with nbdkit(at, "memory", "64M") as server, room.runs(*words) as run, Asking(path) as asking:
        with FrontEnd(connected(room.socket)) as front:
            # So that something is left as the front end goes.
            limit_files(run, 4096)
            run_cached(front, [("write", 1, 2)])
            end_server(server, at)
            front.read(8 * 5, 4096, lun=1)
            time.sleep(0.2)
        wait_for(lambda: not asking.ask("stats")["front-end"], "the end of the session", 20)
        limit_files(run, resource.RLIM_INFINITY)
        wait_for(lambda: has(disk, 4096, stamped(1, 2)), "what was left")
        wait_for(lambda: size(48 * MIB) == {}, "another size")
        with FrontEnd(connected(room.socket)) as front:
            numbers = run_cached(front, [("read", 1, 0), ("write", 12287, 5), ("read", 12287, 0)])
            assert [front.data(number, 4096) for number in numbers[::2]] == [stamped(1, 2), stamped(12287, 5)]
    return None


def test_left_behind(room):
    """A guest goes on behind another daemon only where that had all on files, or handed it over. Else each session of it ends, and the log
    says why, until it was reset.
    """
    kept, cached, log = room.file("kept.img"), room.file("cached.img", 64 * MIB, b"\0"), room.folder / "log"
    disks = {(f"0:0=1M,file={kept}",): True, (f"0:0=1M,file={kept},read-only=on",): True, ("0:0=1M",): False, (f"0:0=1M,file={kept},snapshot",): False}
    if has_ring(room):
        disks |= {(f"0:0=64M,file={cached}{CACHED}",): False, (f"0:0=64M,file={cached}{CACHED}", "--migratable"): True,
                  (f"0:0=64M,file={cached}{THROUGH}",): False, (f"0:0=64M,file={cached}{THROUGH}", "--migratable"): True}
    for words, may in disks.items():
        with room.runs("--log", log, "--disk", *words):
            with FrontEnd(connected(room.socket), 1) as front:
                front.read(0, 512)
                if may:
                    wait_for(lambda: front.answered() == 2, "a READ behind another daemon")  # noqa: B023
                else:
                    assert is_over(front.connection, LATE)
            assert ("reset the machine" in log.read_text()) != may, words
            with FrontEnd(connected(room.socket)) as front:
                front.read(0, 512)
                wait_for(lambda: front.answered() == 1, "a READ of a guest that was reset")  # noqa: B023
            # It goes on with this daemon.
            with FrontEnd(connected(room.socket), 1) as front:
                front.read(0, 512)
                wait_for(lambda: front.answered() == 2, "a READ of the next session")  # noqa: B023
        log.unlink()


def test_places(room):
    """It is noted where rings stand where answers wait for files, and that is offered then alone."""
    kept, cached = room.file("kept.img"), room.file("cached.img")
    disks = {"0:0=1M": False, f"0:0=1M,file={kept},snapshot": False, f"0:0=1M,file={kept}": True}
    if has_ring(room):
        disks[f"0:0=1M,file={cached}{CACHED}"] = False
    for disk, offers in disks.items():
        with room.runs("--disk", disk), connected(room.socket) as front:
            front.sendall(message(15))  # GET_PROTOCOL_FEATURES
            assert (struct.unpack("<IIIQ", front.recv(20))[3] >> 12 & 1) == offers, disk


def test_nbd_detached(room):
    """A disk on a server that is detached lets go of its connection, and others go on."""
    if not has_servers(room) or not room.client:
        return NO_SERVER + ", or no libjansson-dev"
    paths, control = [room.folder / "one", room.folder / "two"], room.folder / "control"
    disks = [word for lun, at in enumerate(paths) for word in ("--disk", f"0:{lun}={export_of(at)}")]
    with nbdkit(paths[0], "memory", "64M"), nbdkit(paths[1], "memory", "64M"):
        with room.runs(*disks, "--control", control) as run, Asking(control) as asking:
            with FrontEnd(connected(room.socket)) as front:
                front.write(8, stamped(1, 1), 1)
                front.flush(1)
                run_cached(front, [("read", page, 0) for page in range(8)])
                assert asking.ask("resize", disk="0:1", size=32 * MIB) == "File"
            wait_for(lambda: not asking.ask("stats")["front-end"], "the end of the session")
            before = len(os.listdir(f"/proc/{run.pid}/fd"))
            assert asking.ask("detach", disk="0:1") == {} and len(os.listdir(f"/proc/{run.pid}/fd")) == before - 1
            with FrontEnd(connected(room.socket)) as front:
                run_cached(front, [("write", 3, 3), ("flush", 0, 0), ("read", 3, 0)])
                assert front.data(2, 4096) == stamped(3, 3)
    return None


# Disks on images of Ceph clusters, over a stand-in for its libraries (daemon/test/stand_in/ceph.c). No cluster is there.


NO_CLUSTER = "no liburing-dev, or a daemon that is linked statically"
KINDS = ("read", "write", "zero", "flush")
FAULTS = [*(f"{kind}_error" for kind in KINDS), "holds", "delay", "forgets", "threads", *(f"{kind}s_asked" for kind in KINDS), *(f"{kind}s_done" for kind in KINDS)]


def has_clusters(room):
    return room.ceph and "with RBD" in room.ends("--version", status=0)


class Cluster:
    """What the stand-in has for a cluster: a folder with a pool and an image, and what goes wrong with that."""

    def __init__(self, room, size=EXPORT, fill=b"\0", name="pool/image"):
        self.folder, self.conf = room.folder / "ceph", room.folder / "ceph.conf"
        self.image = self.folder / name
        self.image.parent.mkdir(parents=True, exist_ok=True)
        fill_file(self.image, size, fill)
        self.faults = self.image.with_name(f"{self.image.name}.faults")
        self.faults.write_bytes(bytes(4 * len(FAULTS)))
        self.conf.write_text(f"{self.folder}\n")
        self.env = {**os.environ, "LD_LIBRARY_PATH": str(room.ceph)}
        self.words = f"rbd={name},rbd-conf={self.conf}"

    def set(self, **values):
        with self.faults.open("r+b") as file:
            for name, value in values.items():
                file.seek(4 * FAULTS.index(name))
                file.write(struct.pack("<I", value))

    def told(self, name):
        return struct.unpack_from("<I", self.faults.read_bytes(), 4 * FAULTS.index(name))[0]

    def hold(self, *kinds):
        self.set(holds=sum(1 << KINDS.index(kind) for kind in kinds))


def test_rbd_words(room):
    """Words of a disk on an image that don't go together are refused by name, and so is what its libraries or its cluster refuse."""
    named, rbd = ["--socket", room.socket, "--disk"], "rbd=pool/image"
    if "with RBD" not in room.ends("--version", status=0):
        room.ends(*named, f"0:0={rbd}", status=2, says="this daemon")
    if not has_clusters(room):
        return NO_CLUSTER
    wanted = "rbd= wants POOL/IMAGE or POOL/NAMESPACE/IMAGE, once, and no nbd="
    refused = {**{f"rbd={name}": wanted for name in ("", "pool", "pool/", "/image", "pool//image", "a/b/c/d", "a/b/")}, f"{rbd},{rbd}": wanted,
               f"nbd=nbd://a/,{rbd}": wanted, f"{rbd},nbd=nbd://a/": "not T:L=SIZE", f"{rbd},rbd-user=a,rbd-user=a": "not T:L=SIZE",
               f"{rbd},file={room.folder / 'image'}": "rbd= stands in place of file=",
               f"{rbd},direct=on": "direct=on wants file=PATH", f"{rbd},profile=narrow": "write-cache=on wants profile=wide",
               f"{rbd},cache-size=32M": "cache-size= is 33M at least", f"{rbd},snapshot": "grow and snapshot want file=PATH",
               f"64M,{rbd},grow": "grow and snapshot want file=PATH", f"64M,{rbd},grow,read-only=on": "read-only=on takes no snapshot and no grow",
               "64M,rbd-user=a": "rbd-conf= and rbd-user= want rbd=IMAGE", f"64M,file={room.folder / 'image'},rbd-conf=a": "want rbd=IMAGE"}
    for words, says in refused.items():
        room.ends(*named, f"0:0={words}", status=2, says=says)
    room.ends(*named, f"0:0={rbd}", "--migratable", status=2, says="--migratable: each disk has to be kept on a file")
    # What the loader says.
    empty = room.folder / "libraries"
    empty.mkdir()
    if not any(ctypes.util.find_library(name) for name in ("rados", "rbd")):
        room.refuses("--disk", f"0:0={rbd}", says="rbd:pool/image: librados.so.2: cannot open shared object file")
        shutil.copy(room.ceph / "librados.so.2", empty)
        room.refuses("--disk", f"0:0={rbd}", says="librbd.so.1: cannot open shared object file", env={**os.environ, "LD_LIBRARY_PATH": str(empty)})
    shutil.copy(room.ceph / "librados.so.2", empty)
    subprocess.run(["cc", "-shared", "-x", "c", "/dev/null", "-o", empty / "librbd.so.1"], check=True)
    room.refuses("--disk", f"0:0={rbd}", says="librbd.so.1 has no rbd_open", env={**os.environ, "LD_LIBRARY_PATH": str(empty)})
    return None


def test_rbd_refused(room):
    """What a cluster refuses ends the start with a text, and an image that can have the disk is taken by all its words."""
    if not has_clusters(room):
        return NO_CLUSTER
    cluster = Cluster(room, 64 * MIB)
    other, odd = Cluster(room, 64 * MIB, name="pool/space/image"), Cluster(room, 1000, name="pool/odd")
    conf = f"rbd-conf={cluster.conf}"

    def refuses(words, says):
        room.refuses("--disk", f"0:0={words}", says=says, env=cluster.env)

    refuses(f"rbd=pool/image,rbd-conf={room.folder / 'no'}", "rbd:pool/image: its configuration can't be read: No such file or directory")
    refuses("rbd=pool/image", "no connection to its cluster: Connection timed out")
    refuses(f"rbd=pools/image,{conf}", "rbd:pools/image: no such pool: No such file or directory")
    refuses(f"rbd=pool/images,{conf}", "rbd:pool/images: it can't be opened: No such file or directory")
    refuses(f"rbd=pool/spaces/image,{conf}", "rbd:pool/spaces/image: it can't be opened")
    refuses(odd.words, "its length is no disk's")
    refuses(f"63M,{cluster.words}", "longer than the disk")
    refuses(f"65M,{cluster.words}", "shorter than the disk")
    (cluster.folder / "down").touch()
    refuses(cluster.words, "no connection to its cluster: Connection timed out")
    (cluster.folder / "down").unlink()
    (cluster.folder / "user").write_text("vscsi\n")
    refuses(cluster.words, "no connection to its cluster: Permission denied")
    for words in (f"{cluster.words},rbd-user=vscsi", f"64M,{other.words},rbd-user=vscsi,write-cache=on,cache-size=33M,detect-zeroes=unmap,serial=one"):
        with room.runs("--disk", f"0:0={words}", env=cluster.env):
            assert serves(room.socket)
    with room.runs("--disk", "0:0=rbd=pool/image,rbd-user=vscsi", env={**cluster.env, "CEPH_CONF": str(cluster.conf)}):
        assert serves(room.socket)
    (cluster.folder / "user").unlink()
    # An image with an exclusive lock has one daemon.
    (cluster.image.parent / "image.lock").touch()
    with room.runs("--disk", f"0:0={cluster.words}", env=cluster.env):
        room.ends("--socket", room.folder / "second", "--disk", f"0:0={cluster.words}", status=1, env=cluster.env,
                  says="rbd:pool/image: its exclusive lock can't be had: Read-only file system")
    with room.runs("--disk", f"0:0={cluster.words}", env=cluster.env):
        assert serves(room.socket)
    # One that is read alone isn't locked, and nobody changes it.
    with room.runs("--disk", f"0:0={cluster.words}", env=cluster.env):
        with room.runs("--disk", f"0:0={cluster.words},read-only=on", path=room.folder / "second", env=cluster.env):
            with FrontEnd(connected(room.folder / "second")) as front:
                front.write(8, stamped(1, 1))
                front.read(8, 4096)
                front.flush()
                wait_for(lambda: front.answered() == 3, "all")
                assert front.status(0) == 2 and front.sense(0)[2] == 7 and front.data(1, 4096) == bytes(4096) and not front.status(2)
    assert not cluster.told("writes_asked")
    # A daemon whose cluster doesn't answer is ended all the same.
    (cluster.folder / "silent").touch()
    words = [room.program, "--socket", room.socket, "--disk", f"0:0={cluster.words}"]
    with subprocess.Popen(words, env=cluster.env, stderr=subprocess.PIPE, text=True) as run:
        time.sleep(0.5)
        assert run.poll() is None and not room.socket.exists()
        run.terminate()
        began = time.monotonic()
        assert run.wait(LATE) == 0 and time.monotonic() - began < room.late and "ended before it served" in run.stderr.read()
    return None


def test_rbd(room):
    """A disk on an image has what a guest flushed, is read back as it was written, and has all once the daemon has ended, in whatever order
    the cluster answers.
    """
    if not has_clusters(room):
        return NO_CLUSTER
    choose = random.Random(7)
    for turn, (more, faults) in enumerate((("cache-size=33M", {"delay": 2000}), ("detect-zeroes=unmap", {"forgets": 1}), ("serial=a", {"forgets": 1, "threads": 1, "delay": 500}))):
        cluster = Cluster(room, name=f"pool/image{turn}")
        cluster.set(**faults)
        with driven(room, "--disk", f"0:0={cluster.words},{more}", ends=0, env=cluster.env) as (_, front, log):
            work_on_server(room, front, choose, cluster.image)
            # Zeros; and what isn't flushed is there once the daemon has ended.
            front.write(8 * 40, bytes(4096))
            run_cached(front, [("flush", 0, 0), ("read", 40, 0)] + [("write", page, 9999) for page in range(8)])
        assert has(cluster.image, 4096 * 40, bytes(4096)), log.read_text()
        assert all(has(cluster.image, 4096 * page, stamped(page, 9999)) for page in range(8)), log.read_text()
        assert bool(cluster.told("zeros_done")) == (more == "detect-zeroes=unmap") and cluster.told("flushs_done") > 2
        assert all(cluster.told(f"{kind}s_asked") == cluster.told(f"{kind}s_done") for kind in KINDS)
        log.unlink()
        cluster.image.unlink()
    # Of a disk that ends within a page no byte is written behind its end.
    cluster = Cluster(room, MIB + 1536)
    for version in (0, 1):
        with driven(room, "--disk", f"0:0={cluster.words}", ends=0, env=cluster.env) as (_, front, _):
            front.read(2048, 1536)
            front.write(2048, b"x" * 1536)
            wait_for(lambda: front.answered() == 2, "the last blocks")  # noqa: B023
            assert not front.status(0) and not front.status(1) and front.data(0, 1536) == (b"x" if version else b"\0") * 1536
    assert cluster.image.stat().st_size == MIB + 1536
    return None


def test_rbd_ahead(room):
    """What is read ahead of an image is never older than what it has, whenever it is written."""
    if not has_clusters(room):
        return NO_CLUSTER
    cluster = Cluster(room)
    cluster.set(delay=3000)
    with driven(room, "--disk", f"0:0={cluster.words},cache-size=33M", ends=0, env=cluster.env) as (_, front, _):
        read_and_write(front, random.Random(11), {}, 2)
    return None


def test_rbd_killed(room):
    """What a guest flushed is on the image when the daemon is killed while it writes, or a later version of the same page is. What the
    cluster hasn't flushed is lost with the daemon.
    """
    if not has_clusters(room):
        return NO_CLUSTER
    cluster = Cluster(room)
    cluster.set(forgets=1, delay=1000)
    kill_and_compare(room, f"0:0={cluster.words},cache-size=33M", cluster.image, max(KILLS // 2, 1), env=cluster.env)
    return None


def test_rbd_errors(room):
    """Where a cluster fails reads, writes or flushes, commands wait, that is said once, and all goes on once it doesn't. What a flush that
    failed may have lost is written again.
    """
    if not has_clusters(room):
        return NO_CLUSTER
    cluster = Cluster(room, 64 * MIB, b"\x5a")
    cluster.set(forgets=1, read_error=errno.EIO)
    with driven(room, "--disk", f"0:0={cluster.words},rerror=stop", ends=0, env=cluster.env) as (run, front, log):
        front.read(8 * 3, 4096)
        wait_for(lambda: "can't be read, and is tried again: Input/output error" in log.read_text(), "a line")
        assert front.asks() and front.answered() == 0
        cluster.set(read_error=0)
        wait_for(lambda: front.answered() == 1, "the READ")
        assert front.data(0, 4096) == b"\x5a" * 4096
        for turn, kind in enumerate(("write", "flush"), 1):
            cluster.set(**{f"{kind}_error": errno.ESHUTDOWN})
            answered = front.answered()
            run_cached(front, [("write", page, turn) for page in range(100, 110)])
            front.flush()
            wait_for(lambda: log.read_text().count("can't be written, and is tried again: Cannot send after transport") == turn, "a line")  # noqa: B023
            before = taken(run)
            time.sleep(1)
            assert front.answered() == answered + 10 and taken(run) - before < 200_000_000 and log.read_text().count("can't be written") == turn
            assert not has(cluster.image, 4096 * 100, stamped(100, turn))
            cluster.set(**{f"{kind}_error": 0})
            wait_for(lambda: front.answered() == answered + 11 and not front.status(front.count - 1), "the SYNCHRONIZE CACHE")  # noqa: B023
            assert all(has(cluster.image, 4096 * page, stamped(page, turn)) for page in range(100, 110))
            wait_for(lambda: log.read_text().count("can be written again") == turn, "a line")  # noqa: B023
    return None


def test_rbd_reported(room):
    """With werror=report a SYNCHRONIZE CACHE ends with MEDIUM ERROR where a cluster fails a write, or a flush."""
    if not has_clusters(room):
        return NO_CLUSTER
    cluster = Cluster(room, 64 * MIB, b"\x5a")
    cluster.set(forgets=1)
    with driven(room, "--disk", f"0:0={cluster.words},werror=report", ends=0, env=cluster.env) as (_, front, log):
        for turn, kind in enumerate(("write", "flush"), 1):
            cluster.set(**{f"{kind}_error": errno.EIO})
            run_cached(front, [("write", 100, turn)])
            for _ in range(2):
                before = front.answered()
                front.flush()
                wait_for(lambda: front.answered() == before + 1, "a SYNCHRONIZE CACHE")  # noqa: B023
                assert front.status(front.count - 1) == 0x02 and front.sense(front.count - 1) == unwritten(8 * 100)
            assert not has(cluster.image, 4096 * 100, stamped(100, turn))
            cluster.set(**{f"{kind}_error": 0})
            flushed(front)
            assert has(cluster.image, 4096 * 100, stamped(100, turn))
            wait_for(lambda: log.read_text().count("can be written again") == turn, "a line")  # noqa: B023
    return None


def test_rbd_lost(room):
    """A READ of a page that a cluster can't read ends with MEDIUM ERROR, and that is said. Any other error has it wait."""
    if not has_clusters(room):
        return NO_CLUSTER
    cluster = Cluster(room, 64 * MIB, b"\x5a")
    cluster.set(read_error=errno.EIO)
    with driven(room, "--disk", f"0:0={cluster.words}", ends=0, env=cluster.env) as (_, front, log):
        front.read(8 * 3, 4096)
        wait_for(lambda: front.answered() == 1, "the READ")
        # SPC-4 4.5.3: valid and current, MEDIUM ERROR, block 24, UNRECOVERED READ ERROR.
        assert front.status(0) == 0x02 and front.sense(0) == bytes.fromhex("f0000300000018 0a00000000 1100 00000000")
        wait_for(lambda: "can't be read, which its guest is told: Input/output error" in log.read_text(), "a line")
        cluster.set(read_error=errno.ETIMEDOUT)
        front.read(8 * 900, 4096)
        time.sleep(0.3)
        assert front.answered() == 1 and front.asks()
        cluster.set(read_error=0)
        wait_for(lambda: front.answered() == 2, "the other READ")
        assert not front.status(1) and front.data(1, 4096) == b"\x5a" * 4096
    return None


def test_rbd_slow(room):
    """While a cluster doesn't answer, commands that need it wait, and take no processor. Others of the guest go on, also of the same disk."""
    if not has_clusters(room):
        return NO_CLUSTER
    cluster, other = Cluster(room, 64 * MIB, b"\x5a"), room.folder / "image"
    words = ["--disk", f"0:0={cluster.words}", "--disk", f"0:1=64M,file={other}{CACHED}"]
    with driven(room, *words, ends=0, env=cluster.env) as (run, front, log):
        run_cached(front, [("write", 5, 1), ("flush", 0, 0)])
        cluster.hold(*KINDS)
        front.read(8 * 9, 4096)
        front.write(8 * 6, stamped(6, 1))
        front.flush()
        front.read(8 * 5, 4096)
        wait_for(lambda: front.answered() == 4, "what needs no cluster")
        assert front.data(5, 4096) == stamped(5, 1) and not front.status(3)
        front.write(8, stamped(1, 1), 1)
        front.flush(1)
        wait_for(lambda: front.answered() == 6 and has(other, 4096, stamped(1, 1)), "the other disk")
        before = taken(run)
        time.sleep(1)
        assert taken(run) - before < 100_000_000 and front.answered() == 6 and front.asks() and "can't" not in log.read_text()
        cluster.hold()
        wait_for(lambda: front.answered() == 8, "what waited")
        assert front.data(2, 4096) == b"\x5a" * 4096 and not front.status(2) and not front.status(4) and has(cluster.image, 4096 * 6, stamped(6, 1))
    return None


def test_rbd_left(room):
    """A daemon that ends while its cluster fails says what isn't kept, and with status 1. One that isn't answered waits. What a front end left
    is written with none.
    """
    if not has_clusters(room):
        return NO_CLUSTER
    cluster, log = Cluster(room, 64 * MIB), room.folder / "log"
    disk = f"0:0={cluster.words}"
    with driven(room, "--disk", disk, ends=1, env=cluster.env) as (_, front, _):
        run_cached(front, [("write", 1, 1), ("flush", 0, 0)])
        cluster.set(write_error=errno.EIO)
        run_cached(front, [("write", 2, 2)])
    text = log.read_text()
    assert f"disk 0:0: rbd:pool/image: WRITEs behind the last SYNCHRONIZE CACHE aren't all kept: {os.strerror(errno.EIO)}" in text, text
    assert has(cluster.image, 4096, stamped(1, 1)) and not has(cluster.image, 8192, stamped(2, 2))
    log.unlink()
    cluster.set(write_error=0)
    with driven(room, "--disk", disk, ends=0, env=cluster.env) as (run, front, _):
        cluster.hold("write")
        run_cached(front, [("write", 3, 3)])
        run.terminate()
        time.sleep(2)
        assert run.poll() is None and not has(cluster.image, 4096 * 3, stamped(3, 3))
        cluster.hold()
        assert run.wait(LATE) == 0
    assert has(cluster.image, 4096 * 3, stamped(3, 3))
    log.unlink()
    with room.runs("--log", log, "--disk", disk, env=cluster.env):
        with FrontEnd(connected(room.socket)) as front:
            cluster.set(write_error=errno.EIO)
            run_cached(front, [("write", 4, 4)])
            wait_for(lambda: "can't be written" in log.read_text(), "a line")
        wait_for(lambda: "the session is over" in log.read_text(), "the end of the session")
        with FrontEnd(connected(room.socket)) as front:
            number = run_cached(front, [("read", 4, 0)])[0]
            assert front.data(number, 4096) == stamped(4, 4) and not has(cluster.image, 4096 * 4, stamped(4, 4))
        cluster.set(write_error=0)
        wait_for(lambda: has(cluster.image, 4096 * 4, stamped(4, 4)), "the page that was left")
    return None


def test_rbd_detached(room):
    """A disk on an image that is detached lets go of it once it has all, and of its lock. It can't be attached, and stays as long as it is."""
    if not has_clusters(room) or not room.client:
        return NO_CLUSTER + ", or no libjansson-dev"
    cluster, control = Cluster(room, 64 * MIB), room.folder / "control"
    lock = cluster.image.parent / "image.lock"
    lock.touch()
    words = ["--disk", "0:0=1M", "--disk", f"0:1={cluster.words}", "--control", control]
    with room.runs(*words, env=cluster.env) as run, Asking(control) as asking, lock.open() as file:
        with FrontEnd(connected(room.socket)) as front:
            front.write(8, stamped(1, 1), 1)
            wait_for(lambda: front.answered() == 1, "a WRITE")
            assert asking.ask("resize", disk="0:1", size=32 * MIB) == "File"
            told = asking.ask("stats")["disks"][1]
            assert told["file"] == "rbd:pool/image" and "pages-asked" in told
        wait_for(lambda: not asking.ask("stats")["front-end"], "the end of the session")
        try:
            fcntl.flock(file, fcntl.LOCK_EX | fcntl.LOCK_NB)
            raise AssertionError("the lock isn't taken")
        except BlockingIOError:
            pass
        assert asking.ask("detach", disk="0:1") == {} and has(cluster.image, 4096, stamped(1, 1))
        fcntl.flock(file, fcntl.LOCK_EX | fcntl.LOCK_NB)
        assert len(os.listdir(f"/proc/{run.pid}/task")) == 1
        assert asking.ask("attach", disk=f"0:1={cluster.words}") == "BadDisk"
    return None


def test_rbd_limits(room):
    """With an image all threads have the limits of system calls: one that isn't allowed fails, and ends nothing."""
    if not has_clusters(room) or not room.shim or not has_seccomp(room):
        return "needs a program with seccomp"
    cluster, other = Cluster(room, 64 * MIB), room.folder / "other"
    other.touch()
    for call in {"x86_64": (59, 257, 101, 272, 435), "aarch64": (221, 56, 117, 97, 435)}.get(os.uname().machine, ()):
        with room.runs("--disk", f"0:0={cluster.words}", env={**cluster.env, "LD_PRELOAD": str(room.shim), "CALL": str(call)}) as run:
            assert serves(room.socket)
            tasks = list(Path(f"/proc/{run.pid}/task").iterdir())
            told = [re.search(r"^Seccomp:\t(\d)$", (task / "status").read_text(), re.M)[1] for task in tasks]
            assert len(told) > 5 and set(told) == {"2"}, told
            assert re.search(r"Max open files +(\d+) ", Path(f"/proc/{run.pid}/limits").read_text())[1] != "1024"
    words = [room.program, "--socket", room.socket, "--disk", f"0:0={cluster.words}"]
    run = subprocess.run(words, env={**cluster.env, "LD_PRELOAD": str(room.shim), "ADD": str(other)}, capture_output=True, timeout=LATE)
    assert run.returncode == 100 + errno.ENOSYS, run.returncode
    if os.geteuid():
        return None
    # All threads become the user, and go on.
    room.folder.chmod(0o777)
    user = pwd.getpwnam("nobody").pw_uid
    with room.runs("--disk", f"0:0={cluster.words}", "--user", "nobody", env=cluster.env) as run, FrontEnd(connected(room.socket)) as front:
        run_cached(front, [("write", 5, 5), ("flush", 0, 0)])
        told = [re.search(r"^Uid:\t(\d+)\t", (task / "status").read_text(), re.M)[1] for task in Path(f"/proc/{run.pid}/task").iterdir()]
        assert set(told) == {str(user)} and has(cluster.image, 4096 * 5, stamped(5, 5)), told
    return None


# Isolation.


def facts(run):
    """What the system says of a process: names and values of /proc/PID/status."""
    return dict(line.split(":\t", 1) for line in Path(f"/proc/{run.pid}/status").read_text().splitlines() if ":\t" in line)


def has_seccomp(room):
    return "with seccomp" in room.ends("--version", status=0)


def test_limits(room):
    """The daemon can't gain privileges, writes no core file, and opens a limited number of files."""
    with room.runs("--disk", "0:0=1M") as run:
        assert serves(room.socket)
        told = facts(run)
        limits = Path(f"/proc/{run.pid}/limits").read_text()
        assert told["NoNewPrivs"] == "1" and told["Seccomp"] == ("2" if has_seccomp(room) else "0")
        assert re.search(r"Max core file size +0 +0", limits) and re.search(r"Max open files +1024 ", limits)
    if has_seccomp(room):
        with room.runs("--disk", "0:0=1M", "--seccomp", "off") as run:
            assert serves(room.socket) and facts(run)["Seccomp"] == "0" and facts(run)["NoNewPrivs"] == "1"


def test_modes(room):
    """The socket has the mode that is said, whatever the umask, or else what the umask leaves."""
    for words, umask, mode in ((["--mode", "0660"], 0o777, 0o660), (["--mode", "600"], 0, 0o600), ([], 0o027, 0o750)):
        with room.runs("--disk", "0:0=1M", *words, umask=umask):
            assert stat.S_IMODE(room.socket.stat().st_mode) == mode


def test_users(room):
    """Started by root it becomes another user, whose the socket and a new image are."""
    if os.geteuid():
        with room.runs("--disk", "0:0=1M", "--user", str(os.geteuid())):
            pass
        room.refuses("--disk", "0:0=1M", "--user", "root", says="user")
        return "the tests don't run as root: the change of user is not tried"
    room.folder.chmod(0o777)
    disk = room.folder / "new.img"
    with room.runs("--disk", f"0:0=1M,file={disk}", "--user", "nobody", "--group", "daemon", "--mode", "660", extra_groups=[0, 4]) as run:
        # It listens before it becomes another.
        assert serves(room.socket)
        told = facts(run)
        assert told["Uid"].split() == ["65534"] * 4 and told["Gid"].split() == ["1"] * 4 and told["CapEff"] == "0000000000000000"
        assert told["Groups"].split() in ([], ["1"], ["65534"], ["1", "65534"])
        assert (room.socket.stat().st_uid, room.socket.stat().st_gid, disk.stat().st_uid) == (65534, 1, 65534)
    assert not room.socket.exists()
    return None


def test_handed_in(room):
    """A listening socket can be handed in, also as systemd does it, or a front end's connection: nothing is bound or taken away."""
    def ended(run, by):
        if by:
            run.terminate()
        assert run.wait(LATE) == 0, run.returncode

    with socket.socket(socket.AF_UNIX) as listener:
        listener.bind(str(room.socket))
        listener.listen()
        given = listener.fileno()
        words = [room.program, "--disk", "0:0=1M", "--quiet"]
        with subprocess.Popen([*words, "--fd", str(given)], pass_fds=[given]) as run:
            assert serves(room.socket) and serves(room.socket)
            ended(run, True)
        # What systemd does: the descriptor is 3, and the environment has the process's own number.
        script = "exec 3<&$1; export LISTEN_FDS=1 LISTEN_PID=$$; shift; exec \"$@\""
        with subprocess.Popen(["bash", "-c", script, "sh", str(given), *words], pass_fds=[given]) as run:
            assert serves(room.socket)
            ended(run, True)
        assert room.socket.is_socket()
    ours, theirs = socket.socketpair()
    with subprocess.Popen([*words, "--fd", str(theirs.fileno())], pass_fds=[theirs.fileno()]) as run:
        theirs.close()
        ours.settimeout(10)
        assert is_served(ours)
        ours.close()
        ended(run, False)
    with socket.socket(socket.AF_UNIX) as neither, room.file("notes").open() as file:
        for given in (neither.fileno(), file.fileno()):
            room.ends("--fd", str(given), "--disk", "0:0=1M", status=1, says=str(given), pass_fds=[given])


def test_other_calls_kill(room):
    """With seccomp any call that serving doesn't take ends the process by SIGSYS."""
    if not room.shim or not has_seccomp(room):
        return "needs a program with seccomp"
    # By their numbers on x86-64 and on the 64-bit ARM: socket, execve, openat, ptrace, clone, unshare.
    calls = {"x86_64": (41, 59, 257, 101, 56, 272), "aarch64": (198, 221, 56, 117, 220, 97)}.get(os.uname().machine, ())
    for call in calls:
        environment = {"LD_PRELOAD": str(room.shim), "CALL": str(call)}
        run = subprocess.run([room.program, "--socket", room.socket, "--disk", "0:0=1M"], env=environment, capture_output=True, timeout=LATE)
        assert run.returncode == -signal.SIGSYS, (call, run.returncode)
        with room.runs("--disk", "0:0=1M", "--seccomp", "off", env=environment):
            assert serves(room.socket)
    return None


def test_files_are_limited(room):
    """With Landlock the daemon adds only to files of its log's folder, and removes only files of its socket's."""
    if not room.shim:
        return "needs a program without sanitizers"
    logs, sockets, other = room.folder / "logs", room.folder / "sockets", room.folder / "other"
    for folder in (logs, sockets, other):
        folder.mkdir()
    words = [room.program, "--socket", sockets / "socket", "--disk", "0:0=1M", "--log", logs / "log"]

    def tries(what, path, *more):
        """The status by which the shim ends the daemon: 100 and the error number of what it tried, or 100."""
        path.touch()
        environment = {"LD_PRELOAD": str(room.shim), what: str(path)}
        return subprocess.run([*words, *more], env=environment, timeout=LATE).returncode

    tries("ADD", logs / "file")
    if not re.search("files (and system calls )?are limited", (logs / "log").read_text()):
        return "the kernel has no Landlock"
    assert tries("ADD", other / "file") == 100 + errno.EACCES and tries("ADD", logs / "file") == 100
    assert tries("REMOVE", other / "file") == 100 + errno.EACCES and (other / "file").exists()
    assert tries("REMOVE", sockets / "file") == 100 and not (sockets / "file").exists()
    assert tries("ADD", other / "file", "--seccomp", "off") == 100
    return None


SET_FEATURES, SET_MEM_TABLE = 2, 5
SET_VRING_NUM, SET_VRING_ADDR, SET_VRING_BASE, SET_VRING_KICK, SET_VRING_ENABLE = 8, 9, 10, 12, 18
GUEST_BYTES, USER = 64 * MIB, 0x7F0000000000
DESCRIPTORS, AVAILABLE, USED, REQUEST, ANSWER = 0x300000, 0x301000, 0x302000, 0x400000, 0x500000


def set_up(front, memory):
    """Gives the daemon a guest's memory and three queues, of 1 MiB each from 1 MiB on. Gives the descriptor that kicks them all."""
    def say(request, *numbers, fd=None):
        there = [(socket.SOL_SOCKET, socket.SCM_RIGHTS, struct.pack("i", fd))] if fd is not None else []
        front.sendmsg([message(request, struct.pack(f"<{len(numbers)}Q", *numbers))], there)

    kick = os.eventfd(0)
    say(SET_OWNER)
    say(SET_FEATURES, 1 << 32 | 1 << 30)  # VERSION_1, and queues begin disabled
    say(SET_MEM_TABLE, 1, 0, GUEST_BYTES, USER, 0, fd=memory)
    for q in range(3):
        base = USER + MIB * (q + 1)
        say(SET_VRING_NUM, q | 16 << 32)
        say(SET_VRING_BASE, q)
        say(SET_VRING_ADDR, q, base, base + 0x2000, base + 0x1000, 0)
        say(SET_VRING_KICK, q, fd=kick)
        say(SET_VRING_ENABLE, q | 1 << 32)
    return kick


def test_serves_within_its_limits(room):
    """A guest's request is answered with all limits on; a guest whose memory goes away under the daemon ends its own session alone."""
    for words in ([], ["--shadow"]):  # a word of older command lines
        memory = os.memfd_create("guest")
        os.ftruncate(memory, GUEST_BYTES)
        with room.runs("--disk", f"0:0=1M,file={room.folder / 'disk.img'}", *words):
            with connected(room.socket) as front:
                kick = set_up(front, memory)
                os.pwrite(memory, struct.pack("<QIHHQIHH", REQUEST, 51, 1, 1, ANSWER, 108, 2, 0), DESCRIPTORS)
                os.pwrite(memory, struct.pack("<B7x", 1), REQUEST)  # LUN 0 of target 0: TEST UNIT READY
                os.pwrite(memory, struct.pack("<HHH", 0, 1, 0), AVAILABLE)
                os.eventfd_write(kick, 1)
                wait_for(lambda: os.pread(memory, 4, USED) == b"\0\0\1\0", "the answer")
                assert os.pread(memory, 12, ANSWER)[10:] == b"\0\0"  # GOOD, and response OK
                os.ftruncate(memory, 0)
                os.eventfd_write(kick, 1)
                assert is_over(front, LATE)
            assert serves(room.socket)
        os.close(memory)
        os.close(kick)


def test_hardened(room):
    """The program that users run is built as tools/build/daemon says."""
    if not room.shim or not shutil.which("readelf"):
        return "needs readelf, and a program without sanitizers"
    told = subprocess.run(["readelf", "-hldW", "--syms", room.program], capture_output=True, text=True, check=True).stdout
    assert "DYN (Position-Independent Executable" in told and re.search(r"FLAGS.*BIND_NOW|\(BIND_NOW\)", told) and "GNU_RELRO" in told
    assert "__stack_chk_fail" in told and re.search(r"__\w+_chk@", told) and re.search(r"GNU_STACK .* RW ", told)
    return None


# The control socket, and guests that move.


def asking_by_client(room, path=None):
    """What asks a control socket by vscsi-ctl, and gives its answer, if there is one."""
    def asks(*words, status=0):
        run = subprocess.run([room.client, path or room.folder / "control", *words], capture_output=True, text=True)
        assert run.returncode == status, (words, run.stdout, run.stderr)
        return json.loads(run.stdout) if run.stdout else None

    return asks


class Asking:
    """A client of the control socket, line by line."""

    def __init__(self, path):
        self.connection = connected(path)
        self.lines = self.connection.makefile("r")

    def __enter__(self):
        return self

    def __exit__(self, *_):
        self.lines.close()
        self.connection.close()

    def say(self, line, files=()):
        """Sends a line, and gives what it returns, or the name of its error."""
        socket.send_fds(self.connection, [line.encode() + b"\n"], list(files))
        answer = json.loads(self.lines.readline())
        return answer["error"]["name"] if "error" in answer else answer["return"]

    def ask(self, command, files=(), **arguments):
        return self.say(json.dumps({"execute": command, **({"arguments": arguments} if arguments else {})}), files)


def test_control_words(room):
    """The control socket is its owner's, refuses by name what it doesn't know, and goes with the daemon."""
    path = room.folder / "control"
    if not room.client:
        room.ends("--socket", room.socket, "--disk", "0:0=1M", "--control", path, status=2, says="built without")
        return "no libjansson-dev"
    odd = room.folder / os.fsdecode(b"disk\xff.img")
    with room.runs("--disk", "0:0=1M", "--disk", f"0:1=1M,file={odd}", "--control", path) as run:
        assert stat.S_IMODE(path.stat().st_mode) == 0o600
        with Asking(path) as asking:
            wrong = ["", "{", "[]", "1", "{}", '{"execute":1}', '{"execute":"stats","more":1}', '{"execute":"stats","execute":"stats"}', "\x80", '{"execute":"reset"}']
            assert [asking.say(line) for line in wrong] == ["BadRequest"] * len(wrong)
            assert asking.ask("quit") == "NoCommand" and asking.ask("reset", disk="0:2") == "NoDisk" and asking.ask("reset", disk="0:0x") == "NoDisk"
            assert [asking.ask("resize", disk="0:0", size=size) for size in (0, -512, 513, "1M", 1 << 60)] == ["BadSize"] * 5
            assert asking.ask("reset", disk="0:0") == "NoDevice" and asking.ask("resize", disk="0:0", size=512) == "NoDevice"
            assert [(it["disk"], it["file"]) for it in asking.ask("stats")["disks"]] == [("0:0", None), ("0:1", f"{room.folder}/disk?.img")]
            # Two lines at once, and one in two parts.
            asking.connection.sendall(b'{"execute":"stats"}\n{"execute":"no"}\n{"execute":')
            assert "return" in asking.lines.readline() and "NoCommand" in asking.lines.readline()
            asking.connection.sendall(b'"stats"}\n')
            assert "return" in asking.lines.readline()
            # Descriptors that nobody asked for are closed, however many come with a line.
            with (room.folder / "file").open("w") as file:
                before = len(os.listdir(f"/proc/{run.pid}/fd"))
                for count in range(1, 4):
                    assert asking.say('{"execute":"no"}', [file.fileno()] * count) == "NoCommand"
                wait_for(lambda: len(os.listdir(f"/proc/{run.pid}/fd")) == before, "the descriptors to go")
            # What isn't UTF-8 is answered all the same.
            for line in (b"\xff", b'{"execute":"\xff"}'):
                asking.connection.sendall(line + b"\n")
                assert "BadRequest" in asking.lines.readline()
            # Another client waits until this one is gone.
            with Asking(path) as other:
                other.connection.sendall(b'{"execute":"stats"}\n')
                asking.connection.sendall(b"x" * 4096)
                assert "BadRequest" in asking.lines.readline() and asking.lines.readline() == ""
                assert "return" in other.lines.readline()
        for words, status in ((["stats"], 0), (["reset", "0:0"], 1), (["resize", "0:0", "x"], 2), (["stats", "0:0"], 2), ([], 2)):
            assert subprocess.run([room.client, path, *words], capture_output=True).returncode == status, words
    assert not path.exists()
    return None


def test_control_path(room):
    """The path of the control socket is looked at before anything is made, loaded or taken away."""
    if not room.client:
        return "no libjansson-dev"
    disk, new = room.file("disk.img"), room.folder / "new.img"
    with socket.socket(socket.AF_UNIX) as stale:
        stale.bind(str(room.socket))
    words = ["--disk", f"0:0=2M,file={disk},grow", "--disk", f"0:1=1M,file={new}"]

    def state():
        return disk.stat().st_size, disk.stat().st_mtime_ns, room.folder.stat().st_mtime_ns

    before = state()
    for path, says in ((room.folder / "no/control", "no/control: No such file"), (disk, "disk.img: there already, and no socket")):
        room.refuses(*words, "--control", path, says=says)
    assert state() == before
    return None


def test_control_disks(room):
    """Disks come, go and get other sizes while there is no front end, also within the daemon's limits."""
    if not room.client:
        return "no libjansson-dev"
    path, log = room.folder / "control", room.folder / "log"
    one, two = room.file("one.img"), room.folder / "two,img"

    def asks(*words, status=0):
        run = subprocess.run([room.client, path, *words], capture_output=True, text=True)
        assert run.returncode == status, (words, run.stdout, run.stderr)
        return json.loads(run.stdout) if run.stdout else None

    with room.runs("--disk", f"0:0=1M,file={one}", "--control", path, "--log", log):
        asks("attach", "0:1=1M")
        asks("attach", f"0:2=2M,file={str(two).replace(',', ',,')},grow")
        asks("attach", f"1:0=file={room.file('three.img')},snapshot")
        assert two.stat().st_size == 2 * MIB and stat.S_IMODE(two.stat().st_mode) == 0o600
        assert [it["disk"] for it in asks("stats")["return"]["disks"]] == ["0:0", "0:1", "0:2", "1:0"]
        # What a path has between commas is no word of the disk's.
        named, plain = room.file("a,snapshot"), room.folder / "a,grow"
        asks("attach", f"0:5=1M,file={str(named).replace(',', ',,')}")
        asks("detach", "0:5")
        for missing in (plain, room.folder / "b,grow,b"):
            assert asks("attach", f"0:5=1M,file={str(missing).replace(',', ',,')}", status=1) is None and not missing.exists()
        asks("attach", f"0:5=1M,grow,file={str(plain).replace(',', ',,')},detect-zeroes=unmap")
        assert plain.stat().st_size == MIB
        asks("detach", "0:5")
        for words in ("0:1=1M", "2:1=1M", "0:3=1X", f"0:3=1M,file={one}", f"0:3=3M,file={room.folder / 'three.img'}"):
            assert asks("attach", words, status=1)["error"]["name"] == "BadDisk", words
        assert asks("detach", "0:0", status=1)["error"]["name"] == "BadDisk" and asks("detach", "0:9", status=1)["error"]["name"] == "NoDisk"
        with two.open("r+b") as file:
            assert is_locked(file, 100 + WRITES)
            asks("detach", "0:2")
            assert not is_locked(file, 100 + WRITES)
        asks("resize", "0:0", "3M")
        assert one.stat().st_size == 3 * MIB and asks("stats")["return"]["disks"][0]["bytes"] == 3 * MIB
        with Asking(path) as asking, one.open("rb") as file:
            assert asking.ask("attach", disk="0:4=1M", files=[file.fileno()]) == "BadDisk"
            assert asking.ask("attach", disk=f"0:4=file={one}") == "BadDisk"
            assert asking.ask("attach", disk=f"0:4=file={one}", files=[file.fileno()]) == "BadDisk"
        four = room.file("four.img")
        # Of one descriptor that comes twice no lock tells, nor of two that only read.
        with Asking(path) as asking, four.open("r+b") as file:
            assert asking.ask("attach", disk=f"0:4=file={four}", files=[file.fileno()]) == {}
            for words in ("", ",snapshot"):
                assert asking.ask("attach", disk=f"0:6=file={four}{words}", files=[file.fileno()]) == "BadDisk", words
            assert asking.ask("detach", disk="0:4") == {}
        with Asking(path) as asking, four.open("rb") as file:
            for lun in (4, 6):
                assert asking.ask("attach", disk=f"0:{lun}=file={four},snapshot", files=[file.fileno()]) == {}
            for lun in (4, 6):
                assert asking.ask("detach", disk=f"0:{lun}") == {}
        for flag in (os.O_APPEND, os.O_DIRECT):
            descriptor = os.open(four, os.O_RDWR | flag)
            with Asking(path) as asking:
                assert asking.ask("attach", disk=f"0:4=file={four}", files=[descriptor]) == "BadDisk"
            os.close(descriptor)
        with connected(room.socket) as front:
            assert is_served(front)
            assert asks("attach", "0:4=1M", status=1)["error"]["name"] == "InUse" and asks("detach", "0:1", status=1)["error"]["name"] == "InUse"
        wait_for(lambda: not asks("stats")["return"]["front-end"], "the end of the session")
        asks("detach", "0:1")
        with FrontEnd(connected(room.socket)) as front:
            # Beyond what the disk had at first.
            front.write(5000, b"a" * 512)
            wait_for(lambda: front.answered() == 1, "a WRITE")
            assert front.status(0) == 0
    assert one.read_bytes()[5000 * 512 :][:512] == b"a" * 512
    return None


def test_control_names(room):
    """A disk that vscsi-ctl attaches has the NAA that the command line would give it, and one that is refused leaves none behind."""
    if not room.client:
        return "no libjansson-dev"
    path, image = room.folder / "control", room.folder / "a,b.img"
    own, narrow, wrong = (room.file(f"{name}.img") for name in ("own", "narrow", "wrong"))
    kept, word = room.folder / "a,b.img.naa", str(image).replace(",", ",,")

    def asks(*words, to=path, status=0):
        run = subprocess.run([room.client, to, *words], capture_output=True, text=True)
        assert run.returncode == status, (words, run.stdout, run.stderr)
        return run.stdout + run.stderr

    with room.runs("--disk", "0:0=1M", "--control", path):
        asks("attach", f"0:1=1M,file={word},grow")
        asks("attach", f"0:2=file={own},naa=5000c500a1b2c3d4")
        asks("attach", f"0:3=file={narrow},profile=narrow")
        asks("attach", "0:4=1M")
        with FrontEnd(connected(room.socket)) as front:
            told = [naa_of(page(front, number, lun, 0x83)) for number, lun in enumerate(range(5))]
            assert told == [None, kept.read_text().strip(), "5000c500a1b2c3d4", None, None] and told[1][0] == "3", told
            assert "InUse" in asks("attach", f"0:5=file={wrong}", status=1)
        wait_for(lambda: '"front-end": false' in asks("stats"), "the end of the session")
        assert "BadDisk" in asks("attach", f"0:5=512,file={wrong}", status=1) and "BadDisk" in asks("attach", f"0:4=file={wrong}", status=1)
        asks("attach", f"0:5=file={wrong}", to=room.folder / "nowhere", status=1)
        # An image that was made for a disk that is refused goes again, one that was there stays.
        fresh, empty = room.folder / "fresh.img", room.file("empty.img", 0)
        for file in (fresh, empty):
            said = asks("attach", f"0:4=1M,file={file},grow", status=1)
            assert "BadDisk" in said and said.endswith("\n") and file.exists() == (file == empty)
        assert [it.name for it in room.folder.glob("*.naa*")] == [kept.name]
        # What stands beside the image counts: no NAA, that of another disk, and that of this one.
        beside = room.folder / "wrong.img.naa"
        for text, says in (("x", "wrong.img.naa: not 16 hexadecimal digits"), (kept.read_text(), "wrong.img.naa: the NAA of another disk")):
            beside.write_text(text)
            assert says in asks("attach", f"0:5=file={wrong}", status=1) and beside.read_text() == text
        beside.write_text("3000000000000005\n")
        for lun in (5, 6):
            asks("attach", f"0:{lun}=file={wrong},snapshot")
        # So it does where no file could be made.
        long = room.file("e" * 250)
        (room.folder / f"{long.name}.naa").write_text("3000000000000008")
        asks("attach", f"0:8=file={long}")
        file = os.open(wrong, os.O_RDONLY)
        with Asking(path) as asking:
            assert asking.ask("attach", disk="0:7=1M", naa="3000000000000007") == "BadDisk"
            assert asking.ask("attach", disk="0:7=1M", naa=7) == "BadRequest"
            for more, naa in ((",naa=3000000000000006", "3000000000000007"), (",profile=narrow", "3000000000000007"), ("", "300000000000000")):
                assert asking.ask("attach", [file], disk=f"0:7=file={wrong},snapshot{more}", naa=naa) == "BadDisk", more
        os.close(file)
        with FrontEnd(connected(room.socket)) as front:
            told_then = [naa_of(page(front, number, lun, 0x83)) for number, lun in enumerate((5, 6, 8))]
            assert told_then == ["3000000000000005", None, "3000000000000008"], told_then
    # The next start has the same one.
    assert naas(room, "--disk", f"0:0=file={word}") == [told[1]]
    return None


def test_control_live(room):
    """What a guest did is counted, and its disk is resized and reset while it runs."""
    if not room.client:
        return "no libjansson-dev"
    path, disk = room.folder / "control", room.file("disk.img")
    with room.runs("--disk", f"0:0=1M,file={disk}", "--disk", "0:1=1M", "--control", path, "--quiet"), Asking(path) as asking:
        with FrontEnd(connected(room.socket)) as front:
            def writes(block, lun=0):
                """Writes a block, and gives the status: behind a change of the disk the next command tells of that."""
                before = front.answered()
                front.write(block, b"a" * 512, lun)
                wait_for(lambda: front.answered() == before + 1, "a WRITE")
                return front.status(before)

            assert writes(0) == 0 and writes(0, 1) == 0 and writes(3000) == 2
            told = asking.ask("stats")
            assert told["device"] and told["front-end"] and told["sessions"] == 1 and told["broken-queues"] == []
            first = told["disks"][0]
            assert (first["requests"], first["good"], first["check-condition"], first["data-out"]) == (2, 1, 1, 512) and first["error"] is None
            assert asking.ask("resize", disk="0:0", size=2 * MIB) == {} and disk.stat().st_size == 2 * MIB
            assert writes(3000) == 2 and writes(3000) == 0
            assert asking.ask("resize", disk="0:1", size=2 * MIB) == {} and writes(3000, 1) == 2 and writes(3000, 1) == 0
            assert asking.ask("resize", disk="0:0", size=MIB // 2) == {} and disk.stat().st_size == MIB // 2
            assert [writes(block) for block in (1023, 1024, 1023)] == [2, 2, 0]
            assert asking.ask("reset", disk="0:0") == {} and writes(0) == 2 and writes(0) == 0
        wait_for(lambda: not asking.ask("stats")["front-end"], "the end of the session")
        told = asking.ask("stats")
        assert not told["device"] and told["disks"][0]["requests"] == 9 and told["disks"][1]["requests"] == 3
    kept = disk.read_bytes()
    assert len(kept) == MIB // 2 and kept[1023 * 512 :] == b"a" * 512


def test_control_cut(room):
    """What a resize couldn't cut off a file doesn't come back where the disk grows again."""
    if not room.shim or not room.client:
        return "needs a program without sanitizers, and libjansson-dev"
    path, uncut = room.folder / "control", room.file("uncut", 1, b"\0")
    for more in ("", CACHED) if has_ring(room) else ("",):
        disk = room.file("disk.img", 2 * MIB)
        env = {**os.environ, "LD_PRELOAD": str(room.shim), "UNCUT": str(uncut)}
        with driven(room, "--disk", f"0:0=file={disk}{more}", "--control", path, ends=0, env=env) as (_, front, log), Asking(path) as asking:
            front.read(3000, 512)
            wait_for(lambda: front.answered() == 1, "a READ")  # noqa: B023
            assert not front.status(0) and front.data(0, 512) == b"\x5a" * 512
            uncut.write_bytes(b"1")
            assert asking.ask("resize", disk="0:0", size=MIB) == "File" and disk.stat().st_size == 2 * MIB
            uncut.write_bytes(b"\0")
            assert asking.ask("resize", disk="0:0", size=2 * MIB) == {}
            # The first command tells of the change.
            for _ in range(3):
                front.read(3000, 512)
            wait_for(lambda: front.answered() == 4, "the READs")  # noqa: B023
            assert front.status(1) == 2 and not front.status(3) and front.data(3, 512) == bytes(512), log.read_text()
        assert disk.read_bytes() == b"\x5a" * MIB + bytes(MIB)
        log.unlink()


def first_free(run):
    """The number of the descriptor that a process gets next."""
    taken = {int(number) for number in os.listdir(f"/proc/{run.pid}/fd")}
    return next(number for number in range(len(taken) + 1) if number not in taken)


def processor_seconds(run):
    """What a process took of processors."""
    words = Path(f"/proc/{run.pid}/stat").read_text().rpartition(")")[2].split()
    return (int(words[11]) + int(words[12])) / os.sysconf("SC_CLK_TCK")


def test_control_crowded(room):
    """Without a free descriptor the daemon takes no connection, and waits rather than turns; with one it takes those that wait."""
    if not room.client:
        return "no libjansson-dev"
    path = room.folder / "control"
    with room.runs("--disk", "0:0=1M", "--control", path) as run:
        limits = resource.prlimit(run.pid, resource.RLIMIT_NOFILE)
        resource.prlimit(run.pid, resource.RLIMIT_NOFILE, (first_free(run), limits[1]))
        with Asking(path) as asking, connected(room.socket):
            before = processor_seconds(run)
            time.sleep(1)
            assert processor_seconds(run) - before < 0.5
            resource.prlimit(run.pid, resource.RLIMIT_NOFILE, limits)
            assert asking.ask("stats")["front-end"]


def test_control_waits(room):
    """A request that waits takes no processor, whether its client sends more meanwhile or goes, and others are served behind it."""
    if not room.client:
        return "no libjansson-dev"
    path, image = room.folder / "control", room.folder / "image"
    words = ["--disk", f"0:0=16M,file={image}", "--disk", "0:1=1M", "--control", path]
    with driven(room, *words, ends=0) as (run, front, log):
        for turn, goes in enumerate((False, True)):
            limit_files(run, MIB)
            front.write(8192 + turn, b"b" * 512)
            wait_for(lambda: log.read_text().count("can't be written") == turn + 1, "a file that can't be written")  # noqa: B023
            with Asking(path) as asking:
                asking.connection.sendall(b'{"execute":"resize","arguments":{"disk":"0:1","size":%d}}\n' % ((2 + turn) * MIB))
                time.sleep(0.1)
                if goes:
                    asking.lines.close()
                    asking.connection.close()
                else:
                    asking.connection.sendall(b'{"execute":"stats"}\n')
                before = taken(run)
                time.sleep(0.4)
                assert taken(run) - before < 40_000_000, goes
                limit_files(run, resource.RLIM_INFINITY)
                wait_for(lambda: front.answered() == turn + 1, "a WRITE")  # noqa: B023
                # On a machine that stood still it waited too long.
                answers = "" if goes else asking.lines.readline() + asking.lines.readline()
                assert goes or (answers.startswith(('{"return":{}}\n', '{"error":{"name":"Busy"')) and '"version"' in answers), answers
            with Asking(path) as asking:
                assert len(asking.ask("stats")["disks"]) == 2
    return None


def test_migratable(room):
    """Of two daemons with one file each has it while its queue runs, and finds what the other one left."""
    disk, others = room.file("disk.img"), room.folder / "others"
    room.ends("--socket", room.socket, "--disk", "0:0=1M", "--migratable", status=2, says="--migratable")
    room.ends("--socket", room.socket, "--disk", f"0:0=1M,file={disk},snapshot", "--migratable", status=2, says="--migratable")
    words = ["--disk", f"0:0=1M,file={disk}", "--migratable"]
    with room.runs(*words), room.runs(*words, path=others), disk.open("rb") as file:
        assert not is_locked(file, 100 + WRITES)
        with FrontEnd(connected(room.socket)) as front, FrontEnd(connected(others)) as other:
            front.write(7, b"a" * 4096)
            wait_for(lambda: front.answered() == 1, "a WRITE")
            assert is_locked(file, 100 + WRITES)
            other.write(8, b"b" * 512)
            time.sleep(0.3)
            assert other.answered() == 0 and other.asks()
            assert front.stop() == 1 and disk.read_bytes()[7 * 512 :][:4096] == b"a" * 4096
            wait_for(lambda: other.answered() == 1, "the other one's WRITE")
            # The first one's blocks are no more those that it had.
            assert other.stop() == 1 and not is_locked(file, 100 + WRITES)
            front.start(1)
            front.read(8, 1024)
            wait_for(lambda: front.answered() == 2, "a READ")
            assert front.data(1, 1024) == b"b" * 512 + b"a" * 512
        wait_for(lambda: not is_locked(file, 100 + WRITES), "the end of the session")


def test_migratable_grow(room):
    """A file that another daemon has locked isn't made longer, and one that a start which fails had made longer is as it was."""
    disk, free, others = room.file("disk.img"), room.file("free.img"), room.folder / "others"
    words = ["--migratable", "--disk", f"0:0=2M,file={free},grow", "--disk", f"0:1=2M,file={disk},grow"]
    with room.runs("--disk", f"0:0=1M,file={disk}", "--migratable"), FrontEnd(connected(room.socket)) as front:
        front.write(0, b"a" * 512)
        wait_for(lambda: front.answered() == 1, "a WRITE")
        room.ends("--socket", others, *words, status=1, says="disk.img: in use")
        assert disk.stat().st_size == MIB and free.stat().st_size == MIB
        # The guest that has it goes on, as it is as long as it was.
        assert front.stop() == 1
        front.start(1)
        front.read(0, 512)
        wait_for(lambda: front.answered() == 2, "a READ")
        assert front.stop() == 2
        with room.runs(*words, path=others), disk.open("rb") as file:
            assert disk.stat().st_size == 2 * MIB and free.stat().st_size == 2 * MIB and not is_locked(file, 100 + WRITES)


def test_control_migratable(room):
    """With --migratable only disks that are kept on files are attached, and each is locked where the others are."""
    if not room.client:
        return "no libjansson-dev"
    path, log = room.folder / "control", room.folder / "log"
    one, two, three = room.file("one.img", 2 * MIB, b"\0"), room.file("two.img"), room.file("three.img")

    def asks(*words, status=0):
        run = subprocess.run([room.client, path, *words], capture_output=True, text=True)
        assert run.returncode == status, (words, run.stdout, run.stderr)
        return run.stdout

    with room.runs("--disk", f"0:0=2M,file={one}", "--migratable", "--control", path, "--log", log) as run, contextlib.ExitStack() as those:
        files = [those.enter_context(it.open("r+b")) for it in (one, two, three)]
        for words in ("0:1=1M", f"0:1=file={three},snapshot"):
            assert "--migratable: each disk" in asks("attach", words, status=1), words
        fcntl.flock(files[2], fcntl.LOCK_EX)
        assert "three.img: in use" in asks("attach", f"0:1=2M,file={three},grow", status=1) and three.stat().st_size == MIB
        fcntl.flock(files[2], fcntl.LOCK_UN)
        asks("attach", f"0:1=2M,file={three},grow")
        assert three.stat().st_size == 2 * MIB and not any(is_locked(file, 100 + WRITES) for file in files)
        with FrontEnd(connected(room.socket)) as front:
            limit_files(run, MIB)
            front.write(3000, b"a" * 512)
            wait_for(lambda: "can't be written" in log.read_text(), "a file that can't be written")
        wait_for(lambda: "the session is over" in log.read_text(), "the end of the session")
        # While its files are held so is one that comes, and all are let go of together.
        asks("attach", f"0:2=1M,file={two}")
        assert all(is_locked(file, 100 + WRITES) for file in files)
        limit_files(run, resource.RLIM_INFINITY)
        wait_for(lambda: not any(is_locked(file, 100 + WRITES) for file in files), "the files to be let go of")
        assert has(one, 3000 * 512, b"a" * 512)
        with FrontEnd(connected(room.socket)) as front:
            front.write(0, b"b" * 512, lun=2)
            wait_for(lambda: front.answered() == 1, "a WRITE")
    assert has(two, 0, b"b" * 512)
    return None


SHIM = r"""
#define _GNU_SOURCE
#include <errno.h>
#include <fcntl.h>
#include <stdbool.h>
#include <stdio.h>
#include <stdlib.h>
#include <sys/epoll.h>
#include <sys/mman.h>
#include <sys/stat.h>
#include <sys/syscall.h>
#include <unistd.h>

enum { AS_THE_LOG = O_WRONLY | O_APPEND | O_CREAT | O_NONBLOCK | O_NOCTTY | O_CLOEXEC };

// Does what isn't the daemon's before it waits, and reads slowly, where the environment asks for that.
int epoll_wait(int epoll, struct epoll_event *events, int most, int wait) {
  if (getenv("ADD")) _exit(100 + (open(getenv("ADD"), AS_THE_LOG, 0600) < 0 ? errno : 0));
  if (getenv("REMOVE")) _exit(100 + (unlinkat(AT_FDCWD, getenv("REMOVE"), 0) < 0 ? errno : 0));
  if (getenv("CALL")) syscall(atol(getenv("CALL")), -1, NULL, NULL, NULL, NULL);
  return (int)syscall(SYS_epoll_pwait, epoll, events, most, wait, NULL, 8);
}

int unlink(const char *path) {
  if (getenv("SLOW")) usleep(100000);
  return (int)syscall(SYS_unlinkat, AT_FDCWD, path, 0);
}

// There are no hard links, and no folder is synced, where the environment asks for that.
int link(const char *from, const char *to) {
  if (!getenv("LINKLESS")) return (int)syscall(SYS_linkat, AT_FDCWD, from, AT_FDCWD, to, 0);
  errno = EPERM;
  return -1;
}

int fsync(int fd) {
  struct stat stat;
  if (!getenv("UNSYNCED") || fstat(fd, &stat) || !S_ISDIR(stat.st_mode)) return (int)syscall(SYS_fsync, fd);
  errno = EIO;
  return -1;
}

// No file gets shorter while the first byte of a file that the environment names isn't 0.
static const volatile char *uncut;

__attribute__((constructor)) static void find_uncut(void) {
  int fd = getenv("UNCUT") ? open(getenv("UNCUT"), O_RDONLY | O_CLOEXEC) : -1;
  if (fd >= 0) uncut = mmap(NULL, 1, PROT_READ, MAP_SHARED, fd, 0);
  if (fd >= 0) close(fd);
}

int ftruncate(int fd, off_t length) {
  struct stat stat;
  bool fails = uncut && *uncut && !fstat(fd, &stat) && stat.st_size > length;
  if (!fails) return (int)syscall(SYS_ftruncate, fd, length);
  errno = EIO;
  return -1;
}

ssize_t pread(int fd, void *to, size_t count, off_t at) {
  const char *path = getenv("READS_BEHIND");
  if (path && access(path, F_OK)) {
    char waits[4096];
    snprintf(waits, sizeof waits, "%s.waits", path);
    int mark = open(waits, O_WRONLY | O_CREAT | O_CLOEXEC, 0600);
    if (mark >= 0) close(mark);
    while (access(path, F_OK)) usleep(1000);
  }
  if (getenv("SLOW")) usleep(20000);
  return syscall(SYS_pread64, fd, to, count, at);
}
"""


def make_shim(folder):
    """Builds what is loaded into the daemon that users run, to have it do what it doesn't by itself."""
    (folder / "shim.c").write_text(SHIM)
    subprocess.run(["cc", "-shared", "-fPIC", "-O1", folder / "shim.c", "-o", folder / "shim.so"], check=True)
    return folder / "shim.so"


TESTS = [it for name, it in list(globals().items()) if name.startswith("test_")]


def make_ceph(folder):
    """Builds the stand-in for the libraries of Ceph, as both of them. Gives their folder."""
    libraries = folder / "ceph"
    libraries.mkdir()
    source = DOCS.parent / "daemon/test/stand_in/ceph.c"
    for name in ("librados.so.2", "librbd.so.1"):
        words = ["-std=c11", "-Wall", "-Wextra", "-Werror", "-O1", "-fPIC", "-shared", "-pthread", "-fvisibility=hidden"]
        subprocess.run(["cc", *words, source, "-o", libraries / name], check=True)
    return libraries


def run_all(folder, program, shim=None, wanted=(), client=None, ceph=None):
    """Runs all tests, or those that are named, each in a folder of its own. Gives how many failed."""
    failed = 0
    for test in TESTS:
        name = test.__name__.removeprefix("test_").replace("_", " ")
        if wanted and name not in wanted:
            continue
        place = folder / test.__name__
        place.mkdir()
        try:
            skipped = test(Room(place, program, shim, client, ceph))
            print(f"{name}: {f'left out: {skipped}' if skipped else 'passed'}", flush=True)
        except (AssertionError, OSError, subprocess.TimeoutExpired) as fault:
            failed += 1
            lines = [str(frame.lineno) for frame in traceback.extract_tb(fault.__traceback__) if frame.filename == __file__]
            print(f"{name}: FAILED, lines {', '.join(lines[1:])}: {type(fault).__name__} {fault}", flush=True)
    return failed
