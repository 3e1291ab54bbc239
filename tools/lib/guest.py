"""A Linux guest in QEMU whose disk is the daemon's: what it boots, the daemon, and the machine, told by QMP what happens to it."""

import json
import os
import re
import shutil
import signal
import socket
import subprocess
import sys
import threading
import time
from pathlib import Path

ROOT = Path(__file__).resolve().parent.parent.parent
DAEMON = ROOT / "out/daemon/vscsi-vhost-user"
QEMU = os.environ.get("QEMU", "qemu-system-x86_64")
MODULES = ("virtio_pci", "virtio_scsi", "sd_mod", "crc32c_generic", "ext4")
PACKAGES = "qemu-system-x86 linux-image-amd64 busybox-static e2fsprogs cpio"
# A processor without these has a /dev/kvm at most in which a guest hangs.
ACCELERATOR = "kvm:tcg" if re.search(r"\b(vmx|svm)\b", Path("/proc/cpuinfo").read_text()) else "tcg"
LONGEST = 200 if ACCELERATOR != "tcg" else 900

INIT = """#!/bin/sh
mount -t proc none /proc; mount -t sysfs none /sys; mount -t devtmpfs none /dev
for module in $(cat /modules/order); do insmod /modules/$module || echo GUEST no module $module; done
word() { sed -n "s/.*$1=\\([^ ]*\\).*/\\1/p" /proc/cmdline; }
disk=/dev/$(word disk)
for i in 1 2 3 4 5 6 7 8 9 10 11 12 13 14 15 16 17 18 19 20; do [ -b $disk ] && break; sleep 1; done
cat /sys/bus/virtio/devices/virtio*/features | sed 's/^/GUEST features /'
echo GUEST queues $(ls /sys/block/sda/mq | wc -l)
if [ -n "$(word memory)" ]; then
  while [ $(sed -n 's/MemTotal: *\\([0-9]*\\) kB/\\1/p' /proc/meminfo) -lt $(word memory) ]; do sleep 0.2; done
fi
if [ -n "$(word load)" ]; then
  /bin/load $disk 8 $(word load) $(word rooms)
  poweroff -f
fi
mount -t ext4 $disk /disk || echo GUEST not mounted
if [ -f /disk/sum ]; then
  cd /disk && sha256sum -c sum && echo GUEST found
  rm /disk/data; cd /; umount /disk && echo GUEST ended
  poweroff -f
else
  cd /disk; dd if=/dev/urandom of=data bs=65536 count=64 2>/dev/null; sha256sum data > sum
  cd /; umount /disk && echo GUEST wrote
  reboot -f
fi
"""


def wanted(*programs):
    """The kernel, or an end that says what to install."""
    kernels = sorted(Path("/boot").glob("vmlinuz-*"))
    lacks = [name for name in (QEMU, "busybox", "mkfs.ext4", "e2fsck", "cpio", *programs) if not shutil.which(name)]
    if lacks or not kernels:
        sys.exit(f"{Path(sys.argv[0]).name}: wants {', '.join(lacks) or 'a kernel'}: apt-get install {PACKAGES}")
    if not DAEMON.is_file():
        sys.exit(f"{Path(sys.argv[0]).name}: wants the daemon: tools/build/daemon")
    return kernels[-1]


def moves_running():
    """Whether a guest may run while it is moved. Without KVM QEMU 7.2 loses pages that its processors write, whatever the disk; 10.0 lost none."""
    said = subprocess.run([QEMU, "--version"], capture_output=True, text=True, check=True).stdout
    return ACCELERATOR != "tcg" or int(re.search(r"version (\d+)", said)[1]) >= 10


def ordered(folder):
    """The files of the modules, each behind those that it needs."""
    needs = {}
    for line in (folder / "modules.dep").read_text().splitlines():
        name, _, rest = line.partition(":")
        needs[name] = rest.split()
    by_name = {re.sub(r"\.ko.*", "", Path(name).name).replace("-", "_"): name for name in needs}
    order = []
    for module in MODULES:
        if module in by_name:
            for name in [*reversed(needs[by_name[module]]), by_name[module]]:
                if name not in order:
                    order.append(name)
    return order


def initramfs(kernel, room):
    """Packs a file system of busybox, the modules, INIT and the load (guest_load.c)."""
    tree = room / "tree"
    for name in ("bin", "proc", "sys", "dev", "disk", "modules"):
        (tree / name).mkdir(parents=True)
    shutil.copy(shutil.which("busybox"), tree / "bin/busybox")
    names = subprocess.run([tree / "bin/busybox", "--list"], capture_output=True, text=True, check=True).stdout.split()
    for name in names:
        if name != "busybox":
            (tree / "bin" / name).symlink_to("busybox")
    subprocess.run(["cc", "-static", "-O2", ROOT / "tools/lib/guest_load.c", "-o", tree / "bin/load"], check=True)
    folder = Path("/lib/modules") / kernel.name.removeprefix("vmlinuz-")
    files = ordered(folder)
    for name in files:
        shutil.copy(folder / name, tree / "modules")
    (tree / "modules/order").write_text("\n".join(Path(name).name for name in files) + "\n")
    (tree / "init").write_text(INIT)
    (tree / "init").chmod(0o755)
    packed = room / "initramfs"
    with packed.open("wb") as file:
        listed = subprocess.run(["find", "."], cwd=tree, capture_output=True, check=True).stdout
        subprocess.run(["cpio", "-o", "-H", "newc", "--quiet"], cwd=tree, input=listed, stdout=file, check=True)
    return packed


def image(path, mebibytes, file_system=False):
    """Makes a file of zeros, or of a file system."""
    path.write_bytes(b"")
    with path.open("r+b") as file:
        file.truncate(mebibytes << 20)
    if file_system:
        subprocess.run(["mkfs.ext4", "-q", "-F", path], check=True)
    return path


class Daemon:
    """The daemon over some disks."""

    def __init__(self, socket_path, *words):
        self.words, self.socket_path, self.told = [DAEMON, "--socket", socket_path, *words], Path(socket_path), ""
        self.start()

    def start(self):
        self.run = subprocess.Popen(self.words, stderr=subprocess.PIPE, text=True)
        while self.run.poll() is None and not self.listens():
            time.sleep(0.02)

    def listens(self):
        """Whether it listens, by the table of sockets: a connection would be a front end's."""
        lines = Path("/proc/net/unix").read_text(errors="replace").splitlines()
        return any(line.endswith(f" {self.socket_path}") and line.split()[3] == "00010000" for line in lines)

    def end(self, by=signal.SIGTERM):
        """Ends it, and gives its status."""
        self.run.send_signal(by)
        self.told += self.run.communicate(timeout=60)[1]
        return self.run.returncode


class Machine:
    """A virtual machine, and what its console and QEMU said."""

    def __init__(self, room, name, socket_path, form, queues, memory, *words):
        device = f"vhost-user-scsi-pci,chardev=c,num_queues={queues},disable-legacy=on" + (",packed=on" if form == "packed" else "")
        self.control = room / f"{name}.qmp"
        started = [QEMU, "-M", f"pc,accel={ACCELERATOR},memory-backend=memory", "-smp", str(queues), "-nodefaults", "-display", "none"]
        started += ["-object", f"memory-backend-memfd,id=memory,size={memory}M,share=on", "-chardev", f"socket,id=c,path={socket_path}"]
        started += ["-device", device, "-serial", "stdio", "-qmp", f"unix:{self.control},server=on,wait=off", *map(str, words)]
        if "-m" not in words:
            started += ["-m", str(memory)]
        self.run = subprocess.Popen(started, stdin=subprocess.DEVNULL, stdout=subprocess.PIPE, stderr=subprocess.STDOUT, text=True, errors="replace")
        self.said, self.qmp = "", None
        self.reader = threading.Thread(target=self.read, daemon=True)
        self.reader.start()

    def read(self):
        for line in self.run.stdout:
            self.said += line

    def wait_for(self, text, count=1, seconds=LONGEST):
        """Waits until the console has said something so many times."""
        until = time.time() + seconds
        while self.said.count(text) < count and self.run.poll() is None and time.time() < until:
            time.sleep(0.05)
        return self.said.count(text) >= count

    def command(self, name, **arguments):
        """Runs a command of QMP, and gives what it returns."""
        if not self.qmp:
            self.qmp = socket.socket(socket.AF_UNIX)
            self.qmp.settimeout(60)
            self.qmp.connect(str(self.control))
            self.lines = self.qmp.makefile("r")
            self.lines.readline()
            self.command("qmp_capabilities")
        self.qmp.sendall(json.dumps({"execute": name, "arguments": arguments}).encode() + b"\n")
        while True:
            answer = json.loads(self.lines.readline())
            if "error" in answer:
                raise RuntimeError(f"{name}: {answer['error']['desc']}")
            if "return" in answer:
                return answer["return"]

    def end(self, seconds=LONGEST):
        """Waits until the machine is off, and gives QEMU's status."""
        try:
            status = self.run.wait(seconds)
        except subprocess.TimeoutExpired:
            self.run.kill()
            self.run.wait()
            status = "late"
        self.reader.join(10)
        return status
