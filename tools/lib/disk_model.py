"""What a disk is, by the steps of its history: its tasks, its blocks, what it has pending, and each reply. It is
written from the standards alone, to judge what a program prints."""

import re
from dataclasses import dataclass, field
from functools import lru_cache

BLOCK = 512

# What a block has that was never written.
ZEROS = bytes(BLOCK)

# The most tasks of a task set.
TASKS = 64

# Sense: key, additional sense code and qualifier.
POWER_ON, BUS_RESET, NEXUS_LOSS, RESIZED = "06/29/00", "06/29/03", "06/29/07", "06/2a/09"
OUT_OF_RANGE, MISCOMPARE, UNKNOWN, BAD_FIELD = "05/21/00", "0e/1d/00", "05/20/00", "05/24/00"
BAD_LENGTH, BAD_LIST = "05/1a/00", "05/26/00"

INQUIRY_DATA = bytes.fromhex("000006021f000002") + b"VSCSI   TASK SET DISK   0001"

# Commands that no attention meets (SAM-5 §5.14): INQUIRY, REPORT LUNS and REQUEST SENSE.
INQUIRY, REPORT_LUNS, REQUEST_SENSE = 0x12, 0xa0, 0x03

# Commands that name a range of blocks, by what they do with it (SBC-3 §5).
READ, WRITE, SYNCHRONIZE, WRITE_SAME, COMPARE = (0x08, 0x28, 0xa8, 0x88), (0x0a, 0x2a, 0xaa, 0x8a), (0x35, 0x91), (0x41, 0x93), (0x89,)
OR_WRITE = (0x8b,)
RANGED = (*READ, *WRITE, *SYNCHRONIZE, *WRITE_SAME, *COMPARE)
TEST_UNIT_READY, UNMAP, CAPACITY_10, CAPACITY_16 = 0x00, 0x42, 0x25, 0x9e
KNOWN = (*RANGED, INQUIRY, REPORT_LUNS, REQUEST_SENSE, TEST_UNIT_READY, UNMAP, CAPACITY_10, CAPACITY_16)

# Those besides of the wide profile that this model has.
FORMAT_UNIT, DEFECTS_10, DEFECTS_12 = 0x04, 0x37, 0xb7
DEFECTS = (DEFECTS_10, DEFECTS_12)
WIDE = (*OR_WRITE, FORMAT_UNIT, *DEFECTS)

# The service actions of opcode 9e, of which the narrow profile has the first.
READ_CAPACITY, LBA_STATUS = 0x10, 0x12

# Where the control byte stands, by an opcode's group; its bit 2 is NACA (SAM-5 §5.2).
CONTROL, NACA = {0: 5, 1: 9, 2: 9, 4: 15, 5: 11}, 4

# The pages of INQUIRY that are there.
PAGES = (0x00, 0x80, 0x83, 0xb0, 0xb2)

# The most blocks of a READ or a WRITE, of a COMPARE AND WRITE, of a WRITE SAME and of an UNMAP; the most ranges of an UNMAP.
MOST, MOST_COMPARED, MOST_SAME, MOST_RANGES = 2048, 64, 65536, 16


def number(field):
    """Returns a number of a command block, or of the data that go with it."""
    return int.from_bytes(field, "big")


def range_of(cdb):
    """Returns the first block and the number of blocks that a command block names."""
    if cdb[0] in COMPARE:
        return number(cdb[2:10]), cdb[13]
    group = cdb[0] >> 5
    if group == 0:
        return number(cdb[1:4]) & 0x1fffff, cdb[4] or 256
    if group == 4:
        return number(cdb[2:10]), number(cdb[10:14])
    return number(cdb[2:6]), number(cdb[6:10] if group == 5 else cdb[7:9])


def is_known(cdb, is_wide):
    """Returns true if a unit knows a command, whatever its fields."""
    return cdb[0] in KNOWN or is_wide and cdb[0] in WIDE


def has_no_data_out(cdb):
    """Returns true if a command is a WRITE SAME (16) with NDOB (SBC-3 §5.44)."""
    return cdb[0] == 0x93 and bool(cdb[1] & 1)


def defects_asked(cdb):
    """Returns REQ_PLIST, REQ_GLIST and DEFECT LIST FORMAT of a READ DEFECT DATA (SBC-3 §5.17, §5.18)."""
    return cdb[2 if cdb[0] == DEFECTS_10 else 1] & 0x1f


def is_bad(cdb, is_wide=False):
    """Returns true if the fields of a known command block are refused."""
    code = cdb[0]
    if cdb[CONTROL[code >> 5]] & NACA:
        return True
    if code == INQUIRY:
        return cdb[2] not in (PAGES if cdb[1] & 1 else (0,))
    if code == REPORT_LUNS:
        return cdb[2] > 2
    if code == CAPACITY_16:
        return cdb[1] & 0x1f not in ((READ_CAPACITY, LBA_STATUS) if is_wide else (READ_CAPACITY,))
    if code in (REQUEST_SENSE, UNMAP):
        return bool(cdb[1] & 1)
    if code == FORMAT_UNIT:
        return bool(cdb[1] & 0xc7)
    if code in DEFECTS:
        return defects_asked(cdb) & 7 > 5
    if code in WRITE_SAME:
        return bool(cdb[1] & (0xf7 if code == 0x93 and not is_wide else 0xf6)) or not 0 < range_of(cdb)[1] <= MOST_SAME
    if code in (0x08, 0x0a) or code not in (*READ, *WRITE, *COMPARE, *OR_WRITE):
        return False
    return bool(cdb[1] >> 5) or range_of(cdb)[1] > (MOST_COMPARED if code in COMPARE else MOST)


def need(cdb, is_wide=False):
    """Returns how many bytes a command needs that go out, and that come in. One that is unknown or refused needs none."""
    code = cdb[0]
    if not is_known(cdb, is_wide) or is_bad(cdb, is_wide) or has_no_data_out(cdb):
        return 0, 0
    if code == FORMAT_UNIT:
        return (8 if cdb[1] & 0x20 else 4) if cdb[1] & 0x10 else 0, 0
    if code in (*READ, *WRITE, *COMPARE, *OR_WRITE):
        size = BLOCK * range_of(cdb)[1]
        return (0, size) if code in READ else (2 * size, 0) if code in COMPARE else (size, 0)
    out = BLOCK if code in WRITE_SAME else number(cdb[7:9]) if code == UNMAP else 0
    allocations = {INQUIRY: cdb[3:5], REQUEST_SENSE: cdb[4:5], REPORT_LUNS: cdb[6:10], CAPACITY_16: cdb[10:14], CAPACITY_10: b"\x08",
                   DEFECTS_10: cdb[7:9], DEFECTS_12: cdb[6:10]}
    return out, number(allocations.get(code, b""))


def fixed(sense):
    """Returns the 18 bytes of fixed-format sense (SPC-4 §4.5.3)."""
    key, code, qualifier = bytes.fromhex(sense.replace("/", ""))
    return bytes((0x70, 0, key, 0, 0, 0, 0, 10, 0, 0, 0, 0, code, qualifier, 0, 0, 0, 0))


class Wrong(Exception):
    """What was printed can't be."""


class NotModelled(Wrong):
    """What was printed can't be judged: this model doesn't have it."""


@dataclass
class Request:
    """A request as a guest sends it."""

    name: str
    queue: int
    unit: str
    attribute: str
    cdb: bytes
    out: bytes = b""
    room: int = 0
    # Which of its queue's requests it is; -1 where its name says so behind a letter.
    place: int = -1


@dataclass
class Task:
    """A task that is alive."""

    request: Request
    is_enabled: bool = False
    is_done: bool = False
    mark: str = ""


@lru_cache(maxsize=4)
def runs(data):
    """Bytes as they are printed: maximal runs of equal ones."""
    parts = (match[0] for match in re.finditer(rb"(?s)(.)\1*", data))
    return ",".join(f"{part[0]:02x}" if len(part) == 1 else f"{part[0]:02x}*{len(part)}" for part in parts) or "-"


def shown(name, residual=0, response=0, status=0, sense="-", data=b""):
    """The line that tells of an answer."""
    length = 0 if sense == "-" else 18
    return (f"{name} used={108 + len(data)} response={response} status={status:02x} sense_len={length} "
            f"residual={residual} sense={sense} data={runs(data)}")


def busy(request):
    """The line of a request that was answered BUSY (SAM-5 §5.3.1)."""
    return shown(request.name, len(request.out) + request.room, status=8)


@dataclass
class Disk:
    """A disk, and what its history did so far."""

    capacity: int
    pending: list
    # The blocks that were written, by number.
    blocks: dict = field(default_factory=dict)
    tasks: dict = field(default_factory=dict)
    lines: dict = field(default_factory=dict)
    last: dict = field(default_factory=dict)
    # Where in the history each request entered or was refused, where it ran, and where it left; and of each
    # function's step where it is, which it is, and the tasks that were alive there.
    came: dict = field(default_factory=dict)
    ran: dict = field(default_factory=dict)
    left: dict = field(default_factory=dict)
    functions: list = field(default_factory=list)
    # The steps of functions and of the operator that have to come, in order, if they are known: an `abort` with the requests
    # that it is for, `None` where it is for all; a `reset` with its attention; a `resize` with its blocks.
    plan: list = None
    # How many times it may still be refused memory.
    refusals: int = 0
    # The LUNs of its target's units.
    luns: tuple = (0,)
    # Whether it has the wide profile of commands.
    is_wide: bool = False

    def read(self, first, count):
        """Returns what stands in blocks."""
        return b"".join(self.blocks.get(place, ZEROS) for place in range(first, first + count))

    def write(self, first, data):
        """Puts data into blocks."""
        for at in range(0, len(data), BLOCK):
            self.blocks[first + at // BLOCK] = data[at:at + BLOCK]

    def comes(self, request, at):
        """A request enters or is refused: each once, those of one queue in order."""
        place = request.place if request.place >= 0 else int(request.name[1:])
        if self.last.get(request.queue, -1) >= place:
            raise Wrong(f"{request.name} came twice, or behind a later one of its queue")
        self.last[request.queue] = place
        self.came[request.name] = at

    def enable(self):
        """Finds the tasks that nothing blocks now (SAM-5 §8.9)."""
        head = any(task.request.attribute == "head" for task in self.tasks.values())
        ordered = older = False
        for task in self.tasks.values():
            attribute = task.request.attribute
            blocked = {"head": False, "simple": head or ordered, "ordered": head or older}[attribute]
            task.is_enabled = task.is_enabled or not blocked
            ordered, older = ordered or attribute == "ordered", True

    def enter(self, request, at):
        """A request enters the task set."""
        if len(self.tasks) >= TASKS:
            raise Wrong(f"{request.name} entered a full task set")
        self.comes(request, at)
        self.tasks[request.name] = Task(request)
        self.enable()

    def full(self, request, at):
        """A request is refused: the task set is full."""
        if len(self.tasks) != TASKS:
            raise Wrong(f"{request.name} was refused with {len(self.tasks)} tasks")
        self.comes(request, at)
        self.lines[request.name] = shown(request.name, len(request.out) + request.room, status=0x28)

    def commit(self, request, at):
        """A command runs whole."""
        task = self.tasks.get(request.name)
        if not task or not task.is_enabled or task.is_done or task.mark:
            raise Wrong(f"{request.name} ran where it may not: {task}")
        task.is_done = True
        self.ran[request.name] = at
        self.lines[request.name] = self.answer(request)

    def busy(self, request, at):
        """A command was refused memory: nothing changed."""
        task = self.tasks.get(request.name)
        if not task or not task.is_enabled or task.is_done or task.mark:
            raise Wrong(f"{request.name} was refused memory where it doesn't run: {task}")
        self.refusals -= 1
        if self.refusals < 0:
            raise Wrong(f"{request.name} was refused memory, which was there")
        task.is_done = True
        self.lines[request.name] = busy(request)

    def leave(self, request, at):
        """A task leaves: it ran, was refused memory, or was marked."""
        task = self.tasks.pop(request.name, None)
        if not task or not (task.is_done or task.mark):
            raise Wrong(f"{request.name} left where it may not")
        if not task.is_done:
            self.lines[request.name] = shown(request.name, response={"abort": 2, "reset": 4}[task.mark])
        self.left[request.name] = at
        self.enable()

    def planned(self, kind):
        """Takes the next planned step, which has to be of this kind."""
        its, what = self.plan.pop(0) if self.plan else ("none", None)
        if its != kind:
            raise Wrong(f"a step {kind!r} where {its!r} was to come")
        return what

    def raised(self, sense):
        """An attention waits behind those that do, once."""
        if sense not in self.pending:
            self.pending.append(sense)

    def mark(self, kind, at):
        """Tasks that haven't run are aborted, or the unit is reset."""
        self.functions.append((at, kind, list(self.tasks)))
        what = BUS_RESET if self.plan is None and kind == "reset" else None if self.plan is None else self.planned(kind)
        for name, task in self.tasks.items():
            is_met = kind == "reset" or what is None or name in what
            task.mark = task.mark or (kind if is_met and not task.is_done else "")
        if kind == "reset":
            self.raised(what)

    def resize(self):
        """The unit has another number of blocks: those behind its end are lost, and it has an attention."""
        self.capacity = self.planned("resize")
        self.blocks = {place: data for place, data in self.blocks.items() if place < self.capacity}
        self.raised(RESIZED)

    def answer(self, request):
        """The line of a command that runs now."""
        cdb, total = request.cdb, len(request.out) + request.room
        if cdb[0] not in (INQUIRY, REPORT_LUNS, REQUEST_SENSE) and self.pending:
            return shown(request.name, total, status=2, sense=self.pending.pop(0))
        sense, data, moved = self.execute(cdb, request.out)
        if sense:
            return shown(request.name, total, status=2, sense=sense)
        return shown(request.name, total - moved - len(data), data=data)

    def execute(self, cdb, out):
        """What a command does to the blocks: its sense if any, its data, and how many bytes it took (SBC-3 §5)."""
        code = cdb[0]
        if not is_known(cdb, self.is_wide) or is_bad(cdb, self.is_wide):
            return BAD_FIELD if is_known(cdb, self.is_wide) else UNKNOWN, b"", 0
        if code in (*RANGED, *OR_WRITE):
            return self.execute_range(cdb, out)
        if code == TEST_UNIT_READY:
            return "", b"", 0
        if code == UNMAP:
            return self.unmap(cdb, out)
        if code == FORMAT_UNIT:
            return self.format(out[:need(cdb, True)[0]])
        if code in DEFECTS:
            return "", bytes((0, defects_asked(cdb))).ljust(4 if code == DEFECTS_10 else 8, b"\0")[:need(cdb, True)[1]], 0
        if code == INQUIRY:
            if cdb[1] & 1:
                raise NotModelled("a page of INQUIRY")
            return "", INQUIRY_DATA[:number(cdb[3:5])], 0
        if code == REQUEST_SENSE:
            return "", fixed(self.pending.pop(0) if self.pending else "00/00/00")[:cdb[4]], 0
        if code == REPORT_LUNS:
            luns = b"" if cdb[2] == 1 else b"".join(bytes((0x40 + (lun >> 8) if lun > 255 else 0, lun & 255)).ljust(8, b"\0") for lun in self.luns)
            return "", (len(luns).to_bytes(4, "big") + bytes(4) + luns)[:number(cdb[6:10])], 0
        if code == CAPACITY_10:
            return "", min(self.capacity - 1, 2**32 - 1).to_bytes(4, "big") + BLOCK.to_bytes(4, "big"), 0
        if cdb[1] & 0x1f == LBA_STATUS:
            return self.block_status(number(cdb[2:10]), number(cdb[10:14]))
        whole = (self.capacity - 1).to_bytes(8, "big") + BLOCK.to_bytes(4, "big") + bytes((0, 0, 0xc0)) + bytes(17)
        return "", whole[:number(cdb[10:14])], 0

    def execute_range(self, cdb, out):
        """What a command does that names a range of blocks."""
        code = cdb[0]
        lba, count = range_of(cdb)
        if lba + count > self.capacity:
            return OUT_OF_RANGE, b"", 0
        if code in READ:
            return "", self.read(lba, count), 0
        if code in SYNCHRONIZE:
            return "", b"", 0
        if code in WRITE_SAME:
            data = b"" if has_no_data_out(cdb) else out[:BLOCK]
            self.blocks.update(dict.fromkeys(range(lba, lba + count), data or ZEROS))
            return "", b"", len(data)
        half = BLOCK * count
        if code in WRITE:
            self.write(lba, out[:half])
            return "", b"", half
        old = self.read(lba, count)
        if code in OR_WRITE:
            self.write(lba, bytes(byte | new for byte, new in zip(old, out)))
            return "", b"", half
        unequal = next((at for at in range(half) if old[at] != out[at]), None)
        if unequal is not None:
            return f"{MISCOMPARE}@{unequal}", b"", 0
        self.write(lba, out[half:2 * half])
        return "", b"", 2 * half

    def block_status(self, lba, allocation):
        """GET LBA STATUS: blocks of zeros are deallocated, others mapped (SBC-3 §5.4)."""
        if lba >= self.capacity:
            return OUT_OF_RANGE, b"", 0
        places = range(lba, min(lba + MOST, self.capacity))
        first = self.blocks.get(lba, ZEROS) == ZEROS
        count = next((place - lba for place in places if (self.blocks.get(place, ZEROS) == ZEROS) != first), len(places))
        data = b"\0\0\0\x14" + bytes(4) + lba.to_bytes(8, "big") + count.to_bytes(4, "big") + bytes((first, 0, 0, 0))
        return "", data[:allocation], 0

    def format(self, header):
        """FORMAT UNIT: of the parameter list FOV and IMMED alone are taken (SBC-3 §5.3.2)."""
        if header and (header[0] & 7 or header[1] & 0x7d or any(header[2:4] if len(header) == 4 else header[3:])):
            return BAD_LIST, b"", 0
        self.blocks.clear()
        return "", b"", len(header)

    def unmap(self, cdb, out):
        """UNMAP: all ranges are looked at before any is zeroed."""
        size = number(cdb[7:9])
        if size < 8:
            return BAD_LENGTH if size else "", b"", 0
        listed = min(number(out[2:4]), size - 8) // 16
        ranges = [(number(out[at:at + 8]), number(out[at + 8:at + 12])) for at in range(8, 8 + 16 * listed, 16)]
        if listed > MOST_RANGES or sum(count for _, count in ranges) > MOST_SAME:
            return BAD_LIST, b"", 0
        if any(lba + count > self.capacity for lba, count in ranges):
            return OUT_OF_RANGE, b"", 0
        for lba, count in ranges:
            for place in range(lba, lba + count):
                self.blocks.pop(place, None)
        return "", b"", size

    def replay(self, steps, requests):
        """Takes all steps of a printed history."""
        kinds = {"enter": self.enter, "full": self.full, "commit": self.commit, "busy": self.busy, "leave": self.leave}
        for at, step in enumerate(steps):
            kind, _, name = step.partition(" ")
            if kind in ("abort", "reset") and not name:
                self.mark(kind, at)
            elif step == "resize":
                self.resize()
            elif kind in kinds and name in requests:
                kinds[kind](requests[name], at)
            else:
                raise Wrong(f"a step {step!r}")
        if self.tasks:
            raise Wrong(f"{', '.join(self.tasks)} never left")
        if self.plan:
            raise Wrong(f"{self.plan[0][0]} never came")
