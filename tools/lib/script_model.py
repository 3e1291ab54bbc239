"""Judges what a script printed, by the disks that its printed histories make.

The scripts print, behind all else, each unit's history, each answer, and blocks. The resets and resizes of a unit come in the
order of their lines.
"""

import re
from dataclasses import dataclass
from functools import lru_cache
from itertools import islice

from disk_model import (
    BAD_FIELD, BUS_RESET, INQUIRY, INQUIRY_DATA, NEXUS_LOSS, POWER_ON, REQUEST_SENSE, Disk, NotModelled, Request, Wrong, busy,
    fixed, is_bad, is_known, need, number, runs, shown,
)

# Task management functions: those that abort, those that reset, and those that look.
ABORTS, RESETS, QUERIES = (0, 1, 3), {4: NEXUS_LOSS, 5: BUS_RESET}, (6, 7)
FAILED = 9

# Task attributes by number. Any other number is refused.
ATTRIBUTES = ("simple", "ordered", "head")

# Sense of requests that come to no unit: a task attribute that isn't known, and a unit that is absent.
BAD_ATTRIBUTE, NO_UNIT = "05/49/00", "05/25/00"

# Responses of requests that come to no unit.
OVERRUN, BAD_TARGET = 1, 3


@dataclass
class Deed:
    """A function, or what the operator does: its name, subtype or kind, unit, and identifier or blocks."""

    name: str
    kind: object
    unit: str
    number: int = 0


def bytes_of(text):
    """Returns the bytes that a word of a script says."""
    items = (item.partition("*") for item in text.split(","))
    return b"".join(bytes.fromhex(item) * int(count or 1) for item, _, count in items)


def attribute_of(word):
    """Returns the task attribute that a word of a script says: a number stands for its word, where it has one."""
    return ATTRIBUTES[int(word)] if word.isdigit() and int(word) < len(ATTRIBUTES) else word


def unit_of(word):
    """Returns a unit as the program prints it, without leading zeros."""
    return ":".join(str(int(part)) for part in word.split(":"))


def request_of(words, place):
    """Returns the request of a `send` line, the one of its queue with this number."""
    name, queue, unit, _, attribute, cdb, *rest = words[1:]
    data = dict(zip(rest[::2], rest[1::2]))
    out = bytes_of(data["out"]) if "out" in data else b""
    return Request(name, int(queue), unit_of(unit), attribute_of(attribute), bytes_of(cdb).ljust(32, b"\0"), out, int(data.get("in", 0)), place)


@lru_cache(maxsize=2)
def requests_of(script):
    """Returns the requests of a script by name, its deeds in order, and the names of each unit's identifier. Nobody changes them."""
    requests, deeds, identifiers, counts = {}, [], {}, {}
    for words in map(str.split, script.splitlines()):
        match words[:1]:
            case ["send"]:
                place = counts[int(words[2])] = counts.get(int(words[2]), -1) + 1
                request = requests[words[1]] = request_of(words, place)
                identifier = request.unit, int(words[4])
                identifiers[identifier] = (*identifiers.get(identifier, ()), request.name)
            case ["tmf"]:
                deeds.append(Deed(words[1], int(words[2]), unit_of(words[3]), int(words[4])))
            case ["hard"]:
                deeds.append(Deed("", "hard", unit_of(words[1])))
            case ["resize"]:
                deeds.append(Deed("", "resize", unit_of(words[1]), int(words[2])))
    return requests, deeds, identifiers


def disks_of(script):
    """Returns the units of a script's header, as they open."""
    found = re.findall(r"^ *unit +(\d+) +(\d+) +(\d+)( +calm)?(?: +profile +(?:narrow|wide(?: +\S+ +\S+)*))? *$", script, re.M)
    units = [(str(int(target)), str(int(lun)), blocks, calm) for target, lun, blocks, calm in found]
    luns = {target: tuple(int(lun) for its, lun, *_ in units if its == target) for target, *_ in units}
    wide = wide_units(script)
    return {f"{target}:{lun}": Disk(int(blocks), [] if calm else [POWER_ON], luns=luns[target], is_wide=f"{target}:{lun}" in wide)
            for target, lun, blocks, calm in units}


def wide_units(script):
    """Returns the units of a script's header that have the wide profile."""
    found = re.findall(r"^ *unit +(\d+) +(\d+) +\d+(?: +calm)? +profile +wide(?: +\S+ +\S+)* *$", script, re.M)
    return {f"{int(target)}:{int(lun)}" for target, lun in found}


def is_modelled(cdb):
    """Returns true if the model has a command of the wide profile."""
    return is_known(cdb, True) and cdb[0] != INQUIRY


def last_lines(printed):
    """Returns the last line of each kind that was printed: by name, by unit's history, and by range of blocks."""
    last = {}
    for line in printed.splitlines():
        if line.startswith(("history ", "blocks ")):
            head, _, rest = line.partition(": ")
            last[head.rstrip(":")] = rest
        else:
            last[line.split(" ")[0]] = line
    return last


def met_by(deed, disks):
    """Returns the units that a function or the operator comes to, by rising LUN."""
    target = deed.unit.split(":")[0] + ":"
    return [unit for unit in disks if unit == deed.unit or deed.kind == 4 and unit.startswith(target)]


def step_of(deed, identifiers):
    """Returns the step that a function or the operator leaves in a history, or nothing."""
    if deed.kind == 0:
        # An identifier that no request has meets none.
        return "abort", identifiers.get((deed.unit, deed.number), ())
    if deed.kind in ABORTS:
        return "abort", None
    if deed.kind == "resize":
        return "resize", deed.number
    if deed.kind == "hard" or deed.kind in RESETS:
        return "reset", RESETS.get(deed.kind, POWER_ON)
    return None


def steps_in_turn(script, unit, disks):
    """Yields the steps of a unit, where each line of the script is settled before the next and memory is ample."""
    requests, deeds, identifiers = requests_of(script)
    deeds = iter(deeds)
    for words in map(str.split, script.splitlines()):
        match words[:1]:
            case ["send"] if requests[words[1]].unit == unit and direct(requests[words[1]], disks) is None:
                yield from (f"{kind} {words[1]}" for kind in ("enter", "commit", "leave"))
            case ["tmf"] | ["hard"] | ["resize"]:
                deed = next(deeds)
                step = step_of(deed, identifiers)
                if step and unit in met_by(deed, disks):
                    yield step[0]


def history_of(script, unit, disks, printed):
    """Returns the steps of a unit by its printed history. Those that are folded aren't printed: they are taken to be those
    of the script's lines in turn, and the answers show whether they were."""
    steps = printed.split(", ") if printed else []
    kind, _, count = steps[0].partition(" ") if steps else ("", "", "")
    if kind != "base":
        return steps
    folded = list(islice(steps_in_turn(script, unit, disks), int(count)))
    if len(folded) < int(count):
        raise Wrong(f"{count} steps are folded where {len(folded)} were taken at most")
    return folded + steps[1:]


def absent(request):
    """Returns the line of a request for a unit that is absent, at a target that is there."""
    code, total = request.cdb[0], len(request.out) + request.room
    if code not in (INQUIRY, REQUEST_SENSE):
        return shown(request.name, total, status=2, sense=NO_UNIT)
    if is_bad(request.cdb) or code == INQUIRY and request.cdb[1] & 1:
        return shown(request.name, total, status=2, sense=BAD_FIELD)
    data = (b"\x7f" + INQUIRY_DATA[1:])[:number(request.cdb[3:5])] if code == INQUIRY else fixed(NO_UNIT)[:request.cdb[4]]
    return shown(request.name, total - len(data), data=data)


def direct(request, disks):
    """Returns the line of a request that is answered before it comes to a unit; `None` where it comes to one. The first
    reason stands."""
    if request.out and request.room:
        return shown(request.name, response=FAILED)
    if not any(unit.startswith(request.unit.split(":")[0] + ":") for unit in disks):
        return shown(request.name, response=BAD_TARGET)
    out, into = need(request.cdb, request.unit in disks and disks[request.unit].is_wide)
    if out > len(request.out) or into > request.room:
        return shown(request.name, response=OVERRUN)
    if request.attribute not in ATTRIBUTES:
        return shown(request.name, len(request.out) + request.room, status=2, sense=BAD_ATTRIBUTE)
    return None if request.unit in disks else absent(request)


def responses(deed, disks):
    """Returns what a function may be answered where memory is ample."""
    if deed.kind not in (*ABORTS, *RESETS, *QUERIES):
        return (11,)
    if not any(unit.startswith(deed.unit.split(":")[0] + ":") for unit in disks):
        return (3,)
    if deed.unit not in disks and deed.kind != 4:
        return (12,)
    return (0, 10) if deed.kind in QUERIES else (0,)


def replayed(script, last, refused, visited):
    """Returns the disks that the printed histories make, where a failed function came to this many of its units."""
    requests, deeds, identifiers = requests_of(script)
    disks = disks_of(script)
    requests = {name: request for name, request in requests.items() if direct(request, disks) is None}
    plans = {unit: [] for unit in disks}
    for deed in deeds:
        has_failed = deed.name and last.get(deed.name) == f"{deed.name} used=1 response={FAILED}"
        step = step_of(deed, identifiers)
        for unit in met_by(deed, disks)[:visited if has_failed else None] if step else ():
            plans[unit].append(step)
    for unit, disk in disks.items():
        history = last.get(f"history {unit}")
        if history is None:
            raise Wrong(f"no history of {unit}")
        disk.plan, disk.refusals = plans[unit], refused
        disk.replay(history_of(script, unit, disks, history), requests)
    return disks


def judge(script, printed, refused=0):
    """Raises `Wrong` where a printed history, answer, response or block can't be, so many growths having been refused.

    Each refused growth has one request answered BUSY, or one function failed, at most.
    """
    last = last_lines(printed)
    requests, deeds, _ = requests_of(script)
    wide = wide_units(script)
    if any(request.unit in wide and not is_modelled(request.cdb) for request in requests.values()):
        raise NotModelled("a command of the wide profile")
    functions = [deed for deed in deeds if deed.name]
    failed = [deed for deed in functions if last.get(deed.name, "").endswith(f"response={FAILED}")]
    most = max([len(met_by(deed, disks_of(script))) for deed in failed], default=1)
    for visited in range(most):
        try:
            disks = replayed(script, last, refused, visited)
            break
        except Wrong:
            if visited == most - 1:
                raise
    spent = len(failed) + sum(refused - disk.refusals for disk in disks.values())
    for name, request in requests.items():
        wanted = direct(request, disks) or disks[request.unit].lines.get(name)
        spent += wanted is None
        wanted = wanted or busy(request)
        if name in last and last[name] != wanted:
            raise Wrong(f"{last[name]!r} in place of {wanted!r}")
    if spent > refused:
        raise Wrong(f"memory was refused {spent} times in place of {refused} at most")
    for deed in functions:
        may = [f"{deed.name} used=1 response={number}" for number in (*responses(deed, disks), *([FAILED] if deed in failed else []))]
        if deed.name in last and last[deed.name] not in may:
            raise Wrong(f"{last[deed.name]!r} in place of {' or '.join(may)}")
    for head, data in last.items():
        match = re.fullmatch(r"blocks (\d+:\d+) (\d+) (\d+)", head)
        if match:
            wanted = runs(disks[match[1]].read(int(match[2]), int(match[3])))
            if data != wanted:
                raise Wrong(f"{head}: {data[:400]} in place of {wanted[:400]}")


def always_busy(requests, printed):
    """Returns what a device would print that answers BUSY to every request, in place of this: nothing ran, and blocks are zeros."""
    lines = []
    for line in printed:
        head = line.split(" ")[0]
        if head in requests:
            line = busy(requests[head])
        elif line.startswith("history "):
            line = line.replace("commit ", "busy ")
        elif line.startswith("blocks "):
            head = line.partition(":")[0] + ":" + line.partition(":")[2].partition(":")[0]
            line = f"{head}: {runs(bytes(512 * int(head.split()[3])))}"
        lines.append(line)
    return lines
