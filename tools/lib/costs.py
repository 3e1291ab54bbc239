"""What the steps of a run cost: the processors' time of each check that a run starts, by sampling.

`with Costs() as costs:` samples all processes below this one until the block ends; the total is the
system's own count of what they used.
"""

import os
import resource
import threading
import time
from pathlib import Path

import crate_list

# How often the processes are looked at, in seconds. What a process uses after the last look is in no step.
EVERY = 0.5

TICKS = os.sysconf("SC_CLK_TCK")

ROOT = Path(__file__).resolve().parent.parent.parent

# The steps of a crate, as `rt ci` takes them, and what they may cost on one core of a quiet machine, in seconds.
BUDGET = {"proof": 480, "tests": 240, "edits": 120}

# What proofs took on a quiet machine, in seconds of one core, in a run of 84.3 core-minutes on four cores; none of these
# crates has grown since. A machine that is slower, or has other work on it, has been seen to take three times as long.
QUIET = {
    "foundation": 10,
    "scsi_codec": 34,
    "request_intake": 44,
    "event_queue": 22,
}


def processes():
    """Of each process: its parent, what it used so far in seconds, its words and its folder."""
    found = {}
    for folder in Path("/proc").iterdir():
        if not folder.name.isdigit():
            continue
        try:
            fields = (folder / "stat").read_text().rpartition(")")[2].split()
            words = (folder / "cmdline").read_bytes().decode(errors="replace").split("\0")
            place = os.readlink(folder / "cwd")
        except OSError:
            continue
        found[int(folder.name)] = int(fields[1]), (int(fields[11]) + int(fields[12])) / TICKS, words, place
    return found


def step_of(words, place):
    """The step that a process belongs to, by its words and its folder: a crate and a kind."""
    for tool, name in (("play_tests", "scripts"), ("hostile", "hostile"), ("serve_many", "serving")):
        if any(tool in word for word in words[:2]):
            return name, "tests"
    if not words[0].endswith("/rattle") or "--crate-name" not in words:
        return None
    name = words[words.index("--crate-name") + 1]
    if "/vscsi-edit-" in place:
        return "picked", "edits"
    if "/rt-edit-" in place:
        return name, "edits"
    return name, "tests" if "--test" in words else "proof"


def cores():
    """How many processors this run may use."""
    return len(os.sched_getaffinity(0))


def stolen():
    """How many seconds these were taken away by what else runs on the machine under this one, since it was started."""
    lines = [line.split() for line in Path("/proc/stat").read_text().splitlines()]
    used = {f"cpu{number}" for number in os.sched_getaffinity(0)}
    return sum(int(line[8]) for line in lines if line[0] in used and len(line) > 8) / TICKS


class Costs:
    """What a block of work costs, step by step."""

    def __init__(self):
        self.used, self.done = {}, threading.Event()

    def __enter__(self):
        self.began, self.before = time.monotonic(), stolen()
        self.sampler = threading.Thread(target=self.sample, daemon=True)
        self.sampler.start()
        return self

    def __exit__(self, *_):
        self.done.set()
        self.sampler.join()
        self.wall, self.stolen = time.monotonic() - self.began, stolen() - self.before
        spent = resource.getrusage(resource.RUSAGE_CHILDREN)
        self.total = spent.ru_utime + spent.ru_stime

    def sample(self):
        """Looks at the processes until the work is done."""
        while not self.done.wait(EVERY):
            found = processes()
            for pid, (_, used, _, _) in found.items():
                step, above = None, pid
                while above in found and above != os.getpid():
                    step = step or step_of(*found[above][2:])
                    above = found[above][0]
                if above == os.getpid() and step:
                    self.used[pid, step] = used

    def steps(self):
        """The seconds of each step."""
        steps = {}
        for (_, step), used in self.used.items():
            steps[step] = steps.get(step, 0) + used
        return steps

    def slowness(self):
        """How many times as long as on a quiet machine the proofs of `QUIET` took; 1 where none was run."""
        steps = self.steps()
        proved = [name for name in QUIET if (name, "proof") in steps]
        return sum(steps[name, "proof"] for name in proved) / sum(QUIET[name] for name in proved) if proved else 1

    def longest_chain(self):
        """The seconds of the longest chain of steps that wait for one another, on one core each."""
        steps, ends, longest = self.steps(), {}, (0, "")
        for name, below in crates():
            begin = max((ends.get(it, 0) for it in below), default=0)
            ends[name] = begin + steps.get((name, "proof"), 0)
            whole = max(ends[name], begin + steps.get((name, "tests"), 0)) + steps.get((name, "edits"), 0)
            longest = max(longest, (whole, name))
        return longest

    def over(self):
        """The steps that would be over their budget on a quiet machine."""
        names, slowness = {name for name, _ in crates()}, self.slowness()
        return sorted(
            f"{name}'s {kind} would take {used / slowness:.0f} s of {BUDGET[kind]} on a quiet machine"
            for (name, kind), used in self.steps().items()
            if name in names and used > BUDGET[kind] * slowness
        )

    def time(self):
        """What the whole took."""
        taken = 100 * self.stolen / (self.wall * cores())
        return f"{self.wall / 60:.1f} minutes on {cores()} cores, of which {taken:.0f} % were taken away, {self.total / 60:.1f} core-minutes"

    def quiet(self):
        """What the whole would have taken on a quiet machine."""
        slowness = self.slowness()
        chain, _ = self.longest_chain()
        return (
            f"{slowness:.2f} times what a quiet machine takes, by {len(QUIET)} proofs:"
            f" there {self.total / slowness / 60:.1f} core-minutes, and {chain / slowness / 60:.1f} minutes the longest chain"
        )

    def summary(self):
        """The lines that the gate prints."""
        dearest = sorted(self.steps().items(), key=lambda it: -it[1])[:5]
        chain, last = self.longest_chain()
        lines = [
            f"time: {self.time()}",
            f"longest chain: {chain / 60:.1f} minutes, to {last}",
            f"this is {self.quiet()}",
            "dearest steps: " + ", ".join(f"{name} {kind} {used:.0f} s" for (name, kind), used in dearest),
            *(f"over budget: {line}" for line in self.over()),
        ]
        return "\n".join(lines)

    def table(self):
        """A table of all steps, in Markdown."""
        steps = self.steps()
        lines = ["| Crate | Proof | Tests | Edits |", "|---|---|---|---|"]
        for name, _ in crates():
            row = [steps.get((name, kind)) for kind in BUDGET]
            lines.append(f"| `{name}` | " + " | ".join("none" if it is None else f"{it:.0f}" for it in row) + " |")
        chain, last = self.longest_chain()
        lines += [
            "",
            f"The whole took {self.time()};",
            f"the longest chain of steps that wait for one another, to `{last}`, {chain / 60:.1f} minutes of one core.",
            f"That is {self.quiet()}.",
        ]
        return "\n".join(lines) + "\n"


def crates():
    """The crates with the crates of this repository below each, lowest first."""
    below, order = crate_list.below(), []

    def place(name):
        for it in below[name]:
            place(it)
        if name not in order:
            order.append(name)

    for name in below:
        place(name)
    return [(name, below[name]) for name in order]
