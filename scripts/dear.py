#!/usr/bin/env python3
"""dear.py [FLAG ..]: in the folder of a crate, `rt check --progress --jobs 1 FLAG ..`, and behind it the proofs by the
seconds of processor time that each took, the dearest first. So figures compare however busy the machine is. A function
whose proof an earlier check kept has no line; the first one has what comes before all proofs in its time. `rm -r out`
before has all of them proved anew.

dear.py --watch TOP [COUNT]: looks on while `rt ci`, or another command of rt, proves crates of the checkout TOP, and when
none has been at work for two minutes, or it is interrupted, says the COUNT dearest of all crates, 40 by default. A prover
that works in one thread writes a file for each part that it has checked; what it was charged since the file before is that
part's time. `ring of f` is what functions that call one another, `f` among them, have in common: their proof, which is one (`ring
of dropped`: how values of types within themselves are dropped). A file of specs/ or proofs/ has a line of its own. Provers of
edits are not looked at. It runs on Linux."""
import bisect
import collections
import os
import re
import signal
import subprocess
import sys
import tempfile
import time

TICKS = os.sysconf("SC_CLK_TCK")


def spent(root):
    """The processor time of a process and of all below it, those that have ended too, in seconds."""
    parents, times = {}, {}
    for name in os.listdir("/proc"):
        try:
            with open(f"/proc/{int(name)}/stat") as it:
                fields = it.read().rpartition(") ")[2].split()
        except (OSError, ValueError):
            continue
        parents[int(name)] = int(fields[1])
        times[int(name)] = sum(map(int, fields[11:15]))
    below = {root}
    while True:
        more = {it for it, parent in parents.items() if parent in below} - below
        if not more:
            return sum(times.get(it, 0) for it in below) / TICKS
        below |= more


def check(flags):
    """Checks the crate of this folder, and says what each proof took."""
    command = ["rt", "check", "--progress", "--jobs", "1", *flags]
    run = subprocess.Popen(command, stdout=subprocess.PIPE, text=True, env={**os.environ, "PYTHONUNBUFFERED": "1"})
    proofs, before = [], 0.0
    for line in run.stdout:
        print(line, end="", flush=True)
        if line.startswith("checked "):
            now = spent(run.pid)
            proofs.append((now - before, line.split()[1].rstrip(",")))
            before = now
    for seconds, name in sorted(proofs, reverse=True):
        print(f"{seconds:8.1f} {name}")
    return run.wait()


class Prover:
    """A prover that was seen at work: what it was charged at some moments, and when it wrote which files."""

    def __init__(self, pid, crate):
        self.pid, self.crate, self.moments, self.files, self.works = pid, crate, [], {}, True

    def look(self):
        """Looks at it once more."""
        try:
            with open(f"/proc/{self.pid}/stat") as it:
                fields = it.read().rpartition(") ")[2].split()
            self.moments.append((time.time(), sum(map(int, fields[11:15])) / TICKS))
            with os.scandir(f"{tempfile.gettempdir()}/rattle-logic-built-locked-{self.pid}-0") as them:
                for it in them:
                    if it.name.endswith(".oantt") and it.name not in self.files:
                        self.files[it.name] = it.stat().st_mtime
        except (OSError, IndexError):
            self.works = os.path.exists(f"/proc/{self.pid}")

    def charged(self, when):
        """What it was charged up to a time."""
        at = bisect.bisect(self.moments, (when,))
        if at == len(self.moments):
            return self.moments[-1][1]
        later, much = self.moments[at]
        if at == 0:
            return max(much - (later - when), 0)
        earlier, little = self.moments[at - 1]
        return little + (much - little) * (when - earlier) / (later - earlier)

    def parts(self):
        """Each part with its time; the first file is left out, since all that comes before proofs is in its time."""
        before = None
        for when, name in sorted((when, name) for name, when in self.files.items()):
            if self.moments:
                now = self.charged(when)
                if before is not None:
                    yield part_of(self.crate, name), max(now - before, 0)
                before = max(now, before or 0)


def part_of(crate, name):
    """The part that a file of a prover is of."""
    words = re.sub(rf"^Rattle-{crate}-|\.oantt$", "", name).split(".")
    if words[0] == "proofs" and len(words) > 2:
        *words, last = words[1:]
    elif words[:2] == ["specs", "contracts"]:
        *words, last = [*words[2:], ""]
    else:
        return f"{crate} {'/'.join(words)}.antt"
    place = [it for it in words if it[0] != "+"]
    ring = [it[1:] for it in words if it[0] == "+"]
    if ring and last.startswith("Lts-"):
        return f"{crate} {'::'.join([*place, *last[4:].split('-')])}"
    return f"{crate} ring of {'::'.join([*place, *ring])}" if ring else f"{crate} {'::'.join(place)}"


def crate_at_work(pid, top):
    """The crate of a checkout that a process proves, if it is such a prover."""
    try:
        with open(f"/proc/{pid}/cmdline") as it:
            words = it.read().split("\0")
        if os.path.basename(words[0]) != "rattle" or not f"{os.readlink(f'/proc/{pid}/cwd')}/".startswith(f"{top}/crates/"):
            return None
        return words[words.index("--crate-name") + 1]
    except (OSError, ValueError, IndexError):
        return None


def watch(top, count):
    """Looks on while crates of a checkout are proved, and says which parts were the dearest."""
    seen, last = {}, time.time()
    signal.signal(signal.SIGTERM, signal.default_int_handler)
    try:
        while time.time() - last < 120:
            for pid in [int(it) for it in os.listdir("/proc") if it.isdigit()]:
                crate = None if pid in seen else crate_at_work(pid, top)
                if crate:
                    seen[pid] = Prover(pid, crate)
            for it in seen.values():
                if it.works:
                    it.look()
                    last = time.time()
            time.sleep(0.5)
    except KeyboardInterrupt:
        pass
    times = collections.Counter()
    for it in seen.values():
        for part, seconds in it.parts():
            times[part] += seconds
    for part, seconds in times.most_common(count):
        print(f"{seconds:8.1f} {part}")
    return 0


if __name__ == "__main__":
    if sys.argv[1:2] == ["--watch"]:
        sys.exit(watch(os.path.realpath((sys.argv[2:] or ["."])[0]), int((sys.argv[3:] or ["40"])[0])))
    sys.exit(check(sys.argv[1:]))
