#!/usr/bin/env python3
"""Proves and builds the libraries that a crate needs, side by side: libraries.py CRATE [--jobs N] [--rt COMMAND].

A library is built by `rt lib` as soon as those that crates.txt names for it are built, the one with the longest chain above it first.
There are as many calls at once as processors, and as memory allows, or N. `rt` locks the folders of a crate and of all libraries below
it, so two calls in one tree wait for each other. So each call works in a lane, a temporary copy of the crates; what it leaves in `out`
goes to the tree, and from there to the lanes in which a library above is built.

A library whose text, and that of all below it, is as it was when it was built here is passed over. The first failure ends the run, with
what `rt` printed; what was built until then is kept. docs/develop/seconds.csv (crate,seconds) has the weights, where it is there.
"""
import argparse
import contextlib
import csv
import fcntl
import functools
import hashlib
import os
import pathlib
import shlex
import shutil
import signal
import subprocess
import sys
import tempfile
import time
from concurrent.futures import FIRST_COMPLETED, ThreadPoolExecutor, wait

ROOT = pathlib.Path(__file__).resolve().parent.parent
SECONDS = ROOT / "docs" / "develop" / "seconds.csv"
READ = ("src", "specs", "proofs")
UNREAD = ("must-fail", "data")
MOST_MEMORY = 3_000_000_000
STREAMS = {"stdin": subprocess.DEVNULL, "stdout": subprocess.PIPE, "stderr": subprocess.STDOUT}


class Failed(Exception):
    """A library wasn't built; the text is what was printed."""


def named(root):
    """The libraries of the repository that each crate names, by crates.txt, and the line of each."""
    lines = [line.partition("#")[0].strip() for line in (root / "crates.txt").read_text("utf-8").splitlines()]
    lines = {line.split(":")[0].split()[0]: line for line in lines if line}
    return {name: [word for word in line.split(":")[1].split() if word in lines] for name, line in lines.items()}, lines


def below(names, crate):
    """All libraries below a crate."""
    found, due = set(), list(names[crate])
    while due:
        name = due.pop()
        if name not in found:
            found.add(name)
            due += names[name]
    return found


def weights():
    """The seconds that each check takes, as far as they are known."""
    if not SECONDS.exists():
        return {}
    with open(SECONDS, encoding="utf-8", newline="") as file:
        return {row[0]: float(row[1]) for row in csv.reader(file) if len(row) > 1 and row[1].replace(".", "", 1).isdigit()}


def chains(names, needed):
    """The seconds of the longest chain from each library up to the crate."""
    seconds = weights()
    usual = sum(seconds.values()) / len(seconds) if seconds else 1
    above = {name: [other for other in needed if name in names[other]] for name in needed}

    @functools.cache
    def chain(name):
        return seconds.get(name, usual) + max(map(chain, above[name]), default=0)

    return {name: chain(name) for name in needed}


def sums(root, names, lines, needed, version):
    """A checksum of all that each library is built from."""

    @functools.cache
    def sum_of(name):
        total = hashlib.sha256(f"{version}\n{lines[name]}\n".encode())
        for path in sorted(path for part in READ for path in (root / "crates" / name / part).rglob("*") if path.is_file()):
            total.update(f"{path.relative_to(root)} {hashlib.sha256(path.read_bytes()).hexdigest()}\n".encode())
        total.update("".join(map(sum_of, names[name])).encode())
        return total.hexdigest()

    return {name: sum_of(name) for name in needed}


def free_memory():
    """The bytes that are available, or None where the system has no number."""
    with contextlib.suppress(OSError):
        for line in pathlib.Path("/proc/meminfo").read_text("ascii").splitlines():
            if line.startswith("MemAvailable:"):
                return 1024 * int(line.split()[1])
    return None


def jobs_at_once():
    """As many as processors and memory allow."""
    processors, memory = len(os.sched_getaffinity(0)), free_memory()
    return processors if memory is None else max(1, min(processors, memory // MOST_MEMORY))


def link(source, to):
    """Copies a file of a crate: by a second name, if it is in `out`, where rt replaces files and never writes into one."""
    try:
        if pathlib.Path(source).relative_to(ROOT).parts[2] != "out":
            raise OSError
        os.link(source, to)
    except OSError:
        shutil.copy2(source, to)


def place(folder, to):
    """Moves a folder to the place of another."""
    made = to.with_name(f"{to.name}.new")
    shutil.rmtree(made, ignore_errors=True)
    shutil.move(folder, made)
    shutil.rmtree(to, ignore_errors=True)
    made.rename(to)


class Lane:
    """A copy of the crates, in which one call of rt works."""

    def __init__(self, root, lines):
        self.root, self.lines = root, lines
        self.has, self.process, self.is_stopped = set(), None, False

    def fetch(self, name, lower):
        """Copies a library from the tree, and those below it without the proofs that were kept for their own next check."""
        self.root.mkdir(exist_ok=True)
        if (ROOT / "HANDLES").exists():
            shutil.copy(ROOT / "HANDLES", self.root)
        passed_over = shutil.ignore_patterns(*UNREAD, "incremental")
        for other in lower - self.has:
            shutil.copytree(ROOT / "crates" / other, self.root / "crates" / other, copy_function=link, ignore=passed_over)
        shutil.copytree(ROOT / "crates" / name, self.root / "crates" / name, ignore=shutil.ignore_patterns(*UNREAD, "built"))
        self.has |= lower
        # crates.txt names no crate that isn't there
        (self.root / "crates.txt").write_text("".join(f"{self.lines[other]}\n" for other in (name, *self.has)), "utf-8")

    def build(self, rt, name, lower, total):
        """Builds a library over those below it, moves what is kept of it to the tree, and answers the seconds."""
        start = time.monotonic()
        self.fetch(name, lower)
        folder = self.root / "crates" / name
        self.process = subprocess.Popen(rt, cwd=folder, start_new_session=True, **STREAMS)
        if self.is_stopped:
            self.stop()
        said, _ = self.process.communicate()
        status = self.process.returncode
        if status == 0:
            (folder / "out" / "built").write_text(total, "ascii")
        if not self.is_stopped and (folder / "out").is_dir():
            place(folder / "out", ROOT / "crates" / name / "out")
        shutil.rmtree(folder)
        if status:
            raise Failed(said.decode("utf-8", "replace"))
        return time.monotonic() - start

    def stop(self):
        """Ends the call that is at work, or the one that is about to begin."""
        self.is_stopped = True
        if self.process and self.process.poll() is None:
            os.killpg(self.process.pid, signal.SIGTERM)


class Plan:
    """What is still to be built."""

    def __init__(self, crate, version):
        self.names, self.lines = named(ROOT)
        self.needed = below(self.names, crate)
        self.chains = chains(self.names, self.needed)
        self.sums = sums(ROOT, self.names, self.lines, self.needed, version)
        self.waiting = [name for name in self.needed if not self.is_kept(name)]
        self.waiting.sort(key=lambda name: (-self.chains[name], name))
        self.running = {}
        self.all = len(self.waiting)

    def is_kept(self, name):
        built = ROOT / "crates" / name / "out" / "built"
        return built.exists() and built.read_text("ascii") == self.sums[name]

    def ready(self):
        """The libraries that can be built now, the longest chain first."""
        due = {*self.waiting, *(name for name, _ in self.running.values())}
        return [name for name in self.waiting if not due.intersection(self.names[name])]

    def left(self):
        return len(self.waiting) + len(self.running)


def has_room(plan, is_forced):
    """Whether another call may begin."""
    memory = free_memory()
    return not plan.running or is_forced or memory is None or memory >= MOST_MEMORY


def begin(plan, lanes, pool, rt, is_forced):
    """Begins what can begin."""
    idle = [lane for lane in lanes if lane not in [lane for _, lane in plan.running.values()]]
    for lane in idle:
        ready = plan.ready()
        if not ready or not has_room(plan, is_forced):
            return
        name = ready[0]
        # a library that nothing can run beside may use what processors there are
        is_alone = len(lanes) == 1 or len(ready) == 1 and not plan.running
        words = [*rt, "lib", *([] if is_alone and not is_forced else ["--jobs", "1"])]
        plan.waiting.remove(name)
        plan.running[pool.submit(lane.build, words, name, below(plan.names, name), plan.sums[name])] = name, lane


def build_all(plan, lanes, rt, is_forced):
    """Builds what is left of a plan."""
    with ThreadPoolExecutor(len(lanes)) as pool:
        try:
            while plan.left():
                begin(plan, lanes, pool, rt, is_forced)
                for ended in wait(plan.running, return_when=FIRST_COMPLETED)[0]:
                    name, _ = plan.running.pop(ended)
                    try:
                        print(f"{name}: {ended.result():.0f} s, {plan.left()} of {plan.all} left", flush=True)
                    except Failed as failed:
                        raise Failed(f"{failed}{name} is not built") from failed
        finally:
            for lane in lanes:
                lane.stop()


@contextlib.contextmanager
def locked(crates):
    """Keeps other calls of rt out of these crates of the tree, in the way of rt itself, and waits for those that are at work."""
    held = [os.open(ROOT / "crates" / name, os.O_RDONLY) for name in sorted(crates)]
    try:
        for folder in held:
            with contextlib.suppress(OSError):
                fcntl.flock(folder, fcntl.LOCK_EX)
        yield
    finally:
        for folder in held:
            os.close(folder)


def main():
    """Builds what a crate needs, and answers the status."""
    parser = argparse.ArgumentParser(description=__doc__, formatter_class=argparse.RawDescriptionHelpFormatter)
    parser.add_argument("crate")
    parser.add_argument("--jobs", type=int, metavar="N")
    parser.add_argument("--rt", type=shlex.split, default=["rt"], metavar="COMMAND")
    given = parser.parse_args()
    signal.signal(signal.SIGTERM, lambda *_: sys.exit(143))
    version = subprocess.run([*given.rt, "version"], stdout=subprocess.PIPE, check=True).stdout.decode()
    plan = Plan(given.crate, version)
    if not plan.waiting:
        return 0
    count = min(max(1, given.jobs or jobs_at_once()), len(plan.waiting))
    print(f"{plan.all} of {len(plan.needed)} libraries to be built, {count} at once", flush=True)
    with locked(plan.needed), tempfile.TemporaryDirectory(prefix="ladder-") as folder:
        lanes = [Lane(pathlib.Path(folder, str(number)), plan.lines) for number in range(count)]
        try:
            build_all(plan, lanes, given.rt, given.jobs is not None)
        except Failed as failed:
            print(failed)
            return 1
    return 0


if __name__ == "__main__":
    sys.exit(main())
