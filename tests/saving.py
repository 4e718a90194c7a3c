#!/usr/bin/env python3
"""Stops a simulation that saves its state at each of its calls of the system: saving.py PROGRAM.

The state goes to the file that it was read from. Whether the program is killed before a call, or the call fails, the file must have
what it had or the whole new state, nothing else may be left where the program ended by itself, and the next run must save. Then places
that a state can't go to, and those that are no plain files. Without a C compiler the toolchain's own is taken; where there is none at all,
the program is stopped at no call, and the last line says so.
"""
import os
import pathlib
import shlex
import stat
import subprocess
import sys
import tempfile

from compiling import compiled

HERE = pathlib.Path(__file__).resolve().parent
TEXTS = {
    "motor.ld": (HERE / "programs" / "motor.ld").read_bytes(),
    "state.csv": b"version,2\nmoment,0\nvar,Start,0\nvar,Stop,0\nvar,Motor,0\n",
    "stimulus.csv": b"moment,Start,Stop\n5,1,0\n9,0,0\n",
}
OLD, NEW = TEXTS["state.csv"], b"version,2\nmoment,9\nvar,Start,0\nvar,Stop,0\nvar,Motor,1\n"
WORDS = ["sim", "--state", "state.csv", "--save", "state.csv", "motor.ld", "stimulus.csv"]


def filled(folder):
    """A folder with the texts."""
    for name, text in TEXTS.items():
        (pathlib.Path(folder) / name).write_bytes(text)
    return pathlib.Path(folder)


def run(program, words, folder, **told):
    done = subprocess.run([program, *words], cwd=folder, env=os.environ | told, stdin=subprocess.DEVNULL, capture_output=True, check=False, timeout=60)
    return done.returncode, done.stdout, done.stderr


def stopped(program, library, how, number):
    """What is wrong where the program is stopped at a call."""
    with tempfile.TemporaryDirectory() as name:
        folder = filled(name)
        status, _, said = run(program, WORDS, folder, LD_PRELOAD=library, HOW=how, STOP=str(number))
        has = (folder / "state.csv").read_bytes()
        left = sorted(path.name for path in folder.iterdir() if path.name not in TEXTS)
        wrong = has not in (OLD, NEW) or status == 0 and has != NEW or status == 1 and (has != OLD or not said.startswith(b"fault X"))
        # what can't be removed, since that call failed, may be left
        wrong |= how == "fail" and status == 0 and bool(left)
        if not wrong and has == OLD:
            again = run(program, WORDS, folder)
            left = sorted(path.name for path in folder.iterdir() if path.name not in TEXTS)
            wrong = again[0] != 0 or (folder / "state.csv").read_bytes() != NEW or bool(left)
        return [f"{how} at call {number}: status {status}, {said!r}, {has!r}, left {left}"] if wrong else []


def traced_to_a_pipe(program, folder):
    """How a request ends that saves its state to the named pipe that its trace goes to."""
    words = f"{shlex.quote(program)} sim --save pipe motor.ld stimulus.csv > pipe"
    with subprocess.Popen(["sh", "-c", words], cwd=folder, stderr=subprocess.PIPE) as child:
        traced = (folder / "pipe").read_bytes()
        said = child.stderr.read()
        return child.wait(timeout=60), traced, said


def refused_places(program):
    """Places that the request reads, or writes its trace to, and what is no plain file."""
    wrong = []

    def expect(what, have, want):
        if have != want:
            wrong.append(f"{what}: {have!r} in place of {want!r}")

    usage = (2, b"", b"fault usage\n")
    with tempfile.TemporaryDirectory() as name:
        folder = filled(name)
        (folder / "link.ld").symlink_to("motor.ld")
        (folder / "link.csv").symlink_to("state.csv")
        for place in ("motor.ld", "stimulus.csv", "link.ld", "./motor.ld", str(folder / "stimulus.csv")):
            expect(place, run(program, ["sim", "--save", place, "motor.ld", "stimulus.csv"], folder), usage)
        for place, text in TEXTS.items():
            expect(place, (folder / place).read_bytes(), text)
        with open(folder / "trace.csv", "wb") as trace:
            done = subprocess.run([program, "sim", "--save", "trace.csv", "motor.ld", "stimulus.csv"], cwd=folder, stdout=trace, stderr=subprocess.PIPE, check=False)
        expect("standard output", (done.returncode, done.stderr, (folder / "trace.csv").read_bytes()), (2, b"fault usage\n", b""))
        run(program, ["sim", "--save", "link.csv", "motor.ld", "stimulus.csv"], folder)
        expect("a link to the state", ((folder / "link.csv").is_symlink(), (folder / "state.csv").read_bytes()), (True, NEW))
        expect("a device", run(program, ["sim", "--save", "/dev/full", "motor.ld", "stimulus.csv"], folder)[::2], (1, b"fault X6\n"))
        expect("a device that stays one", stat.S_ISCHR(os.stat("/dev/full").st_mode), True)
        os.mkfifo(folder / "pipe")
        with subprocess.Popen([program, "sim", "--save", "pipe", "motor.ld", "stimulus.csv"], cwd=folder, stdout=subprocess.DEVNULL) as child:
            expect("a pipe", (folder / "pipe").read_bytes(), NEW)
            expect("a pipe's status", child.wait(timeout=60), 0)
        for place in ("/dev/stdout", "/dev/fd/1", "/proc/self/fd/1"):
            expect(f"{place}, a pipe", run(program, ["sim", "--save", place, "motor.ld", "stimulus.csv"], folder), usage)
        (folder / "link.out").symlink_to("/dev/stdout")
        expect("a link to standard output", run(program, ["sim", "--save", "link.out", "motor.ld", "stimulus.csv"], folder), usage)
        expect("a named pipe that the trace goes to", traced_to_a_pipe(program, folder), (2, b"", b"fault usage\n"))
        for link, place in (("nowhere", "none.csv"), ("circle", "circle")):
            (folder / link).symlink_to(place)
            expect(link, run(program, ["sim", "--save", link, "motor.ld", "stimulus.csv"], folder)[::2], (1, b"fault X6\n"))
            expect(f"{link} that stays one", os.readlink(folder / link), place)
        left = sorted(path.name for path in folder.iterdir() if path.name.endswith(".ladder-new"))
        expect("what is left", left, [])
    return wrong


def stops_of(program):
    """How many stops were tried, and what is wrong; None where nothing can stop the program."""
    with tempfile.TemporaryDirectory() as folder:
        library, counted = str(pathlib.Path(folder) / "stop.so"), str(pathlib.Path(folder) / "counted")
        if not compiled(HERE / "stop_at_call.c", library):
            return None, []
        with tempfile.TemporaryDirectory() as name:
            status, _, said = run(program, WORDS, filled(name), LD_PRELOAD=library, COUNTED=counted)
        wrong = [] if (status, said) == (0, b"") else [f"without a stop: status {status}, {said!r}"]
        calls = int(pathlib.Path(counted).read_text("ascii"))
        for how in ("kill", "fail"):
            for number in range(1, calls + 1):
                wrong += stopped(program, library, how, number)
        return 2 * calls, wrong


def main():
    program = os.path.abspath(sys.argv[1])
    misplaced, (stops, wrong) = refused_places(program), stops_of(program)
    print(*misplaced, *wrong, sep="\n", end="\n" if misplaced or wrong else "")
    print("places of a state: " + ("as they must be" if not misplaced else "WRONG"))
    if stops is None:
        print("0 of 40 stops while a state is saved passed: there is no C compiler, so none was tried")
    else:
        print(f"{stops - len(wrong)} of {stops} stops while a state is saved passed")
    return 1 if misplaced or wrong else 0


if __name__ == "__main__":
    sys.exit(main())
