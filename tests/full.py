#!/usr/bin/env python3
"""Lets a writer be full at each of its bytes: full.py PROGRAM.

Each request below is made once for each number of bytes that its output, its state or its counts may take, for each way to be full
(full_writer.c, loaded before the C library), and for writers that take one byte a call and many. What was written must be those bytes of
the text, nothing may be written after it, no state may be saved after a trace that isn't whole, nor in part, and the status must be 1, with
`fault X6` where that can be said. Without a C compiler the toolchain's own is taken; where there is none at all, nothing is tried, and the
last line says so.
"""
import os
import pathlib
import subprocess
import sys
import tempfile
from concurrent.futures import ThreadPoolExecutor

from compiling import compiled

HERE = pathlib.Path(__file__).resolve().parent
TEXTS = {
    "motor.ld": (HERE / "programs" / "motor.ld").read_bytes(),
    "either.ld": (HERE / "programs" / "motor.ld").read_bytes().replace(b"|/|", b"| |"),
    "rhythm.ld": (HERE / "programs" / "rhythm.ld").read_bytes(),
    "motor.st": (HERE / "texts" / "motor.st").read_bytes(),
    "lamp.xml": (HERE / "projects" / "lamp.xml").read_bytes(),
    "tank.xml": (HERE / "projects" / "tank.xml").read_bytes(),
    "wrong.st": (HERE / "texts" / "motor.st").read_bytes().replace(b"NOT Stop", b"NOT Halt"),
    "running.csv": b"version,2\nmoment,10\nvar,Start,0\nvar,Stop,0\nvar,Motor,1\n",
    "stimulus.csv": b"moment,Start,Stop\n0,1,0\n10,0,0\n",
    "back.csv": b"moment,Start,Stop\n0,1,0\n10,0,0\n5,0,0\n",
}
LIST = ("--state", "running.csv", "motor.ld", "Motor", "Start", "Stop")
# With each request the status of the whole one.
REQUESTS = (
    (("check", "motor.ld"), 0),
    (("uses", "motor.ld"), 0),
    (("import", "lamp.xml"), 0),
    (("import", "--pou", "Lamp", "--why", "lamp.xml"), 1),
    (("import", "--open", "tank.xml"), 0),
    (("import", "--why", "tank.xml"), 1),
    (("draw", "motor.st"), 0),
    (("draw", "--why", "wrong.st"), 1),
    (("export", "--st", "motor.ld"), 0),
    (("export", "--xml", "motor.ld"), 0),
    (("export", "--st", "--name", "Motor", "--why", "motor.ld"), 1),
    (("causes", *LIST), 0),
    (("causes", "--after", "0", *LIST), 0),
    (("causes", "--scans", "3", *LIST), 0),
    (("causes", "--grouped", *LIST), 0),
    (("causes", "--any", "motor.ld", "Motor", "Start", "Stop"), 0),
    (("causes", "--any", "--runs", "motor.ld", "Motor", "Start", "Stop"), 0),
    (("show", "--state", "running.csv", "motor.ld", "Start", "Stop"), 0),
    (("diff", "--state", "running.csv", "motor.ld", "either.ld", "Motor", "Start", "Stop"), 0),
    (("diff", "--grouped", "motor.ld", "either.ld", "Motor", "Start", "Stop"), 0),
    (("diff", "--grouped", "--order", "auto", "motor.ld", "either.ld", "Motor", "Start", "Stop"), 0),
    (("diff", "--progress", "motor.ld", "either.ld", "Motor", "Start", "Stop"), 0),
    (("diff", "--scans", "3", "motor.ld", "either.ld", "Motor", "Start", "Stop"), 0),
    (("diff", "motor.ld", "either.ld"), 0),
    (("diff", "--runs", "motor.ld", "either.ld"), 0),
    (("reach", "--state", "running.csv", "motor.ld", "Motor", "Start"), 0),
    (("reach", "--every", "10", "rhythm.ld", "Y"), 0),
    (("reach", "--every", "100", "rhythm.ld", "Y"), 0),
    (("sim", "--save", "saved.csv", "motor.ld", "stimulus.csv"), 0),
    (("sim", "--save", "saved.csv", "motor.ld", "back.csv"), 1),
)
ENDS = ("fails", "interrupts", "takes_none", "fails_once")
X6 = b"fault X6\n"


def ended(program, library, words, **told):
    """The status of a request, what it writes on its outputs, and what it saves."""
    with tempfile.TemporaryDirectory() as folder:
        for name, text in TEXTS.items():
            (pathlib.Path(folder) / name).write_bytes(text)
        done = subprocess.run([program, *words], cwd=folder, env=os.environ | {"LD_PRELOAD": library} | told, stdin=subprocess.DEVNULL,
                              capture_output=True, check=False, timeout=60)
        saved, left = pathlib.Path(folder) / "saved.csv", pathlib.Path(folder) / "saved.csv.ladder-new"
        return done.returncode, done.stdout, done.stderr, saved.read_bytes() if saved.exists() else None, left.exists()


def trials(whole):
    """What a full writer is told, and how the request must end: with room for so many bytes of the output, of the state, of the counts."""
    _, out, err, saved, _ = whole
    for end in ENDS:
        for step in ("1", "1000"):
            how = {"END": end, "STEP": step}
            for room in range(len(out)):
                yield how | {"ROOM_1": str(room)}, (1, out[:room], X6, None, False)
            for room in range(len(saved or b"")):
                yield how | {"ROOM_3": str(room)}, (1, out, X6, None, False)
            for room in range(len(err)):
                yield how | {"ROOM_2": str(room)}, (1, out, err[:room], saved, False)


def tried(program, library, words, status):
    """How many trials there were, and what is wrong."""
    whole = ended(program, library, words)
    wrong = [] if whole[0] == status else [f"{' '.join(words)}: {whole}"]
    told = list(trials(whole))
    with ThreadPoolExecutor(os.cpu_count()) as pool:
        endings = pool.map(lambda trial: ended(program, library, words, **trial[0]), told)
        wrong += [f"{' '.join(words)}, {how}: {found} in place of {wanted}" for (how, wanted), found in zip(told, endings) if found != wanted]
    return len(told), wrong


def main():
    program = os.path.abspath(sys.argv[1])
    total, wrong = 0, []
    with tempfile.TemporaryDirectory() as folder:
        library = os.path.join(folder, "full_writer.so")
        if not compiled(HERE / "full_writer.c", library):
            print(f"0 of {len(REQUESTS)} requests with full writers answered: there is no C compiler, so none was tried")
            return 0
        for words, status in REQUESTS:
            count, faults = tried(program, library, words, status)
            total, wrong = total + count, wrong + faults
    print(*wrong[:20], sep="\n", end="\n" if wrong else "")
    print(f"{total - len(wrong)} of {total} full writers are answered as they must be")
    return 1 if wrong else 0


if __name__ == "__main__":
    sys.exit(main())
