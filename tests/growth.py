#!/usr/bin/env python3
"""Refuses each growth of memory in turn: growth.py PROGRAM.

Each request below is first made whole, which counts its growths (refuse_growth.c, loaded before the C library), and then once for
each of them, with that one refused. A request is answered whole in spite of it, or it ends by one of the lines for being out of
memory, with nothing written but whole lines of a trace, and nothing saved; a row that is asked of the runs may also be left open, states
that show a difference are saved after all rows, and whether an expression is always true is asked after them too. The last record of long.csv is longer than the ones before it, so memory grows in the middle
of its trace. Then a list with all its rows must make as many growths as the same list with none, and one
must come whole where each growth after its cursor is made is refused.
Without a C compiler the toolchain's own is taken; where there is none at all, nothing is tried, and the last line says so.
"""
import collections
import os
import pathlib
import subprocess
import sys
import tempfile
from concurrent.futures import ThreadPoolExecutor

from compiling import compiled

HERE = pathlib.Path(__file__).resolve().parent
TEXTS = {
    "motor.ld": (HERE / "programs" / "motor.ld").read_bytes(),
    "assumed.ld": (HERE / "programs" / "motor.ld").read_bytes().replace(b"VAR\n", b"VAR\n  (* assume: NOT (Start AND Stop) *)\n", 1),
    "either.ld": (HERE / "programs" / "motor.ld").read_bytes().replace(b"|/|", b"| |"),
    "counter.ld": (HERE / "programs" / "counter.ld").read_bytes(),
    "rhythm.ld": (HERE / "programs" / "rhythm.ld").read_bytes(),
    "lamp.clp": (HERE / "projects" / "lamp.clp").read_bytes(),
    "lamp.xml": (HERE / "projects" / "lamp.xml").read_bytes(),
    "tank.xml": (HERE / "projects" / "tank.xml").read_bytes(),
    "motor.st": (HERE / "texts" / "motor.st").read_bytes(),
    "running.csv": b"version,2\nmoment,0\nvar,Start,1\nvar,Stop,0\nvar,Motor,1\n",
    "back.csv": b"moment,Start,Stop\n0,1,0\n10,0,0\n5,0,0\n",
    "count.csv": b"moment,Count\n0,1\n5,0\n",
    "long.csv": b"moment,Start,Stop\n0,1,0\n5,0,0\n18446744073709551615,1,1\n",
}
LINES = ("fault V9\n", "fault C7\n", "fault X7\n")
# Of the old program, and of the new one.
BOTH = tuple(line.replace("fault", f"fault {side}") for side in ("old", "new") for line in LINES)
# With each request the lines that must come, among others.
REQUESTS = (
    (("check", "motor.ld"), ("fault V9\n",)),
    (("uses", "motor.ld"), ("fault V9\n",)),
    (("never", "--state", "running.csv", "motor.ld"), ("fault V9\n", "fault X7\n")),
    (("never", "--assumed", "assumed.ld"), ("fault V9\n", "fault X7\n")),
    (("causes", "motor.ld", "Motor", "Start", "Stop"), LINES),
    (("causes", "--state", "running.csv", "motor.ld", "Motor", "Start", "Stop"), LINES),
    (("causes", "--after", "0", "--upto", "2", "motor.ld", "Motor", "Start", "Stop"), LINES),
    (("causes", "--scans", "3", "--state", "running.csv", "motor.ld", "Motor", "Start", "Stop"), LINES),
    (("causes", "--relevant", "--state", "running.csv", "motor.ld", "Motor"), LINES),
    (("causes", "--relevant", "--grouped", "motor.ld", "Motor"), LINES),
    (("causes", "--assume", "Start OR NOT Stop", "motor.ld", "Motor", "Start", "Stop"), LINES),
    (("causes", "--assumed", "--assume", "Start", "--grouped", "assumed.ld", "Motor", "Start", "Stop"), LINES),
    (("causes", "--assume", "NOT Stop", "--scans", "3", "motor.ld", "Motor", "Start", "Stop"), LINES),
    (("causes", "--assumed", "--relevant", "assumed.ld", "Motor"), LINES),
    (("causes", "--any", "motor.ld", "Motor", "Start", "Stop"), LINES),
    (("causes", "--any", "--off", "--must", "motor.ld", "Motor", "Start", "Stop"), LINES),
    (("causes", "--any", "--reachable", "motor.ld", "Motor", "Start", "Stop"), LINES),
    (("causes", "--any", "--grouped", "motor.ld", "Motor", "Start", "Stop"), LINES),
    (("causes", "--any", "--runs", "motor.ld", "Motor", "Start", "Stop"), LINES),
    (("causes", "--any", "--runs", "--assume", "NOT Stop", "motor.ld", "Motor", "Start", "Stop"), LINES),
    (("causes", "--any", "--assumed", "assumed.ld", "Motor", "Start", "Stop"), LINES),
    (("causes", "--any", "--grouped", "--assume", "Start OR NOT Stop", "motor.ld", "Motor", "Start", "Stop"), LINES),
    (("causes", "--grouped", "--state", "running.csv", "motor.ld", "Motor", "Start", "Stop"), LINES),
    (("causes", "--grouped", "--st", "--order", "auto", "motor.ld", "Motor", "Start", "Stop"), LINES),
    (("causes", "--grouped", "--scans", "3", "--state", "running.csv", "motor.ld", "Motor", "Start", "Stop"), LINES),
    (("show", "--state", "running.csv", "--number", "2", "motor.ld", "Start", "Stop"), LINES),
    (("show", "--assumed", "assumed.ld", "Start", "Stop"), ("fault V9\n", "fault X7\n")),
    (("show", "--stimulus", "back.csv", "motor.ld"), ("fault V9\n", "fault X7\n")),
    (("show", "--html", "--coil", "Motor", "--stimulus", "back.csv", "motor.ld"), ("fault V9\n", "fault X7\n")),
    (("sim", "motor.ld", "back.csv"), ("fault V9\n", "fault X7\n")),
    (("sim", "--watch", "Motor", "--watch", "Start", "motor.ld", "back.csv"), ("fault V9\n", "fault X7\n")),
    (("sim", "--watch-all", "--save", "saved.csv", "counter.ld", "count.csv"), ("fault V9\n", "fault X7\n")),
    (("sim", "--save", "saved.csv", "motor.ld", "long.csv"), ("fault V9\n", "fault X7\n")),
    (("sim", "--state", "running.csv", "--save", "saved.csv", "motor.ld", "long.csv"), ("fault V9\n", "fault X7\n")),
    (("diff", "--state", "running.csv", "motor.ld", "motor.ld", "Motor", "Start", "Stop"), BOTH),
    (("diff", "--grouped", "--all-inputs", "motor.ld", "motor.ld", "Motor"), BOTH),
    (("diff", "--assumed", "--assume", "NOT Stop", "assumed.ld", "motor.ld", "Motor", "Start", "Stop"), BOTH),
    (("diff", "--grouped", "--order", "auto", "--all-inputs", "motor.ld", "motor.ld", "Motor"), BOTH),
    (("diff", "--progress", "motor.ld", "motor.ld", "Motor", "Start", "Stop"), BOTH),
    (("diff", "--scans", "3", "--state", "running.csv", "motor.ld", "motor.ld", "Motor", "Start", "Stop"), BOTH),
    (("diff", "motor.ld", "counter.ld"), ("fault old V9\n", "fault new V9\n", "fault X7\n")),
    (("diff", "--reachable", "motor.ld", "counter.ld"), ("fault old V9\n", "fault new V9\n", "fault X7\n")),
    (("diff", "--assume", "NOT Stop", "motor.ld", "either.ld"), ("fault old V9\n", "fault new V9\n", "fault X7\n")),
    (("diff", "--runs", "motor.ld", "either.ld"), ("fault old V9\n", "fault new V9\n", "fault X7\n")),
    (("diff", "--runs", "--assumed", "assumed.ld", "either.ld"), ("fault old V9\n", "fault new V9\n", "fault X7\n")),
    (("diff", "--quiet", "--save", "states", "motor.ld", "either.ld"), ("fault old V9\n", "fault new V9\n", "fault X7\n")),
    (("reach", "--state", "running.csv", "motor.ld", "Motor", "Start"), ("fault V9\n", "fault X7\n")),
    (("reach", "--assumed", "--state", "running.csv", "assumed.ld", "Motor"), ("fault V9\n", "fault X7\n")),
    (("reach", "rhythm.ld", "Y"), ("fault V9\n", "fault X7\n")),
    (("reach", "--every", "100", "rhythm.ld", "Y"), ("fault V9\n", "fault X7\n")),
    (("import", "lamp.clp"), ("fault X7\n",)),
    (("import", "--pou", "lamp", "lamp.xml"), ("fault X7\n",)),
    (("import", "--open", "tank.xml"), ("fault X7\n",)),
    (("draw", "motor.st"), ("fault X7\n",)),
    (("export", "--st", "motor.ld"), ("fault V9\n", "fault X7\n")),
    (("export", "--xml", "motor.ld"), ("fault V9\n", "fault X7\n")),
    (("--help",), ("fault X7\n",)),
)
Ending = collections.namedtuple("Ending", "out err status saved")


def ended(program, library, words, refused, counted=None, how="REFUSE"):
    """How the request ends with that growth refused, or, where `how` is FROM, with each one from that on."""
    with tempfile.TemporaryDirectory() as folder:
        for name, text in TEXTS.items():
            (pathlib.Path(folder) / name).write_bytes(text)
        told = {"LD_PRELOAD": library, how: str(refused)} | ({"COUNTED": counted} if counted else {})
        done = subprocess.run([program, *words], cwd=folder, env=os.environ | told, stdin=subprocess.DEVNULL, capture_output=True, check=False, timeout=60)
        saved = pathlib.Path(folder) / "saved.csv"
        return Ending(done.stdout.decode(), done.stderr.decode(), done.returncode, saved.read_bytes() if saved.exists() else None)


def is_refused(words, whole, ending):
    """Whether the request ended by a line for being out of memory, and left what it must."""
    is_prefix = whole.out.startswith(ending.out) and ending.out[-1:] in ("", "\n") if words[0] == "sim" or "--stimulus" in words else not ending.out
    return ending.status == 1 and ending.err in LINES + BOTH and is_prefix and ending.saved is None


def is_unsaved(words, whole, ending):
    """Whether all rows are there, and what is to be saved isn't: a file that can't be opened for want of memory is a failed write."""
    lines = set(ending.err.splitlines())
    return words[0] == "diff" and "--save" in words and ending.status == 1 and ending.out == whole.out and lines and lines <= {"fault X6", "fault X7"}


def is_left_open(words, whole, ending):
    """Whether all rows are there, and of some that a run comes to this isn't told."""
    rows = list(zip(whole.out.splitlines(), ending.out.splitlines()))
    is_same = ending.out.count("\n") == whole.out.count("\n") and all(left in (row, row.replace(",r,", ",1,")) for row, left in rows)
    unsettled = sum(",r," not in row for row in ending.out.splitlines()[1:])
    counts = f"rows {len(rows) - 1} unsettled {unsettled}"
    return "--runs" in words and is_same and ending.status == 0 and ending.err in (counts + "\n", counts + " assumed 1\n")


def is_unwarned(words, whole, ending):
    """Whether all rows and counts are there, and what is assumed isn't asked to the end whether it is always true."""
    is_assumed = any(word in ("--assume", "--assumed") for word in words)
    return is_assumed and ending.status == 1 and ending.out == whole.out and any(ending.err == whole.err + line for line in LINES)


def tried(program, library, words, wanted, counted):
    """How many growths there were, how often each line came, and what is wrong."""
    whole = ended(program, library, words, 0, counted)
    growths = int(pathlib.Path(counted).read_text("ascii"))
    with ThreadPoolExecutor(os.cpu_count()) as pool:
        endings = list(pool.map(lambda number: ended(program, library, words, number), range(1, growths + 1)))
    wrong = [f"{' '.join(words)}, growth {number}: {ending}"
             for number, ending in enumerate(endings, 1) if ending != whole and not any(is_so(words, whole, ending) for is_so in (is_refused, is_unsaved, is_left_open, is_unwarned))]
    lines = collections.Counter("".join(ending.err.splitlines(keepends=True)[-1:]) for ending in endings if ending != whole)
    wrong += [f"{' '.join(words)}: {line.strip()} never comes" for line in wanted if not lines[line]]
    if "long.csv" in words and not any(ending.out for ending in endings if ending != whole):
        wrong.append(f"{' '.join(words)}: no growth is refused in the middle of the trace")
    return growths, lines, wrong


def wide():
    """A program whose coil follows the first of 20 inputs, and their names."""
    names = [f"I{number}" for number in range(20)]
    inputs = "".join(f"  {name} AT %IX{number} : BOOL;\n" for number, name in enumerate(names))
    return f"VAR\n{inputs}  Y AT %QX0 : BOOL;\nEND_VAR\n\n|    I0           Y\n|----| |---------( )----\n", names


def growths_of(program, library, words, counted):
    """How many growths a request makes that is refused none, and how many lines it writes."""
    ending = ended(program, library, words, 0, counted)
    return int(pathlib.Path(counted).read_text("ascii")), ending.out.count("\n") - 1


def rows_that_grow(program, library, counted):
    """What is wrong where rows take memory: a list of all rows must make as many growths as one of none."""
    text, names = wide()
    TEXTS["wide.ld"] = text.encode()
    wrong = []
    for form, due in (([], 524_288), (["--grouped"], 1), (["--scans", "3"], 524_288)):
        none, all_rows = (growths_of(program, library, ["causes", *form, "--limit", limit, "wide.ld", "Y", *names], counted) for limit in ("0", "9999999"))
        if none[0] != all_rows[0] or (none[1], all_rows[1]) != (0, due):
            wrong.append(f"a list {form}: growths and rows {none} and {all_rows}")
        print(f"{' '.join(['causes', *form])}: {none[0]} growths with no row, {all_rows[0]} with {all_rows[1]} rows")
    return wrong


def rows_without_memory(program, library, counted):
    """What is wrong where each growth after the cursor is made is refused: the list must come whole all the same."""
    TEXTS["chain24.ld"] = (HERE.parent / "bench" / "circuits" / "chain24.ld").read_bytes()
    words = ["chain24.ld", "Y", *(f"I{number}" for number in range(1, 25))]
    made, _ = growths_of(program, library, ["causes", "--limit", "0", *words], counted)
    whole = ended(program, library, ["causes", *words], 0)
    ending = ended(program, library, ["causes", *words], made + 1, how="FROM")
    return [] if ending == whole and whole.status == 0 else [f"a list of 24 inputs with no growth after the first {made}: {ending}"]


def main():
    program = os.path.abspath(sys.argv[1])
    total, wrong = 0, []
    with tempfile.TemporaryDirectory() as folder:
        library, counted = os.path.join(folder, "refuse_growth.so"), os.path.join(folder, "counted")
        if not compiled(HERE / "refuse_growth.c", library):
            print(f"0 of {len(REQUESTS)} requests with refused growths answered: there is no C compiler, so none was tried")
            return 0
        for words, wanted in REQUESTS:
            growths, lines, faults = tried(program, library, words, wanted, counted)
            total, wrong = total + growths, wrong + faults
            print(f"{' '.join(words):72}{growths:5} growths, " + ", ".join(f"{line.strip()[6:]} {count}" for line, count in sorted(lines.items())))
        growing = rows_that_grow(program, library, counted) + rows_without_memory(program, library, counted)
    print(*growing, *wrong[:20], sep="\n", end="\n" if growing or wrong else "")
    print(f"{total - len(wrong)} of {total} refused growths are answered as they must be")
    return 1 if growing or wrong else 0


if __name__ == "__main__":
    sys.exit(main())
