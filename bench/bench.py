#!/usr/bin/env python3
"""Times the built program on the circuits beside this file: bench.py PROGRAM [RUNS].

Each time is the least of several runs, of the whole process, with the rows on /dev/null. Where valgrind is installed, instructions are
counted too: those of a run less those of the same run with `--limit 0`, which makes no look.
Counts and texts that aren't those that must come out are said loudly, and the status is then 1; no time fails anything.
"""
import collections
import itertools
import os
import pathlib
import random
import re
import shutil
import subprocess
import sys
import tempfile
import time

HERE = pathlib.Path(__file__).resolve().parent
MOST = 1_048_576
RUNGS, ROWS, COLUMNS = 100, 6, 10
# what came out wrong
WRONG = []


def inputs(first, last):
    return [f"I{number}" for number in range(first, last + 1)]


STATIONS = """EStop Guard Start Stop Auto Manual Clear Air Part1 Done1 Ovl1 Req1 Part2 Done2 Ovl2 Req2 Part3 Done3 Ovl3 Req3""".split()
STORED = ["--state", str(HERE / "circuits" / "three_stations.state.csv"), "--at", "1600"]
Case = collections.namedtuple("Case", "name circuit listed rows looks groups coil options", defaults=("Y", []))

# what must come out of each: rows and looks, and the rows of a grouped list
CASES = [
    Case("start-up, one look", "one_contact", [], 0, 1, 0),
    Case("one contact, 20 inputs", "one_contact", inputs(1, 20), 524_288, 3, 1),
    Case("one contact, 24 inputs", "one_contact", inputs(1, 24), 8_388_608, 3, 1),
    Case("the last of 24 decides", "one_contact", inputs(2, 24) + ["I1"], 8_388_608, 524_287, 1),
    Case("8 contacts, 20 inputs", "eight_contacts", inputs(1, 20), 4_096, 17, 1),
    Case("3 rows of 8, 20 inputs", "three_rows_of_eight", inputs(1, 20), 8_176, 3_571, 9),
    Case("3 rows of 8, 24 inputs", "three_rows_of_eight", inputs(1, 24), 195_841, 390_661, 73),
    Case("chain of 24 inputs", "chain24", inputs(1, 24), 1, 37, 1),
    Case("chain of 32 inputs", "chain32", inputs(1, 32), 1, 53, 1),
    Case("6 pairs, 12 inputs", "six_pairs", inputs(1, 12), 3_367, 79, 63),
    Case("12 pairs, 24 inputs", "twelve_pairs", inputs(1, 24), 16_245_775, 59_047, 4_095),
    Case("parity of 20 inputs", "parity20", inputs(1, 20), 524_288, 32_767, 524_288),
    Case("parity of 20, 12 in a row", "xorand32", inputs(1, 32), 524_288, 8_388_607, 524_288),
    Case("two equal words of 16", "equal32", inputs(1, 32), 65_536, 1_441_791, 65_536),
    Case("three stations: feed", "three_stations", STATIONS, 46_336, 1_503, 71, "Feed", STORED),
    Case("three stations: second", "three_stations", STATIONS, 8_192, 1_055, 1, "Run2", STORED),
    Case("three stations: horn", "three_stations", STATIONS, 0, 1_071, 0, "Horn", STORED),
]


def run(command):
    """Seconds, status and standard error of one run."""
    start = time.perf_counter()
    done = subprocess.run(command, stdin=subprocess.DEVNULL, stdout=subprocess.DEVNULL, stderr=subprocess.PIPE, check=False)
    return time.perf_counter() - start, done.returncode, done.stderr.decode()


def least(command, runs):
    """The quickest of some runs; of fewer where one takes long."""
    first = run(command)
    further = min(runs, int(2 / first[0])) - 1
    return min([first, *(run(command) for _ in range(further))])


def wrong(text):
    """Says that something else came out than must; the status is then 1."""
    WRONG.append(text)
    print(f"!!!!!!!!!! WRONG: {text}")


def counts(said, second="looks"):
    """Rows and looks, or rows and causes, as standard error says them: `rows R looks L`."""
    words = said.split()
    return (int(words[1]), int(words[3])) if words[::2] == ["rows", second] else (None, None)


def each(seconds, number):
    return f"{seconds * 1e9 / number:12.1f}" if number else f"{'-':>12}"


def report(name, seconds, said, due):
    rows, looks = counts(said)
    print(f"{name:26}{seconds * 1e3:10.2f}{rows or 0:12}{looks or 0:10}{each(seconds, looks)}{each(seconds, rows)}")
    if (rows, looks) != due:
        wrong(f"{name}: {said.strip()!r}, and rows {due[0]} looks {due[1]} must come out")


def causes_of(program, case, *options):
    return [program, "causes", *options, *case.options, str(HERE / "circuits" / f"{case.circuit}.ld"), case.coil, *case.listed]


def grouped(program, runs):
    """The same lists in groups, beside the full ones."""
    print(f"{'in groups':26}{'ms':>10}{'rows':>12}{'causes':>10}{'ms in full':>12}")
    for case in CASES:
        seconds, _, said = least(causes_of(program, case, "--grouped"), runs)
        full, _, _ = least(causes_of(program, case), runs)
        rows, causes = counts(said, "causes")
        print(f"{case.name:26}{seconds * 1e3:10.2f}{rows or 0:12}{causes or 0:10}{full * 1e3:12.2f}")
        if (rows, causes) != (case.groups, case.rows):
            wrong(f"{case.name}: {said.strip()!r}, and rows {case.groups} causes {case.rows} must come out")


def counted(command):
    """The instructions of one run; callgrind makes it some fifty times slower."""
    words = ["valgrind", "--tool=callgrind", "--callgrind-out-file=/dev/null", *command]
    done = subprocess.run(words, stdin=subprocess.DEVNULL, stdout=subprocess.DEVNULL, stderr=subprocess.PIPE, check=True)
    return int(re.search(r"Collected : (\d+)", done.stderr.decode())[1])


def instructions(program):
    """What the lists take in full and in groups, but for those that take long."""
    if not shutil.which("valgrind"):
        print("instructions are not counted: valgrind isn't installed")
        return
    print(f"{'millions of instructions':26}{'full':>10}{'a look':>12}{'a row':>12}{'in groups':>12}{'a row':>12}")
    for case in CASES:
        if run(causes_of(program, case, "--grouped"))[0] > 0.3:
            continue
        start = counted(causes_of(program, case, "--limit", "0"))
        full, groups = (counted(causes_of(program, case, *options)) - start for options in ([], ["--grouped"]))
        print(f"{case.name:26}{full / 1e6:10.2f}{full / case.looks:12,.0f}{per(full, case.rows)}{groups / 1e6:12.2f}{per(groups, case.groups)}")


def per(number, rows):
    return f"{number / rows:12,.0f}" if rows else f"{'-':>12}"


# over several scans: circuit, coil, listed inputs, scans, the time between them, options, and the rows that must come out
HELD = [
    ("chain of 12 inputs, 1 scan", "chain24", "Y", inputs(1, 12), 1, 10, [], 0),
    ("chain of 12 inputs, 1000", "chain24", "Y", inputs(1, 12), 1000, 10, [], 0),
    ("stations, 12 inputs, 1 scan", "three_stations", "Feed", STATIONS[:12], 1, 100, STORED, 156),
    ("stations, 12 inputs, 20", "three_stations", "Feed", STATIONS[:12], 20, 100, STORED, 156),
    ("stations, 12 inputs, 1000", "three_stations", "Feed", STATIONS[:12], 1000, 100, STORED, 156),
    ("stations, 16 inputs, 1000", "three_stations", "Feed", STATIONS[:16], 1000, 100, STORED, 2_816),
    ("Feed, 20 inputs, 20", "three_stations", "Feed", STATIONS, 20, 100, STORED, 46_848),
    ("Run2, 20 inputs, 20", "three_stations", "Run2", STATIONS, 20, 100, STORED, 11_264),
    ("Horn, 20 inputs, 20", "three_stations", "Horn", STATIONS, 20, 100, STORED, 0),
    ("Feed, 20 inputs, 1000", "three_stations", "Feed", STATIONS, 1000, 100, STORED, 46_848),
]


def held(program, runs):
    """Lists over several scans, by looks at prefixes and at 64 numbers at once."""
    print(f"{'over several scans':28}{'ms':>10}{'rows':>12}{'µs a combination':>20}")
    for name, circuit, coil, listed, scans, every, options, due in HELD:
        words = ["--scans", str(scans), "--every", str(every), *options, str(HERE / "circuits" / f"{circuit}.ld"), coil, *listed]
        seconds, _, said = least([program, "causes", *words], runs)
        print(f"{name:28}{seconds * 1e3:10.2f}{said.split()[-1]:>12}{seconds * 1e6 / 2 ** len(listed):20.2f}")
        if said != f"rows {due}\n":
            wrong(f"{name}: {said.strip()!r}, and rows {due} must come out")


# from any state, with all inputs of the stations: coil, rows, and how many of them aren't settled
POSSIBLE = [("Safe", 65_536, 0), ("Ready", 60_864, 0), ("Feed", 166_144, 0), ("X4", 173_752, 0), ("X3", 208_020, 0), ("X0", 409_600, 0),
            ("Run2", 1_021_952, 0), ("Horn", 1_048_576, 0)]


def coils(program, circuit):
    """The variables that a coil of the circuit writes."""
    rows = subprocess.run([program, "uses", circuit], stdout=subprocess.PIPE, check=True).stdout.decode().splitlines()[1:]
    return sorted({name for name, use, *_ in (row.split(",") for row in rows) if use.endswith("coil")})


def possible(program, runs):
    """What some state switches on: each coil without listed inputs, the slowest of a circuit told; and with all inputs."""
    print(f"{'from any state':34}{'ms':>10}{'rows':>12}{'unsettled':>10}{'ms of never':>12}{'of pairs':>10}{'pairs':>7}")
    for circuit in sorted([*(HERE.parent / "examples").glob("*/*.ld"), HERE / "circuits" / "three_stations.ld"]):
        tried = [(least([program, "causes", "--any", str(circuit), coil], runs), coil) for coil in coils(program, circuit)]
        (seconds, _, _), coil = max(tried)
        unsettled = sum(counts(said, "unsettled")[1] for (_, _, said), _ in tried)
        never, _, _ = least([program, "never", str(circuit)], runs)
        pairs, _, said = least([program, "never", "--pairs", str(circuit)], runs)
        print(f"{f'{circuit.parent.name}/{circuit.stem} {coil}':34}{seconds * 1e3:10.2f}{'':12}{unsettled:10}{never * 1e3:12.2f}"
              f"{pairs * 1e3:10.2f}{said.split()[1]:>7}")
    for coil, rows, unsettled in POSSIBLE:
        words = [str(HERE / "circuits" / "three_stations.ld"), coil, *STATIONS]
        seconds, _, said = least([program, "causes", "--any", *words], runs)
        print(f"{f'three stations, 20 inputs, {coil}':34}{seconds * 1e3:10.2f}{counts(said, 'unsettled')[0]:12}{counts(said, 'unsettled')[1]:10}")
        if counts(said, "unsettled") != (rows, unsettled):
            wrong(f"{coil}: {said.strip()!r}, and rows {rows} unsettled {unsettled} must come out")


def names(program, circuit):
    """What a run may be asked for: what coils write, and the blocks that are drawn."""
    rows = subprocess.run([program, "uses", circuit], stdout=subprocess.PIPE, check=True).stdout.decode().splitlines()[1:]
    drawn = {(name, use) for name, use, *_ in (row.split(",") for row in rows)}
    return sorted({name for name, use in drawn if use.endswith("coil") or use == "block"})


def reached(program, runs):
    """Runs: of each circuit how many names have one, have none and aren't settled, the time of all together, and the slowest."""
    print(f"{'a run for each name':34}{'ms':>10}{'run':>6}{'none':>6}{'open':>6}{'states':>8}  the slowest")
    for circuit in sorted([*(HERE.parent / "examples").glob("*/*.ld"), *(HERE / "circuits").glob("*.ld")]):
        tried = [(*least([program, "reach", str(circuit), name], runs), name) for name in names(program, circuit)]
        kinds = collections.Counter(said.split()[0] for _, _, said, _ in tried)
        if set(kinds) - {"run", "none"}:
            wrong(f"{circuit.stem}: {dict(kinds)}")
        most = max(int(said.split()[-1]) for _, _, said, _ in tried)
        slowest, _, said, name = max(tried)
        print(f"{f'{circuit.parent.name}/{circuit.stem}':34}{sum(one[0] for one in tried) * 1e3:10.2f}{kinds['run']:6}{kinds['none']:6}{kinds['unsettled']:6}"
              f"{most:8}  {name} {slowest * 1e3:.2f} ms, {said.strip()}")


# two versions of the stations: one with itself, and one without a contact; and what must come out, but for what isn't settled
VERSIONS = [("with itself", "three_stations.ld", (46, 0)), ("without an overload contact", "changed/three_stations.ld", (25, 19))]


def judged(program, runs):
    """Verdicts on all names of two versions."""
    print(f"{'two versions of the stations':34}{'ms':>10}{'same':>6}{'differ':>8}{'open':>6}")
    for name, file, due in VERSIONS:
        seconds, _, said = least([program, "diff", *(str(HERE / "circuits" / each) for each in ("three_stations.ld", file))], runs)
        same, different, unsettled = map(int, said.split()[1:6:2])
        print(f"{name:34}{seconds * 1e3:10.2f}{same:6}{different:8}{unsettled:6}")
        if (same, different) != due:
            wrong(f"{name}: {said.strip()!r}")


def resident(command):
    """How many bytes of memory a process takes at most, and how many states its search for a run keeps."""
    with subprocess.Popen(command, stdin=subprocess.DEVNULL, stdout=subprocess.DEVNULL, stderr=subprocess.PIPE) as process:
        said = process.stderr.read().decode()
        _, _, used = os.wait4(process.pid, 0)
        process.returncode = 0
    return used.ru_maxrss * 1024, int(said.split()[-1])


def memory_of_states(program):
    """Memory a state of a search: of a star-delta starter that runs up for 90 s, scanned every ms, beside the same every 100 ms."""
    text = (HERE.parent / "examples" / "star_delta" / "star_delta.ld").read_text("ascii").replace("T#6s", "T#90s")
    with tempfile.NamedTemporaryFile("w", suffix=".ld") as file:
        file.write(text)
        file.flush()
        (small, few), (large, many) = (resident([program, "reach", "--every", every, file.name, "Delta"]) for every in ("100", "1"))
    a_state = (large - small) / (many - few)
    print(f"memory of a search: {a_state:.0f} bytes a state, of {many}")
    if a_state > 200:
        wrong(f"a state takes {a_state:.0f} bytes")


def declarations():
    """Declarations of the greatest length."""
    text = "VAR\n" + "(* a comment that fills the block *)\n" * 27_000 + "  Y AT %QX0 : BOOL;\nEND_VAR\n"
    return text.ljust(MOST).encode()


def declared(blocks):
    timers = "".join(f"  T{number} : TON;\n" for number in range(blocks))
    return f"VAR\n  A AT %IX0 : BOOL;\n  Y AT %QX0 : BOOL;\n{timers}END_VAR\n\n"


def full_row(first, names):
    """A row of full cells, joined to the row above it at each column."""
    over = "|" + "".join(f"{name:^11}" + (" " if first else "|") for name in names[:-1]) + f"{names[-1]:^11}"
    wire = "|" + "+".join(["-|IN TON Q|" if name[0] == "T" else "----| |----" for name in names[:-1]]) + "+----( )----"
    return f"{over}\n{wire}\n"


def full_rungs(blocks):
    """As many rungs as there may be, of full rows; the last rungs have a block in each row."""
    rungs = []
    for rung in range(RUNGS):
        first = (rung - RUNGS) * ROWS + blocks + 2
        rows = [["A"] * (COLUMNS - 2) + [f"T{first + row}" if 0 <= first + row < blocks else "A"] + ["Y"] for row in range(ROWS)]
        rungs.append("".join(full_row(row == 0, names) for row, names in enumerate(rows)))
    return (declared(blocks) + "\n".join(rungs)).encode()


def any_bytes():
    """Bytes of the greatest length, behind declarations, so that the drawing reads them."""
    start = declared(0).encode()
    return start + random.Random(1).randbytes(MOST - len(start))


def bars():
    """Rung lines of the greatest length."""
    return (declared(0).encode() + b"|----| |----+" * MOST)[:MOST]


def fifty_rungs():
    """50 rungs of one full row: contacts and a coil."""
    rows = "\n".join(full_row(True, list(itertools.islice(itertools.cycle(["A", "B", "C"]), COLUMNS - 1)) + ["Y"]) for _ in range(50))
    return f"VAR\n  A AT %IX0 : BOOL;\n  B AT %IX1 : BOOL;\n  C AT %IX2 : BOOL;\n  Y AT %QX0 : BOOL;\nEND_VAR\n\n{rows}"


def stimulus(records):
    """So many records for three inputs, of which one changes in each."""
    bits = ("0,0,0", "1,0,0", "1,1,0", "1,1,1", "0,1,1", "0,0,1")
    return "moment,A,B,C\n" + "".join(f"{number},{bits[number % 6]}\n" for number in range(records))


def peak_of(pid):
    """The most memory that a process had so far, in KiB; None where it has ended."""
    try:
        status = pathlib.Path(f"/proc/{pid}/status").read_text("ascii")
    except OSError:
        return None
    return next((int(line.split()[1]) for line in status.splitlines() if line.startswith("VmHWM")), None)


def simulation(program):
    """A million records on 50 rungs: how long a record and a cell take, and the peak of memory."""
    records, cells = 1_000_000, 50 * COLUMNS
    with tempfile.TemporaryDirectory() as folder:
        circuit, texts = os.path.join(folder, "fifty.ld"), os.path.join(folder, "stimulus.csv")
        pathlib.Path(circuit).write_text(fifty_rungs(), "ascii")
        pathlib.Path(texts).write_text(stimulus(records), "ascii")
        size = os.path.getsize(texts)
        peak, start = 0, time.perf_counter()
        with subprocess.Popen([program, "sim", circuit, texts], stdin=subprocess.DEVNULL, stdout=subprocess.DEVNULL) as process:
            while process.poll() is None:
                peak = peak_of(process.pid) or peak
                time.sleep(0.01)
        seconds, status = time.perf_counter() - start, process.returncode
    print(f"1,000,000 records, 50 rungs {seconds * 1e3:9.2f}  status {status}: {records / seconds:,.0f} records a second, {seconds * 1e9 / records / cells:.2f} ns a cell, "
          f"{peak / 1024:.1f} MiB at most, of which the stimulus {size / 2**20:.1f}")


def warm(program):
    """The stimulus of the three stations leaves the state that is stored beside it."""
    circuit = HERE / "circuits" / "three_stations"
    with tempfile.TemporaryDirectory() as folder:
        saved = pathlib.Path(folder) / "state.csv"
        seconds, _, _ = least([program, "sim", "--save", saved, f"{circuit}.ld", f"{circuit}.stimulus.csv"], 9)
        if saved.read_bytes() != pathlib.Path(f"{circuit}.state.csv").read_bytes():
            wrong("the stimulus of the three stations leaves another state")
    print(f"{'three stations: warm up':26}{seconds * 1e3:10.2f}")


# name and text: programs that are read and checked
TEXTS = [
    ("1 MiB of declarations", declarations),
    ("100 full rungs", lambda: full_rungs(0)),
    ("100 full rungs, 64 blocks", lambda: full_rungs(64)),
    ("1 MiB of any bytes", any_bytes),
    ("1 MiB on one rung line", bars),
]


def main():
    program, runs = os.path.abspath(sys.argv[1]), int((sys.argv[2:] or ["9"])[0])
    print(f"{'case':26}{'ms':>10}{'rows':>12}{'looks':>10}{'ns a look':>12}{'ns a row':>12}")
    for case in CASES:
        seconds, _, said = least(causes_of(program, case), runs)
        report(case.name, seconds, said, (case.rows, case.looks))
    grouped(program, runs)
    instructions(program)
    held(program, runs)
    possible(program, runs)
    reached(program, runs)
    judged(program, runs)
    memory_of_states(program)
    for name, text in TEXTS:
        with tempfile.NamedTemporaryFile() as file:
            file.write(text())
            file.flush()
            for word in ("check", "uses"):
                seconds, status, said = least([program, word, file.name], runs)
                print(f"{name:26}{seconds * 1e3:10.2f}  {word}: status {status} {said.strip()}")
    warm(program)
    simulation(program)
    return 1 if WRONG else 0


if __name__ == "__main__":
    sys.exit(main())
