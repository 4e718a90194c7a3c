#!/usr/bin/env python3
"""Breaks texts in many ways and asks the built program: stress.py PROGRAM [--sample N].

Each program text of tests/programs, and two chains of bench/circuits, is cut at each byte, has each byte replaced, and each rung line widened; so are state texts,
stimuli and a project of ClassicLadder, but for the widening. What must come out isn't a table: a second reading says which programs are accepted and which rules
the others break (picture.py), and which record of a state or a stimulus is the first bad one; of a project the program text that is written
must be a program, or a fault names what can't be carried over, and nothing is written. A digest of all outcomes guards against silent change. Then requests are run in less and less memory: each is answered whole or refused by name, with nothing written.
With --sample N only that many broken texts are tried, chosen by a fixed seed.
"""
import collections
import hashlib
import os
import pathlib
import random
import re
import resource
import subprocess
import sys
import tempfile
from concurrent.futures import ThreadPoolExecutor

import picture

HERE = pathlib.Path(__file__).resolve().parent
DIGEST = HERE / "stress.digest"
BYTES = (0, ord("|"), ord("+"), 9, 255)
CHECKED = re.compile(r"rungs \d+ variables \d+ instances \d+\n")
FAULT = re.compile(r"fault (?:(V[1-8]) line (\d+)|(G\d+) rung (\d+) line (\d+))\n")
BIT, NUMBER = "[01]", r"(?:0|[1-9]\d*)"
Variant = collections.namedtuple("Variant", "name kind text")


# ---- variants

def cut(text):
    return [(f"cut {place}", text[:place]) for place in range(len(text))]


def replaced(text):
    return [(f"byte {place} is {byte}", text[:place] + bytes([byte]) + text[place + 1:])
            for place in range(len(text)) for byte in BYTES if text[place] != byte]


def widened(text):
    """Each rung line with a character at each place from its end to two past the right rail."""
    lines, found = text.split(b"\n"), []
    for number, line in enumerate(lines):
        if line[:1] in (b"|", b"+"):
            for place in range(len(line), picture.RAIL + 3):
                changed = [*lines[:number], line.ljust(place) + b"-", *lines[number + 1:]]
                found.append((f"line {number + 1} to place {place}", b"\n".join(changed)))
    return found


# ---- programs

def check_program(run, variant):
    """Nothing where the outcome is right, or what is wrong."""
    out, err, status = run("check", variant.text)
    rules = picture.broken(variant.text)
    if status == 0:
        return f"accepted, and {sorted(rules)} are broken" if rules or err or not CHECKED.fullmatch(out) else ""
    found = FAULT.fullmatch(err)
    if status != 1 or out or not found:
        return f"status {status}, {out!r}, {err!r}"
    line, code = int(found[2] or found[5]), found[1] or found[3]
    lines = variant.text.count(b"\n") + 1
    if not 1 <= line <= lines or code not in rules and not (code[0] == "V" and "V" in rules):
        return f"{err!r}, of {lines} lines; {sorted(rules)} are broken"
    return ""


# ---- states and stimuli

def records(text):
    """The records of a text without quotes: those of its lines that aren't empty."""
    return [line for line in re.split("\r\n|[\r\n]", text.decode("latin-1")) if line]


def is_small(digits):
    return int(digits) < 2**64


def is_timer(fields, moment):
    running, start = fields[3] == "1", int(fields[4])
    return start <= moment and (running or start == 0)


def first_bad_state(forms, text):
    """The number of the first record that isn't of its form, or None."""
    moment = 0
    rows = records(text)
    for number, form in enumerate(forms):
        if number == len(rows) or not re.fullmatch(form, rows[number]):
            return number + 1
        fields = rows[number].split(",")
        if fields[0] == "moment":
            moment = int(fields[1])
        bad = fields[0] == "moment" and not is_small(fields[1]) or fields[0] == "timer" and not is_timer(fields, moment)
        if bad or fields[0] == "counter" and not -32768 <= int(fields[3]) <= 32767:
            return number + 1
    return len(forms) + 1 if len(rows) > len(forms) else None


def form_of(record):
    """What a record may be, from one that is right."""
    fields = record.split(",")
    kinds = {"version": ["2"], "moment": [NUMBER], "var": [fields[1], BIT], "memory": [*fields[1:4], BIT],
             "timer": [fields[1], BIT, BIT, NUMBER, BIT], "counter": [fields[1], BIT, "(?:0|-?[1-9]\\d*)", BIT], "bistable": [fields[1], BIT]}
    return ",".join([fields[0], *kinds[fields[0]]])


def check_state(run, variant, forms):
    out, err, status = run("causes", variant.text)
    bad = first_bad_state(forms, variant.text)
    wanted = "" if bad is None else f"fault X2 state row {bad}\n"
    right = status == 1 and not out and err == wanted if wanted else status == 0 and out.startswith("number\n") and err.startswith("rows ")
    return "" if right else f"status {status}, {out!r}, {err!r}; wanted {wanted!r}"


def header_fault(inputs, fields):
    """The fault of a header, or nothing."""
    if fields[0] != "moment":
        return "fault X2 stimulus row 1\n"
    for place, word in enumerate(fields[1:]):
        if word.upper() not in inputs:
            return "fault X3 row 1\n"
        if word.upper() in (other.upper() for other in fields[1:place + 1]):
            return "fault X2 stimulus row 1\n"
    return ""


def stimulus_fault(inputs, text):
    """The fault of a stimulus or nothing, and how many scans there are."""
    rows = [row.split(",") for row in records(text)]
    if not rows or header_fault(inputs, rows[0]):
        return (header_fault(inputs, rows[0]) if rows else "fault X2 stimulus row 1\n"), None
    last = 0
    for number, row in enumerate(rows[1:], 2):
        good = len(row) == len(rows[0]) and re.fullmatch(NUMBER, row[0]) and is_small(row[0]) and all(bit in ("0", "1") for bit in row[1:])
        if not good:
            return f"fault X2 stimulus row {number}\n", number - 2
        if int(row[0]) < last:
            return f"fault X4 row {number}\n", number - 2
        last = int(row[0])
    return "", len(rows) - 1


def check_stimulus(run, variant, inputs):
    out, err, status = run("sim", variant.text)
    wanted, scans = stimulus_fault(inputs, variant.text)
    lines = 0 if scans is None else scans + 1
    right = (status, err) == (1 if wanted else 0, wanted) and out.count("\n") == lines
    return "" if right else f"status {status}, {out!r}, {err!r}; wanted {wanted!r} and {lines} lines"


# ---- projects

PROJECT_FAULT = re.compile(
    r"fault (?:P1|P2 rung \d+|P3 [a-z_]+|P[45] section \d+|P6 rung \d+ row [1-6] column (?:[1-9]|10) \w+|P7 (?:rungs|variables|blocks))")


def check_project(run, variant):
    out, err, status = run("import", variant.text)
    if status:
        lines = err.splitlines()
        is_named = status == 1 and not out and lines and all(PROJECT_FAULT.fullmatch(line) for line in lines)
        return "" if is_named else f"status {status}, {out[:80]!r}, {err[:80]!r}"
    if err:
        return f"accepted, with {err[:80]!r}"
    report, fault, status = run("check", out.encode("latin-1"))
    return "" if not status and CHECKED.fullmatch(report) else f"the text that is written is no program: {fault!r}"


# ---- running

class Runner:
    """Runs the program on a text, beside files that stay."""

    def __init__(self, program, folder):
        self.program, self.folder = program, folder

    def runner(self, words):
        """What runs a subcommand with these words, where None stands for the file of the text."""

        def run(subcommand, text):
            with tempfile.NamedTemporaryFile(dir=self.folder) as file:
                file.write(text)
                file.flush()
                command = [self.program, subcommand, *(word or file.name for word in words)]
                done = subprocess.run(command, stdin=subprocess.DEVNULL, capture_output=True, check=False, timeout=60)
            return done.stdout.decode("latin-1"), done.stderr.decode("latin-1"), done.returncode

        return run


def outcome(run, check, subcommand, variant):
    """A line of the digest, and what is wrong with it."""
    seen = []

    def watched(word, text):
        seen.append(run(word, text))
        return seen[-1]

    wrong = check(watched, variant)
    out, err, status = seen[-1]
    return f"{variant.name}: {status} {out!r} {err!r}", (err.split(" line")[0].split(" row")[0].strip() or "done"), wrong


CHAINS = [HERE.parent / "bench" / "circuits" / name for name in ("chain24.ld", "chain32.ld")]


def program_jobs(program, folder):
    run = Runner(program, folder).runner([None])
    for path in sorted((HERE / "programs").iterdir()) + CHAINS:
        text = path.read_bytes()
        for name, changed in cut(text) + replaced(text) + widened(text):
            yield run, check_program, "check", Variant(f"{path.name} {name}", "program", changed)


# programs, a coil of each, and a stimulus that leaves something in the state
SCANNED = {
    "motor.ld": ("Motor", b"moment,Start,Stop\n0,1,0\n10,0,0\n12,0,1\n"),
    "on_delay.ld": ("Y", b"moment,A\n0,1\n40,1\n6000,1\n"),
    "off_delay.ld": ("Y", b"moment,A\n0,1\n40,0\n45,0\n"),
    "pulse.ld": ("Y", b"moment,A\n3,1\n5,0\n"),
    "up_counter.ld": ("Y", b"moment,Count,Zero\n0,1,0\n1,0,0\n2,1,0\n"),
    "loaded_counter.ld": ("Y", b"moment,Down,Load\n0,0,1\n1,1,0\n2,0,0\n3,1,0\n4,0,0\n5,1,0\n"),
    "set_dominant.ld": ("Y", b"moment,Set,Clear\n0,1,0\n1,0,0\n"),
    "rising.ld": ("Y", b"moment,A\n5,1\n"),
}


def text_jobs(program, folder):
    for name, (coil, stimulus) in SCANNED.items():
        path, saved = str(HERE / "programs" / name), str(pathlib.Path(folder) / f"{name}.csv")
        Runner(program, folder).runner(["--save", saved, path, None])("sim", stimulus)
        state = pathlib.Path(saved).read_bytes()
        forms = [form_of(record) for record in records(state)]
        variables, _, _ = picture.declarations(pathlib.Path(path).read_bytes())
        inputs = {variable for variable, letter in variables.items() if letter == "I"}
        run = Runner(program, folder).runner(["--state", None, path, coil])
        for change, text in cut(state) + replaced(state):
            yield run, lambda run, variant, forms=forms: check_state(run, variant, forms), "causes", Variant(f"state of {name} {change}", "state", text)
        run = Runner(program, folder).runner([path, None])
        for change, text in cut(stimulus) + replaced(stimulus):
            yield run, lambda run, variant, inputs=inputs: check_stimulus(run, variant, inputs), "sim", Variant(f"stimulus of {name} {change}", "stimulus", text)


def project_jobs(program, folder):
    run = Runner(program, folder).runner([None])
    for path in sorted((HERE.parent / "examples" / "classicladder").glob("*.clp")):
        text = path.read_bytes()
        for name, changed in cut(text) + replaced(text):
            yield run, check_project, "import", Variant(f"{path.name} {name}", "project", changed)


# ---- less and less memory

STATIONS = HERE.parent / "bench" / "circuits" / "three_stations"
REQUESTS = (
    ["check", f"{STATIONS}.ld"],
    ["uses", f"{STATIONS}.ld"],
    ["never", f"{STATIONS}.ld"],
    ["causes", f"{STATIONS}.ld", "Feed", "EStop", "Guard", "Start", "Stop", "Auto", "Manual", "Clear", "Air"],
    ["causes", "--state", f"{STATIONS}.state.csv", "--at", "1600", f"{STATIONS}.ld", "Run2", "EStop", "Guard", "Start"],
    ["reach", f"{STATIONS}.ld", "Feed"],
    ["sim", "--save", "saved.csv", f"{STATIONS}.ld", f"{STATIONS}.stimulus.csv"],
)
REFUSED = (b"fault V9\n", b"fault C7\n", b"fault X7\n")


def starved(program, words, folder, size):
    """Standard output, standard error and status with so many KiB of address space, and what was saved."""
    limit = lambda: resource.setrlimit(resource.RLIMIT_AS, (size * 1024, size * 1024))
    done = subprocess.run([program, *words], cwd=folder, stdin=subprocess.DEVNULL, capture_output=True, preexec_fn=limit, check=False, timeout=60)
    saved = pathlib.Path(folder) / "saved.csv"
    return done.stdout, done.stderr, done.returncode, saved.read_bytes() if saved.exists() else b""


def with_less_memory(program, words):
    """How often the request was refused before it was answered whole, and what is wrong."""
    refused = 0
    with tempfile.TemporaryDirectory() as folder:
        whole = starved(program, words, folder, 1 << 20)
        for size in range(2048, 1 << 16, 4):
            (pathlib.Path(folder) / "saved.csv").unlink(missing_ok=True)
            out, err, status, saved = starved(program, words, folder, size)
            if status == 127:
                continue  # the system could not load the program
            if (out, err, status, saved) == whole:
                return refused, ""
            is_prefix = whole[0].startswith(out) if words[0] == "sim" else not out
            if status != 1 or err not in REFUSED or not is_prefix or saved:
                return refused, f"{words[0]} in {size} KiB: status {status}, {out[:80]!r}, {err!r}, saved {saved[:40]!r}"
            refused += 1
    return refused, f"{words[0]} is never answered"


def memory(program):
    """What is wrong with requests in less and less memory."""
    wrong = []
    for words in REQUESTS:
        refused, fault = with_less_memory(program, words)
        print(f"{'memory':10}{words[0]:24}{refused:8}  refused, then whole")
        wrong += [fault] if fault else []
    return wrong


def tried(jobs):
    """The lines of each digest in order, how often each outcome came, and what is wrong."""
    lines, counts, wrong = {"texts": [], "projects": []}, collections.Counter(), []
    with ThreadPoolExecutor(os.cpu_count()) as pool:
        for job, (line, kind, fault) in zip(jobs, pool.map(lambda job: outcome(*job), jobs)):
            lines["projects" if job[3].kind == "project" else "texts"].append(line)
            counts[job[3].kind, kind] += 1
            if fault:
                wrong.append(f"{job[3].name}: {fault}")
    return lines, counts, wrong


def main():
    program, sample = os.path.abspath(sys.argv[1]), int((sys.argv[3:] or ["0"])[0])
    with tempfile.TemporaryDirectory() as folder:
        jobs = [*program_jobs(program, folder), *text_jobs(program, folder), *project_jobs(program, folder)]
        jobs = random.Random(1).sample(jobs, sample) if sample else jobs
        lines, counts, wrong = tried(jobs)
    print(*wrong[:20], sep="\n", end="\n" if wrong else "")
    if not sample:
        for (kind, fault), count in sorted(counts.items()):
            print(f"{kind:10}{fault:24}{count:8}")
        kept = dict(line.split() for line in DIGEST.read_text("ascii").splitlines())
        for name, outcomes in lines.items():
            digest = hashlib.sha256("\n".join(outcomes).encode()).hexdigest()
            wrong += [] if digest == kept.get(name) else [f"the digest of all {name} is {digest}, and {kept.get(name)} is kept in {DIGEST.name}"]
        wrong += memory(program)
        print(*wrong[-5:], sep="\n", end="\n" if wrong else "")
    print(f"{len(jobs) - len(wrong)} of {len(jobs)} broken texts are answered as they must be")
    return 1 if wrong else 0


if __name__ == "__main__":
    sys.exit(main())
