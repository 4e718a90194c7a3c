#!/usr/bin/env python3
"""Stops lists that tell how far they are: progress.py PROGRAM [STOPS].

Lists of causes, with something assumed too, and of what a change of a program changes. A list with `--progress` must have the bytes and the counts of the same list without it, and its lines must ascend. Stopped at any moment, the
file of its rows must have all rows up to the last number that was told; and what `--after` lists from there on must complete it. So it must
where the list ends at a number, begins after one, or has a limit, and where the lines or the rows can't be written. On a terminal it tells by
itself. A trace with `--progress` must have the same rows, and a line after each million scans, of changes after each ten million. A search for a run with `--progress` must have the answer of the same search without it, its lines must ascend, and it must end with its first line
where none can be written.
"""
import os
import pathlib
import pty
import random
import re
import resource
import signal
import subprocess
import sys
import tempfile
import time

HERE = pathlib.Path(__file__).resolve().parent
CIRCUIT = HERE.parent / "bench" / "circuits" / "xorand32.ld"
MOTOR = HERE / "programs" / "motor.ld"
INPUTS = [f"I{number}" for number in range(1, 33)]
LINE = re.compile(rb"reached ([0-9]+)\n")
SEARCH = ["reach", str(HERE.parent / "bench" / "circuits" / "latches7.ld"), "Y"]
STEP = re.compile(rb"^states ([0-9]+) scans ([0-9]+)\n", re.MULTILINE)


def run(program, words, **how):
    done = subprocess.run([program, *words], stdin=subprocess.DEVNULL, capture_output=True, check=False, timeout=300, **how)
    return done.returncode, done.stdout, done.stderr


def told(text):
    """The numbers that were told, and what was said besides."""
    return [int(number) for number in LINE.findall(text)], LINE.sub(b"", text)


def part(rows, last):
    """The text of a list up to a number."""
    lines = rows.splitlines(keepends=True)
    return b"".join([lines[0], *(line for line in lines[1:] if int(line.split(b",", 1)[0]) <= last)])


def with_options(words, options):
    """The words of a list, with options behind the subcommand."""
    return [words[0], *options, *words[1:]]


def alike(program, words, options):
    """What differs between a list that tells and the same list that doesn't."""
    status, rows, counts = run(program, with_options(words, options))
    other, same, said = run(program, with_options(words, ["--progress", *options]))
    numbers, left = told(said)
    wrong = []
    if (other, same, left) != (status, rows, counts):
        wrong.append(f"{words[0]} {options}: status {other}, {len(same)} bytes, {left!r} in place of {status}, {len(rows)}, {counts!r}")
    if numbers != sorted(set(numbers)):
        wrong.append(f"{words[0]} {options}: the lines don't ascend: {numbers}")
    return wrong, numbers, rows


def stopped(program, words, rows, wait):
    """What is wrong where the list is killed so long after its first line, or after its start where it is negative."""
    with tempfile.TemporaryDirectory() as folder:
        path = pathlib.Path(folder) / "rows.csv"
        with open(path, "wb") as out:
            process = subprocess.Popen([program, *with_options(words, ["--progress"])], stdin=subprocess.DEVNULL, stdout=out, stderr=subprocess.PIPE)
        first = process.stderr.readline() if wait >= 0 else b""
        time.sleep(abs(wait))
        process.send_signal(signal.SIGKILL)
        said = first + process.stderr.read()
        process.stderr.close()
        process.wait()
        numbers, _ = told(said)
        has = path.read_bytes()
    if not rows.startswith(has):
        return [f"{words[0]} stopped after {wait:.3f} s: the file is no front of the list"]
    if not numbers:
        return []
    front = part(rows, numbers[-1])
    if not has.startswith(front):
        return [f"{words[0]} stopped after {wait:.3f} s: reached {numbers[-1]}, but of {len(front)} bytes {len(has)} are written"]
    status, more, _ = run(program, with_options(words, ["--after", str(numbers[-1])]))
    if status != 0 or front + more.split(b"\n", 1)[1] != rows:
        return [f"{words[0]} stopped after {wait:.3f} s: what is listed after {numbers[-1]} doesn't complete the list"]
    return []


def unwritten(program, words, rows):
    """What is wrong where the rows, or the lines, can't be written to their end."""
    wrong = []
    with tempfile.TemporaryDirectory() as folder:
        path = pathlib.Path(folder) / "rows.csv"
        limit = len(rows) // 2
        with open(path, "wb") as out:
            done = subprocess.run([program, *with_options(words, ["--progress"])], stdin=subprocess.DEVNULL, stdout=out, stderr=subprocess.PIPE, check=False, timeout=300,
                                  preexec_fn=lambda: (signal.signal(signal.SIGXFSZ, signal.SIG_IGN), resource.setrlimit(resource.RLIMIT_FSIZE, (limit, limit))))
        numbers, left = told(done.stderr)
        has = path.read_bytes()
        if (done.returncode, left) != (1, b"fault X6\n") or not rows.startswith(has) or numbers and not has.startswith(part(rows, numbers[-1])):
            wrong.append(f"{words[0]}: rows that can't be written: status {done.returncode}, {left!r}, {len(has)} bytes, reached {numbers[-1:]}")
        with open(path, "wb") as out, open("/dev/full", "wb") as full:
            done = subprocess.run([program, *with_options(words, ["--progress"])], stdin=subprocess.DEVNULL, stdout=out, stderr=full, check=False, timeout=300)
        has = path.read_bytes()
        if done.returncode != 1 or not rows.startswith(has) or has == rows:
            wrong.append(f"{words[0]}: lines that can't be written: status {done.returncode}, {len(has)} of {len(rows)} bytes")
    return wrong


def on_terminal(program, words):
    """What is wrong where standard error is a terminal and the rows go elsewhere: the list tells by itself."""
    master, terminal = pty.openpty()
    process = subprocess.Popen([program, *words], stdin=subprocess.DEVNULL, stdout=subprocess.DEVNULL, stderr=terminal)
    os.close(terminal)
    text = b""
    try:
        while more := os.read(master, 65536):
            text += more
    except OSError:
        pass
    os.close(master)
    status = process.wait()
    return [f"{words[0]} on a terminal: status {status}, {text!r}"] if status != 0 or b"reached " not in text else []


def searched(program):
    """What is wrong with a search for a run that tells how far it is."""
    how = {"stdin": subprocess.DEVNULL, "stdout": subprocess.PIPE, "check": False, "timeout": 300}
    silent, telling = (subprocess.run([program, *SEARCH, *words], stderr=subprocess.PIPE, **how) for words in ([], ["--progress"]))
    with open("/dev/full", "wb") as full:
        unwritten_line = subprocess.run([program, *SEARCH, "--progress"], stderr=full, **how)
    wrong, lines = [], STEP.findall(telling.stderr)
    if not lines or (telling.returncode, telling.stdout, STEP.sub(b"", telling.stderr)) != (silent.returncode, silent.stdout, silent.stderr):
        wrong.append(f"a search: status {telling.returncode}, {telling.stderr!r} in place of {silent.returncode}, {silent.stderr!r}")
    states = [int(number) for number, _ in lines]
    scans = [int(number) for _, number in lines]
    if states != sorted(states) or scans != sorted(set(scans)) or 0 in states + scans:
        wrong.append(f"a search: the lines don't ascend: {lines}")
    if (unwritten_line.returncode, unwritten_line.stdout) != (1, b""):
        wrong.append(f"a search whose lines can't be written: status {unwritten_line.returncode}")
    return wrong


def traced(program, folder):
    """What is wrong with a trace of 2,500,001 scans, or one of changes of 20,000,001, that tells how far it is, and how many were tried."""
    stimulus = pathlib.Path(folder) / "stimulus.csv"
    wrong = []
    for end, options, each in ((2_500_000, [], 1_000_000), (20_000_000, ["--changes"], 10_000_000)):
        stimulus.write_text(f"moment,Start\n0,1\n{end},0\n")
        words = ["sim", "--every", "1", *options, str(MOTOR), str(stimulus)]
        status, rows, said = run(program, words)
        other, same, lines = run(program, with_options(words, ["--progress"]))
        numbers, left = told(lines)
        if (status, said, other, same, left) != (0, b"", 0, rows, b"") or numbers != list(range(each - 1, end + 1, each)):
            wrong.append(f"a trace {options}: status {other}, reached {numbers}, {left!r}")
    wrong += on_terminal(program, words)
    with open("/dev/full", "wb") as full:
        done = subprocess.run([program, *with_options(words, ["--progress"])], stdin=subprocess.DEVNULL, stdout=subprocess.PIPE, stderr=full, check=False, timeout=300)
    if done.returncode != 1 or not rows.startswith(done.stdout):
        wrong.append(f"a trace whose lines can't be written: status {done.returncode}")
    return wrong, 4


def listed(program, words, stops):
    """What is wrong with a list that tells how far it is, and how many lists were tried."""
    wrong, numbers, rows = alike(program, words, [])
    if not numbers:
        wrong.append(f"{words[0]}: a list of several seconds told nothing")
    tried = 1
    middle = numbers[len(numbers) // 2] if numbers else 1 << 31
    for options in (["--upto", str(middle)], ["--after", str(middle)], ["--limit", "300000"], ["--quiet"]):
        wrong += alike(program, words, options)[0]
        tried += 1
    chance = random.Random(20261126)
    for number in range(stops):
        wrong += stopped(program, words, rows, chance.uniform(0, 0.5) if number % 3 else -chance.uniform(0.001, 0.2))
        tried += 1
    wrong += unwritten(program, words, rows)
    wrong += on_terminal(program, words)
    return wrong, tried + 3


def changed(folder):
    """The circuit with another contact in its last rung: the file of its text."""
    lines = CIRCUIT.read_text().splitlines(keepends=True)
    lines[-1] = "|/|".join(lines[-1].rsplit("| |", 1))
    path = pathlib.Path(folder) / "changed.ld"
    path.write_text("".join(lines))
    return str(path)


def main():
    program = os.path.abspath(sys.argv[1])
    stops = int(sys.argv[2]) if len(sys.argv) > 2 else 4
    wrong, tried = searched(program), 1
    with tempfile.TemporaryDirectory() as folder:
        more, count = traced(program, folder)
        wrong, tried = wrong + more, tried + count
        for words in (["causes", str(CIRCUIT), "Y", *INPUTS], ["causes", "--assume", "I1 <> I32", str(CIRCUIT), "Y", *INPUTS],
                      ["diff", str(CIRCUIT), changed(folder), "Y", *INPUTS]):
            more, count = listed(program, words, stops)
            wrong, tried = wrong + more, tried + count
    for line in wrong:
        print(line)
    print(f"{tried - len(wrong)} of {tried} lists, traces and searches that tell how far they are passed")
    return 1 if wrong else 0


if __name__ == "__main__":
    sys.exit(main())
