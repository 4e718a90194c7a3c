#!/usr/bin/env python3
"""Compares `ladder import FILE.xml` with a run of the networks: networks.py PROGRAM [NUMBER [SEED]].

Each of so many programs (200) is made at random: contacts, coils, blocks, returns and variables in networks that needn't be in series and parallel,
and edges and triggers (network_programs.py). It is written as a project in PLCopen XML as one of three tools does: with positions, in the order of the
document, or with execution numbers (network_texts.py); a fourth of them is imported by its name, beside another program or alone. What is imported must
be a program (`ladder check`), and in 40 scans of a random stimulus each variable and each output of a block must have the value that it has here: the
elements act one after the other, each by the power that has a way to it from the left. A part of the programs has blocks that aren't known, and is
imported with --open: each output of such a block on which something depends must be an input of the drawing, which has any value in each scan. A
program that is refused must have what the fault line says, and one that has such a thing must be refused; at least 85 of 100 are accepted.

Then 20 short texts are broken at 400 places each, or at all places, each in four ways, where NUMBER is 2,000 or more: a byte is removed, doubled or
replaced, or the text ends there. The answer is a program, or one line with status 1.
"""
import os
import pathlib
import random
import re
import subprocess
import sys
import tempfile
from collections import Counter
from concurrent.futures import ProcessPoolExecutor

from exporting import asked, difference, names_of, scanned, stimulus_of, words_of
from network_programs import Networks, Program, in_order
from network_texts import Writer

SHORT, SHORT_TEXTS, PLACES, MANY = 3000, 20, 400, 2000
LEAST_ACCEPTED = 85
FAULT = re.compile(rb"fault [NP]\d[^\n]*\n")


def project(seed, small):
    """A program, what writes it, and the text."""
    chance = random.Random(seed)
    program = Program(chance, small)
    writer = Writer(program, chance)
    writer.is_named = seed % 4 == 1
    return program, writer, writer.text()


# ---- the comparison


def imported(program, folder, text, *words):
    """The drawing, or what is said of why there is none."""
    (folder / "project.xml").write_text(text, "utf-8", newline="")
    status, drawing, fault = asked([program], folder, "import", "project.xml", *words)
    assert (status, bool(drawing), bool(fault)) in ((0, True, False), (1, False, True)), f"status {status}\n{drawing}{fault}"
    return drawing, fault


def opened_names(writer, drawing):
    """The outputs of blocks that aren't known by the names that their inputs have in the drawing."""
    words, opened = words_of(drawing), writer.opened()
    assert set(opened) <= set(words), f"no input for one of {sorted(opened)}\n{drawing}"
    return {words[name]: output for name, output in opened.items()}


def compared(program, folder, seed, made):
    """What is found of a program."""
    source, writer, text = made
    drawing, fault = imported(program, folder, text, *["--open"] * writer.is_opened, *["--pou", source.name] * writer.is_named)
    due = writer.refusals()
    if fault:
        assert fault in due or re.fullmatch("fault N6 .*\n", fault), f"{fault}refused, not one of {sorted(due)}"
        return " ".join(fault.split()[1::3 if "N5" in fault else 1])
    assert not due, f"not refused by any of {sorted(due)}\n{drawing}"
    (folder / "program.ld").write_text(drawing)
    assert asked([program], folder, "check", "program.ld")[::2] == (0, ""), f"no program:\n{drawing}"
    opened = opened_names(writer, drawing)
    names = names_of(source, drawing) | opened
    source.inputs = [*source.inputs, *opened.values()]
    declared = [key for key, value in names.items() if value in source.inputs]
    records = stimulus_of(random.Random(seed), declared)
    rows = scanned(program, folder, "program.ld", declared, records)
    shown = {names[key] for key in rows[0] if key in names}
    wanted = {*source.initial, *map(source.output, source.blocks)} - {f"{name}.Q" for name, _ in source.triggers}
    assert shown | set(source.inputs) >= wanted, f"not all is there:\n{drawing}"
    wrong = difference(rows, names, Networks(source), in_order(writer.parts), records)
    assert wrong is None, f"{wrong}\n{drawing}"
    return "alike"


def trial(program, seed):
    """What is found of a program made at random."""
    made = project(seed, seed % 5 == 0)
    with tempfile.TemporaryDirectory() as name:
        try:
            return compared(program, pathlib.Path(name), seed, made)
        except AssertionError as error:
            return f"{made[2]}\nseed {seed}: {error}"


# ---- broken texts


def broken(text, place, way, byte):
    """The text with a byte removed, doubled or replaced, or with its end at the place."""
    put = {"removed": b"", "doubled": text[place:place + 1] * 2, "replaced": byte, "cut": b""}[way]
    return text[:place] + put + (b"" if way == "cut" else text[place + 1:])


def answered(program, folder, text, words):
    """What is wrong with the answer to a broken text, which is imported with these words."""
    (folder / "broken.xml").write_bytes(text)
    done = subprocess.run([program, "import", "broken.xml", *words], cwd=folder, capture_output=True, check=False, timeout=60)
    if done.returncode == 1 and not done.stdout and FAULT.fullmatch(done.stderr):
        return None
    if done.returncode == 0 and done.stdout and not done.stderr:
        (folder / "broken.ld").write_bytes(done.stdout)
        check = subprocess.run([program, "check", "broken.ld"], cwd=folder, capture_output=True, check=False)
        return None if check.returncode == 0 else f"{text}\nno program: {check.stderr}"
    return f"{text}\nstatus {done.returncode}, {done.stdout}, {done.stderr}"


def breakings(text, chance, everywhere):
    """Places, what is done there, and a byte to put there."""
    ways = ("removed", "doubled", "replaced", "cut")
    if everywhere:
        return [(place, way, bytes([chance.randrange(256)])) for place in range(len(text)) for way in ways]
    bytes_put = [*map(bytes, ([0], [255], [128])), b"<", b">", b"&", b"'", b'"', b"/", b" ", b"\n", b"0", b"9", b"a", b"-"]
    return [(chance.randrange(len(text)), chance.choice(ways), chance.choice(bytes_put)) for _ in range(PLACES)]


def broken_trial(program, seed, everywhere):
    """What is wrong with each answer to a text that is broken, None where nothing is."""
    chance, text = random.Random(seed), b""
    while not 0 < len(text) < SHORT:
        _, writer, written = project(chance.randrange(1 << 40), True)
        text, words = written.encode(), ["--open"] * writer.is_opened
    with tempfile.TemporaryDirectory() as name:
        return [answered(program, pathlib.Path(name), broken(text, *change), words) for change in breakings(text, chance, everywhere)]


# ---- the whole


def main():
    words = sys.argv[1:] + ["200", "1"][max(0, len(sys.argv) - 2):]
    if len(words) != 3:
        sys.exit(__doc__)
    program, number, seed = os.path.abspath(words[0]), *map(int, words[1:])
    texts = min(SHORT_TEXTS, max(1, number // 10))
    with ProcessPoolExecutor(len(os.sched_getaffinity(0))) as pool:
        answers = pool.map(broken_trial, [program] * texts, range(seed * 1009, seed * 1009 + texts), [number >= MANY] * texts)
        found = Counter(pool.map(trial, [program] * number, range(seed * 1_000_003, seed * 1_000_003 + number), chunksize=4))
        answers = [answer for some in answers for answer in some]
    alike = found["alike"]
    wrong = [what for what in found if "\n" in what] + [answer for answer in answers if answer]
    print(*wrong[:3], sep="\n")
    right, told = sum(many for what, many in found.items() if "\n" not in what), sum(answer is None for answer in answers)
    kinds = ", ".join(f"{what} {many}" for what, many in sorted(found.items()) if "\n" not in what)
    if number >= 100 and not wrong and alike * 100 < LEAST_ACCEPTED * number:
        wrong.append("too few are accepted")
        print(*wrong)
    print(f"{right} of {number} networks passed: {kinds}; {told} of {len(answers)} broken texts answered")
    return 1 if wrong else 0


if __name__ == "__main__":
    sys.exit(main())
