#!/usr/bin/env python3
"""Asks the built program for the runs that switch something on: reaching.py PROGRAM [NUMBER [SEED]] [--examples] [--jobs N].

First the examples, each name and each pair of names, and the test programs, those of the cases too, each name: each answer is settled, but
for UNSETTLED. Texts that break a rule are passed over, and those that declare what `model.py` doesn't read. A run is scanned again by
`running.py`: what is asked for is ON after its last record, and not before. What `never` lists has no run, nor have the pairs of
`never --pairs`. With --examples that is all.

Then random drawings with three inputs, from the fresh state, at any moments and in a rhythm. Their states are gone through breadth first,
by `running.py` too, and their timers take at most 4 ms, so that each time between two scans is tried: each name and some pairs must have a
run as short as there is one, or none. In half of the drawings something is assumed of the inputs: then only scans are made with whose inputs a random
expression is true, and so are those of a run; where no inputs make it true, it is fault C9. What `never`, with the same expression, lists has its
value after each scan that was gone through, and of its pairs never both are ON; how many names it leaves out that have it too is counted. At any moments an answer may be a longer run, or unsettled: they are counted, and no run may be
shorter than such an answer says. A drawing of too many states is passed over. At any moments the rows of `causes --any --runs` are
compared too, of each coil with some of the inputs: each assignment to which a run comes has a row, and no other is marked `r`; rows that are
left open are counted.
"""
import argparse
import concurrent.futures
import itertools
import os
import pathlib
import random
import re
import sys
import tempfile
from collections import Counter
from typing import NamedTuple

import differential
from assuming import counts_end, random_expression, truth, words_of, written
from model import OUTPUTS, Program
from running import Running
from transcript import content, parts, run

HERE = pathlib.Path(__file__).resolve().parent.parent
ANSWER = re.compile(r"(run|none|unsettled)(?: scans (\d+))? states \d+(?: assumed 1\n(?:assume 1 is always true\n)?|\n)")
TIMERS = ("TON", "TOF", "TP")
COMMENT = re.compile(r"\(\*.*?\*\)|//[^\n]*", re.DOTALL)
NOW, MOST_STATES, RHYTHMS = 10 ** 9, 400, (1, 3, 10)
# Where two timers begin together, and a name needs one of them to end before the other.
UNSETTLED = {("tests/cases/reach/timers-that-begin-together.case", ("APART",)), ("tests/cases/causes/any/runs/not-settled.case", ("Y",))}


def program_of(text):
    """The program of a text, whose declarations may have comments."""
    head, end, drawing = text.partition("END_VAR")
    return Program(COMMENT.sub("", head) + end + drawing)


def instances_of(program):
    """The kind and the preset of each instance."""
    return program.rungs[0].instances if program.rungs else {}


def names_of(program):
    """The variables that coils write, and the outputs of the blocks that are drawn."""
    written = [name for name in program.variables if any(rung.has_coil(name) for rung in program.rungs)]
    drawn = {rung.name(row, column) for rung in program.rungs for row, column, _ in rung.places()}
    return written + sorted(name + OUTPUTS.get(kind, ".Q") for name, (kind, _) in instances_of(program).items() if name in drawn)


def drawn_as(asked):
    """What is asked for, as `never` names it: a block without its output."""
    return [name.partition(".")[0] for name in asked]


def ask(tool, folder, file, names, *words):
    """The verdict, the number of scans that the answer tells, and the records of the run."""
    both = ["--both", names[1]] if len(names) > 1 else []
    out, err, status = run(tool, ["reach", *words, *both, file, names[0]], folder)
    found = ANSWER.fullmatch(err.decode())
    if not found or status:
        raise ValueError(f"{file} {names}: {err.decode()}{status}")
    header, *rows = [line.split(",") for line in out.decode().splitlines()] or [[]]
    records = [(int(row[0]), {name.upper(): bit == "1" for name, bit in zip(header[1:], row[1:])}) for row in rows]
    return found[1], found[2] and int(found[2]), records


def filled(records, every):
    """The records with those that a rhythm puts between them."""
    for (moment, inputs), after in itertools.zip_longest(records, records[1:]):
        yield moment, inputs
        if after and every:
            yield from ((between, inputs) for between in range(moment + every, after[0], every))


def is_right(program, names, records, scans, every=None):
    """Whether the run switches on what is asked for with its last scan, has so many scans, and moments that don't fall, or those of the rhythm."""
    scanned = list(filled(records, every))
    state, on = Running(program), []
    for moment, inputs in scanned:
        state.scan(inputs, moment)
        on.append(all(state.values[name] for name in names))
    moments = [moment for moment, _ in scanned]
    return on == [False] * (scans - 1) + [True] and moments == (list(range(0, scans * every, every)) if every else sorted(moments))


# ---- the examples and the test programs

class Circuit(NamedTuple):
    """A program, where it is from, and whether its pairs are asked for too."""

    place: str
    text: bytes
    with_pairs: bool


def in_case(path):
    """The programs that a case shows."""
    for _, words, lines in parts(path.read_text("ascii")):
        if words and words[0] == "file" and words[1].endswith(".ld"):
            yield content(words, lines)


def circuits():
    """The examples and the test programs, each text once, those of the cases too."""
    found = {path.read_bytes(): Circuit(str(path.relative_to(HERE)), path.read_bytes(), True) for path in sorted(HERE.glob("examples/*/*.ld"))}
    for path in sorted(HERE.glob("tests/programs/*.ld")):
        found.setdefault(path.read_bytes(), Circuit(str(path.relative_to(HERE)), path.read_bytes(), False))
    for path in sorted(HERE.glob("tests/cases/**/*.case")):
        for text in in_case(path):
            found.setdefault(text, Circuit(str(path.relative_to(HERE)), text, False))
    return list(found.values())


def second_reading(tool, folder, text):
    """The program, or None where it breaks a rule, or declares what the second reading doesn't know, such as hours."""
    out, _, status = run(tool, ["check", "program.ld"], folder)
    if status:
        return None
    try:
        program = program_of(text.decode("ascii"))
    except ValueError:
        return None
    counts = f"rungs {len(program.rungs)} variables {len(program.variables)} instances {len(instances_of(program))}\n"
    return program if out.decode() == counts else None


def never_listed(tool, folder):
    """The names that never come ON, and the pairs that are never both ON."""
    alone, pairs = (run(tool, ["never", *words, "program.ld"], folder)[0].decode().upper().splitlines()[1:] for words in ([], ["--pairs"]))
    return {row.split(",")[0] for row in alone}, {frozenset(row.split(",")) for row in pairs}


def check_circuit(tool, circuit):
    """Asks for each name of a program, and for each pair."""
    tally = Counter()
    with tempfile.TemporaryDirectory() as folder:
        pathlib.Path(folder, "program.ld").write_bytes(circuit.text)
        program = second_reading(tool, folder, circuit.text)
        if program is None:
            tally["texts passed over"] += 1
            return tally
        listed = never_listed(tool, folder)
        names = [(name,) for name in names_of(program)]
        pairs = list(itertools.combinations(names_of(program), 2)) if circuit.with_pairs else []
        for asked in names + pairs:
            check_asked(tool, folder, circuit.place, program, asked, listed, tally)
    return tally


def check_asked(tool, folder, place, program, asked, listed, tally):
    """Whether one question is settled, its run is right, and `never` says nothing else."""
    verdict, scans, records = ask(tool, folder, "program.ld", asked)
    tally[f"{place.split('/')[0]}, {'pairs' if len(asked) > 1 else 'names'}: {verdict}"] += 1
    named = drawn_as(asked)
    is_listed = any(name in listed[0] for name in named) or frozenset(named) in listed[1]
    is_open = (verdict == "unsettled") != ((place, asked) in UNSETTLED)
    if is_open or is_listed and verdict != "none" or verdict == "run" and not is_right(program, asked, records, scans):
        tally["different"] += 1
        print(f"{place} {' '.join(asked)}: {verdict}, listed by never: {is_listed}", flush=True)


def check_circuits(words, tool, tally):
    with concurrent.futures.ProcessPoolExecutor(words.jobs) as pool:
        for part in pool.map(check_circuit, itertools.repeat(tool), circuits(), chunksize=4):
            tally.update(part)


# ---- random drawings

class States:
    """All states that a program reaches from the fresh one, and after how many scans each thing asked for first is ON."""

    def __init__(self, program, every, asked, assumed=True):
        self.program, self.instances, self.every, self.assumed = program, instances_of(program), every, assumed
        inputs = [dict(zip(program.inputs, bits)) for bits in itertools.product((False, True), repeat=len(program.inputs))]
        self.inputs = [values for values in inputs if truth(assumed, values)]
        self.first = dict.fromkeys(asked)
        self.seen, self.after = set(), set()

    def explore(self):
        """Whether all states were gone through."""
        level, scans = [Running(self.program)], 0
        while level:
            scans, reached = scans + 1, []
            level = [after for state in level for after in self.followers(state, scans, reached)]
            if len(self.seen) > MOST_STATES:
                return False
            self.after.update(tuple(sorted(values.items())) for values in reached)
            for asked in self.first:
                if self.first[asked] is None and any(all(values[name] for name in asked) for values in reached):
                    self.first[asked] = scans
        return True

    def followers(self, state, scans, reached):
        """The new states after one scan more, the one of this number; the values of all, new or not, are added to what is reached."""
        found = []
        for blocks in self.passed(state.blocks, scans > 1):
            for inputs in self.inputs:
                after = self.copied(state, blocks)
                after.scan(inputs, NOW)
                after.blocks = {name: self.normal(name, stored) for name, stored in after.blocks.items()}
                reached.append(after.values)
                if self.key(after) not in self.seen:
                    self.seen.add(self.key(after))
                    found.append(after)
        return found

    def copied(self, state, blocks):
        copy = Running(self.program)
        copy.values, copy.memories, copy.blocks = dict(state.values), dict(state.memories), dict(blocks)
        return copy

    def passed(self, blocks, has_run):
        """What the blocks store when the next scan comes: in a rhythm so much later, or else at each time until no timer has one left."""
        if self.every is not None:
            times = [self.every if has_run else 0]
        else:
            times = range(1 + max((self.time_left(name, stored) for name, stored in blocks.items()), default=0))
        return [{name: self.earlier(name, stored, time) for name, stored in blocks.items()} for time in times]

    def time_left(self, name, stored):
        """How long a timer still runs."""
        kind, preset = self.instances[name]
        return max(0, preset - (NOW - stored[1])) if kind in TIMERS and stored[1] is not None else 0

    def earlier(self, name, stored, time):
        """The timer began so much earlier."""
        if self.instances[name][0] not in TIMERS or stored[1] is None:
            return stored
        return (stored[0], stored[1] - time, stored[2])

    def normal(self, name, stored):
        """What a block stores, in the form that all have between which no scan tells."""
        kind, preset = self.instances[name]
        if kind in TIMERS and stored[1] is not None:
            return (stored[0], max(stored[1], NOW - preset), stored[2])
        if kind == "CTU":
            return (stored[0], min(stored[1], preset), stored[2])
        if kind == "CTD":
            return (stored[0], max(stored[1], 0), stored[2])
        return stored

    def key(self, state):
        values = tuple(value for name, value in sorted(state.values.items()) if name not in self.program.inputs)
        memories = frozenset(place for place, value in state.memories.items() if value)
        return values, memories, tuple(sorted(state.blocks.items()))


def random_drawing(chance):
    """A small drawing with three inputs, and with four blocks to draw, many of them timers with short times."""
    kinds = chance.choices([*differential.UPPER, *TIMERS], k=4)
    differential.INPUTS, differential.INSTANCES = 3, {f"B{number}": kind for number, kind in enumerate(kinds, 1)}
    outputs = [name + OUTPUTS.get(kind, ".Q") for name, kind in differential.INSTANCES.items()]
    differential.READ = differential.names("I", 3) * 3 + differential.WRITTEN + outputs * 2
    return differential.drawing(chance, differential.SMALL).replace("T#5000ms", "T#4ms")


def judged(verdict, scans, first, every):
    """What an answer is, where a run has at least so many scans, or none is there; `wrong` where it can't be."""
    if (verdict, scans) == (("run", first) if first else ("none", None)):
        return verdict
    if every is None and verdict == "run" and first and first < scans:
        return "longer run"
    if every is None and verdict == "unsettled" and (not first or first > scans):
        return "unsettled"
    return "wrong"


def check_drawing(tool, folder, seed, tally):
    """Compares all names and some pairs of a random drawing with its states."""
    chance = random.Random(seed)
    text = random_drawing(chance)
    program = Program(text)
    names = names_of(program)
    asked = [(name,) for name in names] + chance.sample(list(itertools.combinations(names, 2)), min(4, len(names) * (len(names) - 1) // 2))
    every = chance.choice([None, None, *RHYTHMS])
    assumed = random_expression(chance, program.inputs, chance.choice([1, 2, 2, 3])) if chance.random() < 0.5 else True
    states = States(program, every, asked, assumed)
    if not states.explore():
        tally["drawings passed over"] += 1
        return
    pathlib.Path(folder, "program.ld").write_text(text, "ascii")
    tally["drawings"] += 1
    words = ["--every", str(every)] if every is not None else []
    if assumed is not True:
        words += ["--assume=" + written(chance, words_of(chance, assumed))[0]]
        tally["drawings with something assumed"] += 1
        if not check_assumed(tool, folder, text, seed, states, words, tally):
            return
    for one in asked:
        verdict, scans, records = ask(tool, folder, "program.ld", one, *words)
        is_so = judged(verdict, scans, states.first[one], every)
        tally[f"random: {is_so}"] += 1
        is_kept = all(truth(assumed, {name: inputs[name] for name in program.inputs}) for _, inputs in records)
        if is_so == "wrong" or verdict == "run" and not (is_kept and is_right(program, one, records, scans, every)):
            tally["different"] += 1
            print(text, f"seed {seed}: {' '.join([*words, *one])}: {verdict} {scans}, the first after {states.first[one]}", sep="\n", flush=True)
    if every is None:
        for row, is_so in check_rows(tool, folder, chance, states, [] if assumed is True else words[-1:]):
            tally[f"rows: {is_so}"] += 1
            if is_so == "wrong":
                tally["different"] += 1
                print(text, f"seed {seed}: {row}", sep="\n", flush=True)


def check_assumed(tool, folder, text, seed, states, words, tally):
    """Whether some inputs make true what is assumed; then what `never` lists is so after each scan, and otherwise all is fault C9."""
    answers = {}
    for options in ([], ["--off"], ["--pairs"]):
        answers[" ".join(options)] = out, err, status = run(tool, ["never", *options, *words[-1:], "program.ld"], folder)
        is_right = (status == 0) == bool(states.inputs) and (err.endswith(counts_end([states.assumed]).encode()) if status == 0 else (out, err) == (b"", b"fault C9\n"))
        if not is_right:
            tally["different"] += 1
            print(text, f"seed {seed}: never {options} {words[-1:]}: {err!r}", sep="\n", flush=True)
    if not states.inputs:
        return False
    after = [dict(values) for values in states.after]
    rows = {options: [line.split(",") for line in out.decode().splitlines()[1:]] for options, (out, _, _) in answers.items()}
    listed = {options: {row[0].upper() for row in rows[options]} for options in ("", "--off")}
    spelled = {name: name + OUTPUTS.get(kind, ".Q") for name, (kind, _) in states.instances.items()}
    wrong = [name for options, value in (("", True), ("--off", False)) for name in listed[options] if any(values[spelled.get(name, name)] == value for values in after)]
    wrong += [row for row in rows["--pairs"] if any(all(values[spelled.get(name.upper(), name.upper())] for name in row[:2]) for values in after)]
    if wrong:
        tally["different"] += 1
        print(text, f"seed {seed}: never {words[-1:]} lists {wrong}", sep="\n", flush=True)
    off = [name for name in names_of(states.program) if not any(values[name] for values in after)]
    tally["never with something assumed: listed"] += len([name for name in off if name.partition(".")[0] in listed[""]])
    tally["names that never come ON and aren't listed"] += len([name for name in off if name.partition(".")[0] not in listed[""]])
    return True


def check_rows(tool, folder, chance, states, assumed):
    """What the rows of some coils are, of which each assignment either has a run or none, with what is assumed of its scans; `wrong` where they
    can't be so."""
    program = states.program
    coils = [name for name in names_of(program) if name in program.variables]
    for coil in coils:
        listed = chance.sample(program.inputs, chance.randint(0, len(program.inputs)))
        words = ["causes", "--any", "--runs", *assumed, *chance.choice([[], ["--reachable"]]), "program.ld", coil, *listed]
        out = run(tool, words, folder)[0].decode().splitlines()
        rows = dict((tuple(fields[2:]), fields[1]) for fields in (line.split(",") for line in out[1:]))
        comes = {tuple("01"[values[name]] for name in listed) for values in map(dict, states.after) if values[coil]}
        for bits in itertools.product("01", repeat=len(listed)):
            mark = rows.get(bits, "none")
            is_right = mark in "1?" or (mark == "r" and bits in comes) or (mark == "none" and bits not in comes)
            yield " ".join([*words, *bits]), ({"r": "run", "none": "none"}.get(mark, "unsettled") if is_right else "wrong")


def check_seeds(tool, seeds):
    tally = Counter()
    with tempfile.TemporaryDirectory() as folder:
        for seed in seeds:
            check_drawing(tool, folder, seed, tally)
    return tally


def check_random(words, tool, tally):
    """Random drawings, on several processors."""
    shares = [range(words.seed + job, words.seed + words.number, words.jobs) for job in range(words.jobs)]
    with concurrent.futures.ProcessPoolExecutor(words.jobs) as pool:
        for part in pool.map(check_seeds, itertools.repeat(tool), shares):
            tally.update(part)


def main():
    words = argparse.ArgumentParser(description=__doc__, formatter_class=argparse.RawDescriptionHelpFormatter)
    words.add_argument("program")
    words.add_argument("number", type=int, nargs="?", default=40)
    words.add_argument("seed", type=int, nargs="?", default=1)
    words.add_argument("--examples", action="store_true")
    words.add_argument("--jobs", type=int, default=os.cpu_count() or 1)
    words = words.parse_args()
    tool, tally = os.path.abspath(words.program), Counter(different=0)
    check_circuits(words, tool, tally)
    if not words.examples:
        check_random(words, tool, tally)
    different = tally.pop("different")
    asked = sum(count for what, count in tally.items() if ":" in what)
    print("; ".join(f"{what} {tally[what]}" for what in sorted(tally)))
    print(f"{asked - different} of {asked} questions about runs passed")
    return 1 if different or not asked else 0


if __name__ == "__main__":
    sys.exit(main())
