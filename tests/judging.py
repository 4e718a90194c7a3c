#!/usr/bin/env python3
"""Compares `diff OLD NEW` of the built program with plain scans: judging.py PROGRAM [NUMBER [SEED]] [--states N] [--jobs N].

Each trial is a random drawing and a change of it, as in `differing.py`. The rows must be those of the names that both declare, in their
order. No `same` may be contradicted: from random states that agree on what belongs together, one scan of each by `running.py` must leave it
alike. Where the programs are said to be equivalent, runs with random inputs from the fresh states must leave all of it alike, scan by scan;
and where a run tells them apart, or they begin differently, it mustn't be said. With `--save` each row `differs` has its states: they must
agree, and one scan of each by `running.py`, at the moment of the stimulus and with its inputs, must leave what the row says; `sim` must read
all three. With `--reachable` no `same` may be contradicted by the next scan of states that runs reach and that agree, what is saved must be
as `never` lists it, and what is the same from all states must be the same.

In half of the trials something is assumed of the inputs: random expressions over inputs of both. Then only states and runs count with which they are
true in each scan, which all that is saved must be.
"""
import argparse
import concurrent.futures
import itertools
import os
import pathlib
import random
import re
import sys
import tempfile
from collections import Counter

from assuming import counts_end, random_expression, truth, words_of, written
from differential import LARGE, SMALL, drawing
from differing import changed, edges_of, instances_of
from model import Program, forget
from running import LARGEST, SMALLEST, Running
from transcript import run

COUNTERS, BISTABLES = ("CTU", "CTD"), ("SR", "RS")
ADDRESS = re.compile(r"(\w+)\s+AT\s+%([IQM])X?(\d+)(?:\.(\d+))?", re.I)
MOMENTS = [0, 1, 2, 3, 4, 5, 7, 8, 100, 6000, 4_294_967_296]


def addresses_of(text):
    """The address of each variable that has one, in its shortest form."""
    found = ADDRESS.findall(text.partition("END_VAR")[0])
    return {name.upper(): f"%{letter.upper()}X{int(first)}" + (f".{int(second)}" if second else "") for name, letter, first, second in found}


class Assumed:
    """What is assumed of inputs that both programs have: nothing, or some expressions."""

    def __init__(self, chance, pair):
        common = [name for name in pair.variables if name in pair.new.inputs]
        self.operands = chance.sample(common, min(len(common), 4))
        number = chance.choice([0, 0, 1, 2]) if self.operands else 0
        self.expressions = [random_expression(chance, self.operands, chance.choice([1, 2, 3])) for _ in range(number)]
        self.words = [f"--assume={written(chance, words_of(chance, expression))[0]}" for expression in self.expressions]

    def holds(self, values):
        return all(truth(expression, values) for expression in self.expressions)

    def is_ever_true(self):
        return any(self.holds(dict(zip(self.operands, values))) for values in itertools.product([False, True], repeat=len(self.operands)))

    def inputs(self, chance, names):
        """Random values of inputs with which it is true, as it is with some."""
        while True:
            values = {name: chance.random() < 0.5 for name in names}
            if self.holds(values):
                return values

    def counts(self, line, equivalent):
        """The lines on standard error, where the counts begin so."""
        end, _, warnings = counts_end(self.expressions).partition("\n") if self.expressions else ("", "", "")
        return line + end + "\n" + "equivalent\n" * equivalent + warnings


def contradicted_in_runs(chance, pair, same, assumed):
    """Names that are the same by the program, and that the next scan leaves different from states that runs reach and that agree."""
    first, second, moment = Running(pair.old), Running(pair.new), 0
    for _ in range(30):
        values = assumed.inputs(chance, pair.new.inputs)
        begun = pair.different(first, second)
        first.scan({name: value for name, value in values.items() if name in pair.old.inputs}, moment)
        second.scan(values, moment)
        if begun:
            return []
        for name in same:
            if not pair.alike(first, second, name):
                return [f"{name} is no same in runs: at {moment}"]
        moment += chance.choice([0, 1, 2, 7, 6000])
    return []


class Pair:
    """Two programs, and what belongs together in them by names."""

    def __init__(self, old_text, new_text):
        self.old, self.new = old, new = Program(old_text), Program(new_text)
        self.addresses = {old: addresses_of(old_text), new: addresses_of(new_text)}
        self.variables = [name for name in new.variables if name in old.variables and (name in new.inputs) == (name in old.inputs)]
        kinds = {name: kind for name, (kind, _) in instances_of(old).items()}
        self.blocks = [name for name, (kind, _) in instances_of(new).items() if kinds.get(name) == kind]
        before, after = edges_of(old), edges_of(new)
        self.edges = []
        for owner in before.keys() & after.keys():
            if owner[1] in self.variables or owner[1].partition(".")[0] in self.blocks:
                self.edges += zip(before[owner], after[owner])

    def alike(self, first, second, name):
        if name in self.blocks:
            return contents(first, name) == contents(second, name)
        return first.values[name] == second.values[name]

    def different(self, first, second):
        """What belongs together and differs, but for inputs."""
        names = [name for name in (*self.variables, *self.blocks) if name not in self.new.inputs and not self.alike(first, second, name)]
        return names + [owner for owner, other in self.edges if first.memories.get(owner, False) != second.memories.get(other, False)]


def contents(state, name):
    """What an instance stores, a fresh one as it begins."""
    kind, _ = instances_of(state.program)[name]
    fresh = (False,) if kind in BISTABLES else (False, 0, False) if kind in COUNTERS else (False, None, False)
    return state.blocks.get(name) or fresh


def any_contents(chance, kind, presets, moment):
    """What an instance of a kind can store at a moment."""
    q = chance.random() < 0.5
    if kind in BISTABLES:
        return (q,)
    if kind in COUNTERS:
        near = [preset + chance.choice([-1, 0, 1]) for preset in presets]
        return chance.random() < 0.5, min(LARGEST, max(SMALLEST, chance.choice([*near, -1, 0, 1, 2, SMALLEST, LARGEST]))), q
    starts = [moment - preset + chance.choice([0, 0, 1]) for preset in presets] + [0, moment]
    return chance.random() < 0.5, chance.choice([None, *[start for start in starts if 0 <= start <= moment]]), q


def put(state, name, stored):
    state.blocks[name] = stored
    state.values[name + ".Q"] = state.values[name + ".Q1"] = stored[-1]


def any_state(chance, program, moment):
    state = Running(program)
    for name in program.variables:
        state.values[name] = chance.random() < 0.5
    for name, (kind, preset) in instances_of(program).items():
        put(state, name, any_contents(chance, kind, [preset], moment))
    for places in edges_of(program).values():
        for place in places:
            state.memories[place] = chance.random() < 0.5
    return state


def shared_states(chance, pair, moment):
    """Two states that agree on what belongs together, inputs included."""
    first, second = any_state(chance, pair.old, moment), any_state(chance, pair.new, moment)
    for name in pair.variables:
        second.values[name] = first.values[name]
    for name in pair.blocks:
        presets = [instances_of(program)[name][1] for program in (pair.old, pair.new)]
        stored = any_contents(chance, instances_of(pair.new)[name][0], presets, moment)
        put(first, name, stored)
        put(second, name, stored)
    for place, other in pair.edges:
        second.memories[other] = first.memories[place]
    return first, second


def has_coil(program, name):
    return any(rung.has_coil(name) for rung in program.rungs)


def initial_of(program, name):
    return str(int(program.initial[name]))


def expected_rows(pair):
    """The rows in order: a name, and the word, which is None for a verdict."""
    old, new, rows = pair.old, pair.new, []
    for name in new.variables:
        if name not in pair.variables:
            rows.append((new.spelled[name], "new", "", ""))
            continue
        if name not in new.inputs and (has_coil(old, name) or has_coil(new, name)):
            rows.append((new.spelled[name], None))
        if old.initial[name] != new.initial[name]:
            rows.append((new.spelled[name], "initial", initial_of(old, name), initial_of(new, name)))
        before, after = (pair.addresses[program].get(name, "") for program in (old, new))
        if before != after:
            rows.append((new.spelled[name], "moved", before, after))
    for name, (_, preset) in instances_of(new).items():
        if name not in pair.blocks:
            rows.append((new.spelled[name], "new", "", ""))
            continue
        rows.append((new.spelled[name], None))
        before = instances_of(old)[name][1]
        if before != preset:
            rows.append((new.spelled[name], "preset", str(before), str(preset)))
    rows += [(old.spelled[name], "old", "", "") for name in old.variables if name not in pair.variables]
    rows += [(old.spelled[name], "old", "", "") for name in instances_of(old) if name not in pair.blocks]
    return rows


def wrong_rows(pair, rows):
    """Where the rows aren't those of the declarations."""
    edges = [row for row in rows if row[0].endswith(" edge")]
    want = expected_rows(pair)
    if len(want) + len(edges) != len(rows) or rows[len(want):] != edges:
        return [f"rows {rows}", f"wanted {want}"]
    return [f"{row} in place of {one}" for one, row in zip(want, rows)
            if row[0] != one[0] or (row[1] not in ("same", "differs", "?") if one[1] is None else row != list(one))]


def contradicted(chance, pair, same, number, assumed):
    """Names that are the same by the program and are left different from some of so many states that agree."""
    for _ in range(number):
        moment = chance.choice(MOMENTS)
        first, second = shared_states(chance, pair, moment)
        given = assumed.inputs(chance, assumed.operands)
        first.values.update(given)
        second.values.update(given)
        later = moment + chance.choice([0, 0, 1, 3, 6000])
        first.scan({}, later)
        second.scan({}, later)
        for name in same:
            if not pair.alike(first, second, name):
                return [f"{name} is no same: at {later}"]
    return []


def told_apart(chance, pair, assumed):
    """Whether a run with random inputs from the fresh states tells the programs apart."""
    first, second, moment = Running(pair.old), Running(pair.new), 0
    for _ in range(30):
        values = assumed.inputs(chance, pair.new.inputs)
        first.scan({name: value for name, value in values.items() if name in pair.old.inputs}, moment)
        second.scan(values, moment)
        if pair.different(first, second):
            return True
        moment += chance.choice([0, 1, 2, 7, 6000])
    return False


# ---- saved states

def loaded(program, text):
    """A state as `sim --save` writes it, and its moment."""
    state, moment = Running(program), 0
    for kind, *fields in (line.split(",") for line in text.splitlines()):
        if kind == "moment":
            moment = int(fields[0])
        elif kind == "var":
            state.values[fields[0].upper()] = fields[1] == "1"
        elif kind == "memory":
            rung, row, column = map(int, fields[:3])
            state.memories[rung - 1, row, column] = fields[3] == "1"
        elif kind == "timer":
            name, last, runs, start, q = fields
            put(state, name.upper(), (last == "1", int(start) if runs == "1" else None, q == "1"))
        elif kind == "counter":
            name, last, count, q = fields
            put(state, name.upper(), (last == "1", int(count), q == "1"))
        elif kind == "bistable":
            put(state, fields[0].upper(), (fields[1] == "1",))
    return state, moment


def left_by(state, name):
    """What a row has of a name: its value, or the output of the block."""
    return state.values[name + ".Q" if name in instances_of(state.program) else name]


def disagree(pair, first, second):
    """What belongs together and isn't the same, inputs too."""
    return pair.different(first, second) + [name for name in pair.variables if name in pair.new.inputs and first.values[name] != second.values[name]]


class Trial:
    """A drawing and a change of it, which are judged."""

    def __init__(self, tool, folder, chance, states):
        self.tool, self.folder, self.chance, self.states = tool, folder, chance, states
        forget()
        self.texts = {"old": drawing(chance, chance.choice([LARGE, SMALL, SMALL]))}
        self.texts["new"] = self.texts["old"] if chance.random() < 0.05 else changed(chance, self.texts["old"])
        for name, text in self.texts.items():
            pathlib.Path(folder, name + ".ld").write_text(text, "ascii")

    def breaks_rules(self):
        return any(run(self.tool, ["check", name + ".ld"], self.folder)[2] for name in self.texts)

    def differences(self, tally):
        """What is wrong of the answer, or None where nothing can be asked."""
        if self.breaks_rules():
            return None
        pair = Pair(self.texts["old"], self.texts["new"])
        if not pair.old.rungs or not pair.new.rungs:
            return None
        self.assumed = assumed = Assumed(self.chance, pair)
        tally["with something assumed"] += bool(assumed.expressions)
        out, err, status = run(self.tool, ["diff", "--save", "saved", *assumed.words, "old.ld", "new.ld"], self.folder)
        if not assumed.is_ever_true():
            tally["of these with nothing that counts"] += 1
            return [] if (out, err, status) == (b"", b"fault C9\n", 1) else [f"never true: {out} {err} {status}"]
        rows = [line.split(",") for line in out.decode().splitlines()]
        if status or rows[0] != ["name", "result", "old", "new"]:
            return [f"status {status}", out.decode(), err.decode()]
        rows = rows[1:]
        counts = Counter(row[1] for row in rows)
        tally.update({word: counts[word] for word in ("same", "differs", "?")})
        equivalent = b"\nequivalent\n" in err
        tally["equivalent"] += equivalent
        line = assumed.counts(f"same {counts['same']} differs {counts['differs']} unsettled {counts['?']}", equivalent)
        found = wrong_rows(pair, rows) + ([] if err.decode() == line else [f"counts {err}"])
        same = [row[0].upper() for row in rows if row[1] == "same"]
        found += contradicted(self.chance, pair, same, self.states, assumed)
        begun = pair.different(Running(pair.old), Running(pair.new))
        apart = bool(begun) or any(told_apart(self.chance, pair, assumed) for _ in range(5))
        tally["told apart by runs"] += apart
        if equivalent and (apart or counts["differs"] or counts["?"]):
            found.append("no equivalents")
        if self.texts["old"] == self.texts["new"] and not equivalent:
            found.append("a program is equivalent with itself")
        return found + self.wrong_witnesses(pair, rows, "saved") + self.wrong_reachable(pair, same, apart, tally)

    def wrong_witnesses(self, pair, rows, folder):
        """Where the saved states don't show what the rows say."""
        found, seen = [], Counter()
        for name, word, *ends in rows:
            if word == "differs":
                seen[name] += 1
                found += self.wrong_witness(pair, name, ends, f"{folder}/{name}" + (f" {seen[name]}" if seen[name] > 1 else ""))
        files = sorted(os.listdir(os.path.join(self.folder, folder))) if os.path.isdir(os.path.join(self.folder, folder)) else []
        return found + ([f"files {files}"] if len(files) != 3 * seen.total() else [])

    def wrong_witness(self, pair, name, ends, path):
        sides = {"old": pair.old, "new": pair.new}
        (first, moment), (second, other) = (loaded(program, pathlib.Path(self.folder, f"{path}.{side}.csv").read_text()) for side, program in sides.items())
        header, record = pathlib.Path(self.folder, path + ".csv").read_text().splitlines()
        at, *bits = record.split(",")
        inputs = {key.upper(): bit == "1" for key, bit in zip(header.split(",")[1:], bits)}
        found = [f"{path}: {name} isn't shared" for name in disagree(pair, first, second)]
        if moment > int(at) or other > int(at) or any(state.values[key] != value for state in (first, second) for key, value in inputs.items()):
            found.append(f"{path}: {record} isn't of the states")
        if not self.assumed.holds(inputs):
            found.append(f"{path}: what is assumed is false")
        for state, side in ((first, "old"), (second, "new")):
            done = run(self.tool, ["sim", "--state", f"{path}.{side}.csv", "--save", "after.csv", side + ".ld", path + ".csv"], self.folder)
            state.scan(inputs, int(at))
            after = None if done[2] else loaded(sides[side], pathlib.Path(self.folder, "after.csv").read_text())[0]
            if after is None or any(state.values[key] != after.values[key] for key in sides[side].variables):
                found.append(f"{path}: {side} scans otherwise, or it isn't read: {done}")
        if name.endswith(" edge"):
            return found + ([] if any(isinstance(each, tuple) for each in pair.different(first, second)) else [f"{path} shows no difference"])
        left = [str(int(left_by(state, name.upper()))) for state in (first, second)]
        return found + ([] if left == ends and not pair.alike(first, second, name.upper()) else [f"{path} leaves {left}, not {ends}"])

    def wrong_reachable(self, pair, same, apart, tally):
        """What is wrong where only states count that runs may reach."""
        out, err, status = run(self.tool, ["diff", "--reachable", "--save", "reached", *self.assumed.words, "old.ld", "new.ld"], self.folder)
        rows = [line.split(",") for line in out.decode().splitlines()][1:]
        if status:
            return [f"--reachable: status {status}", err.decode()]
        tally["same among reachable states alone"] += sum(row[1] == "same" for row in rows) - len(same)
        found = wrong_rows(pair, rows) + self.wrong_witnesses(pair, rows, "reached")
        found += [f"{name} is the same from all states" for name in same if [row[1] for row in rows if row[0].upper() == name and row[1] in ("differs", "?")]]
        if b"\nequivalent\n" in err:
            tally["equivalent among reachable states"] += 1
            found += ["no equivalents among reachable states"] if apart else []
        kept = [row[0].upper() for row in rows if row[1] == "same"]
        for _ in range(5):
            found += contradicted_in_runs(self.chance, pair, kept, self.assumed)
        return found + self.wrong_claims(rows)

    def wrong_claims(self, rows):
        """Where a saved state isn't as `never` lists it."""
        found = []
        for side in ("old", "new"):
            never, off, pairs = (run(self.tool, ["never", *option, *self.assumed.words, side + ".ld"], self.folder)[0].decode().splitlines()[1:]
                                 for option in ([], ["--off"], ["--pairs"]))
            names = [{line.split(",")[0].upper() for line in lines} for lines in (never, off)]
            program = Program(self.texts[side])
            for path in pathlib.Path(self.folder).glob(f"reached/*.{side}.csv"):
                state, _ = loaded(program, path.read_text())
                on = {name for name in (*program.variables, *instances_of(program)) if left_by(state, name)}
                on |= {name + output for name in on for output in (".Q", ".Q1")}
                bad = (on & names[0]) | (names[1] - on)
                bad |= {line for line in pairs if set(line.upper().split(",")) <= on}
                found += [f"{path.name}: never {bad}"] if bad else []
        return found


def try_one(tool, seed, states):
    """What a trial tells: its counts, and what is wrong with both texts."""
    tally = Counter()
    with tempfile.TemporaryDirectory() as folder:
        trial = Trial(tool, folder, random.Random(seed), states)
        found = trial.differences(tally)
        tally["passed over" if found is None else "compared"] += 1
        return tally, [f"seed {seed}", trial.texts["old"], trial.texts["new"], *found] if found else []


def main():
    words = argparse.ArgumentParser(description=__doc__, formatter_class=argparse.RawDescriptionHelpFormatter)
    words.add_argument("program")
    words.add_argument("number", type=int, nargs="?", default=200)
    words.add_argument("seed", type=int, nargs="?", default=1)
    words.add_argument("--states", type=int, default=30)
    words.add_argument("--jobs", type=int, default=os.cpu_count())
    words = words.parse_args()
    total, different = Counter(), 0
    with concurrent.futures.ProcessPoolExecutor(words.jobs) as pool:
        seeds = range(words.seed * 1_000_000, words.seed * 1_000_000 + words.number)
        tools, states = [os.path.abspath(words.program)] * words.number, [words.states] * words.number
        for tally, found in pool.map(try_one, tools, seeds, states, chunksize=5):
            total += tally
            if found:
                different += 1
                print(*found, sep="\n", flush=True)
    compared = total.pop("compared", 0)
    print(f"{compared - different} of {compared} pairs alike")
    for what in sorted(total):
        print(f"  {what}: {total[what]}")
    return 1 if different or not compared else 0


if __name__ == "__main__":
    sys.exit(main())
