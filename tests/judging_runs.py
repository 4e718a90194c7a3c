#!/usr/bin/env python3
"""Compares `diff --runs OLD NEW` of the built program with runs: judging_runs.py PROGRAM [NUMBER [SEED]] [--runs N] [--jobs N].

Each trial is a small random drawing of `reaching.py` and a change of it, as in `differing.py`, or the same drawing twice. The rows must be
those of `diff OLD NEW` but for its verdicts, with none of an edge. No `same` may be contradicted by runs with random inputs from the fresh
states, made by `running.py`. Each `differs` must be shown by the two runs that are saved: at the same moments, with the same values of the
inputs that both have, they leave what the row says, and `sim` makes the same of them. A drawing and itself have no `differs`, and nothing
differs where the programs are said to be equivalent.

In half of the trials something is assumed of the inputs, as in `judging.py`: then only runs count in each scan of which it is true.
"""
import argparse
import concurrent.futures
import os
import pathlib
import random
import sys
import tempfile
from collections import Counter

from differing import changed
from judging import Assumed, Pair, left_by, wrong_rows
from model import forget
from reaching import random_drawing
from running import Running
from transcript import run


def differing_in_run(chance, pair, names, assumed):
    """Names that a run with random inputs from the fresh states leaves different."""
    first, second, moment, found = Running(pair.old), Running(pair.new), 0, set()
    inputs = sorted({*pair.new.inputs, *pair.old.inputs})
    for _ in range(30):
        values = assumed.inputs(chance, inputs)
        first.scan({name: values[name] for name in pair.old.inputs}, moment)
        second.scan({name: values[name] for name in pair.new.inputs}, moment)
        found |= {name for name in names if left_by(first, name) != left_by(second, name)}
        moment += chance.choice([0, 1, 2, 4, 7, 6000])
    return found


class Trial:
    """A small drawing and a change of it, whose runs are judged."""

    def __init__(self, tool, folder, chance, runs):
        self.tool, self.folder, self.chance, self.runs = tool, folder, chance, runs
        forget()
        old = random_drawing(chance)
        self.texts = {"old": old, "new": old if chance.random() < 0.1 else changed(chance, old)}
        for name, text in self.texts.items():
            pathlib.Path(folder, name + ".ld").write_text(text, "ascii")

    def breaks_rules(self):
        return any(run(self.tool, ["check", name + ".ld"], self.folder)[2] for name in self.texts)

    def answer(self, *options):
        """The rows of an answer, its lines of counts and its status."""
        out, err, status = run(self.tool, ["diff", *options, *self.assumed.words, "old.ld", "new.ld"], self.folder)
        return [line.split(",") for line in out.decode().splitlines()][1:], err.decode(), status

    def differences(self, tally):
        """What is wrong of the answer, or None where nothing can be asked."""
        if self.breaks_rules():
            return None
        pair = Pair(self.texts["old"], self.texts["new"])
        if not pair.old.rungs or not pair.new.rungs:
            return None
        self.assumed = assumed = Assumed(self.chance, pair)
        tally["with something assumed"] += bool(assumed.expressions)
        rows, err, status = self.answer("--runs", "--states", "1000", "--save", "runs")
        if not assumed.is_ever_true():
            tally["of these with nothing that counts"] += 1
            return [] if (err, status) == ("fault C9\n", 1) else [f"never true: {err} {status}"]
        if status:
            return [f"status {status}", err]
        counts = Counter(row[1] for row in rows)
        tally.update({word: counts[word] for word in ("same", "differs", "?")})
        found = wrong_rows(pair, rows)
        if err != assumed.counts(f"same {counts['same']} differs {counts['differs']} unsettled {counts['?']}", False) or any(row[0].endswith(" edge") for row in rows):
            found.append(f"counts {err}, or an edge")
        if counts["differs"] and (self.texts["old"] == self.texts["new"] or "\nequivalent\n" in self.answer()[1]):
            found.append("equivalent programs differ")
        same = [row[0].upper() for row in rows if row[1] == "same"]
        for _ in range(self.runs):
            found += [f"{name} is no same" for name in differing_in_run(self.chance, pair, same, self.assumed)]
        return found + self.wrong_runs(pair, [row for row in rows if row[1] == "differs"])

    def wrong_runs(self, pair, rows):
        """Where the saved runs don't show what the rows say."""
        found, sides = [], {"old": pair.old, "new": pair.new}
        for name, _, *ends in rows:
            left, scans = zip(*(self.left_by_run(program, f"runs/{name}.{side}.run.csv", name) for side, program in sides.items()))
            if list(left) != ends or ends[0] == ends[1] or self.are_apart(pair, *scans) or not all(self.assumed.holds(given) for _, given in scans[0]):
                found.append(f"{name}: the runs leave {left}, not {ends}")
            found += [f"{name}: {side} isn't read" for side in sides
                      if run(self.tool, ["sim", side + ".ld", f"runs/{name}.{side}.run.csv"], self.folder)[2]]
        files = os.listdir(os.path.join(self.folder, "runs"))
        return found + ([f"files {files}"] if len(files) != 2 * len(rows) else [])

    def left_by_run(self, program, path, name):
        """What a saved run leaves of a name from the fresh state, and its scans."""
        state, scans = Running(program), []
        header, *records = [line.split(",") for line in pathlib.Path(self.folder, path).read_text().splitlines()]
        for moment, *bits in records:
            scans.append((int(moment), {key.upper(): bit == "1" for key, bit in zip(header[1:], bits)}))
            state.scan(scans[-1][1], int(moment))
        return str(int(left_by(state, name.upper()))), scans

    @staticmethod
    def are_apart(pair, first, second):
        """Whether two runs aren't at the same moments, or give an input that both have other values."""
        both = [name for name in pair.old.inputs if name in pair.new.inputs]
        return len(first) != len(second) or any(
            at != other or any(one[name] != two[name] for name in both) for (at, one), (other, two) in zip(first, second))


def try_one(tool, seed, runs):
    """What a trial tells: its counts, and what is wrong with both texts."""
    tally = Counter()
    with tempfile.TemporaryDirectory() as folder:
        trial = Trial(tool, folder, random.Random(seed), runs)
        found = trial.differences(tally)
        tally["passed over" if found is None else "compared"] += 1
        return tally, [f"seed {seed}", trial.texts["old"], trial.texts["new"], *found] if found else []


def main():
    words = argparse.ArgumentParser(description=__doc__, formatter_class=argparse.RawDescriptionHelpFormatter)
    words.add_argument("program")
    words.add_argument("number", type=int, nargs="?", default=200)
    words.add_argument("seed", type=int, nargs="?", default=1)
    words.add_argument("--runs", type=int, default=20)
    words.add_argument("--jobs", type=int, default=os.cpu_count())
    words = words.parse_args()
    total, wrong = Counter(), 0
    with concurrent.futures.ProcessPoolExecutor(words.jobs) as pool:
        seeds = range(words.seed * 1_000_000, words.seed * 1_000_000 + words.number)
        for tally, found in pool.map(try_one, [os.path.abspath(words.program)] * words.number, seeds, [words.runs] * words.number, chunksize=5):
            total += tally
            if found:
                wrong += 1
                print(*found, sep="\n", flush=True)
    compared = total.pop("compared", 0)
    print(f"{compared - wrong} of {compared} pairs alike")
    for what in sorted(total):
        print(f"  {what}: {total[what]}")
    return 1 if wrong or not compared else 0


if __name__ == "__main__":
    sys.exit(main())
