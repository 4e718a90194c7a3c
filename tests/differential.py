#!/usr/bin/env python3
"""Compares the built program with the models on random drawings: differential.py PROGRAM [NUMBER] [SEED] [--only KIND].

Each drawing has one to five rungs of all forms of cells, joints and vertical links, and breaks no rule; it is asked from the fresh
state, at any moment. Rows and looks must be the model's, those of parts of a list too, which joined are the list, and the rows of groups,
in each form and in the sifted order; so must the drawing with the power flow of one number, and its page, with the elements read as
marks. A film must have the drawings of its records,
each shown by itself from the state that `sim --save` has left. A list over several scans must be that of the scans one after the other, from
the fresh state or from one that `sim --save` has left. What `never` names stays OFF in random runs, and what switches a coil on from
some random state has a row in the list of `causes --any`. A drawing with a difference is printed whole.

With --only one kind is compared alone: `parts`; `groups`, `held` and `relevant` from random states too, `show`, and `never`, `pairs` and
`possible` on small
drawings, against a scan from every state (`lanes.py`).
"""
import argparse
import os
import pathlib
import random
import sys
import tempfile
from collections import Counter
from typing import NamedTuple

from comparing import ALL, ALONE, Trial
from model import COILS, COLUMNS, CONTACTS, ROWS, Program, forget

INPUTS, OUTPUTS, MEMORIES = 9, 2, 2
UPPER = {
    "TON": "-|IN TON Q|", "TOF": "-|IN TOF Q|", "TP": "-|IN TP  Q|",
    "CTU": "-|CU CTU Q|", "CTD": "-|CD CTD Q|", "SR": "-|S1 SR Q1|", "RS": "-|S  RS Q1|",
}
LOWER = {"CTU": "|R       |", "CTD": "|LD      |", "SR": "|R       |", "RS": "|R1      |"}
INSTANCES = {f"B{number}": kind for number, kind in enumerate([*UPPER, *UPPER], 1)}
EMPTY = (" " * 11, " " * 11, False)


class Size(NamedTuple):
    """How many there are at most."""

    rungs: int
    rows: int
    columns: int


LARGE, SMALL = Size(5, ROWS, COLUMNS), Size(3, 4, 5)
# How many inputs are listed at least and at most where one kind is compared alone.
INPUTS_LISTED = {"groups": (1, 7), "held": (1, 6), "show": (1, 9), "sim": (4, INPUTS), "never": (0, 0), "possible": (0, 4), "off": (0, 4),
                 "must": (0, 4), "off_must": (0, 4), "reachable": (0, 4), "relevant": (INPUTS, INPUTS), "pairs": (0, 0)}
# What goes through every state, so that a drawing has few bits.
EVERY_STATE = ("never", "pairs", "possible", "off", "must", "off_must", "reachable")


def names(letter, count):
    return [f"{letter}{number}" for number in range(1, count + 1)]


READ_BLOCKS = [name + (".Q1" if kind in ("SR", "RS") else ".Q") for name, kind in INSTANCES.items()]
READ = names("I", INPUTS) * 6 + names("Y", OUTPUTS) + names("M", MEMORIES) + READ_BLOCKS
WRITTEN = names("Y", OUTPUTS) + names("M", MEMORIES)


def preset(chance, kind):
    if kind in ("TON", "TOF", "TP"):
        return f" := (PT := T#{chance.choice([0, 0, 1, 5000])}ms)"
    return f" := (PV := {chance.choice([0, 1, 1, 2])})" if kind in ("CTU", "CTD") else ""


def declarations(chance):
    lines = [f"  {name} AT %IX{place} : BOOL" for place, name in enumerate(names("I", INPUTS))]
    lines += [f"  {name} AT %QX{place} : BOOL" for place, name in enumerate(names("Y", OUTPUTS))]
    lines += [f"  {name} : BOOL" for name in names("M", MEMORIES)]
    lines = [line + chance.choice(["", "", " := TRUE", " := 0"]) for line in lines]
    lines += [f"  {name} : {kind}{preset(chance, kind)}" for name, kind in INSTANCES.items()]
    chance.shuffle(lines)
    return ["VAR", *(line + ";" for line in lines), "END_VAR"]


def around(chance, word, fill, end=None):
    """A word at a random place among fillers; those behind it may be others."""
    before = chance.randint(1 if end else 0, 11 - len(word))
    return fill * before + word + (end or fill) * (11 - len(word) - before)


class Sheet:
    """What the cells drawn so far leave free: instances, later labels, one jump a rung."""

    def __init__(self, chance, rungs):
        self.chance, self.rungs = chance, rungs
        self.undrawn = chance.sample(list(INSTANCES), len(INSTANCES))

    def begin(self, number):
        self.number, self.may_jump, self.above = number, True, None

    def cell(self, may_begin, may_have_lower):
        """The name, the wire and the right link of a cell, which begins with a dash only where power can enter."""
        above, self.above = self.above, None
        if above:
            return " " * 11, (self.chance.choice("--- ") if may_begin else " ") + LOWER[above], False
        kinds = ["empty", "wire", "contact", "coil", "block", "jump"]
        kind = self.chance.choices(kinds, [4, 3, 12, 4, 4, 2 * self.may_jump])[0] if may_begin else "empty"
        return getattr(self, kind)(may_have_lower)

    def empty(self, _):
        return EMPTY

    def wire(self, _):
        return " " * 11, "-" * 11, True

    def symbol(self, name, symbol):
        wire = around(self.chance, symbol, "-", self.chance.choice("---- "))
        return around(self.chance, self.chance.choice([name, name.lower()]), " "), wire, wire[-1] != " "

    def contact(self, _):
        return self.symbol(self.chance.choice(READ), self.chance.choice([*CONTACTS, *["| |"] * 5, *["|/|"] * 3]))

    def coil(self, _):
        return self.symbol(self.chance.choice(WRITTEN), self.chance.choice([*COILS, *["( )", "(S)"] * 3]))

    def block(self, may_have_lower):
        name = self.undrawn[-1] if self.undrawn else None
        if name is None or INSTANCES[name] in LOWER and not may_have_lower:
            return EMPTY
        kind = INSTANCES[self.undrawn.pop()]
        self.above = kind if kind in LOWER else None
        return around(self.chance, name, " "), UPPER[kind], True

    def jump(self, _):
        self.may_jump = False
        later = [f">>L{number}" for number in range(self.number + 1, self.rungs + 1)]
        return " " * 11, around(self.chance, self.chance.choice(["<RETURN>", *later[:3]]), "-", " "), False


def joints(chance, leads):
    """The joints behind a column, the links from each row to the next, and which rows power can enter."""
    links = [chance.random() < 0.3 for _ in leads[1:]]
    signs = []
    for row, leading in enumerate(leads):
        linked = any(links[max(row - 1, 0):row + 1])
        signs.append("+" if linked else chance.choice("------+ " if leading else " " * 9 + "+"))
    enters = [leading and sign in "-+" for leading, sign in zip(leads, signs)]
    for order in (range(len(links)), reversed(range(len(links)))):
        for row in order:
            if links[row]:
                enters[row] = enters[row + 1] = enters[row] or enters[row + 1]
    return signs, links, enters


def rung(chance, sheet, number, size):
    rows, columns = chance.randint(1, size.rows), chance.randint(2, size.columns)
    sheet.begin(number)
    over, wires, enters = ["|"] * rows, ["|"] * rows, [chance.random() < 0.8 for _ in range(rows)]
    for column in range(1, columns + 1):
        cells = [sheet.cell(enter, row + 1 < rows) for row, enter in enumerate(enters)]
        signs, links, enters = joints(chance, [leads for _, _, leads in cells])
        last = column == columns
        for row, (name, wire, _) in enumerate(cells):
            over[row] += name + ("|" if row and links[row - 1] and not last else " ")
            wires[row] += wire + (" " if last else signs[row])
    return [line.rstrip() for pair in zip(over, wires) for line in pair]


def drawing(chance, size):
    lines, rungs = declarations(chance), chance.randint(1, size.rungs)
    sheet = Sheet(chance, rungs)
    for number in range(1, rungs + 1):
        lines += [f"L{number}:", *rung(chance, sheet, number, size)]
    return "\n".join(lines) + "\n"


def question(chance, text, least, most):
    """The words behind the file: a coil that is drawn, or None, and some inputs in any order; rather one that they decide, and
    where one kind is compared alone rather none than another one."""
    count = chance.choice([1, 2, 6, 7, 8, 8, 9, 9, 9]) if most is None else chance.randint(least, most)
    program, listed = Program(text), chance.sample(names("I", INPUTS), count)
    coils = [name for name in WRITTEN if any(rung.has_coil(name) for rung in program.rungs)]
    values = program.scan(dict.fromkeys(listed))
    depending = [name for name in coils if values[name] is None]
    others = coils if most in (None, 0) or chance.random() < 0.1 else []
    return chance.choice(depending or others or [None]), listed


def compared(trial, only):
    """The differences of a drawing; None where what is asked can't be compared."""
    if only:
        return ALONE[only](trial)
    return [difference for compare in ALL for difference in compare(trial)]


def read_words():
    """What is asked for on the command line."""
    words = argparse.ArgumentParser(description=__doc__, formatter_class=argparse.RawDescriptionHelpFormatter)
    words.add_argument("program")
    words.add_argument("number", type=int, nargs="?", default=200)
    words.add_argument("seed", type=int, nargs="?", default=1)
    words.add_argument("--only", choices=ALONE)
    words.add_argument("--large", action="store_true", help="no small drawings")
    words.add_argument("--inputs", type=int, nargs=2, metavar=("LEAST", "MOST"), help="how many inputs are listed")
    return words.parse_args()


def compare_next(words, chance, folder, tally):
    """Compares a drawing, unless it has no question, and prints it where there are differences."""
    least, most = words.inputs or INPUTS_LISTED.get(words.only, (None, None))
    forget()
    text = drawing(chance, SMALL if words.only in EVERY_STATE and not words.large else LARGE)
    coil, listed = question(chance, text, least, most)
    if coil is None:
        return
    pathlib.Path(folder, "program.ld").write_text(text, "ascii")
    found = compared(Trial(os.path.abspath(words.program), folder, chance, text, coil, listed, tally), words.only)
    tally["passed over" if found is None else "compared"] += 1
    tally["different"] += bool(found)
    if found:
        print(text, " ".join([coil, *listed]), *found, sep="\n", flush=True)


def main():
    """Compares so many drawings, or those until it is interrupted, and answers the status."""
    words = read_words()
    chance, tally = random.Random(words.seed), Counter(compared=0, different=0)
    try:
        with tempfile.TemporaryDirectory() as folder:
            while tally["compared"] < words.number:
                compare_next(words, chance, folder, tally)
    except KeyboardInterrupt:
        print("interrupted")
    number, different = tally.pop("compared"), tally.pop("different")
    print(f"{number - different} of {number} alike")
    for what in sorted(tally):
        print(f"  {what}: {tally[what]}")
    return 1 if different else 0


if __name__ == "__main__":
    sys.exit(main())
