#!/usr/bin/env python3
"""Compares `ladder import` with an engine of its own: importing.py PROGRAM [NUMBER] [SEED].

Each project is made at random, as the editor of ClassicLadder allows one: outputs in the last column, blocks of two rows and columns.
It is refused by lines that name an element each, or it is written; then the text must be a program (`ladder check`), and each scan
of a random stimulus must give the outputs that the elements give here, read straight from the project: column by column, and in a
column from above. Each second project has compares, contacts on steps and operates too, and is imported with `--open`: then the inputs
that stand for these have random values here and there. Two of four are imported with `--control on`: then the engine takes the control
of a timer as ON where nothing is drawn to it. A few projects are made by hand first, one for each thing that is refused.
"""
import os
import pathlib
import random
import re
import subprocess
import sys
import tempfile
from collections import Counter

COLUMNS, ROWS = 10, 6
NOTHING, PART, WIRE, TIMER, MONOSTABLE, IEC_TIMER, JUMP, COMPARE, OPERATE = 0, 99, 9, 10, 11, 13, 54, 20, 60
CONTACTS, COILS = (1, 2, 3, 4), (50, 51, 52, 53)
INPUT, OUTPUT, BIT, STEP = 50, 60, 0, 30
DONE = {10: TIMER, 20: MONOSTABLE, 15: IEC_TIMER}
BASES = {0: 60000, 1: 1000, 2: 100}
INPUTS, OUTPUTS, BITS, BLOCKS = 6, 8, 6, 8
REFUSED = re.compile(r"fault P6 rung \d+ row [1-6] column (?:[1-9]|10) \w+")


def element(kind, link=0, sort=0, number=0):
    return kind, link, sort, number


class Project:
    """Rungs by number, each a grid of elements, and the tables of presets."""

    def __init__(self, rungs, presets, sections=None):
        self.rungs, self.presets = rungs, presets
        self.sections = sections or [(0, 0, -1, min(rungs), max(rungs), 0)]

    def text(self):
        lines = ["_FILES_CLASSICLADDER"]

        def part(name, content):
            lines.extend([f"_FILE-{name}", *content, f"_/FILE-{name}"])

        for name, kind in (("timers.csv", TIMER), ("monostables.csv", MONOSTABLE), ("timers_iec.csv", IEC_TIMER)):
            part(name, ["; a preset in each line", *(",".join(map(str, preset)) for preset in self.presets[kind])])
        numbers = sorted(self.rungs)
        for number in numbers:
            after = number + 1 if number + 1 in self.rungs else -1
            rows = [" , ".join("%d-%d-%d/%d" % place for place in row) for row in self.rungs[number]]
            part(f"rung_{number}.csv", ["#VER=2.0", f"#LABEL=L{number}", "#COMMENT=made *) by chance", f"#NEXTRUNG={after}", *rows])
        part("sections.csv", ["#VER=1.0", "#NAME000=Main", *(",".join(map(str, section)) for section in self.sections)])
        part("arithmetic_expressions.csv", ["#VER=2.0", "0000,@200/0@>5", "0001,@200/1@=@200/0@+1", "0002,@0/1@=1"])
        part("symbols.csv", ["%I0,E-STOP,first *) input", "%Q0,TON,", "%B1,much_too_long_a_name,"])
        return "\n".join([*lines, "_/FILES_CLASSICLADDER", ""])


# ---- the engine


class Engine:
    """What calc.c does with the elements that are carried over, scan by scan; with `control_on` as if the control of each timer to which
    nothing is drawn were ON."""

    def __init__(self, project, control_on):
        self.project, self.control_on = project, control_on
        self.values = Counter()
        self.edges, self.blocks, self.opened = {}, {}, {}
        self.now = 0

    def scan(self, now, inputs, opened):
        self.now, self.opened = now, opened
        for number, value in enumerate(inputs):
            self.values[INPUT, number] = value
        numbers = sorted(self.project.rungs)
        at = 0
        while at < len(numbers):
            jump = self.rung(numbers[at])
            at = numbers.index(jump) if jump is not None else at + 1
        return [self.values[OUTPUT, number] for number in range(OUTPUTS)]

    def left(self, grid, power, row, column):
        """What comes to the left of a place, through the links of its column."""
        if column == 0:
            return True
        top = bottom = row
        while top and grid[top][column][1]:
            top -= 1
        while bottom + 1 < ROWS and grid[bottom + 1][column][1]:
            bottom += 1
        return any(power.get((q, column - 1)) for q in range(top, bottom + 1))

    def value(self, sort, number):
        if sort in DONE:
            return self.blocks.get((DONE[sort], number), (False, None, False))[2]
        return bool(self.values[sort, number])

    def rung(self, number):
        grid, power = self.project.rungs[number], {}
        for column in range(COLUMNS):
            for row in range(ROWS):
                kind, _, sort, index = grid[row][column]
                if kind in (TIMER, MONOSTABLE, IEC_TIMER):
                    power.update(self.block(grid, power, row, column))
                    continue
                if kind == COMPARE:
                    power[row, column] = self.left(grid, power, row, column - 2) and self.opened[number, row, column]
                    continue
                here = self.left(grid, power, row, column)
                if kind in CONTACTS:
                    value = self.opened[number, row, column] if sort == STEP else self.value(sort, index)
                    closed = self.contact(number, row, column, kind, value)
                    power[row, column] = here and closed
                elif kind == WIRE:
                    power[row, column] = here
                elif kind in COILS:
                    self.coil(kind, sort, index, here)
                elif kind == JUMP and here:
                    return index
        return None

    def contact(self, rung, row, column, kind, value):
        place = rung, row, column
        before, self.edges[place] = self.edges.get(place, False), value
        return {1: value, 2: not value, 3: value and not before, 4: before and not value}[kind]

    def coil(self, kind, sort, index, here):
        if kind in (50, 51):
            self.values[sort, index] = bool(here) == (kind == 50)
        elif here:
            self.values[sort, index] = kind == 52

    def block(self, grid, power, row, column):
        kind, _, _, index = grid[row][column]
        on = self.left(grid, power, row, column - 1)
        base, count, mode = (*self.project.presets[kind][index], 0)[:3]
        sort = {TIMER: 0, MONOSTABLE: 2, IEC_TIMER: mode}[kind]
        last, start, done = self.blocks.get((kind, index), (False, None, False))
        preset = BASES[base] * count
        runs = self.left(grid, power, row + 1, column - 1) or self.control_on and is_uncontrolled(grid, row, column)
        if kind == TIMER and not runs:
            done = False
            start = None
        elif sort == 0:
            start = None if not on else self.now if start is None else start
            done = on and self.now - start >= preset
        elif sort == 1:
            start = None if on else self.now if last else start
            done = on or start is not None and self.now - start < preset
        else:
            runs = start is not None and self.now - start < preset
            start = start if runs else self.now if on and not last and preset else None
            done = start is not None
        self.blocks[kind, index] = on, start, done
        return {(row, column): done, (row + 1, column): kind == TIMER and on and not done}


def is_uncontrolled(grid, row, column):
    """Whether nothing is drawn to the control of the timer at the place: no link, no element, and no second output of another timer."""
    if column == 1 or grid[row + 1][column - 1][1] or row + 2 < ROWS and grid[row + 2][column - 1][1]:
        return False
    return grid[row + 1][column - 2][0] in (NOTHING, PART) and grid[row][column - 2][0] != TIMER


# ---- projects


def operand(chance, opened):
    if opened and chance.random() < 0.15:
        return STEP, chance.randrange(3)
    sort = chance.choice([INPUT] * 5 + [OUTPUT] * 2 + [BIT] * 2 + list(DONE))
    return sort, chance.randrange({INPUT: INPUTS, OUTPUT: OUTPUTS, BIT: BITS}.get(sort, BLOCKS))


def place_block(chance, grid, busy, left, row, column):
    """Draws a block whose element is at the place, where there is room."""
    room = {(q, c) for q in (row, row + 1) for c in (column - 1, column)}
    kinds = [kind for kind in (TIMER, TIMER, MONOSTABLE, IEC_TIMER) if left[kind]]
    if row + 1 >= ROWS or column < 1 or room & busy or not kinds:
        return False
    busy |= room
    if chance.random() < 0.8:
        busy.add((row + 1, column + 1))
    kind = chance.choice(kinds)
    grid[row][column] = element(kind, 0, 0, left[kind].pop())
    grid[row][column - 1] = element(PART, int(row > 0 and chance.random() < 0.2))
    tied = kind == TIMER and chance.random() < 0.5
    grid[row + 1][column - 1] = element(PART, int(tied))
    if kind == TIMER and not tied and chance.random() < 0.8:
        busy |= {(row + 1, column - 2), (row + 2, column - 1)}
    grid[row + 1][column] = element(PART)
    return True


def place_compare(grid, busy, row, column, link):
    """Draws a compare whose element is two columns behind the place, where there is room."""
    room = {(row, column + more) for more in range(3)}
    if column + 3 >= COLUMNS or room & busy:
        return False
    busy |= room
    grid[row][column] = element(PART, link)
    grid[row][column + 1] = element(PART)
    grid[row][column + 2] = element(COMPARE)
    return True


def place_operate(grid, busy, row):
    """Draws an operate in the last column, where there is room."""
    room = {(row, COLUMNS - more) for more in (1, 2, 3)}
    if not room & busy:
        busy |= room
        for column in (COLUMNS - 3, COLUMNS - 2):
            grid[row][column] = element(PART)
        grid[row][COLUMNS - 1] = element(OPERATE, 0, 0, 1)


def draw(chance, number, rungs, left, opened):
    grid = [[element(NOTHING) for _ in range(COLUMNS)] for _ in range(ROWS)]
    busy, rows = set(), chance.randint(1, ROWS)
    for row in range(rows):
        if opened and chance.random() < 0.2:
            place_operate(grid, busy, row)
        for column in range(COLUMNS - 1):
            if (row, column) in busy:
                continue
            link, dice = int(row > 0 and chance.random() < 0.25), chance.random()
            if dice < 0.05 and column + 2 < COLUMNS and place_block(chance, grid, busy, left, row, column + 1):
                continue
            if opened and dice < 0.1 and place_compare(grid, busy, row, column, link):
                continue
            if dice < 0.45:
                grid[row][column] = element(chance.choice((1, 1, 1, 2, 2, 3, 4)), link, *operand(chance, opened))
            elif dice < (0.93 if column else 0.55):
                grid[row][column] = element(WIRE, link)
            else:
                grid[row][column] = element(NOTHING, link)
        if (row, COLUMNS - 1) not in busy:
            link, dice = int(row > 0 and chance.random() < 0.15), chance.random()
            fed = grid[row][COLUMNS - 2][0] in (*CONTACTS, WIRE, COMPARE)
            sort = chance.choice((OUTPUT, OUTPUT, BIT))
            if fed and dice < 0.85:
                coil = element(chance.choice((50, 50, 51, 52, 53)), link, sort, chance.randrange(OUTPUTS if sort == OUTPUT else BITS))
                grid[row][COLUMNS - 1] = coil
            elif fed and row == rows - 1 and number + 1 < rungs:
                grid[row][COLUMNS - 1] = element(JUMP, link, 0, chance.randrange(number + 1, rungs))
            else:
                grid[row][COLUMNS - 1] = element(NOTHING, link)
    if chance.random() < 0.9:
        for row in without_power(grid):
            grid[row][COLUMNS - 1] = element(NOTHING, grid[row][COLUMNS - 1][1])
    return grid


def without_power(grid):
    """The coils to which no power can come, whatever is closed."""
    come = {(row, 0) for row in range(ROWS)}
    for column in range(1, COLUMNS):
        for row in range(ROWS):
            top = bottom = row
            while top and grid[top][column][1]:
                top -= 1
            while bottom + 1 < ROWS and grid[bottom + 1][column][1]:
                bottom += 1
            if any((q, column - 1) in come and grid[q][column - 1][0] not in (NOTHING, *COILS) for q in range(top, bottom + 1)):
                come.add((row, column))
    return [row for row in range(ROWS) if grid[row][COLUMNS - 1][0] in COILS and (row, COLUMNS - 1) not in come]


def random_project(chance, opened):
    presets = {kind: [(2, chance.randint(0, 4)) for _ in range(BLOCKS)] for kind in (TIMER, MONOSTABLE)}
    presets[IEC_TIMER] = [(2, chance.randint(0, 4), chance.randrange(3)) for _ in range(BLOCKS)]
    left = {kind: chance.sample(range(BLOCKS), BLOCKS) for kind in presets}
    rungs = chance.randint(1, 4)
    sections = [(0, 0, -1, 0, rungs - 1, 0)]
    if opened and chance.random() < 0.5:
        sections.append((1, 1, -1, 0, 0, 0))
    return Project({number: draw(chance, number, rungs, left, opened) for number in range(rungs)}, presets, sections)


def one_row(*elements):
    """A rung of one row: elements from the left on, the last one in the last column, and wires between."""
    row = [*elements[:-1], *[element(WIRE)] * (COLUMNS - len(elements)), elements[-1]]
    return [row, *[[element(NOTHING)] * COLUMNS for _ in range(ROWS - 1)]]


def with_control(grid, *elements):
    """The rung with these in its second row, from the left on."""
    grid[1][: len(elements)] = elements
    return grid


PRESETS = {TIMER: [(2, 5)], MONOSTABLE: [(2, 5)], IEC_TIMER: [(2, 5, 1)]}
CLOSED, COIL = element(1, 0, INPUT, 0), element(50, 0, OUTPUT, 0)
MADE = (
    (one_row(CLOSED, COIL), None),
    (one_row(element(1, 0, 30, 0), COIL), "step"),
    (one_row(element(1, 0, 11, 0), COIL), "running_contact"),
    (one_row(element(1, 0, 200, 0), COIL), "other_contact"),
    (one_row(CLOSED, element(50, 0, INPUT, 0)), "writes_an_input"),
    (one_row(CLOSED, element(50, 0, 200, 0)), "other_coil"),
    (one_row(CLOSED, element(55)), "call"),
    (one_row(CLOSED, element(60)), "operate"),
    (one_row(CLOSED, element(PART), element(PART), element(20), COIL), "compare"),
    (one_row(CLOSED, element(PART), element(12), COIL), "counter"),
    (one_row(CLOSED, element(JUMP)), "jump_elsewhere"),
    (one_row(CLOSED, COIL, COIL), "out_of_place"),
    (one_row(CLOSED, element(NOTHING), COIL), "no_power"),
    (one_row(element(1, 0, INPUT, 100000), COIL), "large_number"),
    (one_row(CLOSED, element(PART), element(TIMER, 0, 0, 1), COIL), None),
    (one_row(CLOSED, element(PART), element(MONOSTABLE, 0, 0, 1), COIL), "no_preset"),
    (with_control(one_row(CLOSED, element(PART), element(TIMER), COIL), CLOSED), "switched_control"),
)

# made by hand, and imported with `--open`
OPENED = (
    (one_row(element(1, 0, STEP, 0), COIL), None),
    (one_row(CLOSED, element(PART), element(PART), element(COMPARE), COIL), None),
    (one_row(CLOSED, element(WIRE), element(PART), element(COMPARE), COIL), "unknown_element"),
    (one_row(CLOSED, element(PART), element(PART, 1), element(COMPARE), COIL), "out_of_place"),
    (one_row(element(PART), element(COMPARE), COIL), "out_of_place"),
    (one_row(CLOSED, element(OPERATE, 0, 0, 1)), None),
    (one_row(CLOSED, element(OPERATE, 0, 0, 2)), "operate"),
    (one_row(CLOSED, element(OPERATE, 0, 0, 3)), "operate"),
    (one_row(element(OPERATE, 0, 0, 1), COIL), "out_of_place"),
    (one_row(CLOSED, element(50, 0, STEP, 0)), "other_coil"),
    (one_row(CLOSED, element(55)), "call"),
    (one_row(CLOSED, element(PART), element(12), COIL), "counter"),
)


# made by hand, and imported with `--control on`
CONTROLLED = (
    (one_row(CLOSED, element(PART), element(TIMER), COIL), None),
    (one_row(CLOSED, element(PART), element(TIMER, 0, 0, 1), COIL), "no_preset"),
    (with_control(one_row(CLOSED, element(PART), element(TIMER), COIL), CLOSED), "switched_control"),
    (with_control(one_row(CLOSED, element(PART), element(TIMER), COIL), element(NOTHING), element(WIRE)), "broken_block"),
    (one_row(element(1, 0, 11, 0), COIL), "running_contact"),
)


# ---- the comparison


def call(program, *words):
    done = subprocess.run([program, *words], capture_output=True, check=False, timeout=60)
    return done.returncode, done.stdout.decode(errors="replace"), done.stderr.decode(errors="replace")


def imported(program, folder, project, *options):
    """The text, or the lines that refuse it."""
    path = folder / "project.clp"
    path.write_text(project.text())
    status, out, err = call(program, "import", *options, str(path))
    if status == 0:
        return out, []
    assert not out, f"text beside a refusal:\n{out}"
    lines = err.splitlines()
    assert lines and any(REFUSED.search(line) for line in lines), f"refused without a name:\n{err}"
    return None, lines


class Freely(dict):
    """The values of what is opened; what no power reaches has no input, and is OFF."""

    def __missing__(self, place):
        return False


def has_right_notes(project, text):
    """Whether the timers whose control is taken as ON are told: each behind its declaration, and how many they are."""
    timers = set(re.findall(r"^  T(\d+)(?: \(\* \S+ \*\))? : TON ", text, re.M))
    places = ((grid, row, column) for grid in project.rungs.values() for row in range(ROWS - 1) for column in range(1, COLUMNS))
    taken = {str(grid[row][column][3]) for grid, row, column in places if grid[row][column][0] == TIMER and is_uncontrolled(grid, row, column)}
    noted = re.findall(r"^  T(\d+)(?: \(\* \S+ \*\))? : TON .*: nothing is drawn to its control, taken as ON \*\)$", text, re.M)
    told = re.findall(r"^\(\* Control taken as ON where nothing is drawn to it; timers: (\d+)\.$", text, re.M)
    return sorted(noted) == sorted(taken & timers) and told == [str(len(noted))] * bool(noted)


def has_same_scans(program, folder, project, text, chance, control_on):
    """Whether each scan of a random stimulus gives the outputs that the elements give."""
    (folder / "program.ld").write_text(text)
    status, out, err = call(program, "check", str(folder / "program.ld"))
    assert status == 0, f"no program: {err}\n{text}"
    inputs = dict(re.findall(r"^  (\w+)(?: \(\* \S+ \*\))? AT %IX(\d+) ", text, re.M))
    places = re.findall(r"^  (\w+)(?: \(\* \S+ \*\))? AT %IX(\d+)\.(\d+) ", text, re.M)
    opened = {name: (sorted(project.rungs)[int(rung) - 1], int(place) // 100 - 1, int(place) % 100 - 1) for name, rung, place in places}
    told = re.match(r"\(\* Opened: (\d+) inputs .*; operates left out: (\d+)\.", text)
    operates = sum(place[0] == OPERATE for grid in project.rungs.values() for row in grid for place in row)
    assert (int(told[1]), int(told[2])) == (len(opened), operates) if told else not opened and not operates, text
    outputs = dict(re.findall(r"^  (\w+)(?: \(\* \S+ \*\))? AT %QX(\d+) ", text, re.M))
    records, now, values = [], 0, [0] * INPUTS
    for _ in range(60):
        values = [value ^ int(chance.random() < 0.3) for value in values]
        records.append((now, list(values), {place: chance.random() < 0.5 for place in opened.values()}))
        now += 100
    head = "moment" + "".join(f",{name}" for name in [*inputs, *opened])
    lines = []
    for moment, row, freely in records:
        read = [row[int(number)] for number in inputs.values()] + [int(freely[place]) for place in opened.values()]
        lines.append(",".join(map(str, [moment, *read])))
    (folder / "stimulus.csv").write_text("\n".join([head, *lines, ""]))
    status, out, err = call(program, "sim", str(folder / "program.ld"), str(folder / "stimulus.csv"))
    assert status == 0, f"no trace: {err}\n{text}"
    engine = Engine(project, control_on)
    rows = out.splitlines()
    names = rows[0].split(",")[1:]
    for (moment, row, freely), line in zip(records, rows[1:]):
        expected = engine.scan(moment, row, Freely(freely))
        wanted = [str(int(expected[int(outputs[name])])) for name in names]
        if line.split(",")[1:] != wanted:
            return f"at {moment}: {dict(zip(names, line.split(',')[1:]))}, not {dict(zip(names, wanted))}"
    return None


def main():
    program = os.path.abspath(sys.argv[1])
    count = int(sys.argv[2]) if len(sys.argv) > 2 else 300
    seed = sys.argv[3] if len(sys.argv) > 3 else "1"
    met = Counter()
    with tempfile.TemporaryDirectory() as name:
        folder = pathlib.Path(name)
        made = [(*one, options) for many, options in ((MADE, ()), (OPENED, ("--open",)), (CONTROLLED, ("--control", "on"))) for one in many]
        for grid, refusal, options in made:
            text, lines = imported(program, folder, Project({0: grid}, PRESETS), *options)
            if (text is None) != (refusal is not None) or refusal and not any(line.endswith(f" {refusal}") for line in lines):
                print(f"made by hand, {refusal}: {lines or text}")
                return 1
            met["made by hand"] += 1
        for number in range(count):
            chance = random.Random(f"{seed} {number}")
            opened, control_on = number % 2 == 1, number % 4 >= 2
            project = random_project(chance, opened)
            text, lines = imported(program, folder, project, *["--open"] * opened, *["--control", "on"] * control_on)
            if text is None:
                met["refused"] += 1
                continue
            if (opened or control_on) and not text.startswith("(*"):
                strictly = imported(program, folder, project)[0] if len(project.sections) == 1 else None
                assert strictly in (None, text), "another text with --open or --control on"
            if control_on:
                assert has_right_notes(project, text), f"other timers are told:\n{project.text()}\n{text}"
                met["control taken as ON"] += "(* Control" in text
            met["opened"] += text.startswith("(* Opened")
            difference = has_same_scans(program, folder, project, text, chance, control_on)
            if difference:
                print(f"project {seed} {number}: {difference}\n{project.text()}\n{text}")
                return 1
            met["carried over"] += 1
    print(", ".join(f"{what}: {many}" for what, many in sorted(met.items())))
    return 0


if __name__ == "__main__":
    sys.exit(main())
