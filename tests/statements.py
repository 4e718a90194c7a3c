#!/usr/bin/env python3
"""Compares `ladder draw` with a run of the statements: statements.py PROGRAM [EXPRESSIONS [PROGRAMS [SEED]]].

Each text is made at random. It is drawn, or refused since it would have too many rungs (T9); then the drawing must be a program
(`ladder check`) and do what the text says. An expression (200) is one assignment: the causes of its coil from OFF must be the assignments of
the inputs for which it is TRUE here. A program (200) has assignments, IF with ELSIF and ELSE, blocks, triggers and RETURN: in 40 scans of a
random stimulus each variable and each output of a block must have the value that it has here, where the statements are run one after
the other. A third of the programs also have INTs, which are set to numbers, compared with them and chosen by CASE. Here an INT is a number:
the drawing must declare one variable for each value that it can have, in the due order, and in each scan just that of its value must be ON.

Each example that is written in Structured Text beside its drawing (`examples/*/*.st`) is drawn too: with each stimulus of its folder both drawings
must have the same rows of all that both declare.
"""
import csv
import io
import itertools
import os
import pathlib
import random
import subprocess
import sys
import tempfile
from collections import Counter
from concurrent.futures import ThreadPoolExecutor

from running import STEPS

ROOT = pathlib.Path(__file__).resolve().parent.parent
SCANS = 40
KINDS = {"TON": ("IN", None, "PT"), "TOF": ("IN", None, "PT"), "TP": ("IN", None, "PT"), "CTU": ("CU", "R", "PV"), "CTD": ("CD", "LD", "PV"),
         "SR": ("S1", "R", None), "RS": ("S", "R1", None)}
OPERATORS = {"AND": lambda a, b: a and b, "OR": lambda a, b: a or b, "XOR": lambda a, b: a != b, "=": lambda a, b: a == b,
             "<>": lambda a, b: a != b, "&": lambda a, b: a and b}
BINDING = {"=": 3, "<>": 3, "AND": 2, "&": 2, "XOR": 1, "OR": 0}
NUMBERS = [*range(1, 10), *range(10, 100, 10), 100, 101, 110, 999]
NEVER = 32767


class Returned(Exception):
    """A RETURN was met."""


# ---- expressions: a truth value, a name, ("NOT", one) or (operator, one, other); that of an INT is compared with a number

def compares(expression):
    """Whether it is a comparison with a number."""
    return isinstance(expression, tuple) and type(expression[-1]) is int


def spelled(expression, level=0):
    """The text of an expression, with the parentheses that it needs where operators that bind looser than the level want them."""
    if isinstance(expression, int):
        return str(expression).upper()
    if isinstance(expression, str):
        return expression
    if expression[0] == "NOT":
        return f"NOT {spelled(expression[1], 4)}"
    operator, one, other = expression
    own = BINDING[operator]
    # a comparison with a number has parentheses behind `=` and `<>`, and needs none before them
    before = own if compares(one) and level < own else own + 1
    text = f"{spelled(one, before)} {operator} {spelled(other, own + compares(other))}"
    return f"({text})" if own < level else text


def value(expression, values):
    """The value of an expression, where each name has its own."""
    if isinstance(expression, int):
        return expression
    if isinstance(expression, str):
        return values[expression]
    if expression[0] == "NOT":
        return not value(expression[1], values)
    return OPERATORS[expression[0]](value(expression[1], values), value(expression[2], values))


class Source:
    """A program made at random, a third of the time with INTs where there may be some."""

    def __init__(self, seed, most_integers=0):
        self.random = random.Random(seed)
        self.inputs = [f"In{number}" for number in range(self.random.randint(1, 6))]
        self.outputs = [f"Out{number}" for number in range(self.random.randint(1, 5))]
        self.triggers, self.blocks = [], {}
        self.depth, self.chain = self.random.choice([1, 2, 2, 3, 3]), self.random.choice([2, 2, 3, 4, 8, 12])
        self.constants = self.random.choice([0, 0, 0, 0.05, 0.3])
        self.integers = {}
        if most_integers and self.random.random() < 1 / 3:
            self.integers = dict(self.integer(number) for number in range(self.random.randint(1, most_integers)))
            self.depth, self.chain = self.random.choice([(1, 2), (1, 3), (2, 2), (2, 3), (self.depth, self.chain)])

    def integer(self, number):
        """A name of an INT, the value that its declaration gives it, and the values that it may have."""
        name, numbers = self.random.choice(["Step", "Step", "Sequence"]) + str(number), self.random.sample(NUMBERS, self.random.randint(2, 5))
        initial = self.random.choice([None, 0, numbers[0]])
        return name, (initial, [initial or 0, *numbers[1:]])

    def number(self, name):
        """A value that an INT may have, now and then one that it never has."""
        return NEVER if self.random.random() < 0.05 else self.random.choice(self.integers[name][1])

    def operand(self):
        if self.integers and self.random.random() < 0.3:
            name = self.random.choice(list(self.integers))
            return self.random.choice(["=", "=", "<>"]), name, self.number(name)
        triggers = [f"{name}.Q" for name, _ in self.triggers]
        return self.random.choice(self.inputs + self.outputs + triggers + [self.output(name) for name in self.blocks])

    def output(self, name):
        return f"{name}.Q1" if self.blocks[name][0] in ("SR", "RS") else f"{name}.Q"

    def expression(self, depth=None):
        depth = self.depth if depth is None else depth
        if self.random.random() < self.constants:
            return self.random.random() < 0.5
        if depth == 0 or self.random.random() < 0.2:
            operand = self.operand()
            return ("NOT", operand) if self.random.random() < 0.3 else operand
        operator = self.random.choices(["AND", "OR", "XOR", "=", "<>", "&", "NOT"], [6, 6, 1, 0.5, 0.5, 1, 1])[0]
        if operator == "NOT":
            return "NOT", self.expression(depth - 1)
        made = self.expression(depth - 1)
        for _ in range(self.random.randint(1, self.chain - 1) if operator in ("AND", "OR") else 1):
            made = (operator, self.expression(depth - 1), made) if self.random.random() < 0.7 else (operator, made, self.expression(depth - 1))
        return made

    def call(self):
        """A call of a new block, or of a new trigger."""
        if self.random.random() < 0.3:
            name = f"Edge{len(self.triggers)}"
            clock = self.expression()
            self.triggers.append((name, self.random.choice(["R_TRIG", "F_TRIG"])))
            return "trigger", name, clock
        kind = self.random.choice(list(KINDS))
        name = f"Block{len(self.blocks)}"
        first = self.expression()
        second = self.expression() if KINDS[kind][1] and self.random.random() < 0.7 else False
        self.blocks[name] = kind, self.random.choice([0, 1, 2, 20]) if KINDS[kind][2] else 0
        return "call", name, first, second

    def setting(self, name):
        """An assignment to an INT."""
        return "assign", name, self.random.choice(self.integers[name][1])

    def step(self, assignment):
        """An assignment under a condition, often that of an input."""
        condition = self.random.choice(self.inputs) if self.random.random() < 0.5 else self.expression(self.random.choice([0, 1]))
        return "if", [(condition, [assignment])], []

    def sequence(self, name):
        """A CASE in which each value of an INT leads to the next."""
        numbers = self.integers[name][1]
        return "case", [([number], [self.step(("assign", name, after))]) for number, after in zip(numbers, numbers[1:] + numbers[:1])], [], name

    def case(self, depth):
        name = self.random.choice(list(self.integers))
        numbers = self.random.sample(self.integers[name][1], len(self.integers[name][1]))
        numbers = numbers[self.random.choice([0, 1]):] + ([self.number(name)] if self.random.random() < 0.4 else [])
        arms = []
        while numbers:
            labels = [numbers.pop(0) for _ in range(min(self.random.choice([1, 1, 1, 2, 3]), len(numbers)))]
            arms.append((labels, self.arm(name, depth + 1)))
        return "case", arms, self.arm(name, depth + 1) if self.random.random() < 0.5 else [], name

    def arm(self, name, depth):
        """The statements of a CASE for some values of an INT, or none."""
        made = [self.statement(depth) for _ in range(self.random.choice([0, 1, 1, 2]))]
        made += [self.step(self.setting(name))] if self.random.random() < 0.7 else []
        return made or self.random.choice([[], [("nothing",)]])

    def statement(self, depth):
        sorts = {"assign": 8, "call": 3, "if": 3 if depth < 3 else 0, "latch": 2, "return": 0.3 if depth else 0.05}
        sorts |= {"set": 2, "step": 2, "case": [4, 2, 1, 0][depth]} if self.integers else {}
        sort = self.random.choices(list(sorts), list(sorts.values()))[0]
        if sort in ("set", "step"):
            setting = self.setting(self.random.choice(list(self.integers)))
            return setting if sort == "set" else self.step(setting)
        if sort == "case":
            return self.case(depth)
        if sort == "assign":
            return "assign", self.random.choice(self.outputs), self.expression()
        if sort == "call":
            return self.call()
        if sort == "latch":
            names = self.random.sample(self.outputs, self.random.randint(1, len(self.outputs)))
            condition, latched = self.expression(), [("assign", name, self.random.random() < 0.5) for name in names]
            return "if", [(condition, latched + [self.setting(name) for name in self.integers if self.random.random() < 0.5])], []
        if sort == "return":
            return ("return",)
        arms = [(self.expression(), self.statements(depth + 1)) for _ in range(self.random.choice([1, 1, 1, 2, 3]))]
        return "if", arms, self.statements(depth + 1) if self.random.random() < 0.5 else []

    def statements(self, depth=0):
        made = [self.statement(depth) for _ in range(self.random.randint(1, 4 if depth else 6))]
        return made + ([self.sequence(self.random.choice(list(self.integers)))] if self.integers and depth == 0 else [])


# ---- texts

def lines_of(source, statements, margin):
    """The lines of statements."""
    for statement in statements:
        if statement[0] == "assign":
            yield f"{margin}{statement[1]} := {spelled(statement[2])};"
        elif statement[0] == "return":
            yield f"{margin}RETURN;"
        elif statement[0] == "nothing":
            yield f"{margin};"
        elif statement[0] == "trigger":
            yield f"{margin}{statement[1]}(CLK := {spelled(statement[2])});"
        elif statement[0] == "call":
            kind, preset = source.blocks[statement[1]]
            first, second, parameter = KINDS[kind]
            given = [f"{first} := {spelled(statement[2])}"]
            given += [f"{second} := {spelled(statement[3])}"] if statement[3] is not False else []
            given += [f"{parameter} := " + (f"T#{preset}ms" if parameter == "PT" else str(preset))] if parameter else []
            yield f"{margin}{statement[1]}({', '.join(given)});"
        elif statement[0] == "case":
            yield f"{margin}CASE {statement[3]} OF"
            for labels, inner in statement[1]:
                yield f"{margin}  {', '.join(map(str, labels))}:"
                yield from lines_of(source, inner, margin + "    ")
            if statement[2]:
                yield f"{margin}  ELSE"
                yield from lines_of(source, statement[2], margin + "    ")
            yield f"{margin}END_CASE;"
        else:
            for number, (condition, inner) in enumerate(statement[1]):
                yield f"{margin}{'ELSIF' if number else 'IF'} {spelled(condition)} THEN"
                yield from lines_of(source, inner, margin + "  ")
            if statement[2]:
                yield f"{margin}ELSE"
                yield from lines_of(source, statement[2], margin + "  ")
            yield f"{margin}END_IF;"


def text_of(source, statements):
    """A program in Structured Text."""
    lines = ["PROGRAM made", "VAR"]
    lines += [f"  {name} AT %IX{number} : BOOL;" for number, name in enumerate(source.inputs)]
    lines += [f"  {name} : BOOL;" for name in source.outputs]
    lines += [f"  {name} : INT{'' if initial is None else f' := {initial}'};" for name, (initial, _) in source.integers.items()]
    lines += [f"  {name} : {kind};" for name, kind in source.triggers]
    lines += [f"  {name} : {kind};" for name, (kind, _) in source.blocks.items()]
    return "\n".join(lines + ["END_VAR", *lines_of(source, statements, ""), "END_PROGRAM", ""])


def assigned(statements):
    """Each INT that is assigned, and the number, in the order of the text."""
    for statement in statements:
        if statement[0] == "assign" and type(statement[2]) is int:
            yield statement[1:]
        if statement[0] in ("if", "case"):
            for inner in [*(inner for _, inner in statement[1]), statement[2]]:
                yield from assigned(inner)


def values_of(source, statements):
    """Each INT with each value that it can have: those at the start, then the others as they are first assigned."""
    return list(dict.fromkeys([*((name, initial or 0) for name, (initial, _) in source.integers.items()), *assigned(statements)]))


# ---- runs

class Run:
    """The statements in a state, at first the fresh one."""

    def __init__(self, source):
        self.source = source
        names = source.inputs + source.outputs + [f"{name}.Q" for name, _ in source.triggers] + [source.output(name) for name in source.blocks]
        self.values, self.clocks, self.stored = dict.fromkeys(names, False), Counter(), {}
        self.values.update((name, initial or 0) for name, (initial, _) in source.integers.items())

    def run(self, statements, moment):
        for statement in statements:
            if statement[0] == "assign":
                self.values[statement[1]] = value(statement[2], self.values)
            elif statement[0] == "return":
                raise Returned
            elif statement[0] == "trigger":
                clock = value(statement[2], self.values) == (dict(self.source.triggers)[statement[1]] == "R_TRIG")
                self.values[f"{statement[1]}.Q"] = clock and not self.clocks[statement[1]]
                self.clocks[statement[1]] = clock
            elif statement[0] == "call":
                kind, preset = self.source.blocks[statement[1]]
                first, second = value(statement[2], self.values), value(statement[3], self.values)
                self.stored[statement[1]] = STEPS[kind](moment, first, second, preset, self.stored.get(statement[1]))
                self.values[self.source.output(statement[1])] = self.stored[statement[1]][-1]
            elif statement[0] == "case":
                self.run(next((inner for labels, inner in statement[1] if self.values[statement[3]] in labels), statement[2]), moment)
            elif statement[0] == "if":
                self.run(next((inner for condition, inner in statement[1] if value(condition, self.values)), statement[2]), moment)

    def scan(self, statements, inputs, moment):
        self.values.update(inputs)
        try:
            self.run(statements, moment)
        except Returned:
            pass


def asked(program, folder, *words):
    done = subprocess.run([program, *words], cwd=folder, capture_output=True, text=True, check=False)
    return done.returncode, done.stdout, done.stderr


def drawn(program, folder, text):
    """Draws a text; the fault where it has too many rungs."""
    (folder / "made.st").write_text(text)
    status, drawing, fault = asked(program, folder, "draw", "made.st")
    if status and fault.startswith("fault T9 rungs "):
        return fault
    assert status == 0 and not fault, f"{text}{fault}"
    (folder / "made.ld").write_text(drawing)
    assert asked(program, folder, "check", "made.ld")[0] == 0, f"{text}{drawing}"
    return None


def tried_expression(program, seed):
    """Draws one assignment, and compares the causes of its coil."""
    source = Source(seed)
    source.outputs = ["Out0"]
    statements = [("assign", "Out0", source.expression())]
    with tempfile.TemporaryDirectory() as name:
        folder = pathlib.Path(name)
        text = text_of(source, statements)
        if drawn(program, folder, text):
            return "large"
        status, rows, _ = asked(program, folder, "causes", "--all-inputs", "made.ld", "Out0")
        assert status == 0, text
        expected = [dict(zip(source.inputs, bits)) for bits in itertools.product([False, True], repeat=len(source.inputs))]
        expected = [["01"[inputs[name]] for name in source.inputs] for inputs in expected if value(statements[0][2], inputs | {"Out0": False})]
        assert [row.split(",")[1:] for row in rows.splitlines()[1:]] == expected, text
    return "expressions"


def tried_program(program, seed):
    """Draws a program, and compares its scans."""
    source = Source(seed, most_integers=2)
    statements = source.statements()
    with tempfile.TemporaryDirectory() as name:
        folder = pathlib.Path(name)
        text = text_of(source, statements)
        if drawn(program, folder, text):
            return "large"
        run, moment, stimulus, expected = Run(source), 0, [",".join(["moment", *source.inputs])], []
        numbers = values_of(source, statements)
        for _ in range(SCANS):
            moment += source.random.choice([1, 5, 10, 25])
            inputs = {name: source.random.random() < 0.5 for name in source.inputs}
            stimulus.append(",".join([str(moment), *("01"[inputs[name]] for name in source.inputs)]))
            run.scan(statements, inputs, moment)
            expected.append(run.values | {f"{name}_{number}": run.values[name] == number for name, number in numbers})
        (folder / "made.csv").write_text("\n".join(stimulus) + "\n")
        status, rows, fault = asked(program, folder, "sim", "--watch-all", "--aliases", "made.ld", "made.csv")
        assert status == 0, f"{text}{fault}"
        names, *scans = (row.split(",") for row in rows.splitlines())
        assert [name for name in names if name.split("_")[0] in source.integers] == [f"{name}_{number}" for name, number in numbers], text
        for scan, values in zip(scans, expected, strict=True):
            for name, found in zip(names, scan):
                due = values.get(f"{name}.Q" if name.startswith("Edge") else name)
                assert due is None or found == "01"[due], f"{text}{name} at {scan[0]}"
    return "programs"


def rows_of(text):
    return list(csv.DictReader(io.StringIO(text)))


def tried_example(program, source):
    """Draws an example, and compares it with the drawing beside it; how many stimuli there are."""
    compared = 0
    with tempfile.TemporaryDirectory() as name:
        folder = pathlib.Path(name)
        assert drawn(program, folder, source.read_text()) is None, source
        for stimulus in sorted(source.parent.glob("*.csv")):
            status, rows, _ = asked(program, folder, "sim", "--watch-all", source.with_suffix(".ld"), stimulus)
            if status == 0:
                _, others, _ = asked(program, folder, "sim", "--watch-all", "made.ld", stimulus)
                for row, other in zip(rows_of(rows), rows_of(others), strict=True):
                    assert all(other[key] == found for key, found in row.items()), f"{source} {stimulus} at {row['moment']}"
                compared += 1
    assert compared, source
    return compared


def main():
    words = sys.argv[1:] + ["200", "200", "1"][max(0, len(sys.argv) - 2):]
    if len(words) != 4:
        sys.exit(__doc__)
    program, expressions, programs, seed = os.path.abspath(words[0]), *map(int, words[1:])
    with ThreadPoolExecutor(os.cpu_count()) as pool:
        found = Counter(pool.map(lambda number: tried_expression(program, seed * 1_000_003 + number), range(expressions)))
        found.update(pool.map(lambda number: tried_program(program, seed * 1_000_003 + number), range(programs)))
    examples = sorted(ROOT.glob("examples/*/*.st"))
    stimuli = sum(tried_example(program, source) for source in examples)
    print(f"examples {len(examples)} with {stimuli} stimuli, expressions {found['expressions']} programs {found['programs']} too large {found['large']}: no difference")


if __name__ == "__main__":
    main()
