#!/usr/bin/env python3
"""Compares `ladder export` with the drawing: exporting.py PROGRAM [NUMBER [SEED]] [--xml].

Each example (`examples/*/*.ld`) and each of so many random drawings (200) is exported, in a form that is chosen at random. The text is read here,
and its statements are run one after the other (`statements.py`): in 40 scans of a random stimulus each variable and each output of a block must
have the value that `ladder sim` gives it by the drawing. The text is drawn again too (`ladder draw`): that must be a program (`ladder check`)
and have the same scans, unless it would have too many rungs (T9). A text that would be too large (E3) is passed over.

With --xml each is exported as a project in PLCopen XML, which is read here too (`exported_projects.py`). Its elements act one after the other, each by
the power that has a way to it: in the 40 scans each variable and each output of a block must have the value that it has by the drawing. What
`ladder import` makes of the project must have the same scans, in all that `ladder sim --watch-all` shows, and leave the same in the blocks. A project
that would have too many rungs or variables is counted apart.

Where the environment has EXPORT, these words are the command for `PROGRAM export --st`, or for `PROGRAM export --xml`.
"""
import csv
import io
import os
import pathlib
import random
import re
import shlex
import subprocess
import sys
import tempfile
from collections import Counter
from concurrent.futures import ProcessPoolExecutor

from differential import LARGE, SMALL, drawing
from exported_projects import Project
from statements import KINDS, Run

ROOT = pathlib.Path(__file__).resolve().parent.parent
SCANS = 40
WIDEST = 110
TOKEN = re.compile(r"\s*(?:\(\*.*?\*\)\s*)*(:=|[A-Za-z_]\w*\.Q1?|T#\d+(?:ms|[dhms])|%[IQM]X[\d.]+|\w+|[():;,])", re.S)
UNITS = {"ms": 1, "s": 1000, "m": 60_000, "h": 3_600_000, "d": 86_400_000}
SPELLED = {"SR": ("SET1", "RESET"), "RS": ("SET", "RESET1")}
ALIAS = re.compile(r"^ *(\w+) \(\* (\S+) \*\)", re.M)
DECLARED = re.compile(r"^ *(\w+)(?: \(\* (\S+) \*\))?[^:\n]*: *\w+", re.M)
FORMS = [[], [], [], ["--bits"], ["--codesys"], ["--aliases"]]


class Text:
    """A program in Structured Text: what it declares, and its statements."""

    def __init__(self, text):
        self.tokens = [found[1] for found in TOKEN.finditer(text)]
        assert "".join(self.tokens) == re.sub(r"\s|\(\*.*?\*\)", "", text, flags=re.S), "something is no word"
        self.inputs, self.outputs, self.initial, self.blocks = [], [], {}, {}
        self.triggers, self.integers = [], {}
        self.take("PROGRAM", None, "VAR")
        while self.tokens[0] != "END_VAR":
            self.declaration()
        self.take("END_VAR")
        self.statements = self.statements_to("END_PROGRAM")
        assert not self.tokens, "there is more"
        declared = [name.upper() for name in [*self.initial, *self.blocks]]
        assert len(declared) == len(set(declared)), "two names are one"

    def take(self, *wanted):
        """Takes these tokens, of which None is any; the last one."""
        for want in wanted:
            token = self.tokens.pop(0)
            assert want in (None, token), f"{token} for {want}"
        return token

    def takes(self, token):
        return self.tokens[0] == token and bool(self.take(token))

    def declaration(self):
        name, place = self.take(None), self.take(None) if self.takes("AT") else ""
        self.take(":")
        kind = self.take(None)
        if kind == "BOOL":
            self.initial[name] = self.takes(":=") and self.take("TRUE") == "TRUE"
            (self.inputs if place.startswith("%I") else self.outputs).append(name)
        else:
            self.blocks[name] = kind, 0
            if self.takes(":="):
                self.take("(", KINDS[kind][2], ":=")
                self.blocks[name] = kind, self.preset(kind)
                self.take(")")
        self.take(";")

    def preset(self, kind):
        word = self.take(None)
        if KINDS[kind][2] == "PV":
            return int(word)
        number, unit = re.fullmatch(r"T#(\d+)(\w+)", word).groups()
        return int(number) * UNITS[unit]

    def output(self, name):
        return f"{name}.Q1" if self.blocks[name][0] in ("SR", "RS") else f"{name}.Q"

    def statements_to(self, end):
        made = []
        while not self.takes(end):
            if not self.takes(";"):
                made.append(self.statement())
        return made

    def statement(self):
        name = self.take(None)
        if name == "RETURN":
            self.take(";")
            return ("return",)
        if name == "IF":
            condition = self.expression()
            self.take("THEN")
            inner = self.statements_to("END_IF")
            self.take(";")
            return "if", [(condition, inner)], []
        if self.takes("("):
            return self.call(name)
        self.take(":=")
        assert name in self.initial and name not in self.inputs, name
        value = self.expression()
        self.take(";")
        return "assign", name, value

    def call(self, name):
        kind, preset = self.blocks[name]
        first, second, parameter = KINDS[kind]
        spelled = SPELLED.get(kind, ())
        given = {}
        while True:
            word = self.take(None)
            self.take(":=")
            if word == parameter:
                self.blocks[name] = kind, self.preset(kind)
            else:
                given[(first, second)[spelled.index(word)] if word in spelled else word] = self.expression()
            if self.take(None) == ")":
                break
        self.take(";")
        assert first in given and set(given) <= {first, second}, f"{name} {given}"
        return "call", name, given[first], given.get(second, False)

    def expression(self):
        made = self.conjunction()
        while self.takes("OR"):
            made = "OR", made, self.conjunction()
        return made

    def conjunction(self):
        made = self.operand()
        while self.takes("AND"):
            made = "AND", made, self.operand()
        return made

    def operand(self):
        word = self.take(None)
        if word == "NOT":
            return "NOT", self.operand()
        if word == "(":
            made = self.expression()
            self.take(")")
            return made
        assert word in ("TRUE", "FALSE") or word in self.initial or word in map(self.output, self.blocks), word
        return word == "TRUE" if word in ("TRUE", "FALSE") else word

    def fresh(self):
        run = Run(self)
        run.values.update(self.initial)
        return run


def asked(program, folder, *words):
    done = subprocess.run([*program, *words], cwd=folder, capture_output=True, text=True, check=False)
    return done.returncode, done.stdout, done.stderr


def exported(program, folder, form, language="--st"):
    command = shlex.split(os.environ["EXPORT"]) if "EXPORT" in os.environ else [program, "export", language]
    status, text, fault = asked(command, folder, *form, "program.ld")
    if fault == "fault E3\n":
        return None
    assert status == 0 and text and not fault, f"{form}{fault}"
    return text


def stimulus_of(chance, inputs):
    """Records of random inputs, some the same as before, at random moments."""
    moment, bits, records = 0, [False] * len(inputs), []
    for _ in range(SCANS):
        moment += chance.choice([0, 1, 1, 5, 700, 5000])
        bits = [chance.random() < 0.5 for _ in inputs] if chance.random() < 0.7 else bits
        records.append((moment, bits))
    return records


def scanned(program, folder, name, declared, records):
    """The rows of `ladder sim`."""
    lines = [",".join(["moment", *declared]), *(",".join([str(moment), *map(str, map(int, bits))]) for moment, bits in records)]
    (folder / "made.csv").write_text("\n".join(lines) + "\n")
    status, rows, fault = asked([program], folder, "sim", "--watch-all", name, "made.csv")
    assert status == 0, fault
    return [{key.upper(): found for key, found in row.items()} for row in csv.DictReader(io.StringIO(rows))]


def names_of(text, source):
    """The name in a text for each name in its drawing: the same, an alias, or one with a number behind it."""
    variables = re.findall(r"^ *(\w+)(?: \(\* \S+ \*\))?[^:\n]*: *BOOL", source.split("END_VAR")[0], re.M)
    instances = re.findall(r"^ *(\w+)(?: \(\* \S+ \*\))? *: *(?!BOOL)\w+", source.split("END_VAR")[0], re.M)
    names = dict(zip(map(str.upper, variables), text.initial))
    for name, word in zip(map(str.upper, instances), text.blocks):
        names[name + ".Q"] = names[name + ".Q1"] = text.output(word)
    return names


def difference(rows, names, run, statements, records):
    """What is said of the first scan that is another one by the statements."""
    inputs = list(run.source.inputs)
    for row, (moment, bits) in zip(rows, records, strict=True):
        run.scan(statements, dict(zip(inputs, bits)), moment)
        for key, found in row.items():
            name = names.get(key)
            if name is not None and "01"[run.values[name]] != found:
                return f"{key} is {found} by the drawing at {moment}"
    return None


def drawn_again(program, folder, rows, records, inputs):
    """What is wrong with the drawing of the text, or whether it is too large."""
    status, again, fault = asked([program], folder, "draw", "made.st")
    if status and fault.startswith("fault T9"):
        return "too large to be drawn again"
    assert status == 0, fault
    (folder / "again.ld").write_text(again)
    status, _, fault = asked([program], folder, "check", "again.ld")
    assert status == 0, again + fault
    others = scanned(program, folder, "again.ld", inputs, records)
    for row, other in zip(rows, others, strict=True):
        for key, found in row.items():
            assert other.get(key, found) == found, f"{again}{key} at {row['MOMENT']}"
    return "drawn again"


def tried(program, source, seed):
    """What was compared of a drawing."""
    chance = random.Random(seed)
    form = chance.choice(FORMS)
    with tempfile.TemporaryDirectory() as name:
        folder = pathlib.Path(name)
        (folder / "program.ld").write_text(source)
        text = exported(program, folder, form)
        if text is None:
            return "too large"
        (folder / "made.st").write_text(text)
        try:
            assert max(map(len, text.splitlines())) <= WIDEST, "a line is too wide"
            read = Text(text)
            names = names_of(read, source)
            declared = [key for key, value in names.items() if value in read.inputs]
            records = stimulus_of(chance, declared)
            rows = scanned(program, folder, "program.ld", declared, records)
            wrong = difference(rows, names, read.fresh(), read.statements, records)
            assert wrong is None, wrong
            return drawn_again(program, folder, rows, records, declared) if "--aliases" not in form else "with aliases"
        except AssertionError as error:
            return f"{source}\n{text}\n{error}"


# ---- projects in PLCopen XML


def words_of(drawing):
    """The name in a drawing for each alias, and for each name without one."""
    found = DECLARED.findall(drawing.split("END_VAR")[0])
    return {(alias or name).upper(): name.upper() for name, alias in found}


def stored(program, folder, name):
    """What blocks store at the end of a stimulus, by their names."""
    status, _, fault = asked([program], folder, "sim", "--save", "made.state", name, "made.csv")
    assert status == 0, fault
    rows = [line.upper().split(",") for line in (folder / "made.state").read_text().splitlines()]
    return {name: found for kind, name, *found in rows if kind in ("TIMER", "COUNTER", "BISTABLE")}


def compare_again(program, folder, again, names, declared, records):
    """Compares the drawing of a project with the first one, by the name there for each name here."""
    rows = scanned(program, folder, "program.ld", declared, records)
    before = stored(program, folder, "program.ld")
    (folder / "again.ld").write_text(again)
    others = scanned(program, folder, "again.ld", [names[name] for name in declared], records)
    after = stored(program, folder, "again.ld")
    for row, other in zip(rows, others, strict=True):
        for key, found in row.items():
            name, point, member = key.partition(".")
            assert key == "MOMENT" or other[names[name] + point + member] == found, f"{again}{key} is {found} by the drawing at {row['MOMENT']}"
    for name, found in before.items():
        assert after[names[name]] == found, f"{again}{name} stores {found} by the drawing, not {after[names[name]]}"


def imported_again(program, folder, names, declared, records):
    """What is found of the drawing of a project."""
    status, again, fault = asked([program], folder, "import", "made.xml")
    if status and re.fullmatch("fault N6 (rungs|variables)\n", fault):
        return f"too many {fault.split()[-1]} to be imported"
    assert status == 0, fault
    words = words_of(again)
    compare_again(program, folder, again, {key.split(".")[0]: words[name.split(".")[0].upper()] for key, name in names.items()}, declared, records)
    return "imported again"


def projected(program, source, seed):
    """What was compared of a drawing and its project."""
    chance = random.Random(seed)
    form = chance.choice(FORMS)
    with tempfile.TemporaryDirectory() as name:
        folder = pathlib.Path(name)
        (folder / "program.ld").write_text(source)
        text = exported(program, folder, form, "--xml")
        if text is None:
            return "too large"
        (folder / "made.xml").write_text(text)
        try:
            project = Project(text)
            names = names_of(project, source)
            declared = [key for key, value in names.items() if value in project.inputs]
            records = stimulus_of(chance, declared)
            rows = scanned(program, folder, "program.ld", declared, records)
            wrong = difference(rows, names, project.fresh(), project.elements, records)
            assert wrong is None, wrong
            return imported_again(program, folder, names, declared, records)
        except AssertionError as error:
            return f"{source}\n{text}\n{error}"


# ---- the whole


def trial(program, seed, kind):
    chance = random.Random(seed)
    return kind(program, drawing(chance, chance.choice([LARGE, SMALL])), seed)


def main():
    words = [word for word in sys.argv[1:] if word != "--xml"]
    kind = projected if "--xml" in sys.argv else tried
    words += ["200", "1"][max(0, len(words) - 1):]
    if len(words) != 3:
        sys.exit(__doc__)
    program, number, seed = os.path.abspath(words[0]), *map(int, words[1:])
    examples = sorted(path.read_text() for path in ROOT.glob("examples/*/*.ld"))
    seeds = range(seed * 1_000_003, seed * 1_000_003 + number)
    with ProcessPoolExecutor(os.cpu_count()) as pool:
        found = Counter(pool.map(kind, [program] * len(examples), examples, range(len(examples))))
        found.update(pool.map(trial, [program] * number, seeds, [kind] * number))
    wrong = [what for what in found if "\n" in what]
    print(*wrong[:3], sep="\n")
    print(f"{sum(found.values()) - len(wrong)} of {sum(found.values())} alike:", *(f"{what} {found[what]}," for what in sorted(found) if what not in wrong))
    return 1 if wrong else 0


if __name__ == "__main__":
    sys.exit(main())
