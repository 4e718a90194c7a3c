#!/usr/bin/env python3
"""Which rules a program text breaks, by a second reading that shares nothing with the program: picture.py FILE...

`broken` gives the codes of all broken rules of the drawing (G1 to G15, V1, V8), or V alone where the declarations break a rule;
nothing where the text is a program. Which of several rules is told first, and where, isn't said here.
"""
import itertools
import re
import sys

CLOSED = rb"\(\*(?:[^*]|\*(?!\)))*\*\)"
TOKEN = re.compile(rb"(?:[ \t\n]|\r(?=\n)|" + CLOSED + rb"|//[^\n]*)*(:=|[:;()]|%[A-Za-z0-9.]*|[A-Za-z0-9_#.]+)")
PIECE = re.compile(CLOSED + rb"|//[^\n]*|\(\*.*|\r(?=\n)|.", re.S)
NAME = re.compile(r"[A-Z_][A-Z0-9_]*")
KEYWORDS = "VAR END_VAR AT BOOL TRUE FALSE TON TOF TP CTU CTD SR RS RETURN".split()
ADDRESS = re.compile(r"%([IQM])X?(\d{1,5})(?:\.(\d{1,5}))?")
DURATION = re.compile(r"(?:T|TIME)#" + "".join(rf"(?:(?P<{unit}>\d+){unit}_?)?" for unit in ("D", "H", "M", "S", "MS")))
MILLIS = {"D": 86_400_000, "H": 3_600_000, "M": 60_000, "S": 1_000, "MS": 1}
RANGES = {"H": 24, "M": 60, "S": 60, "MS": 1000}
TIMERS, COUNTERS, BISTABLES = ("TON", "TOF", "TP"), ("CTU", "CTD"), ("SR", "RS")
UPPER = {"-|IN TON Q|": "TON", "-|IN TOF Q|": "TOF", "-|IN TP  Q|": "TP", "-|CU CTU Q|": "CTU", "-|CD CTD Q|": "CTD",
         "-|S1 SR Q1|": "SR", "-|S  RS Q1|": "RS"}
LOWER = {"CTU": "|R       |", "CTD": "|LD      |", "SR": "|R       |", "RS": "|R1      |"}
LOWERS = {lead + cell for cell in LOWER.values() for lead in "- "}
SYMBOL = re.compile(r"-+(\|[ /PN]\||\([ /SRPN]\))(?:-*| *)")
LEAP = re.compile(r"-+(?:>>([A-Za-z0-9_]+)|<RETURN>) *")
LABEL = re.compile(r"\s*([A-Za-z0-9_]+)\s*:\s*")
RUNGS, ROWS, COLUMNS, PITCH = 100, 6, 10, 12
RAIL = PITCH * COLUMNS


def is_name(word, most):
    return bool(NAME.fullmatch(word)) and word not in KEYWORDS and len(word) <= most


def is_duration(word):
    found = DURATION.fullmatch(word)
    if not found or "_" == word[-1]:
        return False
    parts = [(unit, int(digits)) for unit, digits in found.groupdict().items() if digits is not None]
    usual = all(number < RANGES[unit] for unit, number in parts[1:])
    return bool(parts) and usual and sum(MILLIS[unit] * number for unit, number in parts) < 2**32


class Words:
    """The words of a text, one after the other, in capitals."""

    def __init__(self, text):
        self.text, self.place = text, 0

    def next(self):
        found = TOKEN.match(self.text, self.place)
        if not found:
            raise ValueError
        self.place = found.end()
        return found[1].decode().upper()

    def want(self, *wanted):
        word = self.next()
        if word not in wanted:
            raise ValueError
        return word


def preset(words, kind):
    """What may stand behind the type of an instance, to the semicolon."""
    if words.want(";", *([] if kind in BISTABLES else [":="])) == ";":
        return
    words.want("(")
    words.want("PT" if kind in TIMERS else "PV")
    words.want(":=")
    value = words.next()
    good = is_duration(value) if kind in TIMERS else value.isdigit() and len(value) <= 5 and int(value) <= 32767
    if not good:
        raise ValueError
    words.want(")")
    words.want(";")


def declarations(text):
    """The variables by letter of their place, the instances by kind, and what follows END_VAR; ValueError where a rule is broken."""
    words, variables, instances, places = Words(text), {}, {}, set()
    words.want("VAR")
    while (name := words.next()) != "END_VAR":
        letter = "M"
        if words.want("AT", ":") == "AT":
            found = ADDRESS.fullmatch(words.next())
            if not found:
                raise ValueError
            letter, place = found[1], (found[1], *(number and int(number) for number in found.groups()[1:]))
            if place in places:
                raise ValueError
            places.add(place)
            words.want(":")
            kind = words.want("BOOL")
        else:
            kind = words.want("BOOL", *TIMERS, *COUNTERS, *BISTABLES)
        if kind != "BOOL":
            preset(words, kind)
        elif words.want(":=", ";") == ":=":
            words.want("TRUE", "FALSE", "1", "0")
            words.want(";")
        if not is_name(name, 11 if kind == "BOOL" else 8 if kind in BISTABLES else 9) or name in variables or name in instances:
            raise ValueError
        if kind == "BOOL":
            variables[name] = letter
        else:
            instances[name] = kind
    if len(variables) > 256 or len(instances) > 64:
        raise ValueError
    return variables, instances, text[words.place:]


def is_foreign(text, allowed):
    return any(not 0x20 <= byte <= 0x7E and byte not in allowed for byte in text)


def pieces(rest):
    """Gap lines, with their comments as spaces, and rung lines, as (is a rung line, text), and the codes of what is odd."""
    lines, odd, place, gap, begins = [], set(), 0, b"", False
    while place < len(rest):
        if begins and rest[place:place + 1] in (b"|", b"+"):
            end = (rest + b"\n").index(b"\n", place)
            line = rest[place:end]
            line = line[:-1] if line.endswith(b"\r") and end < len(rest) else line
            odd |= {"V1"} if is_foreign(line, b"") else set()
            lines.append((True, line.decode("latin-1")))
            place, begins = end + 1, True
            continue
        if rest[place:place + 1] == b"\n":
            lines.append((False, gap.decode("latin-1")))
            gap, place, begins = b"", place + 1, True
            continue
        begins = False
        found = PIECE.match(rest, place)
        piece, place = found[0], found.end()
        if piece.startswith(b"(*") and not re.fullmatch(CLOSED, piece):
            odd.add("V8")
        if piece[:2] in (b"(*", b"//"):
            newlines = piece.count(b"\n")
            if newlines:
                lines += [(False, gap.decode("latin-1"))] + [(False, "")] * (newlines - 1)
                gap = b""
            gap += b" "
        elif piece == b"\r" and rest[place:place + 1] == b"\n":
            gap += b" "
        else:
            odd |= {"V1"} if is_foreign(piece, b"\t") else set()
            gap += piece
    if gap:
        lines.append((False, gap.decode("latin-1")))
    return lines, odd


class Rung:
    """The lines of a rung; rows and columns are counted from 1."""

    def __init__(self, lines):
        self.lines = lines

    def at(self, line, place):
        return self.lines[line][place] if line < len(self.lines) and place < len(self.lines[line]) else " "

    def cell(self, line, column):
        return "".join(self.at(line, PITCH * (column - 1) + 1 + place) for place in range(PITCH - 1))

    def name(self, row, column):
        return self.cell(2 * row - 2, column).strip(" ").upper()

    def wire(self, row, column):
        return self.cell(2 * row - 1, column)

    def joint(self, row, column):
        return self.at(2 * row - 1, PITCH * column)

    def is_vertical(self, row, column):
        return 1 <= row <= ROWS and self.at(2 * row - 2, PITCH * column) == "|"

    def form(self, row, column):
        """The kind of a cell and its symbol, label or kind of block; None where it has no form."""
        wire = self.wire(row, column)
        if wire in (" " * 11, "-" * 11):
            return "plain", wire
        if wire in UPPER:
            return "upper", UPPER[wire]
        if wire in LOWERS:
            return "lower", wire[1:]
        if symbol := SYMBOL.fullmatch(wire):
            return ("contact" if symbol[1][0] == "|" else "coil"), symbol[1]
        leap = LEAP.fullmatch(wire)
        if leap and (leap[1] is None or is_name(leap[1].upper(), 8)):
            return "leap", leap[1] and leap[1].upper()
        return None

    def has_right_link(self, row, column):
        form = self.form(row, column)
        return self.wire(row, column)[-1] != " " and not (form and form[0] in ("leap", "lower"))

    def is_fed(self, row, column):
        """Some right link enters the group of the joint on the right of this column."""
        first = last = row
        while first > 1 and self.is_vertical(first, column):
            first -= 1
        while last < ROWS and self.is_vertical(last + 1, column):
            last += 1
        return any(self.has_right_link(r, column) and self.joint(r, column) in "-+" for r in range(first, last + 1))

    def leaps(self):
        forms = (self.form(row, column) for row, column in itertools.product(range(1, ROWS + 1), range(1, COLUMNS + 1)))
        return [form[1] for form in forms if form and form[0] == "leap"]

    def broken(self, variables, instances):
        found = set()
        if len(self.lines) > 2 * ROWS:
            found.add("G2")
        if any(line[RAIL + 1:].strip(" ") for line in self.lines):
            found.add("G1")
        if any(self.at(line, RAIL) not in " |+" for line in range(2 * ROWS)):
            found.add("G4")
        for row, column in itertools.product(range(1, ROWS + 1), range(1, COLUMNS + 1)):
            if column < COLUMNS:
                found |= self.broken_joint(row, column)
            found |= self.broken_cell(row, column, variables, instances)
        return found

    def broken_joint(self, row, column):
        joint, left = self.joint(row, column), self.has_right_link(row, column)
        dash = self.wire(row, column + 1)[0] == "-"
        over = self.at(2 * row - 2, PITCH * column)
        bad = over not in " |" or joint not in " -+|" or (joint == "-" and not left) or (joint == "|" and (left or dash))
        found = {"G4"} if bad else set()
        if over == "|" and (row == 1 or self.joint(row - 1, column) not in "+|" or joint not in "+|"):
            found.add("G5")
        if dash and (joint == " " or joint == "+" and not self.is_fed(row, column)):
            found.add("G6")
        return found

    def broken_cell(self, row, column, variables, instances):
        form, name, found = self.form(row, column), self.name(row, column), set()
        if form is None:
            return {"G3"}
        kind, what = form
        if kind in ("plain", "lower", "leap"):
            found |= {"G8"} if name else set()
        elif not name:
            found.add("G7")
        else:
            found |= self.broken_operand(kind, what, name, variables, instances)
        below = self.wire(row + 1, column)[1:] if row < ROWS else ""
        above = self.form(row - 1, column) if row > 1 else None
        is_under = above and above[0] == "upper" and LOWER.get(above[1]) == what
        lacks = kind == "upper" and what in LOWER and not (below == LOWER[what] and self.wire(row + 1, column) in LOWERS)
        if lacks or kind == "lower" and not is_under:
            found.add("G11")
        return found

    def broken_operand(self, kind, what, name, variables, instances):
        base, _, output = name.partition(".")
        if base not in variables and base not in instances or "." in name and output not in ("Q", "Q1"):
            return {"G9"}
        if kind == "upper":
            good = instances.get(name) == what
        elif kind == "coil":
            good = variables.get(name) in ("Q", "M")
        elif output:
            good = base in instances and (output == "Q1") == (instances[base] in BISTABLES)
        else:
            good = name in variables
        return set() if good else {"G10"}


def broken(text):
    """The codes of the broken rules."""
    try:
        variables, instances, rest = declarations(text)
    except ValueError:
        return {"V"}
    lines, found = pieces(rest)
    rungs, labels, waiting, drawn = [], {}, [], set()
    for is_rung, group in itertools.groupby(lines, lambda line: line[0]):
        if is_rung:
            rungs.append(Rung([line for _, line in group]))
            waiting = []
            continue
        for _, line in group:
            label = LABEL.fullmatch(line)
            word = label[1].upper() if label else ""
            if line.strip(" \t") and not is_name(word, 8) or word and (word in labels or waiting):
                found.add("G13")
            if word:
                waiting.append(word)
                labels[word] = len(rungs)
    found |= {"G13"} if waiting else set()
    found |= {"G15"} if len(rungs) > RUNGS else set()
    for number, rung in enumerate(rungs):
        found |= rung.broken(variables, instances)
        for row, column in itertools.product(range(1, ROWS + 1), range(1, COLUMNS + 1)):
            form = rung.form(row, column)
            if form and form[0] == "upper":
                found |= {"G12"} if rung.name(row, column) in drawn else set()
                drawn.add(rung.name(row, column))
        leaps = rung.leaps()
        found |= {"G14"} if len(leaps) > 1 else set()
        found |= {"G13"} if any(label is not None and labels.get(label, 0) <= number for label in leaps) else set()
    return found


if __name__ == "__main__":
    for path in sys.argv[1:]:
        with open(path, "rb") as file:
            print(path, *sorted(broken(file.read())))
