#!/usr/bin/env python3
"""The rules of words that go together: rules.py [--write] [PROGRAM].

crates/cli_usage has them as tables. The section `usage` of docs/user/faults.md has the same tables: with --write they are written there, without
it they are compared. With a PROGRAM each combination of up to three options of a subcommand is tried, beside what must be there: where the program
refuses it, it says which rule of the tables is broken, and where it doesn't, no rule is.
"""
import itertools
import pathlib
import re
import subprocess
import sys
import tempfile

ROOT = pathlib.Path(__file__).resolve().parent.parent
TABLES = ROOT / "crates" / "cli_usage" / "src" / "tables.rt"
DOCUMENT = ROOT / "docs" / "user" / "faults.md"
TERM = re.compile(r'Term::(Flag|Valued|Value|Place)\("([^"]*)"(?:,\s*"([^"]*)")?,?\s*\)')
BEGIN, END = "<!-- rules: begin -->\n", "<!-- rules: end -->\n"
# a value for each option that has one, and the words that each subcommand needs; files are made below
VALUES = {"at": "5", "after": "0", "upto": "1", "limit": "1", "scans": "2", "for": "20", "every": "10", "looks": "10", "states": "10",
          "state": "state.csv", "new-state": "state.csv", "all-coils": "folder", "save": "saved", "number": "0", "stimulus": "stimulus.csv",
          "watch": "B", "assume": "A", "gap": "5", "both": "Y", "hal": "x.hal"}
PLACES = {"causes": ["p.ld"], "diff": ["p.ld", "q.ld"], "show": ["p.ld"], "sim": ["p.ld", "stimulus.csv"], "never": ["p.ld"], "reach": ["p.ld", "Y"],
          "export": ["p.ld"], "import": ["x.clp"]}
PROGRAM_TEXT = """VAR
  A AT %IX0 : BOOL;
  B AT %IX1 : BOOL;
  Y AT %QX0 : BOOL;
END_VAR
|     A           B           Y
|----| |---------| |---------( )----
"""


def text_of(kind, name, value):
    """A term as the program writes it."""
    if kind == "Place":
        return value
    return f"--{name} {value}" if kind == "Value" else f"--{name}"


def tables():
    """For each table of the source its rules: whether it wants, the terms that it is about, the terms that it wants or excludes."""
    found = {}
    for name, body in re.findall(r"const (\w+): &\[Rule\] = &\[(.*?)\n?\];", TABLES.read_text(), re.S):
        rules = []
        for kind, rest in re.findall(r"Rule::(Wants|Excludes)\((.*?)\n?\s*\)(?=,\s*(?://|Rule|$)|\s*$)", re.sub(r"//[^\n]*", "", body), re.S):
            given, other = re.findall(r"&\[(.*?)\]", rest, re.S)
            rules.append((kind == "Wants", TERM.findall(given), TERM.findall(other)))
        assert len(rules) == len(re.findall(r"Rule::(?:Wants|Excludes)\(", body)), name
        found[name] = rules
    return found


def rules_of(subcommand, found):
    """The rules of a subcommand, those that it shares at the end."""
    return found.get(subcommand.upper(), []) + (found["FORMS"] if subcommand in ("causes", "diff") else [])


def page(found):
    """The tables of the document: what each option wants, and what it excludes."""
    lines = []
    for subcommand in PLACES:
        rows = {}
        for wants, given, other in rules_of(subcommand, found):
            row = rows.setdefault(" with ".join(f"`{text_of(*term)}`" for term in given), ([], []))
            texts = [f"`{text_of(*term)}`" for term in other]
            row[0 if wants else 1].extend([" or ".join(texts)] if wants else texts)
        lines += ["", f"`ladder {subcommand}`:", "", "| | Wants | Excludes |", "|---|---|---|"]
        lines += [f"| {subject} | {', and '.join(wanted)} | {', '.join(excluded)} |" for subject, (wanted, excluded) in rows.items()]
    return "\n".join(lines[1:]) + "\n"


def with_page(text, found):
    """The document with these tables."""
    begin, end = text.index(BEGIN) + len(BEGIN), text.index(END)
    return text[:begin] + "\n" + page(found) + "\n" + text[end:]


def is_there(term, words, places, subcommand):
    """Whether a term is among options, which have values, and words that are known by their place."""
    kind, name, value = term
    if kind == "Place":
        first = {"causes": {"file": 0, "coil": 1, "inputs": 2}, "diff": {"coil": 2, "inputs": 3}, "show": {"inputs": 1}, "export": {"file": 0}}[subcommand]
        return len(places) > first[name]
    return name in words and (kind != "Value" or words[name] == value)


def broken(rules, words, places, subcommand):
    """What is said of the first rule that is broken, if one is."""
    there = lambda term: is_there(term, words, places, subcommand)
    for wants, given, other in rules:
        if all(map(there, given)) and (not any(map(there, other)) if wants else any(map(there, other))):
            about = " with ".join(text_of(*term) for term in given)
            return about + (" wants " + " or ".join(text_of(*term) for term in other) if wants
                            else " excludes " + next(text_of(*term) for term in other if there(term)))
    return None


def options(subcommand, rules):
    """The options that rules of a subcommand speak of, each with its values."""
    found = {}
    for _, given, other in rules:
        for kind, name, value in given + other:
            if kind == "Flag":
                found[name] = [None]
            elif kind in ("Valued", "Value"):
                values = found.setdefault(name, [VALUES[name]] if name in VALUES else ["none"])
                if kind == "Value" and value not in values:
                    values.append(value)
    return [(name, value) for name, values in sorted(found.items()) for value in values]


def try_all(program, found):
    """Tries combinations of options with a program. Returns how many, and those that it answers wrongly."""
    tried, wrong = 0, []
    with tempfile.TemporaryDirectory() as folder:
        base = pathlib.Path(folder)
        for name in ("p.ld", "q.ld"):
            (base / name).write_text(PROGRAM_TEXT)
        (base / "stimulus.csv").write_text("moment,A\n0,1\n")
        for subcommand, places in PLACES.items():
            rules = rules_of(subcommand, found)
            further = {"causes": [[], ["Y"], ["Y", "A"]], "diff": [[], ["Y"], ["Y", "A"]], "show": [[], ["A"]]}.get(subcommand, [[]])
            for count in range(3):
                for chosen in itertools.combinations(options(subcommand, rules), count):
                    words = dict(chosen)
                    if len(words) < len(chosen):
                        continue
                    for more in further:
                        line = [word for name, value in chosen for word in ([f"--{name}"] if value is None else [f"--{name}", value])]
                        run = subprocess.run([program, subcommand, "--why", *line, *places, *more], cwd=base, capture_output=True, text=True, timeout=60)
                        said = broken(rules, words, places + more, subcommand)
                        tried += 1
                        is_usage = run.stderr.startswith("fault usage\n")
                        if is_usage != (said is not None) or is_usage and run.stderr != f"fault usage\nusage: {said}\n":
                            wrong.append((subcommand, line, more, said, run.stderr[:200]))
    return tried, wrong


def main():
    words = sys.argv[1:]
    found = tables()
    text = DOCUMENT.read_text()
    if "--write" in words:
        DOCUMENT.write_text(with_page(text, found))
        return
    if with_page(text, found) != text:
        sys.exit("docs/user/faults.md doesn't have the rules of crates/cli_usage: tests/rules.py --write")
    if not words:
        print("the rules of words are those of the document")
        return
    tried, wrong = try_all(str(pathlib.Path(words[0]).resolve()), found)
    for case in wrong[:10]:
        print(*case)
    print(f"{tried - len(wrong)} of {tried} combinations of options")
    sys.exit(bool(wrong))


main()
