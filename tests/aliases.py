#!/usr/bin/env python3
"""Compares what a program says with aliases and without them: aliases.py PROGRAM.

Each program text of the examples gets an alias behind every other name that it declares. With `--aliases` each answer must be the one without,
in which these names are replaced, byte for byte; without the option, which `reach` doesn't have, the aliases must change nothing. The words on
the command line, stimuli and saved states are the same in both.

Then random declarations have random comments behind their names, and a reading of its own says which are aliases, which of them is taken first, and
on which line (A1).
"""
import pathlib
import random
import re
import subprocess
import sys
import tempfile

HERE = pathlib.Path(__file__).resolve().parent
NAME = re.compile(r"^(\s*)([A-Za-z_]\w*)(\s*(?:AT\s|:))", re.MULTILINE)
MOST_INPUTS = 8


def head_of(text):
    """The block of declarations, and what follows it."""
    at = text.index("END_VAR")
    return text[:at], text[at:]


def with_aliases(text):
    """The text with aliases, and the alias of each name that has one."""
    head, rest = head_of(text)
    aliases = {}

    def named(found):
        name = found[2]
        if name == "VAR" or len(NAME.findall(head[: found.start()])) % 2:
            return found[0]
        aliases[name] = f"the-{name}/{len(aliases)}.x"
        return f"{found[1]}{name} (* {aliases[name]} *){found[3]}"

    return NAME.sub(named, head) + rest, aliases


def answer(program, words, folder):
    done = subprocess.run([program, *words], cwd=folder, capture_output=True, check=False, timeout=60)
    return done.returncode, done.stdout.decode(), done.stderr.decode()


def renamed(said, aliases):
    """The output with each name that has an alias replaced by it."""
    return re.sub(r"(?<![\w-])[A-Za-z_]\w*", lambda found: aliases.get(found[0], found[0]), said)


def requests(text, dice):
    """Requests about a program, and the stimulus that some of them read."""
    head, _ = head_of(text)
    inputs = re.findall(r"^\s*(\w+)\s+AT\s+%IX?", head, re.MULTILINE)
    coils = [name for name in re.findall(r"^\s*(\w+)\s+AT\s+%QX?", head, re.MULTILINE)]
    listed = inputs[:MOST_INPUTS]
    rows = [f"{100 * number}," + ",".join(str(dice.randint(0, 1)) for _ in inputs) for number in range(40)]
    stimulus = "\n".join([",".join(["moment", *inputs]), *rows]) + "\n"
    asked = [["uses", "t.ld"], ["never", "t.ld"], ["never", "--pairs", "t.ld"], ["diff", "t.ld", "t.ld"], ["diff", "--reachable", "t.ld", "t.ld"],
             ["sim", "t.ld", "s.csv"], ["sim", "--watch-all", "t.ld", "s.csv"]]
    for coil in coils:
        asked += [
            ["causes", "--limit", "99", "t.ld", coil, *listed],
            ["causes", "--grouped", "t.ld", coil, *listed],
            ["causes", "--grouped", "--terms", "t.ld", coil, *listed],
            ["causes", "--scans", "9", "--every", "700", "--limit", "99", "t.ld", coil, *listed],
            ["causes", "--any", "--limit", "9", "t.ld", coil, *listed[:3]],
            ["causes", "--any", "--runs", "--limit", "3", "t.ld", coil, *listed[:2]],
            ["diff", "t.ld", "t.ld", coil, *listed],
            ["diff", "--grouped", "t.ld", "t.ld", coil, *listed],
            ["diff", "--scans", "9", "--every", "700", "t.ld", "t.ld", coil, *listed],
            ["reach", "t.ld", coil],
        ]
    return asked, stimulus


def compare(program, path, dice):
    """How many answers of a program text were compared, and which differ."""
    plain = path.read_text("ascii")
    text, aliases = with_aliases(plain)
    asked, stimulus = requests(plain, dice)
    count, wrong = 0, []
    with tempfile.TemporaryDirectory() as one, tempfile.TemporaryDirectory() as two:
        for folder, words in ((one, plain), (two, text)):
            (pathlib.Path(folder) / "t.ld").write_text(words, "ascii")
            (pathlib.Path(folder) / "s.csv").write_text(stimulus, "ascii")
        for words in asked:
            status, out, err = answer(program, words, one)
            count += 1 if words[0] == "reach" else 2
            if answer(program, words, two) != (status, out, err):
                wrong.append((path.name, words, "the aliases change it"))
            if words[0] != "reach" and answer(program, [words[0], "--aliases", *words[1:]], two) != (status, renamed(out, aliases), err):
                wrong.append((path.name, words, "with --aliases"))
    return count, wrong


# ---- which comments are aliases

ALIAS = re.compile(r"[ \t]*\(\*[ \t]*([A-Za-z0-9_./-]{1,32})[ \t]*\*\)")
WORDS = ("a-b", "A-B", "x.1", "Run", "run", "V1", "v2", "V3", "two words", "", "*", "a*b", "end)", "o" * 32, "o" * 33, "/", "-", "é")
BEHIND = ("", " ", "\t", "\n", " (* x *)", " // x\n")


def comment(dice):
    word = dice.choice(WORDS)
    return dice.choice(("", " ", "  ", "\t", "\n")) + dice.choice(("(*", "( *", "//", "(*", "(*")) + dice.choice(("", " ", "\t")) + word + dice.choice(("", " ")) + "*)"


def head(dice):
    """Declarations with comments behind their names: of each its name, what follows it, and its line."""
    text, found = "VAR\n", []
    for number in range(dice.randint(1, 6)):
        name = dice.choice(("V", "Run", "x", "v"))+ str(number)
        text += name
        behind = dice.choice((comment(dice), "", comment(dice) + dice.choice(BEHIND)))
        found.append((name, behind, text.count("\n") + 1))
        text += behind + "\n" + dice.choice((f"AT %IX{number} : BOOL;", ": BOOL;", ": TON;")) + "\n"
    return text + "END_VAR\n", found


def titles(found):
    """The title of each declaration; or the line of the first alias that is taken."""
    names = {name.lower() for name, _, _ in found}
    said = [name for name, _, _ in found]
    for number, (name, behind, line) in enumerate(found):
        alias = ALIAS.match(behind)
        if alias and alias[1].lower() != name.lower():
            if alias[1].lower() in names | {title.lower() for title in said}:
                return line
            said[number] = alias[1]
    return said


def compare_heads(program, dice, number):
    """How many random declarations were compared, and which differ."""
    count, wrong = 0, []
    with tempfile.TemporaryDirectory() as folder:
        for _ in range(number):
            text, found = head(dice)
            (pathlib.Path(folder) / "t.ld").write_text(text, "utf-8")
            if answer(program, ["check", "t.ld"], folder)[0] != 0:
                continue
            count += 1
            wanted = titles(found)
            status, out, err = answer(program, ["uses", "--aliases", "t.ld"], folder)
            if isinstance(wanted, int):
                same = (status, out, err) == (1, "", f"fault A1 line {wanted}\n")
            else:
                same = status == 0 and sorted(row.split(",")[0] for row in out.splitlines()[1:]) == sorted(wanted)
            if not same:
                wrong.append((text, wanted, status, out + err))
    return count, wrong


def main():
    program, dice = pathlib.Path(sys.argv[1]).resolve(), random.Random(3)
    count, wrong = 0, []
    texts = [path for path in sorted((HERE.parent / "examples").glob("*/*.ld")) if "VAR" in path.read_text("ascii")]
    for path in texts:
        some, differ = compare(program, path, dice)
        count, wrong = count + some, wrong + differ
    for name, words, why in wrong:
        print(name, " ".join(words), why)
    heads, other = compare_heads(program, dice, 400)
    for text, wanted, status, said in other:
        print(text, "want", wanted, "have", status, said)
    print(f"{count + heads - len(wrong) - len(other)} of {count + heads} answers with aliases and without passed")
    return 1 if wrong or other else 0


if __name__ == "__main__":
    sys.exit(main())
