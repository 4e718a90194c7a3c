#!/usr/bin/env python3
"""Compares `ladder sim --every` with the same stimulus written out: filling.py PROGRAM [TRIALS] [--seed=N].

For random stimuli of the examples the records between those of the file are written out here, by a computation of its own. Then the
trace, the saved state, the waveform, the fault and the status of both must be the same, but for the number of the record in a fault,
which is that of the file. Some stimuli have a record that is bad or goes back, and some begin in a state that another one saved.
"""
import pathlib
import random
import re
import subprocess
import sys
import tempfile

ROOT = pathlib.Path(__file__).resolve().parent.parent
INPUT = re.compile(r"^\s*(\w+)\s+AT\s+%IX\d+\s*:", re.MULTILINE)
LAST = 2**64 - 1


def run(program, words, folder):
    return subprocess.run([program, *words], cwd=folder, stdin=subprocess.DEVNULL, capture_output=True, check=False, timeout=120)


def moment_of(fields, width):
    """The moment of a good record; none where it is bad."""
    if len(fields) != width or any(field not in ("0", "1") for field in fields[1:]) or not re.fullmatch("0|[1-9][0-9]*", fields[0]):
        return None
    return int(fields[0]) if int(fields[0]) <= LAST else None


def written_out(lines, every):
    """The lines with those in between, and the number in the file that belongs to each."""
    whole, numbers, width = [lines[0]], [1], len(lines[0].split(","))
    before = None
    for number, line in enumerate(lines[1:], 2):
        fields = line.split(",")
        moment = moment_of(fields, width)
        if before is not None and moment is not None:
            later = before[0] + every
            while later < moment:
                whole.append(",".join([str(later), *before[1]]))
                numbers.append(number)
                later += every
        whole.append(line)
        numbers.append(number)
        before = None if moment is None else (moment, fields[1:])
    return whole, numbers


def random_lines(random_from, inputs, every, start):
    """A stimulus: gaps about the time between two scans, some records at one moment, and now and then one that is wrong."""
    named = random_from.sample(inputs, random_from.randint(0, len(inputs)))
    lines, moment = [",".join(["moment", *named])], start + random_from.choice([0, 0, 1, 1000])
    for number in range(random_from.choice([0, 1, 2, 3, 4, 6, 8])):
        if number:
            moment += random_from.choice([0, 1, every - 1, every, every + 1, 2 * every, 2 * every + 1, 3 * every - 1, random_from.randint(0, 40 * every)])
        bits = [str(random_from.randint(0, 1)) for _ in named]
        lines.append(",".join([str(moment), *bits]))
    if len(lines) > 1 and random_from.random() < 0.3:
        place = random_from.randrange(1, len(lines))
        fields = lines[place].split(",")
        wrong = [["0" + fields[0], *fields[1:]], [*fields, "1"], fields[:-1], [str(LAST + 1), *fields[1:]], ["", *fields[1:]], [fields[0], *["2" for _ in named]]]
        back = [str(max(0, int(fields[0]) - random_from.randint(1, 2 * every + 1))), *fields[1:]]
        # A line without a character is no record.
        lines[place] = ",".join(random_from.choice([*wrong, back, back, back, back])) or "x"
    return lines


def in_file(text, numbers):
    """The line of a fault with the number of the record in the file."""
    return re.sub(rb"row (\d+)", lambda found: b"row %d" % numbers[int(found[1]) - 1], text)


def both(program, words, folder, lines, every, state):
    """What comes of the stimulus with the option, and of the one that is written out."""
    whole, numbers = written_out(lines, every)
    ends = []
    for name, text, option in (("held", lines, ["--every", str(every)]), ("whole", whole, [])):
        (folder / f"{name}.csv").write_text("".join(line + "\n" for line in text), "ascii")
        asked = ["sim", *[word.replace("SAVED", f"{name}.state.csv") for word in words], *option, *state, "program.ld", f"{name}.csv"]
        end = run(program, asked, folder)
        saved = folder / f"{name}.state.csv"
        ends.append([end.returncode, end.stdout, end.stderr, saved.read_bytes() if saved.exists() else None])
    if ends[0][3] is not None:
        (folder / "begin.csv").write_bytes(ends[0][3])
    ends[1][2] = in_file(ends[1][2], numbers)
    return ends, len(whole) - len(lines)


def trial(program, random_from, drawing, folder):
    """Whether all is the same, how many records were filled in, and the status."""
    text = drawing.read_text("ascii")
    (folder / "program.ld").write_text(text, "ascii")
    every = random_from.choice([1, 2, 3, 7, 10, 50, 99, 100, 1000, 5000])
    inputs, state, start, filled, status = INPUT.findall(text), [], 0, 0, 0
    for _ in range(2):
        lines = random_lines(random_from, inputs, every, start)
        for words in (["--vcd"], ["--save", "SAVED"]):
            ends, count = both(program, words, folder, lines, every, state)
            if ends[0] != ends[1]:
                print(f"{drawing.relative_to(ROOT)} --every {every} {' '.join(words)}: {lines}\n{ends[0]}\n{ends[1]}")
                return False, filled, status
        filled, status = filled + count, max(status, ends[0][0])
        if ends[0][3] is None:
            break
        state, start = ["--state", "begin.csv"], int(re.search(rb"moment,(\d+)", ends[0][3])[1])
    return True, filled, status


def main():
    words = [word for word in sys.argv[1:] if not word.startswith("--")]
    options = dict(word[2:].split("=") for word in sys.argv[1:] if word.startswith("--"))
    program, trials = str(pathlib.Path(words[0]).resolve()), int(words[1]) if len(words) > 1 else 300
    random_from = random.Random(int(options.get("seed", 1)))
    drawings = sorted(ROOT.glob("examples/*/*.ld"))
    same, filled, faults = 0, 0, 0
    for _ in range(trials):
        with tempfile.TemporaryDirectory() as folder:
            good, count, status = trial(program, random_from, random_from.choice(drawings), pathlib.Path(folder))
        same, filled, faults = same + good, filled + count, faults + (status == 1)
    print(f"stimuli: {same} of {trials} are the same written out, {faults} with a fault; {filled} records were filled in")
    return 0 if same == trials else 1


if __name__ == "__main__":
    sys.exit(main())
