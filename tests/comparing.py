"""What `differential.py` compares of a drawing, each way for itself: a trial is asked of the program and of the models.

`model.py` and `running.py` scan one after the other, `lanes.py` many at once; a lane chosen at random is scanned by `running.py` too. What
is compared is counted in the tally of a trial.
"""
import html
import pathlib
import random
import re
from collections import Counter
from typing import NamedTuple

from lanes import MOMENT, Everywhere, Lanes, do_suffice, of_value, open_bits, stay_together
from model import FORMS, Program, classes_answer, judged_answer, text_of
from running import Running, bits_of
from transcript import differences, run

FRAME = re.compile(r'<label><input type=radio name=record>(.*?)</label>\n<pre>\n(.*?)</pre>', re.DOTALL)
MOST_BITS = 18
SORTS = ("fresh", "left", "random")


class Trial(NamedTuple):
    """A drawing, and what is asked of it."""

    tool: str
    folder: str
    chance: random.Random
    text: str
    coil: str
    listed: list
    tally: Counter

    def ask(self, *words):
        """Standard output, standard error and status."""
        return run(self.tool, words, self.folder)

    def write(self, name, text):
        pathlib.Path(self.folder, name).write_text(text, "ascii")

    def read(self, name):
        return pathlib.Path(self.folder, name).read_text("ascii")

    def inputs(self, number):
        """The bits that a number gives the listed inputs."""
        return {name.upper(): bool(bit) for name, bit in zip(self.listed, bits_of(number, len(self.listed)))}

    def save(self, records):
        """Saves the state that a stimulus leaves."""
        lines = [",".join(["moment", *self.listed]), *(record(*one, len(self.listed)) for one in records)]
        self.write("stimulus.csv", "\n".join(lines) + "\n")
        self.ask("sim", "--save", "state.csv", "program.ld", "stimulus.csv")


class Told(Program):
    """A program of which it is told with which assignments one scan leaves a coil ON."""

    table = ()

    def causes_of(self, coil, listed):
        return [(number, bits_of(number, len(listed))) for number, is_on in enumerate(self.table) if is_on], None


def some_moment(chance):
    return chance.choice([0, chance.randrange(10_000)])


def compare_lists(trial):
    """Rows and looks, and the rows of groups in each form, of one scan from the fresh state."""
    coil, listed, model, found = trial.coil, trial.listed, Program(trial.text), []
    wanted = [([], model.answer(coil, listed))]
    wanted += [(["--grouped", *flags], model.grouped_answer(coil, listed, form)) for flags, form in FORMS.items()]
    wanted.append((["--grouped", "--order", "auto"], model.grouped_answer(coil, listed, sift=True)))
    moment = some_moment(trial.chance)
    for flags, (out, err) in wanted:
        have = trial.ask("causes", *flags, "--at", str(moment), "program.ld", coil, *listed)
        found += differences(have, (out.encode(), err.encode(), 0))
    return found


def compare_parts(trial):
    """Parts of the list between cuts at random, and their rows joined; and a part with a limit."""
    coil, listed, model, chance, found = trial.coil, trial.listed, Program(trial.text), trial.chance, []
    count = 2 ** len(listed)
    ends = sorted({*(chance.randrange(count) for _ in range(chance.randint(0, 3))), count - 1})
    joined = None
    for after, upto in zip([None, *ends], ends):
        begin = [] if after is None else ["--after", str(after)]
        out, err, status = trial.ask("causes", *begin, "--upto", str(upto), "program.ld", coil, *listed)
        wanted_out, wanted_err = model.part_answer(coil, listed, after, upto)
        found += differences((out, err, status), (wanted_out.encode(), wanted_err.encode(), 0))
        joined = out if joined is None else joined + out.split(b"\n", 1)[1]
        trial.tally["parts"] += 1
    found += differences((joined, b"", 0), (model.answer(coil, listed)[0].encode(), b"", 0))
    after, upto, limit = chance.randrange(count), chance.randrange(count), chance.choice([0, 1, 5, 63, 64, 65, 200])
    wanted_out, wanted_err = model.part_answer(coil, listed, after, upto, limit)
    asked = ["--after", str(after), "--upto", str(upto), "--limit", str(limit), "program.ld", coil, *listed]
    return found + differences(trial.ask("causes", *asked), (wanted_out.encode(), wanted_err.encode(), 0))


def marked(element):
    """What an element of a page says of its characters, as marks."""
    is_live, kind, text = element[1] == "b", element[2], html.unescape(element[3])
    if kind == "s":
        return {"|": "[", "(": "{"}[text[0]] + text[1:-1] + {"|": "]", ")": "}"}[text[-1]]
    signs = {"w": "=" if is_live else "-", "p": ".", "j": "#" if is_live else "+", "v": "!" if is_live else "|", "r": "|"}
    return signs[kind] * len(text)


def without_legend(text):
    """The lines of a text without the one behind the inputs, which says what the marks mean."""
    lines = text.splitlines()
    legend = next(number for number, line in enumerate(lines) if line.startswith("(* ==="))
    return lines[:legend] + lines[legend + 1:]


def commented(lines):
    """The head or the end of a page as the comments that the text has there."""
    return [f"(* {line[0].lower()}{line[1:]} *)" if not line.startswith("    ") else f"(* {line[4:]} *)" for line in lines]


def read_page(page):
    """The lines of the marked drawing that a page shows, without those that say what the looks mean."""
    body = page.split("<pre>\n", 1)[1].rsplit("</pre>", 1)[0]
    lines = html.unescape(re.sub(r"<([bi]) class=(\w)>(.*?)</\1>", marked, body)).splitlines()
    legend = next(number for number, line in enumerate(lines) if line.startswith("==== has power"))
    end = max(number for number, line in enumerate(lines) if line.startswith("After it:"))
    return commented(lines[:legend]) + lines[legend + 2:end] + commented(lines[end:])


def compare_shown(trial):
    """The drawing with the power flow of a scan from the fresh state, as text and as a page."""
    chance, listed = trial.chance, trial.listed
    moment, number = some_moment(chance), chance.randrange(2 ** len(listed))
    explained = trial.coil if number % 3 else None
    asked = ["--at", str(moment), *(["--coil", explained] if explained else []), "--number", str(number), "program.ld", *listed]
    drawn = Program(trial.text).shown(listed, number, moment, explained)
    found = differences(trial.ask("show", *asked), (drawn.encode(), b"", 0))
    page, said, status = trial.ask("show", "--html", *asked)
    trial.tally["lines"] += 2 * drawn.count("\n")
    trial.tally["places where power ends"] += drawn.count("(* row ")
    return found + differences((read_page(page.decode()), said, status), (without_legend(drawn), b"", 0))


def stimulus(chance, listed):
    """Moments that don't fall, each with a number of bits for the listed inputs."""
    moments = sorted(chance.choice([0, 5, 700, 900, chance.randrange(5000)]) for _ in range(chance.randint(1, 4)))
    return [(moment, chance.randrange(2 ** len(listed))) for moment in moments]


def record(moment, number, length):
    """A record of a stimulus."""
    return ",".join(map(str, [moment, *bits_of(number, length)]))


def sparse_records(chance, listed):
    """Many records, few of which change an input, with gaps in which timers end."""
    moment, number, records = chance.choice([0, 3, 1000]), chance.randrange(2 ** len(listed)), []
    for _ in range(chance.randint(10, 60)):
        records.append((moment, number))
        moment += chance.choice([0, 1, 10, 100, 500, 700, 3000])
        if listed and chance.random() < 0.3:
            number ^= 1 << chance.randrange(len(listed))
    return records


def compare_trace(trial):
    """A trace has the outputs after each scan, one after the other."""
    model, records = Running(Program(trial.text)), sparse_records(trial.chance, trial.listed)
    lines = [",".join(["moment", *trial.listed]), *(record(*one, len(trial.listed)) for one in records)]
    trial.write("stimulus.csv", "\n".join(lines) + "\n")
    outputs = re.findall(r"^\s*(\w+) AT %QX", trial.text, re.MULTILINE)
    rows, before = [",".join(["moment", *outputs])], None
    for moment, number in records:
        model.scan(trial.inputs(number), moment)
        bits = [str(int(model.values[name.upper()])) for name in outputs]
        rows.append(",".join([str(moment), *bits]))
        trial.tally["records"] += 1
        trial.tally["records with other outputs than the one before"] += before not in (None, bits)
        before = bits
    return differences(trial.ask("sim", "program.ld", "stimulus.csv"), ("".join(f"{row}\n" for row in rows).encode(), b"", 0))


def compare_film(trial):
    """A film is that of its scans, each shown by itself from the state that the one before it has left."""
    records = stimulus(trial.chance, trial.listed)
    explained, pictures, state = ["--coil", trial.coil] if len(records) % 2 else [], [], []
    header = ",".join(["moment", *trial.listed])
    for moment, number in records:
        asked = [*state, *explained, "--at", str(moment), "--number", str(number), "program.ld", *trial.listed]
        pictures.append(trial.ask("show", *asked)[0].decode())
        trial.write("one.csv", f"{header}\n{record(moment, number, len(trial.listed))}\n")
        trial.ask("sim", *state, "--save", "next.csv", "program.ld", "one.csv")
        trial.write("state.csv", trial.read("next.csv"))
        state = ["--state", "state.csv"]
    trial.save(records)
    asked = [*explained, "--stimulus", "stimulus.csv", "program.ld"]
    found = differences(trial.ask("show", *asked), ("".join(f"{one}\n" for one in pictures).encode(), b"", 0))
    page, said, status = trial.ask("show", "--html", *asked)
    shown = [(words, read_page(f"<pre>\n{body}</pre>")) for words, body in FRAME.findall(page.decode())]
    wanted = [(f"{moment} ms", without_legend(one)) for (moment, _), one in zip(records, pictures)]
    return found + differences((shown, said, status), (wanted, b"", 0))


def compare_held(trial):
    """A list over several scans, one number after the other, from the fresh state or from one that some scans have left."""
    chance, listed, model, asked = trial.chance, trial.listed, Running(Program(trial.text)), []
    records = stimulus(chance, listed) if chance.random() < 0.6 else []
    for moment, number in records:
        model.scan(trial.inputs(number), moment)
    if records:
        trial.save(records)
        asked = ["--state", "state.csv"]
    moment = (records[-1][0] if records else 0) + chance.choice([0, 0, 1, 900])
    every, scans = chance.choice([0, 1, 10, 700, 5000]), chance.choice([1, 2, 3, 5, 9, 40])
    asked += ["--at", str(moment), "--scans", str(scans), "--every", str(every), "program.ld", trial.coil, *listed]
    out, err = model.held(trial.coil, listed, moment, every, scans)
    return differences(trial.ask("causes", *asked), (out.encode(), err.encode(), 0))


def any_state(chance, saved):
    """A saved state with everything at random that it stores."""
    lines = []
    for line in saved.splitlines():
        kind, *fields = line.split(",")
        bits = [str(chance.randrange(2)) for _ in range(3)]
        if kind == "moment":
            fields = ["100000"]
        elif kind in ("var", "memory", "bistable"):
            fields[-1] = bits[0]
        elif kind == "timer":
            start = chance.choice([0, 1, 95_000, 99_999, 100_000]) if bits[1] == "1" else 0
            fields[1:] = [bits[0], bits[1], str(start), bits[2]]
        elif kind == "counter":
            fields[1:] = [bits[0], str(chance.choice([-32768, -1, 0, 1, 2, 3, 32767])), bits[1]]
        lines.append(",".join([kind, *fields]))
    return "".join(f"{line}\n" for line in lines)


def begun(trial, sort):
    """Lanes in the fresh state, in one that some scans have left, or in one at random; a moment, and the words that name them."""
    chance, listed = trial.chance, trial.listed
    lanes, words, moment = Lanes(Told(trial.text), 2 ** len(listed)), [], 0
    if sort == "left":
        records = stimulus(chance, listed)
        trial.save(records)
        words, moment = ["--state", "state.csv"], records[-1][0]
        for at, number in records:
            lanes.scan({name: bit * lanes.every for name, bit in trial.inputs(number).items()}, at)
    elif sort == "random":
        trial.save([(0, 0)])
        trial.write("state.csv", any_state(chance, trial.read("state.csv")))
        lanes.load(trial.read("state.csv"))
        words, moment = ["--state", "state.csv"], 100_000
    trial.tally[f"from a {sort} state"] += 1
    moment += chance.choice([0, 0, 1, 900, 5_000])
    return lanes, moment, [*words, "--at", str(moment)]


def compare_groups(trial):
    """The rows of groups are those of the whole table: in one of the forms, and every other time in the sifted order too."""
    lanes, moment, words = begun(trial, trial.chance.choice(SORTS))
    program, listed, number = lanes.program, trial.listed, trial.chance.randrange(2 ** len(trial.listed))
    one, found = lanes.lane(number), []
    program.table = lanes.table(trial.coil, listed, moment)
    one.scan(trial.inputs(number), moment)
    if one.values[trial.coil.upper()] != program.table[number]:
        found.append(f"the models differ at {number}")
    for flags, sift in [(trial.chance.choice([(), *FORMS]), False), ((), True)][:trial.chance.choice([1, 2])]:
        out, err = program.grouped_answer(trial.coil, listed, FORMS[flags], sift)
        asked = ["--grouped", *flags, *(["--order", "auto"] if sift else []), *words, "program.ld", trial.coil, *listed]
        found += differences(trial.ask("causes", *asked), (out.encode(), err.encode(), 0))
        trial.tally["rows"] += int(err.split()[1])
        trial.tally["lists"] += 1
    trial.tally["assignments"] += 2 ** len(listed)
    trial.tally["questions with causes and others"] += len(set(program.table)) > 1
    return found


def compare_many_held(trial):
    """Lists over several scans, with a lane for each number: from each sort of state where a number switches the coil on in a later scan
    from the fresh one; of other questions only every other one, from one of these states."""
    chance = trial.chance
    every, scans = chance.choice([0, 1, 10, 700, 5000]), chance.choice([2, 3, 5, 9, 40])
    fresh = Lanes(Program(trial.text), 2 ** len(trial.listed)).firsts(trial.coil, trial.listed, 0, every, scans)
    is_late = any(count > 1 for count in fresh.values())
    if not is_late and chance.random() < 0.5:
        return None
    sorts = SORTS if is_late else [chance.choice(SORTS)]
    return [difference for sort in sorts for difference in compare_held_from(trial, sort, every, scans)]


def compare_held_groups(trial, first, asked):
    """The list over several scans in groups; `first` has the first scan of each number that has one, and the list was asked by these words."""
    header = Program(trial.text).header("causes", trial.listed)
    header.insert(1, "scan")
    out, err = classes_answer(header, first, len(trial.listed))
    return differences(trial.ask("causes", "--grouped", *asked), (out.encode(), err.encode(), 0))


def compare_held_from(trial, sort, every, scans):
    """A list over so many scans from a state of this sort; one number is scanned by the other model as well."""
    lanes, moment, words = begun(trial, sort)
    coil, listed, number = trial.coil, trial.listed, trial.chance.randrange(2 ** len(trial.listed))
    trial.tally["with a timer that runs"] += lanes.has_running()
    alone = lanes.lane(number).first_on(coil.upper(), trial.inputs(number), moment, every, scans)
    first = lanes.firsts(coil, listed, moment, every, scans)
    found = [] if first.get(number) == alone else [f"the models differ at {number}"]
    table = [[str(number), str(first[number]), *map(str, bits_of(number, len(listed)))] for number in sorted(first)]
    out = text_of([["number", "scan", *(lanes.program.spelled[name.upper()] for name in listed)], *table])
    trial.tally["rows"] += len(table)
    trial.tally["rows with a later scan than the first"] += sum(count > 1 for count in first.values())
    trial.tally["lists with rows and without some"] += 0 < len(table) < 2 ** len(listed)
    trial.tally["lists with a later scan than the first"] += any(count > 1 for count in first.values())
    asked = [*words, "--scans", str(scans), "--every", str(every), "program.ld", coil, *listed]
    found += compare_held_groups(trial, first, asked)
    return found + differences(trial.ask("causes", *asked), (out.encode(), f"rows {len(table)}\n".encode(), 0))


def is_on_in(lanes, name):
    """The lanes in which a variable, or the output of an instance, is ON."""
    return lanes.values.get(name, 0) | lanes.values.get(name + ".Q", 0)


def run_at_random(trial, named):
    """Names that never change, of which one does in some of 64 random runs."""
    lanes, moment, found = Lanes(Program(trial.text), 64), 0, []
    for _ in range(40):
        moment += trial.chance.choice([0, 1, 10, 700, 5000])
        lanes.scan({name: trial.chance.getrandbits(64) for name in lanes.program.inputs}, moment)
        for name, is_on in named.items():
            if is_on_in(lanes, name) != (2 ** 64 - 1 if is_on else 0):
                found.append(f"{name} changed at {moment}, and `never` names it")
    return found


def named_never(trial, *words):
    """The names that `never` lists with these words, and what is wrong with its text: the rows of the cross-reference of these names."""
    out, said, status = trial.ask("never", *words, "program.ld")
    lines, every = out.decode().splitlines(), trial.ask("uses", "program.ld")[0].decode().splitlines()
    named = {line.split(",")[0] for line in lines[1:]}
    wanted = [every[0], *(line for line in every[1:] if line.split(",")[0] in named)]
    found = differences(("\n".join(lines).encode(), said, status), ("\n".join(wanted).encode(), f"rows {len(wanted) - 1}\n".encode(), 0))
    return {name.upper() for name in named}, found


def compare_never(trial):
    """What never changes, OFF and ON: rows of the cross-reference, the same in random runs, and after a scan from every state in which it is so."""
    (dead, found), (live, wrong) = named_never(trial), named_never(trial, "--off")
    named = dict.fromkeys(dead, False) | dict.fromkeys(live, True)
    found += wrong + ([f"{sorted(dead & live)} are OFF and ON"] if dead & live else [])
    program = Program(trial.text)
    found += run_at_random(trial, named)
    if len(open_bits(program)) > MOST_BITS:
        return found
    most = stay_together(program)[0]
    for value, what in ((False, "come ON"), (True, "go OFF")):
        trial.tally[f"names that never {what}"] += len(of_value(most, value))
        trial.tally[f"of these that never {what} named"] += len(of_value(named, value))
    wrong = sorted(name for name, value in named.items() if most.get(name) != value)
    return found + ([f"{wrong} can change, and `never` names them"] if wrong else [])


def run_pairs_at_random(trial, pairs):
    """Pairs that are never both ON, of which one is in some of 64 random runs."""
    lanes, moment, found = Lanes(Program(trial.text), 64), 0, []
    for _ in range(40):
        moment += trial.chance.choice([0, 1, 10, 700, 5000])
        lanes.scan({name: trial.chance.getrandbits(64) for name in lanes.program.inputs}, moment)
        for first, second in pairs:
            if is_on_in(lanes, first) & is_on_in(lanes, second):
                found.append(f"{first} and {second} were ON at {moment}, and `never --pairs` names them")
    return found


def compare_pairs(trial):
    """Pairs that are never both ON: each of two names, apart in random runs, and apart after a scan from every state that has them all apart
    and in which what never changes is so."""
    out, said, status = trial.ask("never", "--pairs", "program.ld")
    rows = [line.split(",") for line in out.decode().splitlines()]
    pairs = {tuple(sorted(name.upper() for name in row)) for row in rows[1:]}
    wanted = text_of([["first", "second"], *rows[1:]])
    found = differences((out, said, status), (wanted.encode(), f"rows {len(rows) - 1}\n".encode(), 0))
    found += [] if len(pairs) == len(rows) - 1 else ["a pair is named twice"]
    program = Program(trial.text)
    found += run_pairs_at_random(trial, pairs)
    if len(open_bits(program)) > MOST_BITS:
        return found
    known, most = stay_together(program)
    trial.tally["pairs that are never both ON"] += len(most)
    trial.tally["of these pairs named"] += len(pairs & most)
    wrong = sorted(pair for pair in pairs - most if not known.keys() & set(pair))
    return found + ([f"{wrong} can be ON together, and `never --pairs` names them"] if wrong else [])


def rows_of_any(trial, *options):
    """The settled numbers and the others of a list of what some state switches on, and what is wrong with its text."""
    out, said, status = trial.ask("causes", "--any", *options, "program.ld", trial.coil, *trial.listed)
    rows = [line.split(",") for line in out.decode().splitlines()]
    numbers, open_rows = [int(row[0]) for row in rows[1:]], sum(row[1] == "?" for row in rows[1:])
    table = [[str(number), "?" if row[1] == "?" else "1", *map(str, bits_of(number, len(trial.listed)))] for number, row in zip(numbers, rows[1:])]
    wanted = text_of([["number", "settled", *trial.listed], *table])
    found = differences((out, said, status), (wanted.encode(), f"rows {len(numbers)} unsettled {open_rows}\n".encode(), 0))
    found += [] if numbers == sorted(set(numbers)) else ["rows that don't ascend"]
    return {int(row[0]) for row in rows[1:] if row[1] == "1"}, {int(row[0]) for row in rows[1:] if row[1] == "?"}, found


def compare_judged(trial, settled, others, *options):
    """The groups of a list of what some state switches on: those of its settled rows, and those of the others, all or the first ones."""
    limit = trial.chance.choice([None, None, None, 0, 1, 2])
    words = [*options, *([] if limit is None else ["--limit", str(limit)])]
    out, said, status = trial.ask("causes", "--any", "--grouped", *words, "program.ld", trial.coil, *trial.listed)
    wanted, counts = judged_answer(trial.listed, settled, others, limit)
    trial.tally["groups of these rows"] += wanted.count("\n") - 1
    return differences((out, said, status), (wanted.encode(), counts.encode(), 0))


def scan_at_random(trial, numbers, times):
    """From so many random states, what comes ON without a row among these numbers."""
    trial.save([(0, 0)])
    saved, found = trial.read("state.csv"), []
    for _ in range(times):
        trial.write("any.csv", any_state(trial.chance, saved))
        moment = 100_000 + trial.chance.choice([0, 0, 1, 4_999, 5_000, 90_000])
        asked = ["--state", "any.csv", "--at", str(moment), "program.ld", trial.coil, *trial.listed]
        missing = {int(line.split(b",")[0]) for line in trial.ask("causes", *asked)[0].splitlines()[1:]} - numbers
        found += [f"{trial.coil} comes ON from a state with {sorted(missing)}, and `--any` has no row: {asked}"] if missing else []
    return found


def compare_random_states(trial):
    """What some state switches on: what a random state does has a row."""
    trial = trial._replace(listed=trial.listed[:4])
    settled, others, found = rows_of_any(trial)
    return found + compare_judged(trial, settled, others) + scan_at_random(trial, settled | others, 6)


def stays_so(trial):
    """What the program says of each state that a run reaches: the names that are OFF, those that are ON, and the pairs of which not both are."""
    dead, live, pairs = (trial.ask("never", *words, "program.ld")[0].decode().upper().splitlines()[1:] for words in ((), ("--off",), ("--pairs",)))
    return {line.split(",")[0] for line in dead}, {line.split(",")[0] for line in live}, [line.split(",") for line in pairs]


def run_with_rows(trial, settled, others, options):
    """What 64 random runs from the fresh state leave ON without a row, and with `--must` what they leave OFF with a settled one."""
    lanes, moment, found = Lanes(Program(trial.text), 64), 0, []
    coil, listed = trial.coil.upper(), [name.upper() for name in trial.listed]
    for _ in range(40):
        moment += trial.chance.choice([0, 1, 10, 700, 5000])
        before, inputs = lanes.values[coil], {name: trial.chance.getrandbits(64) for name in lanes.program.inputs}
        lanes.scan(inputs, moment)
        for lane in range(64):
            if "--off" in options and before >> lane & 1:
                continue
            number = int("".join(str(inputs[name] >> lane & 1) for name in listed) or "0", 2)
            is_on = bool(lanes.values[coil] >> lane & 1)
            if is_on and "--must" not in options and number not in settled | others:
                found.append(f"a run leaves {coil} ON with {number} at {moment}, which has no row")
            if not is_on and "--must" in options and number in settled:
                found.append(f"a run leaves {coil} OFF with {number} at {moment}, which has a settled row")
    return found


def compare_with_each(trial, *options):
    """What some state leaves ON, or with `--must` every one, of all states or with `--off` of those in which the coil is OFF, and with
    `--reachable` of those in which it is so what stays so, against a scan from each; None where these are too many."""
    dead, live, pairs = stays_so(trial) if "--reachable" in options else (set(), set(), [])
    every = Everywhere(Program(trial.text), trial.listed, dead | ({trial.coil.upper()} if "--off" in options else set()), live, pairs)
    if every.bits > MOST_BITS:
        return None
    settled, others, found = rows_of_any(trial, *options)
    found += compare_judged(trial, settled, others, *options)
    one = every.fill().lane(number := trial.chance.randrange(2 ** every.bits))
    wanted = set(every.forced(trial.coil) if "--must" in options else every.possible(trial.coil))
    one.scan({}, MOMENT)
    instances = set(every.program.rungs[0].instances.values())
    found += [f"contents that don't suffice: {instance}" for instance in instances if not do_suffice(*instance)]
    if one.values != {name: bool(word >> number & 1) for name, word in every.values.items()}:
        found.append(f"the models differ at {number}")
    missing, wrong = sorted(wanted - settled - others), sorted(settled - wanted)
    words = " ".join(("--any", *options))
    found += [f"`{words}` has no row for {missing} of {trial.coil}"] if missing else []
    found += [f"`{words}` has settled rows for {wrong} of {trial.coil}"] if wrong else []
    trial.tally["numbers"] += 2 ** len(trial.listed)
    trial.tally["settled rows"] += len(settled)
    trial.tally["rows `?`"] += len(others)
    trial.tally["of these right"] += len(others & wanted)
    trial.tally["questions with a number that is in no row"] += len(wanted) < 2 ** len(trial.listed)
    trial.tally["states"] += 2 ** every.bits
    if "--reachable" in options:
        return found + run_with_rows(trial, settled, others, options)
    return found if options else found + scan_at_random(trial, settled | others, 1)


def compare_possible(trial):
    """What some state switches on."""
    return compare_with_each(trial)


def compare_off(trial):
    """What some state in which the coil is OFF switches on."""
    return compare_with_each(trial, "--off")


def compare_must(trial):
    """What every state leaves ON."""
    return compare_with_each(trial, "--must")


def compare_off_must(trial):
    """What every state in which the coil is OFF switches on."""
    return compare_with_each(trial, "--off", "--must")


def compare_reachable(trial):
    """The same of the states in which it is so what stays so from the fresh state on, now and then with a search that is short."""
    options = [word for word in ("--off", "--must") if trial.chance.random() < 0.3]
    looks = trial.chance.choice([None, None, None, 1, 2, 5, 100])
    found = compare_with_each(trial, *options, "--reachable", *([] if looks is None else ["--looks", str(looks)]))
    if found is not None and looks is None and "--must" not in options:
        anywhere, reached = (rows_of_any(trial, *options, *words)[:2] for words in ((), ("--reachable",)))
        trial.tally["rows of any state that go away"] += len(anywhere[0] | anywhere[1]) - len(reached[0] | reached[1])
    return found


def told_by(table, listed, some):
    """Of each assignment of some of the listed inputs, what the table has for those of all of them that have it."""
    shifts, told = [len(listed) - 1 - listed.index(name) for name in some], {}
    for number, is_on in enumerate(table):
        told.setdefault(tuple(number >> shift & 1 for shift in shifts), set()).add(is_on)
    return told


def compare_relevant(trial):
    """A list over the inputs that matter tells of each assignment of all inputs whether it is a cause, and is the list over these."""
    lanes, moment, words = begun(trial, trial.chance.choice(SORTS))
    table = lanes.table(trial.coil, trial.listed, moment)
    out, err, status = trial.ask("causes", "--relevant", *words, "program.ld", trial.coil)
    relevant = out.decode().split("\n", 1)[0].split(",")[1:]
    told = told_by(table, [name.upper() for name in trial.listed], [name.upper() for name in relevant])
    found = [f"{bits} of {relevant} decide nothing" for bits, both in told.items() if len(both) > 1]
    for form in ((), trial.chance.choice([*FORMS])):
        asked = ["causes", *(["--grouped", *form] if form or trial.chance.random() < 0.5 else []), *words]
        found += differences(trial.ask(*asked, "--relevant", "program.ld", trial.coil), trial.ask(*asked, "program.ld", trial.coil, *relevant))
    causes = [row.split(",", 1)[1:] for row in out.decode().splitlines()[1:]]
    wanted = [[",".join(map(str, bits))] if bits else [] for bits, both in sorted(told.items()) if True in both]
    if (causes, status) != (wanted, 0):
        found.append(f"{causes} in place of {wanted}, status {status}, {err}")
    trial.tally["inputs that are listed"] += len(relevant)
    makes = [any(both != told[*bits[:at], 1 - bits[at], *bits[at + 1:]] for bits, both in told.items()) for at in range(len(relevant))]
    trial.tally["of these without a difference"] += makes.count(False)
    return found


ALL = (compare_lists, compare_parts, compare_shown, compare_film, compare_held, compare_never, compare_random_states)
ALONE = {"parts": compare_parts, "groups": compare_groups, "show": compare_shown, "sim": compare_trace, "held": compare_many_held, "never": compare_never,
         "pairs": compare_pairs,
         "possible": compare_possible, "off": compare_off, "must": compare_must, "off_must": compare_off_must,
         "reachable": compare_reachable, "relevant": compare_relevant}
