#!/usr/bin/env python3
"""What the gate takes, crate by crate.

    seconds.py --run LOG COMMAND..   runs a command, as `rt ci`, and writes its output and the seconds of each crate into LOG
    seconds.py --watch LOG PID       the same for a command that runs already: adds its seconds to LOG until it ends
    seconds.py --write LOG..         takes the seconds of logs into docs/develop/seconds.csv and docs/develop/gate.md
    seconds.py                       prints the sum and the longest chain
    seconds.py --check               compares the numbers in docs/develop/gate.md with the table

`rt ci` prints no seconds. They are sampled four times a second: the processor time of each process whose words have `--crate-name`, and of
those that it starts. They are of its check, of its tests (`--test`), or of its mutants (in a folder `rt-edit..`). A crate that a log
lacks, since it was kept from an earlier run, keeps its row. Crates that crates.txt doesn't have lose it.

The chain: a crate begins when the checks of all crates that it names have ended. A chain ends with the check of its last crate or with
its tests, which run side by side. Mutants are in no chain: they run beside other crates.
"""
import csv
import os
import pathlib
import re
import subprocess
import sys
import time

ROOT = pathlib.Path(__file__).resolve().parent.parent
TABLE, PAGE = ROOT / "docs" / "develop" / "seconds.csv", ROOT / "docs" / "develop" / "gate.md"
KINDS = ("check", "tests", "mutants")
COLUMNS = ("crate", *KINDS, "functions", "edits", "source")
TICK = os.sysconf("SC_CLK_TCK")


# ---- sampling

def processes():
    """The processes there are: for each its parent, its processor time in seconds, and when it began."""
    found = {}
    for path in pathlib.Path("/proc").glob("[0-9]*"):
        try:
            fields = (path / "stat").read_text("utf-8", "replace").rsplit(")", 1)[1].split()
        except OSError:
            continue
        found[int(path.name)] = (int(fields[1]), (int(fields[11]) + int(fields[12])) / TICK, fields[19])
    return found


def is_below(pid, root, found):
    while pid in found and pid != root:
        pid = found[pid][0]
    return pid == root


def subject(pid):
    """The crate that a process works on, and whether it is its check, its tests or a mutant."""
    try:
        words = pathlib.Path(f"/proc/{pid}/cmdline").read_bytes().decode("utf-8", "replace").split("\0")
        folder = os.readlink(f"/proc/{pid}/cwd")
    except OSError:
        return None
    if "--crate-name" not in words[:-1]:
        return None
    if "/rt-edit" in folder:
        kind = "mutants"
    else:
        kind = "tests" if "--test" in words else "check"
    return words[words.index("--crate-name") + 1], kind


def sample(root, is_over):
    """The processor seconds of what is below a process until it is over, by crate and kind."""
    subjects, before, seconds = {}, {}, {}
    while not is_over():
        found = processes()
        for pid, (parent, spent, began) in sorted(found.items()):
            if not is_below(pid, root, found):
                continue
            # a number of a process may come again
            key = pid, began
            if subjects.get(key) is None:
                # a process that starts another one may change its words later
                subjects[key] = subject(pid) or subjects.get((parent, found[parent][2]) if parent in found else None)
            more = spent - before.get(key, 0)
            before[key] = spent
            if subjects[key] and more > 0:
                seconds[subjects[key]] = seconds.get(subjects[key], 0) + more
        time.sleep(0.25)
    return seconds


def told(seconds):
    return "".join(f"seconds: {crate} {kind} {spent:.1f}\n" for (crate, kind), spent in sorted(seconds.items()))


def run(log, words):
    """Runs a command, and writes what it prints and what it took; answers its status."""
    with open(log, "w", encoding="utf-8") as to:
        child = subprocess.Popen(words, cwd=ROOT, stdout=to, stderr=subprocess.STDOUT)
        seconds = sample(child.pid, lambda: child.poll() is not None)
    with open(log, "a", encoding="utf-8") as to:
        to.write(told(seconds))
    return child.returncode


def watch(log, pid):
    seconds = sample(pid, lambda: not os.path.exists(f"/proc/{pid}"))
    with open(log, "a", encoding="utf-8") as to:
        to.write(told(seconds))
    return 0


# ---- the table

def crates():
    """The crates, lowest first, each with the crates of this repository that it names."""
    found = {}
    for line in (ROOT / "crates.txt").read_text("utf-8").splitlines():
        if line.strip() and not line.startswith("#"):
            name, _, rest = line.partition(":")
            found[name.split()[0]] = rest.split()
    below = {name: [word for word in words if word in found] for name, words in found.items()}
    ordered = {}

    def add(name):
        for other in below[name]:
            if other not in ordered:
                add(other)
        ordered[name] = below[name]
    for name in below:
        add(name)
    return ordered


def read_table():
    if not TABLE.exists():
        return {}
    with open(TABLE, encoding="utf-8", newline="") as rows:
        return {row["crate"]: row for row in csv.DictReader(rows)}


def number_of(row, kind):
    return float(row[kind] or 0)


def read_log(path):
    """The seconds of a log by crate and kind, and how many functions were proved of each crate."""
    seconds, functions, crate = {}, {}, None
    for line in pathlib.Path(path).read_text("utf-8", "replace").splitlines():
        heading = re.fullmatch(r"== (\w+)(: its tests)?", line)
        if heading:
            crate = None if heading[2] else heading[1]
        proved = re.match(r"logic=proved .*?functions=(\d+)", line)
        if proved and crate:
            functions[crate] = proved[1]
        spent = re.fullmatch(r"seconds: (\w+) (check|tests|mutants) ([\d.]+)", line)
        if spent:
            seconds.setdefault(spent[1], {})[spent[2]] = spent[3]
    return seconds, functions


def write_table(logs):
    """Takes logs into the table, and answers it."""
    table, source = read_table(), time.strftime("%Y-%m-%d")
    for log in logs:
        seconds, functions = read_log(log)
        for crate, spent in seconds.items():
            row = table.setdefault(crate, dict.fromkeys(COLUMNS, ""))
            row.update(crate=crate, source=source, **{kind: f"{float(spent[kind]):.0f}" for kind in spent})
        for crate, number in functions.items():
            table.setdefault(crate, dict.fromkeys(COLUMNS, "") | {"crate": crate})["functions"] = number
    for crate in table:
        edits = len(list((ROOT / "crates" / crate / "must-fail").glob("*.edit")))
        table[crate]["edits"] = edits or ""
        if not edits:
            table[crate]["mutants"] = ""
    kept = [table[crate] for crate in crates() if crate in table]
    TABLE.parent.mkdir(parents=True, exist_ok=True)
    with open(TABLE, "w", encoding="utf-8", newline="") as to:
        rows = csv.DictWriter(to, COLUMNS, lineterminator="\n")
        rows.writeheader()
        rows.writerows(kept)
    return read_table()


# ---- what is stated

def longest_chain(table):
    """The seconds of the longest chain, and its crates from the first one on."""
    ends, before = {}, {}
    for crate, below in crates().items():
        before[crate] = max(below, key=lambda it: ends[it], default=None)
        ends[crate] = ends.get(before[crate], 0) + number_of(table[crate], "check") if crate in table else 0
    whole = {crate: ends[crate] + max(0, number_of(table[crate], "tests") - number_of(table[crate], "check")) for crate in table}
    last = max(whole, key=whole.get)
    chain, crate = [], last
    while crate:
        chain.insert(0, crate)
        crate = before[crate]
    return whole[last], chain


def statements(table):
    """What gate.md states, by the names of its marks."""
    sums = {kind: sum(number_of(row, kind) for row in table.values()) / 60 for kind in KINDS}
    seconds, chain = longest_chain(table)
    return {"sum": f"{sum(sums.values()):.0f}", "checks": f"{sums['check']:.0f}", "tests": f"{sums['tests']:.0f}",
            "mutants": f"{sums['mutants']:.0f}", "chain": f"{seconds / 60:.0f}", "crates": ", ".join(f"`{crate}`" for crate in chain)}


MARK = re.compile(r"(?P<number>[\d,]+|(?:`\w+`, )*`\w+`) <!-- seconds: (?P<name>\w+) -->")


def compare(known):
    """The numbers of gate.md that aren't those of the table, and the marks that it lacks."""
    found = {mark["name"]: mark["number"] for mark in MARK.finditer(PAGE.read_text("utf-8"))}
    return [f"{name}: gate.md has {found.get(name, 'no such mark')}, the table {known[name]}" for name in known if found.get(name) != known[name]]


def main():
    words = sys.argv[1:]
    if words[:1] == ["--run"]:
        return run(words[1], words[2:])
    if words[:1] == ["--watch"]:
        return watch(words[1], int(words[2]))
    if words[:1] == ["--write"]:
        known = statements(write_table(words[1:]))
        text = PAGE.read_text("utf-8")
        PAGE.write_text(MARK.sub(lambda mark: f"{known.get(mark['name'], mark['number'])} <!-- seconds: {mark['name']} -->", text), "utf-8")
    table = read_table()
    known, missing = statements(table), [crate for crate in crates() if crate not in table]
    if words == ["--check"]:
        wrong = compare(known)
        print("\n".join(wrong) or f"gate.md has the numbers of {len(table)} crates")
        return 1 if wrong else 0
    print(f"{known['sum']} processor minutes: checks {known['checks']}, tests {known['tests']}, mutants {known['mutants']}")
    print(f"longest chain {known['chain']} minutes: {known['crates'].replace('`', '')}")
    if missing:
        print(f"no seconds of {', '.join(missing)}")
    return 0


if __name__ == "__main__":
    sys.exit(main())
