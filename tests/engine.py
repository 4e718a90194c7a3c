#!/usr/bin/env python3
"""Compares `ladder` with the engine of ClassicLadder, scan by scan: engine.py PROGRAM [SCANS] [--through=LANGUAGE] [--seed=N]
[--kept=FOLDER].

Sample projects of Debian's package linuxcnc-uspace run in LinuxCNC's HAL, without real time: `streamer` gives the inputs of a random stimulus
before each scan, `sampler` takes the outputs after it, so that a busy machine makes no difference. `ladder import` writes the program
of the project, and `ladder sim --every` gets the records in which an input changes. Each output of each scan must be the same. In these
projects each preset is a multiple of the period, and no block is one in which the engine differs (docs/user/import.md). With LANGUAGE, st or xml, the
program is exported in it, and that text drawn or imported again: the drawing of that is compared.

The engine runs in namespaces of its own, in which the unpacked package lies over the files of the system; nothing is installed, and
what was started ends with them. FOLDER keeps the unpacked package. Where the package or such namespaces can't be had, this is passed over.
"""
import argparse
import math
import pathlib
import random
import re
import subprocess
import sys
import tempfile

import linuxcnc

PROJECTS = (
    "attic/demo_mazak/demo_mazak.clp",
    "attic/dallur-thc/dallur-advanced.clp",
    "by_interface/parport/classicladder/cl-estop/estop.clp",
    "common/configurable_options/ladder/touchoff_z.clp",
)
PERIOD, PINS = 1, 16
SIZES = "numPhysInputs=100 numPhysOutputs=100 numBits=500 numTimers=40 numMonostables=40 numTimersIec=40"
SPACES = ("unshare", "--map-root-user", "--mount", "--ipc", "--pid", "--fork", "--kill-child")
# HAL refuses to run as root, so that the second line takes another user.
OVERLAID = """[ "$1" = / ] || for part in usr etc; do mount -t overlay overlay -o "lowerdir=$1/$part:/$part" "/$part"; done
exec unshare --user --map-user=1000 --map-group=1000 sh -e ./commands
"""
STARTED = ["export HOME=\"$PWD\" RTAPI_FIFO_PATH=\"$PWD/fifo\"", "/usr/lib/linuxcnc/realtime start"]


# ---- the stimulus


def held(count, scans, chance):
    """The inputs of each scan: some change after times from one scan to two seconds."""
    shares = [chance.choice((0.2, 0.5, 0.8)) for _ in range(count)]
    values, rows = [int(chance.random() < share) for share in shares], []
    while len(rows) < scans:
        longest = chance.choice((5, 20, 20, 150, 150, 150, 2000))
        rows += [values] * int(math.exp(chance.uniform(0, math.log(longest))))
        changed = chance.sample(range(count), min(count, chance.choice((1, 1, 1, 2, 3, count))))
        values = [int(chance.random() < shares[place]) if place in changed else value for place, value in enumerate(values)]
    return rows[:scans]


def changes(rows):
    """The numbers of the rows that aren't as the one before, and the last one."""
    return [scan for scan, row in enumerate(rows) if scan in (0, len(rows) - 1) or row != rows[scan - 1]]


# ---- the engine


def chunks(numbers):
    return [numbers[start:start + PINS] for start in range(0, len(numbers), PINS)]


def wiring(project, inputs, outputs, depth):
    """The HAL file: a streamer or a sampler for each chunk of pins, and the order of a scan."""
    lines = [f"loadrt threads name1=t period1={PERIOD * 1000000}", f"loadrt classicladder_rt {SIZES}", f"loadusr -w classicladder --nogui {project}"]
    for kind, parts in (("streamer", chunks(inputs)), ("sampler", chunks(outputs))):
        shapes = ",".join("b" * len(part) for part in parts)
        lines.append(f"loadrt {kind} cfg={shapes} depth={','.join([str(depth)] * len(parts))}")
    for place, number in enumerate(inputs):
        lines.append(f"net i{number} streamer.{place // PINS}.pin.{place % PINS} classicladder.0.in-{number:02}")
    for place, number in enumerate(outputs):
        lines.append(f"net o{number} classicladder.0.out-{number:02} sampler.{place // PINS}.pin.{place % PINS}")
    order = [f"streamer.{part}" for part in range(len(chunks(inputs)))] + ["classicladder.0.refresh"]
    order += [f"sampler.{part}" for part in range(len(chunks(outputs)))]
    return [*lines, *(f"addf {function} t" for function in order)]


def in_spaces(package, folder, commands, seconds):
    """Runs the commands of a shell where the package is installed, and answers what it complained of, or None."""
    (folder / "commands").write_text("\n".join([*STARTED, *commands, ""]))
    words = [*SPACES, "sh", "-ec", OVERLAID, "sh", str(package.root)]
    try:
        done = subprocess.run(words, cwd=folder, stdin=subprocess.DEVNULL, capture_output=True, check=False, timeout=seconds)
    except (OSError, subprocess.TimeoutExpired) as error:
        return str(error)
    return None if done.returncode == 0 else f"status {done.returncode}, {done.stderr.decode(errors='replace').strip()}"


def engine(package, folder, project, ports, rows):
    """The outputs of each scan, or what went wrong."""
    inputs, outputs = ports
    (folder / "wiring.hal").write_text("\n".join([*wiring(project, inputs, outputs, len(rows) + 100), ""]))
    fed, read = range(len(chunks(inputs))), range(len(chunks(outputs)))
    for part in fed:
        lines = [" ".join(map(str, row[part * PINS:(part + 1) * PINS])) for row in rows]
        (folder / f"inputs.{part}").write_text("\n".join([*lines, ""]))
    commands = ["halcmd -f wiring.hal", *(f"halstreamer -c {part} < inputs.{part}" for part in fed), "halcmd start"]
    commands += [f"halsampler -c {part} -n {len(rows)} > outputs.{part}" for part in read]
    complaint = in_spaces(package, folder, commands, 120 + len(rows) * PERIOD / 500)
    if complaint:
        return None, complaint
    tables = [[line.split() for line in (folder / f"outputs.{part}").read_text().splitlines()] for part in read]
    return [sum(parts, []) for parts in zip(*tables)], None


# ---- the comparison


def ran(program, folder, *words):
    done = subprocess.run([program, *words], cwd=folder, stdin=subprocess.DEVNULL, capture_output=True, check=True, timeout=300)
    return done.stdout.decode("ascii")


def numbers(text, letter):
    """The numbers of the addresses by name, in order of declaration."""
    return {name: int(number) for name, number in re.findall(rf"^  (\w+)(?: \(\* \S+ \*\))? AT %{letter}X(\d+) ", text, re.M)}


def simulated(program, folder, inputs, rows):
    """The outputs of each scan, of the records in which an input changes."""
    records = [",".join(map(str, [scan * PERIOD, *rows[scan]])) for scan in changes(rows)]
    (folder / "stimulus.csv").write_text("\n".join([",".join(["moment", *inputs]), *records, ""]), "ascii")
    trace = ran(program, folder, "sim", "--every", str(PERIOD), "program.ld", "stimulus.csv").splitlines()
    return [line.split(",")[1:] for line in trace[1:]]


def carried(program, folder, project, through):
    """The program text of a project; of a language that it was exported in before, if that is given."""
    text = ran(program, folder, "import", str(project))
    if through:
        (folder / "imported.ld").write_text(text, "ascii")
        (folder / f"exported.{through}").write_text(ran(program, folder, "export", f"--{through}", "imported.ld"), "ascii")
        text = ran(program, folder, {"st": "draw", "xml": "import"}[through], f"exported.{through}")
    return text


def compared(program, package, project, scans, chance, through):
    """What differs, or None, and how often an output changed."""
    with tempfile.TemporaryDirectory() as scratch:
        folder = pathlib.Path(scratch)
        text = carried(program, folder, project, through)
        (folder / "program.ld").write_text(text, "ascii")
        inputs, outputs = numbers(text, "I"), numbers(text, "Q")
        rows = held(len(inputs), scans, chance)
        here = simulated(program, folder, inputs, rows)
        there, complaint = engine(package, folder, project, (list(inputs.values()), list(outputs.values())), rows)
    if complaint or len(here) != scans or len(there) != scans:
        return complaint or f"{len(here)} scans in the simulation and {len(there)} in the engine, of {scans}", 0
    for scan, pair in enumerate(zip(here, there)):
        wrong = [name for name, one, other in zip(outputs, *pair) if one != other]
        if wrong:
            return f"scan {scan}: {', '.join(wrong)} in the engine {'are' if len(wrong) > 1 else 'is'} otherwise", 0
    return None, sum(one != other for pair in zip(here, here[1:]) for one, other in zip(*pair))


def all_compared(program, package, scans, seed, through):
    wrong = total = 0
    for name in PROJECTS:
        found, changed = compared(program, package, package.root / linuxcnc.SAMPLES / name, scans, random.Random(f"{seed} {name}"), through)
        wrong, total = wrong + bool(found), total + changed
        if found:
            print(f"{name}: {found}")
    right = len(PROJECTS) - wrong
    print(f"engine: {right} of {len(PROJECTS)} projects have the outputs of ClassicLadder in each of {scans} scans; outputs changed {total} times")
    return 1 if wrong else 0


def why_not(package):
    """Why the engine can't be run, or None."""
    if package is None:
        return f"Debian's package {linuxcnc.NAME} can't be had"
    with tempfile.TemporaryDirectory() as folder:
        return in_spaces(package, pathlib.Path(folder), [], 60)


def main():
    words = argparse.ArgumentParser()
    words.add_argument("program")
    words.add_argument("scans", nargs="?", type=int, default=10000)
    words.add_argument("--through", choices=("st", "xml"))
    words.add_argument("--seed", default="1")
    words.add_argument("--kept")
    given = words.parse_args()
    with linuxcnc.package(given.kept) as package:
        reason = why_not(package)
        if reason:
            print(f"engine: passed over: {' '.join(reason.split())}")
            return 0
        return all_compared(str(pathlib.Path(given.program).resolve()), package, given.scans, given.seed, given.through)


if __name__ == "__main__":
    sys.exit(main())
