#!/usr/bin/env python3
"""Compares waveforms with traces and saved states on all examples: waves.py PROGRAM.

Each stimulus of an example is simulated for its trace and its state, and once more for its waveform, which a reader of its own reads:
at each moment of the trace the outputs must have its values, and at the end all variables those of the state. A third time all is watched:
variables and outputs of blocks must have the waveform's values at each moment, and times and counts at the end those of the state. Where GTKWave's
converters are installed, what they make of the waveform must have the same values.
"""
import pathlib
import shutil
import subprocess
import sys
import tempfile

ROOT = pathlib.Path(__file__).resolve().parent.parent


def run(words, **streams):
    return subprocess.run([str(word) for word in words], stdin=subprocess.DEVNULL, capture_output=True, check=False, timeout=60, **streams)


def read_waves(text):
    """The values of each name after each moment, ascending, of a value change dump."""
    scopes, names, values, moments, now = [], {}, {}, {}, None
    words = iter(text.split())
    for word in words:
        if word in ("$comment", "$date", "$version", "$attrbegin"):
            while next(words) != "$end":
                pass
        elif word == "$scope":
            _, name, _ = next(words), next(words), next(words)
            scopes.append(name)
        elif word == "$upscope":
            scopes.pop()
            next(words)
        elif word == "$var":
            _, _, code, name = next(words), next(words), next(words), next(words)
            while next(words) != "$end":
                pass
            names[".".join([*scopes[1:], name])] = code
        elif word.startswith("#"):
            if now is not None:
                moments[now] = dict(values)
            now = int(word[1:])
        elif word[0] in "01" and word[1:] in names.values():
            values[word[1:]] = word[0]
    moments[now] = dict(values)
    return {moment: {name: told[code] for name, code in names.items()} for moment, told in moments.items()}


def read_trace(text):
    """The outputs after the last scan of each moment."""
    header, *rows = [line.split(",") for line in text.splitlines()]
    return {int(row[0]): dict(zip(header[1:], row[1:])) for row in rows}


def read_variables(text):
    """The values of the variables of a saved state."""
    rows = [line.split(",") for line in text.splitlines()]
    return {row[1]: row[2] for row in rows if row[0] == "var"}


def read_blocks(text):
    """The records of the timers and counters of a saved state by name, and its moment."""
    rows = [line.split(",") for line in text.splitlines()]
    return {row[1]: row for row in rows if row[0] in ("timer", "counter")}, int(rows[1][1])


def is_told(name, value, blocks, moment):
    """Whether the last time or count of a watched trace is that of the state; a time ends at a preset, which the state doesn't have."""
    row = blocks[name.rsplit(".", 1)[0]]
    if name.endswith(".CV"):
        return value == row[3]
    since = moment - int(row[4]) if row[3] == "1" else 0
    return value == str(since) or row[5] == "1" and int(value) < since


def watched(program, drawing, stimulus, waves, state):
    """What differs of a trace in which all is watched."""
    done = run([program, "sim", "--watch-all", drawing, stimulus])
    if done.returncode != 0 or done.stderr:
        return [f"watched: status {done.returncode}, {done.stderr!r}"]
    trace, found = read_trace(done.stdout.decode("ascii")), []
    counted = {name for row in trace.values() for name in row if name.endswith((".ET", ".CV"))}
    for moment, row in trace.items():
        found += [f"watched, at {moment}: {name} is {value}" for name, value in row.items()
                  if name not in counted and waves.get(moment, {}).get(name) != value]
    blocks, last = read_blocks(state)
    if trace:
        found += [f"watched, at the end: {name}" for name in counted if not is_told(name, trace[max(trace)][name], blocks, last)]
    return found


def converted(text, folder):
    """What GTKWave's converters make of a waveform."""
    (folder / "waves.vcd").write_text(text, "ascii")
    run(["vcd2fst", "waves.vcd", "waves.fst"], cwd=folder)
    return run(["fst2vcd", "waves.fst"], cwd=folder).stdout.decode("ascii")


def differences(program, drawing, stimulus, folder, converts):
    """What differs; None where the stimulus isn't one of this drawing."""
    trace = run([program, "sim", "--save", folder / "state.csv", drawing, stimulus])
    if trace.returncode != 0:
        return None
    dump = run([program, "sim", "--vcd", drawing, stimulus])
    if dump.returncode != 0 or dump.stderr:
        return [f"status {dump.returncode}, {dump.stderr!r}"]
    text, found = dump.stdout.decode("ascii"), []
    waves = read_waves(text)
    for moment, outputs in read_trace(trace.stdout.decode("ascii")).items():
        have = {name: waves.get(moment, {}).get(name) for name in outputs}
        found += [] if have == outputs else [f"at {moment}: {have}, and not {outputs}"]
    last, state = waves[max(waves)], read_variables((folder / "state.csv").read_text("ascii"))
    found += [f"at the end: {name} is {last.get(name)}" for name, value in state.items() if last.get(name) != value]
    found += watched(program, drawing, stimulus, waves, (folder / "state.csv").read_text("ascii"))
    if converts:
        other = read_waves(converted(text, folder))
        found += [f"converted, at {moment}" for moment, values in waves.items() if other.get(moment, values) != values]
        found += [] if other and other[max(other)] == last else ["converted, at the end"]
    return found


def main():
    program, count, wrong = sys.argv[1], 0, 0
    program = str(pathlib.Path(program).resolve())
    converts = bool(shutil.which("vcd2fst") and shutil.which("fst2vcd"))
    for drawing in sorted(ROOT.glob("examples/*/*.ld")):
        for stimulus in sorted(drawing.parent.glob("*.csv")):
            if not stimulus.read_text("ascii").startswith("moment,") or ".trace." in stimulus.name:
                continue
            with tempfile.TemporaryDirectory() as folder:
                found = differences(program, drawing, stimulus, pathlib.Path(folder), converts)
            if found is None:
                continue
            count, wrong = count + 1, wrong + bool(found)
            for line in found:
                print(f"{drawing.parent.name}/{drawing.name} {stimulus.name}: {line}")
    print(f"waveforms: {count - wrong} of {count} have the values of their traces{'' if converts else ', none was converted'}")
    return 0 if count and not wrong else 1


if __name__ == "__main__":
    sys.exit(main())
