#!/usr/bin/env python3
"""Compares the completions of the shells with what `ladder --help` tells: completions.py PROGRAM.

bash and fish are asked what they offer, where they are installed; zsh reads its file, and the file's words are compared.
"""
import os
import pathlib
import re
import shutil
import subprocess
import sys
import tempfile

ROOT = pathlib.Path(__file__).resolve().parent.parent
FOLDER = ROOT / "completions"
SUBCOMMANDS = ["causes", "check", "diff", "draw", "explain", "export", "import", "never", "reach", "show", "sim", "uses"]
CIRCUIT = ROOT / "examples/emergency_stop/machine.ld"
TIMERS = ROOT / "examples/star_delta/star_delta.ld"
BISTABLE = ROOT / "examples/tank_two_pumps/tank.ld"
COILS, INPUTS = ["Enabled", "Motor"], ["EStop", "Reset", "Start", "Stop"]
NAMES = sorted([*COILS, *INPUTS])
# inputs with an alias, and one without
ALIASES = "VAR\n  X1 (* door.open *) AT %IX1 : BOOL;\n  X2(*at-home*) AT %IX2 : BOOL;\n  X3 AT %IX3 : BOOL;\n  M1 (* ready *) : BOOL;\nEND_VAR\n"
# a line, what its last word begins with, and what is to be offered
LINES = [
    (["causes", "machine.ld"], "", COILS),
    (["causes", "machine.ld"], "M", ["Motor"]),
    (["causes", "--grouped", "--at", "5", "machine.ld", "Motor"], "", INPUTS),
    (["causes", "machine.ld", "Motor", "EStop"], "St", ["Start", "Stop"]),
    (["causes", "--all-coils", "lists", "machine.ld"], "", INPUTS),
    (["causes", "--all-coils", "lists", "machine.ld", "EStop"], "St", ["Start", "Stop"]),
    (["causes", "--all-coils"], "", []),
    (["causes", "--order"], "", ["auto", "given"]),
    (["causes", "--limit"], "", []),
    (["causes", "--assume"], "", []),
    (["causes", "--assume", "A", "--assume", "B", "machine.ld"], "", COILS),
    (["causes", "--states"], "", []),
    (["causes", "--any", "--runs", "--looks", "5", "machine.ld"], "", COILS),
    (["causes"], "mach", ["machine.ld"]),
    (["show", "machine.ld"], "", INPUTS),
    (["show", "machine.ld", "--coil"], "", COILS),
    (["show", "--state"], "mach", ["machine.ld"]),
    (["sim", "machine.ld"], "mach", ["machine.ld"]),
    (["sim", "machine.ld", "--watch"], "", NAMES),
    (["sim", "--expect"], "mach", ["machine.ld"]),
    (["sim", "machine.ld", "--watch"], "E", ["EStop", "Enabled"]),
    (["show", "aliases.ld"], "", ["X1", "X2", "X3"]),
    (["reach", "machine.ld"], "", COILS),
    (["reach", "star_delta.ld"], "R", ["RunUp.Q"]),
    (["reach", "tank.ld"], "L", ["Level.Q1"]),
    (["reach", "--gap", "5", "machine.ld", "Motor"], "", INPUTS),
    (["reach", "machine.ld", "Motor", "EStop"], "St", ["Start", "Stop"]),
    (["reach", "star_delta.ld", "--both"], "", ["Both", "Delta", "Main", "Pause.Q", "RunUp.Q", "Star"]),
    (["reach", "--states"], "", []),
    (["diff", "machine.ld"], "mach", ["machine.ld"]),
    (["diff", "machine.ld", "machine.ld"], "", COILS),
    (["diff", "--new-state", "s.csv", "machine.ld", "machine.ld", "Motor"], "", INPUTS),
    (["import", "--control"], "", ["on"]),
    (["import", "--pou"], "", []),
    (["import", "--pou", "Main"], "mach", ["machine.ld"]),
    (["export", "--st", "--name"], "", []),
    (["export", "--st"], "mach", ["machine.ld"]),
    (["export", "--xml"], "mach", ["machine.ld"]),
    (["help"], "s", ["show", "sim"]),
    (["explain"], "X", [f"X{number}" for number in range(1, 8)]),
    (["explain", "G4"], "us", ["usage"]),
]


def options(program, words):
    """The long options that help tells."""
    text = subprocess.run([program, *words, "--help"], stdout=subprocess.PIPE, check=True).stdout.decode()
    return sorted(set(re.findall(r"^ {2,6}(?:-h, )?(--[a-z-]+)", text, re.M)))


def bash(words, word, folder, path):
    """What bash offers at the end of a line."""
    script = 'source "$1"; shift; COMP_WORDS=(ladder "$@"); COMP_CWORD=$#; _ladder; printf "%s\\n" "${COMPREPLY[@]}"'
    done = subprocess.run(["bash", "-c", script, "bash", FOLDER / "ladder.bash", *words, word], cwd=folder, stdout=subprocess.PIPE,
                          env={**os.environ, "PATH": path}, check=True)
    return sorted(filter(None, done.stdout.decode().splitlines()))


def fish(words, word, folder, path):
    """What fish offers at the end of a line."""
    line = " ".join(["ladder", *words, word])
    done = subprocess.run(["fish", "--no-config", "-c", f"source {FOLDER / 'ladder.fish'}; complete -C '{line}'"], cwd=folder, stdout=subprocess.PIPE,
                          env={**os.environ, "PATH": path, "HOME": folder}, check=True)
    return sorted(entry.split("\t")[0] for entry in done.stdout.decode().splitlines())


def zsh_options(subcommand):
    """The long options that the file of zsh has for a subcommand."""
    text = (FOLDER / "_ladder").read_text("ascii")
    part = re.search(rf"^ +(?:[a-z]+ \| )*{subcommand}(?: \| [a-z]+)*\)(.*?);;", text, re.M | re.S)[1]
    return sorted(set(re.findall(r"'\*?(--[a-z-]+)\[", part)) | ({"--help"} if "$help" in part else set()))


class Tally:
    """How many comparisons there were, and how many passed."""

    def __init__(self):
        self.all = self.passed = 0

    def compare(self, where, have, want):
        self.all += 1
        self.passed += have == want
        if have != want:
            print(f"{where}\n  want {want}\n  have {have}")


def compare_shell(name, offered, program, folder, path, tally):
    tally.compare(f"{name}: subcommands", [word for word in offered([], "", folder, path) if word[0] != "-"], sorted([*SUBCOMMANDS, "help"]))
    for subcommand in SUBCOMMANDS:
        tally.compare(f"{name}: {subcommand}", offered([subcommand], "--", folder, path), options(program, [subcommand]))
    for words, word, want in LINES:
        tally.compare(f"{name}: ladder {' '.join(words)} {word}", offered(words, word, folder, path), want)


def main():
    program, tally, missing = os.path.abspath(sys.argv[1]), Tally(), []
    with tempfile.TemporaryDirectory() as tools, tempfile.TemporaryDirectory() as folder:
        os.symlink(program, pathlib.Path(tools) / "ladder")
        shutil.copy(CIRCUIT, folder)
        shutil.copy(TIMERS, folder)
        shutil.copy(BISTABLE, folder)
        (pathlib.Path(folder) / "aliases.ld").write_text(ALIASES, "ascii")
        path = f"{tools}{os.pathsep}{os.environ['PATH']}"
        for name, offered in [("bash", bash), ("fish", fish)]:
            if shutil.which(name):
                compare_shell(name, offered, program, folder, path, tally)
            else:
                missing.append(name)
    for subcommand in SUBCOMMANDS:
        tally.compare(f"zsh: {subcommand}", zsh_options(subcommand), options(program, [subcommand]))
    if shutil.which("zsh"):
        done = subprocess.run(["zsh", "-n", FOLDER / "_ladder"], stderr=subprocess.PIPE, check=False)
        tally.compare("zsh reads its file", (done.returncode, done.stderr), (0, b""))
    else:
        missing.append("zsh")
    print(f"shells that are not installed: {' '.join(missing) or 'none'}")
    print(f"{tally.passed} of {tally.all} passed")
    return 0 if tally.all and tally.passed == tally.all else 1


if __name__ == "__main__":
    sys.exit(main())
