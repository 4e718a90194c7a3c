#!/usr/bin/env python3
"""What a terminal shows of faults: terminal.py PROGRAM.

Standard error is a terminal (a pseudo terminal), standard output a file or a pipe. Below the line of a fault stands what explains it, without being
asked for; `--quiet` and `--why=never` leave it out, and a script sees the line alone. A list into a pipe that ends says nothing on a terminal.
"""
import os
import pathlib
import pty
import subprocess
import sys
import tempfile

MOTOR = """VAR
  Start AT %IX0 : BOOL;
  Stop  AT %IX1 : BOOL;
  Motor AT %QX0 : BOOL;
  Run   : TON := (PT := T#2s);
END_VAR
|    Start      Stop        Motor
|----| |---------|/|---------( )----
"""
FILES = {"motor.ld": MOTOR, "stimulus.csv": "moment,Start\n0,1\n", "foo.csv": "moment,Strat\n0,1\n", "coil.csv": "moment,Motor\n0,1\n",
         "other.csv": "version,2\nmoment,0\nvar,Begin,0\nvar,Stop,0\nvar,Motor,0\ntimer,Run,0,0,0,0\n", "long.ld": MOTOR.replace("Stop ", "LongButtonName")}
HELP = b"Usage: ladder <COMMAND>"

# the words, the status, what a terminal shows, and whether that is all of it
CASES = [
    (["causes", "motor.ld", "Moter"], 1, "fault X3 word 1\n", "\"Moter\" isn't declared; did you mean Motor?\n"),
    (["causes", "motor.ld", "Motor", "Strat"], 1, "fault X3 word 2\n", "\"Strat\" isn't declared; did you mean Start?\n"),
    (["causes", "motor.ld", "Xyz"], 1, "fault X3 word 1\n", "\"Xyz\" isn't declared\n"),
    (["causes", "--quiet", "motor.ld", "Moter"], 1, "fault X3 word 1\n", None),
    (["causes", "--why=never", "motor.ld", "Moter"], 1, "fault X3 word 1\n", None),
    (["reach", "motor.ld", "Rum.Q"], 1, "fault X3 word 1\n", "\"Rum\" isn't declared; did you mean Run?\n"),
    (["sim", "--watch", "Stob", "motor.ld", "stimulus.csv"], 1, "fault X3 watch 1\n", "\"Stob\" isn't declared; did you mean Stop?\n"),
    (["sim", "motor.ld", "foo.csv"], 1, "fault X3 row 1\n", "\"Strat\" isn't declared; did you mean Start?\n"),
    (["sim", "motor.ld", "coil.csv"], 1, "fault X3 row 1\n", "\"Motor\" is no input\n"),
    (["sim", "--state", "other.csv", "motor.ld", "stimulus.csv"], 1, "fault X2 state row 3\n",
     "the state is of another program: its record 3 is of Begin, where this program has Start\n"),
    (["check", "nofile.ld"], 1, "fault X1 program\n", "nofile.ld: no such file\n"),
    (["check", "."], 1, "fault X1 program\n", ".: it is a folder\n"),
    (["sim", "motor.ld", "none.csv"], 1, "fault X1 stimulus\n", "none.csv: no such file\n"),
    (["diff", "motor.ld", "none.ld"], 1, "fault new X1 program\n", "none.ld: no such file\n"),
    (["causes", "--off", "motor.ld", "Motor"], 2, "fault usage\n", "usage: --off wants --any\n"),
    (["causes", "--grouped", "--after", "1", "motor.ld", "Motor"], 2, "fault usage\n", "usage: --grouped excludes --after\n"),
    (["causes", "motor.ld"], 2, "fault usage\n", "usage: causes FILE wants COIL or --all-coils\n"),
    (["explain", "Z9"], 2, "fault usage\n", "usage: there is no fault Z9; `ladder explain` lists all\n"),
    (["sim", "--save", "motor.ld", "motor.ld", "stimulus.csv"], 2, "fault usage\n", "usage: --save would replace the program, the stimulus, the expected trace, or the file that standard output goes to\n"),
    (["chekc", "motor.ld"], 2, "fault usage\n", "  tip: a similar subcommand exists: 'check'\n"),
    (["check", "--wran", "motor.ld"], 2, "fault usage\n", "  tip: a similar argument exists: '--warn'\n"),
    ([], 2, "fault usage\n", "Usage: ladder <COMMAND>\n"),
]


def on_terminal(program, words, folder, out):
    """What a program shows on a terminal that is its standard error, and its status."""
    ours, theirs = pty.openpty()
    process = subprocess.Popen([program, *words], stdin=subprocess.DEVNULL, stdout=out, stderr=theirs, cwd=folder)
    os.close(theirs)
    shown = b""
    while True:
        try:
            more = os.read(ours, 65536)
        except OSError:
            break
        if not more:
            break
        shown += more
    os.close(ours)
    return process.wait(timeout=60), shown.replace(b"\r\n", b"\n").decode()


def shown_wrong(program, folder):
    """The cases whose line, explanation or status is another one, or of which a script sees more than the line."""
    wrong = []
    for words, status, line, below in CASES:
        found, shown = on_terminal(program, words, folder, subprocess.DEVNULL)
        alone = subprocess.run([program, *words], stdin=subprocess.DEVNULL, capture_output=True, text=True, cwd=folder, timeout=60)
        if found != status or not shown.startswith(line) or (shown != line if below is None else below not in shown[len(line):]):
            wrong.append((words, found, shown))
        if alone.returncode != status or alone.stderr != line:
            wrong.append((words, alone.returncode, alone.stderr))
    return wrong


def cut_wrong(program, folder):
    """What is said where a list goes into a pipe that ends: nothing on a terminal, and the line of the fault to a script."""
    wrong = []
    for words in (["help"], ["check", "motor.ld"], ["explain"]):
        ends = os.pipe()
        os.close(ends[0])
        status, shown = on_terminal(program, words, folder, ends[1])
        os.close(ends[1])
        if (status, shown) != (1, ""):
            wrong.append((words, status, shown))
        ends = os.pipe()
        os.close(ends[0])
        alone = subprocess.run([program, *words], stdin=subprocess.DEVNULL, stdout=ends[1], stderr=subprocess.PIPE, text=True, cwd=folder, timeout=60)
        os.close(ends[1])
        if (alone.returncode, alone.stderr) != (1, "fault X6\n"):
            wrong.append((words, alone.returncode, alone.stderr))
    return wrong


def main():
    program = os.path.abspath(sys.argv[1])
    with tempfile.TemporaryDirectory() as folder:
        for name, text in FILES.items():
            (pathlib.Path(folder) / name).write_text(text)
        wrong = shown_wrong(program, folder) + cut_wrong(program, folder)
        version = subprocess.run([program, "--version"], capture_output=True, text=True, timeout=60)
        short = subprocess.run([program, "-V"], capture_output=True, text=True, timeout=60)
        if version.returncode != 0 or not version.stdout.startswith("ladder 1.0\n") or (version.stdout, version.stderr) != (short.stdout, ""):
            wrong.append(("--version", version.stdout, version.stderr))
    for case in wrong:
        print(*case)
    count = len(CASES) + 4
    print(f"{count - len(wrong)} of {count} faults on a terminal")
    sys.exit(bool(wrong))


main()
