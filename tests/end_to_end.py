#!/usr/bin/env python3
"""Runs the built program as a user does: end_to_end.py PROGRAM [PATTERN].

Each file tests/cases/**/*.case is a case: a transcript of one command, run in a temporary folder of its own.

    copy FROM [NAME]     a copy of a file, FROM as seen from the root of the repository, under its own name or NAME
    ```file NAME         a file, as the block shows it; NAME may have folders
    ```made NAME         a file too long to be shown: each line names a generator below, and its words
    ```console           `$ ladder WORDS`, quoted as for a shell where a word needs it; the lines below are standard output, exactly
    ```stderr            standard error, exactly; without this block there is none
    status N             the exit status; without this line it is 0
    ```after NAME        a file that is there afterwards, exactly
    folder NAME          a folder that is there afterwards, with nothing in it
    absent NAME          a file or folder that is not there afterwards

Blocks end with a line of three backticks. Standard input is empty. After the command each file has the bytes that it had before, or
those of its block `after`, and no other file or folder is there. Outside blocks stand only the lines above, blank lines, and comments,
which begin with `# `.

A case has printable ASCII alone, and no space at the end of a line. What isn't so is in a block with the word `escaped` after its name:

    \\xNN   a byte        \\t   a tab        \\r   a carriage return        \\\\   a backslash
    \\      at the end of a line: there is no line feed here, so a text without a last line feed ends with a backslash

A text with a line of three backticks is in a block between lines of four.

A case is named by its path, as check/G6/gap-in-a-wire; PATTERN, as 'causes/*', chooses some. Those of special_cases.py, which need
other streams or other files than a text can show, belong to the same folders. All processors are used.
"""
import fnmatch
import multiprocessing
import os
import pathlib
import re
import shlex
import sys
import tempfile
from concurrent.futures import ProcessPoolExecutor

from special_cases import SPECIAL
from transcript import content, difference, differences, parts, run

HERE = pathlib.Path(__file__).resolve().parent
ROOT = HERE.parent
CASES = HERE / "cases"
FOLDER = "a folder"


def spaces(length):
    """Nothing but spaces."""
    return " " * int(length)


def filled_motor(length):
    """The motor, and line ends up to a length."""
    return (HERE / "programs" / "motor.ld").read_text("ascii").ljust(int(length), "\n")


def inputs(count):
    """A number of inputs, of which the first one alone feeds the coil."""
    declared = "".join(f"  I{number} AT %IX{number - 1} : BOOL;\n" for number in range(1, int(count) + 1))
    return f"VAR\n{declared}  Y AT %QX0 : BOOL;\nEND_VAR\n\n|     I1          Y\n|----| |---------( )----\n"


def variables(count):
    """A number of declarations of variables."""
    return "".join(f"V{number} : BOOL;\n" for number in range(1, int(count) + 1))


def timers(count):
    """A number of declarations of timers."""
    return "".join(f"T{number} : TON;\n" for number in range(1, int(count) + 1))


def rungs(count):
    """A number of rungs of one line, each with a blank line after it."""
    return "|\n\n" * int(count)


def coils(count):
    """A number of rungs, each with seven coils behind a contact."""
    names = "".join(f" {name:^11}" for name in "BCDEFGH")
    return f"|{'A':^11}{names.rstrip()}\n|----| |----{'-----( )----' * 7}\n\n" * int(count)


def assignments(count):
    """A number of assignments, each of another expression than the one before it."""
    return "".join(f"Y := {'AB'[number % 2]};\n" for number in range(int(count)))


def repeated(words):
    """A number, and a line that is there so many times."""
    number, _, text = words.partition(" ")
    return f"{text}\n" * int(number)


def line(words):
    """These words as they stand."""
    return f"{words}\n"


MAKERS = (spaces, filled_motor, inputs, variables, timers, rungs, coils, assignments, repeated, line)
GENERATORS = {maker.__name__: maker for maker in MAKERS}


def made(text):
    """What the generators of these lines make, one after the other."""
    pieces = (words.partition(" ") for words in text.decode("ascii").split("\n")[:-1])
    return "".join(GENERATORS[name](rest) for name, _, rest in pieces).encode("ascii")


class Case:
    """A case, as its text has it."""

    def __init__(self, text):
        bad = re.search(r"[^ -~\n]| $", text, re.MULTILINE)
        if bad:
            raise ValueError(f"line {text.count(chr(10), 0, bad.start()) + 1}: write {bad[0]!r} in an escaped block")
        self.files, self.after, self.absent = {}, {}, []
        self.words, self.out, self.err, self.status = None, b"", b"", 0
        for number, words, lines in parts(text):
            try:
                self.add(["", *lines[0].split()] if words is None else words, lines)
            except (ValueError, LookupError, OSError) as wrong:
                raise ValueError(f"line {number}: {wrong}") from wrong
        if self.words is None:
            raise ValueError("there is no command")

    def add(self, words, lines):
        """Adds a block, or a line outside blocks, whose words begin with an empty one."""
        match words:
            case ["file", name, *escaped] if escaped in ([], ["escaped"]):
                self.put(self.files, name, content(words, lines))
            case ["made", name, *escaped] if escaped in ([], ["escaped"]):
                self.put(self.files, name, made(content(words, lines)))
            case ["after", name, *escaped] if escaped in ([], ["escaped"]):
                self.put(self.after, name, content(words, lines))
            case ["console"] | ["console", "escaped"] if self.words is None:
                self.words, self.out = command(content(words, lines[:1])), content(words, lines[1:])
            case ["stderr"] | ["stderr", "escaped"] if not self.err:
                self.err = content(words, lines)
            case ["", "copy", source]:
                self.put(self.files, pathlib.Path(source).name, (ROOT / source).read_bytes())
            case ["", "copy", source, name]:
                self.put(self.files, name, (ROOT / source).read_bytes())
            case ["", "status", number]:
                self.status = int(number)
            case ["", "folder", name]:
                self.put(self.after, name, FOLDER)
            case ["", "absent", name]:
                self.absent.append(name)
            case [""] | ["", "#", *_]:
                pass
            case other:
                raise ValueError(f"no part of a case: {' '.join(other).strip()}")

    @staticmethod
    def put(files, name, text):
        if name in files:
            raise ValueError(f"{name} is there twice")
        files[name] = text

    def left(self):
        """Each file and folder that is there afterwards, as tree() has it."""
        files = {**self.files, **self.after}
        folders = (str(folder) for name in files for folder in pathlib.PurePath(name).parents[:-1])
        return {name: text for name, text in {**dict.fromkeys(folders, FOLDER), **files}.items() if name not in self.absent}


def command(text):
    """The words of a command, without `$ ladder`."""
    line = text.decode("latin-1").removesuffix("\n")
    words = shlex.split(line)
    if words[:2] != ["$", "ladder"] or f"$ {shlex.join(words[1:])}" != line:
        raise ValueError(f"a command is `$ {shlex.join(['ladder', *words[2:]])}`")
    return [word.encode("latin-1") for word in words[2:]]


def tree(folder):
    """Each file in a folder with its bytes, and each folder."""
    return {str(path.relative_to(folder)): FOLDER if path.is_dir() else path.read_bytes() for path in folder.rglob("*")}


def put_files(files, folder):
    for name, text in files.items():
        (folder / name).parent.mkdir(parents=True, exist_ok=True)
        (folder / name).write_bytes(text)


def run_case(program, path, folder):
    """A line for each difference of a case."""
    try:
        case = Case(path.read_text("latin-1"))
    except ValueError as wrong:
        return [f"  {path.relative_to(ROOT)}, {wrong}"]
    put_files(case.files, folder)
    found = differences(run(program, case.words, folder), (case.out, case.err, case.status))
    want, have = case.left(), tree(folder)
    return found + [difference(name, have.get(name, "not there"), want.get(name, "not there"))
                    for name in sorted({*want, *have}) if have.get(name) != want.get(name)]


def run_named(program, name):
    """The same of the case of this name."""
    with tempfile.TemporaryDirectory() as folder:
        if name in SPECIAL:
            return SPECIAL[name](program, pathlib.Path(folder))
        return run_case(program, CASES / f"{name}.case", pathlib.Path(folder))


def main():
    """Runs the chosen cases and answers the status."""
    program, pattern = os.path.abspath(sys.argv[1]), (sys.argv[2:] or ["*"])[0]
    # each is a process of its own, since a special case may close streams or set limits before it calls the program
    names = [*SPECIAL, *(str(path.relative_to(CASES)).removesuffix(".case") for path in sorted(CASES.rglob("*.case")))]
    chosen = [name for name in names if fnmatch.fnmatch(name, pattern) or fnmatch.fnmatch(f"tests/cases/{name}.case", pattern)]
    with ProcessPoolExecutor(len(os.sched_getaffinity(0)), multiprocessing.get_context("fork")) as pool:
        ended = dict(zip(chosen, pool.map(run_named, [program] * len(chosen), chosen)))
    for name, found in sorted(ended.items()):
        if found:
            print(name, *found, sep="\n")
    passed = sum(not found for found in ended.values())
    print(f"{passed} of {len(chosen)} passed")
    return 0 if chosen and passed == len(chosen) else 1


if __name__ == "__main__":
    sys.exit(main())
