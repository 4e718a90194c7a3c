#!/usr/bin/env python3
"""Tries bodies that no contract refuses, since a call may always be out of memory: wrong_bodies.py PROGRAM.

Each file of tests/wrong_bodies turns one line of a call's body, so that the call is always out of memory where its text has so many
`bytes` or its program so many `variables`, or with the words of the file alone. So one build, without proof, holds them all, and each is
tried by a request that meets no other: it must answer otherwise than PROGRAM does, which a case would show. A request that meets none
must be answered as PROGRAM does. Needs the toolchain.
"""
import os
import pathlib
import re
import shutil
import subprocess
import sys
import tempfile

HERE = pathlib.Path(__file__).resolve().parent
ROOT = HERE.parent
MOTOR = (HERE / "programs" / "motor.ld").read_text("ascii")
TEXTS = {
    "state.csv": "version,2\nmoment,0\nvar,Start,0\nvar,Stop,0\nvar,Motor,1\n",
    "stimulus.csv": "moment,Start,Stop\n0,1,0\n",
}
NONE = {"words": "causes program.ld Motor Start Stop"}
ENDED = re.compile(r"^case=(\S+) (.*)$", re.MULTILINE)


def fields(edit):
    return dict(line.split(": ", 1) for line in edit.read_text("utf-8").splitlines())


def apply(told, root):
    path = root / told["file"]
    text = path.read_text("utf-8")
    if text.count(told["old"]) != 1:
        raise ValueError(f"{told['file']} has the line {text.count(told['old'])} times")
    path.write_text(text.replace(told["old"], told["new"]), "utf-8")


def program_for(told):
    """The motor with so many variables and bytes, of which the further ones have no meaning."""
    more = int(told.get("variables", 3)) - 3
    spare = "".join(f"  Spare{number} : BOOL;\n" for number in range(more))
    return MOTOR.replace("END_VAR\n", f"{spare}END_VAR\n").ljust(int(told.get("bytes", 0)), "\n")


def answered(program, words, folder):
    """What the program prints."""
    return subprocess.run([program, *words], cwd=folder, capture_output=True, check=True).stdout


def prepare(program, name, told, folder, data):
    """Writes the case of a request, with what PROGRAM answers, and adds its text to the data."""
    text = f"{name}.ld"
    (data / text).write_text(program_for(told), "ascii")
    words = told["words"].replace("program.ld", text).split()
    (folder / name).touch()
    (folder / f"{name}.args").write_text("".join(f"{word}\n" for word in words), "ascii")
    (folder / f"{name}.stdout").write_bytes(answered(program, words, data))


def endings(edits, program, made):
    """How each request ends with the program that has all bodies, built without proof, by its name."""
    root, folder, data = (made / name for name in ("root", "requests", "data"))
    shutil.copytree(ROOT, root, ignore=shutil.ignore_patterns("out", ".git", "bin"))
    folder.mkdir()
    data.mkdir()
    for name, text in TEXTS.items():
        (data / name).write_text(text, "ascii")
    for name, told in ({"no_wrong_body": NONE} | edits).items():
        prepare(program, name, told, folder, data)
    for told in edits.values():
        apply(told, root)
    given = [word for file in sorted(data.iterdir()) for word in ("--data", f"{file.name}={file}")]
    done = subprocess.run(["rt", "try", "--cases", str(folder), *given], cwd=root / "crates" / "ladder", capture_output=True, check=False)
    said = done.stderr.decode()
    found = dict(ENDED.findall(said))
    if sorted(found) != sorted(["no_wrong_body", *edits]) or not all("run=ended" in how for how in found.values()):
        raise ValueError(done.stdout.decode()[-1000:] + said[-3000:])
    return found


def main():
    program = os.path.abspath(sys.argv[1])
    edits = {edit.stem: fields(edit) for edit in sorted((HERE / "wrong_bodies").iterdir())}
    with tempfile.TemporaryDirectory() as made:
        found = endings(edits, program, pathlib.Path(made))
    is_other = {name: "output=differs" in how for name, how in found.items()}
    for name in edits:
        print(f"{name}: {'refused' if is_other[name] else 'ANSWERS AS IT SHOULD'}")
    if is_other["no_wrong_body"]:
        print("a request that meets no wrong body is ANSWERED OTHERWISE")
    passed = sum(is_other[name] for name in edits)
    print(f"{passed} of {len(edits)} wrong bodies are refused by a case that was answered otherwise")
    return 0 if passed == len(edits) and not is_other["no_wrong_body"] else 1


if __name__ == "__main__":
    sys.exit(main())
