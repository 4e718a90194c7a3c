#!/usr/bin/env python3
"""Tries the mutants that the gate leaves out: mutants.py [--where] [CRATE]...

The gate has that of a run that is replayed (crates/*/must-fail); those of tests/mutants turn what
a case of the gate, another mutant or a crate above carries too. Each must be refused as well. Needs the toolchain; half a minute each over a crate that `rt check`
has proved, and all crates where none is named. With `--where` only that the text that each turns stands in its file once, and that of each wrong body.
"""
import pathlib
import shutil
import subprocess
import sys
import tempfile

HERE = pathlib.Path(__file__).resolve().parent
ROOT = HERE.parent
MUTANTS = HERE / "mutants"
BODIES = HERE / "wrong_bodies"


def places_missed(names):
    """The mutants whose old text doesn't stand in their file exactly once."""
    missed = []
    for edit in (edit for name in names for edit in sorted((MUTANTS / name).iterdir())):
        path = None
        for key, _, text in (line.partition(": ") for line in edit.read_text("utf-8").splitlines()):
            if key == "file":
                path = ROOT / "crates" / edit.parent.name / text
            elif key == "old" and (not path.exists() or path.read_text("utf-8").count(text) != 1):
                missed.append(edit.relative_to(ROOT))
    return missed


def bodies_missed():
    """The edits of tests/wrong_bodies whose old text doesn't stand in their file exactly once."""
    missed = []
    for edit in sorted(BODIES.iterdir()):
        told = dict(line.split(": ", 1) for line in edit.read_text("utf-8").splitlines())
        if (ROOT / told["file"]).read_text("utf-8").count(told["old"]) != 1:
            missed.append(edit.relative_to(ROOT))
    return missed


def copy(root, names):
    """The tree with the mutants of tests/mutants in place of those of the gate, and what `rt check` kept."""
    for name in ("crates.txt", "HANDLES"):
        shutil.copy2(ROOT / name, root / name)
    shutil.copytree(ROOT / "crates", root / "crates", symlinks=True, ignore=shutil.ignore_patterns("must-fail"))
    for name in names:
        shutil.copytree(MUTANTS / name, root / "crates" / name / "must-fail")


def main():
    words = sys.argv[1:]
    names = [word for word in words if word != "--where"] or sorted(path.name for path in MUTANTS.iterdir())
    unknown = [name for name in names if not (MUTANTS / name).is_dir()]
    if unknown:
        sys.exit(f"no mutants of {', '.join(unknown)}")
    if "--where" in words:
        missed, astray = places_missed(names), bodies_missed()
        for edit in missed + astray:
            print(f"{edit}: what it turns isn't there once")
        print(f"{sum(len(list((MUTANTS / name).iterdir())) for name in names) - len(missed)} of the further mutants have their place, "
              f"and {len(list(BODIES.iterdir())) - len(astray)} wrong bodies")
        return 1 if missed or astray else 0
    with tempfile.TemporaryDirectory() as folder:
        root = pathlib.Path(folder)
        copy(root, names)
        return subprocess.run(["rt", "must-fail", *names], cwd=root, check=False).returncode


if __name__ == "__main__":
    sys.exit(main())
