#!/usr/bin/env python3
"""Writes into the source of the program of which commit and by which toolchain it is built: stamp.py [--undo].

The one file that it writes is crates/ladder/src/version.rt. A tree with uncommitted changes is refused, since no commit has it; `--undo` gives the
file its content of the commit again.
"""
import pathlib
import re
import subprocess
import sys

ROOT = pathlib.Path(__file__).resolve().parent.parent
FILE = "crates/ladder/src/version.rt"


def run(*words):
    """What a command prints."""
    return subprocess.run(words, cwd=ROOT, check=True, capture_output=True, text=True).stdout.strip()


def main():
    if "--undo" in sys.argv[1:]:
        run("git", "checkout", "-q", "--", FILE)
        return
    if run("git", "status", "--porcelain", "--untracked-files=no"):
        sys.exit("the tree has changes that no commit has: commit them first")
    line = f"commit {run('git', 'rev-parse', 'HEAD')}, {run('rt', 'version')}"
    path = ROOT / FILE
    text, count = re.subn(r'(pub\(crate\) const BUILT: &str =)\s*"[^"]*";', lambda found: f'{found[1]}\n    "{line}\\n";', path.read_text("utf-8"))
    if count != 1:
        sys.exit(f"{FILE} has not the one text that is written")
    path.write_text(text, "utf-8")


main()
