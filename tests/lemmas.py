#!/usr/bin/env python3
"""The lemma files that other crates cite: lemmas.py [--write].

A proof may name lemmas of the crates below it (`Rattle.CRATE.proofs.FILE`), so such a file is public by its name. docs/develop/lemmas.md
lists them. Alone (or with `--check`) it compares that page with the tree, and fails where they differ; with `--write` it writes the page.
"""
import pathlib
import re
import sys

ROOT = pathlib.Path(__file__).resolve().parent.parent
PAGE = ROOT / "docs" / "develop" / "lemmas.md"
CITED = re.compile(r"Rattle\.(\w+)\.proofs\.((?:[a-z_]\w*\.)*\w+)")
HEAD = """# Lemma files that other crates cite

A proof may name lemmas of the crates below. These files are public by name: who renames one, or a lemma in it, changes the crates that
cite it. `tests/lemmas.py --write` writes this page; the number is how many crates cite a file.

| Crate | Files in its `proofs/` |
|---|---|
"""


def cited():
    """For each crate the lemma files that other crates cite, each with these crates."""
    names, found = {path.name for path in (ROOT / "crates").iterdir()}, {}
    for path in sorted((ROOT / "crates").glob("*/*/**/*")):
        crate, folder = path.relative_to(ROOT / "crates").parts[:2]
        if folder not in ("src", "specs", "proofs") or path.suffix not in (".rt", ".antt"):
            continue
        for other, file in CITED.findall(path.read_text("utf-8")):
            if other in names and other != crate:
                found.setdefault(other, {}).setdefault(file, set()).add(crate)
    return found


def order():
    """The crates, the lowest first."""
    lines = (ROOT / "crates.txt").read_text("utf-8").splitlines()
    return [line.partition(":")[0].split()[0] for line in lines if line.strip() and not line.startswith("#")]


def page():
    found = cited()
    rows = []
    for crate in order():
        files = sorted(found.get(crate, {}).items(), key=lambda item: (-len(item[1]), item[0]))
        if files:
            rows.append(f"| `{crate}` | {', '.join(f'`{file}` {len(users)}' for file, users in files)} |\n")
    pairs = {(user, crate) for crate, files in found.items() for users in files.values() for user in users}
    number = sum(len(files) for files in found.values())
    return f"{HEAD}{''.join(rows)}\n{number} files of {len(rows)} crates, over {len(pairs)} pairs of crates.\n"


def main():
    if sys.argv[1:] == ["--write"]:
        PAGE.write_text(page(), "utf-8")
    is_right = PAGE.exists() and PAGE.read_text("utf-8") == page()
    print("lemmas.md is that of the tree" if is_right else "lemmas.md isn't that of the tree: tests/lemmas.py --write")
    return 0 if is_right else 1


if __name__ == "__main__":
    sys.exit(main())
