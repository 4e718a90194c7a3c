#!/usr/bin/env python3
"""What a theorem rests on: definitions.py [--check | --write | NAME..].

A NAME, as `cli_lists.Lists.ListsCauses`, is a definition in crates/CRATE/specs/FILE.antt. For each one it prints the files of all
definitions that it uses, directly or through others, with their lines, and the sum. Comments, imports and empty lines don't count. The
types of the code and the constants in it are no definitions.

docs/proof/definitions.md has a table of theorems: `| theorem | NAMES | lines | definitions | items |`. With `--check` its numbers are
compared with the tree, with `--write` they are written.
"""
import pathlib
import re
import sys

ROOT = pathlib.Path(__file__).resolve().parent.parent
PAGE = ROOT / "docs" / "proof" / "definitions.md"
WORD = re.compile(r"[A-Za-z_][A-Za-z0-9_]*")
HEAD = re.compile(r"(?:(?:pub|unfoldable|abbrev|opaque) )*(?:(?:record|data) )?([A-Za-z_][A-Za-z0-9_-]*) ?(?=[:(])"
                  r"|(?:pub )?(?:record|data) ([A-Za-z_]\w*)")
IMPORT = re.compile(r"use Rattle\.(\w+)\.specs\.(\w+)(?:\.\w+)*(?:\.\{(.*)\})?(?: as (\w+))?")
PASSED = re.compile(r"^pub use Rattle\.(\w+)\.specs\.(\w+)$", re.M)
ROW = re.compile(r"\| (?P<theorem>[^|]+) \| (?P<names>`[\w.]+`(?:, `[\w.]+`)*) \| (?P<lines>[\d,]+) \| (?P<definitions>[\d,]+) \|")


def read(path):
    """The definitions of a file, each with its lines, and what it imports by which names."""
    found, imports, name = {}, {}, None
    for line in path.read_text("utf-8").splitlines():
        imported = IMPORT.match(line)
        if imported:
            crate, file, words, alias = imported.groups()
            for word in [*(words or "").split(","), alias or ""]:
                imports[word.strip()] = (crate, file)
        elif line.strip() and not line.lstrip().startswith("--") and not line.startswith("use "):
            head = None if line[0].isspace() else HEAD.match(line)
            if head:
                name = head[1] or head[2]
            if name:
                found.setdefault(name, []).append(line)
    return found, imports


def tree():
    """Each file of definitions by its crate and its name."""
    paths = sorted((ROOT / "crates").glob("*/specs/*.antt"))
    files = {(path.parent.parent.name, path.stem): read(path) for path in paths if path.stem != "Lib"}
    # a file that a crate passes on is one of the crate that has it
    passed = {(path.parent.parent.name, file): (crate, file) for path in paths if path.stem == "Lib" for crate, file in PASSED.findall(path.read_text("utf-8"))}
    for _, imports in files.values():
        imports.update({word: passed.get(place, place) for word, place in imports.items()})
    return files


def used(files, key, name):
    """The definitions that one names, each by crate, file and name."""
    found, imports = files[key]
    text = "\n".join(found[name])
    for word in set(WORD.findall(text)):
        if word in found:
            yield (*key, word)
        elif word in imports and imports[word] in files:
            others = files[imports[word]][0]
            # `use .. as x`: the names behind x
            for other in [word] if word in others else re.findall(rf"\b{word}\.(\w+)", text):
                if other in others:
                    yield (*imports[word], other)


def below(files, wanted):
    """A definition and all that it uses."""
    todo, seen = [wanted], set()
    while todo:
        one = todo.pop()
        if one not in seen:
            seen.add(one)
            todo.extend(used(files, one[:2], one[2]))
    return seen


def find(files, name):
    parts = tuple(name.split("."))
    if len(parts) != 3 or parts[:2] not in files or parts[2] not in files[parts[:2]][0]:
        sys.exit(f"there is no definition {name}")
    return parts


def sums(files, *names):
    seen = set().union(*(below(files, find(files, name)) for name in names))
    return sum(len(files[one[:2]][0][one[2]]) for one in seen), len(seen)


def show(files, name):
    seen = below(files, find(files, name))
    for key in sorted({one[:2] for one in seen}):
        mine = sorted(one[2] for one in seen if one[:2] == key)
        print(f"{sum(len(files[key][0][one]) for one in mine):5} {'.'.join(key)}: {' '.join(mine)}")
    print(f"{name}: {sums(files, name)[0]:,} lines in {sums(files, name)[1]:,} definitions")


def main():
    words, files = sys.argv[1:], tree()
    if words and words[0] not in ("--check", "--write"):
        for name in words:
            show(files, name)
        return 0
    text = PAGE.read_text("utf-8")

    def row(match):
        lines, definitions = sums(files, *match["names"].replace("`", "").split(", "))
        return f"| {match['theorem']} | {match['names']} | {lines:,} | {definitions:,} |"

    known, rows = ROW.sub(row, text), len(ROW.findall(text))
    if words == ["--write"]:
        PAGE.write_text(known, "utf-8")
        text = known
    wrong = [line for line, other in zip(text.splitlines(), known.splitlines()) if line != other]
    print("\n".join(f"isn't that of the tree: {line}" for line in wrong) or f"definitions.md has the numbers of {rows} theorems")
    return 1 if wrong or not rows else 0


if __name__ == "__main__":
    sys.exit(main())
