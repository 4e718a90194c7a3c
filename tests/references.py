#!/usr/bin/env python3
"""What the documents for developers name: references.py [FILE]...

In docs/develop and docs/proof, or in the files that are given:

    `crate/src/file.rt`, `tests/..`, `docs/..`, ..   is a file or a folder; a crate's path begins in crates/
    `crate: File`, then `File`                       is crates/crate/specs/File.antt (docs/proof/definitions.md)
    [text](file)                                     is a file beside the document

In docs/develop/changing also, where a name is a quoted word that is no path, no crate, no option and no command:

    `name`                                           is a word of some file of crates/ or tests/
    `name`, .. (`path`, ..), `name`, .. in `path`    is defined in one of these files
    `path` (`name`, ..)                              is defined in that file
    | `path`, .. | .. `name` .. |                    is defined in one of the files that the row names
    | `name` | .. | `path` | .. |                    the same, where a later column is headed "File"

A path is one as above, a file alone (`file.rt`, any of that name), or a folder or a crate (any file in it). A name that no definition
in crates/ has (a variant, a field, a name of a script), the last word of `Type::name`, and a name beside a file that is no source must
only be a word of one of the files.

Without files it also looks for the names that callers of `ladder_tool` are promised (PROMISED). Those of the other public crates are in
crates/test_calls, where the compiler looks for them.
"""
import functools
import pathlib
import re
import sys

ROOT = pathlib.Path(__file__).resolve().parent.parent
CRATES = ROOT / "crates"
CRATE_NAMES = {path.name for path in CRATES.iterdir()}
FOLDERS = ("tests", "docs", "bench", "man", "examples", "completions", "share", "tools", "bin")
# words that are in no file of the tree: of the toolchain, of examples of changes, and files at the top
OTHER = {"Makefile", "MissingCases", "RETAIN", "IsEmpty", "diff"}
PROMISED = {"Request", "TextKind", "Texts", "ToolFault", "WordFault", "perform", "read_words", "run", "write_fault"}
COMMANDS = {"causes", "diff", "never", "reach", "show", "sim", "uses", "check", "draw", "export", "import", "explain"}
WORD = re.compile(r"[A-Za-z_][A-Za-z0-9_]{2,}")
SPAN = r"`[^`]+`"
SPANS = rf"{SPAN}(?:(?:,| and|, and|,? or) {SPAN})*"
DEFINITION = {
    ".rt": re.compile(r"\b(?:fn|const|struct|enum|trait|type) (\w+)"),
    ".antt": re.compile(r"^ *(?:(?:pub|abbrev|unfoldable|record|data) +)*([A-Za-z_]\w*) (?:[({][^:\n]*)?:", re.M),
}
# names and then their files; a file and then its names
NAMES_FIRST = re.compile(rf"({SPANS})(?: in ({SPANS})| \(([^()]*(?:\([^()]*\)[^()]*)*)\))")
FILE_FIRST = re.compile(rf"({SPAN}) \(([^()]*)\)")


def files():
    """The files whose words are names."""
    for path in [*CRATES.glob("*/*/**/*"), *(ROOT / "tests").glob("*.py"), *(ROOT / "bench").glob("*.py"), *(ROOT / "completions").iterdir()]:
        if path.suffix in (".rt", ".antt", ".py", "", ".bash", ".fish") and path.is_file() and "out" not in path.relative_to(ROOT).parts:
            yield path


@functools.cache
def words_of(path):
    """The words of a file, or of all files of a folder."""
    if path.is_file():
        return frozenset(WORD.findall(path.read_text("utf-8", "replace")))
    return frozenset().union(*(words_of(below) for below in path.iterdir() if below.name != "out"))


@functools.cache
def named(span):
    """The files and folders that a quoted text is the path of; none where it is a name."""
    if span in CRATE_NAMES or span.split("/")[0] in CRATE_NAMES:
        found = [CRATES / span]
    elif span.split("/")[0] in FOLDERS and "/" in span:
        found = [ROOT / span]
    elif re.fullmatch(r"\w+\.(rt|antt)", span):
        found = CRATES.glob(f"*/*/**/{span}")
    else:
        found = [ROOT / span] if re.fullmatch(r"[\w.]+\.(md|txt)|Makefile", span) else []
    return tuple(path for path in found if path.exists())


@functools.cache
def defined_in(path):
    """The names that a file, or a file of a folder, defines: no variants and no fields."""
    if path.is_dir():
        return frozenset().union(*(defined_in(below) for below in path.iterdir() if below.name not in ("out", "proofs")))
    pattern = DEFINITION.get(path.suffix)
    return frozenset(pattern.findall(path.read_text("utf-8"))) if pattern else frozenset()


@functools.cache
def known():
    """All names that are defined."""
    return frozenset().union(*(defined_in(path) for path in files() if "proofs" not in path.parts))


def spans(text):
    return re.findall(r"`([^`]+)`", text)


def paths_in(text):
    return [path for span in spans(text) for path in named(span)]


def names_in(text):
    """The words of the names in a text."""
    for span in spans(text):
        if "/" in span or " " in span or span in CRATE_NAMES | COMMANDS or re.search(r"\.\.|^\W|\.(rt|antt|md|py)$", span):
            continue
        for word in WORD.findall(span):
            if word not in OTHER and not word.endswith("_"):
                yield word


def has(path, name):
    """Whether a file has a name that is quoted beside it."""
    owner, _, word = name.rpartition("::")
    return word in (words_of(path) if owner or word not in known() or path.is_file() and path.suffix not in DEFINITION else defined_in(path))


def paths_missed(line):
    for span in re.findall(r"`([^` ]+)`", line):
        first = span.split("/")[0]
        if "/" not in span or any(mark in span for mark in "*|<>") or span.endswith(".."):
            continue
        if first in CRATE_NAMES and not (CRATES / span).exists() or first in FOLDERS and first != "bin" and not (ROOT / span).exists():
            yield span


def definitions_missed(line):
    for crate, first, rest in re.findall(r"`(\w+): (\w+)`((?:(?: \([^)]*\))?, `\w+`)*)", line):
        for name in [first, *re.findall(r", `(\w+)`", re.sub(r" \([^)]*\)", "", rest))]:
            if crate in CRATE_NAMES and not (CRATES / crate / "specs" / f"{name}.antt").exists():
                yield f"{crate}: {name}"


def cells(line):
    """The cells of a row of a table; none where the line is no row."""
    return [cell.strip() for cell in re.split(r"(?<!\\)\|", line)[1:-1]] if line.startswith("|") else []


def claims(line, head):
    """The names of a line with the files of which one must have them: pairs of a word and a list of paths."""
    claimed, rest = [], line

    def claim(names, paths):
        quoted = (span.partition("(")[0] for span in spans(names) if any(names_in(f"`{span}`")))
        claimed.extend((name, paths) for name in quoted if re.fullmatch(r"(\w+::)*\w{3,}", name))

    for match in FILE_FIRST.finditer(line):
        paths = paths_in(match[1])
        if paths and not paths_in(match[2]):
            claim(match[2], paths)
            rest = rest.replace(match[0], match[1], 1)
    for match in NAMES_FIRST.finditer(rest):
        paths = paths_in(match[2] or match[3])
        if paths and not paths_in(match[1]):
            claim(match[1], paths)
            rest = rest.replace(match[1], "", 1)
    row = cells(rest)
    if row and paths_in(row[0]):
        claim(" ".join(row[1:]), paths_in(line))
    elif row and "File" in head:
        claim(row[0], paths_in(row[head.index("File")]))
    return claimed


def names_missed(line, head, words):
    for word in names_in(line):
        if word not in words:
            yield word
    for name, paths in claims(line, head):
        if words.issuperset(WORD.findall(name)) and not any(has(path, name) for path in paths):
            yield f"{name} in {', '.join(dict.fromkeys(str(path.relative_to(ROOT)) for path in paths)) or 'no file'}"


def links_missed(path, text):
    for target in re.findall(r"\]\(([^)#: ]+)\)", text):
        if not (path.parent / target).exists():
            yield target


def promised_missed():
    text = (CRATES / "ladder_tool" / "src" / "lib.rt").read_text("utf-8")
    exported = {name.strip() for names in re.findall(r"^pub use \w+::\{([^}]*)\};", text, re.M) for name in names.split(",")}
    yield from (f"crates/ladder_tool: no name {name}" for name in sorted(PROMISED - exported))


def main():
    chosen = [pathlib.Path(name).resolve() for name in sys.argv[1:]]
    chosen = chosen or sorted([*(ROOT / "docs/develop").rglob("*.md"), *(ROOT / "docs/proof").rglob("*.md")])
    words = frozenset().union(*map(words_of, files()))
    missed = [] if sys.argv[1:] else list(promised_missed())
    for path in chosen:
        text, name = path.read_text("utf-8"), path.relative_to(ROOT)
        missed += [f"{name}: no file {target}" for target in links_missed(path, text)]
        head, before = [], ""
        for number, line in enumerate(text.splitlines(), 1):
            if line.startswith("|") and not before.startswith("|"):
                head = cells(line)
            before = line
            found = [*paths_missed(line), *definitions_missed(line)]
            if "changing" in name.parts:
                found += names_missed(line, head, words)
            missed += [f"{name}:{number}: there is no {what}" for what in found]
    print("\n".join(missed) or f"all that {len(chosen)} documents name is there")
    return 1 if missed else 0


if __name__ == "__main__":
    sys.exit(main())
