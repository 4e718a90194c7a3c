#!/usr/bin/env python3
"""Runs what the documents show: documents.py PROGRAM [PATTERN].

The documents are README.md, docs/user/*.md, examples/*/README.md, examples/*/PICTURES.md and man/ladder.1; PATTERN, as 'examples/*',
chooses some by name. Each is followed in a temporary folder of its own. A line `<!-- files: FOLDER -->` puts the files of a folder
there; an example has its own files.

    ```console              commands behind `$ `, each with all that a terminal then shows, byte for byte
    ```console if TOOL      the same, passed over where TOOL isn't installed (parallel is GNU parallel)
    ```console make         commands of make, which are asked what they would do (`make -n`)
    ```ladder               a program that is accepted, or rungs, which stand behind the last program's declarations

`$ cat FILE` writes the file that it shows, where there is none of this name. A command of `ladder` has status 0
exactly where it prints no line `fault ..`, and with `--expect` nothing. When a document ends, each file that was put there must be as it was, so a command that
writes over a file of an example is compared with it. The sections of docs/user/faults.md and the words of the manual page
are compared with what the program has.

Then README.md, docs/**/*.md and examples/**/*.md are read, outside their fenced blocks:

    1,234 <!-- count: cases -->     the number before the mark, or after it, is the count of that name (COUNTS): digits, or a word up to twenty
    [text](drawing.md#the-ruler)    a link to a file of the repository leads to one, and to a heading of it
    `crates/*/src`                  a path in a code span (FOLDERS) exists; `*` and `..` match anything, and so does a part in capitals
                                    alone, as in `tests/mutants/CRATE`; what a build makes (`out`) isn't looked for
"""
import fnmatch
import os
import pathlib
import re
import shutil
import subprocess
import sys
import tempfile

from transcript import parts

ROOT = pathlib.Path(__file__).resolve().parent.parent
FOLLOWED = ["README.md", "docs/user/*.md", "examples/*/README.md", "examples/*/PICTURES.md", "man/ladder.1"]
READ = ["README.md", "docs/**/*.md", "examples/**/*.md"]
FAULTS = "docs/user/faults.md"
SUBCOMMANDS = ["check", "causes", "show", "sim", "uses", "never", "reach", "diff", "draw", "export", "import", "explain"]
# the faults that a text or a command can show, and those that have a section alone
SHOWN = [f"V{number}" for number in range(1, 9)] + ["A1"] + [f"G{number}" for number in range(1, 16)]
SHOWN += [f"C{number}" for number in range(1, 7)] + ["C8", "C9"] + [f"X{number}" for number in range(1, 7)] + [f"P{number}" for number in range(1, 7)] + [f"N{number}" for number in range(1, 6)] + ["E1", "E2", "usage"]
TOLD = ["V9", "C7", "S1", "X7", "P7", "P8", "N6", "N7", "E3", "E4"]
# the folders whose paths are looked for
FOLDERS = ["bench", "completions", "crates", "docs", "examples", "man", "share", "tests", "tools"]
WORDS = ["one", "two", "three", "four", "five", "six", "seven", "eight", "nine", "ten", "eleven", "twelve", "thirteen", "fourteen", "fifteen",
         "sixteen", "seventeen", "eighteen", "nineteen", "twenty"]
NUMBER = r"(\d{1,3}(?:,\d{3})+|\d+|" + "|".join(sorted(WORDS, key=len, reverse=True)) + ")"


def count_cases():
    """The cases of tests/cases: a file each, in folders by subject, or else a folder each."""
    return count_files("tests/cases/**/*.case") or count_files("tests/cases/*/")


def count_lines(path):
    """The lines of a file that have something else than a comment."""
    return len([line for line in (ROOT / path).read_text("utf-8").splitlines() if line.partition("#")[0].strip()])


def count_files(pattern):
    return len(list(ROOT.glob(pattern)))


# what the documents count
COUNTS = {
    "cases": count_cases,
    "crates": lambda: count_lines("crates.txt"),
    "edits": lambda: count_files("crates/*/must-fail/*.edit"),
    "mutants": lambda: count_files("tests/mutants/*/*.edit"),
    "wrong-bodies": lambda: count_files("tests/wrong_bodies/*.edit"),
    "circuits": lambda: count_files("examples/*/PICTURES.md"),
    "drafts": lambda: count_files("examples/*/draft.ld"),
    "examples": lambda: count_files("examples/*/README.md"),
}


class Tally:
    """How many comparisons there were, how many passed, and how many commands were not run."""

    def __init__(self):
        self.all = self.passed = self.skipped = 0

    def compare(self, where, have, want):
        self.all += 1
        self.passed += have == want
        if have != want:
            print(f"{where}\n  want {want!r}\n  have {have!r}")


def fenced(text):
    """The blocks of a document, and the marks `files`."""
    found = []
    for number, words, lines in parts(text):
        mark = words is None and re.fullmatch(r"<!-- files: (\S+) -->", lines[0])
        if mark:
            found.append((number, ["files", mark[1]], []))
        elif words is not None:
            found.append((number, words, lines))
    return found


def roff_words(line):
    """A line of a manual page without its macro and its fonts."""
    line = re.sub(r"\\f[BIRP]|\\&", "", line)
    line = re.sub(r"^\.(B|I|BR|BI|IR|RB|SS|TP)\b ?", "", line)
    return line.replace("\\-", "-").replace("\\(bs", "\\").replace("\\e", "\\").replace('"', "")


def roff_examples(text):
    """The examples of a manual page as transcripts."""
    found, lines, start = [], None, 0
    for number, line in enumerate(text.splitlines(), 1):
        if line == ".EX":
            lines, start = [], number
        elif line == ".EE":
            found.append((start, ["console"], lines))
            lines = None
        elif lines is not None:
            lines.append(re.sub(r"\\&", "", line).replace("\\-", "-").replace("\\e", "\\"))
    return found


def commands(start, lines):
    """The commands of a transcript: the number of the line, the command, and what it shows."""
    found = []
    for number, line in enumerate(lines, start + 1):
        if line.startswith("$ "):
            found.append((number, line[2:], []))
        elif found:
            found[-1][2].append(line)
        else:
            found.append((number, "", [line]))
    return [(number, command, "".join(f"{line}\n" for line in shown)) for number, command, shown in found]


def run(command, folder, tools, status):
    """What a terminal shows, and the status; `$?` is the status of the command before."""
    environment = {**os.environ, "PATH": f"{tools}{os.pathsep}{os.environ['PATH']}", "LC_ALL": "C"}
    done = subprocess.run(["sh", "-c", f"(exit {status})\n{command}"], cwd=folder, env=environment, stdin=subprocess.DEVNULL,
                          stdout=subprocess.PIPE, stderr=subprocess.STDOUT, timeout=120, check=False)
    return done.stdout.decode("utf-8", "replace"), done.returncode


def has_fault(shown, command=""):
    """Whether a fault is shown, or a row that isn't the one that is expected."""
    return any(line.startswith("fault ") for line in shown.splitlines()) or " --expect " in command and shown != ""


def follow(name, blocks, folder, tools, tally):
    """Follows a document in a folder."""
    given, status, declarations = {}, 0, ""
    for start, words, lines in blocks:
        if words[:1] == ["files"]:
            given.update(put_files(ROOT / words[1], folder))
        elif words[:1] == ["ladder"]:
            text = "".join(f"{line}\n" for line in lines)
            if lines[0] == "VAR":
                declarations = text[:text.index("END_VAR\n")] + "END_VAR\n"
                drawing = text
            else:
                drawing = f"{declarations}\n{text}"
            (folder / "drawing.ld").write_text(drawing, "ascii")
            shown, _ = run("ladder check drawing.ld", folder, tools, 0)
            tally.compare(f"{name}:{start}: this drawing isn't accepted", shown.split(" ")[0], "rungs")
        elif words[:1] == ["console"]:
            status = transcript(name, start, words, lines, folder, tools, tally, status)
    for path, content in given.items():
        tally.compare(f"{name}: {path.name}", path.read_bytes(), content)


def put_files(source, folder):
    """Copies the files of a folder; answers them with their bytes."""
    given = {}
    for path in sorted(source.iterdir()):
        if path.is_file() and path.name != "README.md":
            shutil.copy(path, folder)
            given[folder / path.name] = path.read_bytes()
    return given


def is_there(tool):
    """Whether a tool is installed; there are two programs named parallel."""
    if not shutil.which(tool):
        return False
    return tool != "parallel" or b"GNU parallel" in subprocess.run([tool, "--version"], stdout=subprocess.PIPE, stderr=subprocess.STDOUT, check=False).stdout


def asked(command):
    """Whether make knows how to do it."""
    words = command.split()
    done = subprocess.run([words[0], "-n", *words[1:]], cwd=ROOT, stdout=subprocess.PIPE, stderr=subprocess.STDOUT, check=False)
    return words[0] == "make" and done.returncode == 0


def transcript(name, start, words, lines, folder, tools, tally, status):
    missing = words[1:2] == ["if"] and not is_there(words[2])
    for number, command, shown in commands(start, lines):
        if words[1:2] == ["make"]:
            tally.compare(f"{name}:{number}: $ {command}", (asked(command), shown), (True, ""))
            continue
        file = re.fullmatch(r"cat ([\w.-]+)", command)
        if missing:
            tally.skipped += 1
        elif file and not (folder / file[1]).exists():
            (folder / file[1]).write_text(shown, "utf-8")
        else:
            have, status = run(command, folder, tools, status)
            done = status == 0 if re.match(r"ladder [^|]*$", command) else not has_fault(have, command)
            tally.compare(f"{name}:{number}: $ {command}", (have, done), (shown, not has_fault(shown, command)))
    return status


def compare_sections(name, text, blocks, tally):
    """Each fault has a section; its first fault is the one of the heading, and what is corrected has none."""
    heads = [(number, line[3:].split()[0].rstrip(":")) for number, line in enumerate(text.splitlines(), 1) if re.match(r"## ([VAGCXSPNE]\d|usage)", line)]
    tally.compare(f"{name}: the faults that have a section", sorted(code for _, code in heads), sorted(SHOWN + TOLD))
    ends = [number for number, _ in heads[1:]] + [len(text.splitlines()) + 1]
    for (first, code), end in zip(heads, ends):
        shown = [output for start, words, lines in blocks if words[:1] == ["console"] and first < start < end
                 for _, command, output in commands(start, lines) if not command.startswith("cat ")]
        if code in SHOWN:
            faults = [line.split()[1] for output in shown for line in output.splitlines() if line.startswith("fault ")]
            tally.compare(f"{name}: the first fault of {code}", faults[:1], [code])
            tally.compare(f"{name}: {code} is corrected", has_fault(shown[-1]) if shown else None, False)


def help_entries(program, words):
    """The commands, words and options that help tells."""
    text = subprocess.run([program, *words, "--help"], stdout=subprocess.PIPE, check=True).stdout.decode()
    found = set()
    for line in re.sub(r"(?s)\nA line `fault.*", "", text).splitlines():
        entry = re.match(r" {2,6}(-h, --help|--[\w-]+(?: <\w+>)?|<\w+>|\[\w+\](?:\.\.\.)?|[a-z]+)(  |$)", line)
        if entry:
            found.add(re.sub(r"[][<>.]", "", entry[1]))
    return found


def manual_entries(text):
    """The same of the manual page, by the subsections of OPTIONS."""
    found, section, due = {}, None, False
    for line in re.sub(r"(?s).*\n\.SH OPTIONS\n|\n\.SH .*", "", text[text.index(".SH OPTIONS") - 1:]).splitlines():
        if line.startswith(".SS "):
            section = found.setdefault(roff_words(line), set())
        elif due:
            section.add(" ".join(roff_words(line).replace("...", "").split()))
        due = line == ".TP"
    return found


def fault_titles():
    """The headings of the sections of docs/user/faults.md, but of the fault that no request has."""
    return sorted(re.findall(r"^## ([VAGCXP]\d+: .*)$", (ROOT / FAULTS).read_text("utf-8"), re.M))


def compare_manual(name, text, program, tally):
    told = sorted(line for line in text.splitlines() if re.match(r"[VAGCXP]\d+: ", line))
    tally.compare(f"{name}: the faults, as {FAULTS} has them", told, fault_titles())
    manual = manual_entries(text)
    for words in [[], *([word] for word in SUBCOMMANDS)]:
        title = " ".join(["ladder", *words])
        tally.compare(f"{name}: the words and options of `{title}`", sorted(manual.get(title, ())), sorted(help_entries(program, words)))


def document(path, program, tools, folder, tally):
    name = str(path.relative_to(ROOT))
    text = path.read_text("utf-8")
    blocks = roff_examples(text) if path.suffix == ".1" else fenced(text)
    if name.startswith("examples/"):
        blocks.insert(0, (0, ["files", str(path.parent.relative_to(ROOT))], []))
    follow(name, blocks, folder, tools, tally)
    if name == FAULTS:
        compare_sections(name, text, blocks, tally)
    if path.suffix == ".1":
        compare_manual(name, text, program, tally)


def prose(text):
    """The text with an empty line for each line of a fenced block."""
    lines, fence = [], False
    for line in text.splitlines():
        mark = line.startswith("```")
        lines.append("" if fence or mark else line)
        fence ^= mark
    return "\n".join(lines) + "\n"


def number_of(word):
    """The number that digits or a word say."""
    return WORDS.index(word) + 1 if word in WORDS else int(word.replace(",", ""))


def compare_counts(where, line, tally):
    """Each number of a line that has a mark, before or after it, is the count of that name."""
    for mark in re.finditer(r"<!-- count: ([\w-]+) -->", re.sub(r"`[^`]*`", lambda span: "_" * len(span[0]), line)):
        found = re.findall(rf"\b{NUMBER}[ *]*$", line[:mark.start()]) + re.findall(rf"^[ *]*{NUMBER}\b", line[mark.end():])
        want = COUNTS[mark[1]]() if mark[1] in COUNTS else "a name of COUNTS"
        tally.compare(f"{where}: the count of {mark[1]}", [number_of(word) for word in found], [want])


def anchors(path):
    """What the headings of a document are called in a link."""
    heads = re.findall(r"^#+ (.*)$", prose(path.read_text("utf-8")), re.M)
    return {re.sub(r"[^\w -]", "", head.lower()).replace(" ", "-") for head in heads}


def leads(path, target):
    """Whether a link of a document leads to a file, and to a heading of it."""
    file, _, anchor = target.partition("#")
    goal = path.parent / file if file else path
    return goal.exists() and (not anchor or anchor in anchors(goal))


def is_path(path):
    """Whether a path of the repository is there, or what a build makes."""
    pattern = re.sub(r"(?<=/)[A-Z]+(?=/|$|\.(?!md))", "*", path.replace("..", "*"))
    return "out" in path.split("/") or any(ROOT.glob(pattern))


def compare_places(path, where, line, tally):
    """The links and the paths of a line lead somewhere."""
    for target in re.findall(r"\]\(([^)\s]+)\)", re.sub(r"`[^`]*`", "", line)):
        if "://" not in target and not target.startswith("mailto:"):
            tally.compare(f"{where}: the link {target}", leads(path, target), True)
    for word in " ".join(re.findall(r"`([^`]+)`", line)).split():
        file = re.fullmatch(rf"((?:{'|'.join(FOLDERS)})/[\w./*-]*[\w/*]|(?:{'|'.join(FOLDERS)})/[\w./*-]*\.\.)[.,;:]?(?::\d+)?", word)
        if file:
            tally.compare(f"{where}: the path {file[1]}", is_path(file[1].rstrip("/")), True)


def read(path, tally):
    """Compares what a document says of the repository."""
    for number, line in enumerate(prose(path.read_text("utf-8")).splitlines(), 1):
        where = f"{path.relative_to(ROOT)}:{number}"
        compare_counts(where, line, tally)
        compare_places(path, where, line, tally)


def chosen(names, pattern):
    """The documents of these names that a pattern chooses, each once."""
    paths = {path: str(path.relative_to(ROOT)) for name in names for path in sorted(ROOT.glob(name))}
    return [path for path, name in paths.items() if fnmatch.fnmatch(name, pattern)]


def main():
    """Follows and reads the chosen documents and answers the status."""
    program, pattern = os.path.abspath(sys.argv[1]), (sys.argv[2:] or ["*"])[0]
    tally = Tally()
    with tempfile.TemporaryDirectory() as tools:
        os.symlink(program, pathlib.Path(tools) / "ladder")
        for path in chosen(FOLLOWED, pattern):
            with tempfile.TemporaryDirectory() as folder:
                document(path, program, tools, pathlib.Path(folder), tally)
    for path in chosen(READ, pattern):
        read(path, tally)
    print(f"{tally.passed} of {tally.all} passed; {tally.skipped} commands were not run, since their tool isn't installed")
    return 0 if tally.all and tally.passed == tally.all else 1


if __name__ == "__main__":
    sys.exit(main())
