#!/usr/bin/env python3
"""The pages of the faults that the program has: pages.py [--write].

Each section of docs/user/faults.md whose heading begins with a code, as `## G6: ..`, is a page of crates/cli_options: from its heading,
without the marks, to the line before the next heading, without the empty lines at its end. Each part of the document (`# ..`) has a file
there. Alone it compares these files with the document, and fails where they differ; with --write it writes them.
"""
import pathlib
import re
import sys
import textwrap

ROOT = pathlib.Path(__file__).resolve().parent.parent
DOCUMENT = "docs/user/faults.md"
# as the heads of the generated files name the document
NAMED = "docs/user/faults.md"
SOURCE = ROOT / "crates" / "cli_options" / "src"
# the parts of the document that have codes, and the file of each
FILES = {"Declarations": "declarations", "The drawing": "drawing", "Questions to `causes`": "questions",
         "Files, arguments and writers": "files", "Projects of ClassicLadder": "projects",
         "Projects in PLCopen XML": "units",
         "Programs in Structured Text": "statements",
         "Exports": "exports",
         "Words": "words"}


def sections(text):
    """The headings outside fenced blocks, each with the marks before it, and the lines below it."""
    found, fence = [], False
    for line in text.splitlines():
        fence ^= line.startswith("```")
        mark = None if fence else re.fullmatch(r"(#+) (.*)", line)
        if mark:
            found.append((mark[1], mark[2], []))
        elif found:
            found[-1][2].append(line)
    return found


def parts(text):
    """For each part of the document that has codes, its heading and its pages: the code, the title and the text."""
    found = []
    for marks, heading, lines in sections(text):
        if marks == "#":
            found.append((heading, []))
        elif marks == "##" and re.match(r"(\w+): ", heading):
            while lines and not lines[-1]:
                lines.pop()
            found[-1][1].append((heading.split(":")[0], heading, "".join(line + "\n" for line in [heading] + lines if not line.startswith("<!--"))))
    return [part for part in found if part[1]]


def quoted(text):
    """The text as a string of the language: it may have line ends, and a line end behind a backslash isn't read."""
    return '"\\\n' + text.replace("\\", "\\\\").replace('"', '\\"') + '"'


def constant(code):
    """The name of a page's constant: CONST for a code in small letters too."""
    return code.upper()


def source(heading, pages):
    """The file of a part of the document."""
    lines = [f"//! The pages of a part of {NAMED}: {heading}. `tests/pages.py --write` writes this file.", ""]
    for code, _, text in pages:
        lines += [f"pub(crate) const {constant(code)}: &str = {quoted(text)};", ""]
    return "\n".join(lines[:-1]) + "\n"


def listed(found):
    """The file with the codes, their titles and their pages, in the order of the document."""
    pages = [(FILES[heading], code, title) for heading, pages in found for code, title, _ in pages]
    lines = [f"//! The codes of {NAMED}, with their pages. `tests/pages.py --write` writes this file.", ""]
    lines += [f"use crate::{{{', '.join(sorted({module for module, _, _ in pages}))}}};"]
    lines += ["", "/// The codes, in the order of the document.", f"pub(crate) const CODES: [&str; {len(pages)}] = ["]
    lines += textwrap.wrap(" ".join(f'"{code}",' for _, code, _ in pages), 99, initial_indent="    ", subsequent_indent="    ")
    lines += ["];", "", "/// The page of each code.", f"pub(crate) const PAGES: [&str; {len(pages)}] = ["]
    lines += [f"    {module}::{constant(code)}," for module, code, _ in pages]
    lines += ["];", "", "/// The titles of all pages, a line each.",
              f"pub(crate) const TITLES: &str = {quoted(''.join(title + chr(10) for _, _, title in pages))};"]
    return "\n".join(lines) + "\n"


def main():
    if sys.argv[1:] not in ([], ["--write"]):
        sys.exit(__doc__)
    found = parts((ROOT / DOCUMENT).read_text("utf-8"))
    unknown = [heading for heading, _ in found if heading not in FILES]
    if unknown:
        sys.exit(f"no file for the part {unknown[0]!r}")
    texts = {FILES[heading]: source(heading, pages) for heading, pages in found} | {"list": listed(found)}
    differ = []
    for name, text in sorted(texts.items()):
        path = SOURCE / f"{name}.rt"
        if sys.argv[1:]:
            path.write_text(text, "utf-8")
        elif not path.exists() or path.read_text("utf-8") != text:
            differ.append(path)
    for path in differ:
        print(f"{path.relative_to(ROOT)} isn't what {DOCUMENT} gives: tests/pages.py --write")
    print(f"files {len(texts)} pages {sum(len(pages) for _, pages in found)} differ {len(differ)}")
    sys.exit(1 if differ else 0)


if __name__ == "__main__":
    main()
