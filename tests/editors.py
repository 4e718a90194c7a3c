#!/usr/bin/env python3
"""Looks at program texts as editors show them: editors.py.

The files of share/ for Vim and for VS Code say of each character of SAMPLE what is written below it, and of each character of each program
of examples/ and tests/programs they say the same. A program is known by its text, and the script of a linker, whose name ends alike, isn't
one. What VS Code does with its grammar is done here by a small interpreter of its patterns. Where Vim isn't installed, its files are
passed over.
"""
import functools
import json
import os
import pathlib
import re
import shutil
import subprocess
import sys
import tempfile

ROOT = pathlib.Path(__file__).resolve().parent.parent
VIM = ROOT / "share/vim/vimfiles"
CODE = ROOT / "share/vscode"
# what a character is, in Vim and in VS Code
KINDS = {
    ".": ("", ""),
    "c": ("ladderComment", "comment."),
    "d": ("ladderStructure", "keyword.control.declarations."),
    "n": ("ladderName", "variable.other.name."),
    "a": ("ladderAlias", "entity.other.attribute-name.alias."),
    "k": ("ladderKeyword", "keyword.other.at."),
    "t": ("ladderType", "storage.type."),
    "b": ("ladderBoolean", "constant.language.boolean."),
    "1": ("ladderNumber", "constant.numeric.ladder"),
    "s": ("ladderDuration", "constant.numeric.duration."),
    "%": ("ladderAddress", "support.constant.address."),
    "p": ("ladderPreset", "keyword.other.preset."),
    "r": ("ladderRail", "punctuation.rail."),
    "w": ("ladderWire", "punctuation.wire."),
    "j": ("ladderJoint", "keyword.operator.joint."),
    "l": ("ladderLink", "keyword.operator.link."),
    "o": ("ladderOperand", "variable.other.operand."),
    "C": ("ladderContact", "support.function.contact."),
    "O": ("ladderCoil", "entity.name.function.coil."),
    "B": ("ladderBlock", "support.class.block."),
    "J": ("ladderJump", "keyword.control.jump."),
    "T": ("ladderTarget", "entity.name.label.target."),
    "R": ("ladderReturn", "keyword.control.return."),
    "L": ("ladderLabel", "entity.name.label.ladder"),
    "E": ("ladderError", "invalid.illegal."),
}
# what Vim calls the places between them
AROUND = ("ladderDeclarations", "ladderRung")
# A line, and below it what each of its characters is; the places behind the shorter one are no part of anything.
SAMPLE = r"""
(* Two END_VAR lines: *) // not yet
cccccccccccccccccccccccc.cccccccccc
Var (* a comment *) // another
ddd.ccccccccccccccc.cccccccccc
  Start AT %IX0 : BOOL;  (* at last *)
..nnnnn.kk.%%%%...tttt...ccccccccccccc
  X10 (* magazine-at-home *) at %i1.3 : bool := true;
..nnn.aaaaaaaaaaaaaaaaaaaaaa.kk.%%%%%...tttt....bbbb
  M (* two words *) : BOOL := 0; // END_VAR
..n.ccccccccccccccc...tttt....1..cccccccccc
  PT(*x*) : TON := (PT := T#1m30s); up : CTU := ( PV:= 3);
..nnaaaaa...ttt.....pp....sssssss...nn...ttt......pp...1
  TONE : SR; END_VAR
..nnnn...tt..ddddddd
(* several
cccccccccc
|----| |---  lines *)
ccccccccccccccccccccc
|   Start       PT.q       M
r...ooooo.......oooo.......o
|----| |----+----|/|---------( )----
rwwwwCCCwwwwjwwwwCCCwwwwwwwwwOOOwwww
|    X10    |
r....ooo....l
|----|P|----+-|CU CTU Q|-----(S)----+
rwwwwCCCwwwwjwBBBBBBBBBBwwwwwOOOwwwwj
|   Start   |           |
r...ooooo...l...........l
|----|N|----+           |R1      |
rwwwwCCCwwwwj...........BBBBBBBBBB
|    M        Step1.Q1
r....o........oooooooo
|----| |------|IN TP  Q|+--->>ON_2
rwwwwCCCwwwwwwBBBBBBBBBBjwwwJJTTTT
+                       +--<RETURN>
r.......................jwwRRRRRRRR
|----|x|----( )-?
rwwwwlolwwwwOOOwE
 On_2 : (* or *)
.LLLL...cccccccc
ON:// x
LL.cccc
|
r
|----| |---------| |---------| |---------| |---------| |---------| |---------| |---------| |---------| |---------( )----|
rwwwwCCCwwwwwwwwwCCCwwwwwwwwwCCCwwwwwwwwwCCCwwwwwwwwwCCCwwwwwwwwwCCCwwwwwwwwwCCCwwwwwwwwwCCCwwwwwwwwwCCCwwwwwwwwwOOOwwwwr
"""
PROGRAMS = ("VAR\n", "(* A motor *) VAR A : BOOL;\n", "// first\n\n  var // declarations\n", "VAR (* inputs *)\n")
# what else is called *.ld
SCRIPTS = ("/* Linker script */\nENTRY(_start)\nSECTIONS { .text : { *(.text) } }\n", "VAR = 0x10;\nvar += 4;\nVARIABLE = 1;\n",
           "MEMORY\n{\n  VAR (rwx) : ORIGIN = 0, LENGTH = 1K\n}\n", "OUTPUT_FORMAT(elf32-i386)\n| VAR\n")


class Grammar:
    """The grammar of VS Code: `kinds` says of each character of a line the last name that it gets."""

    def __init__(self, path):
        self.whole = json.loads(path.read_text("ascii"))
        self.stack = [self.whole]

    @functools.cache
    def compiled(self, pattern):
        return re.compile(pattern)

    def rules(self, rule):
        """The rules that may begin within this one."""
        for one in rule.get("patterns", ()):
            named = self.whole["repository"][one["include"][1:]] if "include" in one else one
            if "match" in named or "begin" in named:
                yield named
            else:
                yield from self.rules(named)

    def first(self, text, place):
        """The match that begins first, the end of the rule before others, with its rule."""
        rule, found = self.stack[-1], []
        if "end" in rule:
            found.append((self.compiled(rule["end"]).search(text, place), None))
        for one in self.rules(rule):
            found.append((self.compiled(one.get("match") or one["begin"]).search(text, place), one))
        return min(((match, one) for match, one in found if match), key=lambda both: both[0].start(), default=(None, None))

    def kinds(self, text):
        names, place = [""] * len(text), 0

        def put(begin, end, name):
            names[begin:end] = [name] * (end - begin)

        while True:
            inside = self.stack[-1].get("name", "") if len(self.stack) > 1 else ""
            match, rule = self.first(text, place)
            put(place, match.start() if match else len(text), inside)
            if not match:
                return names
            shown = rule or self.stack[-1]
            put(match.start(), match.end(), shown.get("name", inside))
            captures = shown.get("captures") or shown.get("endCaptures" if rule is None else "beginCaptures") or {}
            for group, one in captures.items():
                put(*match.span(int(group)), one["name"])
            if rule is None:
                self.stack.pop()
            elif "begin" in rule:
                self.stack.append(rule)
            if match.end() == place == len(text) or (match.end() == match.start() and rule):
                if rule:
                    return names
            place = match.end()
            if rule is None and "end" in shown and shown["end"] == "$":
                return names


def in_code(text):
    """The names that VS Code gives to the characters of a text."""
    grammar = Grammar(CODE / "syntaxes/ladder.tmLanguage.json")
    return [grammar.kinds(line) for line in text.splitlines()]


LOOK = """
set nocompatible
set runtimepath^={vim}
filetype plugin on
syntax enable
let g:found = []
for s:file in {files}
  execute 'edit' fnameescape(s:file)
  let s:lines = []
  if &filetype ==# 'ladder'
    for s:line in range(1, line('$'))
      call add(s:lines, map(range(1, col([s:line, '$']) - 1), {{at, place -> synIDattr(synID(s:line, place, 1), 'name')}}))
    endfor
  endif
  call add(g:found, [&filetype, s:lines])
endfor
call writefile([json_encode(g:found)], '{out}')
qall!
"""


def in_vim(texts):
    """What Vim takes each text for, and the names that it gives to the characters of those of ladder."""
    with tempfile.TemporaryDirectory() as scratch:
        folder = pathlib.Path(scratch)
        files = [folder / f"{number}.ld" for number in range(len(texts))]
        for path, text in zip(files, texts):
            path.write_text(text, "latin-1")
        script, out = folder / "look.vim", folder / "found.json"
        script.write_text(LOOK.format(vim=VIM, files=json.dumps([str(path) for path in files]), out=out), "utf-8")
        subprocess.run(["vim", "-es", "-Nu", "NONE", "-i", "NONE", "-S", str(script)], stdin=subprocess.DEVNULL, stdout=subprocess.DEVNULL,
                       stderr=subprocess.DEVNULL, timeout=120, env={**os.environ, "HOME": scratch}, check=False)
        return json.loads(out.read_text("utf-8"))


def letters(names, editor):
    """The kinds of names, a letter for each; ? for one that isn't in the table."""
    known = {kind: both[editor] for kind, both in KINDS.items()}
    return "".join(next((kind for kind, begin in known.items() if name == begin or begin and name.startswith(begin)), "?")
                   for name in ("" if name in AROUND else name for name in names))


def sample():
    """The lines of SAMPLE, and what each of their characters is."""
    lines = SAMPLE.strip("\n").split("\n")
    return [(line, kinds.ljust(len(line), ".")) for line, kinds in zip(lines[::2], lines[1::2])]


def programs():
    return [path.read_text("latin-1") for path in sorted([*ROOT.glob("examples/*/*.ld"), *ROOT.glob("tests/programs/*.ld")])]


def wrong_in(editor, shown):
    """The lines of SAMPLE that an editor shows otherwise; `shown`: the names that it gives to their characters."""
    for (line, kinds), names in zip(sample(), shown, strict=True):
        found = letters(names, 0 if editor == "Vim" else 1)
        if found != kinds:
            yield f"{editor} shows the line\n  {line}\nas\n  {found}\nand not as\n  {kinds}"


def package_faults():
    """What is wrong with the files beside the grammar."""
    package = json.loads((CODE / "package.json").read_text("ascii"))
    language, grammar = package["contributes"]["languages"][0], package["contributes"]["grammars"][0]
    for path in (language["configuration"], grammar["path"]):
        json.loads((CODE / path).read_text("ascii"))
    scope = json.loads((CODE / grammar["path"]).read_text("ascii"))["scopeName"]
    if (grammar["language"], grammar["scopeName"]) != (language["id"], scope):
        yield "package.json names another language or scope than the grammar"
    # VS Code looks at the first line alone
    first = re.compile(language["firstLine"])
    for text in [*programs(), "VAR\n", "(* A motor\n", "var A : BOOL;\n"]:
        if not first.match(text.splitlines()[0]):
            yield f"VS Code doesn't know a program by {text.splitlines()[0]!r}"
    for text in SCRIPTS:
        if first.match(text.splitlines()[0]):
            yield f"VS Code takes {text.splitlines()[0]!r} for the begin of a program"


def vim_faults():
    """What is wrong with the files for Vim, and where it and VS Code differ."""
    text, known = "".join(line + "\n" for line, _ in sample()), programs()
    found = in_vim([text, *known, *PROGRAMS, *SCRIPTS])
    yield from wrong_in("Vim", found[0][1])
    for kind, text in zip([kind for kind, _ in found], [text, *known, *PROGRAMS, *SCRIPTS]):
        if (kind == "ladder") != (text not in SCRIPTS):
            yield f"Vim takes {text[:40]!r}.. for {kind or 'nothing'}"
    for text, (_, shown) in zip(known, found[1:]):
        for line, there, here in zip(text.splitlines(), shown, in_code(text)):
            both = letters(there, 0), letters(here, 1)
            if both[0] != both[1] or "?" in both[0]:
                yield f"the line\n  {line}\nis in Vim and in VS Code\n  " + "\n  ".join(both)


def main():
    """Looks at all texts and answers the status."""
    wrong = [*package_faults(), *wrong_in("VS Code", in_code("".join(line + "\n" for line, _ in sample())))]
    for text in programs():
        wrong += [f"VS Code shows {line!r} as a fault" for line, names in zip(text.splitlines(), in_code(text)) if "E" in letters(names, 1)]
    vim = shutil.which("vim")
    wrong += vim_faults() if vim else []
    for fault in wrong:
        print(fault)
    told = "Vim and VS Code show" if vim else "no vim: its files are passed over; VS Code shows"
    print(f"{told} {len(sample())} lines of a sample and {len(programs())} programs " + ("as they must be" if not wrong else f"with {len(wrong)} faults"))
    return 1 if wrong else 0


if __name__ == "__main__":
    sys.exit(main())
