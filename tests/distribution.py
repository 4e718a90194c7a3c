#!/usr/bin/env python3
"""Installs what `make dist` packs, and runs it: distribution.py PROGRAM.

The archive and the package of Debian are made twice and are the same both times, and SHA256SUMS has their sums. Each is unpacked into an
empty root. Both have the same files, all that may be read and none that isn't root's, with what the shells, `man`, Vim and VS Code
look for; the program there answers the stored example as the one that was packed does. Where dpkg-deb isn't installed, the package is
passed over.
"""
import hashlib
import os
import pathlib
import shutil
import subprocess
import sys
import tarfile
import tempfile

ROOT = pathlib.Path(__file__).resolve().parent.parent
TOOL = ROOT / "tools/distribution.py"
# what must be there, below the prefix
WANTED = ["bin/ladder", "share/man/man1/ladder.1", "share/bash-completion/completions/ladder", "share/fish/vendor_completions.d/ladder.fish",
          "share/zsh/site-functions/_ladder", "share/vim/vimfiles/syntax/ladder.vim", "share/vim/vimfiles/ftdetect/ladder.vim",
          "share/ladder/vscode/package.json", "share/doc/ladder/README.md", "share/doc/ladder/LICENSE",
          "share/doc/ladder/docs/user/drawing.md", "share/doc/ladder/examples/motor_interlock/motor.ld"]
# what the package has under another name, or alone
RENAMED = {"share/zsh/vendor-completions/_ladder": "share/zsh/site-functions/_ladder"}
ALONE = {"share/doc/ladder/copyright"}
EXAMPLE = "share/doc/ladder/examples/motor_interlock"
WORDS = ["causes", "motor.ld", "Motor", "Start", "Stop", "OvlOk", "Guard"]
EXPECTED = "standstill.list.csv"


def packed(program, folder):
    """What is packed of a program, by name."""
    subprocess.run([sys.executable, TOOL, program, folder], check=True, stdout=subprocess.DEVNULL)
    return {path.name: path.read_bytes() for path in folder.iterdir()}


def sum_faults(made):
    """What is wrong with the sums."""
    told = dict(reversed(line.split("  ")) for line in made["SHA256SUMS"].decode().splitlines())
    have = {name: hashlib.sha256(content).hexdigest() for name, content in made.items() if name != "SHA256SUMS"}
    if told != have:
        yield "SHA256SUMS doesn't have the sums of the files beside it"


def unpacked_archive(path, folder):
    """The prefix where the archive is unpacked."""
    with tarfile.open(path) as tar:
        members = tar.getmembers()
        if any(member.uid or member.gid or not (member.isfile() or member.isdir()) for member in members):
            raise ValueError("the archive has a file of someone else than root, or none that is plain")
        tar.extractall(folder, filter="data") if hasattr(tarfile, "data_filter") else tar.extractall(folder)
    prefix, = folder.iterdir()
    return prefix


def unpacked_package(path, folder):
    """The prefix where the package is unpacked."""
    listed = subprocess.run(["dpkg-deb", "--contents", path], capture_output=True, check=True).stdout.decode().splitlines()
    if any(line.split()[1] != "root/root" for line in listed):
        raise ValueError("the package has a file of someone else than root")
    subprocess.run(["dpkg-deb", "--extract", path, folder], check=True)
    named = subprocess.run(["dpkg-deb", "--field", path, "Package", "Version"], capture_output=True, check=True).stdout.decode()
    if path.name.split("_")[:2] != [line.split(": ")[1] for line in named.splitlines()]:
        raise ValueError(f"the package {path.name} calls itself otherwise")
    return folder / "usr"


def content(prefix):
    """The files below a prefix, by name."""
    return {str(path.relative_to(prefix)): path for path in sorted(prefix.rglob("*")) if path.is_file()}


def faults(prefix, program):
    """What is wrong with what was installed."""
    files = content(prefix)
    for name in WANTED:
        if name not in files and name not in {RENAMED.get(have) for have in files}:
            yield f"{name} isn't there"
    for name, path in files.items():
        mode = 0o755 if name == "bin/ladder" else 0o644
        if path.stat().st_mode & 0o777 != mode:
            yield f"{name} doesn't have the mode {mode:o}"
    answers = [subprocess.run([which, *WORDS], cwd=prefix / EXAMPLE, stdin=subprocess.DEVNULL, capture_output=True, check=False, timeout=60)
               for which in (prefix / "bin/ladder", program)]
    if [(one.returncode, one.stdout) for one in answers] != [(0, (ROOT / "examples/motor_interlock" / EXPECTED).read_bytes())] * 2:
        yield f"the stored example isn't answered: {answers[0].stderr.decode()}"


def main():
    """Packs, unpacks and runs, and answers the status."""
    program, wrong = pathlib.Path(os.path.abspath(sys.argv[1])), []
    with tempfile.TemporaryDirectory() as scratch:
        first, second, *roots = (pathlib.Path(scratch) / name for name in ("first", "second", "archive", "package"))
        made = packed(program, first)
        if packed(program, second) != made:
            wrong.append("the same program is packed otherwise the second time")
        wrong += sum_faults(made)
        for root in roots:
            root.mkdir()
        prefixes = [unpacked_archive(next(first.glob("*.tar.gz")), roots[0])]
        if shutil.which("dpkg-deb"):
            prefixes.append(unpacked_package(next(first.glob("*.deb")), roots[1]))
            there, here = ({RENAMED.get(name, name): path.read_bytes() for name, path in content(prefix).items() if name not in ALONE} for prefix in prefixes)
            wrong += [f"{name} isn't in both, or differs" for name in sorted({*there, *here}) if there.get(name) != here.get(name)]
        for prefix in prefixes:
            wrong += faults(prefix, program)
    for fault in wrong:
        print(fault)
    told = "the archive and the package" if len(prefixes) == 2 else "no dpkg-deb: the package is passed over; the archive"
    print(f"{told} installed the program and answered the stored example" if not wrong else f"{len(wrong)} faults of what is packed")
    return 1 if wrong else 0


if __name__ == "__main__":
    sys.exit(main())
