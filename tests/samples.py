#!/usr/bin/env python3
"""Imports the sample projects of LinuxCNC: samples.py PROGRAM [--write] [--kept=FOLDER].

Each project of ClassicLadder in Debian's package linuxcnc-uspace, those with the same bytes once, is imported, alone, with each HAL
file beside it that names ClassicLadder's pins, and with `--control on`, of which the import alone is kept where it is the plain one. Of
a program that is written it is asked what it has (`check`), where each variable is drawn (`uses`), and, without a HAL file, what a
stimulus gives (`sim`), and for each coil the inputs that matter and their causes in groups. The status and the SHA-256 of each answer
must be those of samples.digest; the projects have another licence, so that nothing of their text is kept here.
--write writes the digests anew. FOLDER keeps the unpacked package, which is a temporary folder otherwise. Where the package can't be had,
or in another version, this is passed over.
"""
import argparse
import hashlib
import pathlib
import re
import subprocess
import sys
import tempfile

import linuxcnc

DIGEST = pathlib.Path(__file__).resolve().parent / "samples.digest"
PINS = re.compile(rb"classicladder\.0\.(?:in|out)-\d")
ADDRESS = re.compile(r"^  (\w+)(?: \(\* \S+ \*\))? AT (%\w+) ", re.M)
CONTROL_ON = " --control on"
SCANS = ("sim", "--every", "10", "--watch-all", "program.ld", "stimulus.csv")
LISTS = ("causes", "--relevant", "--grouped", "--limit", "500", "--quiet", "--all-coils", "lists", "program.ld")


def distinct(root):
    """The first project of each content, by its path."""
    found = {}
    for path in sorted(root.rglob("*.clp")):
        found.setdefault(path.read_bytes(), path)
    return sorted(found.values())


def wirings(project):
    """The HAL files beside a project that name ClassicLadder's pins."""
    return [path for path in sorted(project.parent.glob("*.hal")) if PINS.search(path.read_bytes())]


def stimulus(names):
    """Each quarter of a second inputs change, the later ones more often."""
    rows = [(250 * record, *(record * (place + 1) // 8 % 2 for place in range(len(names)))) for record in range(64)]
    return "\n".join([",".join(["moment", *names]), *(",".join(map(str, row)) for row in rows), ""])


def digest(status, *parts):
    return f"{status} {hashlib.sha256(bytes(1).join(parts)).hexdigest()}"


class Answers:
    """What is asked of one project in a folder of its own, and the digest of each answer by the question."""

    def __init__(self, program, folder, project, hal, options):
        self.program, self.folder, self.hal, self.options = program, pathlib.Path(folder), hal, options
        self.digests = {}
        (self.folder / "project.clp").write_bytes(project.read_bytes())
        if hal:
            (self.folder / "wiring.hal").write_bytes(hal.read_bytes())

    def asked(self, *words):
        return subprocess.run([self.program, *words], cwd=self.folder, stdin=subprocess.DEVNULL, capture_output=True, check=False, timeout=120)

    def answered(self, *words):
        done = self.asked(*words)
        self.digests[words[0]] = digest(done.returncode, done.stdout, done.stderr)
        return done

    def all(self):
        done = self.answered("import", *self.options, "project.clp")
        if done.returncode == 0:
            (self.folder / "program.ld").write_bytes(done.stdout)
            self.answered("check", "program.ld")
            self.answered("uses", "program.ld")
            if not self.hal:
                addresses = dict(ADDRESS.findall(done.stdout.decode("ascii")))
                self.scans([name for name, address in addresses.items() if address.startswith("%I")])
                self.lists(addresses)
        return self.digests

    def scans(self, inputs):
        (self.folder / "stimulus.csv").write_text(stimulus(inputs), "ascii")
        self.answered(*SCANS)

    def lists(self, addresses):
        """The list of each coil, by its address."""
        (self.folder / "lists").mkdir()
        done = self.asked(*LISTS)
        for path in (self.folder / "lists").iterdir():
            self.digests[f"causes {addresses[path.stem]}"] = digest(done.returncode, path.read_bytes(), done.stderr)


def ways(project):
    """How a project is imported: what is said of it, the HAL file and the options. The plain way is the first."""
    yield "", None, ()
    for hal in wirings(project):
        yield f" --hal {hal.name}", hal, ("--hal", "wiring.hal")
    yield CONTROL_ON, None, ("--control", "on")


def answers(program, samples):
    """The digest of each answer by project, way and question."""
    found = {}
    for project in distinct(samples):
        name = project.relative_to(samples)
        for way, hal, options in ways(project):
            with tempfile.TemporaryDirectory() as folder:
                asked = Answers(program, folder, project, hal, options).all()
            if way == CONTROL_ON and asked["import"] == found[f"{name}: import"]:
                asked = {"import": asked["import"]}
            found.update({f"{name}{way}: {question}": told for question, told in asked.items()})
    return found


def stored():
    """The version of the package, and the digests by what was asked."""
    lines = DIGEST.read_text("ascii").splitlines() if DIGEST.exists() else ["version none"]
    fields = [line.split(" ", 2) for line in lines[1:]]
    return lines[0].split(" ", 1)[1], {key: f"{status} {value}" for status, value, key in fields}


def write(version, found):
    DIGEST.write_text("\n".join([f"version {version}", *(f"{told} {key}" for key, told in sorted(found.items())), ""]), "ascii")


def carried(found):
    """How many projects are carried over, and of how many."""
    alone = [told for key, told in found.items() if key.endswith(".clp: import")]
    return sum(told.startswith("0 ") for told in alone), len(alone)


def compared(program, package, writes):
    version, kept = stored()
    if version != package.version and not writes:
        print(f"samples: {linuxcnc.NAME} {package.version} is another version: not compared")
        return 0
    found = answers(program, package.root / linuxcnc.SAMPLES)
    if writes:
        write(package.version, found)
        kept = found
    wrong = sorted(key for key in {*found, *kept} if found.get(key) != kept.get(key))
    for key in wrong:
        print(f"{key}: {found.get(key, 'not asked')[:14]}, not {kept.get(key, 'stored')[:14]}")
    whole, projects = carried(found)
    print(f"samples: {whole} of {projects} projects are carried over; {len(found) - len(wrong)} of {len(found)} answers are as stored")
    return 1 if wrong or not found else 0


def main():
    words = argparse.ArgumentParser()
    words.add_argument("program")
    words.add_argument("--write", action="store_true")
    words.add_argument("--kept")
    given = words.parse_args()
    with linuxcnc.package(given.kept) as package:
        if package is None:
            print(f"samples: Debian's package {linuxcnc.NAME} can't be had: passed over")
            return 0
        return compared(str(pathlib.Path(given.program).resolve()), package, given.write)


if __name__ == "__main__":
    sys.exit(main())
