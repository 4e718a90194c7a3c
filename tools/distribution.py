#!/usr/bin/env python3
"""Packs the built program for others to install: distribution.py PROGRAM FOLDER.

FOLDER gets three files, named by what `PROGRAM --version` says, or by 1.0:

    ladder-VERSION.tar.gz           bin/ and share/ below ladder-VERSION/, for any prefix
    ladder_VERSION_ARCH.deb         the same below /usr, where dpkg-deb is installed
    SHA256SUMS                      of both, for `sha256sum -c`

What is packed is what `make install` puts there. The same program and files make the same bytes: times are that of the last commit, or
SOURCE_DATE_EPOCH, owners are root, and names are in order.
"""
import gzip
import hashlib
import os
import pathlib
import re
import shutil
import subprocess
import sys
import tarfile
import tempfile

ROOT = pathlib.Path(__file__).resolve().parent.parent
UNKNOWN = "1.0"
CONTROL = """Package: ladder
Version: {version}
Architecture: {architecture}
Maintainer: {maintainer}
Section: electronics
Priority: optional
{depends}Installed-Size: {size}
Description: answers questions about ladder diagrams drawn as plain text
 Lists which combinations of inputs switch a coil on (IEC 61131-3, LD), and
 checks, simulates and compares programs. Its lists are proved complete.
"""


def run(*words):
    """What a command prints, or nothing where it fails or isn't there."""
    try:
        done = subprocess.run([str(word) for word in words], stdin=subprocess.DEVNULL, capture_output=True, cwd=ROOT, timeout=60, check=False)
    except FileNotFoundError:
        return ""
    return done.stdout.decode("utf-8", "replace").strip() if done.returncode == 0 else ""


def version_of(program):
    """The second word of `ladder 1.0 ..`, where the program says so."""
    found = re.match(r"ladder ([0-9][A-Za-z0-9.+~]*)(?:\s|$)", run(program, "--version"))
    return found[1] if found else UNKNOWN


def moment():
    """The time that all files have, in seconds."""
    return int(os.environ.get("SOURCE_DATE_EPOCH") or run("git", "log", "-1", "--format=%ct") or 0)


def installed(program, folder, prefix):
    """Puts there what `make install` does, with modes that don't depend on who does it."""
    subprocess.run(["make", "--silent", "install-files", f"BUILT={program}", f"DESTDIR={folder}", f"PREFIX={prefix}"], cwd=ROOT, check=True)
    for path in [folder, *folder.rglob("*")]:
        path.chmod(0o755 if path.is_dir() or path.parent.name == "bin" else 0o644)
        os.utime(path, (moment(), moment()))


def archived(folder, archive):
    """Packs a folder under its own name."""
    def plain(member):
        member.uid = member.gid = 0
        member.uname = member.gname = "root"
        return member

    with archive.open("wb") as file, gzip.GzipFile("", "wb", 6, file, moment()) as packed:
        with tarfile.open(fileobj=packed, mode="w", format=tarfile.USTAR_FORMAT) as tar:
            for path in [folder, *sorted(folder.rglob("*"))]:
                tar.add(path, path.relative_to(folder.parent), recursive=False, filter=plain)


def needed(program):
    """The packages that the program needs: the C library of the highest version that it names, and the compiler's own library."""
    content = program.read_bytes()
    found = re.findall(rb"GLIBC_([0-9]+(?:\.[0-9]+)+)\0", content)
    newest = max(found, key=lambda version: [int(part) for part in version.split(b".")], default=None)
    packages = [f"libc6 (>= {newest.decode()})"] if newest else []
    packages += ["libgcc-s1"] if b"\0libgcc_s.so.1\0" in content else []
    return f"Depends: {', '.join(packages)}\n" if packages else ""


def write_control(folder, program, version):
    """What Debian wants to know of the package."""
    files = sorted(path for path in folder.rglob("*") if path.is_file())
    sums = "".join(f"{hashlib.md5(path.read_bytes()).hexdigest()}  {path.relative_to(folder)}\n" for path in files)
    control = folder / "DEBIAN"
    control.mkdir()
    (control / "md5sums").write_text(sums, "ascii")
    (control / "control").write_text(CONTROL.format(
        version=version, architecture=run("dpkg", "--print-architecture"), depends=needed(program),
        maintainer=run("git", "log", "-1", "--format=%an <%ae>") or "nobody <nobody@localhost>",
        size=sum(-(-path.stat().st_size // 1024) for path in files)), "utf-8")
    for path in [control, *control.iterdir()]:
        path.chmod(0o755 if path.is_dir() else 0o644)
        os.utime(path, (moment(), moment()))


def package(program, version, scratch, out):
    """The package of Debian, whose folder for completions of zsh has another name."""
    folder = scratch / "package"
    folder.mkdir()
    installed(program, folder, "/usr")
    (folder / "usr/share/zsh/site-functions").rename(folder / "usr/share/zsh/vendor-completions")
    shutil.copy2(folder / "usr/share/doc/ladder/LICENSE", folder / "usr/share/doc/ladder/copyright")
    for path in (folder / "usr/share/zsh", folder / "usr/share/doc/ladder"):
        os.utime(path, (moment(), moment()))
    write_control(folder, program, version)
    path = out / f"ladder_{version}_{run('dpkg', '--print-architecture')}.deb"
    subprocess.run(["dpkg-deb", "--root-owner-group", "-Zgzip", "-z6", "--build", folder, path], check=True, stdout=subprocess.DEVNULL,
                   env={**os.environ, "SOURCE_DATE_EPOCH": str(moment())})
    return path


def main():
    """Packs the program and answers the status."""
    program, out = pathlib.Path(sys.argv[1]).resolve(), pathlib.Path(sys.argv[2]).resolve()
    out.mkdir(parents=True, exist_ok=True)
    version = version_of(program)
    with tempfile.TemporaryDirectory() as scratch:
        folder = pathlib.Path(scratch) / f"ladder-{version}"
        folder.mkdir()
        installed(program, folder, "")
        made = [out / f"ladder-{version}.tar.gz"]
        archived(folder, made[0])
        if shutil.which("dpkg-deb"):
            made.append(package(program, version, pathlib.Path(scratch), out))
        else:
            print("no dpkg-deb: no package of Debian is made")
    sums = "".join(f"{hashlib.sha256(path.read_bytes()).hexdigest()}  {path.name}\n" for path in made)
    (out / "SHA256SUMS").write_text(sums, "ascii")
    print(sums, end="")
    return 0


if __name__ == "__main__":
    sys.exit(main())
