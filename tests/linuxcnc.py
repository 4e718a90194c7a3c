"""Debian's package linuxcnc-uspace, which has ClassicLadder and its sample projects: installed, or fetched and unpacked."""
import collections
import contextlib
import pathlib
import subprocess
import tempfile

NAME = "linuxcnc-uspace"
SAMPLES = pathlib.PurePath("usr/share/doc/linuxcnc/examples/sample-configs")
Package = collections.namedtuple("Package", "root version")


def said(words, **streams):
    """What a command of the package manager writes; None where there is none or it fails."""
    try:
        done = subprocess.run(words, stdin=subprocess.DEVNULL, capture_output=True, check=True, timeout=300, **streams)
    except (OSError, subprocess.SubprocessError):
        return None
    return done.stdout.decode()


def installed():
    state, _, version = (said(["dpkg-query", "--show", "--showformat=${db:Status-Status} ${Version}", NAME]) or "").partition(" ")
    root = pathlib.Path("/")
    return Package(root, version) if state == "installed" and (root / SAMPLES).is_dir() else None


def unpacked(folder):
    """The package in the folder, where it is fetched and unpacked once."""
    archive = next(folder.glob(f"{NAME}_*.deb"), None)
    if not archive and said(["apt-get", "download", NAME], cwd=folder) is not None:
        archive = next(folder.glob(f"{NAME}_*.deb"), None)
    if not archive:
        return None
    root, part = folder / "files", folder / "part"
    if not root.is_dir():
        if said(["dpkg-deb", "--extract", str(archive), str(part)]) is None:
            return None
        part.rename(root)
    version = said(["dpkg-deb", "--field", str(archive), "Version"])
    return Package(root, version.strip()) if version and (root / SAMPLES).is_dir() else None


@contextlib.contextmanager
def package(kept):
    """The package, or None where it can't be had. It is unpacked into a temporary folder, or into the one that keeps it."""
    with tempfile.TemporaryDirectory() as scratch:
        folder = pathlib.Path(kept or scratch).resolve()
        folder.mkdir(parents=True, exist_ok=True)
        yield installed() or unpacked(folder)
