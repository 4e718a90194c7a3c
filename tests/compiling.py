"""Compiles what is loaded before the C library."""
import pathlib
import shutil
import subprocess


def toolchain():
    """The folder of the toolchain's own compiler, or None without a toolchain."""
    if not shutil.which("rt"):
        return None
    page = subprocess.run(["rt", "doc"], capture_output=True, text=True, check=False).stdout.strip()
    return pathlib.Path(page).parent / "toolchain" / "bin"


def compiler():
    """The words that call a compiler: the system's, or else the toolchain's own; None where there is neither."""
    if shutil.which("cc"):
        return ["cc"]
    folder = toolchain()
    if folder and (folder / "clang").exists():
        return [str(folder / "clang"), f"--ld-path={folder / 'ld.lld'}"]
    return None


def compiled(source, library):
    """Whether the source was compiled to a library, which takes the C library of the program that loads it."""
    words = compiler()
    if words:
        subprocess.run([*words, "-shared", "-fPIC", "-O1", "-nostdlib", "-fno-builtin", "-o", library, source], check=True)
    return words is not None
