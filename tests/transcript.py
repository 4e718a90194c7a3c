"""What the runners of transcripts share: blocks, exact bytes, the call of the program.

A block begins with a line of three backticks or more, with words after them, and ends with a line of as many backticks alone. Its
lines are its text, each with a line feed. In a block with the word `escaped` a byte may be written as \\xNN, and \\t, \\r and \\\\ are
a tab, a carriage return and a backslash; a backslash at the end of a line removes its line feed.
"""
import os
import re
import subprocess

FENCE = re.compile(r"(`{3,})(.*)")
ESCAPE = re.compile(r"\\(x[0-9A-Fa-f]{2}|.)", re.DOTALL)
ESCAPED = {"\\": "\\", "t": "\t", "r": "\r", "\n": ""}
STREAMS = {"stdin": subprocess.DEVNULL, "stdout": subprocess.PIPE, "stderr": subprocess.PIPE}


def parts(text):
    """The number of the first line, the words after the fence and the lines of each block; a line outside has None in place of words."""
    found, fence, number = [], None, 0
    for number, line in enumerate(text.split("\n"), 1):
        begin = FENCE.fullmatch(line)
        if fence is None and begin:
            fence, block = begin[1], (number, begin[2].split(), [])
        elif fence is None:
            found.append((number, None, [line]))
        elif line == fence:
            found.append(block)
            fence = None
        else:
            block[2].append(line)
    if fence is not None:
        raise ValueError(f"line {block[0]}: the block has no end")
    return found


def escape(mark):
    if len(mark[1]) == 3:
        return chr(int(mark[1][1:], 16))
    if mark[1] not in ESCAPED:
        raise ValueError(f"no such escape: {mark[0]}")
    return ESCAPED[mark[1]]


def content(words, lines):
    """The bytes of a block."""
    text = "".join(f"{line}\n" for line in lines)
    return ESCAPE.sub(escape, text).encode("latin-1") if "escaped" in words else text.encode("utf-8")


def run(program, words, folder, **streams):
    """Standard output, standard error and status; a stream that isn't a pipe is None, and so is the status after three minutes."""
    try:
        done = subprocess.run([program, *words], cwd=folder, timeout=180, check=False, **{**STREAMS, **streams})
    except subprocess.TimeoutExpired as late:
        return late.stdout, late.stderr, None
    return done.stdout, done.stderr, done.returncode


def differences(have, want):
    """Two lines for each part that differs; a part that is wanted as ... may be anything but empty."""
    pairs = zip(("stdout", "stderr", "status", "saved"), have, want)
    return [difference(part, found, due) for part, found, due in pairs if (not found if due is ... else found != due)]


def difference(part, have, want):
    """Two lines with what is wanted and what is there; of a long text, what begins shortly before the first difference."""
    start = 0
    if isinstance(have, bytes) and isinstance(want, bytes) and max(len(have), len(want)) > 2000:
        start = max(0, len(os.path.commonprefix([have, want])) - 200)
    return f"  {part}: want {shown(want, start)}\n  {' ' * len(part)}  have {shown(have, start)}"


def shown(part, start=0):
    text = "anything" if part is ... else part if isinstance(part, str) else repr(part[start:] if start else part)
    text = text if len(text) <= 2000 else f"{text[:2000]}... ({len(part)} bytes)"
    return f"from byte {start}: {text}" if start else text
