#!/usr/bin/env python3
"""Runs commands side by side: side_by_side.py COMMAND...

There are as many at once as processors. What a command prints is printed whole, in the order of the commands. The status is 0 where
each one's is.
"""
import os
import shlex
import subprocess
import sys
from concurrent.futures import ThreadPoolExecutor


def ended(command):
    """What a command prints, and its status."""
    done = subprocess.run(shlex.split(command), stdin=subprocess.DEVNULL, stdout=subprocess.PIPE, stderr=subprocess.STDOUT, check=False)
    return done.stdout, done.returncode


def main():
    """Runs the commands and answers the status."""
    commands, failed = sys.argv[1:], []
    with ThreadPoolExecutor(len(os.sched_getaffinity(0))) as pool:
        for command, (printed, status) in zip(commands, pool.map(ended, commands)):
            sys.stdout.buffer.write(f"{command}\n".encode() + printed)
            sys.stdout.flush()
            failed += [command] if status else []
    for command in failed:
        print(f"failed: {command}")
    return 1 if failed or not commands else 0


if __name__ == "__main__":
    sys.exit(main())
