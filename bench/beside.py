#!/usr/bin/env python3
"""Times the built program beside another one that does the same work, in one run.

    python3 bench/beside.py [--program PROGRAM] [--runs N] FOLDER COMMAND...

The program reduces the job of the folder, and the command is run in turn with it, so that both meet the same machine.
The line shows the least time of each and their ratio. The command's table may be told by its digest: where it prints a
line `sha256 HEX`, that has to be the digest of what the program prints, and else the exit status is 1.
"""
import argparse
import hashlib
import os
import pathlib
import re
import subprocess
import sys
import time

TOP = pathlib.Path(__file__).resolve().parent.parent


def timed(words, folder):
    """The seconds, and what was printed."""
    begin = time.perf_counter()
    run = subprocess.run(words, cwd=folder, stdout=subprocess.PIPE, stderr=subprocess.DEVNULL, check=True)
    return time.perf_counter() - begin, run.stdout


def main():
    parser = argparse.ArgumentParser(description=__doc__, formatter_class=argparse.RawDescriptionHelpFormatter)
    parser.add_argument("--program", default=str(TOP / "crates/kira/out/kira"))
    parser.add_argument("--runs", type=int, default=7)
    parser.add_argument("folder")
    parser.add_argument("command", nargs=argparse.REMAINDER)
    options = parser.parse_args()
    ours, theirs = [], []
    for _ in range(options.runs):
        ours.append(timed([os.path.abspath(options.program), "jobs.yaml"], options.folder))
        theirs.append(timed(options.command, None))
    own, other = min(seconds for seconds, _ in ours), min(seconds for seconds, _ in theirs)
    print(f"{options.folder}: {own:.3f} s beside {other:.3f} s, {own / other:.1f} times")
    digest = re.search(rb"^sha256 ([0-9a-f]{64})$", theirs[0][1], re.MULTILINE)
    if digest and digest.group(1).decode() != hashlib.sha256(ours[0][1]).hexdigest():
        sys.exit("the tables differ")


if __name__ == "__main__":
    main()
