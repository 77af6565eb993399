#!/usr/bin/env python3
"""Tells how many terms the rows have when the board reduces a job, and compares its table with the plain one.

    python3 bench/board.py [--only WORD] [--examples]

The jobs are those of bench/kira.py; with --examples they are the examples as they are. The program of board/ reads the
job as `kira` does, reduces its equations on the board, and then by `reduce_plain` in one list. It is built first, in some
minutes, as workspace.py says. The exit status is 1 where the two tables differ.
"""
import argparse
import pathlib
import subprocess
import sys
import tempfile

import kira
from workspace import built, workspace

TOP = pathlib.Path(__file__).resolve().parent.parent
CRATES = [path.name for path in sorted((TOP / "crates").iterdir())]
USES = ["kira_app", "kira_outside", "job_plan", "reduction_core", "sparse_row", "step_counter", "anyhow"]
SAID = ["forward", "rest", "back", "waiting"]


def told(program, folder):
    """What the program prints of a job: the number of a line, by its first word."""
    done = subprocess.run([program], cwd=folder, capture_output=True, text=True)
    if done.returncode != 0:
        sys.exit(done.stdout + done.stderr)
    return {word: int(number) for word, number in (line.split() for line in done.stdout.splitlines())}


def main():
    parser = argparse.ArgumentParser(description=__doc__, formatter_class=argparse.RawDescriptionHelpFormatter)
    parser.add_argument("--only", default="")
    parser.add_argument("--examples", action="store_true")
    options = parser.parse_args()
    examples = sorted(path.parent for path in (TOP / "examples").glob("*/expected"))
    differ = False
    with tempfile.TemporaryDirectory() as place:
        program = built(workspace(place, "board_terms", "board", USES, CRATES))
        print(f"{'job':<26}" + "".join(f" {word:>10}" for word in SAID))
        jobs = [(folder.name, folder) for folder in examples] if options.examples else kira.JOBS
        for name, *job in jobs:
            if options.only in name:
                with tempfile.TemporaryDirectory() as room:
                    folder = job[0] if options.examples else kira.prepared(*job, room)
                    said = told(program, folder)
                differ = differ or said["same"] != 1
                print(f"{name:<26}" + "".join(f" {said[word]:>10}" for word in SAID)
                      + ("" if said["same"] == 1 else "  THE TABLES DIFFER"), flush=True)
    sys.exit(1 if differ else 0)


if __name__ == "__main__":
    main()
