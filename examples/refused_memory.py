#!/usr/bin/env python3
"""Refuses the built program each of its allocations in turn, on small jobs.

    python3 examples/refused_memory.py [--program PROGRAM] [--every N] [FOLDER]...

A run with a refused allocation has to end with the whole table, or with status 14, `kira: out of memory` and nothing on
standard output. Each allocation of a job is refused once alone and once with all later ones; with --every N only each
Nth. The jobs are the tadpole, the triangle and the box of examples/, unless folders are named. It needs a C compiler.
"""
import argparse
import os
import pathlib
import subprocess
import sys
import tempfile

TOP = pathlib.Path(__file__).resolve().parent
JOBS = ["tadpole", "triangle_massless", "box_massless"]
WANTING = (14, b"", b"kira: out of memory\n")


def run(program, folder, library, refuse, on=False, counted=None):
    """The exit status, and what stands on both streams."""
    names = {"LD_PRELOAD": library, "REFUSE": str(refuse)}
    if on:
        names["REFUSE_ON"] = "1"
    if counted:
        names["COUNTED"] = counted
    done = subprocess.run([program, "jobs.yaml"], cwd=folder, env={**os.environ, **names}, capture_output=True)
    return done.returncode, done.stdout, done.stderr


def sweep(program, folder, library, every, place):
    """How many runs there were, and how many of them ended otherwise than they may."""
    counted = os.path.join(place, "counted")
    whole = run(program, folder, library, 0, counted=counted)
    allocations = int(pathlib.Path(counted).read_text())
    runs, wrong, served = 0, 0, 0
    for number in range(1, allocations + 1, every):
        for on in (False, True):
            ended = run(program, folder, library, number, on)
            runs, served = runs + 1, served + (ended == whole)
            if ended not in (whole, WANTING):
                wrong += 1
                print(f"{folder}: allocation {number}{' and all later' if on else ''}: {ended[0]} {ended[2][:80]!r}")
    print(f"{folder.name}: {allocations} allocations, {runs} runs, {served} with the whole table, {wrong} wrong", flush=True)
    return wrong + (whole[0] != 0)


def main():
    parser = argparse.ArgumentParser(description=__doc__, formatter_class=argparse.RawDescriptionHelpFormatter)
    parser.add_argument("--program", default=str(TOP.parent / "crates/kira/out/kira"))
    parser.add_argument("folders", nargs="*")
    parser.add_argument("--every", type=int, default=1)
    options = parser.parse_args()
    folders = [pathlib.Path(it).resolve() for it in options.folders] or [TOP / name for name in JOBS]
    with tempfile.TemporaryDirectory() as place:
        library = os.path.join(place, "refused_memory.so")
        subprocess.run(["cc", "-O2", "-shared", "-fPIC", "-o", library, str(TOP / "refused_memory.c"), "-ldl"], check=True)
        program = os.path.abspath(options.program)
        wrong = sum(sweep(program, folder, library, options.every, place) for folder in folders)
    sys.exit(1 if wrong else 0)


if __name__ == "__main__":
    main()
