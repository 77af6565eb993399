#!/usr/bin/env python3
"""Times the built program on jobs of growing size.

    python3 bench/kira.py [PROGRAM] [--runs N] [--only WORD] [--series]

PROGRAM is crates/kira/out/kira where it isn't named. Each job is one of the examples with other bounds, under
`reduce` and in the selection alike. A line shows the least time of the runs, the greatest memory that one of them
held (by the program `time`; without it none is told), and how many equations the job has and terms other than 0 in
them. These two come from examples/reference.py, which writes the equations apart from the program and needs PyYAML;
without it they are left out. With --series the jobs are those of two families, each of a growing r, and a line also
shows by how much the time grew for each doubling of the equations since the line before.
"""
import argparse
import math
import os
import pathlib
import re
import shutil
import subprocess
import sys
import tempfile
import time

TOP = pathlib.Path(__file__).resolve().parent.parent
sys.path.insert(0, str(TOP / "examples"))

# The name, the example, and its bounds r and s.
JOBS = [
    ("bubble r 6 s 2", "bubble_two_masses", 6, 2),
    ("box r 4 s 1", "box_massless", 4, 1),
    ("box r 5 s 1", "box_massless", 5, 1),
    ("box r 6 s 1", "box_massless", 6, 1),
    ("box r 7 s 1", "box_massless", 7, 1),
    ("box r 8 s 1", "box_massless", 8, 1),
    ("box r 8 s 3", "box_massless", 8, 3),
    ("box r 12 s 3", "box_massless", 12, 3),
    ("pentagon r 6 s 1", "pentagon_massless", 6, 1),
    ("pentagon r 8 s 1", "pentagon_massless", 8, 1),
    ("sunrise r 6 s 2", "sunrise_equal_masses", 6, 2),
    ("double box r 7 s 1", "double_box_planar", 7, 1),
]

# Jobs of one family whose equations about double from one to the next.
SERIES = [
    *[(f"box r {r} s 3", "box_massless", r, 3) for r in (8, 9, 11, 13, 15, 18)],
    *[(f"pentagon r {r} s 1", "pentagon_massless", r, 1) for r in (6, 7, 8, 9)],
]


def bounded(text, r, s):
    """The job file with these bounds in each of its specs."""
    return re.sub(r"r: \d+, s: \d+", f"r: {r}, s: {s}", text)


def prepared(example, r, s, place):
    folder = pathlib.Path(shutil.copytree(TOP / "examples" / example, pathlib.Path(place) / example))
    job = folder / "jobs.yaml"
    job.write_text(bounded(job.read_text(), r, s))
    return folder


def timed(program, folder):
    """The seconds, the kilobytes that were held at most, and the exit status.

    A child of Python counts the memory of Python itself until it is another program, so the program is started by
    `time`, which is small; without it no memory is told.
    """
    told = folder / "kilobytes"
    words = [shutil.which("time"), "-f", "%M", "-o", str(told)] if shutil.which("time") else []
    begin = time.perf_counter()
    run = subprocess.run([*words, program, "jobs.yaml"], cwd=folder, stdout=subprocess.DEVNULL)
    seconds = time.perf_counter() - begin
    return seconds, int(told.read_text().split()[-1]) if words else 0, run.returncode


def sizes(folder):
    """How many equations the job has, and how many terms."""
    try:
        import reference
    except ImportError:
        return "-", "-"
    job = reference.Job(folder, [])
    rows = list(reference.equations_of(job, reference.seeds_of(job, job.task["reduce"])))
    return len(rows), sum(len(row) for row in rows)


def growth(before, now):
    """By how much the time grows where the equations double, from two pairs of equations and seconds."""
    doublings = math.log2(now[0] / before[0])
    return (now[1] / before[1]) ** (1 / doublings)


def main():
    parser = argparse.ArgumentParser(description=__doc__, formatter_class=argparse.RawDescriptionHelpFormatter)
    parser.add_argument("program", nargs="?", default=str(TOP / "crates/kira/out/kira"))
    parser.add_argument("--runs", type=int, default=3)
    parser.add_argument("--only", default="")
    parser.add_argument("--series", action="store_true")
    options = parser.parse_args()
    program, failed, before = os.path.abspath(options.program), False, None
    print(f"{'job':<20} {'equations':>10} {'terms':>10} {'seconds':>9} {'MB':>8}")
    for name, example, r, s in SERIES if options.series else JOBS:
        if options.only not in name:
            continue
        with tempfile.TemporaryDirectory() as place:
            folder = prepared(example, r, s, place)
            runs = [timed(program, folder) for _ in range(options.runs)]
            failed = failed or any(status != 0 for _, _, status in runs)
            equations, terms = sizes(folder)
            seconds, kilobytes = min(run[0] for run in runs), max(run[1] for run in runs)
            memory = f"{kilobytes / 1024:.1f}" if kilobytes else "-"
            line = f"{name:<20} {equations:>10} {terms:>10} {seconds:>9.3f} {memory:>8}"
            if options.series and before and before[0] == example:
                line += f" {growth(before[1:], (equations, seconds)):>6.2f} for each doubling"
            before = (example, equations, seconds)
            print(line, flush=True)
    sys.exit(1 if failed else 0)


if __name__ == "__main__":
    main()
