#!/usr/bin/env python3
"""Tells how large a job is before it is run.

    tools/size.py FOLDER [JOBFILE]          JOBFILE is jobs.yaml where none is given

For each item under `reduce` and each of its families it shows the seeds, the equations and the bound on terms of
docs/FORMATS.md; then the job's sums, in which a seed of several items counts once, beside the limits; then what would
stay with a bound `d` or with one zero sector more. Seeds are counted by binomials, so that a job far above the limits
is answered too. It finds no faults of the files, which the program names, and needs PyYAML.
"""
import itertools
import pathlib
import re
import sys

import job_seeds

TOP = pathlib.Path(__file__).resolve().parent.parent
MOST_INTEGRALS, MOST_TERMS = 131072, 16777216
MOST_ROWS, MOST_TRIED = 8, 256


def row(name, counts):
    return f"{name:30}" + "".join(f" {count:>14}" for count in counts)


def with_less_dots(job, whole):
    rows = []
    for most in range(MOST_ROWS):
        counts = job.total([job_seeds.Item(item.family, item.entry, most) for item in job.reduce])
        if counts == whole:
            break
        rows.append(row(f"with d: {most}", counts))
    return rows


def with_more_zeros(job, whole):
    """What stays if a sector were zero, for those of at most one denominator more than loops that leave the least."""
    found = []
    for family in job.families.values():
        items = [item for item in job.reduce if item.family is family]
        seeded = job_seeds.sectors_of(items)
        tops = {int(sector) for item in items for sector in item.entry["sectors"]}
        most = min(family.loops + 1, family.width)
        bits = itertools.chain(*(itertools.combinations(range(family.width), t) for t in range(most, 0, -1)))
        sectors = (sum(1 << bit for bit in some) for some in bits)
        tried = (sector for sector in sectors if seeded >> sector & 1 and sector not in tops)
        for sector in itertools.islice(tried, MOST_TRIED):
            saved = job_seeds.seeds_of(family, items, job_seeds.below([sector], family.width))
            found.append((-saved, family.name, sector, (saved, saved * family.rows, saved * family.terms)))
    best = sorted(found)[:MOST_ROWS]
    return [row(f"with {name} {sector} zero", [a - b for a, b in zip(whole, less)]) for _, name, sector, less in best]


def estimate(equations):
    """Time and memory by the measured jobs of docs/USING.md, of which the small ones say nothing."""
    cells = [line.split("|")[2:6] for line in (TOP / "docs/USING.md").read_text().splitlines() if line.startswith("|")]
    measured = [list(map(float, c)) for c in cells if len(c) == 4 and re.fullmatch(r"[\d. ]+", "".join(c))]
    large = [(count, seconds, memory) for count, _, seconds, memory in measured if count >= 1000]
    if not large:
        return "no jobs measured"
    (low, high), (least, most) = (
        [pick(cells[place] / cells[0] * equations for cells in large) for pick in (min, max)] for place in (1, 2)
    )
    base = min(memory for _, _, _, memory in measured)
    text = f"rough: {low:.1f} to {high:.1f} s and {max(base, least):.0f} to {max(base, most):.0f} MB"
    text += ", by the jobs of docs/USING.md"
    return text + (", all smaller, and time grows faster than the equations" if equations > max(large)[0] else "")


def report(job):
    """The lines that are shown."""
    whole, selected = job.total(job.reduce), job.selected()
    lines = [row("reduce", ["seeds", "equations", "terms"])]
    for place, item in enumerate(job.reduce, 1):
        dots = f" d {item.entry['d']}" if "d" in item.entry else ""
        lines.append(row(f"{place} {item.family.name} r {item.r} s {item.s}{dots}", job.total([item])))
    lines.append(row("together", whole))
    lines.append(row("limit", [MOST_INTEGRALS, "", MOST_TERMS]))
    lines.append(row("selected", [selected]) + f", limit {MOST_INTEGRALS}")
    zeros = with_more_zeros(job, whole)
    lines += with_less_dots(job, whole) + zeros
    if zeros:
        lines.append("Only a sector without a scale may be listed as zero: with another one the table is wrong.")
    if whole[0] > MOST_INTEGRALS or whole[2] > MOST_TERMS:
        lines.append("Too large: give a lower d, r or s.")
        lines.append("Jobs by sectors don't help below one top sector, since an item takes all subsectors.")
    else:
        lines.append(estimate(whole[1]))
    return "\n".join(lines) + "\n"


if __name__ == "__main__":
    if len(sys.argv) not in (2, 3):
        job_seeds.refuse("usage: tools/size.py FOLDER [JOBFILE]")
    sys.stdout.write(report(job_seeds.load(*sys.argv[1:])))
