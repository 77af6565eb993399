#!/usr/bin/env python3
"""Proposes the zero sectors of each family of a job, at the job's numeric point:

    tools/find_sectors.py FOLDER [NAME=VALUE]...

By R. N. Lee's criterion (arXiv:1310.1145): with G = U + F of the sector's denominators the sector is zero where numbers
k_i solve sum_i k_i x_i dG/dx_i = G. This says that k_1 a_1 + .. + k_n a_n = 1 for the exponents a of each monomial of
G. Where U is 0 all monomials have the degree of F, and such numbers are there.

For each family it prints a line to paste, with the greatest zero sectors below its top level sectors, and complains
about each listed sector that isn't zero by this criterion. It ends with 1 where there is one. The program believes what
is listed and never sees this tool.
"""
import sys

import job_files
from feynman_parameters import u_and_f

# The equations for k have at most 21 columns, and their rows at most the length sqrt(6^2 + 1). So their minors are at
# most 37^10.5 < 2^55, and a prime above decides as the rational numbers do. The job's own prime may be small.
LARGE_PRIME = 2**61 - 1


class Monomials:
    """The monomials of G for a sector, each with the places of its parameters and its equation for k."""

    def __init__(self, family, sector):
        places = [place for place in range(family.width) if sector >> place & 1]
        u, f = u_and_f(family, sector)
        self.rows = []
        for exponents in {**u, **f}:
            support = sum(1 << place for place, exponent in zip(places, exponents) if exponent)
            self.rows.append((support, [*exponents, 1]))

    def zero(self, sector):
        """Whether a subsector is zero: its G has those monomials that need no other parameters."""
        rows = [row for support, row in self.rows if support & sector == support]
        return job_files.eliminated(rows, LARGE_PRIME) is not None


def is_zero(family, sector):
    return Monomials(family, sector).zero(sector)


def greatest_below(family, top):
    """The zero subsectors of a sector that are met from above by sectors that aren't zero."""
    monomials = Monomials(family, top)
    waiting, met, found = [top], {top}, []
    while waiting:
        sector = waiting.pop()
        if monomials.zero(sector):
            found.append(sector)
            continue
        below = {sector & ~(1 << place) for place in range(family.width)} - met
        met |= below
        waiting.extend(below)
    return found


def zero_sectors(family):
    """The greatest zero sectors within the top level sectors, ascending, without the empty one."""
    found = {sector for top in family.top_sectors for sector in greatest_below(family, top)} - {0}
    return sorted(one for one in found if not any(one != other and one & other == one for other in found))


def work(job):
    status = 0
    for family in job.families:
        print(f"# {family.name}", f"    zero_sectors: {zero_sectors(family)}", sep="\n", flush=True)
        for sector in family.zero_sectors:
            if not is_zero(family, sector):
                print(f"{family.name}: sector {sector} is listed and isn't zero", file=sys.stderr)
                status = 1
    return status


if __name__ == "__main__":
    job_files.run("tools/find_sectors.py FOLDER [NAME=VALUE]...", work)
