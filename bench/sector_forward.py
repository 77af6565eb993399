#!/usr/bin/env python3
"""Times the forward elimination of single units with many rows.

    python3 bench/sector_forward.py [--more] [--only WORD] [--times N]

The equations of the units are made here, apart from the crates that make them, by integration by parts: for indices
a, a loop momentum l and a momentum q

    d [q = l] I(a) - sum over j of a_j (c_j0 I(a + e_j) + sum over k of c_jk I(a + e_j - e_k)) = 0

where the derivative of D_j by l, times q, is c_j0 + sum over k of c_jk D_k (Kira, arXiv:1705.05610). A unit is a
sector: it takes those equations of its seeds whose greatest integral is of the sector. A small program, that of
sector_forward/, hands them to `eliminate`, and times the call. It is built first, in some minutes, as workspace.py says.

A line for each unit shows the seconds, the rows taken, the rows with a pivot in the unit and the rest, each with the
number of their terms. Rows and rest should have no more terms than the input: the exit status is 1 where they have.
"""
import argparse
import itertools
import subprocess
import sys
import tempfile

from workspace import built, workspace

CRATES = ["out_of_memory", "field_word", "integral_index", "sparse_row", "step_counter", "sector_forward"]
WORD_31, WORD_63 = 2147483647, 9223372036854775783
DIMENSION = 7093  # of no meaning, so that no coefficient vanishes by chance


class Family:
    """Denominators, each the square of a momentum less a mass, at values of the products of external momenta."""

    def __init__(self, loops, denominators, products, zeros, modulus):
        self.loops, self.denominators, self.zeros, self.modulus = loops, denominators, zeros, modulus
        self.externals = len(products)
        self.products = products
        momenta = loops + self.externals
        self.unknowns = [(i, j) for i in range(loops) for j in range(i, momenta)]
        self.inverse = inverse([self.form(q, q, mass)[1:] for q, mass in denominators], modulus)

    def form(self, left, right, mass):
        """left * right - mass, as its constant and its coefficients at the scalar products with a loop momentum."""
        form = {pair: 0 for pair in self.unknowns}
        constant = -mass
        for (i, x), (j, y) in itertools.product(enumerate(left), enumerate(right)):
            pair = (min(i, j), max(i, j))
            if pair in form:
                form[pair] += x * y
            else:
                constant += x * y * self.products[i - self.loops][j - self.loops]
        return [constant] + [form[pair] for pair in self.unknowns]

    def in_denominators(self, form):
        """The c_0 .. c_N of a form."""
        p, width = self.modulus, len(self.unknowns)
        weights = [sum(form[u + 1] * self.inverse[u][k] for u in range(width)) % p for k in range(width)]
        constants = [self.form(q, q, mass)[0] for q, mass in self.denominators]
        return [(form[0] - sum(c * w for c, w in zip(constants, weights))) % p] + weights

    def derivatives(self, loop, momentum):
        """For each denominator the c_0 .. c_N of its derivative by a loop momentum, times a momentum."""
        factor = [int(i == momentum) for i in range(self.loops + self.externals)]
        forms = [self.form([2 * q[loop] * x for x in q], factor, 0) for q, _ in self.denominators]
        return [self.in_denominators(form) for form in forms]

    def is_zero(self, indices):
        sector = sector_of(indices)
        return any(sector & zero == sector for zero in [0] + self.zeros)

    def equation(self, indices, derivatives, is_own):
        """The row of a seed: the residues other than 0 of the integrals that aren't zero."""
        row = {indices: DIMENSION} if is_own else {}
        for j, index in enumerate(indices):
            raised = indices[:j] + (index + 1,) + indices[j + 1:]
            for k, c in enumerate(derivatives[j]):
                x = raised if k == 0 else raised[:k - 1] + (raised[k - 1] - 1,) + raised[k:]
                row[x] = row.get(x, 0) - index * c
        row = {x: c % self.modulus for x, c in row.items()}
        return {x: c for x, c in row.items() if c and not self.is_zero(x)}

    def rows(self, sector, r, s):
        """The rows of a unit: its seeds' equations whose greatest integral is of the sector."""
        found = []
        pairs = list(itertools.product(range(self.loops), range(self.loops + self.externals)))
        derivatives = {pair: self.derivatives(*pair) for pair in pairs}
        for seed in seeds(len(self.denominators), sector, r, s):
            for loop, momentum in pairs:
                row = self.equation(seed, derivatives[loop, momentum], loop == momentum)
                if row and sector_of(max(row, key=complexity)) == sector:
                    found.append(row)
        return found


def inverse(matrix, p):
    """The inverse of a square matrix modulo p."""
    size = len(matrix)
    rows = [[x % p for x in row] + [int(i == j) for j in range(size)] for i, row in enumerate(matrix)]
    for i in range(size):
        at = next(j for j in range(i, size) if rows[j][i])
        rows[i], rows[at] = rows[at], rows[i]
        factor = pow(rows[i][i], -1, p)
        rows[i] = [x * factor % p for x in rows[i]]
        for j in range(size):
            if j != i:
                rows[j] = [(x - rows[j][i] * y) % p for x, y in zip(rows[j], rows[i])]
    return [row[size:] for row in rows]


def sector_of(indices):
    return sum(1 << j for j, index in enumerate(indices) if index > 0)


def complexity(indices):
    """By t, sector, r, s, and then the indices."""
    positive = [index for index in indices if index > 0]
    return len(positive), sector_of(indices), sum(positive), sum(positive) - sum(indices), indices


def parts(count, least, most):
    """All lists of so many numbers from `least` on whose sum is at most `most`."""
    if count == 0:
        yield ()
        return
    for first in range(least, most - least * (count - 1) + 1):
        for others in parts(count - 1, least, most - first):
            yield (first,) + others


def seeds(width, sector, r, s):
    """The index lists of just this sector up to r and s."""
    places = [j for j in range(width) if sector >> j & 1]
    others = [j for j in range(width) if not sector >> j & 1]
    for above, below in itertools.product(parts(len(places), 1, r), parts(len(others), 0, s)):
        indices = [0] * width
        for j, index in zip(places, above):
            indices[j] = index
        for j, index in zip(others, below):
            indices[j] = -index
        yield tuple(indices)


def tadpole(modulus):
    """k1 with the squared mass 3."""
    return Family(1, [([1], 3)], [], [], modulus)


def vacuum(modulus):
    """k1 and k2 with the squared mass 3, and k1 - k2 without."""
    return Family(2, [([1, 0], 3), ([0, 1], 3), ([1, -1], 0)], [], [5, 6], modulus)


def sunrise(modulus):
    """k1, k2 and k1 + k2 - p1 with the squared mass 3, and k1 - p1 and k2 - p1, at p1 * p1 = 11."""
    massive = [([1, 0, 0], 3), ([0, 1, 0], 3), ([1, 1, -1], 3)]
    return Family(2, massive + [([1, 0, -1], 0), ([0, 1, -1], 0)], [[11]], [12, 20, 25, 26], modulus)


def four_legs(modulus):
    """The products of p1, p2 and p3 of four massless legs at s = 13 and t = 5: s/2, t/2 and -(s + t)/2."""
    half = (modulus + 1) // 2
    s, t = 13 * half, 5 * half
    return [[0, s, -s - t], [s, 0, t], [-s - t, t, 0]]


def box(modulus):
    """The massless box."""
    momenta = [[1, 0, 0, 0], [1, 1, 0, 0], [1, 1, 1, 0], [1, 1, 1, 1]]
    return Family(1, [(q, 0) for q in momenta], four_legs(modulus), [3, 6, 9, 12], modulus)


def double_box(modulus):
    """The massless planar double box: seven propagators, and k1 + p1 + p2 + p3 and k2 + p1."""
    momenta = [[1, 0, 0, 0, 0], [1, 0, 1, 0, 0], [1, 0, 1, 1, 0], [0, 1, 1, 1, 0], [0, 1, 1, 1, 1],
               [0, 1, 0, 0, 0], [1, -1, 0, 0, 0], [1, 0, 1, 1, 1], [0, 1, 1, 0, 0]]
    zeros = [31, 55, 59, 62, 71, 76, 97, 120]
    return Family(2, [(q, 0) for q in momenta], four_legs(modulus), zeros, modulus)


# The unit's name, its family, its sector, and the r and s of its seeds. An index is 101 at most, so the tadpole has no
# more than 100 rows.
UNITS = [
    ("tadpole, r to 100", tadpole, 1, 100, 0),
    ("two tadpoles, r to 20, s to 4", vacuum, 3, 20, 4),
    ("two-loop vacuum, r to 16", vacuum, 7, 16, 0),
    ("box, r to 12", box, 15, 12, 0),
    ("box, r to 14", box, 15, 14, 0),
    ("box, r to 16", box, 15, 16, 0),
    ("box, r to 20", box, 15, 20, 0),
]
# Small units and units of two loops with legs. Where the subsectors are many and their own equations stay outside,
# rows and rest keep long tails.
MORE_UNITS = [
    ("box, r to 8", box, 15, 8, 0),
    ("box, r to 10", box, 15, 10, 0),
    ("sunrise, r to 7, s to 4", sunrise, 7, 7, 4),
    ("double box, r to 8, s to 2", double_box, 127, 8, 2),
    ("double box, r to 8, s to 3", double_box, 127, 8, 3),
    ("double box, r to 9, s to 2", double_box, 127, 9, 2),
]


def text_of(rows, sector, modulus):
    """The rows as the program reads them."""
    width = len(next(iter(rows[0])))
    lines = [f"{modulus} {sector} {width}"]
    for row in rows:
        lines.append(" ".join(" ".join(map(str, [*x, c])) for x, c in row.items()))
    return "\n".join(lines) + "\n"


def run(program, text):
    """What the program prints of a unit: the numbers of a line, by its first word."""
    done = subprocess.run([program], input=text, capture_output=True, text=True)
    if done.returncode != 0:
        sys.exit(done.stdout + done.stderr)
    return {line.split()[0]: [int(word) for word in line.split()[1:]] for line in done.stdout.splitlines()}


def report(program, unit, modulus, times):
    """Prints the line of a unit, with the least time, and says whether its terms have become more."""
    name, family, sector, r, s = unit
    text = text_of(family(modulus).rows(sector, r, s), sector, modulus)
    runs = [run(program, text) for _ in range(times)]
    (taken, before), (own, of_own), (left, of_left) = (runs[0][word] for word in ("taken", "rows", "rest"))
    seconds = min(said["milliseconds"][0] for said in runs) / 1000
    more = of_own + of_left > before
    print(f"{seconds:7.3f} s  {name}, modulo {modulus}: {taken} rows, {before} terms; {own} rows, {of_own} terms; "
          f"rest {left} rows, {of_left} terms; {(of_own + of_left) / before:.2f} of the input's terms"
          f"{', MORE' if more else ''}", flush=True)
    return more


def main():
    parser = argparse.ArgumentParser(description="Times the forward elimination of single units with many rows.")
    parser.add_argument("--more", action="store_true", help="small units, and units of two loops with legs, too")
    parser.add_argument("--only", default="", help="only the units whose names hold this word")
    parser.add_argument("--times", type=int, default=5, help="how often a unit is eliminated; the least time counts")
    options = parser.parse_args()
    units = [unit for unit in UNITS + MORE_UNITS * options.more if options.only in unit[0]]
    with tempfile.TemporaryDirectory() as folder:
        program = built(workspace(folder, "forward", "sector_forward", [*CRATES, "anyhow", "thiserror"], CRATES))
        pairs = itertools.product(units, [WORD_31, WORD_63])
        more = [report(program, unit, modulus, options.times) for unit, modulus in pairs]
    sys.exit(1 if any(more) else 0)


if __name__ == "__main__":
    main()
