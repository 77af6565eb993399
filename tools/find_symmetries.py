#!/usr/bin/env python3
"""Proposes symmetries of each family of a job, at the job's numeric point:

    tools/find_symmetries.py FOLDER [NAME=VALUE]...

The permutations of a sector's denominators are found that leave U and F as they are (A. Pak, arXiv:1111.0868), by
backtracking. Then for each a shift of the loop momenta is sought: the momenta of denominators that fix all loop momenta
become, each up to its sign, those of their images. It is proposed where it permutes all denominators of the family, as
a symmetry of a job has to.

It prints items to paste, of which products of earlier ones are left out, and as a comment each permutation of a top
level sector for which no shift was found. Shifts that permute all denominators but move a top level sector out of these
are comments too: the program takes them, but they lead to integrals that may not be seeded. It tests each listed
symmetry itself and never sees this tool.
"""
import itertools
import operator

import job_files
from feynman_parameters import u_and_f

# Shifts have small whole coefficients: they are solved modulo a prime, and others become residues that are far from 0.
LARGE_PRIME = 2**61 - 1
GREATEST_COEFFICIENT = 1000


def automorphisms(polynomial, width):
    """The permutations of the parameters that leave a polynomial as it is: for each parameter its image."""
    kinds = [sorted((c, sorted(a), a[place]) for a, c in polynomial.items() if a[place]) for place in range(width)]
    ended = [[] for _ in range(width)]
    for exponents in polynomial:
        last = max((place for place in range(width) if exponents[place]), default=0)
        ended[last].append(exponents)

    def fits(images):
        return all(polynomial.get(permuted(a, images)) == polynomial[a] for a in ended[len(images) - 1])

    def extended(images):
        if len(images) == width:
            yield images
            return
        for image in range(width):
            longer = [*images, image]
            if image not in images and kinds[image] == kinds[len(images)] and fits(longer):
                yield from extended(longer)

    return extended([])


def permuted(exponents, images):
    """The exponents of a monomial in the first parameters, when each of these became its image."""
    moved = [0] * len(exponents)
    for place, image in enumerate(images):
        moved[image] = exponents[place]
    return tuple(moved)


def form(family, left, right, value):
    """The coefficients of a denominator over the products with a loop momentum, and its constant."""
    loops, places = len(family.loops), range(len(family.momenta))
    pairs = [(i, j) for i in range(loops) for j in places if j >= i]
    products = [left[i] * right[j] + (left[j] * right[i] if i != j else 0) for i, j in pairs]
    return products, (family.external_product(left, right) - value) % family.job.prime


def image_of(family, shift, vector):
    """The image of a momentum, where the shift has that of each loop momentum."""
    total = [0] * len(family.loops) + vector[len(family.loops) :]
    for c, image in zip(vector, shift):
        total = [entry + c * part for entry, part in zip(total, image)]
    return total


def permutation_by(family, shift):
    """For each denominator the place of its image, or None where the images aren't the denominators."""
    forms = [form(family, *denominator) for denominator in family.denominators]
    moved = []
    for left, right, value in family.denominators:
        moved.append(form(family, image_of(family, shift, left), image_of(family, shift, right), value))
    found = tuple(forms.index(image) for image in moved if image in forms)
    return found if len(set(found)) == family.width else None


def fixing(family, places):
    """Places of squares whose momenta fix all loop momenta, or None."""
    chosen, parts, loops = [], [], len(family.loops)
    for place in places:
        left, right, _ = family.denominators[place]
        longer = [*parts, [*left[:loops], 0]]
        if left == right and len(job_files.eliminated(longer, LARGE_PRIME)) == len(longer):
            chosen, parts = [*chosen, place], longer
    return chosen if len(chosen) == loops else None


def solved(matrix, targets):
    """The whole-numbered vectors whose sums with the rows of the matrix are the targets, or None."""
    size = len(matrix)
    found = [[0] * len(targets[0]) for _ in range(size)]
    for place, column in enumerate(zip(*targets)):
        pivots = job_files.eliminated([[*row, entry] for row, entry in zip(matrix, column)], LARGE_PRIME)
        values = [0] * size
        for pivot, row in reversed(pivots.items()):
            values[pivot] = (row[-1] - sum(map(operator.mul, row, values))) % LARGE_PRIME
        for line, value in zip(found, values):
            line[place] = value if value <= LARGE_PRIME // 2 else value - LARGE_PRIME
    small = all(abs(entry) <= GREATEST_COEFFICIENT for line in found for entry in line)
    return found if small else None


def shifts(family, basis, image):
    """The shifts by which the momenta of the basis become those of their images, up to a sign each."""
    loops = len(family.loops)
    momenta = [family.denominators[place][0] for place in basis]
    images = [family.denominators[image[place]][0] for place in basis]
    for signs in itertools.product((1, -1), repeat=loops):
        targets = []
        for sign, momentum, other in zip(signs, momenta, images):
            outer = [0] * loops + momentum[loops:]
            targets.append([sign * entry - part for entry, part in zip(other, outer)])
        shift = solved([momentum[:loops] for momentum in momenta], targets)
        if shift is not None:
            yield shift


def symmetries_of(family, top):
    """For each permutation of a sector that leaves U and F: its images, and the shifts with what they permute."""
    places = [place for place in range(family.width) if top >> place & 1]
    basis = fixing(family, places)
    u, f = u_and_f(family, top)
    for images in automorphisms({**u, **f}, len(places)) if u else []:
        image = {place: places[to] for place, to in zip(places, images)}
        found = []
        for shift in shifts(family, basis, image) if basis else []:
            permutation = permutation_by(family, shift)
            if permutation and all(permutation[place] == to for place, to in image.items()):
                found.append((shift, permutation))
        yield image, found


def group(generators, width):
    """All products of these permutations."""
    identity = tuple(range(width))
    met, waiting = {identity}, [identity]
    while waiting:
        one = waiting.pop()
        new = {tuple(generator[to] for to in one) for generator in generators} - met
        met |= new
        waiting.extend(new)
    return met


def stays(family, permutation):
    """Whether each top level sector becomes a part of one."""
    for top in family.top_sectors:
        moved = sum(1 << to for place, to in enumerate(permutation) if top >> place & 1)
        if not any(moved & other == moved for other in family.top_sectors):
            return False
    return True


def without_shift(family):
    """The permutations of top level sectors for which no shift was found."""
    for top in family.top_sectors:
        for image, found in symmetries_of(family, top):
            if not found and any(place != to for place, to in image.items()):
                yield top, image


def proposals(family):
    """Shifts that generate all that keep the top level sectors, and then further ones that generate all others too.

    What permutes all denominators leaves U and F of all of them as they are.
    """
    found = [pair for _, pairs in symmetries_of(family, 2**family.width - 1) for pair in pairs]
    found.sort(key=lambda pair: not stays(family, pair[1]))
    chosen, known = [], group([], family.width)
    for shift, permutation in found:
        if permutation not in known:
            chosen.append((shift, permutation))
            known = group([made for _, made in chosen], family.width)
    keeping = [shift for shift, permutation in chosen if stays(family, permutation)]
    return keeping, [shift for shift, _ in chosen[len(keeping) :]]


def sum_of(family, vector):
    """A momentum as it is written in a job."""
    terms = []
    for c, name in zip(vector, family.momenta):
        if c:
            terms.append(("-" if c < 0 else "+") + (name if abs(c) == 1 else f"{abs(c)}*{name}"))
    return "".join(terms).removeprefix("+")


def written(family, shift):
    pairs = [(name, sum_of(family, image)) for name, image in zip(family.loops, shift)]
    return "{" + ", ".join(f'{name}: "{image}"' for name, image in pairs if name != image) + "}"


def work(job):
    for family in job.families:
        keeping, moving = proposals(family)
        print(f"# {family.name}", "    symmetries:" if keeping else "    symmetries: []", sep="\n")
        for shift in keeping:
            print(f"      - {written(family, shift)}")
        for shift in moving:
            print(f"# moves a top level sector out of these: {written(family, shift)}")
        for top, image in without_shift(family):
            moves = ", ".join(f"D{place + 1} to D{to + 1}" for place, to in image.items() if place != to)
            print(f"# sector {top} with {moves}: U and F stay, and no shift that permutes all denominators was found")
    return 0


if __name__ == "__main__":
    job_files.run("tools/find_symmetries.py FOLDER [NAME=VALUE]...", work)
