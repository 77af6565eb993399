"""The polynomials U and F of some denominators of a family, in Feynman parameters.

A polynomial is a dictionary from tuples of exponents to residues that aren't 0.
"""
import operator


def added(left, right, factor, prime):
    """left + factor * right."""
    total = dict(left)
    for exponents, c in right.items():
        total[exponents] = (total.get(exponents, 0) + factor * c) % prime
    return {exponents: c for exponents, c in total.items() if c}


def multiplied(left, right, prime):
    total = {}
    for one, c in left.items():
        for other, e in right.items():
            exponents = tuple(map(operator.add, one, other))
            total[exponents] = (total.get(exponents, 0) + c * e) % prime
    return {exponents: c for exponents, c in total.items() if c}


def determinant(matrix, width, prime):
    """The determinant of a matrix of polynomials in so many parameters, along its first row."""
    if not matrix:
        return {(0,) * width: 1}
    total, sign = {}, 1
    for column, entry in enumerate(matrix[0]):
        if entry:
            rest = determinant(without(matrix, 0, column), width, prime)
            total = added(total, multiplied(entry, rest, prime), sign, prime)
        sign = -sign
    return total


def without(matrix, row, column):
    return [line[:column] + line[column + 1 :] for place, line in enumerate(matrix) if place != row]


def linear(coefficients, prime):
    """The linear polynomial with these coefficients."""
    width = len(coefficients)
    units = [tuple(int(place == other) for other in range(width)) for place in range(width)]
    return {unit: c % prime for unit, c in zip(units, coefficients) if c % prime}


def quadratic_form(family, places):
    """A, Q and J, where the sum of x_i D_i over these places is k A k + 2 k Q + J.

    The entries of A and J are linear polynomials; Q has for each loop momentum a list of them, over the external ones.
    """
    prime = family.job.prime
    half = pow(2, -1, prime)
    chosen = [family.denominators[place] for place in places]
    loops = range(len(family.loops))

    def product(i, j):
        return linear([half * (left[i] * right[j] + left[j] * right[i]) for left, right, _ in chosen], prime)

    matrix = [[product(i, j) for j in loops] for i in loops]
    vectors = [[product(i, j) for j in range(len(family.loops), len(family.momenta))] for i in loops]
    constants = [family.external_product(left, right) - value for left, right, value in chosen]
    return matrix, vectors, linear(constants, prime)


def contracted(left, right, products, prime):
    """The product of two sums of external momenta whose coefficients are polynomials."""
    total = {}
    for row, one in zip(products, left):
        for c, other in zip(row, right):
            total = added(total, multiplied(one, other, prime), c, prime)
    return total


def u_and_f(family, sector):
    """U = det A and F = Q adj(A) Q - J det A, over the parameters of the sector's denominators in ascending order."""
    prime = family.job.prime
    places = [place for place in range(family.width) if sector >> place & 1]
    matrix, vectors, constant = quadratic_form(family, places)
    u = determinant(matrix, len(places), prime)
    f = multiplied({(0,) * len(places): prime - 1}, multiplied(u, constant, prime), prime)
    for i in range(len(matrix)):
        for j in range(len(matrix)):
            cofactor = determinant(without(matrix, i, j), len(places), prime)
            product = contracted(vectors[i], vectors[j], family.job.products, prime)
            f = added(f, multiplied(cofactor, product, prime), (-1) ** (i + j), prime)
    return u, f
