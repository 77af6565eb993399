#!/usr/bin/env python3
"""Reduces a job in plain Python, apart from the program: the expected tables of the examples come from here.

    python3 examples/reference.py FOLDER [NAME=VALUE]...

It reads the job of a folder with PyYAML, writes the equations of integration by parts of its seeds, eliminates
them with dictionaries, the least equations first, and prints the table. It shares nothing with the program but the
rules that docs/FORMATS.md and docs/DEFINITIONS.md state, finds no fault of the input, and takes minutes where the
program takes seconds.
"""
import heapq
import itertools
import pathlib
import re
import sys

import yaml


class Job:
    """What the three files, the list files and the words say, with all values as residues modulo the prime."""

    def __init__(self, folder, words):
        folder = pathlib.Path(folder)
        kinematics = yaml.safe_load((folder / "config/kinematics.yaml").read_text())["kinematics"]
        families = yaml.safe_load((folder / "config/integralfamilies.yaml").read_text())["integralfamilies"]
        self.task = yaml.safe_load((folder / "jobs.yaml").read_text())["jobs"][0]["reduce_sectors"]
        point = {name: str(value) for name, value in self.task["numeric_point"].items()}
        point.update(word.split("=", 1) for word in words)
        self.prime = int(point["prime"])
        self.values = {name: self.value(point[name]) for name in point if name not in ("prime", "d")}
        one = kinematics.get("symbol_to_replace_by_one")
        if one:
            self.values[one] = 1
        self.dimension = self.value(point["d"])
        self.read_momenta(kinematics)
        self.products = self.solve_rules(kinematics.get("scalarproduct_rules") or [])
        self.families = [Family(self, entry) for entry in families]
        self.places = {entry["name"]: place for place, entry in enumerate(families)}
        self.folder = folder

    def value(self, text):
        """The residue of an expression over the invariants."""
        names = {name: Residue(value, self.prime) for name, value in getattr(self, "values", {}).items()}
        text = re.sub(r"\b(\d+)\b", r"number(\1)", str(text).replace("^", "**"))
        text = re.sub(r"\*\*\s*number\((\d+)\)", r"**\1", text)
        return eval(text, {"number": lambda n: Residue(n, self.prime)}, names).value

    def read_momenta(self, kinematics):
        external = list(kinematics.get("incoming_momenta") or []) + list(kinematics.get("outgoing_momenta") or [])
        self.conserved = None
        if "momentum_conservation" in kinematics:
            name, image = kinematics["momentum_conservation"]
            self.conserved = (name, momentum(image))
            external.remove(name)
        self.external = external

    def expand(self, text):
        """The coefficients of a momentum, with the conserved one replaced."""
        terms = momentum(text)
        if self.conserved and self.conserved[0] in terms:
            factor = terms.pop(self.conserved[0])
            for name, coefficient in self.conserved[1].items():
                terms[name] = terms.get(name, 0) + factor * coefficient
        return terms

    def solve_rules(self, rules):
        """The products of the independent external momenta."""
        pairs = list(itertools.combinations_with_replacement(self.external, 2))
        rows = []
        for (left, right), value in rules:
            row = {}
            for (one, c), (other, e) in itertools.product(self.expand(left).items(), self.expand(right).items()):
                pair = (one, other) if (one, other) in pairs else (other, one)
                row[pair] = (row.get(pair, 0) + c * e) % self.prime
            row[1] = -self.value(value) % self.prime
            rows.append(row)
        solution = solve(rows, pairs, self.prime)
        return {**solution, **{(b, a): value for (a, b), value in solution.items()}}


class Residue:
    def __init__(self, value, prime):
        self.value, self.prime = value % prime, prime

    def of(self, other):
        return Residue(other.value, self.prime)

    def __add__(self, other):
        return Residue(self.value + other.value, self.prime)

    def __sub__(self, other):
        return Residue(self.value - other.value, self.prime)

    def __mul__(self, other):
        return Residue(self.value * other.value, self.prime)

    def __truediv__(self, other):
        return Residue(self.value * pow(other.value, -1, self.prime), self.prime)

    def __pow__(self, exponent):
        return Residue(pow(self.value, exponent, self.prime), self.prime)

    def __neg__(self):
        return Residue(-self.value, self.prime)

    def __pos__(self):
        return self


def momentum(text):
    """The coefficient of each name in a sum of momenta."""
    terms = {}
    for sign, number, name in re.findall(r"([+-]?)\s*(?:(\d+)\s*\*\s*)?([A-Za-z]\w*)", str(text)):
        factor = int(number or 1) * (-1 if sign == "-" else 1)
        terms[name] = terms.get(name, 0) + factor
    return terms


def solve(rows, unknowns, prime):
    """The one solution of rows that are 0, where the key 1 has the constant."""
    rows, solved = [dict(row) for row in rows], {}
    for unknown in unknowns:
        row = next(row for row in rows if row.get(unknown, 0))
        rows.remove(row)
        factor = pow(row[unknown], -1, prime)
        row = {key: value * factor % prime for key, value in row.items()}
        for other in itertools.chain(rows, solved.values()):
            c = other.get(unknown, 0)
            if c:
                for key, value in row.items():
                    other[key] = (other.get(key, 0) - c * value) % prime
        solved[unknown] = row
    return {unknown: -row.get(1, 0) % prime for unknown, row in solved.items()}


class Family:
    def __init__(self, job, entry):
        self.job, self.name, self.loops = job, entry["name"], entry["loop_momenta"]
        self.momenta = self.loops + job.external
        self.denominators = [self.denominator(item) for item in entry["propagators"]]
        self.width = len(self.denominators)
        self.zero = entry.get("zero_sectors") or []
        self.maps = [self.permutation(images) for images in entry.get("symmetries") or []]
        self.rows = self.inverse()

    def denominator(self, item):
        """The two momenta of a product, and the squared mass."""
        if isinstance(item, dict):
            (left, right), mass = item["bilinear"]
            return self.job.expand(left), self.job.expand(right), self.job.value(mass)
        return self.job.expand(item[0]), self.job.expand(item[0]), self.job.value(item[1])

    def product(self, left, right):
        """The form of a product: coefficients of scalar products with a loop momentum, and a constant at 1."""
        form = {}
        for (one, c), (other, e) in itertools.product(left.items(), right.items()):
            if one in self.loops or other in self.loops:
                i, j = sorted((self.momenta.index(one), self.momenta.index(other)))
                key, value = (i, j), c * e
            else:
                key, value = 1, c * e * self.job.products[one, other]
            form[key] = (form.get(key, 0) + value) % self.job.prime
        return form

    def form(self, denominator):
        left, right, mass = denominator
        form = self.product(left, right)
        form[1] = (form.get(1, 0) - mass) % self.job.prime
        return form

    def inverse(self):
        """Each scalar product as a list c_0 .. c_N over 1 and the denominators."""
        prime = self.job.prime
        keys = [(i, j) for i in range(len(self.loops)) for j in range(i, len(self.momenta))]
        system = []
        for place, denominator in enumerate(self.denominators):
            form = self.form(denominator)
            combination = [0] * (self.width + 1)
            combination[0], combination[place + 1] = -form.pop(1, 0) % prime, 1
            system.append((form, combination))
        found = {}
        for key in keys:
            form, combination = next(row for row in system if row[0].get(key, 0))
            system = [row for row in system if row[0] is not form]
            factor = pow(form[key], -1, prime)
            form = {k: v * factor % prime for k, v in form.items()}
            combination = [c * factor % prime for c in combination]
            for other, result in itertools.chain(system, found.values()):
                c = other.get(key, 0)
                if c:
                    for k, v in form.items():
                        other[k] = (other.get(k, 0) - c * v) % prime
                    for k, v in enumerate(combination):
                        result[k] = (result[k] - c * v) % prime
            found[key] = (form, combination)
        return {key: combination for key, (form, combination) in found.items()}

    def in_denominators(self, form):
        total = [0] * (self.width + 1)
        for key, value in form.items():
            for k, c in enumerate(self.rows[key]) if key != 1 else [(0, 1)]:
                total[k] = (total[k] + value * c) % self.job.prime
        return total

    def derivative(self, loop, momentum_name, denominator):
        """c_0 .. c_N of the derivative of a denominator by a loop momentum, times a momentum."""
        left, right, _ = denominator
        form, q = {}, {momentum_name: 1}
        for one, other in ((left, right), (right, left)):
            for key, value in self.product(q, other).items():
                form[key] = (form.get(key, 0) + one.get(loop, 0) * value) % self.job.prime
        return self.in_denominators(form)

    def permutation(self, images):
        def image(part):
            result = {}
            for name, c in part.items():
                for other, e in (self.job.expand(images[name]) if name in images else {name: 1}).items():
                    result[other] = result.get(other, 0) + c * e
            return result

        def clean(form):
            return {key: value for key, value in form.items() if value}

        forms = [clean(self.form(denominator)) for denominator in self.denominators]
        return [forms.index(clean(self.form((image(left), image(right), mass)))) for left, right, mass in self.denominators]

    def is_zero(self, sector):
        return sector == 0 or any(sector & listed == sector for listed in self.zero)


def sector_of(indices):
    return sum(1 << place for place, index in enumerate(indices) if index > 0)


def key_of(integral):
    """Integrals are compared by these parts, one after another."""
    family, indices = integral
    positive = [index for index in indices if index > 0]
    s = -sum(index for index in indices if index < 0)
    return len(positive), family, sector_of(indices), sum(positive), s, indices


def compositions(total, parts):
    """All ways to write a total as so many numbers from 0 on."""
    if parts == 0:
        if total == 0:
            yield ()
        return
    for first in range(total + 1):
        for rest in compositions(total - first, parts - 1):
            yield (first,) + rest


def seeds_of(job, specs):
    found = set()
    for spec in specs:
        for name, sector in itertools.product(spec["topologies"], spec["sectors"]):
            place = job.places[name]
            family = job.families[place]
            for sub in range(1, sector + 1):
                if sub & sector != sub or family.is_zero(sub):
                    continue
                t = bin(sub).count("1")
                dots = min(spec["r"] - t, spec.get("d", spec["r"]))
                for up, down in itertools.product(range(dots + 1), range(spec["s"] + 1)):
                    for raised, lowered in itertools.product(compositions(up, t), compositions(down, family.width - t)):
                        highs, lows = iter(raised), iter(lowered)
                        found.add((place, tuple(1 + next(highs) if sub >> j & 1 else -next(lows) for j in range(family.width))))
    return sorted(found, key=key_of)


def equations_of(job, seeds):
    prime = job.prime
    for place, seed in seeds:
        family = job.families[place]

        def add(row, indices, coefficient):
            if not family.is_zero(sector_of(indices)):
                row[place, indices] = (row.get((place, indices), 0) + coefficient) % prime

        def shifted(indices, j, by):
            return indices[:j] + (indices[j] + by,) + indices[j + 1 :]

        for loop, q in itertools.product(family.loops, family.momenta):
            row = {}
            if q == loop:
                add(row, seed, job.dimension)
            for j, denominator in enumerate(family.denominators):
                if seed[j]:
                    raised = shifted(seed, j, 1)
                    for k, c in enumerate(family.derivative_table(loop, q, j, denominator)):
                        add(row, raised if k == 0 else shifted(raised, k - 1, -1), -seed[j] * c)
            yield {x: c for x, c in row.items() if c}
        for sigma in family.maps:
            image = [0] * family.width
            for j, to in enumerate(sigma):
                image[to] = seed[j]
            row = {}
            add(row, seed, 1)
            add(row, tuple(image), -1)
            yield {x: c for x, c in row.items() if c}


def derivative_table(self, loop, q, j, denominator):
    table = self.__dict__.setdefault("derivatives", {})
    if (loop, q, j) not in table:
        table[loop, q, j] = self.derivative(loop, q, denominator)
    return table[loop, q, j]


Family.derivative_table = derivative_table


class Greatest:
    """An integral in a heap, from which the greatest comes first."""

    __slots__ = ("key", "integral")

    def __init__(self, integral):
        self.key, self.integral = key_of(integral), integral

    def __lt__(self, other):
        return self.key > other.key


def reduced(row, pivots, prime):
    """The row without the pivots, from its greatest integral down."""
    row, heap = dict(row), [Greatest(x) for x in row]
    heapq.heapify(heap)
    while heap:
        x = heapq.heappop(heap).integral
        c = row.get(x, 0)
        if c and x in pivots:
            for y, e in pivots[x].items():
                if y not in row:
                    heapq.heappush(heap, Greatest(y))
                row[y] = (row.get(y, 0) - c * e) % prime
    return {x: c for x, c in row.items() if c}


def solve_system(rows, prime):
    """For each pivot its row, with the coefficient 1 at the pivot."""
    pivots = {}
    rows = [row for row in rows if row]
    rows.sort(key=lambda row: (max(map(key_of, row)), len(row)))
    for row in rows:
        row = reduced(row, pivots, prime)
        if row:
            x = max(row, key=key_of)
            factor = pow(row[x], -1, prime)
            pivots[x] = {y: c * factor % prime for y, c in row.items()}
    for x in sorted(pivots, key=key_of):
        rest = {y: c for y, c in pivots[x].items() if y != x}
        pivots[x] = {x: 1, **reduced(rest, pivots, prime)}
    return pivots


def selection_of(job):
    select = job.task["select_integrals"]
    chosen = set(seeds_of(job, select.get("select_mandatory_recursively") or []))
    for name, file in select.get("select_mandatory_list") or []:
        for line in (job.folder / file).read_text().splitlines():
            found = re.match(r"\s*\w+\s*\[(.*)\]", line.split("#")[0])
            if found:
                chosen.add((job.places[name], tuple(int(part) for part in found.group(1).split(","))))
    return sorted(chosen, key=key_of)


def table(job):
    prime = job.prime
    pivots = solve_system(equations_of(job, seeds_of(job, job.task["reduce"])), prime)
    masters, lines = set(), []

    def text(integral):
        return f"{job.families[integral[0]].name}[{','.join(map(str, integral[1]))}]"

    for x in selection_of(job):
        if job.families[x[0]].is_zero(sector_of(x[1])):
            form = {}
        elif x in pivots:
            form = {y: -c % prime for y, c in pivots[x].items() if y != x}
        else:
            form = {x: 1}
        masters.update(form)
        terms = [f"{form[y]}*{text(y)}" for y in sorted(form, key=key_of, reverse=True)]
        lines.append(f"{text(x)} = {' + '.join(terms) or '0'}")
    return "\n".join(lines + [f"masters {len(masters)}"] + [text(y) for y in sorted(masters, key=key_of)]) + "\n"


if __name__ == "__main__":
    sys.stdout.write(table(Job(sys.argv[1], sys.argv[2:])))
