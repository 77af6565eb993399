"""Reads a job's files for the tools: families whose momenta are vectors of coefficients, all values at the job's point.

It needs PyYAML, finds few faults of the input, and nothing that it says is trusted by the program. The rules that it
follows are those of docs/FORMATS.md.
"""
import ast
import itertools
import operator
import pathlib
import re
import sys

try:
    import yaml
except ImportError:
    print("PyYAML is missing: Debian's package python3-yaml has it", file=sys.stderr)
    sys.exit(2)

OPERATIONS = {ast.Add: operator.add, ast.Sub: operator.sub, ast.Mult: operator.mul}


class Fault(Exception):
    """What is wrong with a job, in one line."""


class Job:
    """The prime, the products of the independent external momenta, and the families."""

    def __init__(self, folder, words):
        folder = pathlib.Path(folder)
        kinematics = loaded(folder / "config/kinematics.yaml")["kinematics"]
        families = loaded(folder / "config/integralfamilies.yaml")["integralfamilies"]
        point = dict(loaded(folder / "jobs.yaml")["jobs"][0]["reduce_sectors"]["numeric_point"] or {})
        point.update(pair_of(word) for word in words)
        self.prime = prime_of(asked(point, "prime"))
        self.values = self.values_at(point, kinematics)
        self.conserved, self.external = None, names_of(kinematics)
        if "momentum_conservation" in kinematics:
            name, image = kinematics["momentum_conservation"]
            self.external.remove(name)
            self.conserved = name, self.vector(image, self.external)
        self.products = self.solved_rules(kinematics.get("scalarproduct_rules") or [])
        self.families = [Family(self, entry) for entry in families]

    def values_at(self, point, kinematics):
        """The residue of each invariant at the numeric point."""
        one = kinematics.get("symbol_to_replace_by_one")
        names = [name for name, _ in kinematics.get("kinematic_invariants") or []]
        unknown = [name for name in point if name not in (*names, "prime", "d")]
        if unknown:
            raise Fault(f"{unknown[0]} is no invariant")
        return {name: 1 if name == one else residue(asked(point, name), {}, self.prime) for name in names}

    def value(self, text):
        return residue(text, self.values, self.prime)

    def vector(self, text, names):
        """The coefficients of a momentum over these names, of which the last are the independent external ones."""
        total = [0] * len(names)
        for sign, number, name in re.findall(r"([+-]?)\s*(?:(\d+)\s*\*\s*)?([A-Za-z]\w*)", text):
            factor = int(number or 1) * (-1 if sign == "-" else 1)
            if name in names:
                total[names.index(name)] += factor
            elif self.conserved and name == self.conserved[0]:
                for place, coefficient in enumerate(self.conserved[1], len(names) - len(self.external)):
                    total[place] += factor * coefficient
            else:
                raise Fault(f"{name} is no momentum")
        return total

    def solved_rules(self, rules):
        """The products of the independent external momenta, as a table."""
        places = range(len(self.external))
        pairs = list(itertools.combinations_with_replacement(places, 2))
        rows = []
        for (left, right), value in rules:
            left, right = self.vector(left, self.external), self.vector(right, self.external)
            row = [left[i] * right[j] + (left[j] * right[i] if i != j else 0) for i, j in pairs]
            rows.append([*row, self.value(value)])
        pivots = eliminated(rows, self.prime)
        if pivots is None:
            raise Fault("the scalar product rules contradict each other")
        if len(pivots) < len(pairs):
            raise Fault("the scalar product rules leave a product open")
        found = [0] * len(pairs)
        for column, row in reversed(pivots.items()):
            found[column] = (row[-1] - sum(map(operator.mul, row, found))) % self.prime
        return [[found[pairs.index((min(i, j), max(i, j)))] for j in places] for i in places]


class Family:
    """A denominator is the product of two momenta less a value; momenta are vectors over the loop and external ones."""

    def __init__(self, job, entry):
        self.job, self.name, self.loops = job, entry["name"], entry["loop_momenta"]
        self.momenta = self.loops + job.external
        self.denominators = [self.denominator(item) for item in entry["propagators"]]
        self.width = len(self.denominators)
        tops = entry.get("top_level_sectors") or [2**self.width - 1]
        self.top_sectors = [int(sector) for sector in tops]
        self.zero_sectors = [int(sector) for sector in entry.get("zero_sectors") or []]
        self.symmetries = [self.images(named) for named in entry.get("symmetries") or []]

    def denominator(self, item):
        momenta, value = item["bilinear"] if isinstance(item, dict) else ([item[0], item[0]], item[1])
        left, right = (self.job.vector(text, self.momenta) for text in momenta)
        return left, right, self.job.value(value)

    def images(self, named):
        """The image of each loop momentum."""
        return [self.job.vector(named.get(name, name), self.momenta) for name in self.loops]

    def external_product(self, left, right):
        """The product of the external parts of two momenta."""
        first, total = len(self.loops), 0
        for row, c in zip(self.job.products, left[first:]):
            total += c * sum(map(operator.mul, row, right[first:]))
        return total % self.job.prime


def loaded(file):
    """The tree of a file, with texts as its leaves."""
    try:
        return yaml.load(file.read_text(), Loader=yaml.BaseLoader)
    except OSError:
        raise Fault(f"{file}: no such file") from None
    except (yaml.YAMLError, UnicodeDecodeError):
        raise Fault(f"{file}: not YAML") from None


def pair_of(word):
    name, equals, value = word.partition("=")
    if not equals:
        raise Fault(f"{word} isn't NAME=VALUE")
    return name, value


def asked(point, name):
    if name not in point:
        raise Fault(f"no value given for {name}")
    return point[name]


def prime_of(text):
    if not re.fullmatch("[0-9]*[13579]", text) or int(text) < 3:
        raise Fault(f"the prime {text} is no odd number from 3 on")
    return int(text)


def names_of(kinematics):
    return [*(kinematics.get("incoming_momenta") or []), *(kinematics.get("outgoing_momenta") or [])]


def residue(text, names, prime):
    """The residue of an expression over names with residues."""
    plain = re.sub(r"\b0+(?=\d)", "", text.replace("^", "**").strip())
    try:
        return computed(ast.parse(plain, mode="eval").body, names, prime)
    except (SyntaxError, TypeError, ValueError, KeyError, AttributeError):
        raise Fault(f"{text} is no expression over the invariants") from None


def inverse(value, prime):
    try:
        return pow(value, -1, prime)
    except ValueError:
        raise Fault(f"{value} has no inverse modulo {prime}") from None


def computed(tree, names, prime):
    if isinstance(tree, ast.Constant):
        return tree.value % prime
    if isinstance(tree, ast.Name):
        return names[tree.id]
    if isinstance(tree, ast.UnaryOp):
        value = computed(tree.operand, names, prime)
        return -value % prime if isinstance(tree.op, ast.USub) else value
    left = computed(tree.left, names, prime)
    if isinstance(tree.op, ast.Pow):
        return pow(left, tree.right.value, prime)
    right = computed(tree.right, names, prime)
    if isinstance(tree.op, ast.Div):
        return left * inverse(right, prime) % prime
    return OPERATIONS[type(tree.op)](left, right) % prime


def eliminated(rows, prime):
    """An echelon form of equations whose last column is the right side, by the column of each pivot.

    None where they have no solution. Each row has zeros at the pivots that were found before it.
    """
    pivots = {}
    for row in rows:
        row = [entry % prime for entry in row]
        for column, pivot in pivots.items():
            c = row[column]
            if c:
                row = [(a - c * b) % prime for a, b in zip(row, pivot)]
        column = next((place for place, entry in enumerate(row) if entry), None)
        if column == len(row) - 1:
            return None
        if column is not None:
            factor = inverse(row[column], prime)
            pivots[column] = [entry * factor % prime for entry in row]
    return pivots


def run(usage, work):
    """Ends with the status of the work on the job that the words name, or with 2 and a line where it can't be read."""
    if len(sys.argv) < 2 or sys.argv[1].startswith("-"):
        print(f"usage: {usage}", file=sys.stderr)
        sys.exit(2)
    try:
        status = work(Job(sys.argv[1], sys.argv[2:]))
    except Fault as fault:
        print(fault, file=sys.stderr)
        sys.exit(2)
    except (KeyError, IndexError, TypeError, ValueError, AttributeError) as error:
        print(f"the job's files aren't of their form: {type(error).__name__} {error}", file=sys.stderr)
        sys.exit(2)
    sys.exit(status)
