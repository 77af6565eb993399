"""Reads the job of a folder for the tools beside the program, and counts its seeds by binomials.

It finds no faults of the files, which the program names, and needs PyYAML. A set of sectors is a number that has the
bit 2^S for each sector S.
"""
import functools
import math
import pathlib
import re
import sys

MOST_WIDTH, MOST_BOUND = 20, 100


def count_bits(sectors):
    return bin(sectors).count("1")


@functools.lru_cache(None)
def sectors_with(bit, width):
    """The sectors that have this bit."""
    found = ((1 << (1 << bit)) - 1) << (1 << bit)
    for higher in range(bit + 1, width):
        found |= found << (1 << higher)
    return found


def below(sectors, width):
    """The subsectors of these sectors."""
    found = 0
    for sector in map(int, sectors):
        if not 0 <= sector < 1 << width:
            raise ValueError(f"no sector {sector} of {width} denominators")
        found |= 1 << sector
    for bit in range(width):
        found |= (found & sectors_with(bit, width)) >> (1 << bit)
    return found


@functools.lru_cache(None)
def layers(width):
    """For each t the sectors with t denominators."""
    sets = [1] + [0] * width
    for bit in range(width):
        sets = [sets[0]] + [sets[t] | sets[t - 1] << (1 << bit) for t in range(1, width + 1)]
    return sets


class Family:
    """What the counts ask of a family: equations for a seed, the bound on their terms, and the zero sectors."""

    def __init__(self, entry, externals):
        loops, self.width = len(entry["loop_momenta"]), len(entry["propagators"])
        if self.width > MOST_WIDTH:
            raise ValueError(f"more than {MOST_WIDTH} denominators")
        self.name, self.loops = entry["name"], loops
        self.rows = loops * (loops + externals) + len(entry.get("symmetries") or [])
        self.terms = self.rows * (self.width**2 + self.width + 1)
        self.zero = below([0, *(entry.get("zero_sectors") or [])], self.width)


class Item:
    """What one item asks of one family."""

    def __init__(self, family, entry, most_dots=MOST_BOUND):
        self.family, self.entry = family, entry
        self.r, self.s = int(entry["r"]), int(entry["s"])
        self.dots = min(int(entry.get("d", MOST_BOUND)), most_dots)
        self.sectors = below(entry["sectors"], family.width) & ~family.zero

    def holds(self, t, dots, s):
        return dots <= min(self.r - t, self.dots) and s <= self.s


def sectors_of(items):
    return functools.reduce(lambda left, item: left | item.sectors, items, 0)


def in_layer(width, t, parts):
    """How many integrals with t denominators the parts hold, each counted once.

    A part is a bound on dots, a bound on s, and sectors. In each sector a number of dots comes with the greatest s that
    a part gives it."""
    total, before = 0, -1
    for dots in sorted({part[0] for part in parts if part[0] >= 0}):
        seen = numerators = 0
        for _, s, sectors in sorted((part for part in parts if part[0] >= dots), key=lambda part: -part[1]):
            numerators += count_bits(sectors & ~seen) * math.comb(s + width - t, s)
            seen |= sectors
        total += numerators * (math.comb(dots + t, t) - math.comb(before + t, t))
        before = dots
    return total


def seeds_of(family, items, within=-1):
    """How many integrals of the family the items hold in these sectors, each counted once."""
    merged = {}
    for item in items:
        bounds = item.r, item.dots, item.s
        merged[bounds] = merged.get(bounds, 0) | item.sectors & within
    total = 0
    for t, layer in enumerate(layers(family.width)):
        parts = [(min(r - t, dots), s, sectors & layer) for (r, dots, s), sectors in merged.items()]
        total += in_layer(family.width, t, [part for part in parts if part[2]])
    return total


class Job:
    """The items of a job and the integrals of its list files."""

    def __init__(self, folder, file, read):
        kinematics = read(folder / "config/kinematics.yaml")["kinematics"]
        momenta = [*(kinematics.get("incoming_momenta") or []), *(kinematics.get("outgoing_momenta") or [])]
        externals = len(momenta) - ("momentum_conservation" in kinematics)
        entries = read(folder / "config/integralfamilies.yaml")["integralfamilies"]
        self.families = {entry["name"]: Family(entry, externals) for entry in entries}
        task = read(folder / file)["jobs"][0]["reduce_sectors"]
        select = task.get("select_integrals") or {}
        self.reduce = self.items(task["reduce"])
        self.select = self.items(select.get("select_mandatory_recursively") or [])
        self.listed = set()
        for name, list_file in select.get("select_mandatory_list") or []:
            for line in (folder / list_file).read_text().splitlines():
                found = re.match(r"\s*\w+\s*\[(.*)\]", line.split("#")[0])
                if found:
                    self.listed.add((name, tuple(map(int, found[1].split(",")))))

    def items(self, entries):
        return [Item(self.families[name], entry) for entry in entries for name in entry["topologies"]]

    def held(self, items, master, dots=0, s=0):
        """Whether one of the items holds an integral with so many dots and numerators more than this one."""
        name, indices = master
        positive = [index for index in indices if index > 0]
        sector, t = sum(1 << place for place, index in enumerate(indices) if index > 0), len(positive)
        dots, s = dots + sum(positive) - t, s - sum(index for index in indices if index < 0)
        inside = [item for item in items if item.family.name == name and item.sectors >> sector & 1]
        return any(item.holds(t, dots, s) for item in inside)

    def mark(self, master):
        """Why a listed master may be one only for want of equations; empty where nothing says so."""
        name, indices = master
        if name not in self.families or self.families[name].width != len(indices):
            return "of no family of the job"
        if not self.held(self.reduce, master):
            return "no seed"
        edges = [] if self.held(self.reduce, master, dots=1) else ["r"]
        if min(indices) <= 0 and not self.held(self.reduce, master, s=1):
            edges.append("s")
        return f"at the edge of {' and '.join(edges)}" if edges else ""

    def total(self, items):
        """The seeds, equations and terms of all these items."""
        counts = []
        for family in self.families.values():
            seeds = seeds_of(family, [item for item in items if item.family is family])
            counts.append((seeds, seeds * family.rows, seeds * family.terms))
        return tuple(map(sum, zip(*counts)))

    def selected(self):
        chosen = self.total(self.select)[0]
        return chosen + sum(not self.held(self.select, integral) for integral in self.listed)


def refuse(text):
    print(text, file=sys.stderr)
    sys.exit(2)


def load(folder, file="jobs.yaml"):
    """The job of a folder, or the end of this run with a line that says why there is none."""
    try:
        import yaml
    except ImportError:
        refuse("PyYAML is missing: Debian has it as python3-yaml")
    try:
        return Job(pathlib.Path(folder), file, lambda name: yaml.load(name.read_text(), Loader=yaml.BaseLoader))
    except (OSError, yaml.YAMLError, LookupError, TypeError, ValueError, AttributeError) as fault:
        what = " ".join(f"{type(fault).__name__}: {fault}".split())
        refuse(f"{folder}: no job that can be read; the program names its faults ({what})")
