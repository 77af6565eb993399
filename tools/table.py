#!/usr/bin/env python3
"""Reads a table that the program printed, and shows it in other forms.

    tools/table.py TABLE [--job FOLDER]             how many masters each sector has, and the masters
    tools/table.py TABLE --csv | --json | --form    the whole table
    tools/table.py TABLE --compare OTHER            the masters of two tables of one job, at two points

TABLE is a file, or - for the standard input. With --job, which needs PyYAML, a master is marked that is no seed of the
job in this folder, or has no seed with a greater r or s beside it: it may be listed for want of equations. A row of
--csv is an integral, a coefficient and a master; coefficients of --json are texts, since many readers round numbers
above 2^53. It ends with 1 where the masters of two tables differ, and with 2 where a text is no table.
"""
import argparse
import collections
import csv
import io
import json
import pathlib
import re
import sys

import job_seeds

NUMBER = "(?:0|-?[1-9][0-9]*)"
INTEGRAL = rf"([A-Za-z][A-Za-z0-9_]{{0,31}})\[({NUMBER}(?:,{NUMBER})*)\]"
TERM = rf"([1-9][0-9]*)\*{INTEGRAL}"


class NoTable(Exception):
    """The first line at fault, from 1, and what is wrong there."""

    def __init__(self, line, what):
        super().__init__(f"{line}: {what}")
        self.line, self.what = line, what


def integral_of(name, indices):
    return name, tuple(map(int, indices.split(",")))


def read_integral(text, line):
    found = re.fullmatch(INTEGRAL, text)
    if not found:
        raise NoTable(line, "not an integral")
    return integral_of(*found.groups())


def read_line(text, line):
    """The left side of a line, and the coefficients and integrals of its right side."""
    left, sign, right = text.partition(" = ")
    if not sign:
        raise NoTable(line, "neither INTEGRAL = .. nor masters N")
    found = [re.fullmatch(TERM, term) for term in right.split(" + ")] if right != "0" else []
    if None in found:
        raise NoTable(line, "a right side that is neither 0 nor a sum of coefficient*integral")
    terms = [(int(term[1]), integral_of(term[2], term[3])) for term in found]
    if len({integral for _, integral in terms}) < len(terms):
        raise NoTable(line, "an integral twice on the right side")
    return read_integral(left, line), terms


def check_masters(forms, masters, first):
    """The masters, listed from the line `first` on, are those that the right sides show, and no line reduces one."""
    listed, shown = set(masters), set()
    for line, (left, terms) in enumerate(forms.items(), 1):
        shown.update(integral for _, integral in terms)
        missing = [text_of(integral) for _, integral in terms if integral not in listed]
        if missing:
            raise NoTable(line, f"{missing[0]} isn't listed as a master")
        if left in listed and terms != [(1, left)]:
            raise NoTable(line, "a listed master that is reduced")
    for line, master in enumerate(masters, first):
        if master not in shown:
            raise NoTable(line, "a listed master that no line shows")


def check_widths(integrals):
    widths = {}
    for line, (name, indices) in integrals:
        if widths.setdefault(name, len(indices)) != len(indices):
            raise NoTable(line, f"more or fewer indices than {name} has on lines before")


def read_table(text):
    """The right side of each left side, and the masters; an integral is its family's name and its indices."""
    *lines, rest = text.split("\n")
    end = next((place for place, line in enumerate(lines) if line.startswith("masters ")), len(lines))
    forms, integrals = {}, []
    for line, words in enumerate(lines[:end], 1):
        left, terms = read_line(words, line)
        if left in forms:
            raise NoTable(line, "an integral that a line before has")
        forms[left] = terms
        integrals += [(line, left)] + [(line, integral) for _, integral in terms]
    if end == len(lines):
        raise NoTable(end + 1, "the line masters N is missing")
    if not re.fullmatch("masters (0|[1-9][0-9]*)", lines[end]):
        raise NoTable(end + 1, "not masters N")
    masters = [read_integral(words, line) for line, words in enumerate(lines[end + 1 :], end + 2)]
    count = int(lines[end].split()[1])
    if len(masters) < count or rest:
        what = "text behind the table" if len(masters) >= count else "a master is missing or its line has no end"
        raise NoTable(len(lines) + 1, what)
    if len(masters) > count or len(set(masters)) < count:
        raise NoTable(end + 1, f"{len(masters)} lines with {len(set(masters))} masters behind it")
    check_widths(integrals)
    check_masters(forms, masters, end + 2)
    return forms, masters


def text_of(integral):
    return f"{integral[0]}[{','.join(map(str, integral[1]))}]"


def write_table(forms, masters):
    """The text that was read."""
    sums = [" + ".join(f"{c}*{text_of(x)}" for c, x in terms) or "0" for terms in forms.values()]
    lines = [f"{text_of(left)} = {right}" for left, right in zip(forms, sums)]
    return "\n".join(lines + [f"masters {len(masters)}"] + [text_of(x) for x in masters]) + "\n"


def as_csv(forms):
    """A row for each integral and master; an integral that is 0 has one row with no master."""
    text = io.StringIO()
    writer = csv.writer(text, lineterminator="\n")
    writer.writerow(["integral", "coefficient", "master"])
    for left, terms in forms.items():
        writer.writerows([text_of(left), c, text_of(x)] for c, x in terms)
        if not terms:
            writer.writerow([text_of(left), 0, ""])
    return text.getvalue()


def as_json(forms, masters):
    reduced = {text_of(left): {text_of(x): str(c) for c, x in terms} for left, terms in forms.items()}
    return json.dumps({"integrals": reduced, "masters": [text_of(x) for x in masters]}, indent=1) + "\n"


def as_form(forms):
    """Statements of FORM. None stands for a master, which `repeat` would replace by itself for ever."""

    def call(integral):
        name, indices = integral
        name = f"[{name}]" if "_" in name else name
        return f"{name}({','.join(map(str, indices))})"

    names = sorted({call(left).partition("(")[0] for left in forms})
    lines = ["* Coefficients are residues modulo the job's prime.", f"* CFunctions {', '.join(names)};"]
    for left, terms in forms.items():
        if terms != [(1, left)]:
            lines.append(f"id {call(left)} = {' + '.join(f'{c}*{call(x)}' for c, x in terms) or '0'};")
    return "\n".join(lines) + "\n"


def sector_of(indices):
    return sum(1 << place for place, index in enumerate(indices) if index > 0)


def summary(forms, masters, mark):
    """How many masters each sector has, and the masters, each with its mark."""
    counts = collections.Counter((name, sector_of(indices)) for name, indices in masters)
    lines = [f"{len(forms)} integrals, {sum(not terms for terms in forms.values())} of them 0"]
    lines += [f"{name} sector {sector}: {count}" for (name, sector), count in counts.items()]
    lines.append(f"masters {len(masters)}")
    lines += [f"{text_of(x)}  {mark(x)}".rstrip() for x in masters]
    if any(map(mark, masters)):
        lines.append("A marked master may be listed for want of equations: raise r, s or d under reduce.")
    return "\n".join(lines) + "\n"


def compared(one, other):
    """The masters of two tables side by side, and whether they are the same."""
    order = [x for x in one[1]] + [x for x in other[1] if x not in one[1]]
    columns = [[text_of(x) if x in table[1] else "-" for x in order] for table in (one, other)]
    width = max(map(len, columns[0]), default=1)
    lines = [f"{left:{width}}  {right}" for left, right in zip(*columns)]
    same = set(one[1]) == set(other[1])
    shown = [{left: {x for _, x in terms} for left, terms in table[0].items()} for table in (one, other)]
    others = sum(shown[0][left] != shown[1].get(left) for left in shown[0])
    lines.append("the masters are the same" if same else "the masters differ: one of the points may be special")
    if same and others:
        lines.append(f"{others} integrals show fewer of them in one table: one of the points may be special")
    return "\n".join(lines) + "\n", same


def load(name):
    """The table of a file, or the end of this run with the first line at fault."""
    try:
        data = sys.stdin.buffer.read() if name == "-" else pathlib.Path(name).read_bytes()
        return read_table(data.decode("ascii", "replace"))
    except (NoTable, OSError) as fault:
        print(f"{name}:{fault}", file=sys.stderr)
        sys.exit(2)


def main():
    parser = argparse.ArgumentParser(description=__doc__, formatter_class=argparse.RawDescriptionHelpFormatter)
    parser.add_argument("table")
    for form in ("csv", "json", "form"):
        parser.add_argument(f"--{form}", action="store_true")
    parser.add_argument("--job", metavar="FOLDER")
    parser.add_argument("--compare", metavar="OTHER")
    words = parser.parse_args()
    if sum(map(bool, (words.csv, words.json, words.form, words.job, words.compare))) > 1:
        parser.error("at most one of --csv, --json, --form, --job and --compare")
    forms, masters = load(words.table)
    if words.compare:
        other = load(words.compare)
        if set(other[0]) != set(forms):
            parser.error("the tables don't have the same integrals on the left, so they aren't of one job")
        text, same = compared((forms, masters), other)
        sys.stdout.write(text)
        sys.exit(0 if same else 1)
    if words.csv or words.json or words.form:
        sys.stdout.write(as_csv(forms) if words.csv else as_json(forms, masters) if words.json else as_form(forms))
        return
    sys.stdout.write(summary(forms, masters, job_seeds.load(words.job).mark if words.job else lambda master: ""))


if __name__ == "__main__":
    main()
