#!/usr/bin/env python3
"""Tests of tools/find_sectors.py and tools/find_symmetries.py:

    python3 -B tools/test_finders.py

The expected sectors and symmetries are those that the examples list, and some by hand.
"""
import os
import pathlib
import shutil
import subprocess
import sys
import tempfile
import unittest

import feynman_parameters
import find_sectors
import find_symmetries
import job_files

TOOLS = pathlib.Path(__file__).resolve().parent
EXAMPLES = TOOLS.parent / "examples"
sys.path.append(str(EXAMPLES))
import reference  # noqa: E402

KINEMATICS = """kinematics:
  incoming_momenta: [p1]
  outgoing_momenta: [p2]
  momentum_conservation: [p2, p1]
  kinematic_invariants: [[s, 2], [m2, 2], [w, 1], [unit, 2]]
  symbol_to_replace_by_one: unit
  scalarproduct_rules:
    - [[p1,p2], s]
"""
JOBS = """jobs:
  - reduce_sectors:
      reduce: [{topologies: [fam], sectors: [3], r: 5, s: 1}]
      select_integrals: {select_mandatory_recursively: [{topologies: [fam], sectors: [3], r: 3, s: 0}]}
      numeric_point: {prime: 10007, d: 7/3, s: 4, m2: 3/2, w: 5}
"""
LINEAR = '[["k1", {}], {{bilinear: [["k1", "p1"], {}]}}]'


def job_with(reader, loops, propagators, *words):
    """The job of one family with these propagators, by one of the two readers: s = 4, m2 = 3/2, w = 5 modulo 10007."""
    family = f"integralfamilies:\n  - name: fam\n    loop_momenta: {loops}\n    propagators: {propagators}\n"
    with tempfile.TemporaryDirectory() as place:
        folder = pathlib.Path(place)
        (folder / "config").mkdir()
        (folder / "jobs.yaml").write_text(JOBS)
        (folder / "config/kinematics.yaml").write_text(KINEMATICS)
        (folder / "config/integralfamilies.yaml").write_text(family)
        return reader(folder, words)


def family_at(loops, propagators, *words):
    return job_with(job_files.Job, loops, propagators, *words).families[0]


def example_families():
    for folder in sorted(file.parent for file in EXAMPLES.glob("*/expected")):
        for family in job_files.Job(folder, []).families:
            yield folder, family


def below_one(sector, listed):
    return any(sector & other == sector for other in listed)


def run_on(tool, folder, **environment):
    words = [sys.executable, "-B", str(TOOLS / tool), str(folder)]
    return subprocess.run(words, capture_output=True, text=True, env={**os.environ, **environment})


class Sectors(unittest.TestCase):
    def test_examples(self):
        """All sectors below a listed one are zero, and no others within the top level sectors."""
        met = 0
        for folder, family in example_families():
            found = find_sectors.zero_sectors(family)
            with self.subTest(folder.name):
                self.assertTrue(all(below_one(sector, found) for sector in family.zero_sectors))
                self.assertTrue(all(below_one(sector, family.zero_sectors) for sector in found))
                self.assertFalse([one for one in found if below_one(one, set(found) - {one})])
            met += 1
        self.assertGreaterEqual(met, 11)

    def test_line_to_paste(self):
        ended = run_on("find_sectors.py", EXAMPLES / "triangle_massless")
        self.assertEqual((ended.returncode, ended.stdout, ended.stderr), (0, "# tri\n    zero_sectors: [3, 5]\n", ""))

    def test_warning(self):
        """Sector 6 of the triangle is the bubble with momentum p1 + p2, whose square is s."""
        with tempfile.TemporaryDirectory() as place:
            folder = pathlib.Path(shutil.copytree(EXAMPLES / "triangle_massless", place, dirs_exist_ok=True))
            file = folder / "config/integralfamilies.yaml"
            text = file.read_text()
            self.assertIn("[3, 5]", text)
            file.write_text(text.replace("[3, 5]", "[3, 5, 6]"))
            ended = run_on("find_sectors.py", folder)
        self.assertEqual((ended.returncode, ended.stderr), (1, "tri: sector 6 is listed and isn't zero\n"))
        self.assertIn("zero_sectors: [3, 5]\n", ended.stdout)

    def test_tadpoles(self):
        propagators = '[["k1", m2], ["k1+p1", 0]]'
        self.assertEqual(find_sectors.zero_sectors(family_at("[k1]", propagators)), [2])
        self.assertEqual(find_sectors.zero_sectors(family_at("[k1]", propagators, "m2=0")), [1, 2])
        self.assertEqual(find_sectors.zero_sectors(family_at("[k1]", propagators, "m2=0", "s=0")), [3])

    def test_linear_propagator(self):
        """G is x1 + x2² s/4 + w x1 x2 + m x1²: with w or m it has three monomials that no k serves."""
        for mass, value, expected in (("0", "w", [1, 2]), ("m2", "0", [2]), ("m2", "w", [2]), ("0", "0", [3])):
            with self.subTest(mass=mass, value=value):
                family = family_at("[k1]", LINEAR.format(mass, value))
                self.assertEqual(find_sectors.zero_sectors(family), expected)

    def test_linear_propagator_by_equations(self):
        """The equations alone, of which no sector is left out, show the integrals of these sectors to be 0."""
        for mass, value in (("0", "w"), ("m2", "0"), ("m2", "w"), ("0", "0")):
            propagators = LINEAR.format(mass, value)
            listed = find_sectors.zero_sectors(family_at("[k1]", propagators))
            rows = reference.table(job_with(reference.Job, "[k1]", propagators)).splitlines()
            rows = [row.split(" = ") for row in rows if " = " in row]
            self.assertEqual(len(rows), 9)
            for integral, form in rows:
                indices = [int(index) for index in integral[4:-1].split(",")]
                with self.subTest(integral, mass=mass, value=value):
                    self.assertEqual(form == "0", below_one(reference.sector_of(indices), listed))

    def test_large_prime(self):
        """It is a prime, by Lucas and Lehmer's test of 2^61 - 1."""
        value = 4
        for _ in range(59):
            value = (value * value - 2) % find_sectors.LARGE_PRIME
        self.assertEqual((value, find_sectors.LARGE_PRIME), (0, 2**61 - 1))


class Polynomials(unittest.TestCase):
    def test_linear_propagator(self):
        family = family_at("[k1]", '[["k1", m2], {bilinear: [["k1", "p1"], w]}]', "m2=3")
        u, f = feynman_parameters.u_and_f(family, 3)
        self.assertEqual(u, {(1, 0): 1})
        self.assertEqual(f, {(0, 2): 1, (1, 1): 5, (2, 0): 3})
        self.assertEqual(feynman_parameters.u_and_f(family, 2)[0], {})

    def test_replaced_by_one(self):
        u, f = feynman_parameters.u_and_f(family_at("[k1]", '[["k1", unit], ["k1+p1", 0]]'), 1)
        self.assertEqual((u, f), ({(1,): 1}, {(2,): 1}))

    def test_sunrise(self):
        """U = x1 x2 + x1 x3 + x2 x3 and F = m2 (x1 + x2 + x3) U - s x1 x2 x3."""
        propagators = '[["k1", m2], ["k1-k2", m2], ["k2-p2", m2], ["k2", 0], ["k1-p1", 0]]'
        u, f = feynman_parameters.u_and_f(family_at("[k1, k2]", propagators, "m2=3"), 7)
        self.assertEqual(u, {(1, 1, 0): 1, (1, 0, 1): 1, (0, 1, 1): 1})
        squares = [(2, 1, 0), (2, 0, 1), (1, 2, 0), (0, 2, 1), (1, 0, 2), (0, 1, 2)]
        self.assertEqual(f, {**{square: 3 for square in squares}, (1, 1, 1): 3 * 3 - 4})

    def test_point(self):
        self.assertEqual(job_files.residue("-2*s^2/3 + 007", {"s": 5}, 101), (7 - 50 * pow(3, -1, 101)) % 101)
        self.assertRaises(job_files.Fault, job_files.residue, "1/s", {"s": 0}, 101)
        self.assertRaises(job_files.Fault, job_files.residue, "u", {"s": 1}, 101)


class Symmetries(unittest.TestCase):
    def test_automorphisms(self):
        """A ring of four has 8 symmetries, and 4 where two opposite edges weigh more."""
        ring = {(1, 1, 0, 0): 1, (0, 1, 1, 0): 1, (0, 0, 1, 1): 1, (1, 0, 0, 1): 1}
        self.assertEqual(len(list(find_symmetries.automorphisms(ring, 4))), 8)
        heavier = {**ring, (1, 1, 0, 0): 2, (0, 0, 1, 1): 2}
        self.assertEqual(len(list(find_symmetries.automorphisms(heavier, 4))), 4)

    def test_listed_are_found(self):
        """The proposals make the permutations that the examples list: 2 of the sunrise, 24 of the vacuum."""
        for name, count in (("sunrise_with_symmetry", 2), ("vacuum_three_loops", 24)):
            family = job_files.Job(EXAMPLES / name, []).families[0]
            keeping, moving = find_symmetries.proposals(family)
            by_tool = [find_symmetries.permutation_by(family, shift) for shift in keeping]
            by_list = [find_symmetries.permutation_by(family, shift) for shift in family.symmetries]
            found, listed = (find_symmetries.group(made, family.width) for made in (by_tool, by_list))
            with self.subTest(name):
                self.assertEqual((found, len(found), moving), (listed, count, []))

    def test_vacuum_has_all_shifts(self):
        """The 24 exchanges of its four corners are all symmetries, so that none is left without a shift."""
        family = job_files.Job(EXAMPLES / "vacuum_three_loops", []).families[0]
        self.assertEqual(len(list(find_symmetries.symmetries_of(family, 63))), 24)
        self.assertEqual(list(find_symmetries.without_shift(family)), [])

    def test_sunrise_by_hand(self):
        """k1 → p1 - k2, k2 → p1 - k1 is the one shift; the four other permutations of three equal masses have none."""
        family = job_files.Job(EXAMPLES / "sunrise_with_symmetry", []).families[0]
        self.assertEqual(find_symmetries.proposals(family)[0], [[[0, -1, 1], [-1, 0, 1]]])
        self.assertEqual(len(list(find_symmetries.without_shift(family))), 4)
        ended = run_on("find_symmetries.py", EXAMPLES / "sunrise_with_symmetry")
        self.assertEqual(ended.stdout.split("\n")[1:3], ["    symmetries:", '      - {k1: "-k2+p1", k2: "-k1+p1"}'])

    def test_moved_sector(self):
        """Exchanging the loop momenta of the ladder takes its sector without the first denominator to another."""
        family = job_files.Job(EXAMPLES / "vertex_planar", []).families[0]
        keeping, moving = find_symmetries.proposals(family)
        self.assertEqual((keeping, moving), ([], [[[0, 1, 0, 0], [1, 0, 0, 0]]]))

    def test_bubble(self):
        """k1 → -k1 - p1 exchanges two equal masses; beside a linear propagator there is nothing to exchange."""
        family = family_at("[k1]", '[["k1", m2], ["k1+p1", m2]]')
        self.assertEqual(find_symmetries.proposals(family), ([[[-1, -1]]], []))
        family = family_at("[k1]", '[["k1+p1", m2], ["k1-p1", m2]]')
        self.assertEqual(find_symmetries.proposals(family), ([[[-1, 0]]], []))
        self.assertEqual(find_symmetries.proposals(family_at("[k1]", '[["k1", m2], ["k1+p1", 0]]')), ([], []))
        family = family_at("[k1]", '[["k1", m2], {bilinear: [["k1", "p1"], w]}]')
        self.assertEqual(find_symmetries.proposals(family), ([], []))

    def test_proposals_by_reference(self):
        """The reference reduction finds that each proposal permutes the denominators."""
        for folder, family in example_families():
            keeping, moving = find_symmetries.proposals(family)
            other = reference.Job(folder, []).families[0]
            for shift in keeping + moving:
                images = {name: find_symmetries.sum_of(family, image) for name, image in zip(family.loops, shift)}
                with self.subTest(folder.name, images=images):
                    self.assertEqual(sorted(other.permutation(images)), list(range(family.width)))


class Words(unittest.TestCase):
    def test_missing_library(self):
        with tempfile.TemporaryDirectory() as place:
            (pathlib.Path(place) / "yaml.py").write_text("raise ImportError\n")
            for tool in ("find_sectors.py", "find_symmetries.py"):
                ended = run_on(tool, EXAMPLES / "tadpole", PYTHONPATH=place)
                wanted = (2, "", "PyYAML is missing: Debian's package python3-yaml has it\n")
                self.assertEqual((ended.returncode, ended.stdout, ended.stderr), wanted)

    def test_faults(self):
        """What is wrong with a word or a value is told in one line."""
        cases = {
            "prime=2": "the prime 2 is no odd number from 3 on",
            "prime=x": "the prime x is no odd number from 3 on",
            "m2=1/0": "0 has no inverse modulo 10007",
            "m2=": " is no expression over the invariants",
            "u=1": "u is no invariant",
            "u": "u isn't NAME=VALUE",
        }
        for word, message in cases.items():
            with self.subTest(word), self.assertRaises(job_files.Fault) as met:
                family_at("[k1]", '[["k1", m2], ["k1+p1", 0]]', word)
            self.assertEqual(str(met.exception), message)

    def test_missing_job(self):
        with tempfile.TemporaryDirectory() as place:
            ended = run_on("find_sectors.py", place)
            wanted = (2, "", f"{place}/config/kinematics.yaml: no such file\n")
            self.assertEqual((ended.returncode, ended.stdout, ended.stderr), wanted)


if __name__ == "__main__":
    unittest.main()
