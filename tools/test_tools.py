#!/usr/bin/env python3
"""Tests tools/table.py and tools/size.py.

What is expected comes from the texts of the examples, from numbers that the repository's tests and pages state, from
enumerations written here, or was worked out by hand.
"""
import collections
import itertools
import json
import pathlib
import subprocess
import sys
import tempfile
import unittest

TOP = pathlib.Path(__file__).resolve().parent.parent
PROGRAM = TOP / "crates/kira/out/kira"
EXAMPLES = TOP / "examples"
sys.dont_write_bytecode = True

import job_seeds
import size
import table

try:
    import yaml
except ImportError:
    yaml = None

KINEMATICS = {
    "bubble": "incoming_momenta: [p1], outgoing_momenta: [p2], momentum_conservation: [p2, p1]",
    "triangle": "incoming_momenta: [p1, p2, p3], momentum_conservation: [p3, -p1-p2]",
    "box": "incoming_momenta: [p1, p2, p3, p4], momentum_conservation: [p4, -p1-p2-p3]",
    "vacuum": "incoming_momenta: []",
}
FAMILIES = {
    "bubble": "{name: bub, loop_momenta: [k1], propagators: [[k1, 0], [k1+p1, 0]], zero_sectors: [1, 2], "
    "symmetries: [{k1: -k1-p1}]}",
    "triangle": "{name: tri, loop_momenta: [k1], propagators: [[k1, 0], [k1+p1, 0], [k1-p2, 0]], zero_sectors: [3, 5]}",
    "box": "{name: box, loop_momenta: [k1], propagators: [[k1, 0], [k1+p1, 0], [k1+p1+p2, 0], [k1+p1+p2+p3, 0]], "
    "zero_sectors: [3, 6, 12, 9]}",
    "vacuum": f"{{name: vac, loop_momenta: [k, l, m, n, o], propagators: [{', '.join(['[k, 0]'] * 15)}]}}",
}
# The number of masters by t, the number of denominators, as the README of each example tells them.
MASTERS = {
    "tadpole": {1: 1},
    "triangle_massless": {2: 1},
    "box_massless": {2: 2, 4: 1},
    "bubble_two_masses": {1: 2, 2: 1},
    "box_top_pair": {1: 1, 2: 2, 3: 1, 4: 1},
    "pentagon_massless": {2: 5, 4: 5, 5: 1},
    "sunrise_equal_masses": {2: 3, 3: 4},
    "sunrise_with_symmetry": {2: 2, 3: 3},
    "vacuum_three_loops": {3: 2, 4: 2, 5: 1, 6: 1},
    "vertex_planar": {3: 2, 4: 2},
}
# Texts with the line at fault.
NO_TABLES = [
    ("", 1),
    ("kira: not yet\n", 1),
    ("tad[1] = 1*tad[1]\n", 2),
    ("tad[1] = 1*tad[1]\ntad[2] = \nmasters 1\ntad[1]\n", 2),
    ("tad[1] = 1*tad[1]\ntad[2] = 0*tad[1]\nmasters 1\ntad[1]\n", 2),
    ("tad[1] = 1*tad[1]\ntad[2] = 5 * tad[1]\nmasters 1\ntad[1]\n", 2),
    ("tad[1] = 1*tad[1]\ntad[2] = 5*tad[1] + 6*tad[1]\nmasters 1\ntad[1]\n", 2),
    ("tad[1] = 1*tad[1]\ntad[1] = 1*tad[1]\nmasters 1\ntad[1]\n", 2),
    ("tad[1] = 1*tad[1]\ntad[2,0] = 5*tad[1]\nmasters 1\ntad[1]\n", 2),
    ("tad[1] = 1*tad[1]\ntad[02] = 5*tad[1]\nmasters 1\ntad[1]\n", 2),
    ("tad[1] = 2*tad[1]\nmasters 1\ntad[1]\n", 1),
    ("tad[1] = 1*tad[1]\ntad[2] = 5*tad[3]\nmasters 1\ntad[1]\n", 2),
    ("tad[1] = 0\nmasters 1\ntad[1]\n", 1),
    ("tad[2] = 0\nmasters 1\ntad[1]\n", 3),
    ("tad[1] = 1*tad[1]\nmasters one\ntad[1]\n", 2),
    ("tad[1] = 1*tad[1]\nmasters 1\n", 3),
    ("tad[1] = 1*tad[1]\nmasters 1\ntad[1]", 3),
    ("tad[1] = 1*tad[1]\nmasters 1\ntad[1]\ntad[1]\n", 2),
    ("tad[1] = 1*tad[1]\r\nmasters 1\r\ntad[1]\r\n", 1),
]


def tool(name, *words, **options):
    """The exit status, the output and the complaint of a tool."""
    command = [sys.executable, "-B", TOP / "tools" / name, *words]
    run = subprocess.run(command, capture_output=True, text=True, **options)
    return run.returncode, run.stdout, run.stderr


def table_of(name):
    return table.read_table((EXAMPLES / name / "expected").read_text())


class Tables(unittest.TestCase):
    def test_prints_back_what_it_reads(self):
        for file in EXAMPLES.glob("*/expected"):
            self.assertEqual(table.write_table(*table.read_table(file.read_text())), file.read_text(), file)

    def test_reads_the_masters_of_the_examples(self):
        for name, counts in MASTERS.items():
            found = collections.Counter(sum(index > 0 for index in indices) for _, indices in table_of(name)[1])
            self.assertEqual(found, counts, name)
        self.assertEqual(len(table_of("double_box_planar")[1]), 14)
        lines = tool("table.py", EXAMPLES / "double_box_planar/expected")[1].splitlines()
        self.assertIn("dbox sector 127: 2", lines)
        self.assertIn("masters 14", lines)

    def test_reads_a_right_side(self):
        forms, masters = table_of("tadpole")
        self.assertEqual(forms[("tad", (3,))], [(97, ("tad", (1,)))])
        self.assertEqual(masters, [("tad", (1,))])
        self.assertEqual(table_of("triangle_massless")[0][("tri", (2, 1, 0))], [])

    def test_refuses_what_is_no_table(self):
        for text, line in NO_TABLES:
            with self.assertRaises(table.NoTable, msg=repr(text)) as refused:
                table.read_table(text)
            self.assertEqual(refused.exception.line, line, repr(text))
        status, output, complaint = tool("table.py", "-", input="tad[1] = 1*tad[1]\nmasters x\n")
        self.assertEqual((status, output, complaint[:4], complaint.count("\n")), (2, "", "-:2:", 1))

    def test_writes_other_forms(self):
        forms, masters = table.read_table("a[0] = 0\na[1] = 1*a[1]\na[2] = 85*a[1]\nmasters 1\na[1]\n")
        self.assertEqual(table.as_csv(forms), "integral,coefficient,master\na[0],0,\na[1],1,a[1]\na[2],85,a[1]\n")
        self.assertEqual(table.as_form(forms).splitlines()[2:], ["id a(0) = 0;", "id a(2) = 85*a(1);"])
        forms, masters = table.read_table("a_b[0,1] = 3*c[-1]\nmasters 1\nc[-1]\n")
        self.assertEqual(table.as_form(forms).splitlines()[2:], ["id [a_b](0,1) = 3*c(-1);"])
        wanted = {"integrals": {"a_b[0,1]": {"c[-1]": "3"}}, "masters": ["c[-1]"]}
        self.assertEqual(json.loads(table.as_json(forms, masters)), wanted)

    def test_compares_two_tables(self):
        one = "a[1] = 1*a[1]\na[2] = 2*a[1]\nmasters 1\na[1]\n"
        other = "a[1] = 2*a[2]\na[2] = 1*a[2]\nmasters 1\na[2]\n"
        text, same = table.compared(table.read_table(one), table.read_table(other))
        self.assertEqual((text.splitlines()[:2], same), (["a[1]  -", "-     a[2]"], False))
        text, same = table.compared(table.read_table(one), table.read_table(one))
        self.assertEqual((text.splitlines()[:1], same), (["a[1]  a[1]"], True))
        names = [EXAMPLES / "tadpole/expected", EXAMPLES / "box_massless/expected"]
        self.assertEqual(tool("table.py", names[0], "--compare", names[1])[0], 2)

    @unittest.skipUnless(PROGRAM.is_file(), "crates/kira/out/kira isn't built")
    def test_a_special_dimension_has_another_master(self):
        folder = EXAMPLES / "triangle_massless"
        for point, status in (("d=3017/29", 0), ("d=4", 1)):
            run = subprocess.run([PROGRAM, "jobs.yaml", point], cwd=folder, capture_output=True, text=True, check=True)
            found = tool("table.py", folder / "expected", "--compare", "-", input=run.stdout)
            self.assertEqual(found[0], status, point)
            if status:
                self.assertEqual(found[1].splitlines()[:2], ["tri[0,1,1]  -", "-           tri[1,1,1]"])


def enumerated(width, zero, items):
    """The seeds of items (sectors, r, s, d), written out."""
    found = set()
    for sectors, r, s, d in items:
        for sector in (x for x in range(1, 1 << width) if any(x & top == x for top in sectors)):
            if any(sector & listed == sector for listed in zero):
                continue
            ups = [place for place in range(width) if sector >> place & 1]
            downs = [place for place in range(width) if not sector >> place & 1]
            for dots, powers in itertools.product(range(min(r - len(ups), d) + 1), range(s + 1)):
                raised = itertools.combinations_with_replacement(ups, dots)
                lowered = itertools.combinations_with_replacement(downs, powers)
                for more, less in itertools.product(raised, lowered):
                    found.add(tuple((place in ups) + more.count(place) - less.count(place) for place in range(width)))
    return len(found)


@unittest.skipUnless(yaml, "PyYAML is missing")
class Sizes(unittest.TestCase):
    def written(self, name, reduce, select="{}", listed=None):
        """The job with this family and these items."""
        with tempfile.TemporaryDirectory() as place:
            folder = pathlib.Path(place)
            (folder / "config").mkdir()
            (folder / "config/kinematics.yaml").write_text(f"kinematics: {{{KINEMATICS[name]}}}\n")
            (folder / "config/integralfamilies.yaml").write_text(f"integralfamilies: [{FAMILIES[name]}]\n")
            (folder / "more").write_text(listed or "")
            task = f"reduce: [{reduce}], select_integrals: {select}, numeric_point: {{}}"
            (folder / "jobs.yaml").write_text(f"jobs: [{{reduce_sectors: {{{task}}}}}]\n")
            return job_seeds.load(folder)

    def resized(self, name, r, s):
        """The job of an example with other bounds under `reduce`."""
        job = job_seeds.load(EXAMPLES / name)
        return job, job.items([{**job.reduce[0].entry, "r": r, "s": s}])

    def test_counts_what_the_tests_of_plans_state(self):
        item = "{topologies: [%s], sectors: [%d], r: %d, s: %d}"
        cases = [("bubble", "bub", 3, 2, 0, 1, 3), ("triangle", "tri", 7, 3, 0, 4, 12)]
        cases.append(("box", "box", 15, 4, 1, 69, 276))
        for name, family, sector, r, s, seeds, equations in cases:
            job = self.written(name, item % (family, sector, r, s))
            self.assertEqual(job.total(job.reduce)[:2], (seeds, equations), name)
        job = self.written("vacuum", item % ("vac", 1, 24, 2))
        self.assertEqual(job.total(job.reduce), (2880, 2880 * 25, 17352000))
        job = self.written("vacuum", item % ("vac", 1, 43, 4))
        self.assertEqual(job.total(job.reduce)[0], 131580)
        job = self.written("box", item % ("box", 15, 100, 0))
        self.assertGreater(job.total(job.reduce)[0], 3921225)
        self.assertIn("Too large", size.report(job))

    def test_counts_a_listed_integral_once(self):
        item = "{topologies: [tri], sectors: [7], r: 3, s: 0}"
        select = f"{{select_mandatory_recursively: [{item}], select_mandatory_list: [[tri, more]]}}"
        self.assertEqual(self.written("triangle", item, select, "tri[0,1,2]\ntri[1,1,0]\n").selected(), 5)

    def test_counts_the_equations_of_the_measured_jobs(self):
        cases = [("bubble_two_masses", 6, 2, 102), ("box_massless", 8, 3, 6104), ("box_massless", 12, 3, 21340)]
        cases += [("pentagon_massless", 8, 1, 14980), ("double_box_planar", 7, 1, 58690)]
        for name, r, s, equations in cases:
            job, items = self.resized(name, r, s)
            self.assertEqual(job.total(items)[1], equations, name)

    def test_counts_the_lines_of_the_expected_tables(self):
        for file in EXAMPLES.glob("*/expected"):
            lines = file.read_text().split("masters ")[0].count("\n")
            self.assertEqual(job_seeds.load(file.parent).selected(), lines, file)

    def test_counts_what_an_enumeration_finds(self):
        job = job_seeds.load(EXAMPLES / "double_box_planar")
        zero = [47, 55, 59, 62, 71, 75, 86, 105, 116, 120]
        specs = [([127], 7, 1, 9), ([127], 7, 1, 1), ([127], 8, 1, 0), ([31, 110], 5, 2, 9), ([76], 6, 2, 2)]
        for chosen in *([spec] for spec in specs), specs[1:], specs[2:]:
            entries = [dict(topologies=["dbox"], sectors=x, r=r, s=s, d=d) for x, r, s, d in chosen]
            self.assertEqual(job.total(job.items(entries))[0], enumerated(9, zero, chosen), chosen)

    def test_shows_what_a_bound_or_a_zero_sector_would_leave(self):
        lines = tool("size.py", EXAMPLES / "double_box_planar")[1].splitlines()
        zero = [47, 55, 59, 62, 71, 75, 86, 105, 116, 120]
        rows = {line[:30].strip(): line[30:].split() for line in lines}
        self.assertEqual(int(rows["with d: 1"][0]), enumerated(9, zero, [([127], 7, 1, 1)]))
        self.assertEqual(int(rows["with dbox 76 zero"][0]), enumerated(9, zero + [76], [([127], 7, 1, 9)]))
        seeds = enumerated(9, zero, [([127], 7, 1, 9)])
        self.assertEqual(rows["together"], [str(seeds), str(seeds * 10), str(seeds * 10 * 91)])
        self.assertEqual(rows["limit"], ["131072", "16777216"])

    def test_marks_masters_at_the_edge_of_the_seeds(self):
        mark = job_seeds.load(EXAMPLES / "sunrise_equal_masses").mark
        marks = [(x[1], mark(x)) for x in table_of("sunrise_equal_masses")[1] if mark(x)]
        self.assertEqual(marks, [((1, 1, 1, -2, 0), "at the edge of s")])
        self.assertEqual(mark(("sun", (1, 1, 3, 0, 0))), "at the edge of r")
        self.assertEqual(mark(("sun", (1, 1, 3, -1, -1))), "at the edge of r and s")
        self.assertEqual([mark(("sun", (1, 1, 4, 0, 0))), mark(("sun", (2, 0, 0, 0, 0)))], ["no seed"] * 2)
        self.assertEqual(mark(("moon", (1,))), "of no family of the job")
        folder = EXAMPLES / "double_box_planar"
        output = tool("table.py", folder / "expected", "--job", folder)[1]
        self.assertIn("\ndbox[1,1,1,1,1,1,1,0,0]  at the edge of r\n", output)


class Wants(unittest.TestCase):
    def test_says_in_one_line_what_is_missing(self):
        with tempfile.TemporaryDirectory() as place:
            (pathlib.Path(place) / "yaml.py").write_text("raise ImportError\n")
            status, output, complaint = tool("size.py", EXAMPLES / "tadpole", env={"PYTHONPATH": place})
        self.assertEqual((status, output, complaint), (2, "", "PyYAML is missing: Debian has it as python3-yaml\n"))

    @unittest.skipUnless(yaml, "PyYAML is missing")
    def test_refuses_a_folder_without_a_job(self):
        with tempfile.TemporaryDirectory() as place:
            status, output, complaint = tool("size.py", place)
        self.assertEqual((status, output, complaint.count("\n")), (2, "", 1))


if __name__ == "__main__":
    if not yaml:
        print("PyYAML is missing: tools/size.py isn't tested", file=sys.stderr)
    if not PROGRAM.is_file():
        print("crates/kira/out/kira isn't built: two tables of it aren't compared", file=sys.stderr)
    unittest.main(verbosity=1)
