#!/usr/bin/env python3
"""The repository's own rules, which the prover doesn't look at.

Each rule prints a line where it fails; the exit status is 1 where one did.
"""
import pathlib
import shutil
import subprocess
import sys
import tempfile

TOP = pathlib.Path(__file__).resolve().parent.parent
MOST_EDITS = 60
faults = []


def fail(text):
    faults.append(text)


def crates_of_list():
    names = []
    for line in (TOP / "crates.txt").read_text().splitlines():
        line = line.split("#")[0].strip()
        if line:
            names.append(line.split(":")[0].split()[0])
    return names


def check_handles():
    if (TOP / "HANDLES").read_text() != "Handles allowed: Threads, Wait.\n":
        fail("HANDLES: must hold its one line and nothing else")


def check_crates(names):
    rooms = (TOP / "docs" / "ARCHITECTURE.md").read_text()
    for name in names:
        folder = TOP / "crates" / name
        roots = [folder / "src" / file for file in ("lib.rt", "main.rt")]
        roots = [root for root in roots if root.is_file()]
        if not roots:
            fail(f"crates/{name}: no root file")
            continue
        for root in roots:
            if "#![tactic(auto)]" not in root.read_text():
                fail(f"{root.relative_to(TOP)}: lacks #![tactic(auto)]")
        if f"`{name}`" not in rooms:
            fail(f"docs/ARCHITECTURE.md: does not name the crate {name}")
    for folder in sorted((TOP / "crates").iterdir()):
        if folder.is_dir() and folder.name not in names:
            fail(f"crates/{folder.name}: crates.txt does not list it")


def fits_once(edit, folder):
    """Whether each old text of the edit stands once in its file, after the pairs before it were applied."""
    lines = edit.read_text().splitlines()
    named = [line[5:].strip() for line in lines if line.startswith("file:")]
    if len(named) != 1 or not (folder / named[0]).is_file():
        return False
    text = (folder / named[0]).read_text()
    pairs = [line[5:] for line in lines if line.startswith(("old: ", "new: "))]
    for old, new in zip(pairs[::2], pairs[1::2]):
        if text.count(old) != 1:
            return False
        text = text.replace(old, new)
    return bool(pairs)


def check_edits():
    """Few edits stand in the gate, since each costs a check; and each one, also of attacks/, fits the text it changes."""
    gate = sorted(TOP.glob("crates/*/must-fail/*.edit"))
    if len(gate) > MOST_EDITS:
        fail(f"crates/*/must-fail: {len(gate)} edits, and at most {MOST_EDITS} stand in the gate")
    for edit in gate:
        if not fits_once(edit, edit.parent.parent):
            fail(f"{edit.relative_to(TOP)}: doesn't fit its file")
    for edit in sorted(TOP.glob("attacks/*/*.edit")):
        if not fits_once(edit, TOP / "crates" / edit.parent.name):
            fail(f"{edit.relative_to(TOP)}: doesn't fit its file")


def check_examples():
    """The stored run of the program and the example are the same job."""
    example, stored = TOP / "examples" / "tadpole", TOP / "crates" / "kira"
    pairs = [(example / "expected", stored / "stdout")]
    for name in ("jobs.yaml", "config/integralfamilies.yaml", "config/kinematics.yaml"):
        pairs.append((example / name, stored / "data" / name))
    for one, other in pairs:
        if one.read_bytes() != other.read_bytes():
            fail(f"{one.relative_to(TOP)}: differs from {other.relative_to(TOP)}")


def edited(text, first, count, with_text):
    """The text with so many lines from this one on, counted from 1, replaced."""
    lines = text.split("\n")
    lines[first - 1 : first - 1 + count] = with_text.split("\n")
    return "\n".join(lines)


def ends(program, folder, words):
    """The exit status and what the program writes with these words behind the job file."""
    return ends_with(program, folder, ["jobs.yaml", *words])


def ends_with(program, folder, words):
    """The exit status and what the program writes with these words."""
    run = subprocess.run([program, *words], cwd=folder, capture_output=True)
    return run.returncode, run.stdout, run.stderr


def refuses(program, folder, words, message):
    """With these words the program ends with status 3, prints nothing, and complains by this line."""
    return ends_with(program, folder, words) == (3, b"", f"kira: {message}\n".encode())


def rows_of(table):
    """The cells of each row of a table of examples/refused."""
    text = (TOP / "examples" / "refused" / table).read_text()
    return [row.split("\t") for row in text.splitlines() if not row.startswith("#")]


def unescaped(text):
    """The text of a cell, a character for each byte."""
    return text.encode().decode("unicode_escape")


def refuses_files(program, source, files, words, message):
    """With these words the program refuses the job of this folder with these files in place of its own."""
    with tempfile.TemporaryDirectory() as place:
        folder = pathlib.Path(shutil.copytree(source, place, dirs_exist_ok=True))
        for name, text in files:
            (folder / name).write_text(text, "latin-1")
        return refuses(program, folder, words, message)


def refuses_edited(program, name, first, count, with_text, message):
    """The program refuses the job of examples/refused with these lines of this file replaced."""
    source = TOP / "examples" / "refused"
    text = edited((source / name).read_text(), int(first), int(count), with_text)
    return refuses_files(program, source, [(name, text)], ["jobs.yaml"], f"{name}:{message}")


def check_refusals(program):
    """The built program refuses each file of the tables, and one that is too long, with its message."""
    for name, first, count, message, text in rows_of("refusals.tsv"):
        if not refuses_edited(program, name, first, count, unescaped(text), message):
            fail(f"examples/refused/refusals.tsv: {name} with {text[:60]} isn't refused with {message}")
    for name, first, count, items, item, head in rows_of("long_lists.tsv"):
        text = head + ", ".join([item] * int(items)) + "]"
        if not refuses_edited(program, name, first, count, text, f"{first}: out of range"):
            fail(f"examples/refused/long_lists.tsv: {items} items behind {head} aren't refused")
    for name in ("jobs.yaml", "config/integralfamilies.yaml", "config/kinematics.yaml"):
        if not refuses_edited(program, name, 1, 99, "#" * (2**24 + 1), "0: longer than 16777216 bytes"):
            fail(f"examples/refused: {name} with a byte too many isn't refused")


def check_whole_files(program):
    """The built program refuses each job of the table, whose cells behind the words replace whole files."""
    for job, message, words, *cells in rows_of("whole_files.tsv"):
        pairs = [cell.split("=", 1) for cell in cells]
        files = [(name, unescaped(text)) for name, text in pairs]
        words = [unescaped(word) for word in words.split(" ")]
        if not refuses_files(program, TOP / "examples" / "refused" / job, files, words, message):
            fail(f"examples/refused/whole_files.tsv: {job} {words} {str(cells)[:60]} isn't refused with {message}")


def check_words(program):
    """The job of examples/refused is accepted but for its list file, and refused with each row of words."""
    source = TOP / "examples" / "refused"
    rows = [["listed:0: no such file", "jobs.yaml s=-1/2 d=4 prime=7"], *rows_of("words.tsv")]
    for message, words in rows:
        if not refuses(program, source, words.split(" "), message):
            fail(f"examples/refused/words.tsv: {words} isn't refused with {message}")


def check_divisors(program):
    """Modulo 15 the value of an invariant, that of a rule and a basis each need an inverse that isn't there."""
    source = TOP / "examples" / "bubble_two_masses"
    wanted = (5, b"", b"kira: the prime is divisible by 3\n")
    sound = ["prime=15", "d=7", "s=1", "m1=2", "m2=4", "m3=0"]
    if ends(program, source, ["prime=15", "m1=1/3"]) != wanted:
        fail("examples/bubble_two_masses: the divisor of 15 in an invariant isn't told")
    for name, old, new in (("kinematics", "[p1,p1], s]", "[p1,p1], s/3]"), ("integralfamilies", '"k1+p1"', '"k1+3*p1"')):
        with tempfile.TemporaryDirectory() as place:
            folder = pathlib.Path(shutil.copytree(source, place, dirs_exist_ok=True))
            file = folder / "config" / f"{name}.yaml"
            text = file.read_text()
            file.write_text(text.replace(old, new))
            if old not in text or ends(program, folder, sound) != wanted:
                fail(f"examples/bubble_two_masses: the divisor of 15 with {new} isn't told")


def check_program():
    program = TOP / "crates" / "kira" / "out" / "kira"
    if not program.is_file():
        fail("crates/kira/out/kira: isn't built, so the refused files weren't tried")
        return
    check_refusals(program)
    check_whole_files(program)
    check_words(program)
    check_divisors(program)


check_handles()
crates = crates_of_list()
check_crates(crates)
check_edits()
check_examples()
check_program()
for fault in faults:
    print(fault)
sys.exit(1 if faults else 0)
