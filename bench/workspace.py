"""A repository for the time, with a program of bench/ beside the crates that it stands on.

Its files end in `.txt` here, since the gate takes each `.rt` and `.antt` file for one of a crate. What `rt` left in the
crates' out/ is taken along, so that it proves only the program where that is of use.
"""
import pathlib
import shutil
import subprocess
import sys

TOP = pathlib.Path(__file__).resolve().parent.parent


def workspace(folder, name, texts, uses, crates):
    """Makes the repository of these crates and of the program with this name, whose texts lie in bench/; its folder."""
    top = pathlib.Path(folder)
    for crate in crates:
        shutil.copytree(TOP / "crates" / crate, top / "crates" / crate)
    shutil.copy(TOP / "HANDLES", top / "HANDLES")
    lines = [line for line in (TOP / "crates.txt").read_text().splitlines() if line.split(":")[0] in crates]
    (top / "crates.txt").write_text("\n".join([*lines, f"{name}: {' '.join(uses)}"]) + "\n")
    program = top / "crates" / name
    for text in (TOP / "bench" / texts).rglob("*.txt"):
        file = program / text.relative_to(TOP / "bench" / texts).with_suffix("")
        file.parent.mkdir(parents=True, exist_ok=True)
        shutil.copy(text, file)
    return program


def built(program):
    """The program, built: `rt run` runs it once without input, which it refuses."""
    done = subprocess.run(["rt", "run"], cwd=program, stdin=subprocess.DEVNULL, capture_output=True, text=True)
    if not (program / "out" / program.name).is_file():
        sys.exit(done.stdout + done.stderr)
    return program / "out" / program.name
