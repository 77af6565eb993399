#!/usr/bin/env python3
"""Times a program on job files of 2^24 bytes that are made to be slow to read.

    python3 bench/yaml_text.py PROGRAM [--seconds N] [--only WORD]

PROGRAM is run as `PROGRAM jobs.yaml` in a folder of its own with small family and kinematics files. Each run should
end in a second or two, whatever the job file holds: none recurses on the depth of its input, and none compares each
key with each other. A line shows the seconds, the exit status and the first line of what the program complains about.
"""
import argparse
import pathlib
import subprocess
import tempfile
import time

SIZE = 2 ** 24

FAMILIES = 'integralfamilies:\n  - name: "tad"\n    loop_momenta: [k1]\n    propagators:\n      - ["k1", 0]\n'
KINEMATICS = "kinematics:\n  incoming_momenta: []\n"


def numbered(form, size):
    """Lines with a number in them, up to the size."""
    parts, length, at = [], 0, 0
    while True:
        part = form % at
        if length + len(part) > size:
            return "".join(parts)
        parts.append(part)
        length += len(part)
        at += 1


def flow_map(size):
    text = numbered("k%d: 1, ", size - 2)
    return "{" + text[:-2] + "}"


# What each holds, and what the profile answers.
INPUTS = {
    "spaces": (lambda: " " * SIZE, "an empty tree"),
    "line feeds": (lambda: "\n" * SIZE, "an empty tree"),
    "open brackets": (lambda: "[" * SIZE, "line 1, not a value on one line"),
    "nested brackets": (lambda: "[" * (SIZE // 2) + "]" * (SIZE // 2), "line 1, nested too deep"),
    "closing brackets": (lambda: "]" * SIZE, "line 1, not a value on one line"),
    "digits": (lambda: "7" * SIZE, "one scalar"),
    "one long line of colons": (lambda: "a: " * (SIZE // 3), "line 1, not a value on one line"),
    "quotes": (lambda: '"' * SIZE, "line 1, not a value on one line"),
    "dashes": (lambda: "- " * (SIZE // 2), "line 1, nested too deep"),
    "items": (lambda: "-\n" * (SIZE // 2), "a list of empty items"),
    "keys of a block": (lambda: numbered("k%d: 1\n", SIZE), "a map"),
    "keys of one line": (lambda: flow_map(SIZE), "a map"),
    "the last key twice": (lambda: numbered("k%d: 1\n", SIZE - 8) + "k0: 1\n", "the last line, key used twice"),
    "small maps": (lambda: "[" + "{a: b}, " * (SIZE // 8 - 2) + "1]", "a list of maps"),
    "stairs": (lambda: "".join(" " * (n % 15) + "a:\n" for n in range(SIZE // 12)), "a fault of the structure"),
}


def run(program, text, seconds):
    with tempfile.TemporaryDirectory() as folder:
        top = pathlib.Path(folder)
        (top / "config").mkdir()
        (top / "jobs.yaml").write_text(text)
        (top / "config" / "integralfamilies.yaml").write_text(FAMILIES)
        (top / "config" / "kinematics.yaml").write_text(KINEMATICS)
        start = time.monotonic()
        try:
            done = subprocess.run([program, "jobs.yaml"], cwd=folder, capture_output=True, timeout=seconds)
        except subprocess.TimeoutExpired:
            return seconds, "did not end", ""
        spent = time.monotonic() - start
        said = done.stderr.decode(errors="replace").splitlines()
        return spent, f"status {done.returncode}", said[0] if said else ""


def main():
    parser = argparse.ArgumentParser(description="Times a program on job files that are made to be slow to read.")
    parser.add_argument("program", type=lambda path: str(pathlib.Path(path).resolve()))
    parser.add_argument("--seconds", type=float, default=60)
    parser.add_argument("--only", default="")
    options = parser.parse_args()
    for name, (make, meaning) in INPUTS.items():
        if options.only in name:
            spent, ended, said = run(options.program, make(), options.seconds)
            print(f"{spent:7.2f} s  {name}: {ended}; {said}  (the profile: {meaning})")


if __name__ == "__main__":
    main()
