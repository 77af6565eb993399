#!/usr/bin/env python3
"""Reduces the job of a folder by a run of the sources that proves nothing, for who wants to see it before the proof.

    python3 tools/unproved.py FOLDER WORD...

Standard output has the table alone. Standard error says before and after it that nothing was proved, and has the
program's message. The exit status is the program's own, or 1 where it gave no answer.
"""
import os
import pathlib
import re
import subprocess
import sys

TOP = pathlib.Path(__file__).resolve().parent.parent
SECONDS = 600
NOTICE = "NOT PROVED: this run compiles the sources with checks, and proves nothing"
ENDED = re.compile(r"^run=ended status=(\d+) ", re.M)
# Lines that `rt try` writes of itself, behind the program's own.
OF_TRY = re.compile(r"^(checked|interpreter): |^run=\S+ .*proved=no$|^run=none proved=no$")
TOO_LONG = "The table is longer than such a run may print (1 MiB): reduce the job with ./run, without --unproved."


def files_of(folder):
    """The files that the program may read, by the names that it knows them by; a name with = can't be handed on."""
    names = [it for it in sorted(folder.rglob("*")) if it.is_file()]
    return {str(it.relative_to(folder)): it for it in names if "=" not in str(it.relative_to(folder))}


def is_too_long(text, table):
    return "1 MiB" in text or len(table) >= 1 << 20


def main(folder, *words):
    files = files_of(pathlib.Path(folder).resolve())
    data = [it for name, file in files.items() for it in ("--data", f"{name}={file}")]
    call = ["rt", "try", "--seconds", str(SECONDS), *data, "--", *words]
    print(NOTICE, file=sys.stderr, flush=True)
    done = subprocess.run(call, cwd=TOP / "crates" / "kira", stdin=subprocess.DEVNULL, capture_output=True)
    said = done.stderr.decode(errors="replace")
    ended = ENDED.search(said)
    if ended:
        sys.stdout.buffer.write(done.stdout)
        sys.stdout.flush()
        said = "".join(it for it in said.splitlines(True) if not OF_TRY.search(it.rstrip("\n")))
    elif is_too_long(said, done.stdout):
        said = f"{TOO_LONG}\n"
    sys.stderr.write(said)
    print(NOTICE, file=sys.stderr)
    return int(ended[1]) if ended else 1


if __name__ == "__main__":
    try:
        sys.exit(main(*sys.argv[1:]))
    except KeyboardInterrupt:
        sys.exit(130)
