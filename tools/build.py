#!/usr/bin/env python3
"""Proves and builds the program `kira` and the libraries that it stands on, side by side.

    python3 tools/build.py

Standard error gets a line a crate as it ends, and crates/kira/out/build.log all that `rt` says. It ends with 0 where
the program is built and proved as the files stand, 1 where a crate is not proved, and 130 where it was interrupted.

One `rt` keeps all others out of the folders of the crates below its own, so that two of them would wait for each other.
Each crate is therefore built in a room: a copy of its text and of that of the crates below, with their built libraries.
"""
import concurrent.futures
import contextlib
import hashlib
import math
import os
import pathlib
import shutil
import signal
import subprocess
import sys
import threading
import time

TOP = pathlib.Path(__file__).resolve().parent.parent
CRATES = TOP / "crates"
PROGRAM = "kira"
OUT = CRATES / PROGRAM / "out"
ROOMS = OUT / "rooms"
LOG = OUT / "build.log"
STAMP = OUT / "run.stamp"
PARTS = ("src", "specs", "proofs")

# The minutes of a first build: of its longest chain of crates, and of all its crates on one processor.
# Measured: 18.5 minutes on 4 processors.
FIRST_BUILD = {"chain": 15, "work": 65}
# The memory that a check may take, in bytes, and the most processors that one check makes use of.
MEMORY = 4 << 30
MOST_JOBS = 4
# `rt run` runs the program that it built, without words, which the program answers with this status.
USAGE = 2


def name_in(line):
    """The crate that a line of crates.txt names, if any."""
    return (line.split("#")[0].partition(":")[0].split() or [""])[0]


def read_list():
    """The libraries of each crate of crates.txt that it names, by the crate's name."""
    uses = {}
    for line in (TOP / "crates.txt").read_text().splitlines():
        if name_in(line):
            uses[name_in(line)] = line.split("#")[0].partition(":")[2].split()
    return {name: [it for it in found if it in uses] for name, found in uses.items()}


def below(name, uses):
    """The crates that the crate stands on, lowest first."""
    found = {}
    for library in uses[name]:
        found.update(dict.fromkeys([*below(library, uses), library]))
    return list(found)


def files_of(name):
    return sorted(it for part in PARTS for it in (CRATES / name / part).rglob("*") if it.is_file())


def sum_of_crate(name, uses, version):
    """What tells whether the crate's own text, the libraries it names or the toolchain changed."""
    whole = hashlib.sha256(repr((version, uses[name])).encode())
    for file in files_of(name):
        whole.update(f"{file.relative_to(CRATES)}\0".encode() + hashlib.sha256(file.read_bytes()).digest())
    return whole.hexdigest()


def stamp_of(names, uses):
    """One line for crates.txt and the toolchain, and one for each crate; the built program is part of the stamp."""
    version = subprocess.run(["rt", "version"], capture_output=True, text=True, check=True).stdout.strip()
    program = OUT / PROGRAM
    built = hashlib.sha256(program.read_bytes()).hexdigest() if program.is_file() else "none"
    listed = hashlib.sha256((TOP / "crates.txt").read_bytes()).hexdigest()
    lines = [f"{version} {listed} {built}", *(f"{it} {sum_of_crate(it, uses, version)}" for it in names)]
    return "\n".join(lines) + "\n"


def chains(names, uses):
    """For each crate the lines of the longest chain of crates from it up to the program; lines stand for time here."""
    lines = {name: sum(it.read_bytes().count(b"\n") for it in files_of(name)) for name in names}
    longest = {}
    for name in reversed(names):
        above = [longest[it] for it in longest if name in uses[it]]
        longest[name] = lines[name] + max(above, default=0)
    return longest


def minutes(seconds):
    whole = round(seconds)
    return f"{whole // 60} min {whole % 60} s" if whole >= 60 else f"{whole} s"


def free_memory():
    for line in pathlib.Path("/proc/meminfo").read_text().splitlines():
        if line.startswith("MemAvailable:"):
            return 1024 * int(line.split()[1])
    return MEMORY


class Room:
    """A copy of the repository for one crate, in which no other `rt` works."""

    def __init__(self, name, uses):
        self.name, self.uses, self.top = name, uses, ROOMS / name
        self.folder = self.top / "crates" / name

    def __enter__(self):
        shutil.rmtree(self.top, ignore_errors=True)
        names = [*below(self.name, self.uses), self.name]
        for it in names:
            for part in PARTS:
                if (CRATES / it / part).is_dir():
                    shutil.copytree(CRATES / it / part, self.top / "crates" / it / part)
            if it != self.name:
                library = self.top / "crates" / it / "out" / "rlib"
                shutil.copytree(CRATES / it / "out" / "rlib", library, copy_function=os.link)
        lines = (TOP / "crates.txt").read_text().splitlines(True)
        (self.top / "crates.txt").write_text("".join(it for it in lines if name_in(it) in names))
        shutil.copy(TOP / "HANDLES", self.top)
        if (CRATES / self.name / "out").is_dir():
            os.rename(CRATES / self.name / "out", self.folder / "out")
        return self

    def __exit__(self, *_):
        take_out(self.name)
        shutil.rmtree(self.top, ignore_errors=True)


def take_out(name):
    """Moves what a crate's room keeps back to the crate."""
    kept = ROOMS / name / "crates" / name / "out"
    if kept.is_dir() and not (CRATES / name / "out").exists():
        os.rename(kept, CRATES / name / "out")


class Builder:
    def __init__(self, names, uses):
        self.names, self.uses = names, uses
        self.begin, self.children, self.alone = time.monotonic(), set(), threading.Lock()
        self.is_ending = False

    def call(self, words, folder, log):
        """Runs a command in a group of its own, which ends with this program, and gives its status."""
        with self.alone:
            if self.is_ending:
                return 1
            how = {"stdin": subprocess.DEVNULL, "stdout": log, "stderr": subprocess.STDOUT, "start_new_session": True}
            child = subprocess.Popen(words, cwd=folder, **how)
            self.children.add(child)
        status = child.wait()
        with self.alone:
            self.children.discard(child)
        return status

    def end(self):
        with self.alone:
            self.is_ending = True
            for child in self.children:
                with contextlib.suppress(ProcessLookupError):
                    os.killpg(child.pid, signal.SIGTERM)

    def build(self, name, jobs):
        """Builds one crate, and gives whether it is proved, its time and what was said."""
        begin, said = time.monotonic(), OUT / f"{name}.log"
        with open(said, "wb") as log:
            if name == PROGRAM:
                is_proved = self.call(["rt", "run", "--jobs", str(jobs)], CRATES / name, log) == USAGE
            else:
                with Room(name, self.uses) as room:
                    is_proved = self.call(["rt", "lib", "--jobs", str(jobs)], room.folder, log) == 0
        text = said.read_text(errors="replace")
        said.unlink()
        return is_proved, time.monotonic() - begin, text

    def tell(self, name, number, is_proved, seconds, text):
        """Notes what was said of a crate, and shows its line, and its last lines where it failed."""
        what = "proved" if is_proved else "NOT PROVED"
        with open(LOG, "a", encoding="utf-8") as log:
            log.write(f"== {name}: {what}, {minutes(seconds)}\n{text}")
        print(f"[{number}/{len(self.names)}] {name} {what}, {minutes(seconds)}", file=sys.stderr, flush=True)
        if not is_proved and not self.is_ending:
            print("\n".join(text.splitlines()[-30:]), f"the whole is in {LOG}", sep="\n", file=sys.stderr)

    def next_of(self, left, built, free, lanes):
        """The next crate to begin and the processors it gets, or None: the longest chain first."""
        ready = [it for it in left if all(library in built for library in self.uses[it])]
        if not ready or free < 1:
            return None
        # Processors that no other crate can use yet go to this one.
        return ready[0], max(1, min(free // len(ready), MOST_JOBS, lanes))

    def run(self, left, built, lanes):
        """Builds the crates that are left, and gives whether all are proved."""
        with concurrent.futures.ThreadPoolExecutor(lanes) as pool:
            try:
                return self.run_in(pool, left, built, lanes)
            finally:
                # The pool waits for its threads, and those for their children.
                self.end()

    def run_in(self, pool, left, built, lanes):
        running = {}
        while left or running:
            free = lanes - sum(jobs for _, jobs in running.values())
            begun = self.next_of(left, built, free, lanes)
            if begun:
                left.remove(begun[0])
                running[pool.submit(self.build, *begun)] = begun
                continue
            for it in concurrent.futures.wait(running, return_when=concurrent.futures.FIRST_COMPLETED).done:
                name, _ = running.pop(it)
                is_proved, seconds, text = it.result()
                self.tell(name, len(built) + 1, is_proved, seconds, text)
                if not is_proved:
                    return False
                built.append(name)
        return True


def kept_of(names, uses, stamp):
    """The crates whose libraries the last build left, and which nothing below them changed since."""
    was = set(STAMP.read_text().splitlines()[1:]) if STAMP.is_file() else set()
    same = {line.split()[0] for line in stamp.splitlines()[1:] if line in was}
    kept = []
    for name in names:
        library = CRATES / name / "out" / "rlib" / "stamp"
        if name in same and all(it in kept for it in uses[name]) and library.is_file():
            kept.append(name)
    return kept


def tell_time(lanes, count):
    longest = max(FIRST_BUILD["chain"], FIRST_BUILD["work"] / lanes)
    about = 5 * math.ceil(longest / 5)
    text = f"Proving and building {count} crates. A first build takes about {about} minutes on {lanes} processor"
    print(f"{text}{'s' if lanes > 1 else ''}; a later one only proves what changed.", file=sys.stderr, flush=True)


def build(names, uses, stamp):
    processors = len(os.sched_getaffinity(0))
    lanes = max(1, min(processors, free_memory() // MEMORY))
    built = kept_of(names, uses, stamp)
    # It is written again once all is built: until then it would tell of libraries that are no longer there.
    STAMP.unlink(missing_ok=True)
    longest = chains(names, uses)
    left = sorted((it for it in names if it not in built), key=lambda it: -longest[it])
    tell_time(lanes, len(left))
    LOG.write_text("")
    for name in names:
        take_out(name)
    shutil.rmtree(ROOMS, ignore_errors=True)
    builder = Builder(names, uses)
    signal.signal(signal.SIGTERM, lambda *_: sys.exit(143))
    signal.signal(signal.SIGHUP, lambda *_: sys.exit(129))
    try:
        return builder.run(left, built, lanes)
    finally:
        shutil.rmtree(ROOMS, ignore_errors=True)


def main():
    uses = read_list()
    names = [*below(PROGRAM, uses), PROGRAM]
    OUT.mkdir(exist_ok=True)
    stamp = stamp_of(names, uses)
    if STAMP.is_file() and STAMP.read_text() == stamp:
        return 0
    if not build(names, uses, stamp):
        return 1
    # What was edited meanwhile is not what was proved: the stamp is then not written.
    after = stamp_of(names, uses)
    if after.splitlines()[1:] == stamp.splitlines()[1:]:
        STAMP.write_text(after)
    return 0


if __name__ == "__main__":
    try:
        sys.exit(main())
    except KeyboardInterrupt:
        print("interrupted", file=sys.stderr)
        sys.exit(130)
