#!/usr/bin/env python3
"""Proves and builds the program dmljob, the crates below it side by side, and shows how far it is.

Usage: tools/prove.py

A run of rt holds every crate below the one that it works on, so in one folder two crates over a common one would wait
for each other. So `rt lib` is run here and in whole copies of the crates, in each for one library at a time, once those
below it are proved: rt takes what was proved in another copy on the machine. At last `rt run` builds the program here.
"""

import fcntl
import os
import re
import shutil
import signal
import subprocess
import sys
import tempfile
import time

TOP = os.path.dirname(os.path.dirname(os.path.realpath(__file__)))
PROGRAM = "dmljob"
# The memory that one job of a check takes, as measured, with some to spare.
MEMORY_OF_A_JOB = 1_500_000_000


def used_by_crates():
    """Returns, for each crate in crates.txt, those of them that it uses."""
    with open(f"{TOP}/crates.txt", encoding="utf-8") as file:
        lines = [line.partition("#")[0].partition(":") for line in file]
    uses = {head.split()[0]: used.split() for head, colon, used in lines if colon}
    return {crate: [it for it in used if it in uses] for crate, used in uses.items()}


def below(crate, uses):
    """Returns the crates that this one stands on, each after those that it stands on."""
    found = []
    for used in uses[crate]:
        found += [it for it in [*below(used, uses), used] if it not in found]
    return found


def way(crate, uses, libraries):
    """Returns how many libraries stand on the longest way from this one up to the program."""
    return 1 + max((way(it, uses, libraries) for it in libraries if crate in uses[it]), default=0)


def free_memory():
    with open("/proc/meminfo", encoding="ascii") as file:
        return 1024 * int(re.search(r"MemAvailable:\s+(\d+)", file.read())[1])


class Room:
    """The repository, or a copy of it, in which one command of rt works at a time."""

    def __init__(self, top):
        self.top, self.crate, self.process, self.log = top, None, None, None

    def start(self, crate, *words):
        """Starts a command of rt in a crate's folder."""
        self.crate, self.log = crate, tempfile.TemporaryFile("w+", encoding="utf-8", errors="replace")
        how = {"stdin": subprocess.DEVNULL, "stdout": self.log, "stderr": subprocess.STDOUT}
        self.process = subprocess.Popen(["rt", *words], cwd=f"{self.top}/crates/{crate}", **how)

    def said(self):
        """Returns what the command has said."""
        self.log.seek(0)
        return self.log.read()

    def end(self):
        """Ends the command where it still runs."""
        if self.process and self.process.poll() is None:
            self.process.terminate()
            self.process.wait()


class Rooms:
    """The repository itself, and copies of it below a folder, as many as there is work for."""

    def __init__(self, folder):
        self.folder, self.all = folder, [Room(TOP)]
        self.most = len(os.sched_getaffinity(0))

    def add(self):
        """Adds a copy of all that rt reads, without what it has made."""
        top = f"{self.folder}/{len(self.all)}"
        shutil.copytree(f"{TOP}/crates", f"{top}/crates", symlinks=True, ignore=shutil.ignore_patterns("out"))
        for name in ("crates.txt", "HANDLES"):
            shutil.copy2(f"{TOP}/{name}", top)
        self.all.append(Room(top))

    def free(self, wanted, working):
        """Returns the rooms in which nothing works, as many as are wanted where there may be so many."""
        while len(self.all) < min(len(working) + wanted, self.most):
            self.add()
        return [room for room in self.all if room not in working][:wanted]


class Progress:
    """Says how far the proofs are: in one line that is written again and again on a terminal, else in a line each."""

    def __init__(self, crates):
        self.start, self.crates, self.done = time.monotonic(), crates, 0
        self.is_terminal = sys.stderr.isatty()

    def show(self, crate=None, end=""):
        """Says it: of a crate that has just been proved, or of the time alone, where it is a terminal."""
        self.done += crate is not None
        seconds = time.monotonic() - self.start
        text = f"{PROGRAM}: {self.done} of {self.crates} crates proved, {seconds:.0f} seconds so far"
        if self.is_terminal:
            print(f"\r{text}", end=end, file=sys.stderr, flush=True)
        elif crate:
            print(f"{text}: {crate}", file=sys.stderr, flush=True)


def build_libraries(libraries, uses, rooms, progress):
    """Builds the libraries, each once those below it are built, of several ready ones first that with the longest way
    to the program. Returns the room of one that fails."""
    left = sorted(libraries, key=lambda it: way(it, uses, libraries), reverse=True)
    built, working = set(), []
    while left or working:
        ready = [it for it in left if built.issuperset(uses[it])]
        free = rooms.free(len(ready), working)
        jobs = max(1, min(rooms.most, free_memory() // (MEMORY_OF_A_JOB * max(1, len(free)))))
        for room, crate in zip(free, ready):
            room.start(crate, "lib", "--jobs", str(jobs))
            working.append(room)
            left.remove(crate)
        time.sleep(0.2)
        progress.show()
        for room in [it for it in working if it.process.poll() is not None]:
            working.remove(room)
            if room.process.returncode:
                return room
            built.add(room.crate)
            progress.show(room.crate)
    return None


def build_program(room, progress):
    """Proves and builds the program itself. Returns the room where that fails."""
    room.start(PROGRAM, "run", "--", "help")
    while room.process.poll() is None:
        time.sleep(0.2)
        progress.show()
    return room if room.process.returncode else None


def hold():
    """Keeps other runs of this tool out of this checkout, until what is returned is closed."""
    os.makedirs(f"{TOP}/crates/{PROGRAM}/out", exist_ok=True)
    held = open(f"{TOP}/crates/{PROGRAM}/out/proving", "w", encoding="utf-8")
    try:
        fcntl.flock(held, fcntl.LOCK_EX | fcntl.LOCK_NB)
    except BlockingIOError:
        print(f"{PROGRAM}: waits for another run to finish", file=sys.stderr)
        fcntl.flock(held, fcntl.LOCK_EX)
    return held


def fail(room):
    log = f"{TOP}/crates/{PROGRAM}/out/build.log"
    with open(log, "w", encoding="utf-8") as file:
        file.write(room.said())
    print(f"{PROGRAM}: {room.crate} is not proved or built: see {log}", file=sys.stderr)
    return 1


def main():
    for ending in (signal.SIGTERM, signal.SIGHUP):
        signal.signal(ending, lambda *_: sys.exit(1))
    if not shutil.which("rt"):
        print(f"{PROGRAM}: it is not built, and there is no command rt (the Rattle toolchain)", file=sys.stderr)
        return 1
    print(f"{PROGRAM}: proving and building the program; the first time this takes some minutes", file=sys.stderr)
    uses = used_by_crates()
    libraries = below(PROGRAM, uses)
    progress = Progress(len(libraries) + 1)
    with hold(), tempfile.TemporaryDirectory(prefix=f"{PROGRAM}-", ignore_cleanup_errors=True) as folder:
        rooms = Rooms(folder)
        try:
            failed = build_libraries(libraries, uses, rooms, progress) or build_program(rooms.all[0], progress)
            progress.show(None if failed else PROGRAM, end="\n")
            return fail(failed) if failed else 0
        finally:
            for room in rooms.all:
                room.end()


if __name__ == "__main__":
    try:
        sys.exit(main())
    except KeyboardInterrupt:
        sys.exit(130)
