#!/usr/bin/env python3
"""Runs the program on the tables of this folder, and compares what it answers with what they say.

Usage: tests/rows/run.py PROGRAM

Scripts with an answer, and faults with a name, are run at all settings: no answer depends on them. The other rows are
run at the defaults. Of each run the exit status, the standard output and the standard error are compared. Status 1
where a run differs, or where a table has no rows.
"""

import concurrent.futures
import os
import subprocess
import sys
from collections import namedtuple

import answers
import cuts
import faults
from texts import BAD_NUMBER, done

# The defaults, and the smallest chunks up to the largest with one worker, two and as many as there may be.
SETTINGS = [(4096, 4)] + [(chunk, workers) for chunk in (8, 16, 32, 4096, 1048576) for workers in (1, 2, 16)]
SECONDS = 300

# A row's name, the words behind `run`, the script, and what is wanted: exit status, standard output and standard error.
Run = namedtuple("Run", "name words script status answer said")


def as_bytes(text):
    return text if isinstance(text, bytes) else text.encode()


def shown(text):
    """Returns a text as a name, cut where it is long."""
    return repr(text) if len(text) <= 60 else f"{text[:60]!r}.."


def answered(name, script, answer):
    """Returns the run of a script with this answer."""
    return Run(name, [], as_bytes(script), 0, answer.encode(), b"")


def faulty(name, text, line, called):
    """Returns the run of a text with a fault: nothing is written."""
    place = "" if line is None else f"line {line}: "
    return Run(name, [], as_bytes(text), 2, b"", f"dmljob: {place}{called}\n".encode())


def at_all_settings(run, arena=None):
    """Returns a run at each of the settings, with an arena of its own where one is given."""
    room = [] if arena is None else ["--arena", str(arena)]
    return [
        run._replace(words=["--chunk", str(chunk), "--workers", str(workers), *room]) for chunk, workers in SETTINGS
    ]


def number(word, value):
    """Returns the run of a fill whose pattern is this word: its bytes are shown, the lowest first."""
    script = f"image 1\npage 0\nfill {word} 0 8\nshow 0 8"
    if value is None:
        return faulty(word, script, 3, BAD_NUMBER)
    return answered(word, script, done(0, 1, 8) + f"show 0 {value.to_bytes(8, 'little').hex()}\n")


def cut(pieces):
    """Returns the run of what is there of a script after each byte of its pieces."""
    script = answer = ""
    for piece, wanted in pieces:
        for letter in piece:
            script += letter
            name = f"...{script[-40:]!r}"
            if isinstance(wanted, str):
                yield answered(name, script, answer + wanted)
            else:
                yield faulty(name, script, *wanted)
        if isinstance(wanted, str) and piece.endswith("\n"):
            answer += wanted


def tables():
    """Returns the name of each table with its runs."""
    for name, rows in answers.TABLES.items():
        yield name, [run for row in rows for run in at_all_settings(answered(*row), answers.ARENAS.get(row[0]))]
    yield "named", [run for row in faults.NAMED for run in at_all_settings(faulty(*row))]
    for name, rows in faults.TABLES.items():
        yield name, [faulty(shown(row[0]), *row) for row in rows]
    yield "numbers", [number(*row) for row in faults.NUMBERS]
    yield "sound", [answered(shown(text), text, answer) for text, answer in faults.SOUND]
    for name, pieces in cuts.TABLES.items():
        yield f"{name}, cut", list(cut(pieces))


def difference(part, found, wanted):
    """Returns in a list how a part of a run differs, if it does."""
    if found == wanted:
        return []
    place = len(os.path.commonprefix([found, wanted]))
    return [f"{part} from byte {place} on: {found[place:place + 60]!r}, not {wanted[place:place + 60]!r}"]


def differences(program, run):
    """Runs the program once; returns all that differs from what is wanted."""
    try:
        ended = subprocess.run([program, "run", *run.words], input=run.script, capture_output=True, timeout=SECONDS)
    except subprocess.TimeoutExpired:
        return [f"no end after {SECONDS} seconds"]
    status = [] if ended.returncode == run.status else [f"status {ended.returncode}, not {run.status}"]
    return [
        *status,
        *difference("standard output", ended.stdout, run.answer),
        *difference("standard error", ended.stderr, run.said),
    ]


def main(program):
    wrong = 0
    runs = []
    for table, rows in tables():
        if not rows:
            print(f"rows: the table '{table}' is empty")
            wrong += 1
        runs += [(table, run) for run in rows]
    with concurrent.futures.ThreadPoolExecutor(os.cpu_count()) as pool:
        found = list(pool.map(lambda it: differences(program, it[1]), runs))
    for (table, run), parts in zip(runs, found):
        if parts:
            print(f"rows: {table}: {' '.join([run.name, *run.words])}: {'; '.join(parts)}")
            wrong += 1
    print(f"rows: {len(runs)} runs, {wrong} wrong")
    return 1 if wrong else 0


if __name__ == "__main__":
    if len(sys.argv) != 2:
        sys.exit("usage: run.py PROGRAM")
    sys.exit(main(sys.argv[1]))
