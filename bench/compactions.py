#!/usr/bin/env python3
"""Measures compactions through the built program.

    bench/compactions.py PROGRAM

Needs Python 3's standard library alone. Stores are made in a temporary folder, on a tmpfs where there is one, so that the
disk is not what is measured. An inner compaction makes one file of 10 of 100,000 points, a cross compaction one of 10 late
files of 10,000 points and these. Each is run on a copy of its store, and so is an empty script: the difference is what the
compaction takes, without the opening. A row has what is compacted, millions of points a second in the best of three
runs, its seconds, the greatest memory of the program with the compaction and without it, and the bytes of the files
before and after it.
"""

import os
import shutil
import subprocess
import sys
import tempfile
import time

RUNS = 3
TMPFS = "/dev/shm"
FILES = 10
POINTS = 100000
LATE = 10000


def insert(moment):
    return f"1 insert into root.g.d(timestamp,s) values({moment},{moment % 1000})\n"


def sequence_files():
    """A script for each file."""
    yield "1 create timeseries root.g.d.s with datatype=INT64,encoding=TS_2DIFF\n"
    for number in range(FILES):
        yield "".join(map(insert, range(number * POINTS, (number + 1) * POINTS))) + "1 flush\n"


def with_late_files():
    yield from sequence_files()
    for number in range(FILES):
        moments = range(number * POINTS, (number + 1) * POINTS, POINTS // LATE)
        yield "".join(map(insert, moments)) + "1 flush\n"


def make(program, store, scripts):
    for script in scripts:
        subprocess.run(
            [program, "run", store, "--pair", "1000000"],
            input=script.encode(),
            stdout=subprocess.DEVNULL,
            check=True,
        )


TABLE = [
    # what, the scripts that make the store, the command, how many points it reads
    ("inner: 10 files of 100,000 points", sequence_files, "1 compact inner sequence\n", FILES * POINTS),
    ("cross: 10 late files of 10,000 points and these", with_late_files, "1 compact cross\n", FILES * (POINTS + LATE)),
]


def run(program, store, script):
    """Seconds, and the greatest memory in bytes."""
    with open(script, "rb") as source, open(os.devnull, "wb") as sink:
        started = time.monotonic()
        child = os.fork()
        if child == 0:
            os.dup2(source.fileno(), 0)
            os.dup2(sink.fileno(), 1)
            os.execv(program, [program, "run", store])
        _, status, usage = os.wait4(child, 0)
        seconds = time.monotonic() - started
    if os.waitstatus_to_exitcode(status) != 0:
        sys.exit(f"{program} ended with {os.waitstatus_to_exitcode(status)}")
    return seconds, usage.ru_maxrss * 1024


def best(program, folder, made, script):
    """The best of three runs of the script, each on a copy of the store, the memory, and the bytes of files after it."""
    runs = []
    for _ in range(RUNS):
        store = os.path.join(folder, "copy")
        shutil.rmtree(store, ignore_errors=True)
        shutil.copytree(made, store)
        runs.append(run(program, store, script))
    return min(seconds for seconds, _ in runs), max(memory for _, memory in runs), file_bytes(store)


def file_bytes(store):
    return sum(entry.stat().st_size for entry in os.scandir(store) if not entry.name.startswith("slot"))


def main():
    program = os.path.abspath(sys.argv[1])
    print(f"{'what':<50} {'million/s':>10} {'seconds':>8} {'memory MB':>10} {'without':>8} {'before MB':>10} {'after MB':>9}")
    with tempfile.TemporaryDirectory(dir=TMPFS if os.path.isdir(TMPFS) else None) as folder:
        script, empty, made = (os.path.join(folder, name) for name in ("script", "empty", "store"))
        open(empty, "w").close()
        for what, scripts, command, points in TABLE:
            shutil.rmtree(made, ignore_errors=True)
            make(program, made, scripts())
            with open(script, "w") as out:
                out.write(command)
            opening, opened, before = best(program, folder, made, empty)
            seconds, memory, after = best(program, folder, made, script)
            taken = seconds - opening
            print(
                f"{what:<50} {points / taken / 1e6:>10.2f} {taken:>8.3f} {memory / 1e6:>10.0f} {opened / 1e6:>8.0f}"
                f" {before / 1e6:>10.1f} {after / 1e6:>9.1f}",
                flush=True,
            )


if __name__ == "__main__":
    main()
