#!/usr/bin/env python3
"""Measures openings through the built program.

    bench/openings.py PROGRAM

Needs Python 3's standard library alone. Stores are made in a temporary folder, on a tmpfs where there is one, so that the
disk is not what is measured. Two stores have the same 1,000,000 inserts of one series in their logs: in one they stand in
files, in the other a deletion and compactions have left no file. A script without commands is run on both, and the
difference is what the files take: their bytes are read, checked, and what is kept of them is made. Beside it stands the
bare reading of the same files. The log alone is the second store. A row has its steps, the milliseconds that a processor
worked in the best of five runs, and millions of steps a second. (The program has one thread, and what waits for a
processor is not counted.)

Then the memory of an opening: stores whose logs have so many rows, in pairs of 10,000 that were flushed, and that all
have one file of the same 10,000 points. A row has the rows of the log and the most memory of a run without a command.
"""

import os
import subprocess
import sys
import tempfile
import time

RUNS = 5
TMPFS = "/dev/shm"
POINTS = 1_000_000
ROWS = (10_000, 100_000, 1_000_000)
PAIR = 10_000
CREATE = "1 create timeseries root.g.d.s with datatype=INT64,encoding=TS_2DIFF\n"
# (an inner compaction takes ten files at most, and a script has fewer than a million lines)
INPUTS = 10
COMMANDS = 600_000


def insert(moment):
    return f"1 insert into root.g.d(timestamp,s) values({moment},{moment % 1000})\n"


def filled(files):
    """The script of a store with so many files of the same size."""
    points = POINTS // files
    yield CREATE
    for number in range(files):
        yield from map(insert, range(number * points, (number + 1) * points))
        yield "1 flush\n"


def emptied(files):
    """The same, and then no file is left."""
    yield from filled(files)
    yield "1 delete from root.g.d.s\n"
    yield from ["1 compact inner sequence\n"] * -(-files // INPUTS)


def overwritten(rows):
    """The script of a store with one file of as many points as a pair has, however often they were written."""
    yield CREATE
    for _ in range(rows // PAIR):
        yield from map(insert, range(PAIR))
        yield "1 flush\n"
        yield "1 compact cross\n"


def make(program, store, lines):
    lines = list(lines)
    for first in range(0, len(lines), COMMANDS):
        subprocess.run(
            [program, "run", store, "--pair", "1000000"],
            input="".join(lines[first : first + COMMANDS]).encode(),
            stdout=subprocess.DEVNULL,
            check=True,
        )


def opening(program, store):
    """Seconds of a processor for a run without a command."""
    with open(os.devnull, "r+b") as nothing:
        child = subprocess.Popen([program, "run", store], stdin=nothing, stdout=nothing)
        _, status, usage = os.wait4(child.pid, 0)
        child.returncode = os.waitstatus_to_exitcode(status)
    if child.returncode != 0:
        sys.exit(f"{program} ended with {child.returncode}")
    return usage.ru_utime + usage.ru_stime


def is_asleep(process):
    with open(f"/proc/{process}/stat") as stat:
        return stat.read().rpartition(")")[2].split()[0] == "S"


def full_pipe():
    """The two ends of a pipe that takes no byte more."""
    rest, full = os.pipe()
    os.set_blocking(full, False)
    try:
        while True:
            os.write(full, bytes(4096))
    except BlockingIOError:
        os.set_blocking(full, True)
    return rest, full


def most_memory(program, store):
    """The most memory in a run without a command, in MB: the program waits with its output, which it writes last."""
    rest, full = full_pipe()
    with open(os.devnull, "rb") as nothing:
        child = subprocess.Popen([program, "run", store], stdin=nothing, stdout=full)
    os.close(full)
    looks = 0
    while looks < 5:
        time.sleep(0.02)
        if child.poll() is not None:
            sys.exit(f"{program} ended with {child.returncode}")
        looks = looks + 1 if is_asleep(child.pid) else 0
    with open(f"/proc/{child.pid}/status") as status:
        most = next(line for line in status if line.startswith("VmHWM"))
    with os.fdopen(rest, "rb") as output:
        output.read()
    child.wait()
    return int(most.split()[1]) * 1024 / 1e6


def stored(store):
    return [entry.path for entry in os.scandir(store) if entry.name.endswith(".tsfile")]


def reading(paths):
    """Seconds of a processor in which the files are opened, read and closed."""
    started = time.process_time()
    for path in paths:
        file = os.open(path, os.O_RDONLY)
        os.read(file, os.fstat(file).st_size)
        os.close(file)
    return time.process_time() - started


def best(seconds):
    return min(seconds() for _ in range(RUNS))


def row(what, steps, seconds):
    print(f"{what:<60} {steps:>8} {seconds * 1e3:>8.1f} {steps / max(seconds, 1e-9) / 1e6:>10.2f}", flush=True)


def measure(program, folder, files):
    store, bare = (os.path.join(folder, f"{name}{files}") for name in ("filled", "emptied"))
    make(program, store, filled(files))
    make(program, bare, emptied(files))
    paths = stored(store)
    if len(paths) != files or stored(bare):
        sys.exit(f"{len(paths)} files in place of {files}, and {len(stored(bare))} in place of none")
    log = best(lambda: opening(program, bare))
    row(f"log of {POINTS:,} rows and {files:,} flushes, no file", POINTS, log)
    row(f"{files:,} files of {POINTS // files:,} points", POINTS, best(lambda: opening(program, store)) - log)
    row("bare reading of the same files", POINTS, best(lambda: reading(paths)))


def measure_memory(program, folder, rows):
    store = os.path.join(folder, f"overwritten{rows}")
    make(program, store, overwritten(rows))
    size = [os.stat(path).st_size for path in stored(store)]
    if len(size) != 1:
        sys.exit(f"{len(size)} files in place of one")
    what = f"log of {rows:,} rows, one file of {size[0]:,} bytes"
    print(f"{what:<60} {rows:>8} {most_memory(program, store):>8.1f}", flush=True)


def main():
    program = os.path.abspath(sys.argv[1])
    with tempfile.TemporaryDirectory(dir=TMPFS if os.path.isdir(TMPFS) else None) as folder:
        print(f"{'what':<60} {'steps':>8} {'ms':>8} {'million/s':>10}")
        for files in (10, 1000):
            measure(program, folder, files)
        print(f"{'what':<60} {'rows':>8} {'MB':>8}")
        for rows in ROWS:
            measure_memory(program, folder, rows)


if __name__ == "__main__":
    main()
