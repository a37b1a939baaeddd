#!/usr/bin/env python3
"""Runs whole scripts through the built program, and prints how fast it was and the memory that it took.

    bench/scripts.py PROGRAM

Needs Python 3's standard library alone. Each script is made anew in a temporary folder, on a tmpfs where there is one,
so that the disk is not what is measured; each run has a new store. The program prints to /dev/null. A row has what the script does, millions of steps a second in the best of three runs, that run's seconds,
the script's size, the greatest memory of the program, and that memory for each line of the script.
"""

import os
import shutil
import sys
import tempfile
import time

RUNS = 3
TMPFS = "/dev/shm"
DEVICE = "root.g.d"
LETTERS = "abcdefghijklmnopqrstuvwxyzABCDEFGHIJKLMNOPQRSTUVWXYZ"


def create(measurement, data_type="INT64"):
    return f"1 create timeseries {DEVICE}.{measurement} with datatype={data_type},encoding=PLAIN\n"


def names(count):
    """Short different measurements."""
    return [a + b for a in LETTERS for b in LETTERS + "0123456789"][:count]


def inserts(times):
    yield create("s")
    for moment in times:
        yield f"1 insert into {DEVICE}(timestamp,s) values({moment},{moment % 1000})\n"


def series_in_turns(series, points):
    for number in range(series):
        yield create(f"s{number}")
    for moment in range(points):
        for number in range(series):
            yield f"1 insert into {DEVICE}(timestamp,s{number}) values({moment},1)\n"


def rows(columns, count):
    for name in names(columns):
        yield create(name)
    listed = ",".join(names(columns))
    values = ",".join(["1"] * columns)
    for moment in range(count):
        yield f"1 insert into {DEVICE}(timestamp,{listed}) values({moment},{values})\n"


def rows_and_select(columns, count):
    yield from rows(columns, count)
    yield f"1 select {','.join(names(columns))} from {DEVICE}\n"


def tokens():
    """A line of 1 MiB of marks."""
    yield "1 " + "(" * (1048576 - 3) + "\n"


def repeated_name():
    """1,000 names, of which the last repeats the first."""
    listed = ",".join(names(999) + names(1))
    yield f"1 insert into {DEVICE}(timestamp,{listed}) values(1,{','.join(['1'] * 1000)})\n"


def conditions():
    """As many conditions as a line has room for."""
    yield create("s")
    wheres = " and ".join(["time>1"] * 95000)
    yield f"1 select s from {DEVICE} where {wheres}\n"


def quotes():
    """Texts of doubled quotes, as long as a text may be."""
    yield create("t", "TEXT")
    for moment in range(400):
        yield f"1 insert into {DEVICE}(timestamp,t) values({moment},'{chr(39) * 2 * 65535}')\n"


def many_series():
    for number in range(100000):
        yield f"1 create timeseries root.g.d{number}.s with datatype=INT64,encoding=PLAIN\n"


TABLE = [
    # what, the script's lines, how many things, what they are
    ("inserts of one cell, in order of time", lambda: inserts(range(999999)), 1000000, "lines"),
    ("inserts of one cell, the latest time first", lambda: inserts(range(999998, -1, -1)), 1000000, "lines"),
    ("inserts into 10,000 series in turns", lambda: series_in_turns(10000, 98), 990000, "lines"),
    ("1,000 rows of 1,000 cells", lambda: rows(1000, 1000), 1000000, "cells"),
    ("1,000 columns selected over 2,500 rows", lambda: rows_and_select(1000, 2500), 2500000, "cells"),
    ("1,000 columns selected over 10,000 rows", lambda: rows_and_select(1000, 10000), 10000000, "cells"),
    ("a line of 1 MiB of marks", tokens, 1, "lines"),
    ("1,000 names, the last as the first", repeated_name, 1, "lines"),
    ("95,000 conditions", conditions, 95000, "conditions"),
    ("400 texts of 65,535 doubled quotes", quotes, 400, "texts"),
    ("100,000 series, each named once", many_series, 100000, "lines"),
]


def run(program, store, script):
    """Seconds, and the greatest memory in bytes."""
    with open(script, "rb") as source, open(os.devnull, "wb") as sink:
        started = time.monotonic()
        child = os.fork()
        if child == 0:
            os.dup2(source.fileno(), 0)
            os.dup2(sink.fileno(), 1)
            os.dup2(sink.fileno(), 2)
            os.execv(program, [program, "run", store])
        _, status, usage = os.wait4(child, 0)
        seconds = time.monotonic() - started
    if os.waitstatus_to_exitcode(status) not in (0, 3):
        sys.exit(f"{program} ended with {os.waitstatus_to_exitcode(status)}")
    return seconds, usage.ru_maxrss * 1024


def main():
    program = os.path.abspath(sys.argv[1])
    print(f"{'what':<50} {'step':<10} {'million/s':>10} {'seconds':>8} {'script MB':>10} {'memory MB':>10} {'bytes/line':>11}")
    with tempfile.TemporaryDirectory(dir=TMPFS if os.path.isdir(TMPFS) else None) as folder:
        for what, lines, count, unit in TABLE:
            script = os.path.join(folder, "script")
            line_count = 0
            with open(script, "w") as out:
                for line in lines():
                    out.write(line)
                    line_count += 1
            size = os.path.getsize(script)
            runs = [run(program, os.path.join(folder, f"store{number}"), script) for number in range(RUNS)]
            for number in range(RUNS):
                shutil.rmtree(os.path.join(folder, f"store{number}"), ignore_errors=True)
            seconds = min(seconds for seconds, _ in runs)
            memory = max(memory for _, memory in runs)
            print(
                f"{what:<50} {unit:<10} {count / seconds / 1e6:>10.2f} {seconds:>8.2f} {size / 1e6:>10.1f}"
                f" {memory / 1e6:>10.0f} {memory / line_count:>11.0f}",
                flush=True,
            )


if __name__ == "__main__":
    main()
