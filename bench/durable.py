#!/usr/bin/env python3
"""Measures durable inserts through the built program, beside the disk's own limit and SQLite.

    bench/durable.py PROGRAM

Needs Python 3's standard library alone. Stores lie in a temporary folder of the working directory, and then on a tmpfs.
The limit is the pattern of calls that an insert makes: write 60 bytes, fdatasync, write 1 byte, fdatasync, in a file
that has room for them, as a log that grew ahead has. Beside it stand the same calls where each lengthens the file. On
the tmpfs both are what the bare system calls cost this program. SQLite has one transaction an insert, with a write-ahead log
and synchronous=FULL. A rate is the best of three runs.
"""

import os
import random
import sqlite3
import sys
import tempfile
import time

from scripts import create, run

RUNS = 3
LATEST = 1000
TMPFS = "/dev/shm"
RECORDS = 1000000


def in_order(count):
    return list(range(count))


def late(count):
    """Times in order, but each fifth of them comes up to 1,000 places later."""
    chance = random.Random(1)
    places = [(k + (chance.randrange(1, LATEST + 1) if chance.random() < 0.2 else 0), k) for k in range(count)]
    return [moment for _, moment in sorted(places)]


def write_script(path, times):
    with open(path, "w") as out:
        out.write(create("s"))
        for moment in times:
            out.write(f"1 insert into root.g.d(timestamp,s) values({moment},{moment % 1000})\n")


def seconds_of_program(program, folder, times):
    script = os.path.join(folder, "script")
    write_script(script, times)
    with tempfile.TemporaryDirectory(dir=folder) as store:
        return run(program, os.path.join(store, "store"), script)[0]


def seconds_of_calls(folder, count, room):
    """Four calls for each insert, in a file of so many bytes."""
    with tempfile.TemporaryDirectory(dir=folder) as place:
        file = os.open(os.path.join(place, "slot"), os.O_RDWR | os.O_CREAT)
        os.pwrite(file, bytes(room), 0)
        os.fsync(file)
        frame, gate, at = bytes(60), bytes(1), 0
        started = time.monotonic()
        for _ in range(count):
            os.pwrite(file, frame, at + 1)
            os.fdatasync(file)
            os.pwrite(file, gate, at)
            os.fdatasync(file)
            at += 60
        seconds = time.monotonic() - started
        os.close(file)
        return seconds


def seconds_of_sqlite(folder, count):
    with tempfile.TemporaryDirectory(dir=folder) as place:
        base = sqlite3.connect(os.path.join(place, "base"), isolation_level=None)
        base.execute("pragma journal_mode=wal")
        base.execute("pragma synchronous=full")
        base.execute("create table points(time integer primary key, value integer)")
        started = time.monotonic()
        for moment in range(count):
            base.execute("insert or replace into points values(?,?)", (moment, moment % 1000))
        seconds = time.monotonic() - started
        base.close()
        return seconds


def rate(what, count, seconds, of):
    best = min(seconds() for _ in range(RUNS))
    share = f"{count / best / of:>8.2f}" if of else ""
    print(f"{what:<58} {count:>8} {count / best:>12.0f} {share}", flush=True)
    return count / best


def table(program, folder, where, count):
    limit = rate(f"{where}: the four calls with room", count, lambda: seconds_of_calls(folder, count, 61 * count), None)
    rate(f"{where}: the four calls that lengthen the file", count, lambda: seconds_of_calls(folder, count, 0), limit)
    ordered = rate(f"{where}: inserts in order of time", count,
                   lambda: seconds_of_program(program, folder, in_order(count)), limit)
    rate(f"{where}: inserts, a fifth of them late (share of in order)", count,
         lambda: seconds_of_program(program, folder, late(count)), ordered)
    rate(f"{where}: SQLite, one transaction an insert", count, lambda: seconds_of_sqlite(folder, count), limit)


def opening(program, folder):
    """A store of a million records is opened by a script without commands."""
    with tempfile.TemporaryDirectory(dir=folder) as place:
        store, script = os.path.join(place, "store"), os.path.join(place, "script")
        write_script(script, in_order(RECORDS - 1))
        run(program, store, script)
        open(script, "w").close()
        rate(f"tmpfs: opening a store of {RECORDS} records", RECORDS, lambda: run(program, store, script)[0], None)


def main():
    program = os.path.abspath(sys.argv[1])
    print(f"{'what':<58} {'steps':>8} {'steps/s':>12} {'of limit':>8}")
    with tempfile.TemporaryDirectory(dir=os.getcwd()) as folder:
        table(program, folder, "disk", 20000)
    if os.path.isdir(TMPFS):
        with tempfile.TemporaryDirectory(dir=TMPFS) as folder:
            table(program, folder, "tmpfs", 200000)
            opening(program, folder)


if __name__ == "__main__":
    main()
