#!/usr/bin/env python3
"""Measures queries of one file through the built program, beside SQLite on the same data.

    bench/queries.py PROGRAM

Needs Python 3's standard library and its sqlite3. Stores are made in a temporary folder, on a tmpfs where there is one. A
file has 999,998 points of one series, or 10 points of each of 10,000 series. A script asks the same query many times; what
an empty script takes is taken off, and the rest divided by how many there are. So a row is what one query takes, the
text of its reply among it. SQLite has the points of one series in a table with an index on time, is asked from Python, and
its rows are fetched.
"""

import os
import sqlite3
import subprocess
import sys
import tempfile
import time

RUNS = 3
TMPFS = "/dev/shm"
POINTS = 999998
SERIES = 10000
ITEMS = "count(s),min_value(s),max_value(s)"
ONE_PERCENT = (500000, 509999)


def value(moment):
    return moment * 7919 % 100003


def one_series():
    yield "1 create timeseries root.g.d.s with datatype=INT64,encoding=TS_2DIFF\n"
    for moment in range(POINTS):
        yield f"1 insert into root.g.d(timestamp,s) values({moment},{value(moment)})\n"
    yield "1 flush\n"


def many_series():
    for number in range(SERIES):
        yield f"1 create timeseries root.g.d.s{number} with datatype=INT64,encoding=TS_2DIFF\n"
    for moment in range(10):
        for number in range(SERIES):
            yield f"1 insert into root.g.d(timestamp,s{number}) values({moment},{number})\n"
    yield "1 flush\n"


WITHIN = f"where time>={ONE_PERCENT[0]} and time<={ONE_PERCENT[1]}"
BETWEEN = f"where time between {ONE_PERCENT[0]} and {ONE_PERCENT[1]}"

TABLE = [
    # what, the store's script, the query, how often, the query of SQLite, the aim in milliseconds
    ("count, least and greatest of all", one_series, f"select {ITEMS} from root.g.d", 1000,
     "select count(value),min(value),max(value) from points", 0.5),
    ("the same of 1 %", one_series, f"select {ITEMS} from root.g.d {WITHIN}", 1000,
     f"select count(value),min(value),max(value) from points {BETWEEN}", 0.2),
    ("points of 1 %", one_series, f"select s from root.g.d {WITHIN}", 200,
     f"select time,value from points {BETWEEN}", 1.0),
    ("points of all", one_series, "select s from root.g.d", 3, "select time,value from points", 100.0),
    ("points of one series of 10,000", many_series, "select s5000 from root.g.d", 1000, None, 0.3),
]


def seconds_of(program, store, script):
    best = None
    for _ in range(RUNS):
        started = time.monotonic()
        subprocess.run(
            [program, "run", store, "--pair", "1000000"], input=script, stdout=subprocess.DEVNULL, check=True
        )
        taken = time.monotonic() - started
        best = taken if best is None else min(best, taken)
    return best


def sqlite_seconds(connection, query, times):
    best = None
    for _ in range(RUNS):
        started = time.monotonic()
        for _ in range(max(1, times // 100)):
            connection.execute(query).fetchall()
        taken = (time.monotonic() - started) / max(1, times // 100)
        best = taken if best is None else min(best, taken)
    return best


def points_in_sqlite(path):
    connection = sqlite3.connect(path)
    connection.execute("create table points(time integer, value integer)")
    connection.executemany("insert into points values(?,?)", ((moment, value(moment)) for moment in range(POINTS)))
    connection.execute("create index by_time on points(time)")
    connection.commit()
    return connection


def main():
    program = os.path.abspath(sys.argv[1])
    print(f"{'what':<36} {'ms':>9} {'aim':>7} {'sqlite ms':>10}")
    with tempfile.TemporaryDirectory(dir=TMPFS if os.path.isdir(TMPFS) else None) as folder:
        connection = points_in_sqlite(os.path.join(folder, "points.db"))
        stores = {}
        for what, lines, query, times, asked, aim in TABLE:
            store = os.path.join(folder, lines.__name__)
            if lines not in stores:
                subprocess.run(
                    [program, "run", store, "--pair", "1000000"],
                    input="".join(lines()).encode(),
                    stdout=subprocess.DEVNULL,
                    check=True,
                )
                stores[lines] = seconds_of(program, store, b"")
            script = f"1 {query}\n".encode() * times
            taken = (seconds_of(program, store, script) - stores[lines]) / times
            beside = f"{1000 * sqlite_seconds(connection, asked, times):>10.3f}" if asked else f"{'':>10}"
            print(f"{what:<36} {1000 * taken:>9.3f} {aim:>7.1f} {beside}", flush=True)


if __name__ == "__main__":
    main()
