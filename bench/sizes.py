#!/usr/bin/env python3
"""Measures how large stored files are, through the built program, beside what the format says.

    bench/sizes.py PROGRAM

Needs Python 3's standard library alone. Each row is a store of one series of 100,000 points, written by a script and
flushed into one file. The size that the format says is worked out here from docs/FORMATS.md, page by page, and shares no
code with the program. A row has the points, the type and encoding, the bytes of the file, those that the format says, and
bytes a point; then those of times and values in pages, those of the index, and the bytes of the log a point. It ends with
status 1 where a file has another size than the format says.
"""

import os
import shutil
import subprocess
import sys
import tempfile

POINTS = 100000
PAGE = 1000
DEVICE, MEASUREMENT = "root.g.d", "s"
WORDS = ["running ", "starting", "stopped ", "error 17", "idle    "]


def leb(number):
    size = 1
    while number >= 128:
        number >>= 7
        size += 1
    return size


def zigzag(number):
    return 2 * number if number >= 0 else -2 * number - 1


def packed(count, width):
    return (count * width + 7) // 8


def differences(values):
    """Bytes of TS_2DIFF."""
    steps = [after - before for before, after in zip(values, values[1:])]
    if not steps:
        return leb(len(values)) + leb(zigzag(values[0]))
    width = (max(steps) - min(steps)).bit_length()
    return leb(len(values)) + leb(zigzag(values[0])) + leb(zigzag(min(steps))) + 1 + packed(len(steps), width)


def runs(values, code):
    """Bytes of RLE."""
    size, at = leb(len(values)), 0
    while at < len(values):
        end = at
        while end < len(values) and values[end] == values[at]:
            end += 1
        size, at = size + leb(end - at) + leb(code(values[at])), end
    return size


def dictionary(texts):
    different = set(texts)
    return (leb(len(texts)) + leb(len(different)) + sum(2 + len(it) for it in different)
            + packed(len(texts), (len(different) - 1).bit_length()))


def size_of(value, kind):
    return {"BOOLEAN": 1, "INT32": 4, "INT64": 8}.get(kind) or 2 + len(value)


def encoded(values, kind, encoding):
    if encoding == "PLAIN":
        return leb(len(values)) + sum(size_of(it, kind) for it in values)
    if encoding == "RLE":
        return runs(values, int if kind == "BOOLEAN" else zigzag)
    return differences(values) if encoding == "TS_2DIFF" else dictionary(values)


def statistics(values, kind):
    ends = size_of(values[0], kind) + size_of(values[-1], kind)
    return 24 + ends + (2 * size_of(0, kind) if kind.startswith("INT") else 0)


def file_sizes(times, values, kind, encoding):
    """Bytes of the pages' bodies, and of the whole file."""
    cut = [slice(at, at + PAGE) for at in range(0, len(times), PAGE)]
    bodies = [4 + differences(times[it]) + encoded(values[it], kind, encoding) for it in cut]
    names = 2 + len(DEVICE) + 2 + len(MEASUREMENT)
    group = 1 + 2 + len(DEVICE)
    chunk = 1 + 2 + len(MEASUREMENT) + 2 + sum(5 + it for it in bodies)
    entry = names + 2 + 8 + statistics(values, kind) + 4 + sum(8 + statistics(values[it], kind) for it in cut)
    return sum(bodies), 7 + group + chunk + 3 + entry + 5 + names + 8 + 14


def number(value):
    return str(value)


def text(value):
    return f"'{value}'"


TABLE = [
    # points, type, encodings, the value of the i-th point, how a script writes it
    ("counter", "INT64", ("PLAIN", "RLE", "TS_2DIFF"), lambda i: i, number),
    ("saw tooth of 1,000", "INT64", ("PLAIN", "TS_2DIFF"), lambda i: i % 1000, number),
    ("steps of 100 points", "INT32", ("PLAIN", "RLE", "TS_2DIFF"), lambda i: i // 100, number),
    ("a switch that changes each 50 points", "BOOLEAN", ("PLAIN", "RLE"), lambda i: i // 50 % 2 == 1,
     lambda value: "true" if value else "false"),
    ("one of five words of 8 bytes", "TEXT", ("PLAIN", "DICTIONARY"), lambda i: WORDS[i * i % 5], text),
]
TIMES = [1_700_000_000_000 + 1000 * i + i % 7 for i in range(POINTS)]


def stored(program, folder, kind, encoding, values, write):
    """Bytes of the one file, and of the log."""
    store = f"{folder}/store"
    script = f"1 create timeseries {DEVICE}.{MEASUREMENT} with datatype={kind},encoding={encoding}\n" + "".join(
        f"1 insert into {DEVICE}(timestamp,{MEASUREMENT}) values({at},{write(it)})\n" for at, it in zip(TIMES, values)
    ) + "1 flush\n"
    try:
        subprocess.run([program, "run", store, "--pair", str(POINTS)], input=script.encode(),
                       stdout=subprocess.DEVNULL, check=True)
        files = [it for it in os.listdir(store) if it.endswith(".tsfile")]
        if len(files) != 1:
            sys.exit(f"{len(files)} files in place of one")
        return os.path.getsize(f"{store}/{files[0]}"), os.path.getsize(f"{store}/slot0")
    finally:
        shutil.rmtree(store, ignore_errors=True)


def main(program):
    good = True
    with tempfile.TemporaryDirectory(dir="/dev/shm" if os.path.isdir("/dev/shm") else None) as folder:
        for name, kind, encodings, value, write in TABLE:
            values = [value(i) for i in range(POINTS)]
            for encoding in encodings:
                size, log = stored(program, folder, kind, encoding, values, write)
                bodies, whole = file_sizes(TIMES, values, kind, encoding)
                good = good and size == whole
                print(f"{name}, {kind} {encoding}: {size} bytes, the format says {whole}; {size / POINTS:.3f} a point, "
                      f"{bodies / POINTS:.3f} in pages, {(whole - bodies) / POINTS:.3f} around them; "
                      f"{log / POINTS:.1f} in the log")
    return 0 if good else 1


if len(sys.argv) != 2:
    sys.exit(__doc__)
sys.exit(main(os.path.abspath(sys.argv[1])))
