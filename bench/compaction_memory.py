#!/usr/bin/env python3
"""Measures the memory that compactions take of their own, through the built program.

    bench/compaction_memory.py PROGRAM

Needs Python 3's standard library and a C compiler, `cc`. The opening of a store replays its log, with a pair of points
in memory, so the greatest memory of the program does not show a compaction. So a small library stands before `malloc`: it
counts the bytes that are held, and writes at each opening of a stored file how many there are, and the most since the last
one. An opening opens each listed file; what is opened behind that is opened by the compaction. The stores are those of
bench/compactions.py. A row has what is compacted, the most bytes that were held while it ran beyond those held at its
beginning, the bytes of its output, and the bound: 1.5 times these and 50 MB.
"""

import os
import shutil
import subprocess
import sys
import tempfile

sys.dont_write_bytecode = True

import compactions

SHIM = r"""
#define _GNU_SOURCE
#include <dlfcn.h>
#include <fcntl.h>
#include <malloc.h>
#include <stdarg.h>
#include <stdio.h>
#include <string.h>
#include <unistd.h>

static long held, most;
static int out = -1;
static void *(*take)(size_t), *(*again)(void *, size_t);
static void (*give)(void *);
static int (*open_at)(int, const char *, int, ...);
static int (*open_one)(const char *, int, ...);

static void count(long bytes) { held += bytes; if (held > most) most = held; }

static void find(void) {
    take = dlsym(RTLD_NEXT, "malloc");
    again = dlsym(RTLD_NEXT, "realloc");
    give = dlsym(RTLD_NEXT, "free");
    open_at = dlsym(RTLD_NEXT, "openat");
    open_one = dlsym(RTLD_NEXT, "open");
}

static void say(const char *what) {
    char line[96];
    if (out < 0) out = open_at(AT_FDCWD, OUT, O_WRONLY | O_CREAT | O_TRUNC, 0644);
    int length = snprintf(line, sizeof line, "%s %ld %ld\n", what, held, most);
    if (write(out, line, length) != length) _exit(9);
    most = held;
}

void *malloc(size_t size) {
    if (!take) find();
    void *found = take(size);
    if (found) count(malloc_usable_size(found));
    return found;
}

void *realloc(void *old, size_t size) {
    if (!take) find();
    long before = old ? malloc_usable_size(old) : 0;
    void *found = again(old, size);
    if (found) count((long)malloc_usable_size(found) - before);
    return found;
}

void free(void *old) {
    if (!take) find();
    if (old) held -= malloc_usable_size(old);
    give(old);
}

int openat(int folder, const char *name, int flags, ...) {
    if (!take) find();
    va_list rest;
    va_start(rest, flags);
    int mode = flags & O_CREAT ? va_arg(rest, int) : 0;
    va_end(rest);
    if (strstr(name, ".tsfile")) say(flags & O_CREAT ? "made" : "open");
    return open_at(folder, name, flags, mode);
}

int open(const char *name, int flags, ...) {
    if (!take) find();
    va_list rest;
    va_start(rest, flags);
    int mode = flags & O_CREAT ? va_arg(rest, int) : 0;
    va_end(rest);
    if (strstr(name, ".tsfile")) say(flags & O_CREAT ? "made" : "open");
    return open_one(name, flags, mode);
}

__attribute__((destructor)) static void at_end(void) { say("end"); }
"""


def moments(program, store, script, shim, log):
    """At each opening of a stored file, and at the end: what is opened, the bytes held, and the most since the last."""
    with open(script, "rb") as source:
        subprocess.run(
            [program, "run", store],
            stdin=source,
            stdout=subprocess.DEVNULL,
            env=dict(os.environ, LD_PRELOAD=shim),
            check=True,
        )
    with open(log) as lines:
        return [(what, int(held), int(most)) for what, held, most in map(str.split, lines)]


def main():
    program = os.path.abspath(sys.argv[1])
    tmpfs = compactions.TMPFS
    print(f"{'what':<50} {'taken MB':>9} {'output MB':>10} {'bound MB':>9}")
    with tempfile.TemporaryDirectory(dir=tmpfs if os.path.isdir(tmpfs) else None) as folder:
        shim, log, script, empty, made, store = (
            os.path.join(folder, name) for name in ("shim.so", "log", "script", "empty", "made", "store")
        )
        source = "#define OUT \"" + log + "\"\n" + SHIM
        compile_it = ["cc", "-O2", "-shared", "-fPIC", "-x", "c", "-", "-o", shim, "-ldl"]
        subprocess.run(compile_it, input=source.encode(), check=True)
        open(empty, "w").close()
        for what, scripts, command, _ in compactions.TABLE:
            shutil.rmtree(made, ignore_errors=True)
            compactions.make(program, made, scripts())
            with open(script, "w") as out:
                out.write(command)
            shutil.rmtree(store, ignore_errors=True)
            shutil.copytree(made, store)
            opened = len(moments(program, store, empty, shim, log)) - 1
            ran = moments(program, store, script, shim, log)
            taken = max(most for _, _, most in ran[opened + 1 :]) - ran[opened][1]
            output = sum(entry.stat().st_size for entry in os.scandir(store) if not entry.name.startswith("slot"))
            bound = 1.5 * output + 50e6
            print(f"{what:<50} {taken / 1e6:>9.2f} {output / 1e6:>10.2f} {bound / 1e6:>9.0f}", flush=True)


if __name__ == "__main__":
    main()
