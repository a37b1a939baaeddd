"""What checks/faults and checks/power share: commands of one session as a script, the plain stores behind each record of a
command, the replies that stand in an output, and runs of the program.

The store is that of checks/plain_store.py, and lines are written by checks/scripts, which has no suffix and so is loaded by
its path. A command that makes room for itself, and a flush, write several records, and a stop may leave any of them: the
plain stores between are the steps of the command.
"""

import copy
import importlib.machinery
import importlib.util
import os
import re
import subprocess

from plain_store import AGGREGATES, GREATEST, LEAST, LONGEST_RUN, Store, shown

D = "root.g.d"
S, T = (D, "s"), (D, "t")
FAILS = (b"device\n", b"memory\n")
WORDS = (b"ok\n", b"path\n", b"type\n", b"exists\n", b"full\n", *FAILS)
QUERIES = [
    ("listing",),
    ("select", D, ["s", "t"], LEAST, GREATEST),
    ("aggregates", D, [*[(function, "s") for function in AGGREGATES], ("count", "t")], LEAST, GREATEST),
]


def row(moment, s=None, t=None):
    return ("insert", D, moment, [cell for cell in (("s", s), ("t", t)) if cell[1] is not None])


SELECT, LISTING = ("select", D, ["t", "s"], 2, 9), ("listing",)
# Runs on one store, each with its pair.
HISTORY = [
    (None, [
        ("create", S, "INT64", "TS_2DIFF"), ("create", T, "TEXT", "DICTIONARY"),
        row(3, 5, b"a"), row(4, 6), row(8, 7), ("flush",), row(3, 8), row(9, 1, b"it's"), ("flush",),
        ("delete", S, 4, 5), SELECT, ("compact_cross",), row(10, 2), LISTING, ("compact_inner", "sequence"), row(2, 2),
    ]),
    (2, [
        SELECT, row(11, 3, b"b"), row(1, 4), row(12, 5, b"c"), row(13, 6), row(2, 9), ("delete", T, LEAST, 9), row(14, 7, b"d"),
        ("flush",), row(5, 5), ("flush",), ("compact_inner", "unsequence"),
        ("aggregates", D, [("count", "s")], LEAST, GREATEST), ("compact_cross",), row(15, 8), LISTING,
    ]),
]


def loaded(name):
    """A script of this folder as a module."""
    loader = importlib.machinery.SourceFileLoader(name, os.path.join(os.path.dirname(os.path.abspath(__file__)), name))
    module = importlib.util.module_from_spec(importlib.util.spec_from_loader(name, loader))
    loader.exec_module(module)
    return module


scripts = loaded("scripts")


def script_of(commands):
    return b"".join(b"1 %s\n" % scripts.line_of(command) for command in commands)


class Wrong(Exception):
    """What a program did that it must not do."""


# ---- the plain stores


def of_run(store, pair):
    """The store as a run with this pair begins on it."""
    store = copy.deepcopy(store)
    store.pair, store.drawn = pair or 10_000, store.named
    return store


def key_of(store):
    """What two stores have in common that no command can tell apart, but for the numbers of their files."""
    files = [[(file.born, sorted(file.points.items())) for file in store.files[space]] for space in store.files]
    frozen = [[(part.born, sorted(part.points.items())) for part in pair.values()] for pair in store.frozen]
    working = [sorted(points.items()) for points in store.working.values()]
    others = (sorted(store.types.items()), store.stamp, sorted(store.watermark.items()), store.marks)
    return repr((others, files, frozen, working))


def steps_of(store, command):
    """The reply to a command, and the stores behind each of its records, from that before it on."""
    word, *given = command
    steps = [store]

    def step(change):
        steps.append(copy.deepcopy(steps[-1]))
        return change(steps[-1])

    if word == "flush":
        if len(store.frozen) == 2 and any(store.working.values()):
            step(Store.flush_oldest)
        if any(store.working.values()):
            step(Store.freeze)
        while steps[-1].frozen:
            step(Store.flush_oldest)
        return b"ok\n", steps
    held = sum(map(len, store.working.values()))
    if word == "insert" and held and held + len(given[2]) > store.pair:
        if len(store.frozen) == 2:
            step(Store.flush_oldest)
        if copy.deepcopy(store).insert(*given) == b"ok\n":
            step(Store.freeze)
    reply = step(lambda one: getattr(one, word)(*given))
    if key_of(steps[-1]) == key_of(steps[-2]):
        steps.pop()
    return reply, steps


# ---- outputs


def unnumbered(text):
    """A listing without the numbers of its files: a call that failed may have drawn one more."""
    return re.sub(rb"(sequence) \d+ (born)", rb"\1 N \2", text)


def replies_in(output, commands):
    """The replies in an output, or in the beginning of one, as far as they are whole."""
    lines = [line for line in output.splitlines(keepends=True) if line.endswith(b"\n")]
    replies, at = [], 1
    for word, *_ in commands:
        last = {"select": b"rows ", "listing": b"marks "}.get(word)
        if lines[at : at + 1] and lines[at] in WORDS or word not in ("select", "aggregates", "listing"):
            end = at + 1
        elif last:
            end = next((k + 1 for k in range(at, len(lines)) if lines[k].startswith(last)), len(lines) + 1)
        else:
            end = at + 2
        if end > len(lines):
            break
        replies.append(b"".join(lines[at:end]))
        at = end
    return replies


def output_of(replies):
    """The output that has these replies of one session."""
    head = b"session 1\n" if replies else b""
    return head + b"".join(replies) + b"order" + b" 1" * len(replies) + b"\n"


# ---- the program


def run(program, folder, commands, pair=None, before=(), **given):
    """The code, output and errors of a run, by a program that may stand behind others."""
    options = ["--pair", str(pair)] if pair else []
    words = [*before, program, "run", *options, folder]
    try:
        ended = subprocess.run(words, input=script_of(commands), capture_output=True, timeout=LONGEST_RUN, **given)
    except subprocess.TimeoutExpired:
        raise Wrong(f"a run took more than {LONGEST_RUN} seconds") from None
    return ended.returncode, ended.stdout, ended.stderr


def check_names(folder, listing):
    """Whether a store that was opened has its slots and listed files and no other name, and each number once."""
    listed = [int(number) for number in re.findall(rb"sequence (\d+) born", listing)]
    wanted = sorted(["slot0", "slot1", *[f"{number}.tsfile" for number in listed]])
    if sorted(os.listdir(folder)) != wanted:
        raise Wrong(f"the directory has {sorted(os.listdir(folder))}, and the store {wanted}")


def told(code, output, errors):
    """An end of a run for the reader of a failure."""
    return f"code {code}, errors {errors!r}, output {shown(output)}"
