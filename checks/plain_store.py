"""What checks/scripts and checks/lines share: a plain slow store, which says what a script must print, and runs of the
program on many small stores, in parallel processes.

The store is written from the rules in docs/DEFINITIONS.md and docs/FORMATS.md alone. A command is a tuple: its word, and
what it is given. A value is a bool, an int or bytes.
"""

import contextlib
import multiprocessing
import os
import shutil
import subprocess
import sys
import tempfile

LEAST, GREATEST = -(2**63), 2**63 - 1
LIMITS = {"INT32": 2**31, "INT64": 2**63}
SUITS = {
    "BOOLEAN": ("PLAIN", "RLE"),
    "INT32": ("PLAIN", "RLE", "TS_2DIFF"),
    "INT64": ("PLAIN", "RLE", "TS_2DIFF"),
    "TEXT": ("PLAIN", "DICTIONARY"),
}
AGGREGATES = ("count", "first_value", "last_value", "min_value", "max_value", "min_time", "max_time", "sum")
LONGEST_RUN = 120


def fits(value, data_type):
    if data_type in LIMITS:
        return type(value) is int and -LIMITS[data_type] <= value < LIMITS[data_type]
    return type(value) is {"BOOLEAN": bool, "TEXT": bytes}[data_type]


def text_of(value):
    """A value as it is printed."""
    if value is None:
        return b"null"
    if isinstance(value, bool):
        return b"true" if value else b"false"
    return b"%d" % value if isinstance(value, int) else b"'" + value.replace(b"'", b"''") + b"'"


def aggregate(function, rows):
    if function == "count":
        return len(rows)
    if not rows:
        return None
    times, values = zip(*rows)
    if function == "sum":
        return sum(values)
    return {
        "first_value": values[0],
        "last_value": values[-1],
        "min_value": min(values),
        "max_value": max(values),
        "min_time": times[0],
        "max_time": times[-1],
    }[function]


class File:
    """A file or a frozen part: when it was frozen, and its points by series and time."""

    def __init__(self, number, born, points):
        self.number, self.born, self.points = number, born, points

    def times(self, device):
        return [time for series, time in self.points if series[0] == device]


class Store:
    """What a store has. A series is a device and a measurement."""

    def __init__(self):
        self.types = {}
        self.stamp = 0
        self.named = 0
        self.watermark = {}
        self.marks = []
        self.files = {"sequence": [], "unsequence": []}
        self.frozen = []
        self.working = {"sequence": {}, "unsequence": {}}

    def output(self, commands, pair=None):
        """What a run prints for a script, pairs of a session and a command. It has the replies of each session together.
        A number that was drawn before it for a file without points, which never came to be, may be drawn again."""
        self.pair, self.drawn = pair or 10_000, self.named
        replies = {}
        for session, (word, *given) in commands:
            replies.setdefault(session, []).append(getattr(self, word)(*given))
        text = b"".join(b"session %d\n" % session + b"".join(replies[session]) for session in replies)
        return text + b"order" + b"".join(b" %d" % session for session, _ in commands) + b"\n"

    # ---- points

    def survives(self, born, series, time):
        return not any(
            mark == series and first <= time <= last and version > born for mark, first, last, version in self.marks
        )

    def layers(self):
        """All parts with points, from the lowest priority to the highest."""
        for space in ("sequence", "unsequence"):
            yield from self.files[space]
            for pair in self.frozen:
                yield pair[space]
            yield File(None, self.stamp, self.working[space])

    def winners(self, layers):
        points = {}
        for layer in layers:
            for (series, time), value in layer.points.items():
                if self.survives(layer.born, series, time):
                    points[series, time] = value
        return points

    def column(self, series, first, last):
        points = self.winners(self.layers())
        return sorted((time, value) for (other, time), value in points.items() if other == series and first <= time <= last)

    # ---- commands

    def create(self, series, data_type, _encoding):
        if series in self.types:
            return b"exists\n"
        self.types[series] = data_type
        self.stamp += 1
        return b"ok\n"

    def insert(self, device, time, cells):
        """A row that does not fit the working pair makes room first, by a flush of the oldest pair, also where it is
        refused then."""
        held = len(self.working["sequence"]) + len(self.working["unsequence"])
        is_full = held and held + len(cells) > self.pair
        if is_full and len(self.frozen) == 2:
            self.flush_oldest()
        if any((device, name) not in self.types for name, _ in cells):
            return b"path\n"
        if not all(fits(value, self.types[device, name]) for name, value in cells):
            return b"type\n"
        if is_full:
            self.freeze()
        space = "unsequence" if device in self.watermark and time <= self.watermark[device] else "sequence"
        self.stamp += 1
        for name, value in cells:
            self.working[space][(device, name), time] = value
        return b"ok\n"

    def delete(self, series, first, last):
        if series not in self.types:
            return b"path\n"
        self.stamp += 1
        if first <= last:
            for points in self.working.values():
                for other, time in list(points):
                    if other == series and first <= time <= last:
                        del points[other, time]
            self.marks.append((series, first, last, self.stamp))
        self.purge()
        return b"ok\n"

    def freeze(self):
        if not self.working["sequence"] and not self.working["unsequence"]:
            return
        for (device, _), time in self.working["sequence"]:
            self.watermark[device] = max(time, self.watermark.get(device, time))
        self.frozen.append({space: File(None, self.stamp, points) for space, points in self.working.items()})
        self.working = {"sequence": {}, "unsequence": {}}

    def flush_oldest(self):
        pair = self.frozen.pop(0)
        for space in ("sequence", "unsequence"):
            if pair[space].points:
                pair[space].number = self.named = self.draw()
                self.files[space].append(pair[space])
        self.purge()

    def flush(self):
        if len(self.frozen) == 2 and (self.working["sequence"] or self.working["unsequence"]):
            self.flush_oldest()
        self.freeze()
        while self.frozen:
            self.flush_oldest()
        return b"ok\n"

    def draw(self):
        self.drawn += 1
        return self.drawn

    def purge(self):
        borns = [layer.born for space in self.files for layer in self.files[space]]
        borns += [pair["sequence"].born for pair in self.frozen]
        self.marks = [mark for mark in self.marks if borns and mark[3] > min(borns)]

    def merged(self, inputs):
        made = File(self.draw(), self.stamp, self.winners(inputs))
        if not made.points:
            return []
        self.named = made.number
        return [made]

    def compact_inner(self, space):
        files = self.files[space]
        if len(files) >= 2:
            run = min(len(files), 10)
            self.files[space] = self.merged(files[:run]) + files[run:]
            self.purge()
        return b"ok\n"

    def compact_cross(self):
        late, files = self.files["unsequence"], self.files["sequence"]
        if not late:
            return b"ok\n"
        first, end = len(files), 0
        for device in {series[0] for file in late for series, _ in file.points}:
            hull = [time for file in late for time in file.times(device)]
            meets = [at for at, file in enumerate(files) if any(time >= min(hull) for time in file.times(device))]
            first = min([first, *meets])
            meets = [at for at, file in enumerate(files) if any(time <= max(hull) for time in file.times(device))]
            end = max([end, *[at + 1 for at in meets]])
        end = max(first, end)
        self.files["sequence"] = files[:first] + self.merged(files[first:end] + late) + files[end:]
        self.files["unsequence"] = []
        self.purge()
        return b"ok\n"

    # ---- answers

    def select(self, device, names, first, last):
        if any((device, name) not in self.types for name in names):
            return b"path\n"
        columns = [dict(self.column((device, name), first, last)) for name in names]
        times = sorted({time for column in columns for time in column})
        lines = [",".join(["time", *names]).encode()]
        lines += [b",".join([b"%d" % time, *[text_of(column.get(time)) for column in columns]]) for time in times]
        return b"\n".join([*lines, b"rows %d\n" % len(times)])

    def aggregates(self, device, items, first, last):
        if any((device, name) not in self.types for _, name in items):
            return b"path\n"
        if any(function in ("min_value", "max_value", "sum") and self.types[device, name] not in LIMITS for function, name in items):
            return b"type\n"
        answers = [aggregate(function, self.column((device, name), first, last)) for function, name in items]
        head = ",".join(f"{function}({name})" for function, name in items).encode()
        return head + b"\n" + b",".join(map(text_of, answers)) + b"\n"

    def listing(self):
        text = ""
        for space in ("sequence", "unsequence"):
            for file in self.files[space]:
                times = [time for _, time in file.points]
                text += f"{space} {file.number} born {file.born} points {len(times)} from {min(times)} to {max(times)}\n"
        working = [len(points) for points in self.working.values()]
        return f"{text}frozen {len(self.frozen)}\nworking {working[0]} {working[1]}\nmarks {len(self.marks)}\n".encode()


# ---- the program


def first_difference(program, folder, runs):
    """How the first run on one store that differs does so, with the scripts before it; or nothing."""
    before = ""
    for script, pair, wanted in runs:
        other = difference(program, folder, script, pair, wanted)
        if other:
            return before + other
        before += f"behind the script {shown(script)}"
    return None


def difference(program, folder, script, pair, wanted):
    """How a run of the program on the store in a folder differs from its wanted code, output and errors; or nothing."""
    options = ["--pair", str(pair)] if pair else []
    try:
        ended = subprocess.run([program, "run", *options, folder], input=script, capture_output=True, timeout=LONGEST_RUN)
    except subprocess.TimeoutExpired:
        return f"the script {shown(script)}took more than {LONGEST_RUN} seconds"
    found = (ended.returncode, ended.stdout, ended.stderr)
    if found == wanted:
        return None
    lines = [f"the script {shown(script)}with the options {options}"]
    for what, one, other in zip(("code", "output", "errors"), found, wanted):
        if one != other:
            lines += [f"{what} of the program: {shown(one)}", f"{what} that it must have: {shown(other)}"]
    return "\n".join(lines)


def shown(value):
    """A value for the reader of a failure: bytes line by line, and the ends alone of what is long."""
    if not isinstance(value, bytes):
        return str(value)
    if len(value) > 8000:
        return f"({len(value):,} bytes) {value[:200]!r} .. {value[-200:]!r}\n"
    return "\n" + "".join(f"    {line!r}\n" for line in value.splitlines(keepends=True))


def begin(program):
    """Where the program is, or the end of this one."""
    if not os.access(program, os.X_OK):
        sys.exit(f"there is no program {program}")
    return os.path.abspath(program)


@contextlib.contextmanager
def new_folder():
    """A folder that is removed at the end, in memory where the system has /dev/shm, since each change is synced twice."""
    folder = tempfile.mkdtemp(dir="/dev/shm" if os.path.isdir("/dev/shm") else None)
    try:
        yield folder
    finally:
        # A run that was begun beside one that differs may still write here.
        shutil.rmtree(folder, ignore_errors=True)


INHERITED = []


@contextlib.contextmanager
def each(work, cases):
    """Each case with what the work says of it, in order, by as many processes as there are processors. They begin as copies of
    this one, so that the place of a case is all that they are told."""
    INHERITED[:] = work, cases
    with multiprocessing.get_context("fork").Pool(os.cpu_count()) as pool:
        yield zip(cases, pool.imap(at_place, range(len(cases))))


def at_place(place):
    work, cases = INHERITED
    return work(cases[place])


def on_new_store(folder, work):
    """What the work says of a store of its own, which is removed behind it."""
    room = tempfile.mkdtemp(dir=folder)
    try:
        return work(os.path.join(room, "store"))
    finally:
        shutil.rmtree(room)
