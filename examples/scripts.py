"""What look and csv2tsdb share: how a text is written in a script, and scripts that are cut at their limits.

The limits are those of docs/FORMATS.md. Needs Python 3's standard library alone.
"""

import os

MAX_COMMANDS = 1_000_000
MAX_SCRIPT_BYTES = 67_108_864
MAX_LINE_BYTES = 1_048_576
MAX_TEXT_BYTES = 65_535
MAX_NAMES = 1_000


def quoted(value):
    """A text as a script has it: between quotes, each of its own quotes doubled."""
    return b"'" + value.replace(b"'", b"''") + b"'"


class Scripts:
    """Commands as scripts PREFIX-1.tsdb, PREFIX-2.tsdb and so on, each within the limits of a script."""

    def __init__(self, prefix):
        self.prefix, self.names, self.file = prefix, [], None
        self.commands = self.bytes = 0

    def put(self, command):
        """Writes a command of session 1."""
        line = b"1 " + command + b"\n"
        if len(line) > MAX_LINE_BYTES:
            raise ValueError(f"a line of {len(line):,} bytes is longer than {MAX_LINE_BYTES:,}")
        if self.file is None or self.commands == MAX_COMMANDS or self.bytes + len(line) > MAX_SCRIPT_BYTES:
            self.begin()
        self.file.write(line)
        self.commands += 1
        self.bytes += len(line)

    def begin(self):
        """Begins the next script. It never writes over a file that is there."""
        self.close()
        name = f"{self.prefix}-{len(self.names) + 1}.tsdb"
        self.file = open(name, "xb")
        self.names.append(name)
        self.commands = self.bytes = 0

    def close(self):
        if self.file is not None:
            self.file.close()
            self.file = None

    def remove(self):
        """Removes the scripts that were written."""
        self.close()
        for name in self.names:
            os.remove(name)
