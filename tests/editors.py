"""Counts with valgrind what a key costs in other editors, each in a terminal of its own.

Each key is sent once the editor waits for it, as one that is typed by hand: an editor draws nothing between keys that
wait already.
"""
import fcntl
import os
import re
import shutil
import struct
import subprocess
import tempfile
import termios
import time

ROWS, COLS = 24, 80
TIMES = 20  # a key is pressed so often, and its cost is the mean
QUIET = 0.15  # seconds in which an editor did nothing: then it waits
LONGEST = 120  # seconds for one key

UP = b"\x1b[A"
BARE = ["-u", "NONE", "-i", "NONE", "-n"]  # no settings, no record of what was done, no file beside
START = ["valgrind", "--tool=cachegrind", "--cache-sim=no"]

# Each editor: its names, of which the first that is there is started; its words before the file; the keys that lead to
# where a text is typed behind the file's last line, and a key that is typed there; the keys that lead to that line, and
# a move from there; the keys that leave it.
EDITORS = [
    ("vim", ["vim.tiny", "vim"], BARE, [b"G", b"o"], b"x", [b"G"], b"k", [b"\x1b\x1b", b":q!\r"]),
    ("nano", ["nano"], ["--ignorercfiles"], [b"\x1b/"], b"x", [b"\x1b/"], UP, [b"\x18", b"n"]),
]


def found(names):
    """The first of the programs that is installed, if one is."""
    return next(filter(None, map(shutil.which, names)), None)


def installed():
    """The editors that are there, each by its row in the table."""
    return [it for it in EDITORS if found(it[1])]


def worked(pid):
    """How long a process has worked, in ticks of the clock, and whether it sleeps."""
    with open(f"/proc/{pid}/stat", encoding="ascii", errors="replace") as file:
        fields = file.read().rpartition(")")[2].split()
    return int(fields[11]) + int(fields[12]), fields[0] == "S"


class Terminal:
    """A terminal in which a program runs."""

    def __init__(self, words):
        self.end, other = os.openpty()
        fcntl.ioctl(other, termios.TIOCSWINSZ, struct.pack("HHHH", ROWS, COLS, 0, 0))
        around = {**os.environ, "TERM": "xterm"}
        own = {"stdin": other, "stdout": other, "stderr": subprocess.DEVNULL}
        self.program = subprocess.Popen(words, **own, start_new_session=True, env=around)
        os.close(other)
        os.set_blocking(self.end, False)

    def drain(self):
        """Takes what was written, and tells whether something was."""
        try:
            return bool(os.read(self.end, 65536))
        except OSError:  # nothing is there, or the program has ended
            return False

    def settle(self):
        """Waits until the program waits for a key, or has ended."""
        before, since, latest = None, time.monotonic(), time.monotonic() + LONGEST
        while self.program.poll() is None and time.monotonic() < latest:
            told = self.drain()
            try:
                now, sleeps = worked(self.program.pid)
            except OSError:  # it has ended since
                return
            if told or now != before or not sleeps:
                before, since = now, time.monotonic()
            elif time.monotonic() - since > QUIET:
                return
            time.sleep(0.01)

    def press(self, key):
        try:
            os.write(self.end, key)
        except OSError:  # it has ended
            return
        self.settle()

    def close(self):
        if self.program.poll() is None:
            self.program.kill()
        self.program.wait()
        os.close(self.end)


def instructions(editor, file, keys):
    """What the editor takes from its start to its end while these keys are pressed in the file, if it has ended."""
    _, names, words, *_, leave = editor
    with tempfile.NamedTemporaryFile(prefix="editors-") as counts:
        terminal = Terminal([*START, f"--cachegrind-out-file={counts.name}", found(names), *words, file])
        try:
            terminal.settle()
            for key in [*keys, *leave]:
                terminal.press(key)
        finally:
            terminal.close()
        told = re.search(rb"^summary: (\d+)", counts.read(), re.M)
        return int(told[1]) if told else None


def cost(editor, file, place, key):
    """What the key costs in the editor once the keys before it have led to its place, or none where that isn't told."""
    without, with_keys = instructions(editor, file, place), instructions(editor, file, [*place, *[key] * TIMES])
    return (with_keys - without) // TIMES if without and with_keys else None


def costs(editor, file):
    """What a typed byte and a move cost in the editor at the file's end."""
    _, _, _, to_text, byte, to_end, move, _ = editor
    return cost(editor, file, to_text, byte), cost(editor, file, to_end, move)
