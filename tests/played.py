"""Plays keys on the editor's program through a pipe, and takes what it paints as a plain terminal does.

The program is the one that `rt ci` or `bin/synth` has built, or the one that SYNTH_PROGRAM names.
"""
import os
import re
import subprocess
import sys

TOP = os.path.dirname(os.path.dirname(os.path.realpath(__file__)))
PROGRAM = os.path.abspath(os.environ.get("SYNTH_PROGRAM") or f"{TOP}/crates/synth_program/out/synth_program")
SECONDS = 100  # for one run

# Where a screen's bytes end: the sequence that sends the cursor to its place, while one that is followed by a row's text begins that row.
SCREEN_END = re.compile(rb"\x1b\[\d+;\d+H(?=\x1b\[\d+;\d+H|\Z)")

# The keys that stand in brackets in a text of keys, and their bytes.
KEYS = {
    "Enter": b"\r",
    "Tab": b"\t",
    "Backspace": b"\x7f",
    "Control-U": b"\x15",
    "Escape": b"\x1b",
    "Up": b"\x1b[A",
    "Down": b"\x1b[B",
    "Right": b"\x1b[C",
    "Left": b"\x1b[D",
}


def needed():
    """The program's path; without the program the test ends here, and says why."""
    if not os.access(PROGRAM, os.X_OK):
        sys.exit(f"{sys.argv[0]}: there is no program {PROGRAM}; rt ci builds it, and so does the first start of bin/synth")
    return PROGRAM


def keys_of(text):
    """The bytes of keys that are written as text: what is typed, and in brackets each other key, as [Enter] or [Down 3].

    Blanks beside such a key, and at the ends of a line, aren't typed.
    """
    keys = b""
    for line in text.splitlines():
        for piece in re.split(r"(\[[^]]*\])", line):
            if piece.startswith("["):
                name, _, times = piece[1:-1].partition(" ")
                keys += KEYS[name] * int(times or 1)
            else:
                keys += piece.strip().encode("ascii")
    return keys


class PlainTerminal:
    """The terminal that a screen is painted for: cells, each with its image, and the cursor's place, counted from 1."""

    def __init__(self, rows, cols):
        self.blank = [(" ", False)] * cols
        self.cells = [list(self.blank) for _ in range(rows)]
        self.row = self.col = 1
        self.negative = False

    def take(self, painted):
        at = 0
        for found in re.finditer(rb"\x1b\[([0-9;]*)([^0-9;])|\x1b[^\[]|[ -~]", painted):
            if found.start() != at:
                raise ValueError(f"the byte {painted[at]} is none that is painted")
            at = found.end()
            if found[2]:
                self.control(found[1].decode(), found[2].decode())
            elif len(found[0]) == 1:
                self.cells[self.row - 1][self.col - 1] = (found[0].decode(), self.negative)
                self.col = min(self.col + 1, len(self.blank))
        if at != len(painted):
            raise ValueError(f"the bytes {painted[at:]!r} are no whole sequence")
        return self

    def control(self, numbers, final):
        if final == "H":
            row, col = map(int, numbers.split(";"))
            self.row, self.col = min(max(row, 1), len(self.cells)), min(max(col, 1), len(self.blank))
        elif final == "K" and not numbers:
            self.cells[self.row - 1][self.col - 1 :] = self.blank[self.col - 1 :]
        elif final == "J" and numbers == "2":
            self.cells = [list(self.blank) for _ in self.cells]
        elif final == "m" and numbers in ("0", "7"):
            self.negative = numbers == "7"
        else:
            raise ValueError(f"the sequence {numbers + final} is none that is painted")

    def rows(self):
        return ["".join(byte for byte, _ in row).rstrip() for row in self.cells]

    def negatives(self):
        """The pieces in negative image, from the top."""
        pieces = []
        for row in self.cells:
            text = "".join(byte if negative else "\n" for byte, negative in row)
            pieces += [piece for piece in text.split("\n") if piece]
        return pieces


class Played:
    """What became of a run of the program in a folder with these words and keys."""

    def __init__(self, folder, words, keys):
        sizes = {"--rows": 24, "--cols": 80}
        sizes |= {name: int(words[at + 1]) for at, name in enumerate(words) if name in sizes}
        ran = subprocess.run([PROGRAM, *words], cwd=folder, input=keys, stdout=subprocess.PIPE, stderr=subprocess.PIPE, timeout=SECONDS)
        self.status, self.painted, self.told = ran.returncode, ran.stdout, ran.stderr.decode()
        self.size = tuple(sizes.values())
        self.terminal = terminal = PlainTerminal(*self.size).take(ran.stdout)
        self.rows, self.negatives, self.cursor = terminal.rows(), terminal.negatives(), (terminal.row, terminal.col)
        self.window, self.message, self.prompt = self.rows[:-6], self.rows[-2], self.rows[-1]

    def screens(self):
        """The rows of each screen that was painted, one screen after the other."""
        terminal, begin = PlainTerminal(*self.size), 0
        for end in SCREEN_END.finditer(self.painted):
            yield terminal.take(self.painted[begin : end.end()]).rows()
            begin = end.end()
