"""Terminals of tmux in which a shell starts bin/synth, and the screens that the rules ask for.

A tmux server of the test's own has the panes. What is wanted is written from the rules of the screen; none of it comes
from the program. Every wait asks again and again, up to a limit, so that a slow machine takes longer and fails nothing.
"""
import os
import re
import shlex
import shutil
import signal
import subprocess
import sys
import tempfile
import termios
import traceback

from checks import check, contents, ended, same, until, write

TOP = os.path.dirname(os.path.dirname(os.path.realpath(__file__)))
SYNTH = f"{TOP}/bin/synth"
PROGRAM = f"{TOP}/crates/synth_program/out/synth_program"
KEEPING_PROGRAM = f"{TOP}/crates/synth_kept/out/synth_kept"
FILTER = f"{TOP}/crates/terminal_filter/out/terminal_filter"
PROMPT = "prompt>"


# ---- what the rules say

WORDS = {
    1: "since a read of keys failed",
    2: "since a write of a screen failed",
    4: "since the words are not of the command; it takes --rows N from 12 to 100, --cols N from 40 to 160, --keys N from 1 to 1000000000, --input FILE and PROGRAM, each once at most and in any order, or --make N from 1 to 2000 alone, and --kept before them",
    6: "since the journal of keys, the file JOURNAL, could not be opened or cleared",
    129: "since the signal HUP stopped it",
    130: "since the signal INT stopped it",
    137: "since the signal KILL stopped it",
    143: "since the signal TERM stopped it",
}


def sentence(status):
    """What is told of a status: nothing of 0, and one sentence of another."""
    return f"synth: the editor ended with status {status}, {WORDS[status]}.\n" if status else ""


def folded(text, cols):
    """The rows that a line fills in a terminal, which goes on in the next row where one is full."""
    return [text[at : at + cols].rstrip() for at in range(0, len(text), cols)]


class Screen:
    """A screen of a program: its rows from the top, and the cursor's place, which counts from 0.

    `lines` are the program's from the window's first one, `prompt` is what stands before the typed line, and
    `stop` the cursor's place in the window, where it stands while nothing is typed. `at` is the line at which a
    run stands, from 0, if one does, and `output` its last lines, three at most.
    """

    def __init__(self, rows, cols, lines, prompt, stop, typed="", message="", at=None, output=()):
        window = rows - 6
        lines = (lines + [""] * window)[:window]  # what stands between two backquotes is in negative image
        # The last column stays blank, and the typed line leaves the one before it for the cursor.
        entry = prompt + typed[max(0, len(typed) - (cols - 2 - len(prompt))) :]
        margin = lambda number: "> " if number == at else "  "
        shown = [f"{margin(number)}{line}"[: cols - 1 + line.count("`")] for number, line in enumerate(lines)]
        shown += ["-" * (cols - 1), *output, *[""] * (3 - len(output)), message, entry]
        self.rows = [line.rstrip() for line in shown]
        self.cursor = (len(entry), rows - 1) if typed else stop


def new_screen(rows, cols, part=None, typed="", message=""):
    """The screen of a new program with the cursor at its statement.

    `part` is None while the statement is a hole, and then the text in the part of the PUT LIST, which is empty
    at first.
    """
    statement = "{statement}" if part is None else f"PUT LIST ( {part or '{expressions}'} );"
    lines = ["main: PROCEDURE OPTIONS ( MAIN );", "  {declaration}", f"  {statement}", "END;", "{procedure}"]
    prompt, stop = ("statement> ", (4, 2)) if part is None else ("expressions> ", (15, 2))
    return Screen(rows, cols, lines, prompt, stop, typed, message)


# ---- processes

def parent_of(process):
    stat = contents(f"/proc/{process}/stat")
    return int(stat.rpartition(b")")[2].split()[1]) if stat else None


def children(process):
    return [int(it) for it in os.listdir("/proc") if it.isdigit() and parent_of(it) == process]


def words_of(process):
    return (contents(f"/proc/{process}/cmdline") or b"").decode().split("\0")[:-1]


def program_of(script):
    """The program that a script runs, once it does."""
    for process in children(script):
        if words_of(process)[:1] in ([PROGRAM], [KEEPING_PROGRAM]):
            return process
    return None


def filter_of(script):
    """The program between terminal and editor that a script runs, once it does."""
    return next((it for it in children(script) if words_of(it)[:1] == [FILTER]), None)


def is_gone(process):
    stat = contents(f"/proc/{process}/stat")
    return not stat or stat.rpartition(b")")[2].split()[0] == b"Z"


# ---- a terminal

class Terminal:
    """A pane of tmux with a shell in it that starts bin/synth with these words, behind these other lines, in the folder of the
    pane or in another one."""

    server = None

    def __init__(self, room, name, cols, rows, words=(), synth=SYNTH, before=(), within=None):
        self.cols, self.rows = cols, rows
        self.folder = f"{room}/{name}"
        os.makedirs(self.folder)
        command = f"{shlex.quote(synth)} {' '.join(words)}"
        write(f"{self.folder}/start", "\n".join([
            "stty -g >before",
            *before,
            f"(cd {shlex.quote(within)} && exec {command})" if within else command,
            "echo $? >status",
            "stty -g >after",
            "echo >finished",
            "",
        ]))
        # Whether sh edits its lines or not, the settings of the terminal are the plain ones while a command runs.
        shell = f"env -i PATH={shlex.quote(os.environ['PATH'])} HOME=/ TERM=screen PS1={shlex.quote(PROMPT + ' ')} sh -i"
        self.name = f"={name}:"
        self.tmux("new-session", "-d", "-s", name, "-x", str(cols), "-y", str(rows), "-c", self.folder, shell)
        self.tty, shell_id = self.tmux("display-message", "-p", "-t", self.name, "#{pane_tty} #{pane_pid}").split()
        self.shell = int(shell_id)
        until(lambda: self.lines()[0] == PROMPT)
        self.start()

    def start(self):
        for name in ("finished", "status", "told"):
            if os.path.exists(f"{self.folder}/{name}"):
                os.remove(f"{self.folder}/{name}")
        self.type(". ./start")
        self.press("Enter")

    def start_again(self):
        """Starts the editor once more. Keys that the one before didn't read have come to the shell, so a line is ended first."""
        until(lambda: contents(f"{self.folder}/finished"))
        self.press("Enter")
        until(lambda: self.cursor() and self.lines()[self.cursor()[1]] == PROMPT)
        self.start()

    @classmethod
    def tmux(cls, *words):
        """What a command of tmux answers; nothing where tmux or the session has gone."""
        ran = subprocess.run(["tmux", "-u", "-f", "/dev/null", "-S", cls.server, *words], stdout=subprocess.PIPE, stderr=subprocess.PIPE, text=True)
        return ran.stdout

    def press(self, *keys):
        self.tmux("send-keys", "-t", self.name, *keys)

    def type(self, text):
        self.tmux("send-keys", "-l", "-t", self.name, "--", text)

    def lines(self):
        return [line.rstrip() for line in (self.tmux("capture-pane", "-p", "-t", self.name).split("\n") + [""] * self.rows)[: self.rows]]

    def cursor(self):
        x, _, y = self.tmux("display-message", "-p", "-t", self.name, "#{cursor_x} #{cursor_y}").strip().partition(" ")
        return (int(x), int(y)) if y else None

    def images(self):
        """The rows with what is in negative image between two backquotes, in the default colours; any other way to show a cell stays as it was captured."""
        rows = []
        for row in self.tmux("capture-pane", "-p", "-e", "-t", self.name).split("\n"):
            row = re.sub("\x1b\\[7m(.*?)\x1b\\[(?:0|27)?m", r"`\1`", re.sub("\x1b\\[[34]9m", "", row))
            rows.append(row.rstrip())
        return (rows + [""] * self.rows)[: self.rows]

    def shows(self, what, rows, cursor):
        """Checks the whole terminal: its rows, with blank ones below, the cursor's place and the image."""
        wanted = rows + [""] * (self.rows - len(rows))
        rows = [row.replace("`", "") for row in wanted]
        until(lambda: self.lines() == rows and self.cursor() == cursor)
        seen, place = self.lines(), self.cursor()
        check(f"{what}: the rows", seen == rows, *(f"row {n + 1}: wanted {a!r}, seen {b!r}" for n, (a, b) in enumerate(zip(rows, seen)) if a != b))
        same(f"{what}: the cursor's place", place, cursor)
        same(f"{what}: the cells in negative image", self.images(), wanted)

    def shows_screen(self, what, screen):
        self.shows(what, screen.rows, screen.cursor)

    def processes(self):
        """The script and the program, once they run."""
        found = until(lambda: [(it, program_of(it)) for it in children(self.shell) if program_of(it)])
        return found[0]

    def is_rung(self):
        """Whether a bell was rung since this was asked last."""
        rung = self.tmux("display-message", "-p", "-t", self.name, "#{window_bell_flag}").strip() == "1"
        self.tmux("kill-session", "-C", "-t", self.name)
        return rung

    def settings(self):
        with open(self.tty, "rb", buffering=0, opener=lambda path, flags: os.open(path, flags | os.O_NOCTTY)) as tty:
            return termios.tcgetattr(tty)

    def ended(self, what, screen, status):
        """Checks what the editor left behind: its status, the settings, and the prompt on a clean line
        below the last screen and what was told of the status."""
        until(lambda: contents(f"{self.folder}/finished"))
        same(f"{what}: the status", contents(f"{self.folder}/status"), b"%d\n" % status)
        before = contents(f"{self.folder}/before")
        check(f"{what}: the settings are those from before", before and before == contents(f"{self.folder}/after"))
        rows = screen.rows + [""] * (self.rows - len(screen.rows)) + folded(sentence(status).strip(), self.cols) + [PROMPT]
        self.shows(f"{what}: the last screen and a clean line below", rows[-self.rows :], (len(PROMPT) + 1, self.rows - 1))

    def close(self):
        self.tmux("kill-session", "-t", self.name)


# ---- the test

def tried(groups):
    """Tries groups of checks, each a function with its words behind a folder of its own; answers the status of the test."""
    if not shutil.which("tmux"):
        print(f"{sys.argv[0]}: tmux is missing, and nothing was tried; Debian's package is tmux")
        return 1
    os.environ.pop("TMUX", None)
    for it in (signal.SIGTERM, signal.SIGHUP):
        signal.signal(it, lambda *_: sys.exit(1))
    with tempfile.TemporaryDirectory(prefix="terminal-") as room:
        room = os.path.realpath(room)
        Terminal.server = f"{room}/tmux"
        try:
            # A session of its own keeps the server up between the panes.
            Terminal.tmux("new-session", "-d", "-s", "keeper", "cat", ";", "set", "-g", "status", "off")
            for at, (group, *words) in enumerate(groups):
                os.makedirs(f"{room}/{at}")
                try:
                    group(f"{room}/{at}", *words)
                except Exception:
                    check(f"{group.__name__} {words}: it was tried to its end", False, traceback.format_exc())
        finally:
            Terminal.tmux("kill-server")
    return ended()
