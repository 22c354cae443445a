"""Plays the screens that a document shows, from the keys beside them.

In a document these fenced blocks are played, in their order:

    start      the command that starts a run, in the folder that the runs before it have left: bin/synth with its words
    keys       what is pressed then: text is typed, and in brackets stand other keys, as [Enter] or [Down 3]; blanks beside
               a bracket or at a line's ends aren't typed
    screen R C the whole screen after these keys, with the cursor in row R and column C, counted from 1
    negative   the pieces of the screen before it that are in negative image, one a line; without it there are none
    listing F  the lines of the file F after these keys
"""
import re
import shutil

from checks import check, contents, same, same_lines
from played import Played, keys_of

KINDS = ("start", "keys", "screen", "negative", "listing")
SCREEN = re.compile(r"-{39}|^ *\w+> |^\W*main: PROCEDURE")


class Block:
    """A fenced block, or what stands between two of them, whose kind is None."""

    def __init__(self, number, fence, lines):
        self.number, self.kind, self.lines = number, fence.split()[0] if fence.split() else None, lines
        self.words = fence.split()[1:]

    def text(self):
        if not self.kind:
            return "\n".join(self.lines)
        return "\n".join([" ".join(["```" + self.kind, *self.words]), *self.lines, "```"])


def blocks_of(text):
    """A document's blocks; a fence of a kind that isn't played stands in what is between."""
    blocks, lines, begin, fence = [], [], 1, ""
    for number, line in enumerate(text.split("\n"), 1):
        opens = not fence and line.startswith("```") and line[3:].split() and line[3:].split()[0] in KINDS
        if opens or (fence and line == "```"):
            if fence or lines:
                blocks.append(Block(begin, fence, lines))
            lines, begin, fence = [], number, line[3:] if opens else ""
        else:
            lines.append(line)
    return [*blocks, Block(begin, fence, lines)]


class Run:
    """A run of the program: its folder as it was before, its words, and the keys so far."""

    def __init__(self, folder, words):
        self.folder, self.words, self.keys = folder, words, b""
        self.last = f"{folder}-after"

    def play(self):
        """Plays the keys so far, in a folder as it was before the run."""
        shutil.rmtree(self.last, ignore_errors=True)
        shutil.copytree(self.folder, self.last)
        return Played(self.last, self.words, self.keys)

    def next(self, words):
        """The run behind this one, which begins with the files that this one has left; the first one begins in the folder itself."""
        if self.words is None:
            return Run(self.folder, words)
        self.play()
        return Run(self.last, words)


def play_document(top, name, room):
    """Plays a document of the folder `top`, each difference being a failed check; returns its text with what was seen in place of what it shows.

    Its first run begins in a folder that has nothing but the samples.
    """
    text = contents(f"{top}/{name}").decode("ascii")
    blocks = blocks_of(text)
    same(f"{name}: it is read block by block", "\n".join(it.text() for it in blocks), text)
    stray = [line for block in blocks if not block.kind for line in block.lines if SCREEN.search(line)]
    check(f"{name}: no screen stands outside of played blocks", not stray, *stray)
    folder = f"{room}/{name}"
    shutil.copytree(f"{top}/samples", f"{folder}/samples")
    run, played, seen = Run(folder, None), None, []
    for at, block in enumerate(blocks):
        what = f"{name}:{block.number}: {' '.join([block.kind or '', *block.words])}"
        if block.kind == "start":
            words = block.lines[0].split()
            same(f"{what}: it starts the editor", (len(block.lines), words[0]), (1, "bin/synth"))
            run = run.next(words[1:])
        elif block.kind == "keys":
            run.keys += keys_of("\n".join(block.lines))
        elif block.kind == "screen":
            played = run.play()
            block = screen_seen(what, block, played, next((it for it in blocks[at + 1 :] if it.kind), None))
        elif block.kind == "negative":
            block = Block(block.number, "negative", played.negatives)
        elif block.kind == "listing":
            block = listing_seen(what, block, run)
        seen.append(block)
    if run.words is not None:
        same(f"{name}: the last run to its end", run.play().status, 0)
    return "\n".join(it.text() for it in seen)


def screen_seen(what, block, played, follows):
    """A screen as it is seen, compared with what the block shows, and what follows says of negative image."""
    cursor = [str(number) for number in played.cursor]
    same(f"{what}: the editor ended well", (played.status, played.told), (0, ""))
    same_lines(f"{what}: its rows", played.rows, block.lines)
    same(f"{what}: its cursor", cursor, block.words)
    shown = follows.lines if follows and follows.kind == "negative" else []
    same_lines(f"{what}: what is in negative image", played.negatives, shown)
    return Block(block.number, " ".join(["screen", *cursor]), played.rows)


def listing_seen(what, block, run):
    """The lines of a file as the run leaves it, compared with those that the block shows."""
    run.play()
    file = (contents(f"{run.last}/{block.words[0]}") or b"").decode("ascii")
    same_lines(f"{what}: its lines", file.split("\n"), [*block.lines, ""])
    return Block(block.number, " ".join(["listing", *block.words]), file.splitlines())
