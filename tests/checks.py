"""Counts checks and tells them: what the tests beside this file share."""
import os
import time

LIMIT = 120  # seconds for one wait

passed = failed = 0


def check(name, well, *why):
    """Counts a check and tells it, with what was seen where it failed."""
    global passed, failed
    passed, failed = passed + bool(well), failed + (not well)
    print(f"{'ok' if well else 'FAILED'}: {name}", *([] if well else why), sep="\n    ", flush=True)


def same(name, seen, wanted):
    check(name, seen == wanted, f"wanted {wanted!r}", f"seen   {seen!r}")


def same_lines(name, seen, wanted):
    """The same for lists of lines, of which those that differ are told."""
    lines = max(len(seen), len(wanted))
    pairs = zip(wanted + [None] * (lines - len(wanted)), seen + [None] * (lines - len(seen)))
    check(name, seen == wanted, *(f"line {n}: wanted {a!r}, seen {b!r}" for n, (a, b) in enumerate(pairs, 1) if a != b))


def ended():
    """Tells how many checks there were; answers the status of the test, which fails where nothing was checked."""
    print(f"{passed} passed, {failed} failed")
    return 1 if failed or not passed else 0


def until(holds):
    """Asks until it holds or the limit is reached; returns the last answer."""
    end = time.monotonic() + LIMIT
    while True:
        answer = holds()
        if answer or time.monotonic() > end:
            return answer
        time.sleep(0.05)


def contents(path):
    try:
        with open(path, "rb") as file:
            return file.read()
    except OSError:
        return None


def write(path, text, mode=0o644):
    os.makedirs(os.path.dirname(path), exist_ok=True)
    with open(path, "w", encoding="ascii") as file:
        file.write(text)
    os.chmod(path, mode)
