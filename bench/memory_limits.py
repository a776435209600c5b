#!/usr/bin/env python3
"""Looks for a limit of memory under which one build answers a script and another does not.

    python3 bench/memory_limits.py OLD NEW [--megabytes N] [--step MIB] [--only SHAPE] [--bad]

OLD and NEW are checkouts in which `rt run` has built crates/thinmon. Scripts of some shapes, each of about
N megabytes (2, if not given), are played by `run`, `run --moves` and `dump` of both, under limits of the
address space (`ulimit -v`). For each of the three the least limit is looked for under which OLD answers, and
from there on NEW is run at each limit, up to where all that it might reserve fits: where it fails, the limit is
told, and this ends with status 1. What is compared is the status and what is told of a fault. With --bad each
script has a last line that is bad, and NEW is to tell that line under each limit under which OLD does.
"""

import argparse
import random
import resource
import subprocess
import sys
import tempfile
from pathlib import Path

MIB = 1 << 20
MOST_BYTES = 16_777_216
WAYS = (("run",), ("run", "--moves"), ("dump",))


def filled(head, lines, size):
    """A script: some lines, and then as many of the others as it has room for."""
    parts, length = list(head), sum(len(line) + 1 for line in head)
    for line in lines:
        length += len(line) + 1
        if length > size:
            break
        parts.append(line)
    return parts


def again(*lines):
    while True:
        yield from lines


def numbered(form, start=0):
    number = start
    while True:
        yield form.format(number)
        number += 1


def shuffled_goes(size):
    names = [f"n{number:06}" for number in range(size // (3 * 11))]
    draws = random.Random(7)
    for _ in range(3):
        draws.shuffle(names)
        yield from (f"go {name}" for name in names)


def enters(threads):
    """Threads that enter and exit an object of their own."""
    while True:
        for number in range(threads):
            for call in ("enter", "exit"):
                yield f"begin t{number} {call} o{number}"
                yield from (f"go t{number}",) * 2


LONG = "x" * 28
WORLD = "world 100 1000"


def shapes(size):
    """Each shape's lines, by its name."""
    one = [WORLD, f"object {LONG} A5", f"attach {LONG}"]
    few = [WORLD, *(f"object o{n} 00" for n in range(64)), *(f"attach t{n}" for n in range(64))]
    short = [WORLD, "object o 00", "attach a"]
    yield "long lines", filled(one, again(f"begin {LONG} holds {LONG}", f"go {LONG}"), size)
    yield "short lines", filled(short, again("go a"), size)
    yield "one call again", filled(short, again("begin a interrupted", "go a"), size)
    yield "calls that are refused", filled(short, again("begin a interrupted"), size)
    yield "few names", filled(few, enters(64), size)
    yield "many names attached", filled([WORLD], numbered("attach t{}"), size)
    yield "many long names attached", filled([WORLD], numbered("attach t{:031}"), size)
    yield "many names that go", filled([WORLD], shuffled_goes(size), size)
    yield "many live threads", filled(
        ["world 100 32767", "object o 00", *(f"attach t{n}" for n in range(min(32_767, size // 40)))],
        again("begin t0 enter o", "go t0", "go t0", "begin t0 exit o", "go t0", "go t0"),
        size,
    )
    waits = ("begin a enter o", "go a", "go a", "begin a wait o 5 0", "go a", "go a", "go a", "go a")
    yield "waits", filled(short, again(*waits, "spurious a", "go a", "begin a exit o", "go a"), size)
    yield "waits with a limit", filled(short, again("begin a wait o 1234567890 999999"), size)
    yield "ticks", filled(short, numbered("tick {}"), size)
    yield "expiries", filled(few, again(*(f"expire t{n}" for n in range(64))), size)
    yield "relayouts", filled(short, again("relayout deep", "relayout wide"), size)
    objects = [f"object o{n} 00" for n in range(min(65_535, size // 16))]
    yield "many objects", filled([WORLD, *objects, "attach a"], again("go a"), size)


def answer(checkout, way, file, limit):
    """The status of a run under a limit, and what it tells of a fault."""
    program = checkout / "crates" / "thinmon" / "out" / "thinmon"
    bytes_of = limit * MIB

    def limited():
        resource.setrlimit(resource.RLIMIT_AS, (bytes_of, bytes_of))

    done = subprocess.run(
        [program, *way, file],
        stdin=subprocess.DEVNULL,
        stdout=subprocess.DEVNULL,
        stderr=subprocess.PIPE,
        preexec_fn=limited,
    )
    return done.returncode, done.stderr.decode().strip()


def least(is_so, most):
    """The least limit from which on it is so, as far as halving tells."""
    low, high = 0, most
    while high - low > 1:
        middle = (low + high) // 2
        low, high = (low, middle) if is_so(middle) else (middle, high)
    return high


def look(old, new, name, lines, step, bad):
    """The limits at which NEW does not do what OLD does; they are printed."""
    text = "".join(line + "\n" for line in lines)
    wanted = 0, ""
    if bad:
        text += "go\n"
        wanted = 1, f"thinmon: bad line {len(lines) + 1}"
    most = 64 * len(text) // MIB + 256
    wrong = 0
    with tempfile.NamedTemporaryFile("w", suffix=".script") as file:
        file.write(text)
        file.flush()
        for way in WAYS:
            if answer(old, way, file.name, most) != wanted:
                sys.exit(f"{name}, {' '.join(way)}: OLD answers otherwise with {most} MiB")
            first = least(lambda limit: answer(old, way, file.name, limit) == wanted, most)
            last = first + 8 * len(text) // MIB + 48
            failed = [
                limit
                for limit in range(first, last + 1, step)
                if answer(new, way, file.name, limit) != wanted
            ]
            mine = least(lambda limit: answer(new, way, file.name, limit) == wanted, most)
            told = f"fails at {failed}" if failed else f"all right to {last}"
            print(f"{name}, {' '.join(way)}: OLD from {first} MiB on, NEW from {mine}, {told}", flush=True)
            wrong += len(failed)
    return wrong


def main():
    words = argparse.ArgumentParser()
    words.add_argument("old", type=Path)
    words.add_argument("new", type=Path)
    words.add_argument("--megabytes", type=float, default=2)
    words.add_argument("--step", type=int, default=1)
    words.add_argument("--only", choices=[name for name, _ in shapes(1_000)])
    words.add_argument("--bad", action="store_true")
    given = words.parse_args()
    size = min(int(given.megabytes * 1_000_000), MOST_BYTES - 100)
    wrong = 0
    for name, lines in shapes(size):
        if given.only in (None, name):
            wrong += look(given.old, given.new, name, lines, given.step, given.bad)
    sys.exit(1 if wrong else 0)


if __name__ == "__main__":
    main()
