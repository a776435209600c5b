#!/usr/bin/env python3
"""Whether `thinmon explore` tells how far it has come where standard error is a terminal, and only there.

python3 orders/progress.py THINMON

The core is explored, and with `--any` the Java machine itself. The program is made larger until its exploration takes
some four seconds, or until it has as many states as MOST_STATES says; standard error is a pipe then, where nothing is
to be told. It is explored again with standard error at a pseudo-terminal: the report is to be the same, and there have
to be half as many lines as seconds, less one, and one at least from ENOUGH seconds on. Last it is explored there with
fewer states than it has: the line is to be gone before the fault is told.
"""
import collections
import os
import pty
import re
import subprocess
import sys
import threading
import time

# How many seconds an exploration is to take, and from how many on it is taken.
WANTED, ENOUGH = 4, 3
# From how many states on a program is not made larger, since each of them takes memory: less than 200 bytes on the
# core, and some 700 with --any.
MOST_STATES = {(): 2_000_000, ("--any",): 490_000}
# How many calls each thread of the first program makes, two at least.
FIRST = [2] * 6
TOLD = re.compile(r"\rthinmon: (\d+) states, (\d+) to visit, (\d+) a second\x1b\[K")
GONE = "\r\x1b[K"

# What came of an exploration: its status, its report, what it told, and how many seconds it took.
Run = collections.namedtuple("Run", "status report told seconds")


def text_of(calls):
    """A program whose threads make so many calls each: all of them but the last enter an object, which is exited then.

    Each thread has an object of its own, so none meets another.
    """
    text = f"world 0 {len(calls)}\n" + "".join(f"object o{n} A5\n" for n in range(len(calls)))
    for n, count in enumerate(calls):
        text += f"thread t{n}\n" + f"call enter o{n}\n" * (count - 1) + f"call exit o{n}\n"
    return text


def states_of(calls):
    """How many states such a program has.

    A call has three steps. On the core it begins, loads the word, and exchanges or stores it; on the Java machine it is
    made, the lock is taken or given up, and it returns. So a thread that makes N calls has 3 * N + 1 states, each of
    which comes beside each state of the others. `bench/explored.py` and `bench/explored_any.py` find as many.
    """
    states = 1
    for count in calls:
        states *= 3 * count + 1
    return states


def steps_of(calls):
    """How many steps there are between them: the next one may be that of any thread that has one left."""
    return sum(3 * count * (states_of(calls) // (3 * count + 1)) for count in calls)


def grown(calls, times, most):
    """A program with `times` as many states, or with `most` where that is fewer, or with somewhat more."""
    wanted = min(times * states_of(calls), most)
    calls = sorted(calls)
    while states_of(calls) < wanted:
        calls = sorted([calls[0] + 1, *calls[1:]])
    return calls


def explore(thinmon, options, calls, told):
    """Explores a program, with this as standard error. What came of it, and how many seconds it took."""
    began = time.monotonic()
    done = subprocess.run([thinmon, "explore", *options], input=text_of(calls).encode(), stdout=subprocess.PIPE,
                          stderr=told, timeout=300)
    return done, time.monotonic() - began


def at_a_pipe(thinmon, options, calls):
    done, seconds = explore(thinmon, options, calls, subprocess.PIPE)
    return Run(done.returncode, done.stdout.decode(), done.stderr.decode(), seconds)


def read_all(end, parts):
    """What comes from the other end of a terminal, until nobody has it open."""
    while True:
        try:
            part = os.read(end, 65536)
        except OSError:
            return
        if not part:
            return
        parts.append(part)


def at_a_terminal(thinmon, options, calls):
    master, slave = pty.openpty()
    parts = []
    reader = threading.Thread(target=read_all, args=(master, parts), daemon=True)
    reader.start()
    try:
        done, seconds = explore(thinmon, options, calls, slave)
    finally:
        os.close(slave)
        reader.join(10)
        os.close(master)
    return Run(done.returncode, done.stdout.decode(), b"".join(parts).decode(), seconds)


def has_terminals():
    try:
        ends = pty.openpty()
    except OSError:
        return False
    for end in ends:
        os.close(end)
    return True


def check_whole(run, calls):
    """Whether this is the report of a program, of which there is only one outcome."""
    assert run.status == 0, (run.status, run.told[-200:])
    head = f"states {states_of(calls)} steps {steps_of(calls)}\noutcome 1 ends 1\n"
    assert run.report.startswith(head), run.report[:80]
    assert "\noutcome 2 " not in run.report


def check_lines(run, most, fault):
    """Whether a run tells only lines of progress, each of at most `most` states, and at its end the text `fault`.

    How many lines there are."""
    lines = list(TOLD.finditer(run.told))
    wanted = "".join(line.group(0) for line in lines) + (GONE if lines else "") + fault
    assert run.told == wanted, run.told[-400:]
    # The lines come a second or longer one after the other, and the first so long after the beginning. So there is at
    # most one for each second, and fewer by what the start takes, the visits between two looks at the clock, and the
    # report. The clock is looked at whenever 4,096 more states were visited. An exploration that is over sooner than
    # ENOUGH seconds may have no line.
    least = max(min(int(run.seconds / 2), most // 4096) - 1, int(run.seconds >= ENOUGH))
    assert least <= len(lines) <= run.seconds, (len(lines), run.seconds)
    found, waiting, rates = ([int(line.group(n)) for line in lines] for n in (1, 2, 3))
    assert found == sorted(found) and all(0 < number <= most for number in found), found
    visited = [number - left for number, left in zip(found, waiting)]
    assert visited == sorted(set(visited)) and all(0 < number for number in visited), visited
    for second, (number, rate) in enumerate(zip(found, rates), 1):
        assert number / run.seconds - 1 <= rate <= number / second, (number, rate, run.seconds)
    return len(lines)


def large_enough(thinmon, options):
    """A program whose exploration takes some seconds, and what came of it with a pipe as standard error."""
    calls = FIRST
    while True:
        run = at_a_pipe(thinmon, options, calls)
        check_whole(run, calls)
        assert run.told == "", run.told
        larger = grown(calls, WANTED / run.seconds, MOST_STATES[options])
        if run.seconds >= ENOUGH or larger == calls:
            return calls, run
        calls = larger


def compare(thinmon, options):
    """Compares what is told of an exploration with these options at a terminal and elsewhere."""
    calls, plain = large_enough(thinmon, options)
    states = states_of(calls)
    whole = at_a_terminal(thinmon, options, calls)
    check_whole(whole, calls)
    assert whole.report == plain.report
    lines = check_lines(whole, states, "")
    # So many are found in some three seconds. A terminal has a carriage return before each line feed.
    most = states * 3 // 4
    cut = at_a_terminal(thinmon, [*options, "--states", str(most)], calls)
    assert (cut.status, cut.report) == (1, ""), (cut.status, cut.report[:80])
    some = check_lines(cut, most, f"thinmon: too many states: more than {most}\r\n")
    told = f"{states} states, {lines} lines of progress, {some} before a fault"
    print(" ".join(["explore", *options]) + f": {told}, {plain.seconds:.1f} s")
    if not lines:
        print(f"skipped: lines of progress of {states} states, since they took only {whole.seconds:.1f} s")


def main(thinmon):
    if not has_terminals():
        for options in MOST_STATES:
            large_enough(thinmon, options)
        print("skipped: progress at a terminal, since there is none to be had")
        return
    for options in MOST_STATES:
        compare(thinmon, options)


if __name__ == "__main__":
    main(sys.argv[1])
