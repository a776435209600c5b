"""Writes a long script with every call but `end`, to time `thinmon run` with.

    python3 bench/mixed_script.py STEPS > mixed.script
    time crates/thinmon/out/thinmon run mixed.script > /dev/null

The program is there once `rt run` in `crates/thinmon` has built it.

The script has one object, two threads and STEPS step lines, which repeat one round: a wait that is
notified, a wait whose time is over, a wait that is interrupted, and the questions of a thread.
"""

import sys

MOST_BYTES = 16_777_216


def call(thread, words, goes):
    yield f"begin {thread} {words}"
    for _ in range(goes):
        yield f"go {thread}"


def one_round(number):
    """The steps of a round, on an object whose word is fat already."""
    # notified
    yield from call("a", "enter o", 2)
    yield from call("a", "wait o 0 0", 2)
    yield from call("b", "enter o", 2)
    yield from call("b", "notify o", 2)
    yield from call("b", "exit o", 2)
    yield "go a"
    # over: nobody owns the object, so the thread has it at once
    yield from call("a", "wait o 0 1", 2)
    yield f"tick {number + 1}"
    yield "expire a"
    yield "go a"
    # interrupted
    yield from call("a", "wait o 0 0", 2)
    yield from call("b", "interrupt a", 1)
    yield "go a"
    yield from call("a", "holds o", 2)
    yield from call("b", "isinterrupted a", 1)
    yield from call("a", "interrupted", 1)
    yield from call("a", "notifyall o", 2)
    yield from call("a", "exit o", 2)


def lines():
    yield "attach a"
    yield "attach b"
    # the first wait inflates the object
    yield from call("a", "enter o", 2)
    yield from call("a", "wait o 0 0", 4)
    yield from call("b", "interrupt a", 1)
    yield "go a"
    yield from call("a", "exit o", 2)
    number = 0
    while True:
        yield from one_round(number)
        number += 1


def main():
    (steps,) = (int(word) for word in sys.argv[1:])
    parts = ["world 1 2\nobject o A5\n"]
    for count, line in enumerate(lines()):
        if count == steps:
            break
        parts.append(line + "\n")
    text = "".join(parts)
    if len(text) > MOST_BYTES:
        sys.exit(f"a script has at most {MOST_BYTES} bytes: this one would have {len(text)}")
    sys.stdout.write(text)


if __name__ == "__main__":
    main()
