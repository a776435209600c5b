"""Writes a long script to standard output, to time `thinmon run` with.

    python3 bench/long_script.py OBJECTS GO_LINES > long.script
    time crates/thinmon/out/thinmon run long.script > /dev/null

The program is there once `rt run` in `crates/thinmon` has built it.

The script declares OBJECTS objects, attaches four threads, and has GO_LINES `go` lines. Each thread
goes its own way over all the objects in turn: it enters one, enters it again, and exits it twice, in
a load and a store or an exchange each. The threads take turns a call at a time.
"""

import sys

THREADS = "abcd"
CALLS = ("enter", "enter", "exit", "exit")
DIGITS = "0123456789abcdefghijklmnopqrstuvwxyz"
MOST_BYTES = 16_777_216


def name(number):
    """The short name of an object, so that a million `go` lines fit into one script."""
    digits = ""
    while True:
        number, digit = divmod(number, len(DIGITS))
        digits = DIGITS[digit] + digits
        if number == 0:
            return "o" + digits


def lines(objects, goes):
    yield "world 8388608 64"
    for number in range(objects):
        yield f"object {name(number)} A5"
    for thread in THREADS:
        yield f"attach {thread}"
    for turn in range(goes // 2):
        round_of_threads, seat = divmod(turn, len(THREADS))
        visit, call = divmod(round_of_threads, len(CALLS))
        # the threads start far apart, so that they meet on one object only where objects are few
        number = (visit + seat * (objects // len(THREADS))) % objects
        thread = THREADS[seat]
        yield f"begin {thread} {CALLS[call]} {name(number)}"
        yield f"go {thread}"
        yield f"go {thread}"
    if goes % 2 == 1:
        yield f"go {THREADS[0]}"


def main():
    objects, goes = (int(word) for word in sys.argv[1:])
    if not 1 <= objects <= 65535:
        sys.exit("a script here has 1 to 65535 objects")
    text = "".join(line + "\n" for line in lines(objects, goes))
    if len(text) > MOST_BYTES:
        sys.exit(f"a script has at most {MOST_BYTES} bytes: this one would have {len(text)}")
    sys.stdout.write(text)


if __name__ == "__main__":
    main()
