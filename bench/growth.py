"""Times `thinmon run` where threads, lines and objects grow, and prints a table.

    python3 bench/growth.py crates/thinmon/out/thinmon

The program is there once `rt run` in `crates/thinmon` has built it. Each time is the processor time that the
program takes in user mode, the least of five runs, less that of the same script without the part that is
measured. Three kinds of script:

- one thread of so many live ones enters an object and exits it, over and over: time for each step
- so many threads wait on one object, are all notified and have the object back one after another, in
  rounds: time for each thread and round
- one thread waits on each of so many objects and is notified: time for each object
"""

import resource
import subprocess
import sys
import tempfile

DIGITS = "0123456789abcdefghijklmnopqrstuvwxyz"
RUNS = 5


def name(letter, number):
    digits = ""
    while True:
        number, digit = divmod(number, len(DIGITS))
        digits = DIGITS[digit] + digits
        if number == 0:
            return letter + digits


def opening(objects, threads):
    yield "world 8388608 32767"
    for number in range(objects):
        yield "object " + name("o", number) + " A5"
    for number in range(threads):
        yield "attach " + name("t", number)


def call(thread, words, steps):
    yield f"begin {thread} {words}"
    for _ in range(steps):
        yield f"go {thread}"


def stepping(threads, turns):
    """Enters and exits of the last thread: four steps a turn."""
    thread = name("t", threads - 1)
    for _ in range(turns):
        yield from call(thread, "enter o0", 2)
        yield from call(thread, "exit o0", 2)


def waiting(threads, rounds):
    """All threads but the last wait on one object, and the last notifies them all."""
    notifier = name("t", threads)
    fat = False
    for _ in range(rounds):
        for number in range(threads):
            thread = name("t", number)
            yield from call(thread, "enter o0", 2)
            # the first wait binds the monitor and stores the fat word
            yield from call(thread, "wait o0 0 0", 2 if fat else 4)
            fat = True
        yield from call(notifier, "enter o0", 2)
        yield from call(notifier, "notifyall o0", 2)
        yield from call(notifier, "exit o0", 2)
        for number in range(threads):
            thread = name("t", number)
            yield f"go {thread}"
            yield from call(thread, "exit o0", 2)


def spread(objects):
    """One thread waits on each object, and another notifies each."""
    notifier = name("t", objects)
    for number in range(objects):
        thread, monitor = name("t", number), name("o", number)
        yield from call(thread, f"enter {monitor}", 2)
        yield from call(thread, f"wait {monitor} 0 0", 4)
    for number in range(objects):
        thread, monitor = name("t", number), name("o", number)
        yield from call(notifier, f"enter {monitor}", 2)
        yield from call(notifier, f"notify {monitor}", 2)
        yield from call(notifier, f"exit {monitor}", 2)
        yield f"go {thread}"
        yield from call(thread, f"exit {monitor}", 2)


def user_seconds():
    """The processor time in user mode of all programs that were run and have ended."""
    return resource.getrusage(resource.RUSAGE_CHILDREN).ru_utime


def seconds(program, lines):
    with tempfile.NamedTemporaryFile("w", suffix=".script") as file:
        file.write("".join(line + "\n" for line in lines))
        file.flush()
        best = None
        for _ in range(RUNS):
            start = user_seconds()
            subprocess.run([program, "run", file.name], stdout=subprocess.DEVNULL, check=True)
            took = user_seconds() - start
            best = took if best is None else min(best, took)
        return best


def measure(program, objects, threads, measured, parts):
    """Microseconds for each part of what is measured."""
    without = seconds(program, opening(objects, threads))
    whole = seconds(program, [*opening(objects, threads), *measured])
    return (whole - without) / parts * 1e6


def main():
    [program] = sys.argv[1:]
    print("live threads: microseconds for a step")
    for threads in (1, 1000, 32767):
        took = measure(program, 1, threads, stepping(threads, 100_000), 400_000)
        print(f"{threads:8} {took:8.3f}")
    print("threads that wait on one object: microseconds for a thread")
    for threads in (100, 4000, 16000):
        rounds = 32_000 // threads
        took = measure(program, 1, threads + 1, waiting(threads, rounds), threads * rounds)
        print(f"{threads:8} {took:8.3f}")
    print("objects with one waiter each: microseconds for an object")
    for objects in (1000, 32000):
        took = measure(program, objects, objects + 1, spread(objects), objects)
        print(f"{objects:8} {took:8.3f}")


if __name__ == "__main__":
    main()
