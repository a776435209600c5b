"""Times `thinmon check` on histories of 1,000,000 moves, and prints a table.

    python3 bench/many_moves.py crates/thinmon/out/thinmon

The program is there once `rt run` in `crates/thinmon` has built it. A history has so many live threads,
which take turns in pairs: one waits, and the other notifies it. Each time is the processor time that the
program takes in user mode, the least of five runs.
"""

import json
import resource
import subprocess
import sys
import tempfile

MOVES = 1_000_000
OBJECTS = 1000
RUNS = 5


def move(kind, thread, **members):
    return {"move": kind, "thread": thread, **members}


def whole_call(thread, call, monitor, answer, reply):
    """A call, its answer and its return."""
    yield move("Call", thread, call=call, object=monitor)
    yield answer
    yield move("Return", thread, reply=reply)


def one_round(waiter, notifier, monitor):
    """The waiter waits on an object, the notifier notifies it, and both give up the object."""
    yield from whole_call(waiter, "Enter", monitor, move("Lock", waiter), "Entered")
    yield move("Call", waiter, call="Wait", object=monitor, millis=0, nanos=0)
    yield move("Wait", waiter)
    yield from whole_call(notifier, "Enter", monitor, move("Lock", notifier), "Entered")
    chosen = move("Notify", notifier, chosen=waiter)
    yield from whole_call(notifier, "Notify", monitor, chosen, "Notified")
    yield from whole_call(notifier, "Exit", monitor, move("Unlock", notifier), "Exited")
    yield move("Relock", waiter)
    yield move("Return", waiter, reply="WaitOver")
    yield from whole_call(waiter, "Exit", monitor, move("Unlock", waiter), "Exited")


def moves(threads):
    for thread in range(threads):
        yield move("Attach", thread)
    number = 0
    while True:
        waiter, notifier = number % threads, (number + 1) % threads
        yield from one_round(waiter, notifier, number % OBJECTS)
        number += 1


def write(file, threads):
    file.write(json.dumps({"objects": OBJECTS}) + "\n")
    for _, one in zip(range(MOVES), moves(threads)):
        file.write(json.dumps(one, sort_keys=True, separators=(",", ":")) + "\n")
    file.flush()


def user_seconds():
    """The processor time in user mode of all programs that were run and have ended."""
    return resource.getrusage(resource.RUSAGE_CHILDREN).ru_utime


def seconds(program, threads):
    with tempfile.NamedTemporaryFile("w", suffix=".history") as file:
        write(file, threads)
        best = None
        for _ in range(RUNS):
            start = user_seconds()
            done = subprocess.run(
                [program, "check", file.name], stdout=subprocess.PIPE, check=True, text=True
            )
            took = user_seconds() - start
            best = took if best is None else min(best, took)
        if done.stdout != f"run of {MOVES} moves\n":
            sys.exit(f"with {threads} threads the answer is {done.stdout!r}")
        return best


def main():
    [program] = sys.argv[1:]
    print("live threads: seconds for 1,000,000 moves")
    for threads in (2, 32_767):
        print(f"{threads:8} {seconds(program, threads):8.3f}", flush=True)


if __name__ == "__main__":
    main()
