"""Times the cycles of `thinmon dump` where many threads wait for each other.

    python3 bench/rings.py crates/thinmon/out/thinmon

The program is there once `rt run` in `crates/thinmon` has built it. In each script 32,766 or 32,767 threads own an object
each, and each wants the object of the next one in its ring. The time is the least of five runs, less that of the same
script in which each thread asks whether it holds that object, so that the dump has as many lines and no cycle.
"""

import resource
import subprocess
import sys
import tempfile

RUNS = 5


def script(threads, ring, call):
    """So many threads in rings of this length, each of which makes this call on the object of the next one."""
    yield "world 0 32767"
    for number in range(threads):
        yield f"object o{number} 00"
    for number in range(threads):
        yield f"attach t{number}"
        yield f"begin t{number} enter o{number}"
        yield f"go t{number}"
        yield f"go t{number}"
    for number in range(threads):
        first = number - number % ring
        following = first + (number - first + 1) % ring
        yield f"begin t{number} {call} o{following}"


def user_seconds():
    """The processor time in user mode of all programs that were run and have ended."""
    return resource.getrusage(resource.RUSAGE_CHILDREN).ru_utime


def seconds(program, lines):
    """The least time of a dump, and how many cycles it has."""
    with tempfile.NamedTemporaryFile("w", suffix=".script") as file:
        file.write("".join(line + "\n" for line in lines))
        file.flush()
        best = float("inf")
        for _ in range(RUNS):
            start = user_seconds()
            dump = subprocess.run([program, "dump", file.name], capture_output=True, text=True, check=True)
            best = min(best, user_seconds() - start)
    return best, sum(line.startswith("cycle ") for line in dump.stdout.splitlines())


def main():
    if len(sys.argv) != 2:
        sys.exit(__doc__)
    print("| Rings | Cycles | Time of the cycles |")
    print("|---|---|---|")
    for threads, ring in ((32_767, 32_767), (32_766, 2)):
        whole, cycles = seconds(sys.argv[1], script(threads, ring, "enter"))
        without, none = seconds(sys.argv[1], script(threads, ring, "holds"))
        if (cycles, none) != (threads // ring, 0):
            sys.exit(f"{threads} threads in rings of {ring} have {cycles} cycles, and {none} without")
        print(f"| {threads // ring} of {ring} threads | {cycles} | {1000 * (whole - without):.0f} ms |")


if __name__ == "__main__":
    main()
