#!/usr/bin/env python3
"""Measures `thinmon explore`: states a second of two threads, and bytes a state of four threads and two objects.

    explore_speed.py PROGRAM [--turns N]

PROGRAM is crates/thinmon/out/thinmon. It explores two_threads.program in five turns, or as many as `--turns` says, and
four_threads.program once. A time is the processor time of the whole run, report and all, the least of the turns. Memory
is the most that the process held at any time, all of it; so it counts the states that wait to be visited, too.
"""
import argparse
import os
import subprocess
import sys
import tempfile
from pathlib import Path

HERE = Path(__file__).resolve().parent


def explore(program, text):
    """The states, the processor seconds and the most kilobytes of one exploration."""
    with tempfile.TemporaryFile() as given, tempfile.TemporaryFile() as report:
        given.write(text.encode())
        given.seek(0)
        child = subprocess.Popen([program, "explore"], stdin=given, stdout=report)
        _, status, usage = os.wait4(child.pid, 0)
        child.returncode = os.waitstatus_to_exitcode(status)
        if child.returncode:
            sys.exit(f"{program} explore ended with {child.returncode}")
        report.seek(0)
        states = int(report.readline().split()[1])
    return states, usage.ru_utime + usage.ru_stime, usage.ru_maxrss


def main():
    words = argparse.ArgumentParser(usage=__doc__)
    words.add_argument("program")
    words.add_argument("--turns", type=int, default=5)
    given = words.parse_args()
    two = (HERE / "two_threads.program").read_text()
    runs = [explore(given.program, two) for _ in range(given.turns)]
    states, seconds = runs[0][0], min(run[1] for run in runs)
    print(f"two threads: {states} states in {seconds:.2f} s, {states / seconds:.0f} a second")
    states, seconds, most = explore(given.program, (HERE / "four_threads.program").read_text())
    print(f"four threads: {states} states in {seconds:.2f} s, {most * 1024 / states:.0f} bytes a state")


if __name__ == "__main__":
    main()
