#!/usr/bin/env python3
"""Runs programs on a document, in turn, and prints a line for each: the median of its wall times and of its processor times in ms, and the
most memory that a run held in KiB.

usage: times.py RUNS DOCUMENT COMMAND..

A command is one argument: a program and its words. It needs GNU time.
"""
import os
import subprocess
import sys
import time
from pathlib import Path
from statistics import median
from tempfile import NamedTemporaryFile


def run(command, document, note):
    """Wall time and processor time of one run in ms, and its most memory in KiB."""
    # Started by `time`, since a program begins with the most memory of what started it.
    words = ["/usr/bin/time", "-f", "%M", "-o", note.name, *command.split()]
    with open(document) as source:
        start = time.perf_counter()
        process = subprocess.Popen(words, stdin=source, stdout=subprocess.DEVNULL)
        _, status, used = os.wait4(process.pid, 0)
        wall = time.perf_counter() - start
    if status != 0:
        sys.exit(f"{command}: status {status}")
    return 1000 * wall, 1000 * (used.ru_utime + used.ru_stime), int(Path(note.name).read_text())


def main():
    count, document, *commands = sys.argv[1:]
    with NamedTemporaryFile() as note:
        rounds = [[run(command, document, note) for command in commands] for _ in range(int(count))]
    for runs in zip(*rounds):
        walls, processors, memories = zip(*runs)
        print(f"{median(walls):.1f} {median(processors):.1f} {max(memories)}")


if __name__ == "__main__":
    main()
