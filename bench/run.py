"""Runs the built texdvi, and dvips where it is installed, on the documents of files.py.

Prints for each the least times of several runs (the first argument says how many), the memory where GNU time is installed, the bytes
written, the number of write calls where strace is installed, and our times over those of dvips. On a machine that does other work only
the time of the processor tells something.
"""

import shutil
import sys

import files
from measuring import PROGRAM, in_scratch, line, measure, ratios

RUNS = int(sys.argv[1]) if len(sys.argv) > 1 else 9


def compare(folder):
    for name in files.FILES:
        ours = measure([PROGRAM, "dvips", "-D", "300", "-o", "ours.ps", name], folder, "ours.ps", RUNS)
        print(line(name, "texdvi", ours))
        if shutil.which("dvips"):
            theirs = measure(["dvips", "-q", "-D", "300", "-o", "theirs.ps", name], folder, "theirs.ps", RUNS)
            print(line(name, "dvips", theirs))
            print(ratios(name, ours, theirs))


if __name__ == "__main__":
    sys.exit(in_scratch(files.write, compare))
