"""Runs each of the built program's tools on the documents of pages.py, and the tool of TeX Live that it replaces where that is installed.

Prints for each the least times of several runs (the first argument says how many), the memory where GNU time is installed, the bytes
written, the number of write calls where strace is installed, and our times over theirs; and at the end how the time grows from 300 pages
to 600. On a machine that does other work only the time of the processor tells something.
"""

import os
import shutil
import sys

import pages
from measuring import PROGRAM, in_scratch, line, measure, ratios

RUNS = int(sys.argv[1]) if len(sys.argv) > 1 else 5
# theirs look for fonts in the folder alone, and make none
ALONE = {**os.environ, "TEXFONTS": ".", "TFMFONTS": ".", "VFFONTS": ".", "PKFONTS": ".", "MKTEXPK": "0", "MKTEXTFM": "0"}
TOOLS = dict(
    dvips=(("-D", str(pages.DPI), "-o", "ours.out"), ("-q", "-D", str(pages.DPI), "-o", "theirs.out"), False),
    dvitype=((f"-dpi={pages.DPI}",), (f"-dpi={pages.DPI}", "-output-level=4"), True),
    dvicopy=((), (), None),
)


def compared(tool, name, folder):
    """One tool on one document: what ours takes, and theirs, or None."""
    ours, theirs, streams = TOOLS[tool]
    behind = lambda output: [name + ".dvi"] + ([output] if streams is None else [])
    mine = measure([PROGRAM, tool, *ours, *behind("ours.dvi")], folder, "ours.dvi" if streams is None else "ours.out", RUNS, streams)
    print(line(name, "texdvi", mine))
    if not shutil.which(tool):
        return mine, None
    other = measure([tool, *theirs, *behind("theirs.dvi")], folder, "theirs.dvi" if streams is None else "theirs.out", RUNS, streams, ALONE)
    print(line(name, tool, other))
    print(ratios(name, mine, other))
    return mine, other


def compare(folder):
    for tool in TOOLS:
        print(f"-- {tool}")
        found = {name: compared(tool, name, folder)[0] for name in pages.DOCUMENTS}
        print(f"twice the pages: {found['twice']['processor'] / found['book']['processor']:.2f} times the time")


if __name__ == "__main__":
    sys.exit(in_scratch(pages.write, compare))
