"""The built program, run on real files in a scratch folder; and what is counted of the tests."""

import os
import shutil
import subprocess
import tempfile

TOP = os.path.dirname(os.path.dirname(os.path.abspath(__file__)))
PROGRAM = os.path.join(TOP, "crates", "texdvi", "out", "texdvi")
with open(os.path.join(TOP, "crates", "texdvi", "stdout"), "rb") as file:
    STORED = file.read()  # the text of rule.dvi, as the program's stored run has it
HEAD, TAIL = STORED[: STORED.index(b"bos\n")], STORED[STORED.index(b"%%Trailer") :]

counts = {"passed": 0, "failed": 0}


def check(name, got, want):
    if got == want:
        counts["passed"] += 1
    else:
        counts["failed"] += 1
        print(f"FAILED {name}:\n  got  {got!r:.2000}\n  want {want!r:.2000}")


class Folder:
    """A scratch folder with some files, in which the program runs."""

    def __init__(self, **files):
        self.path = tempfile.mkdtemp(prefix="texdvi-")
        for name, content in files.items():
            self.put(name.replace("_", "."), content)

    def __enter__(self):
        return self

    def __exit__(self, *_):
        shutil.rmtree(self.path)

    def put(self, name, content):
        with open(os.path.join(self.path, name), "wb") as file:
            file.write(content)

    def get(self, name):
        try:
            with open(os.path.join(self.path, name), "rb") as file:
                return file.read()
        except FileNotFoundError:
            return None

    def run(self, *words, stdin=b"", stdout=subprocess.PIPE):
        done = subprocess.run(
            [PROGRAM, *words], cwd=self.path, input=stdin, stdout=stdout, stderr=subprocess.PIPE, timeout=60
        )
        return done.returncode, done.stdout, done.stderr


def text(title, pages, dpi=300, loaded=b""):
    """The text of pages, each a pair of a label and the lines between bop and eop, behind the lines that load fonts."""
    head = HEAD.replace(b"%%Title: rule.dvi", b"%%Title: " + title).replace(b"%%Pages: 1", b"%%%%Pages: %d" % len(pages))
    head = head.replace(b"300 300 300 300 TS", b"%d %d %d %d TS" % (dpi, dpi, dpi, dpi))
    body = b""
    for place, (label, lines) in enumerate(pages, 1):
        body += b"%%%%Page: %d %d\nbop\n" % (label, place) + lines + b"eop\n"
    return head + (b"bos\n" + loaded + body + b"eos\n" if pages else b"") + TAIL


def refused_in(folder, name, status, message, words=("dvips", "-D", "300", "-o", "out.ps", "in.dvi")):
    """A run that is refused says its line, begins no output, and leaves an old one as it was."""
    folder.put("out.ps", b"as it was")
    check(name, folder.run(*words), (status, b"", b"texdvi: " + message + b"\n"))
    check(name + ", output", folder.get("out.ps"), b"as it was")
