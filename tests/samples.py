"""`sample`, and what the program says of itself."""

import os
import re

import documents as dvi
import fonts
from read_back import Pages
from running import TOP, Folder, check

CODES = range(65, 81)


def letters():
    """The codes of the sample's characters, one after another."""
    state = 1
    while True:
        state = (state * 1103515245 + 12345) % 2**31
        yield 65 + state // 65536 % 16


def document(count):
    """The sample of so many pages, made anew."""
    code = letters()
    definition, pages = dvi.font_definition(name=b"smp"), []
    for number in range(1, count + 1):
        commands = (definition if number == 1 else b"") + b"\xab"
        for row in range(1, 41):
            words = b"".join(bytes(next(code) for _ in range(10)) + dvi.right(218453) for _ in range(6))
            commands += dvi.PUSH + dvi.down(row * 786432) + words + dvi.POP
        pages.append((number, commands + dvi.put_rule(26214, 23592960)))
    return dvi.document(pages, fonts=definition)


def glyph(i):
    bits = "".join("1" if (row + column) % (i + 2) == 0 else "0" for row in range(12) for column in range(8 + i))
    return 8 + i, 12, 0, 11, bits


def files(count):
    widths = {code: 524288 + 16384 * (code - 65) for code in CODES}
    bitmaps = {code: glyph(code - 65) for code in CODES}
    return {"sample.dvi": document(count), "smp.tfm": fonts.tfm(widths), "smp.300pk": fonts.pk(bitmaps)}


def usage():
    with open(os.path.join(TOP, "docs", "USAGE.md"), encoding="ascii") as file:
        return file.read()


def sample():
    for count, sections in ((1, 1), (10, 2), (16, 2), (17, 3)):
        with Folder() as folder:
            first = folder.run("sample", str(count)), folder.get("sample.ps")
            second = folder.run("sample", str(count)), folder.get("sample.ps")
            line = "pages=%d sections=%d glyphs=%d rules=%d bytes=%d\n" % (count, sections, 2400 * count, count, len(first[1] or b""))
            check(f"sample {count}", first[0], (0, b"", line.encode()))
            if count == 10:
                check("sample 10 in USAGE.md", line in usage(), True)
            check(f"sample {count}, again", second, first)
            for name, content in files(count).items():
                folder.put(name, content)
            check(f"sample {count} by dvips", folder.run("dvips", "-D", "300", "-S", "8", "sample"), (0, b"", b""))
            check(f"sample {count} by dvips, text", folder.get("sample.ps"), first[1])
    read = Pages(first[1])
    marks = [mark for _, page in read.pages for mark in page]
    check("what the sample shows", (len(read.pages), len(read.sections), len(marks)), (17, 3, 17 * 2401))


def lost():
    with Folder() as folder:
        os.symlink("/dev/full", os.path.join(folder.path, "sample.ps"))
        check("a long sample that isn't taken", folder.run("sample", "30"), (4, b"", b"texdvi: WriteFault\n"))
        status, out, said = folder.run("sample", "1")  # it is gathered whole, and isn't taken only as the program ends
        check("a short sample that isn't taken", (status, out, said.splitlines()[1:]), (4, b"", [b"texdvi: WriteFault"]))


def about():
    with Folder() as folder:
        status, out, said = folder.run("--help")
        check("--help", (status, said), (0, b""))
        for word in b"dvips dvitype dvicopy sample -p -l -pp -n -r -A -B -c -C -x -D -X -Y -S -h -q -N -o -t -T -O -e".split():
            check(f"--help tells of {word.decode()}", re.search(rb"(^|[ ])" + word + rb"[ ,]", out, re.MULTILINE) is not None, True)
        for word in (b"--memory=", b"--pass=ps", b"-page-start", b"-max-pages", b"-magnification", b"-dpi", b"-detail"):
            check(f"--help tells of {word.decode()}", word in out, True)
        status, out, said = folder.run("--version")
        with open(os.path.join(TOP, "README.md"), "rb") as file:
            toolchain = re.search(rb"rattle-kit-\S+ logic [0-9a-f]+", file.read())
        check("--version", (status, said, toolchain is not None and toolchain[0] in out), (0, b"", True))
        full = os.open("/dev/full", os.O_WRONLY)
        check("--help that isn't taken", folder.run("--help", stdout=full)[0], 4)
        os.close(full)


PARTS = (sample, lost, about)
