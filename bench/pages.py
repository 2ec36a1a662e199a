"""The documents of compare.py, with their fonts, in the manner of TeX's pages.

book: 300 pages of text in ten fonts, of which each line uses several; twice: 600 such pages; rules: 300 pages of 500 rules; virtual: 300 pages
of characters of a virtual font, each of two characters of a real one; sample: the document of `sample 1000`.
"""

import os
import random
import sys

sys.path.insert(0, os.path.join(os.path.dirname(os.path.abspath(__file__)), "..", "tests"))
import documents as dvi
import fonts
import samples

NAMES = [b"body%d" % n for n in range(10)]
CODES = range(33, 127)
DPI = 600


def real(name, shift):
    """The files of a real font: 94 characters of 20 to 50 columns and 60 rows, drawn by chance."""
    chance = random.Random(shift)
    widths = {code: 300000 + 4000 * ((code * 7 + shift) % 94) for code in CODES}
    bitmaps = {}
    for code in CODES:
        columns = 20 + (code + shift) % 31
        bitmaps[code] = (columns, 60, 1, 45, f"{chance.getrandbits(columns * 60):0{columns * 60}b}")
    return {f"{name}.tfm": fonts.tfm(widths), f"{name}.{DPI}pk": fonts.pk(bitmaps)}


def words(chance):
    """A line of text: eleven words of characters, a space after each, sometimes in another font."""
    out = b""
    for _ in range(11):
        if chance.random() < 0.15:
            out += bytes([171 + chance.randrange(10)])
        out += bytes(chance.choice(CODES) for _ in range(chance.randrange(2, 9)))
        out += b"\x96" + dvi.number(chance.choice((218453, 218453, 200000, 240000)), 3)
    return out


def text(count):
    chance, pages = random.Random(7), []
    defined = b"".join(dvi.font_definition(k, name) for k, name in enumerate(NAMES))
    for page in range(1, count + 1):
        lines = b"".join(dvi.PUSH + dvi.down(786432 * row) + b"\xab" + words(chance) + dvi.POP for row in range(1, 46))
        pages.append((page, (defined if page == 1 else b"") + lines))
    files = {}
    for shift, name in enumerate(NAMES):
        files.update(real(name.decode(), shift))
    return dvi.document(pages, fonts=defined), files


def rules():
    rule = dvi.set_rule(15788, 15788) + dvi.right(9001)
    lines = b"".join(dvi.PUSH + dvi.down(500000 * row) + rule * 10 + dvi.POP for row in range(50))
    return dvi.document([(page, lines) for page in range(1, 301)]), {}


def virtual():
    """A virtual font each of whose characters sets two of the real font below it."""
    files = real("below", 3)
    packets = {code: bytes([code]) + bytes([33 + (code + 1) % 94]) for code in CODES}
    widths = {code: 600000 for code in CODES}
    files["above.tfm"] = fonts.tfm(widths)
    files["above.vf"] = fonts.vf([(0, b"below", fonts.WHOLE, fonts.TEN_POINTS)], packets)
    chance, pages, defined = random.Random(9), [], dvi.font_definition(0, b"above")
    for page in range(1, 301):
        line = lambda row: dvi.PUSH + dvi.down(786432 * row) + bytes(chance.choice(CODES) for _ in range(60)) + dvi.POP
        pages.append((page, (defined if page == 1 else b"") + b"\xab" + b"".join(line(row) for row in range(1, 41))))
    return dvi.document(pages, fonts=defined), files


def sample():
    files = samples.files(1000)
    files[f"smp.{DPI}pk"] = files["smp.300pk"]
    return files.pop("sample.dvi"), files


DOCUMENTS = dict(book=lambda: text(300), twice=lambda: text(600), rules=rules, virtual=virtual, sample=sample)


def write(folder):
    """All documents, each as a .dvi file of its name, and their fonts."""
    for name, make in DOCUMENTS.items():
        content, files = make()
        for file, data in {**files, name + ".dvi": content}.items():
            with open(os.path.join(folder, file), "wb") as out:
                out.write(data)


if __name__ == "__main__":
    write(sys.argv[1] if len(sys.argv) > 1 else ".")
