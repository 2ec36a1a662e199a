"""Runs the built program on real files in a scratch folder, and compares status, standard error, and what is written."""

import os
import sys
from fractions import Fraction

import copies
import documents as dvi
import gathering
import lists
import options
import printing
import rows
import samples
from running import PROGRAM, STORED, Folder, check, counts, refused_in, text

def refused(name, content, status, message, words=("dvips", "-D", "300", "-o", "out.ps", "in.dvi")):
    with Folder() as folder:
        if content is not None:
            folder.put("in.dvi", content)
        refused_in(folder, name, status, message, words)


def prints(name, content, pages, dpi=300):
    with Folder(in_dvi=content) as folder:
        check(name, folder.run("dvips", "-D", str(dpi), "-o", "out.ps", "in"), (0, b"", b""))
        check(name + ", text", folder.get("out.ps"), text(b"in.dvi", pages, dpi))


WORDS = ("dvips", "-D", "300", "-o")
LOST = (4, b"texdvi: WriteFault\n")
PIXEL = 15788  # 65536 * 72.27 units are an inch, so at 300 pixels an inch these are a little more than one


def ruled(count):
    """A document with so many rules at one place, and the page's lines."""
    return dvi.document([(1, dvi.put_rule(PIXEL, PIXEL) * count)]), b"2 2 v\n" * count


def files_and_streams():
    with Folder(rule_dvi=dvi.RULE, out_ps=b"an old and longer output" * 1000) as folder:
        check("to a file", folder.run(*WORDS, "out.ps", "rule.dvi"), (0, b"", b""))
        check("to a file, text", folder.get("out.ps"), STORED)
        check("to standard output", folder.run(*WORDS, "-", "rule"), (0, STORED, b""))
        check("to a file of an odd name", folder.run(*WORDS, "-x", "rule.dvi"), (0, b"", b""))
        check("to a file of an odd name, text", folder.get("-x"), STORED)
        title = STORED.replace(b"%%Title: rule.dvi", b"%%Title: -")
        check("from standard input", folder.run(*WORDS, "-", "-", stdin=dvi.RULE), (0, title, b""))
        check("an output that can't be made", folder.run(*WORDS, "no/out.ps", "rule.dvi"), (4, b"", LOST[1]))


def long_outputs():
    """Texts of 65,536 bytes, which is how many are gathered before they go out, of a few bytes fewer and more, and of many times as many."""
    bare = len(text(b"i.dvi", [(1, b"")]))
    content, lines = ruled((65_536 - bare) // len(b"2 2 v\n"))
    for length in range(1, 9):
        name = b"i" * length + b".dvi"
        want = text(name, [(1, lines)])
        with Folder() as folder:
            folder.put(name.decode(), content)
            for output in ("out.ps", "-"):
                status, out, said = folder.run(*WORDS, output, name.decode())
                got = out if output == "-" else folder.get(output)
                check(f"{len(want)} bytes to {output}", (status, said, got), (0, b"", want))
    content, lines = ruled(100_000)
    prints("a long text", content, [(1, lines)])


def lost_outputs():
    """Where what is written isn't taken, the status is 4 and one line is said, whether that shows at once or only at the end."""
    for name, content in [("a short text", dvi.RULE), ("a long text", ruled(60_000)[0])]:
        with Folder(in_dvi=content) as folder:
            reader, writer = os.pipe()
            os.close(reader)
            check(name + ", a closed pipe", streamed(folder, writer), LOST)
            check(name + ", a full device", folder.run(*WORDS, "/dev/full", "in"), (4, b"", LOST[1]))
            check(name + ", a full standard output", streamed(folder, os.open("/dev/full", os.O_WRONLY)), LOST)


def streamed(folder, output):
    """A run to this standard output, which is closed behind it: its status and what it says."""
    status, _, said = folder.run(*WORDS, "-", "in", stdout=output)
    os.close(output)
    return status, said


def inputs():
    refused("no input", None, 1, b"Missing in.dvi")
    refused("a long input", dvi.RULE + b"\xdf" * 67_108_864, 1, b"FileTooLong in.dvi")
    with Folder() as folder:
        os.mkdir(os.path.join(folder.path, "in.dvi"))
        check("a folder as input", folder.run("dvips", "-D", "300", "-o", "out.ps", "in"), (3, b"", b"texdvi: ReadFault in.dvi\n"))


def documents():
    rule = dvi.RULE
    changed = lambda at, value: rule[:at] + value + rule[at + len(value) :]
    refused("an empty file", b"", 1, b"BadDvi NoPreamble")
    refused("a short trailer", rule[:-2], 1, b"BadDvi NoTrailer")
    refused("a den of 0", dvi.document([(1, dvi.RULES)], den=0), 1, b"BadConv 25400000 0 1000 300")
    refused("a wrong pointer of post", changed(89, dvi.number(14)), 1, b"BadDvi BadBackPointer 88")
    refused("a wrong number of pages", changed(115, dvi.number(2, 2)), 1, b"BadDvi PageCount 1 2")
    refused("an undefined byte", changed(60, b"\xfa"), 1, b"BadDvi Undefined 60")
    refused("a wrong pointer to post", changed(118, dvi.number(87)), 1, b"BadDvi BadPostPointer 117")
    refused("another version", changed(1, b"\x03"), 1, b"BadDvi BadId 1")
    # each with four bytes 223 at its end, the fewest there may be
    for name, whole in [("rules", rule[:-1]), ("a character", dvi.ONE)]:
        for length in range(len(whole)):
            with Folder(in_dvi=whole[:length]) as folder:
                status, out, said = folder.run("dvips", "-D", "300", "-o", "-", "in")
                check(f"the first {length} bytes of {name}", (status, out, said[:15]), (1, b"", b"texdvi: BadDvi "))


def pages():
    prints("no page", dvi.document([]), [])
    prints("a page of rules", dvi.RULE, [(1, b"1 w\n3 1 v\n")])
    prints("another resolution", dvi.RULE, [(1, b"1 w\n6 1 v\n")], dpi=600)
    inch, pixel = 4736287, PIXEL
    moves = dvi.PUSH + dvi.right(inch) + dvi.down(inch) + dvi.put_rule(pixel, pixel) + dvi.POP + dvi.put_rule(pixel, pixel)
    prints(
        "pushes, moves and several pages",
        dvi.document([(7, moves), (-3, b""), (2, dvi.down(-inch) + dvi.put_rule(1, 1))]),
        [(7, b"300 300 a\n2 2 v\n0 0 a\n2 2 v\n"), (-3, b""), (2, b"-300 x\n1 1 v\n")],
    )
    prints("a thousand pushes", dvi.document([(1, dvi.PUSH * 1000 + dvi.POP * 1000)]), [(1, b"")])
    refused("one push more", dvi.document([(1, dvi.PUSH * 1001 + dvi.POP * 1001)]), 1, b"StackDeep page 1060")
    refused("a pop without a push", dvi.document([(1, dvi.POP)]), 1, b"StackUnder page 60")
    refused("a push left open", dvi.document([(1, dvi.PUSH)]), 1, b"StackLeft page 61")
    refused("a far move", dvi.document([(1, dvi.right(2**31 - 1) + dvi.right(1))]), 1, b"Overflow page 65")
    refused("a large rule", dvi.document([(1, dvi.put_rule(-(2**31), 1))]), 1, b"Overflow page 60")
    many = dvi.document([(n % 1000, dvi.put_rule(pixel, pixel)) for n in range(10_000)])
    prints("ten thousand pages", many, [(n % 1000, b"2 2 v\n") for n in range(10_000)])
    wide = dvi.document([(1, (dvi.put_rule(pixel, pixel) + b"\x8f\x7f") * 60_000)])
    with Folder(in_dvi=wide) as folder:
        status, out, said = folder.run("dvips", "-D", "300", "-o", "-", "in")
        check("sixty thousand rules", (status, out.count(b" v\n"), said), (0, 60_000, b""))


def moves():
    """Each form of a move, on a page of its own: where the pixel behind it stands."""
    scale = Fraction(25400000 * 1000 * 300, 254000 * 1000 * 473628672)
    nearest = lambda units: (abs(units) * scale + Fraction(1, 2)).__floor__() * (-1 if units < 0 else 1)
    amounts = {1: [127, -128], 2: [32767, -32768, 7894], 3: [8388607, -8388608, 23682], 4: [100000000, -100000001, 5]}
    pages = []
    for first, again, across in [(143, None, True), (148, 147, True), (153, 152, True), (157, None, False), (162, 161, False), (167, 166, False)]:
        for size, values in amounts.items():
            for value in values:
                times = 2 if again else 1
                commands = bytes([first + size - 1]) + dvi.number(value, size) + (bytes([again]) if again else b"")
                place = nearest(value * times)
                way = b"%d %s\n" % (place, b"w" if across else b"x") if place else b""
                pages.append((1, commands + dvi.put_rule(1, 1), way + b"1 1 v\n"))
    prints("each form of a move", dvi.document([page[:2] for page in pages]), [(page[0], page[2]) for page in pages])
    none = b"".join(dvi.put_rule(a, b) for a, b in [(0, 1), (1, 0), (-1, 1), (1, -1), (-5, -5), (0, 0)])
    prints("rules without ink", dvi.document([(1, none + dvi.set_rule(0, 0) + dvi.set_rule(-3, -15788))]), [(1, b"")])


PARTS = options.PARTS + samples.PARTS + printing.PARTS + rows.PARTS + lists.PARTS + copies.PARTS + gathering.PARTS


def main():
    if not os.path.exists(PROGRAM):
        print(f"tests/run: {PROGRAM} is not there; run rt ci first")
        return 1
    for part in (files_and_streams, long_outputs, lost_outputs, inputs, documents, pages, moves) + PARTS:
        part()
    print("{passed} passed, {failed} failed".format(**counts))
    return 1 if counts["failed"] else 0


if __name__ == "__main__":
    sys.exit(main())
