"""dvicopy by the built program: its copies byte for byte, what they show when they are printed, and what is refused."""

import os
import resource
import subprocess

import documents as dvi
import fonts
from documents import number
from options import special
from plain import Document, signed, unsigned
from printing import A, FNT_0, example_files, one, virtual, with_fonts
from read_back import Pages
from rows import DOT, article
from running import PROGRAM, Folder, check, refused_in

FAR = 2**31 - 1
TFM = {"cmr10.tfm": fonts.CMR10_TFM}


def copied(name, content, files=TFM, words=(), said=b""):
    """The copy that a run makes which is done."""
    with with_fonts(content, files) as folder:
        check(name, folder.run("dvicopy", *words, "in", "out"), (0, b"", said))
        return folder.get("out.dvi") or b""


def commands(copy):
    """What stands between bop and eop on each page."""
    end = len(copy.rstrip(b"\xdf"))
    post = unsigned(copy, end - 5, 4) if end > 5 else 0
    bops, at = [], unsigned(copy, post + 1, 4) if post else 0xFFFFFFFF
    while at != 0xFFFFFFFF:
        bops.append(at)
        at = unsigned(copy, at + 41, 4)
    bops.reverse()
    return [copy[bop + 45 : behind].rpartition(b"\x8c")[0] for bop, behind in zip(bops, bops[1:] + [post])]


def one_character():
    definition = dvi.font_definition()
    bop = b"\x8b" + number(1) + bytes(36) + number(-1)
    post = b"\xf8" + number(36) + number(25400000) + number(473628672) + number(1000) + bytes(10) + number(1, 2)
    want = dvi.preamble(**dvi.USUAL) + definition + bop[:41] + number(-1) + b"\xab\x41\x8c" + post + definition + b"\xf9" + number(84) + b"\x02" + b"\xdf" * 4
    check("the copy of one character has 144 bytes", len(want), 144)
    with Folder(one_dvi=dvi.ONE, cmr10_tfm=fonts.CMR10_TFM) as folder:
        check("a copy to a file", folder.run("dvicopy", "one.dvi", "two.dvi"), (0, b"", b""))
        check("a copy to a file, bytes", folder.get("two.dvi"), want)
        check("a copy to a name without .dvi", folder.run("dvicopy", "one", "three"), (0, b"", b""))
        check("a copy to a name without .dvi, bytes", folder.get("three.dvi"), want)
        check("a copy to standard output", folder.run("dvicopy", "one"), (0, want, b""))
        check("a copy of standard input", folder.run("dvicopy", "-", "-", stdin=dvi.ONE), (0, want, b""))
    check("the copy of a copy", copied("the copy of a copy", want), want)


def marks():
    """What the copy of a page has between bop and eop."""
    small = {**TFM, "virt.tfm": fonts.CMR10_TFM, "virt.vf": fonts.vf([(0, b"cmr10", fonts.WHOLE, fonts.TEN_POINTS)], {65: b"\x8f\x03" * 2 + A})}
    to_and_fro = dvi.PUSH + dvi.right(-FAR) + DOT + dvi.POP + dvi.right(FAR) + DOT
    for name, content, files, want in (
        ("moves of a packet are scaled one by one", one(FNT_0 + A, (b"virt",)), small, b"\x8f\x02\xab\x41"),
        ("two characters", one(FNT_0 + A * 2), TFM, b"\xab\x41\x41"),
        ("two moves", one(FNT_0 + dvi.right(60000) * 2 + dvi.down(-200) + A), TFM, b"\x91\x01\xd4\xc0\x9e\xff\x38\xab\x41"),
        ("rules", one(dvi.set_rule(0, 100) + dvi.set_rule(5, 7) + dvi.put_rule(5, -1) + DOT), TFM, b"\x8f\x64" + dvi.put_rule(5, 7) + b"\x8f\x07" + DOT),
        ("a special", one(special(b"hello") + dvi.right(1)), TFM, special(b"hello")),
        ("a character that would lead too far", one(dvi.right(FAR) + FNT_0 + b"\x85\x41"), TFM, dvi.right(FAR) + b"\xab\x85\x41"),
        ("the longest moves", one(to_and_fro), TFM, dvi.right(-FAR) + DOT + dvi.right(FAR) * 2 + DOT),
        ("one font by two numbers", one(FNT_0 + A + b"\xac\x41", (b"cmr10", b"cmr10")), TFM, b"\xab\x41\x41"),
        ("a font that sets nothing", one(b"\xac" + FNT_0 + A, (b"cmr10", b"other")), TFM, b"\xab\x41"),
    ):
        found = commands(copied(name, content, files))
        check(name + ", commands", found, [want])


def options():
    pages = dvi.document([(n, DOT * n) for n in (1, 2, 3, 2)])
    for words, want in (((), [1, 2, 3, 2]), (("-page-start=2",), [2, 3, 2]), (("-page-start=2", "-max-pages=2"), [2, 3]), (("-max-pages=1",), [1])):
        name = " ".join(("a copy", *words))
        copy = copied(name, pages, {}, words)
        check(name + ", pages", commands(copy), [DOT * n for n in want])
        found = Document({"in.dvi": copy}, "in.dvi", 300) if copy else None
        check(name + ", counts", [label for label, _ in found.pages] if found else [], want)
    copy = copied("-magnification=2000", pages, {}, ("-magnification=2000",))
    post = unsigned(copy, len(copy.rstrip(b"\xdf")) - 5, 4) if copy else 0
    check("-magnification=2000, preamble and postamble", [copy[at : at + 4] for at in (10, post + 13)], [number(2000)] * 2)
    tall = dvi.document([(1, b"")])
    post = unsigned(tall, len(tall.rstrip(b"\xdf")) - 5, 4)
    tall = tall[: post + 17] + number(1234) + number(5678) + tall[post + 25 :]
    copy = copied("height and width", tall, {})
    check("height and width stay", copy[post + 17 : post + 25], number(1234) + number(5678))
    other = {"cmr10.tfm": fonts.tfm({65: 1 << 19}, checksum=7)}
    summed = dvi.ONE.replace(b"\xf3\x00" + bytes(4), b"\xf3\x00" + number(9))
    copied("another checksum", summed, other, said=b"texdvi: warning: checksum cmr10\n")


def printed(folder, name, *words):
    status, out, said = folder.run("dvips", "-D", "300", "-q", *words, "-o", "-", name)
    check(f"dvips over {name}", (status, said), (0, b""))
    return Pages(out).pages if status == 0 else None


def drift():
    content = one(FNT_0 + A * 10 + dvi.right(60000) * 2 + A)
    with with_fonts(content, fonts.CMR10) as folder:
        check("moves that are joined", folder.run("dvicopy", "in", "copy"), (0, b"", b""))
        for name, limit, place in (("in", "2", 217), ("copy", "2", 215), ("in", "0", 215), ("copy", "0", 215)):
            pages = printed(folder, name, "-e", limit) or [(1, [(None, None)])]
            check(f"the last character of {name}, -e {limit}", pages[0][1][-1][1], place)


def examples():
    """The copy of the example asks for no bitmap and has no virtual font, and shows what the example shows."""
    files = example_files()
    with Folder() as folder:
        for name, data in files.items():
            if not name.endswith("pk"):
                folder.put(name, data)
        check("the copy of the example", folder.run("dvicopy", "example", "copy"), (0, b"", b""))
        for name, data in files.items():
            folder.put(name, data)
        copy = folder.get("copy.dvi")
        if copy:
            names = [name for name, _, _ in Document({**files, "copy.dvi": copy}, "copy.dvi", 300).defined.values()]
            check("the copy's fonts are real", [name for name in names if name + ".vf" in files], [])
            check("the copy has eleven fonts at most", 0 < len(names) <= 11, True)
        check("the copy shows the same", printed(folder, "copy", "-e", "0"), printed(folder, "example", "-e", "0"))


def articles():
    files = article()
    said = b""
    with with_fonts(files["in.dvi"], files) as folder:
        check("the copy of an article", folder.run("dvicopy", "in", "copy"), (0, b"", said))
        whole = folder.get("copy.dvi") or b""
        if not whole:
            return
        document = Document({**files, "copy.dvi": whole}, "copy.dvi", 600)
        check("the copy of an article, fonts", sorted({name for name, _, _ in document.defined.values()}), sorted(["upright", "slanted"] + [f"real{n}" for n in range(9)]))
        check("the copy of an article, pages", [label for label, _ in document.pages], list(range(1, 13)))
        check("the copy of an article, its special", special(b"color push") in whole, True)
        document.drift = 0
        check("the copy of an article, what it shows", document.shown(), Document(files, "in.dvi", 600, 0).shown())
        for limit in (100, 200, len(whole) - 1):
            limited = lambda: resource.setrlimit(resource.RLIMIT_FSIZE, (limit, limit))
            done = subprocess.run(
                [PROGRAM, "dvicopy", "in", "cut"], cwd=folder.path, capture_output=True, timeout=60, preexec_fn=limited, restore_signals=False
            )
            name = f"a copy of which {limit} bytes are taken"
            check(name, (done.returncode, done.stdout, done.stderr), (4, b"", said + b"texdvi: WriteFault\n"))
            check(name + ", bytes", folder.get("cut.dvi"), whole[:limit])


def refused(name, content, files, message, status=1, words=()):
    with with_fonts(content, files) as folder:
        refused_in(folder, "dvicopy, " + name, status, message, ("dvicopy", *words, "in", "out.ps"))
        check("dvicopy, " + name + ", the copy", folder.get("out.ps.dvi"), None)


def refusals():
    usual = one(FNT_0 + A)
    long = {**TFM, "virt.tfm": fonts.tfm({65: 0}), "virt.vf": fonts.vf([], {65: b"\xf2" + number(1_000_000) + b"a" * 1_000_000})}
    bare = {**TFM, "virt.tfm": fonts.CMR10_TFM}
    small = fonts.vf([(0, b"cmr10", 0, fonts.TEN_POINTS)], {65: A})
    many = b"".join(b"\xec" + number(n, 2) for n in range(1001))
    defined = b"".join(b"\xf4" + number(n, 2) + number(0) + number(655360) * 2 + bytes([0, 5]) + b"f%04d" % n for n in range(1001))
    for name, content, files, message in (
        ("no TFM file", usual, {}, b"Missing cmr10.tfm"),
        ("no document", usual[:-2], TFM, b"BadDvi NoTrailer"),
        ("no font", one(A), TFM, b"NoFont page 60"),
        ("no such character", one(FNT_0 + b"\x42"), TFM, b"NoChar cmr10 66"),
        ("a pop without a push", one(dvi.POP), TFM, b"StackUnder page 60"),
        ("a push left open", one(dvi.PUSH), TFM, b"StackLeft page 61"),
        ("one push more", one(dvi.PUSH * 1001 + dvi.POP * 1001), TFM, b"StackDeep page 1060"),
        ("a far move", one(dvi.right(FAR) + dvi.right(1)), TFM, b"Overflow page 65"),
        ("a font that isn't defined", one(b"\xac"), TFM, b"UndefinedFont page 60"),
        ("a thousand fonts and one more", dvi.document([(1, many)], fonts=defined), {}, b"TooManyFonts"),
        ("units that turn into no pixels", dvi.document([(1, b"")], den=0), {}, b"BadConv 25400000 0 1000 300"),
        ("no packet", one(FNT_0 + A, (b"virt",)), {**bare, "virt.vf": fonts.vf([], {66: b""})}, b"NoPacket virt 65"),
        ("a local font of size 0", one(FNT_0 + A, (b"virt",)), {**bare, "virt.vf": small}, b"BadSize cmr10 0 655360"),
        ("a bad TFM file", usual, {"cmr10.tfm": fonts.CMR10_TFM[:-1]}, b"BadTfm cmr10.tfm Short"),
        ("a long TFM file", usual, {"cmr10.tfm": bytes(131_069)}, b"FileTooLong cmr10.tfm"),
        ("a bad VF file", usual, {**TFM, "cmr10.vf": b""}, b"BadVf cmr10.vf BadPreamble"),
        ("a font that sets its own character twice", one(FNT_0 + A, (b"self",)), virtual([b"self"], b"self", A * 2), b"NestDeep self 65"),
        ("too many commands", one(FNT_0 + A, (b"t0",)), virtual([b"t%d" % n for n in range(8)], packet=A * 10), b"TooManySteps"),
        ("a copy that would be too long", one(FNT_0 + A * 2148, (b"virt",)), long, b"CopyTooLong"),
    ):
        refused(name, content, files, message)
    refused("a page that isn't there", usual, TFM, b"NoSuchPage 9", words=("-page-start=9",))
    with with_fonts(usual, {}) as folder:
        os.mkdir(os.path.join(folder.path, "cmr10.tfm"))
        refused_in(folder, "dvicopy, a folder as TFM file", 3, b"ReadFault cmr10.tfm", ("dvicopy", "in", "out.ps"))
    refused("an option of another tool", usual, TFM, b"BadWords 1", 2, words=("-q",))


PARTS = (one_character, marks, options, drift, examples, articles, refusals)
