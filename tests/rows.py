"""Whole runs of dvips whose places, lines and ends were worked out by hand, apart from the program."""

import os
import resource
import subprocess
from fractions import Fraction
from math import ceil

import documents as dvi
import fonts
from documents import number
from options import special
from plain import Document
from printing import FNT_0, LOADED, A, one, with_fonts
from read_back import Pages
from running import PROGRAM, Folder, check, refused_in, text

DOT = dvi.put_rule(1, 1)  # a rule of one pixel
PIXEL = Fraction(300 * 100, 473628672)  # the pixels of a unit at 300 dots an inch


def printed(name, content, files=fonts.CMR10, words=(), dpi=300):
    """What a run writes that is done and says nothing; nothing where it isn't so."""
    with with_fonts(content, files) as folder:
        status, out, said = folder.run("dvips", "-D", str(dpi), *words, "-o", "-", "in")
    check(name, (status, said), (0, b""))
    return out if status == 0 else None


def lines(name, content, want, files=fonts.CMR10, words=(), loaded=LOADED):
    """A document of one page has these lines between bop and eop."""
    check(name + ", text", printed(name, content, files, words), text(b"in.dvi", [(1, want)], loaded=loaded))


def marks(name, content, files=fonts.CMR10, words=()):
    """What the one page of a document shows, read back from its text."""
    out = printed(name, content, files, words)
    return Pages(out).pages[0][1] if out else []


def refused(name, content, files, message, status=1, words=()):
    with with_fonts(content, files) as folder:
        refused_in(folder, name, status, message, ("dvips", "-D", "300", *words, "-o", "out.ps", "in"))


def whole_text():
    """The text of a page of one character, from bytes that are spelled out, to the name that the input gives."""
    definition = "f3 00 00000000 000a0000 000a0000 00 05 636d723130"
    content = f"""
        f7 02 018392c0 1c3b0000 000003e8 00
        8b 00000001 {"00" * 36} ffffffff {definition} ab 41 8c
        f8 0000000f 018392c0 1c3b0000 000003e8 00000000 00000000 0000 0001 {definition}
        f9 00000054 02 dfdfdfdf"""
    content = bytes.fromhex(content)
    check("the bytes of a page of one character", (len(content), content), (144, dvi.ONE))
    want = text(b"one.dvi", [(1, b"F0 F\n(A)p\n")], loaded=LOADED)
    head, _, tail = want.partition(b"%%BeginProlog\n")
    check("before the prolog", head, b"""%!PS-Adobe-2.0
%%Creator: texdvi
%%Title: one.dvi
%%Pages: 1
%%BoundingBox: 0 0 612 792
%%EndComments
""")  # fmt: skip
    check("behind the prolog", tail.partition(b"%%EndProlog\n")[2], b"""%%BeginSetup
/#copies 1 def
TeXDict begin
52099153 300 300 300 300 TS
%%EndSetup
bos
/F0 FB
65[4 2 true[1 0 0 1 0 1]{<f0f0>}21 0 0 -1 4 1]D
E
%%Page: 1 1
bop
F0 F
(A)p
eop
eos
%%Trailer
end
%%EOF
""")  # fmt: skip
    with Folder(one_dvi=content, **{name.replace(".", "_"): data for name, data in fonts.CMR10.items()}) as folder:
        check("a page of one character", folder.run("dvips", "-D", "300", "one.dvi"), (0, b"", b""))
        check("a page of one character, text", folder.get("one.ps"), want)
        folder.put("one.dvi", content[:-1])
        check("three bytes of fill", folder.run("dvips", "-D", "300", "one.dvi"), (1, b"", b"texdvi: BadDvi NoTrailer\n"))
        check("three bytes of fill, output", folder.get("one.ps"), want)
    check("a document without pages has 54 bytes", len(dvi.document([]).rstrip(b"\xdf")) + 4, 54)


def rules():
    behind = dvi.RULES + DOT + dvi.right(-47462) + DOT
    lines("behind rules", one(behind), b"1 w\n3 1 v\n3 w\n1 1 v\n-4 w\n1 1 v\n", loaded=b"")
    tall = one(dvi.down(47362) + dvi.put_rule(20000, 47362))
    lines("a rule below", tall, b"3 x\n3 2 v\n", loaded=b"")
    want = text(b"in.dvi", [(1, b"6 x\n3 3 v\n")]).replace(b"300 300 300 300 TS", b"300 600 300 600 TS")
    check("a rule below, twice as fine down", printed("-X 300 -Y 600", tall, words=("-X", "300", "-Y", "600")), want)
    for words, numbers in (("-D 600 -X 300", b"300 600 300 600"), ("-X 300 -D 600", b"600 600 600 600")):
        out = printed(words, tall, words=words.split()) or b""
        check(words + ", resolutions", b"52099153 " + numbers + b" TS\n" in out, True)


def edge(pixel):
    """The least place whose nearest pixel is this one."""
    return ceil((pixel - Fraction(1, 2)) / PIXEL)


def widths():
    """A character's width in units, to the unit: what is behind it crosses from one pixel to the next at just this move."""
    for size, fix, units in ((8388609, 1 << 20, 8388608), (655360, 1 << 19, 327680), (655360, -(1 << 20), -655360), (3, -1, -1)):
        files = {"cmr10.tfm": fonts.tfm({65: fix}), "cmr10.300pk": fonts.CMR10_PK}
        for less in (0, 1):
            move = edge(1000) - units - less
            name = f"{fix} at {size} and then {move}"
            found = marks(name, one(FNT_0 + A + dvi.right(move) + DOT, size=size), files)
            check(name + ", place", found[1:], [("rule", 1000 - less, 0, 1, 1)])


def drift():
    for limit, places in ((0, (62, 145, 228)), (1, (63, 146, 229)), (2, (63, 147, 230))):
        found = marks(f"forty characters, -e {limit}", one(FNT_0 + A * 40), words=("-e", str(limit)))
        check(f"the fourth, eighth and twelfth character, -e {limit}", [mark[1] for mark in found[3:12:4]], list(places))
    for move, place in ((0, 210), (109226, 214), (109225, 216), (-436904, 180), (-436903, 182)):
        found = marks(f"ten characters and {move}", one(FNT_0 + A * 10 + dvi.right(move) + DOT))
        check(f"ten characters and {move}, place", found[10:], [("rule", place, 0, 1, 1)])
    for moves, limit, place in (((60000, 60000), 2, 217), ((120000,), 2, 215), ((60000, 60000), 0, 215), ((120000,), 0, 215)):
        commands = FNT_0 + A * 10 + b"".join(map(dvi.right, moves)) + A
        found = marks(f"moves {moves}, -e {limit}", one(commands), words=("-e", str(limit)))
        check(f"moves {moves}, -e {limit}, the last character", [mark[1] for mark in found[10:]], [place])


def strings():
    codes = (40, 41, 92, 10, 200)
    files = {"cmr10.tfm": fonts.tfm({code: 1 << 19 for code in codes}), "cmr10.300pk": fonts.pk({code: fonts.SQUARE for code in codes})}
    out = printed("codes that are spelled", one(FNT_0 + b"".join(b"\x80" + number(code, 1) for code in codes)), files) or b""
    check("codes that are spelled, line", rb"(\(\)\\\012\310)p" in out.splitlines(), True)
    out = printed("characters in a row", one(FNT_0 + A * 51)) or b""
    check("characters in a row, the first line", out.partition(b"F0 F\n")[2].splitlines()[:1], [b"(" + A * 11 + b")o"])
    at = lambda x, y=0: dvi.PUSH + dvi.right(edge(x)) + dvi.down(edge(y)) + A + dvi.POP
    lines("characters at equal steps", one(FNT_0 + at(0) + at(51) + at(103)), b"F0 F\n(A)30 b\n(A)h\n(A)p\n")
    lines("a character on another row", one(FNT_0 + at(0) + at(51) + at(103, 5)), b"F0 F\n(A)30 b\n(A)103 5 y\n(A)p\n")


def nine_tenths():
    """A virtual font at nine tenths in a virtual font, over a real one at nine tenths of that: each size is cut to whole units."""
    wide = fonts.tfm({65: 1 << 20})
    files = {"top.tfm": wide, "next.tfm": wide, "base.tfm": wide}
    files["top.vf"] = fonts.vf([(0, b"next", 943718, fonts.TEN_POINTS)], {65: A * 2})
    files["next.vf"] = fonts.vf([(0, b"base", 943718, fonts.TEN_POINTS)], {65: A * 2})
    bitmaps = {f"base.{dpi}pk": fonts.pk({65: (dpi - 236, 1, 0, 0, "1" * (dpi - 236))}) for dpi in (242, 243, 244)}
    for place, units in ((1, 530840), (2, 589823)):
        for less in (0, 1):
            name = f"character {place} of nine tenths, {less} unit to the left"
            content = one(dvi.right(edge(100) - units - less) + FNT_0 + A, (b"top",))
            found = marks(name, content, {**files, **bitmaps}, ("-e", "0"))
            check(name + ", place and columns", [mark[1:4:2] for mark in found[place : place + 1]], [(100 - less, 7)])
    content, below, above = one(FNT_0 + A, (b"top",)), "base.242pk", "base.244pk"
    found = marks("the file below", content, {**files, below: bitmaps[below], above: bitmaps[above]})
    check("the file below, columns", {mark[3] for mark in found}, {6})
    found = marks("the file above", content, {**files, above: bitmaps[above]})
    check("the file above, columns", {mark[3] for mark in found}, {8})
    refused("no file of bitmaps at nine tenths", content, files, b"Missing base.244pk")


def virtual():
    """A virtual font whose packet moves by its own w; each file of it that can't be read; and one that sets its own character twice."""
    files = {**fonts.CMR10, "virt.tfm": fonts.CMR10_TFM, "virt.vf": fonts.vf([(0, b"cmr10", fonts.WHOLE, fonts.TEN_POINTS)], {65: b"\x93" + A})}
    content = one(FNT_0 + b"\x96" + number(100000, 3) + A, (b"virt",))
    check("a packet with a w of its own, place", [mark[1] for mark in marks("a packet with a w of its own", content, files)], [6])
    for name in ("virt.vf", "virt.tfm", "cmr10.vf", "cmr10.tfm", "cmr10.300pk"):
        others = {other: data for other, data in files.items() if other != name}
        with with_fonts(content, others) as folder:
            os.mkdir(os.path.join(folder.path, name))
            refused_in(folder, f"a folder as {name}", 3, b"ReadFault " + name.encode())
    own = {"self.tfm": fonts.CMR10_TFM, "self.vf": fonts.over(b"self", A * 2)[1]}
    refused("a font that sets its own character twice", one(FNT_0 + A, (b"self",)), own, b"NestDeep self 65")


def font_files():
    raw = lambda glyph: fonts.pk({}).partition(b"\xf5")[0] + bytes.fromhex(glyph) + b"\xf5"
    usual = one(FNT_0 + A)
    for name, glyph, line in (
        ("a plain bitmap", "e0 0a 41 080000 15 03 05 00 04 ab8c", b"3 5 true[1 0 0 1 0 4]{<a040e000c0>}21 0 0 -4 3 1"),
        ("runs and a repeated row", "88 0a 41 080000 15 04 03 00 02 2f24", b"4 3 true[1 0 0 1 0 2]{<c0c0f0>}21 0 0 -2 4 1"),
        ("a run of fifty", "88 09 41 080000 15 32 01 00 00 b9", b"50 1 true[1 0 0 1 0 0]{<" + b"f" * 12 + b"c0>}21 0 0 0 50 1"),
        ("a run of a hundred", "88 0a 41 080000 15 64 01 00 00 01b0", b"100 1 true[1 0 0 1 0 0]{<" + b"f" * 25 + b"0>}21 0 0 0 100 1"),
    ):
        loaded = b"/F0 FB\n65[" + line + b"]D\nE\n"
        lines(name, usual, b"F0 F\n(A)p\n", {**fonts.CMR10, "cmr10.300pk": raw(glyph)}, loaded=loaded)
    for name, data, message in (
        ("a run past the last row", raw("88 0a 41 080000 15 04 03 00 02 2f25"), b"RunsPast 65"),
        ("two repeat counts in a row", raw("88 0a 41 080000 15 02 02 00 02 f1f1"), b"RepeatTwice 65"),
        ("a byte behind the postamble", fonts.CMR10_PK + b"\xfa", b"Undefined %d" % len(fonts.CMR10_PK)),
    ):
        refused(name, usual, {**fonts.CMR10, "cmr10.300pk": data}, b"BadPk cmr10.300pk " + message)
    halves = lambda *values: b"".join(number(value, 2) for value in values + (0,) * (12 - len(values)))
    empty = halves(9, 2, 1, 0, 1) + bytes(12)
    for name, data, message in (
        ("a TFM file without characters", empty, b"NoChar cmr10 65"),
        ("a TFM file without its last byte", empty[:-1], b"BadTfm cmr10.tfm Short"),
        ("a TFM file with a short header", halves(8, 1, 1, 0, 1) + bytes(8), b"BadTfm cmr10.tfm BadLengths"),
    ):
        refused(name, usual, {**fonts.CMR10, "cmr10.tfm": data}, message)


def budget():
    codes = (65, 66, 67)
    files = {"cmr10.tfm": fonts.tfm({code: 1 << 19 for code in codes}), "cmr10.300pk": fonts.pk({code: fonts.SQUARE for code in codes})}
    two = dvi.document([(1, FNT_0 + b"AB"), (2, FNT_0 + b"AC")], fonts=dvi.font_definition())
    for memory, sections in ((2884, [[65, 66], [65, 67]]), (3045, [[65, 66], [65, 67]]), (3046, [[65, 66, 67]])):
        out = printed(f"--memory={memory}", two, files, (f"--memory={memory}",))
        check(f"--memory={memory}, sections", Pages(out).sections if out else [], [{b"F0": codes} for codes in sections])
    refused("a page of more than the budget", two, files, b"PageTooBig 1 2884 2883", words=("--memory=2883",))


def papers():
    def setup(words):
        out = printed(words, dvi.RULE, words=words.split()) or b""
        box = out.partition(b"%%BoundingBox: 0 0 ")[2].partition(b"\n")[0]
        return box, out.partition(b"%%EndSetup\n")[0].splitlines()[-1:]

    for words, box, sizes in (
        ("-t a4 -D 600", b"596 842", b"55380990 600 600 600 600 TS"),
        ("-T 128mm,96mm", b"363 273", b"17900926 300 300 300 300 TS"),
        ("-T 1.5sp,1in", b"1 72", b"4736286 300 300 300 300 TS"),
        ("-T 1in,1.5sp", b"72 1", b"1 300 300 300 300 TS"),
        ("-T 1.pt,1pt", b"1 1", b"65536 300 300 300 300 TS"),
        ("-D 10000 -O -.5pt,.5pt", b"612 792", b"52099153 10000 10000 9931 10069 TS"),
    ):
        check(words + ", setup", setup(words), (box, [sizes]))
    with Folder(in_dvi=dvi.RULE) as folder:
        for size in ("12", ".pt", "9999999in", "1in1", "--1in", "1 in"):
            for option in ("-T", "-O"):
                name, words = f"{option} {size},1in", ("dvips", option, size + ",1in", "in")
                check(name, folder.run(*words), (2, b"", b"texdvi: BadWords 2\n"))
        check("-X 9", folder.run("dvips", "-X", "9", "in"), (2, b"", b"texdvi: BadWords 2\n"))
        check("dimensions that are none, output", folder.get("in.ps"), None)
    fine = {"cmr10.tfm": fonts.CMR10_TFM, "cmr10.600pk": fonts.CMR10_PK}
    want = text(b"in.dvi", [(1, b"F0 F\n(A)p\n")], 600, LOADED.replace(b"}21 ", b"}42 "))
    want = want.replace(b"52099153", b"55380990").replace(b"0 0 612 792", b"0 0 596 842")
    check("a character on a4 at 600, text", printed("a character on a4 at 600", one(FNT_0 + A), fine, ("-t", "a4"), 600), want)


def headers():
    header = special(b"header=a.pro")
    two = dvi.document([(1, header), (2, header)])
    block = b"%TeXblock: 8\n/a 1 def\n%%EndProlog\n"
    want = text(b"in.dvi", [(1, b""), (2, b"")]).replace(b"%%EndProlog\n", block)
    with with_fonts(two, {"a.pro": b"/a 1 def"}) as folder:
        name = "a header on two pages and among the words"
        check(name, folder.run("dvips", "-D", "300", "-h", "a.pro", "in"), (0, b"", b""))
        check(name + ", text", folder.get("in.ps"), want)
    refused("a header that isn't there", two, {}, b"Missing a.pro")
    many = {f"{k}.pro": b"/k %d def" % k for k in range(65)}
    named = lambda count: one(b"".join(special(f"header={k}.pro".encode()) for k in range(count)))
    out = printed("64 headers", named(64), many) or b""
    check("64 headers, blocks", [b"\n/k %d def\n" % k in out for k in range(65)], [True] * 64 + [False])
    refused("65 headers", named(65), many, b"TooManyHeaders")
    with Folder(in_dvi=one(special(b"papersize=1in, 0in"))) as folder:
        want = text(b"in.dvi", [(1, b"")])
        warning = b"texdvi: warning: special papersize=1in, 0in\n"
        for words, said in (((), warning), (("-q",), b"")):
            name = " ".join(("a paper without height", *words))
            check(name, folder.run("dvips", "-D", "300", *words, "in"), (0, b"", said))
            check(name + ", text", folder.get("in.ps"), want)


CODES = range(128)


def article():
    """Twelve pages, nine real fonts and a virtual one over two real ones, 128 characters of each, and a special that nobody knows."""
    files, real = {}, [b"real%d" % n for n in range(9)]
    for shift, name in enumerate(real + [b"upright", b"slanted"]):
        files[f"{name.decode()}.tfm"] = fonts.tfm({code: (1 << 18) + 4096 * code for code in CODES})
        bits = lambda code: f"{code + 1 << shift:040b}" * 20
        files[f"{name.decode()}.600pk"] = fonts.pk({code: (40, 20, 1, 18, bits(code)) for code in CODES})
    local = [(0, b"upright", fonts.WHOLE, fonts.TEN_POINTS), (1, b"slanted", fonts.WHOLE, fonts.TEN_POINTS)]
    packets = {code: (b"" if code < 64 else b"\xac") + b"\x80" + number(code, 1) for code in CODES}
    files["text.tfm"], files["text.vf"] = files["real0.tfm"], fonts.vf(local, packets)
    names = real + [b"text"]
    row = lambda k, codes: dvi.PUSH + dvi.down(500000 * k) + number(171 + k, 1) + codes + dvi.right(200000) + codes[:9] + dvi.POP
    commands = lambda n: b"".join(row(k, bytes(CODES[n % 2 :: 2])) for k in range(10))
    pages = [(n, (special(b"color push") if n == 1 else b"") + commands(n)) for n in range(1, 13)]
    defined = b"".join(dvi.font_definition(k, name) for k, name in enumerate(names))
    return {**files, "in.dvi": dvi.document(pages, fonts=defined)}


def articles():
    files = article()
    said = b"texdvi: warning: special color push\n"
    with with_fonts(files["in.dvi"], files) as folder:
        check("an article", folder.run("dvips", "in"), (0, b"", said))
        whole = folder.get("in.ps") or b""
        read = Pages(whole)
        loaded = {b"F%d" % k: list(CODES) for k in range(9)}
        check("an article, sections", [len(read.pages), len(read.sections)], [12, 1])
        fonts_loaded = read.sections[0] if read.sections else {}
        check("an article, real fonts", {name: fonts_loaded.get(name) for name in loaded}, loaded)
        check("an article, fonts of the virtual one", sorted(map(len, fonts_loaded.values())), [64] * 2 + [128] * 9)
        check("an article, what it shows", read.pages, Document(files, "in.dvi", 600).shown())
        for limit in (100, 65_536, len(whole) - 1):
            limited = lambda: resource.setrlimit(resource.RLIMIT_FSIZE, (limit, limit))
            done = subprocess.run(
                [PROGRAM, "dvips", "in"], cwd=folder.path, capture_output=True, timeout=60, preexec_fn=limited, restore_signals=False
            )
            name = f"an article of which {limit} bytes are taken"
            check(name, (done.returncode, done.stdout, done.stderr), (4, b"", said + b"texdvi: WriteFault\n"))
            check(name + ", text", folder.get("in.ps"), whole[:limit])


PARTS = (whole_text, rules, widths, drift, strings, nine_tenths, virtual, font_files, budget, papers, headers, articles)
