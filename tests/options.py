"""The options of dvips, each on a document of rules or of one character, and the text byte for byte."""

import re

import documents as dvi
import fonts
from read_back import Pages
from running import Folder, check, refused_in, text

PIXEL = 15788  # 65536 * 72.27 units are an inch, so at 300 pixels an inch these are a little more than one
LABELS = [1, 2, 2, -1]
# four pages with these numbers: the first has one rule, the second two at one place, and so on
FOUR = dvi.document([(label, dvi.put_rule(PIXEL, PIXEL) * rules) for rules, label in enumerate(LABELS, 1)])
LINE = b"65[4 2 true[1 0 0 1 0 1]{<f0f0>}21 0 0 -1 4 1]D\n"  # the usual glyph
LOADED = b"/F0 FB\n" + LINE + b"E\n"


def ruled(*places, rule=b"2 2 v\n"):
    """The pages of FOUR at these places, counted from 1, as they are printed."""
    return [(LABELS[place - 1], rule * place) for place in places]


def changed(content, **changes):
    """A text with some of its numbers changed: the line of TS, the paper in points, copies, and headers behind the prolog."""
    for old, new in {
        "ts": (rb"52099153 300 300 300 300 TS", "%s TS"),
        "box": (rb"BoundingBox: 0 0 612 792", "BoundingBox: 0 0 %s"),
        "copies": (rb"/#copies 1 def", "/#copies %s def"),
        "headers": (rb"%%EndProlog\n", "%s%%%%EndProlog\n"),
    }.items():
        if old in changes:
            check(f"one place of {old}", len(re.findall(new[0], content)), 1)
            content = re.sub(new[0], lambda _: (new[1] % changes[old]).encode(), content)
    return content


def bare(content):
    """A text without structured comments."""
    return b"%!PS\n" + b"".join(line for line in content.splitlines(True)[1:] if not line.startswith(b"%%"))


def in_sections(content, counts):
    """A text whose pages stand in sections of so many."""
    head, body = content.split(b"bos\n")
    pages, tail = body.split(b"eos\n")
    pages = [b"%%Page: " + page for page in pages.split(b"%%Page: ")[1:]]
    for count in counts:
        head += b"bos\n" + b"".join(pages[:count]) + b"eos\n"
        pages = pages[count:]
    return head + tail


def prints(words, want, content=FOUR, files={}, said=b"", output="in.ps"):
    """A run with these options is done, says this, and has written this."""
    words = words.split()
    with Folder(in_dvi=content) as folder:
        for name, data in files.items():
            folder.put(name, data)
        name = "dvips " + " ".join(words)
        check(name, folder.run("dvips", *words, "in"), (0, b"", said))
        check(name + ", text", folder.get(output), want)


def refused(words, status, message, content=FOUR, files={}):
    with Folder(in_dvi=content) as folder:
        for name, data in files.items():
            folder.put(name, data)
        refused_in(folder, "dvips " + words, status, message, ("dvips", "-o", "out.ps", *words.split(), "in"))


def chosen(words, *places):
    prints("-D 300 " + words, text(b"in.dvi", ruled(*places)))


def pages():
    chosen("-p 2", 2, 3, 4)
    chosen("-p -1", 4)
    chosen("-l 2", 1, 2)
    chosen("-p =3", 3, 4)
    chosen("-p=2 -l3", 2, 3)
    chosen("-pp 1,2", 1, 2)
    chosen("-pp -1 -pp 1", 1, 4)
    chosen("-pp 2:-1", 2, 3, 4)
    chosen("-n 3", 1, 2, 3)
    chosen("-A", 1, 4)
    chosen("-B", 2, 3)
    chosen("-B -n 1", 2)
    chosen("-r", 4, 3, 2, 1)
    chosen("-C 2", 1, 2, 3, 4, 1, 2, 3, 4)
    chosen("-r -pp 1,2 -C2", 2, 1, 2, 1)
    refused("-p 9", 1, b"NoSuchPage 9")
    refused("-p =5", 1, b"NoSuchPage 5")
    refused("-p 2 -l 1", 1, b"NoSuchPage 1")
    refused("-pp 1-7", 1, b"NoSuchPage 7")
    many = dvi.document([(0, b"")] * 1002)
    refused("-C 999", 1, b"TooManyPages", many)


def output():
    four = text(b"in.dvi", ruled(1, 2, 3, 4))
    prints("-D300", four)
    prints("-D 300 -o other.ps", four, output="other.ps")
    prints("-D 300 -c 5", changed(four, copies="5"))
    prints("-D 300 -q", four)
    prints("-D 300 -N", bare(four))
    prints("-D 300 -S 3", in_sections(four, [3, 1]))
    prints("-D 300 -S1 -r", in_sections(text(b"in.dvi", ruled(4, 3, 2, 1)), [1] * 4))
    with Folder(in_dvi=FOUR) as folder:
        streamed = four.replace(b"%%Title: in.dvi", b"%%Title: -")
        check("a stream to a stream", folder.run("dvips", "-D", "300", "-", stdin=FOUR), (0, streamed, b""))


def sizes():
    four = lambda rule=b"2 2 v\n", dpi=300: text(b"in.dvi", ruled(1, 2, 3, 4, rule=rule), dpi)
    prints("", four(b"3 3 v\n", 600))
    prints("-D 300 -x 2000", four(b"3 3 v\n"))
    prints("-X 600 -Y 300", changed(four(b"3 2 v\n"), ts="52099153 600 300 600 300"))
    prints("-D 300 -Y 600", changed(four(b"2 3 v\n"), ts="52099153 300 600 300 600"))
    prints("-X 600 -D 300", four())
    prints("-D 300 -t a4", changed(four(), ts="55380990 300 300 300 300", box="596 842"))
    prints("-D 300 -t a4 -t letter", four())
    prints("-D 300 -T 128mm,96mm", changed(four(), ts="17900926 300 300 300 300", box="363 273"))
    prints("-D 300 -O 1in,0in", changed(four(), ts="52099153 300 300 600 300"))
    prints("-D 300 -O -1in,.5in", changed(four(), ts="52099153 300 300 0 450"))
    large = dvi.document([(1, b"")], den=100_000_000)
    refused("-D 10000 -x 100000", 1, b"BadConv 25400000 100000000 100000 10000", large)


def character(before=b"", times=1):
    return dvi.document([(1, before + b"\xab" + b"\x41" * times)], fonts=dvi.font_definition())


def sections():
    usual = text(b"in.dvi", [(1, b"F0 F\n(A)p\n")], loaded=LOADED)
    prints("-D 300 --memory=2722", usual, character(), fonts.CMR10)
    refused("-D 300 --memory=2721", 1, b"PageTooBig 1 2722 2721", character(), fonts.CMR10)
    codes = {code: 1 << 19 for code in (65, 66, 67)}
    files = {"cmr10.tfm": fonts.tfm(codes), "cmr10.300pk": fonts.pk({code: fonts.SQUARE for code in codes})}
    two = dvi.document([(1, b"\xabAB"), (2, b"\xabAC")], fonts=dvi.font_definition())
    load = lambda codes: b"/F0 FB\n" + b"".join(LINE.replace(b"65", b"%d" % code, 1) for code in codes) + b"E\n"
    lines = [(1, b"F0 F\n(AB)p\n"), (2, b"F0 F\n(AC)p\n")]
    prints("-D 300 --memory=3046", text(b"in.dvi", lines, loaded=load([65, 66, 67])), two, files)
    apart = text(b"in.dvi", lines, loaded=load([65, 66]))
    apart = apart.replace(b"%%Page: 2 2", b"eos\nbos\n" + load([65, 67]) + b"%%Page: 2 2")
    prints("-D 300 --memory=3045", apart, two, files)


def drift():
    for limit, x in ((0, 145), (1, 146), (2, 147)):
        seven = dvi.document([(1, b"\xab" + b"A" * 7 + dvi.put_rule(PIXEL, PIXEL))], fonts=dvi.font_definition())
        with Folder(in_dvi=seven) as folder:
            for name, data in fonts.CMR10.items():
                folder.put(name, data)
            status, out, said = folder.run("dvips", "-D", "300", "-e", str(limit), "-o", "-", "in")
        check(f"-e {limit}", (status, said), (0, b""))
        rules = [mark for mark in Pages(out).pages[0][1] if mark[0] == "rule"] if status == 0 else []
        check(f"-e {limit}, behind seven characters", rules, [("rule", x, -1, 2, 2)])
    wide = text(b"in.dvi", [(1, b"F0 F\n(" + b"A" * 50 + b")p\n(A)p\n")], loaded=LOADED)
    prints("-D 300 -e 20", wide, character(times=51), fonts.CMR10)


def special(content):
    return b"\xef" + bytes([len(content)]) + content


def specials():
    usual = text(b"in.dvi", [(1, b"F0 F\n(A)p\n")], loaded=LOADED)
    one = lambda content: character(special(content))
    warning = lambda content: b"texdvi: warning: special " + content + b"\n"
    prints("-D 300", usual, one(b"hello"), fonts.CMR10, warning(b"hello"))
    prints("-D 300 -q", usual, one(b"hello"), fonts.CMR10)
    prints("-D 300", usual, one(b"a\\\x00b"), fonts.CMR10, warning(b"a\\5c\\00b"))
    prints("-D 300", usual, one(b"x" * 100), fonts.CMR10, warning(b"x" * 60))
    literal = b"ps:1 0 0 setrgbcolor"
    prints("-D 300", usual, one(literal), fonts.CMR10, warning(literal))
    passed = text(b"in.dvi", [(1, b"%TeXblock: 17\n1 0 0 setrgbcolor\nF0 F\n0 0 a\n(A)p\n")], loaded=LOADED)
    prints("-D 300 --pass=ps", passed, one(literal), fonts.CMR10)
    paper = changed(usual, ts="17900926 300 300 300 300", box="363 273")
    prints("-D 300", paper, one(b"papersize=128mm,96mm"), fonts.CMR10)
    prints("-D 300 -t letter", usual, one(b"papersize=128mm,96mm"), fonts.CMR10)
    prints("-D 300", usual, one(b"papersize=128mm"), fonts.CMR10, warning(b"papersize=128mm"))
    files = {**fonts.CMR10, "a.pro": b"/a 1 def", "b.pro": b"/b 2 def\n"}
    block = lambda content: "%%TeXblock: %d\n%s\n" % (len(content), content.decode())
    both = changed(usual, headers=block(files["a.pro"]) + block(files["b.pro"]))
    prints("-D 300 -h a.pro -h a.pro", both, one(b"header=b.pro"), files)
    refused("-D 300 -h no.pro", 1, b"Missing no.pro", one(b""), files)
    other = {**fonts.CMR10, "cmr10.tfm": fonts.tfm({65: 1 << 19}, checksum=7)}
    different = dvi.font_definition().replace(b"\xf3\x00" + dvi.number(0), b"\xf3\x00" + dvi.number(5), 1)
    summed = dvi.document([(1, b"\xab\x41")], fonts=different)
    prints("-D 300", usual, summed, other, b"texdvi: warning: checksum cmr10\n")
    prints("-D 300 -q", usual, summed, other)


def words():
    wrong = [
        ("", 0), ("dvi", 0), ("--help x", 0), ("dvips", 1), ("dvips -p", 2), ("dvips -Z a", 1), ("dvips a b", 2), ("dvips -A -B a", 2),
        ("dvips -D 9 a", 2), ("dvips -D9 a", 1), ("dvips -D 10001 a", 2), ("dvips -P lp a", 1), ("dvips -E a", 1), ("dvips -p 1 -pp 2 a", 3),
        ("dvips -pp 2 -l 1 a", 3), ("dvips -c 0 a", 2), ("dvips -C 1000 a", 2), ("dvips -x 9 a", 2), ("dvips -e 1001 a", 2),
        ("dvips -t b5 a", 2), ("dvips -T 1in a", 2), ("dvips -T 1in,0in a", 2), ("dvips -O 1,1 a", 2), ("dvips --memory 5 a", 1),
        ("dvips --memory=0 a", 1), ("dvips --pass=tex a", 1), ("dvips -n 1000001 a", 2), ("dvips -S 0 a", 2), ("dvips -q0 a", 1),
        ("dvitype", 1), ("dvitype -dpi=9 a", 1), ("dvitype -detail 2 a", 2), ("dvitype a b", 2), ("dvicopy a b c", 3),
        ("dvicopy -dpi=300 a", 1), ("sample", 1), ("sample 0", 1), ("sample 1001", 1), ("sample 1 1", 2),
    ]  # fmt: skip
    with Folder(in_dvi=FOUR) as folder:
        for line, index in wrong:
            check(f"the words {line!r}", folder.run(*line.split()), (2, b"", b"texdvi: BadWords %d\n" % index))
        check("65 headers", folder.run("dvips", *["-h", "a"] * 65, "in"), (2, b"", b"texdvi: BadWords 129\n"))
        check("words that write nothing", folder.get("a.ps"), None)
        for place in range(4):
            good = ["dvips", "-D", "300", "in"]
            check(f"word {place} not UTF-8", folder.run(*good[:place], b"\xff", *good[place + 1 :]), (6, b"", b""))


PARTS = (pages, output, sizes, sections, drift, specials, words)
