"""dvitype by the built program: whole listings, where they end at a fault, and what is refused before one is begun."""

import os
import socket
import subprocess

import documents as dvi
import fonts
from documents import number
from listing import Typed, listing
from options import special
from printing import A, FNT_0, FNT_1, example_files, one, with_fonts
from running import PROGRAM, TOP, Folder, check

# the listing of a page of one character, worked out by hand
LINES = b"""dvi id=2 num=25400000 den=473628672 mag=1000 pages=1
comment=
font 0 cmr10 size=655360 design=655360 checksum=00000000
page 1 at 15 counts=1.0.0.0.0.0.0.0.0.0
60: fntdef 0 h=0 v=0 hh=0 vv=0
81: fnt 0 h=0 v=0 hh=0 vv=0
82: set 65 h=327680 v=0 hh=21 vv=0
83: eop h=327680 v=0 hh=21 vv=0
done pages=1
""".splitlines(True)
TFM = {"cmr10.tfm": fonts.CMR10_TFM}
LOST = (4, b"texdvi: WriteFault\n")


def lists(name, content, want, files=TFM, words=("-dpi=300",), status=0, said=b""):
    """A run writes this to standard output, and says this where it ends early."""
    with with_fonts(content, files) as folder:
        line = b"texdvi: " + said + b"\n" if said else b""
        check(name, folder.run("dvitype", *words, "in"), (status, want, line))


def one_character():
    lists("a page of one character", dvi.ONE, b"".join(LINES))
    lists("a page of one character by its own options", dvi.ONE, b"".join(LINES), words=())
    lists("without commands", dvi.ONE, b"".join(LINES[:4] + LINES[8:]), words=("-detail=0",))
    lists("a page that isn't there", dvi.ONE, b"", words=("-page-start=2",), status=1, said=b"NoSuchPage 2")
    lists("no TFM file", dvi.ONE, b"".join(LINES[:6]), {}, status=1, said=b"Missing cmr10.tfm")
    changed = dvi.ONE[:82] + b"\x00" + dvi.ONE[83:]
    lists("a code without width", changed, b"".join(LINES[:6]), status=1, said=b"NoChar cmr10 0")
    lists("no TFM file, without commands", dvi.ONE, b"".join(LINES[:4]), {}, ("-detail=0",), 1, b"Missing cmr10.tfm")
    lists("files of a virtual font that are none", dvi.ONE, b"".join(LINES), {**TFM, "cmr10.vf": b"none", "cmr10.300pk": b"none"})
    with with_fonts(dvi.ONE, TFM) as folder:
        os.mkdir(os.path.join(folder.path, "cmr10.vf"))
        check("a folder that nobody asks for", folder.run("dvitype", "in.dvi"), (0, b"".join(LINES), b""))
        check("from standard input", folder.run("dvitype", "-", stdin=dvi.ONE), (0, b"".join(LINES), b""))


def examples():
    """The example's listing is the one that is kept beside this file, and others are those of a plain reading."""
    files = example_files()
    with open(os.path.join(TOP, "tests", "example.listing"), "rb") as file:
        kept = file.read()
    check("the example's listing by a plain reading", listing(files, "example.dvi"), kept)
    with Folder() as folder:
        for name, data in files.items():
            if name == "example.dvi" or name.endswith(".tfm"):
                folder.put(name, data)
        check("the example's listing", folder.run("dvitype", "example"), (0, kept, b""))
        for options in (dict(dpi=600), dict(mag=2000), dict(dpi=1200, mag=500), dict(detail=0)):
            words = [f"-{ {'mag': 'magnification'}.get(key, key) }={value}" for key, value in options.items()]
            check(" ".join(words), folder.run("dvitype", *words, "example.dvi"), (0, listing(files, "example.dvi", **options), b""))
        pages = kept.split(b"page ")
        first, second = (b"page " + page for page in pages[-2:])
        second, _, done = second.partition(b"done ")
        first = first[: first.index(b"page 2")] if b"page 2" in first else first
        head, behind = kept[: kept.index(b"page 1 at")], b"done pages=1\n"
        check("the first page", folder.run("dvitype", "-max-pages=1", "example"), (0, head + first + behind, b""))
        check("the pages from the second on", folder.run("dvitype", "-page-start=2", "example"), (0, head + second + behind, b""))


def forms():
    """Each form of a command that has lines of its own."""
    moves = [(first + size - 1, size) for first in (143, 148, 153, 157, 162, 167) for size in (1, 2, 3, 4)]
    amounts = {1: (127, -128), 2: (32767, -32768), 3: (8388607, -8388608), 4: (100000000, -100000001)}
    commands = b"".join(bytes([byte]) + number(q, size) for byte, size in moves for q in amounts[size])
    commands += bytes([147, 152, 161, 166, 138]) + dvi.PUSH + dvi.set_rule(-5, 7) + dvi.put_rule(3, 15788) + dvi.POP
    commands += special(bytes(range(256))[:255]) + FNT_1 + b"\x80\x41\x85\x41\x86\x00\x41\xeb\x00\xec\x00\x01\xf0\x00\x02hi"
    content = one(commands, (b"cmr10", b"cmr10"))
    lists("each form of a command", content, listing({**TFM, "in.dvi": content}, "in.dvi"))


def before(content, files, place):
    """The lines of a plain reading up to those of the command at this place."""
    found = []
    try:
        for line in Typed({**files, "in.dvi": content}, "in.dvi").lines():
            if line.startswith(f"{place}:"):
                break
            found.append(line + "\n")
    except (KeyError, IndexError, TypeError, ValueError):
        pass
    return "".join(found).encode()


def faults():
    """Each fault of a page or of a font's file, with the lines before it."""
    short = {"cmr10.tfm": fonts.CMR10_TFM[:-1]}
    many = b"".join(b"\xec" + number(n, 2) for n in range(1001))
    defined = b"".join(
        b"\xf4" + number(n, 2) + number(0) + number(655360) * 2 + bytes([0, 5]) + b"f%04d" % n for n in range(1001)
    )
    for name, content, files, place, status, said in (
        ("no font selected", one(A), TFM, 60, 1, b"NoFont page 60"),
        ("a font that isn't defined", one(FNT_0 + FNT_1), TFM, 61, 1, b"UndefinedFont page 61"),
        ("a large code", one(FNT_0 + A + b"\x81\x01\x00"), TFM, 62, 1, b"NoChar cmr10 256"),
        ("a code below 0", one(FNT_0 + A + b"\x83" + number(-1)), TFM, 62, 1, b"NoChar cmr10 -1"),
        ("a bad TFM file", one(FNT_0 + dvi.right(5) + A), short, 66, 1, b"BadTfm cmr10.tfm Short"),
        ("a long TFM file", one(FNT_0 + A), {"cmr10.tfm": bytes(131_069)}, 61, 1, b"FileTooLong cmr10.tfm"),
        ("a pop without a push", one(dvi.PUSH + dvi.POP + dvi.POP), {}, 62, 1, b"StackUnder page 62"),
        ("a push left open", one(dvi.PUSH + dvi.right(3)), {}, 66, 1, b"StackLeft page 66"),
        ("one push more", one(dvi.PUSH * 1001 + dvi.POP * 1001), {}, 1060, 1, b"StackDeep page 1060"),
        ("a far move", one(dvi.right(2**31 - 1) + dvi.right(1)), {}, 65, 1, b"Overflow page 65"),
        ("a large rule", one(dvi.down(9) + dvi.put_rule(-(2**31), 1)), {}, 65, 1, b"Overflow page 65"),
        ("a thousand fonts and one more", dvi.document([(1, many)], fonts=defined), {}, 3060, 1, b"TooManyFonts"),
    ):
        lists(name, content, before(content, files, place), files, status=status, said=said)
    content = one(FNT_0 + dvi.right(5) + A)
    with with_fonts(content, {}) as folder:
        os.mkdir(os.path.join(folder.path, "cmr10.tfm"))
        check("a folder as TFM file", folder.run("dvitype", "in"), (3, before(content, {}, 66), b"texdvi: ReadFault cmr10.tfm\n"))


def refusals():
    """What is refused before the listing is begun."""
    for name, content, words, status, said in (
        ("no document", dvi.ONE[:-2], (), 1, b"BadDvi NoTrailer"),
        ("no input", None, (), 1, b"Missing in.dvi"),
        ("a long input", dvi.RULE + b"\xdf" * 67_108_864, (), 1, b"FileTooLong in.dvi"),
        ("units that turn into no pixels", dvi.document([(1, b"")], den=0), (), 1, b"BadConv 25400000 0 1000 300"),
        ("a page that isn't there", dvi.ONE, ("-page-start=-7",), 1, b"NoSuchPage -7"),
        ("a resolution below 10", dvi.ONE, ("-dpi=9",), 2, b"BadWords 1"),
        ("two inputs", dvi.ONE, ("in",), 2, b"BadWords 2"),
        ("an unknown option", dvi.ONE, ("-q",), 2, b"BadWords 1"),
    ):
        with Folder() as folder:
            if content is not None:
                folder.put("in.dvi", content)
            check("dvitype, " + name, folder.run("dvitype", *words, "in"), (status, b"", b"texdvi: " + said + b"\n"))


def outputs():
    """A listing that isn't taken, and the writes of one of 50,000,000 bytes."""
    with with_fonts(dvi.ONE, TFM) as folder:
        reader, writer = os.pipe()
        os.close(reader)
        for name, output in (("a closed pipe", writer), ("a full device", os.open("/dev/full", os.O_WRONLY))):
            status, _, said = folder.run("dvitype", "in", stdout=output)
            os.close(output)
            check("a listing to " + name, (status, said), LOST)
    content = one(FNT_0 + dvi.PUSH + (A * 100 + dvi.POP + dvi.PUSH) * 12_000 + dvi.POP)
    with with_fonts(content, TFM) as folder:
        ours, theirs = socket.socketpair(socket.AF_UNIX, socket.SOCK_SEQPACKET)
        child = subprocess.Popen([PROGRAM, "dvitype", "in"], cwd=folder.path, stdout=theirs, stderr=subprocess.PIPE)
        theirs.close()
        lengths = []
        while written := ours.recv(1 << 20):
            lengths.append(len(written))
        check("a long listing", (child.wait(), child.stderr.read()), (0, b""))
        child.stderr.close()
        ours.close()
        check("a long listing, bytes", sum(lengths) > 50_000_000, True)
        check("a long listing, writes", len(lengths) < 2_000, True)


PARTS = (one_character, examples, forms, faults, refusals, outputs)
