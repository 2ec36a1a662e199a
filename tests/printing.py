"""Documents with fonts, printed by the built program: what stands in their texts, and what is refused."""

import os
from concurrent.futures import ProcessPoolExecutor

import documents as dvi
import fonts
from documents import number
from plain import Document
from read_back import Pages
from running import PROGRAM, TOP, Folder, check, refused_in, text

EXAMPLES = os.path.join(TOP, "examples")
A = b"\x41"
FNT_0, FNT_1 = b"\xab", b"\xac"
LINE = b"65[4 2 true[1 0 0 1 0 1]{<f0f0>}21 0 0 -1 4 1]D\n"  # the usual glyph
LOADED = b"/F0 FB\n" + LINE + b"E\n"


def one(commands, names=(b"cmr10",), size=655360):
    """A document of one page, whose fonts have the numbers 0, 1, 2 in this order."""
    defined = b"".join(dvi.font_definition(k, name, size) for k, name in enumerate(names))
    return dvi.document([(1, commands)], fonts=defined)


def with_fonts(content, files):
    folder = Folder(in_dvi=content)
    for name, data in files.items():
        folder.put(name, data)
    return folder


def printed(name, content, files, loaded, lines, dpi=300):
    """A document of one page is printed with these fonts loaded and these lines on its page."""
    with with_fonts(content, files) as folder:
        check(name, folder.run("dvips", "-D", str(dpi), "-o", "out.ps", "in"), (0, b"", b""))
        check(name + ", text", folder.get("out.ps"), text(b"in.dvi", [(1, lines)], dpi, loaded))


def shown(name, content, files, dpi=300, warnings=b""):
    """A document is printed, and its text, read back, shows what a plain reading of the document gives. Answers what was read back."""
    with with_fonts(content, files) as folder:
        status, out, said = folder.run("dvips", "-D", str(dpi), "-o", "-", "in")
        check(name, (status, said), (0, warnings))
    read = Pages(out) if status == 0 else None
    if read:
        check(name + ", what it shows", read.pages, Document({**files, "in.dvi": content}, "in.dvi", dpi).shown())
    return read


def refused(name, content, files, message, status=1):
    with with_fonts(content, files) as folder:
        refused_in(folder, name, status, message)


def virtual(chain, last=b"cmr10", packet=A):
    """The files of virtual fonts, each over the next one and the last of them over a real font."""
    files = dict(fonts.CMR10)
    for name, below in zip(chain, chain[1:] + [last]):
        files[f"{name.decode()}.tfm"], files[f"{name.decode()}.vf"] = fonts.over(below, packet)
    return files


def characters():
    usual = one(FNT_0 + A)
    printed("a character", usual, fonts.CMR10, LOADED, b"F0 F\n(A)p\n")
    printed("a definition on the page", dvi.document([(1, dvi.font_definition() + FNT_0 + A)], fonts=dvi.font_definition()), fonts.CMR10, LOADED, b"F0 F\n(A)p\n")
    printed("a font that sets nothing", one(FNT_0), {}, b"", b"")
    printed("put doesn't move", one(FNT_0 + b"\x85" + A + A), fonts.CMR10, LOADED, b"F0 F\n(A)-21 b\n(A)p\n")
    pair = {**fonts.CMR10, "other.tfm": fonts.CMR10_TFM, "other.300pk": fonts.pk({65: (8, 1, 2, 0, "10000001")})}
    other = b"/F1 FB\n65[8 1 true[1 0 0 1 2 0]{<81>}21 0 -2 0 6 1]D\nE\n"
    printed("a font stays selected behind pop", one(FNT_0 + dvi.PUSH + FNT_1 + dvi.POP + A, (b"cmr10", b"other")), pair, other, b"F1 F\n(A)p\n")
    printed("two fonts", one(FNT_0 + A + FNT_1 + A, (b"cmr10", b"other")), pair, LOADED + other, b"F0 F\n(A)p\nF1 F\n(A)p\n")
    blank = {"cmr10.tfm": fonts.CMR10_TFM, "cmr10.300pk": fonts.pk({65: (0, 0, 0, 0, "")})}
    printed("a blank glyph", usual, blank, b"/F0 FB\n65[1 1 true[1 0 0 1 0 0]{<00>}21 0 0 0 1 1]D\nE\n", b"F0 F\n(A)p\n")
    tall = {"cmr10.tfm": fonts.CMR10_TFM, "cmr10.300pk": fonts.pk({65: (8, 65, 0, 64, "00000001" * 65)})}
    rows = b"01" * 32 + b"\n" + b"01" * 32 + b"\n01"
    printed("a glyph of many rows", usual, tall, b"/F0 FB\n65[8 65 true[1 0 0 1 0 64]{<" + rows + b">}21 0 0 -64 8 1]D\nE\n", b"F0 F\n(A)p\n")
    print_all_codes()


def print_all_codes():
    bitmaps = {code: (8, 1, 0, 0, f"{code:08b}") for code in range(256)}
    files = {"cmr10.tfm": whole_tfm(), "cmr10.300pk": fonts.pk(bitmaps)}
    page = FNT_0 + b"".join(b"\x80" + bytes([code]) for code in range(256))
    read = shown("all codes", one(page), files)
    if read:
        check("all codes are loaded once", read.sections, [{b"F0": list(range(256))}])


def whole_tfm():
    """All 256 codes share one width: a TFM file has no more than 255 other than 0."""
    head = b"".join(number(count, 2) for count in [6 + 2 + 256 + 2 + 3, 2, 0, 255, 2, 1, 1, 1, 0, 0, 0, 0])
    return head + number(0) + number(fonts.TEN_POINTS) + b"\x01\x00\x00\x00" * 256 + number(0) + number(1 << 19) + bytes(12)


def strings():
    escaped = {code: 1 << 19 for code in (40, 41, 92, 10, 200)}
    files = {"cmr10.tfm": fonts.tfm(escaped), "cmr10.300pk": fonts.pk({code: fonts.SQUARE for code in escaped})}
    read = shown("codes that are spelled", one(FNT_0 + b"".join(b"\x80" + bytes([code]) for code in (40, 41, 92, 10, 200))), files)
    if read:
        check("codes in one string", read.strings, [[40, 41, 92, 10, 200]])
    read = shown("characters in a row", one(FNT_0 + A * 51), fonts.CMR10)
    if read:
        check("the drift ends a string", len(read.strings[0]), 11)
    still = {"cmr10.tfm": fonts.tfm({65: 0}), "cmr10.300pk": fonts.CMR10_PK}
    read = shown("characters without width", one(FNT_0 + A * 101), still)
    if read:
        check("fifty codes at most", [len(codes) for codes in read.strings], [50, 50, 1])


def moves():
    """Moves around a space, whose pixels follow the drift rule or are rounded afresh."""
    for q in (109226, 109225, -436904, -436903, 0, 1, 5 * 109226, 5 * 109226 - 1, -5 * 109226):
        for name, move in (("right", dvi.right), ("down", dvi.down)):
            shown(f"{name} by {q}", one(FNT_0 + A * 10 + move(q) + A + move(q) + A), fonts.CMR10)
    for dpi in (10, 72, 299, 300, 301, 600, 1200):
        files = {"cmr10.tfm": fonts.CMR10_TFM, f"cmr10.{dpi}pk": fonts.CMR10_PK}
        shown(f"at {dpi} dots an inch", one(FNT_0 + (A + dvi.right(40000)) * 30 + dvi.set_rule(40000, 50000) + A), files, dpi)


def packets():
    first = {**fonts.CMR10, "virt.tfm": fonts.CMR10_TFM}
    first["virt.vf"] = fonts.vf([(0, b"cmr10", fonts.WHOLE, fonts.TEN_POINTS)], {65: b"\x93" + A})
    printed("w of the page isn't w of a packet", one(FNT_0 + b"\x96" + number(100000, 3) + A, (b"virt",)), first, b"/F1 FB\n" + LINE + b"E\n", b"F1 F\n6 w\n(A)p\n")
    first["virt.vf"] = fonts.vf([(0, b"cmr10", fonts.WHOLE, fonts.TEN_POINTS)], {65: b"\x8f\x03" * 2 + A})
    shown("each move of a packet is scaled", one(FNT_0 + A, (b"virt",)), first)
    inside = b"\xef\x02hi" + dvi.PUSH + dvi.put_rule(1 << 18, 1 << 17) + dvi.down(1 << 19) + A + dvi.POP + A
    files = {**first, "virt.vf": fonts.over(b"cmr10", inside)[1]}
    shown("a special, a rule and a push in a packet", one(FNT_0 + A * 3, (b"virt",)), files, warnings=b"texdvi: warning: special hi\n" * 3)
    widths = [b"w1", b"w2", b"w3"]
    read = shown("a thousand glyphs of one character", one(FNT_0 + A, (b"w1",)), virtual(widths, packet=A * 10))
    if read:
        check("a thousand glyphs", len(read.pages[0][1]), 1000)
    chain = [b"d%d" % n for n in range(1, 18)]
    read = shown("sixteen packets deep", one(FNT_0 + A, (b"d1",)), virtual(chain[:16]))
    if read:
        check("sixteen packets deep, one glyph", len(read.pages[0][1]), 1)
    refused("seventeen packets deep", one(FNT_0 + A, (b"d1",)), virtual(chain), b"NestDeep d17 65")
    refused("a font that sets its own character", one(FNT_0 + A, (b"self",)), virtual([b"self"], last=b"self"), b"NestDeep self 65")
    pushes = one(dvi.PUSH * 1000 + FNT_0 + A + dvi.POP * 1000, (b"d1",))
    refused("a push in a packet under a thousand of the page", pushes, virtual([b"d1"], packet=dvi.PUSH + A + dvi.POP), b"StackDeep packet d1 65 0")
    refused("a pop in a packet", one(FNT_0 + A, (b"d1",)), virtual([b"d1"], packet=dvi.POP), b"StackUnder packet d1 65 0")
    refused("a push left open in a packet", one(FNT_0 + A, (b"d1",)), virtual([b"d1"], packet=A + dvi.PUSH), b"StackLeft packet d1 65 2")
    sizes = {"top.tfm": fonts.CMR10_TFM, "next.tfm": fonts.CMR10_TFM, "base.tfm": fonts.CMR10_TFM, "base.243pk": fonts.CMR10_PK}
    sizes["top.vf"] = fonts.vf([(0, b"next", 943718, fonts.TEN_POINTS)], {65: A})
    sizes["next.vf"] = fonts.vf([(0, b"base", 943718, fonts.TEN_POINTS)], {65: A})
    shown("local fonts at nine tenths", one(FNT_0 + A * 2, (b"top",)), sizes)
    many = virtual([b"t%d" % n for n in range(8)], packet=A * 10)
    refused("too many commands", one(FNT_0 + A, (b"t0",)), many, b"TooManySteps")


def refusals():
    usual = one(FNT_0 + A)
    missing = lambda *names: {name: data for name, data in fonts.CMR10.items() if name not in names}
    refused("no TFM file", usual, missing("cmr10.tfm"), b"Missing cmr10.tfm")
    refused("no PK file", usual, missing("cmr10.300pk"), b"Missing cmr10.301pk")
    printed("the next PK file below", usual, {"cmr10.tfm": fonts.CMR10_TFM, "cmr10.299pk": fonts.CMR10_PK}, LOADED, b"F0 F\n(A)p\n")
    large = {**fonts.CMR10, "cmr10.300pk": fonts.pk({65: (8, 65536, 0, 0, "0" * 8 * 65536), 66: fonts.SQUARE})}
    refused("a large glyph", usual, large, b"GlyphTooBig cmr10 65 65536")
    large["cmr10.tfm"] = fonts.tfm({65: 1 << 19, 66: 1 << 19})
    shown("a large glyph that isn't used", one(FNT_0 + b"\x42"), large)
    refused("no font selected", one(A), fonts.CMR10, b"NoFont page 60")
    refused("a font that isn't defined", one(FNT_1 + A), fonts.CMR10, b"UndefinedFont page 60")
    refused("a character without width", one(FNT_0 + b"\x42"), fonts.CMR10, b"NoChar cmr10 66")
    refused("a large code", one(FNT_0 + b"\x81\x01\x00"), fonts.CMR10, b"NoChar cmr10 256")
    refused("a code below 0", one(FNT_0 + b"\x83" + number(-1)), fonts.CMR10, b"NoChar cmr10 -1")
    refused("a character without bitmap", usual, {**fonts.CMR10, "cmr10.300pk": fonts.pk({66: fonts.SQUARE})}, b"NoGlyph cmr10 65")
    bare = {**fonts.CMR10, "virt.tfm": fonts.CMR10_TFM}
    refused("no packet", one(FNT_0 + A, (b"virt",)), {**bare, "virt.vf": fonts.vf([], {66: b""})}, b"NoPacket virt 65")
    refused("no font in a packet", one(FNT_0 + A, (b"virt",)), {**bare, "virt.vf": fonts.vf([], {65: A})}, b"NoFont packet virt 65 0")
    refused("no such font in a packet", one(FNT_0 + A, (b"virt",)), {**bare, "virt.vf": fonts.vf([], {65: FNT_1})}, b"UndefinedFont packet virt 65 0")
    printed("an empty packet", one(FNT_0 + A, (b"virt",)), {**bare, "virt.vf": fonts.vf([], {65: b""})}, b"", b"")
    small = fonts.vf([(0, b"cmr10", 0, fonts.TEN_POINTS)], {65: A})
    refused("a local font of size 0", one(FNT_0 + A, (b"virt",)), {**bare, "virt.vf": small}, b"BadSize cmr10 0 655360")
    refused("a bad TFM file", usual, {**fonts.CMR10, "cmr10.tfm": fonts.CMR10_TFM[:-1]}, b"BadTfm cmr10.tfm Short")
    refused("a bad PK file", usual, {**fonts.CMR10, "cmr10.300pk": b""}, b"BadPk cmr10.300pk BadPreamble")
    refused("a bad VF file", usual, {**fonts.CMR10, "cmr10.vf": b""}, b"BadVf cmr10.vf BadPreamble")
    refused("a long TFM file", usual, {**fonts.CMR10, "cmr10.tfm": bytes(131_069)}, b"FileTooLong cmr10.tfm")
    refused("a long PK file", usual, {**fonts.CMR10, "cmr10.300pk": bytes(4_194_305)}, b"FileTooLong cmr10.300pk")
    with with_fonts(usual, missing("cmr10.tfm")) as folder:
        os.mkdir(os.path.join(folder.path, "cmr10.tfm"))
        refused_in(folder, "a folder as TFM file", 3, b"ReadFault cmr10.tfm")
    names = [b"f%d" % n for n in range(1001)]
    selected = b"".join(b"\xec" + number(n, 2) for n in range(1001))
    defined = b"".join(b"\xf4" + number(n, 2) + number(0) + number(655360) * 2 + bytes([0, len(name)]) + name for n, name in enumerate(names))
    refused("a thousand fonts and one more", dvi.document([(1, selected)], fonts=defined), {}, b"TooManyFonts")
    printed("a thousand fonts", dvi.document([(1, selected[:-3])], fonts=defined), {}, b"", b"")


def example_files():
    files = {}
    for name in os.listdir(EXAMPLES):
        with open(os.path.join(EXAMPLES, name), "rb") as file:
            files[name] = file.read()
    return files


def example():
    """The example prints, and its text shows what a plain reading of its files gives."""
    files = example_files()
    content = files.pop("example.dvi")
    read = shown("the example", content, files)
    if read:
        check("the example, two pages", [label for label, _ in read.pages], [1, 2])
        check("the example, strings of at most fifty codes", max(map(len, read.strings)) <= 50, True)


def ends(name, data):
    """How many bytes of a file may be missing at its end: those that only fill it up."""
    if name.endswith(".dvi"):
        return len(data) - len(data.rstrip(b"\xdf")) - 4
    if name.endswith("pk"):
        return len(data) - len(data.rstrip(b"\xf6"))
    if name.endswith(".vf"):
        return len(data) - len(data.rstrip(b"\xf8")) - 1
    return 0


def cut(name):
    """A file of the example, cut short at each length: the runs that aren't refused by a line that names the file, or that begin an output.

    It runs in a process of its own, in whose folder the program is started without any shell or pipe, since it is started 100,000 times.
    """
    files = example_files()
    data, wrong = files[name], []
    kind = {"dvi": b"BadDvi", "tfm": b"BadTfm", "vf": b"BadVf"}.get(name.split(".")[1], b"BadPk")
    want = b"texdvi: " + kind + (b" " if name == "example.dvi" else b" " + name.encode() + b" ")
    words = [PROGRAM, "dvips", "-D", "300", "-o", "out.ps", "example"]
    with Folder() as folder:
        for other, content in files.items():
            folder.put(other, content)
        os.chdir(folder.path)
        said = os.open("said", os.O_RDWR | os.O_CREAT)
        for length in reversed(range(len(data) - ends(name, data))):
            os.truncate(name, length)
            os.ftruncate(said, 0)
            os.lseek(said, 0, os.SEEK_SET)
            child = os.posix_spawn(PROGRAM, words, {}, file_actions=[(os.POSIX_SPAWN_DUP2, said, 2)])
            status = os.waitstatus_to_exitcode(os.waitpid(child, 0)[1])
            line = os.pread(said, 200, 0)
            if status != 1 or not line.startswith(want) or os.path.exists("out.ps"):
                wrong.append((length, status, line))
        os.close(said)
    return wrong


def examples_cut_short():
    names = [name for name in os.listdir(EXAMPLES) if not name.endswith(".tex")]
    with ProcessPoolExecutor(os.cpu_count()) as pool:
        for name, wrong in zip(names, pool.map(cut, names)):
            check(f"{name} cut short at each length", wrong[:5], [])


PARTS = (characters, strings, moves, packets, refusals, example, examples_cut_short)
