"""DVI documents, byte for byte, for the end-to-end tests."""


def number(value, size=4):
    """A big-endian number of so many bytes, in two's complement."""
    return (value % (1 << (8 * size))).to_bytes(size, "big")


USUAL = dict(num=25400000, den=473628672, mag=1000)


def preamble(num, den, mag):
    return b"\xf7\x02" + number(num) + number(den) + number(mag) + b"\x00"


def font_definition(k=0, name=b"cmr10", size=655360):
    return b"\xf3" + number(k, 1) + number(0) + number(size) + number(size) + bytes([0, len(name)]) + name


def document(pages, fonts=b"", **units):
    """Pages are pairs of a count 0 and the commands between bop and eop."""
    units = {**USUAL, **units}
    out, last = preamble(**units), -1
    for count, commands in pages:
        at = len(out)
        out += b"\x8b" + number(count) + bytes(36) + number(last) + commands + b"\x8c"
        last = at
    post = len(out)
    out += b"\xf8" + number(last) + number(units["num"]) + number(units["den"]) + number(units["mag"])
    out += bytes(8) + bytes(2) + number(len(pages), 2) + fonts
    out += b"\xf9" + number(post) + b"\x02" + b"\xdf" * 4
    return out + b"\xdf" * (-len(out) % 4)


def set_rule(a, b):
    return b"\x84" + number(a) + number(b)


def put_rule(a, b):
    return b"\x89" + number(a) + number(b)


def right(q):
    return b"\x92" + number(q)


def down(q):
    return b"\xa0" + number(q)


PUSH, POP = b"\x8d", b"\x8e"

# one page: a rule that paints nothing and moves, one that does neither, and one of 3 by 1 pixels at 300 dots an inch
RULES = set_rule(0, 100) + put_rule(5, -1) + set_rule(5262, 47362)
# the page of rules, 128 bytes, and the page of one character, 144 bytes
RULE = document([(1, RULES)])
ONE = document([(1, font_definition() + b"\xab\x41")], fonts=font_definition())
