"""What the pages of a document show, by a plain reading of it and of its fonts' files: each bitmap and each rule at its upper left pixel.

It stands on nothing of the program, and is as simple as it can be: no limits, no causes of refusals, and each file is taken to be right.
"""

from fractions import Fraction
from math import floor


def unsigned(data, at, size):
    return int.from_bytes(data[at : at + size], "big")


def signed(data, at, size):
    return int.from_bytes(data[at : at + size], "big", signed=True)


def rounded(x):
    """The nearest whole number, a half away from zero."""
    return floor(x + Fraction(1, 2)) if x >= 0 else -floor(-x + Fraction(1, 2))


def upwards(x):
    return -floor(-x)


def scaled(size, fix):
    """A fix_word at a size, as TeX multiplies: the size is halved until it is below 2^23, then byte by byte."""
    alpha = 16
    while size >= 1 << 23:
        size >>= 1
        alpha *= 2
    first, *rest = fix.to_bytes(4, "big", signed=True)
    low, middle, high = rest[2], rest[1], rest[0]
    value = ((low * size // 256 + middle * size) // 256 + high * size) // (256 // alpha)
    return value - (alpha * size if first == 255 else 0)


def widths(data):
    """The fix_words of a TFM file, by code."""
    header, first, last = unsigned(data, 2, 2), unsigned(data, 4, 2), unsigned(data, 6, 2)
    infos = 24 + 4 * header
    table = infos + 4 * (last - first + 1)
    found = {}
    for code in range(first, last + 1):
        index = data[infos + 4 * (code - first)]
        if index:
            found[code] = signed(data, table + 4 * index, 4)
    return found


class Nybbles:
    def __init__(self, data):
        self.left = [nybble for byte in data for nybble in (byte >> 4, byte & 15)]
        self.left.reverse()

    def next(self):
        return self.left.pop()

    def number(self, dyn):
        """A packed number, and whether it is a repeat count."""
        nybble = self.next()
        if nybble == 0:
            zeros = 1
            while (nybble := self.next()) == 0:
                zeros += 1
            for _ in range(zeros):
                nybble = nybble * 16 + self.next()
            return nybble - 15 + (13 - dyn) * 16 + dyn, False
        if nybble <= dyn:
            return nybble, False
        if nybble < 14:
            return (nybble - dyn - 1) * 16 + self.next() + dyn + 1, False
        return (1 if nybble == 15 else self.number(dyn)[0]), True


def bits_of(flag, width, height, raster):
    """The rows of a packed bitmap, each a text of 0 and 1."""
    dyn = flag >> 4
    if dyn == 14:
        bits = "".join(f"{byte:08b}" for byte in raster)
        return [bits[width * row : width * (row + 1)] for row in range(height)]
    nybbles, black, rows, row, repeat = Nybbles(raster), flag & 8 != 0, [], "", 0
    while len(rows) < height:
        run, is_repeat = nybbles.number(dyn)
        if is_repeat:
            repeat = run
            continue
        while run:
            part = min(run, width - len(row))
            row += "01"[black] * part
            run -= part
            if len(row) == width:
                rows += [row] * (1 + repeat)
                row, repeat = "", 0
        black = not black
    return rows


def glyphs(data):
    """The bitmaps of a PK file by code: the two offsets, the columns, and the rows as whole bytes."""
    at, found = 2, {}
    at += 1 + data[at] + 16
    while data[at] != 245:
        flag = data[at]
        if 240 <= flag <= 243:
            at += 1 + (flag - 239) + unsigned(data, at + 1, flag - 239)
        elif flag == 244:
            at += 5
        elif flag == 246:
            at += 1
        else:
            at, code, glyph = glyph_at(data, at)
            found[code] = glyph
    return found


def glyph_at(data, at):
    flag = data[at]
    if flag & 7 == 7:
        length, code, start = unsigned(data, at + 1, 4), unsigned(data, at + 5, 4), at + 9
        fields = [signed(data, start + place, 4) for place in (12, 16, 20, 24)]
        head = 28
    elif flag & 4:
        length, code, start = (flag & 3) << 16 | unsigned(data, at + 1, 2), data[at + 3], at + 4
        fields = [unsigned(data, start + 5, 2), unsigned(data, start + 7, 2), signed(data, start + 9, 2), signed(data, start + 11, 2)]
        head = 13
    else:
        length, code, start = (flag & 3) << 8 | data[at + 1], data[at + 2], at + 3
        fields = [data[start + 4], data[start + 5], signed(data, start + 6, 1), signed(data, start + 7, 1)]
        head = 8
    width, height, right, down = fields
    rows = bits_of(flag, width, height, data[start + head : start + length]) if width and height else [""] * height
    padded = [row + "0" * (-len(row) % 8) for row in rows]
    packed = b"".join(bytes(int(row[place : place + 8], 2) for place in range(0, len(row), 8)) for row in padded)
    return start + length, code, (right, down, width, packed)


def definition(data, at):
    """A font definition: where it ends, its number, its size, its design size, its name."""
    size = data[at] - 242
    number = unsigned(data, at + 1, size) if size < 4 else signed(data, at + 1, 4)
    at += 1 + size
    length = data[at + 12] + data[at + 13]
    name = data[at + 14 : at + 14 + length].decode()
    return at + 14 + length, number, unsigned(data, at + 4, 4), unsigned(data, at + 8, 4), name


def packets(data):
    """The local fonts of a VF file in order, and the commands of its packets by code."""
    at, local, found = 2, {}, {}
    at += 1 + data[at] + 8
    while 243 <= data[at] <= 246:
        at, number, size, design, name = definition(data, at)
        local[number] = (name, size, design)
    while data[at] != 248:
        long = data[at] == 242
        length, code, start = (unsigned(data, at + 1, 4), unsigned(data, at + 5, 4), at + 13) if long else (data[at], data[at + 1], at + 5)
        found[code] = data[start : start + length]
        at = start + length
    return local, found


class Font:
    """A font at a size: real, with bitmaps, or virtual, with packets."""

    def __init__(self, document, name, size, design):
        self.size, files = size, document.files
        self.widths = {code: scaled(size, fix) for code, fix in widths(files[name + ".tfm"]).items()}
        self.virtual = name + ".vf" in files
        if self.virtual:
            local, self.packets = packets(files[name + ".vf"])
            self.local = {number: (name, scaled(size, s), document.design(d)) for number, (name, s, d) in local.items()}
        else:
            exact = rounded(Fraction(document.dpi * document.mag * size, 1000 * design))
            asked = (f"{name}.{exact + by}pk" for by in (0, -1, 1))
            self.glyphs = glyphs(files[next(name for name in asked if name in files)])


class Document:
    """A document in its files, at a resolution and a drift limit."""

    def __init__(self, files, name, dpi, drift=2):
        self.files, self.dpi, self.drift, self.fonts = files, dpi, drift, {}
        data = files[name]
        self.num, self.den, self.mag = (unsigned(data, at, 4) for at in (2, 6, 10))
        self.pixel = Fraction(self.num * self.mag * dpi, 254000 * 1000 * self.den)
        end = len(data)
        while data[end - 1] == 223:
            end -= 1
        post = unsigned(data, end - 5, 4)
        self.pages, self.defined = self.read(data, post)

    def read(self, data, post):
        bops, at = [], unsigned(data, post + 1, 4)
        while at != 0xFFFFFFFF:
            bops.append(at)
            at = unsigned(data, at + 41, 4)
        fonts, at = {}, post + 29
        while data[at] != 249:
            if data[at] == 138:
                at += 1
                continue
            at, number, size, design, name = definition(data, at)
            fonts[number] = (name, size, design)
        return [(signed(data, bop + 1, 4), data[bop + 45 :]) for bop in reversed(bops)], fonts

    def design(self, points):
        return rounded(Fraction(points * 25400000 * self.den, 16 * self.num * 473628672))

    def font(self, key):
        if key not in self.fonts:
            self.fonts[key] = Font(self, *key)
        return self.fonts[key]

    def shown(self):
        """Each page: its label, and what it shows, in order."""
        found = []
        for label, commands in self.pages:
            marks = []
            Walk(self, marks).run(commands, self.defined, None, lambda q: q, [0, 0, 0, 0])
            found.append((label, marks))
        return found


# the first byte of each kind of move, which way it goes, and which amount it keeps: then the first byte moves by what was kept last
MOVES = [(143, "right", None), (147, "right", "w"), (152, "right", "x"), (157, "down", None), (161, "down", "y"), (166, "down", "z")]


class Walk:
    """The commands of a page or packet, one after another."""

    def __init__(self, document, marks):
        self.document, self.marks = document, marks

    def pixels(self, q):
        return rounded(q * self.document.pixel)

    def near(self, place, pixel):
        exact, drift = self.pixels(place), self.document.drift
        return min(max(pixel, exact - drift), exact + drift)

    def rule(self, place, a, b):
        if a > 0 and b > 0:
            columns, rows = upwards(b * self.document.pixel), upwards(a * self.document.pixel)
            self.marks.append(("rule", place[2], place[3] - rows + 1, columns, rows))

    def advance(self, place, width, pixels):
        h, v, hh, vv = place
        return [h + width, v, self.near(h + width, hh + pixels), vv]

    def right(self, place, q, space):
        h, v, hh, vv = place
        far = q >= space or q <= -4 * space
        return [h + q, v, self.pixels(h + q) if far else self.near(h + q, hh + self.pixels(q)), vv]

    def down(self, place, q, space):
        h, v, hh, vv = place
        far = abs(q) >= 5 * space
        return [h, v + q, hh, self.pixels(v + q) if far else self.near(v + q, vv + self.pixels(q))]

    def character(self, place, font, code):
        """Shows a character, and answers the place behind it."""
        h, v, hh, vv = place
        if font.virtual:
            first = next(iter(font.local.values()), None)
            self.run(font.packets[code], font.local, first, lambda q: scaled(font.size, q), place)
        else:
            right, down, columns, rows = font.glyphs[code]
            if any(rows):
                self.marks.append(("glyph", hh - right, vv - down, columns, rows))
        return self.advance(place, font.widths[code], self.pixels(font.widths[code]))

    def run(self, data, fonts, key, scale, place):
        at, stack, amounts = 0, [], dict.fromkeys("wxyz", 0)
        font = self.document.font(key) if key else None
        while at < len(data) and data[at] != 140:
            byte = data[at]
            at += 1
            space = font.size // 6 if font else 0

            def operand(first, is_signed=True):
                nonlocal at
                size = byte - first + 1
                at += size
                return (signed if is_signed or size == 4 else unsigned)(data, at - size, size)

            if byte < 128:
                place = self.character(place, font, byte)
            elif byte <= 131:
                place = self.character(place, font, operand(128, False))
            elif byte in (132, 137):
                a, b = scale(signed(data, at, 4)), scale(signed(data, at + 4, 4))
                at += 8
                self.rule(place, a, b)
                if byte == 132:
                    place = self.advance(place, b, upwards(b * self.document.pixel))
            elif 133 <= byte <= 136:
                self.character(place, font, operand(133, False))
            elif byte == 141:
                stack.append((place, dict(amounts)))
            elif byte == 142:
                place, amounts = stack.pop()
            elif 143 <= byte <= 170:
                first, way, kept = next(kind for kind in reversed(MOVES) if kind[0] <= byte)
                q = amounts[kept] if kept and byte == first else scale(operand(first + bool(kept)))
                if kept:
                    amounts[kept] = q
                place = getattr(self, way)(place, q, space)
            elif 171 <= byte <= 234:
                font = self.document.font(fonts[byte - 171])
            elif 235 <= byte <= 238:
                font = self.document.font(fonts[operand(235, False)])
            elif 239 <= byte <= 242:
                length = unsigned(data, at, byte - 238)
                at += byte - 238 + length
            elif 243 <= byte <= 246:
                at = definition(data, at - 1)[0]
