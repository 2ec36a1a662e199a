"""The listing of a document by a plain reading of it, and of its fonts' TFM files alone. Like plain.py it stands on nothing of the program, and takes
each file to be right."""

from fractions import Fraction

from plain import MOVES, Walk, definition, scaled, signed, unsigned, widths

ONE_BYTE = {138: "nop", 141: "push", 142: "pop"}


def escaped(data):
    return "".join(chr(byte) if 32 <= byte <= 126 and byte != 92 else f"\\{byte:02x}" for byte in data)


class Typed:
    """A document in its files, at a resolution."""

    def __init__(self, files, name, dpi=300, mag=None):
        self.files, self.data, self.drift, self.tables = files, files[name], 2, {}
        self.num, self.den, told = (unsigned(self.data, at, 4) for at in (2, 6, 10))
        self.mag = told if mag is None else mag
        self.pixel = Fraction(self.num * self.mag * dpi, 254000 * 1000 * self.den)
        end = len(self.data.rstrip(b"\xdf"))
        self.post = unsigned(self.data, end - 5, 4)

    def width(self, font, code):
        name, size = font[0], font[1]
        if name not in self.tables:
            self.tables[name] = widths(self.files[name + ".tfm"])
        return scaled(size, self.tables[name][code])

    def fonts(self):
        found, at = [], self.post + 29
        while self.data[at] != 249:
            if self.data[at] == 138:
                at += 1
                continue
            start = at
            at, number, size, design, name = definition(self.data, at)
            checksum = unsigned(self.data, start + 1 + self.data[start] - 242, 4)
            found.append((number, name, size, design, checksum))
        return found

    def bops(self):
        found, at = [], unsigned(self.data, self.post + 1, 4)
        while at != 0xFFFFFFFF:
            found.append(at)
            at = unsigned(self.data, at + 41, 4)
        return found[::-1]

    def lines(self, detail=1):
        bops, fonts = self.bops(), self.fonts()
        defined = {number: (name, size, design) for number, name, size, design, _ in fonts}
        yield f"dvi id=2 num={self.num} den={self.den} mag={self.mag} pages={len(bops)}"
        yield "comment=" + escaped(self.data[15 : 15 + self.data[14]])
        for number, name, size, design, checksum in fonts:
            yield f"font {number} {name} size={size} design={design} checksum={checksum:08x}"
        for number, bop in enumerate(bops, 1):
            counts = ".".join(str(signed(self.data, bop + 1 + 4 * i, 4)) for i in range(10))
            yield f"page {number} at {bop} counts={counts}"
            for line in Listed(self, defined).page(bop + 45):
                if detail:
                    yield line
        yield f"done pages={len(bops)}"


class Listed(Walk):
    """The commands of a page, one after another, each with its line."""

    def __init__(self, document, fonts):
        super().__init__(document, [])
        self.fonts, self.font, self.place, self.amounts, self.stack = fonts, None, [0, 0, 0, 0], dict.fromkeys("wxyz", 0), []

    def page(self, at):
        done = False
        while not done:
            start, (name, at) = at, self.command(at)
            h, v, hh, vv = self.place
            yield f"{start}: {name} h={h} v={v} hh={hh} vv={vv}"
            done = name == "eop"

    def set(self, code):
        width = self.document.width(self.font, code)
        self.place = self.advance(self.place, width, self.pixels(width))

    def operand(self, at, first, is_signed=True):
        size = self.document.data[at] - first + 1
        read = signed if is_signed or size == 4 else unsigned
        return read(self.document.data, at + 1, size), at + 1 + size

    def rule(self, at, moves):
        a, b = signed(self.document.data, at + 1, 4), signed(self.document.data, at + 5, 4)
        if moves:
            self.place = self.advance(self.place, b, -(-(b * self.document.pixel) // 1))
        return f"{'setrule' if moves else 'putrule'} {a} {b}", at + 9

    def move(self, at):
        byte = self.document.data[at]
        first, way, kept = next(kind for kind in reversed(MOVES) if kind[0] <= byte)
        if kept and byte == first:
            name, q, at = kept + "0", self.amounts[kept], at + 1
        else:
            q, at = self.operand(at, first + bool(kept))
            name = f"{kept or way} {q}"
        if kept:
            self.amounts[kept] = q
        self.place = getattr(self, way)(self.place, q, self.font[1] // 6 if self.font else 0)
        return name, at

    def select(self, number, at):
        self.font = self.fonts[number]
        return f"fnt {number}", at

    def command(self, at):
        byte = self.document.data[at]
        if byte <= 131:
            code, at = (byte, at + 1) if byte < 128 else self.operand(at, 128, False)
            self.set(code)
            return f"set {code}", at
        if byte in (132, 137):
            return self.rule(at, byte == 132)
        if byte <= 136:
            code, at = self.operand(at, 133, False)
            return f"put {code}", at
        if byte == 140:
            return "eop", at + 1
        if byte == 141:
            self.stack.append((self.place, dict(self.amounts)))
        if byte == 142:
            self.place, self.amounts = self.stack.pop()
        if byte in ONE_BYTE:
            return ONE_BYTE[byte], at + 1
        if byte <= 170:
            return self.move(at)
        if byte <= 234:
            return self.select(byte - 171, at + 1)
        if byte <= 238:
            return self.select(*self.operand(at, 235, False))
        if byte <= 242:
            length = unsigned(self.document.data, at + 1, byte - 238)
            start = at + byte - 237
            return "xxx " + escaped(self.document.data[start : start + length]), start + length
        end, number, *_ = definition(self.document.data, at)
        return f"fntdef {number}", end


def listing(files, name, **options):
    """The listing's bytes; options are dpi, mag and detail."""
    detail = options.pop("detail", 1)
    return "".join(line + "\n" for line in Typed(files, name, **options).lines(detail)).encode()
