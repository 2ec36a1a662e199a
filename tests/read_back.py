"""Reads a text back: what each of its pages shows, by the meaning of the names that its prolog defines.

It stands on nothing of the program: what it knows is the form of the lines behind the prolog.
"""

import re

GLYPH = re.compile(
    rb"(\d+)\[(\d+) (\d+) true\[1 0 0 1 (-?\d+) (-?\d+)\]\{<([0-9a-f\n]*)>\}(-?\d+) 0 (-?\d+) (-?\d+) (-?\d+) (-?\d+)\]D\n"
)
WAYS = {b"l": -4, b"m": -3, b"n": -2, b"o": -1, b"q": 1, b"r": 2, b"s": 3, b"t": 4}
DELTAS = {b"c": -4, b"d": -3, b"e": -2, b"f": -1, b"g": 0, b"h": 1, b"i": 2, b"j": 3, b"k": 4}
STRING = re.compile(rb"\(((?:[^\\()]|\\[\\()]|\\[0-7]{3})*)\)")


def codes_of(string):
    found = re.findall(rb"\\([0-7]{3})|\\([\\()])|([^\\()])", string)
    return [int(octal, 8) if octal else (escaped or plain)[0] for octal, escaped, plain in found]


class Pages:
    """The pages of a text, each a label and what it shows; and for each section the fonts with the codes that it loads."""

    def __init__(self, text):
        self.pages, self.sections, self.strings = [], [], []
        body = text[text.index(b"%%EndSetup\n") + 11 : text.index(b"%%Trailer\n")]
        for section in re.findall(rb"bos\n(.*?)eos\n", body, re.DOTALL):
            self.section(section)

    def section(self, text):
        self.fonts = {}
        fonts, _, pages = text.partition(b"%%Page: ")
        for name, lines in re.findall(rb"/(F\d+) FB\n(.*?)E\n", fonts, re.DOTALL):
            self.fonts[name] = {int(glyph[0]): glyph[1:] for glyph in GLYPH.findall(lines)}
        self.sections.append({name: sorted(glyphs) for name, glyphs in self.fonts.items()})
        for page in (b"%%Page: " + pages).split(b"%%Page: ")[1:]:
            self.page(page)

    def page(self, text):
        head, begin, *lines, end, rest = text.split(b"\n")
        assert (begin, end, rest) == (b"bop", b"eop", b""), text
        self.x = self.y = self.delta = 0
        self.font, self.marks = None, []
        for line in lines:
            self.line(line)
        self.pages.append((int(head.split()[0]), self.marks))

    def line(self, line):
        string = STRING.match(line)
        if string:
            self.string(codes_of(string[1]), line[string.end() :])
            return
        *numbers, name = line.split()
        if name == b"F":
            self.font = self.fonts[numbers[0]]
            return
        numbers = [int(number) for number in numbers]
        if name == b"a":
            self.x, self.y = numbers
        elif name == b"w":
            self.x += numbers[0]
        elif name == b"x":
            self.y += numbers[0]
        elif name == b"v":
            columns, rows = numbers
            self.marks.append(("rule", self.x, self.y - rows + 1, columns, rows))
        else:
            raise ValueError(line)

    def string(self, codes, rest):
        self.strings.append(codes)
        for code in codes:
            columns, _, right, down, rows, width = self.font[code][:6]
            rows = bytes.fromhex(rows.replace(b"\n", b"").decode())
            if any(rows):
                self.marks.append(("glyph", self.x - int(right), self.y - int(down), int(columns), rows))
            self.x += int(width)
        *numbers, name = rest.split()
        numbers = [int(number) for number in numbers]
        if name == b"y":
            self.x, self.y = numbers
        elif name in WAYS:
            self.x += WAYS[name]
        elif name in DELTAS:
            self.delta += DELTAS[name]
            self.x += self.delta
        elif name == b"b":
            self.delta = numbers[0]
            self.x += self.delta
        elif name != b"p":
            raise ValueError(rest)
