"""Files of fonts, byte for byte, for the end-to-end tests."""

from documents import number

WHOLE = 1 << 20  # the fix_word of a width that is the font's size, and of a local font at the size of the font around it
TEN_POINTS = 10485760  # a design size of ten points, as TFM, PK and VF files have it


def tfm(widths, checksum=0):
    """A TFM file of these fix_words by code: each code has a width of its own, behind the width 0 of what isn't there."""
    first, last = min(widths), max(widths)
    codes = range(first, last + 1)
    table = [0] + [widths[code] for code in codes if code in widths]
    indices = {code: place for place, code in enumerate((code for code in codes if code in widths), 1)}
    counts = [2, first, last, len(table), 1, 1, 1, 0, 0, 0, 0]
    total = 6 + 2 + len(codes) + len(table) + 3
    head = b"".join(number(count, 2) for count in [total] + counts)
    infos = b"".join(bytes([indices.get(code, 0), 0, 0, 0]) for code in codes)
    return head + number(checksum) + number(TEN_POINTS) + infos + b"".join(map(number, table)) + bytes(12)


def pk(glyphs, checksum=0):
    """A PK file of these glyphs by code: columns, rows, the two offsets, and the bits of all rows one after another."""
    out = b"\xf7\x59\x00" + number(TEN_POINTS) + number(checksum) + number(0) * 2
    for code, (columns, rows, right, down, bits) in glyphs.items():
        raster = bits + "0" * (-len(bits) % 8)
        raster = bytes(int(raster[place : place + 8], 2) for place in range(0, len(raster), 8))
        out += b"\xe7" + number(28 + len(raster)) + number(code) + number(0) * 3
        out += number(columns) + number(rows) + number(right) + number(down) + raster
    return out + b"\xf5" + b"\xf6" * (-(len(out) + 1) % 4)


def vf(local, packets, checksum=0):
    """A VF file: its local fonts, each a number, a name, a size over the font's own as a fix_word, and a design size; its packets by code."""
    out = b"\xf7\xca\x00" + number(checksum) + number(TEN_POINTS)
    for k, name, size, design in local:
        out += b"\xf3" + number(k, 1) + number(0) + number(size) + number(design) + bytes([0, len(name)]) + name
    for code, commands in packets.items():
        out += b"\xf2" + number(len(commands)) + number(code) + number(0) + commands
    return out + b"\xf8" * (4 - len(out) % 4)


# the usual font: code 65 has half the font's size as its width, and a black bitmap of 4 by 2 pixels, of which the lower left is at the place
SQUARE = (4, 2, 0, 1, "1" * 8)
CMR10_TFM = tfm({65: 1 << 19})
CMR10_PK = pk({65: SQUARE})
CMR10 = {"cmr10.tfm": CMR10_TFM, "cmr10.300pk": CMR10_PK}


def over(name, packet, widths={65: 1 << 19}):
    """The TFM and the VF file of a virtual font over one font of the same size."""
    return tfm(widths), vf([(0, name, WHOLE, TEN_POINTS)], {65: packet})
