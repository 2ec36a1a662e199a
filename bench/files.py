"""Writes the measured documents, each of at most 1,000,000 bytes, into a folder."""

import os
import random
import sys

sys.path.insert(0, os.path.join(os.path.dirname(os.path.abspath(__file__)), "..", "tests"))
import documents as dvi

MOST = 1_000_000
NOP = b"\x8a"
ROOM = MOST - len(dvi.document([(1, b"")])) - 3  # for the commands of one page and for definitions


def definition(k, size):
    """The definition of font k, its number in so many bytes, of a name of one letter."""
    return bytes([242 + size]) + dvi.number(k, size) + dvi.number(0) + dvi.number(655360) * 2 + b"\x00\x01f"


def nops():
    return dvi.document([(1, NOP * ROOM)])


def rules():
    rule = dvi.set_rule(15788, 15788)
    return dvi.document([(1, rule * (ROOM // len(rule)))])


def fonts():
    """50,000 fonts in order, in the postamble."""
    return dvi.document([(1, b"")], fonts=b"".join(definition(k, 2) for k in range(50_000)))


def chosen_numbers(count):
    """Numbers of four bytes whose lower halves are all 0, in no order: the worst for a table that looks at the lower bits."""
    numbers = [k << 16 for k in range(count)]
    random.Random(1).shuffle(numbers)
    return numbers


def chosen():
    """As many fonts with such numbers as fit, in the postamble."""
    return dvi.document([(1, b"")], fonts=b"".join(definition(k, 4) for k in chosen_numbers(ROOM // 20)))


def twice():
    """Half as many, each defined on the page and in the postamble."""
    numbers = chosen_numbers(ROOM // 40)
    page = b"".join(definition(k, 4) for k in numbers)
    numbers.reverse()
    return dvi.document([(1, page)], fonts=b"".join(definition(k, 4) for k in numbers))


FILES = dict(nops=nops, rules=rules, fonts=fonts, chosen=chosen, twice=twice)


def write(folder):
    for name, make in FILES.items():
        content = make()
        assert len(content) <= MOST, name
        with open(os.path.join(folder, name + ".dvi"), "wb") as file:
            file.write(content)


if __name__ == "__main__":
    write(sys.argv[1] if len(sys.argv) > 1 else ".")
