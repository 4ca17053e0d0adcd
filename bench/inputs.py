"""Makes the inputs of the benchmark, each of 10 MB, from a seed."""

import random
import sys
from pathlib import Path

SIZE = 10_000_000
ROWS, COLS = 24, 80

WORDS = ("the quick brown fox jumps over lazy dogs while users share one terminal and each sees "
         "what may be read 12 345 0x1F {} [] () <> == -> // fn let mut").split()
LATIN = [chr(code) for code in range(0xC0, 0x180) if chr(code).isalpha()]
WIDE = [chr(code) for code in range(0x4E00, 0x9F00)]


def text_line(rng):
    """Words of a line that has room in the page."""
    line = []
    length = 0
    while True:
        word = rng.choice(WORDS)
        if length + len(word) + 1 >= COLS:
            return " ".join(line).encode()
        line.append(word)
        length += len(word) + 1


def ascii(rng):
    """Lines of plain text."""
    return text_line(rng) + b"\r\n"


def long_line(rng):
    """Plain text without a line's end."""
    return text_line(rng) + b" "


def tabs(rng):
    """Lines of code, indented by tabs."""
    words = " ".join(rng.choice(WORDS) for _ in range(rng.randint(1, 5)))
    return b"\t" * rng.randint(1, 4) + words.encode() + b";\r\n"


def place(rng):
    return b"\x1b[%d;%dH" % (rng.randint(1, ROWS), rng.randint(1, COLS))


def dense(rng):
    """CUP and SGR before each letter."""
    rendition = rng.choice((b"0", b"1", b"7", b"0;4", b"22;24", b"1;5;7", b"27"))
    return place(rng) + b"\x1b[" + rendition + b"m" + rng.choice(b"abcdefghij").to_bytes(1, "big")


def edits(rng):
    """Cells and lines that are inserted, deleted and erased, with a word between."""
    count = b"%d" % rng.randint(1, 9)
    last = rng.choice((b"@", b"P", b"X", b"L", b"M", b"K", b"1K"))
    number = b"" if last.endswith(b"K") else count
    return place(rng) + rng.choice(WORDS).encode() + b"\x1b[" + number + last


def short(rng):
    """One short function before two letters: tabs, saved places, margins, index both ways, cells and lines that are
    inserted, deleted and erased within a region that scrolls."""
    count = rng.randint(1, 9)
    function = rng.choice((
        b"\t", b"\x1bH", b"\x1b7", b"\x1b8", b"\x1bD", b"\x1bE", b"\x1bM", b"\x1b[K", b"\x1b[1K", b"\x1b[J",
        b"\x1b[%d@" % count, b"\x1b[%dP" % count, b"\x1b[%dX" % count, b"\x1b[%dL" % count, b"\x1b[%dM" % count,
        b"\x1b[%d;%dr" % (rng.randint(1, ROWS // 3), rng.randint(ROWS // 2, ROWS)),
    ))
    return function + bytes(rng.choices(b"abcdefghij", k=2))


def latin(rng):
    """Lines of letters with diacritics, in UTF-8."""
    words = ("".join(rng.choice(LATIN) for _ in range(6)) for _ in range(11))
    return " ".join(words).encode() + b"\r\n"


def marks(rng):
    """Lines of decomposed text: one letter in ten has a combining mark."""
    line = []
    for _ in range(70):
        line.append(rng.choice("abcdefghijklmnopqrstuvwxyz "))
        if line[-1] != " " and rng.random() < 0.1:
            line.append(rng.choice("\u0300\u0301\u0302\u0303\u0308\u0323"))
    return "".join(line).encode() + b"\r\n"


def wide(rng):
    """Lines of wide characters, in UTF-8."""
    return "".join(rng.choice(WIDE) for _ in range(39)).encode() + b"\r\n"


def scroll(rng):
    """Lines of one letter."""
    return b"y\r\n"


INPUTS = {piece.__name__.replace("_", " "): piece
          for piece in (ascii, long_line, tabs, dense, edits, short, latin, marks, wide, scroll)}


def make(folder, seed):
    """Writes each input, and gives the files by their names."""
    files = {}
    for name, piece in INPUTS.items():
        files[name] = folder / (name.replace(" ", "_") + ".bin")
        rng = random.Random(f"{seed} {name}")
        pieces = []
        size = 0
        while size < SIZE:
            pieces.append(piece(rng))
            size += len(pieces[-1])
        files[name].write_bytes(b"".join(pieces))
    return files


if __name__ == "__main__":
    make(Path(sys.argv[1]), sys.argv[2] if len(sys.argv) > 2 else 0)
