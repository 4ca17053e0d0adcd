"""Records what real programs write to a window of mux: each in a pseudo-terminal of 24 by 80, under a window's TERM.

usage: python3 bench/recorded.py FOLDER

Each run records anew, from texts that are made up by chance, so that nothing can be tuned to one recording.
"""

import os
import random
import shutil
import subprocess
import sys
import tempfile
import time
from pathlib import Path

sys.dont_write_bytecode = True
sys.path.insert(0, str(Path(__file__).resolve().parent.parent / "tests/outside"))
from play import TOP, Terminal

ROWS, COLS = 24, 80
# The most bytes of a recording, and its seconds.
MOST, LONGEST = 2_000_000, 20.0

ALPHABETS = {
    "cyrillic": [chr(code) for code in range(0x430, 0x450)],
    "greek": [chr(code) for code in range(0x3B1, 0x3CA)],
    "hebrew": [chr(code) for code in range(0x5D0, 0x5EB)],
    "japanese": [chr(code) for code in range(0x3041, 0x3097)] + [chr(code) for code in range(0x4E00, 0x5200)],
    "emoji": [chr(code) for code in range(0x1F600, 0x1F640)],
    "latin": [chr(code) for code in range(0x61, 0x7B)],
}
MARKS = {"cyrillic": "\u0301", "greek": "\u0301\u0308", "hebrew": "\u05b0\u05b4\u05b7\u05b8", "latin": "\u0301\u0302\u0323"}


def word(rng, script):
    """A word of a script, one letter in eight with a mark if the script has marks."""
    letters = []
    for _ in range(rng.randint(2, 9)):
        letters.append(rng.choice(ALPHABETS[script]))
        if script in MARKS and rng.random() < 0.12:
            letters.append(rng.choice(MARKS[script]))
    return "".join(letters)


def mixed_text(rng, path):
    """A text of several scripts."""
    lines = []
    for _ in range(6000):
        script = rng.choice(list(ALPHABETS))
        lines.append(" ".join(word(rng, rng.choice((script, "latin"))) for _ in range(rng.randint(1, 9))))
    path.write_text("\n".join(lines) + "\n", encoding="utf-8")


def faulty_program(rng, path):
    """A C program of which the compiler has much to say."""
    lines = []
    for number in range(600):
        name, other = f"f{number}_{rng.randint(0, 9999)}", f"v{rng.randint(0, 9999)}"
        lines.append(f"int {name}(char *{other}) {{ return {other} + undeclared_{number} * \"{word(rng, 'latin')}\"; }}")
    path.write_text("\n".join(lines) + "\n")


def terminfo(folder):
    """The environment of a window, as mux-shell makes it."""
    with open(folder / "mux.ti", "wb") as file:
        for name in ("mux.ti", "vt220.ti"):
            file.write((TOP / "contrib" / name).read_bytes())
    subprocess.run(["tic", "-x", "-o", folder / "terminfo", folder / "mux.ti"], check=True)
    return dict(os.environ, TERM="vt220", TERMINFO_DIRS=f"{folder}/terminfo:", LC_ALL="C.UTF-8", LESS="", GIT_PAGER="cat",
                LINES=str(ROWS), COLUMNS=str(COLS))


def record(words, keys, environment):
    """What a program writes while these keys are typed, one whenever it is silent."""
    keys, end = iter(keys), time.monotonic() + LONGEST
    with Terminal(words, environment, ROWS, COLS) as it:
        while time.monotonic() < end and len(it.out) < MOST:
            if it.read(0.03):
                continue
            key = next(keys, None)
            if key is None or it.program.poll() is not None:
                break
            it.type(key)
        return it.out


def programs(folder, rng):
    """The programs with their words and keys."""
    mixed_text(rng, folder / "mixed.txt")
    faulty_program(rng, folder / "faulty.c")
    source = str(TOP / "docs" / "SPECIFICATION.md")
    pages = [rng.choice((b"\x06", b"\x06", b"\x02", b"jjjj", b"kk", b"/the\r", b"n")) for _ in range(300)]
    return {
        "git log": (["git", "-C", str(TOP), "log", "--color", "-p", "-n", "60"], [b""] * 20),
        "compiler": (["gcc", "-c", "-fdiagnostics-color=always", "-fmax-errors=0", "-o", "/dev/null",
                      str(folder / "faulty.c")], [b""] * 100),
        "vim": (["vim", "-n", "-u", "NONE", "-c", "syntax on", "-c", "set ruler", source], pages),
        "htop": (["htop", "-d", "1"], [rng.choice((b"\x1b[B", b"\x1b[A", b"P", b"M")) for _ in range(200)]),
        "less": (["less", str(folder / "mixed.txt")], [rng.choice((b" ", b" ", b" ", b"b", b"j", b"k")) for _ in range(400)]),
    }


def make(folder, seed, size):
    """Records each program that is there, repeated to a size, and gives the files by their names."""
    rng, files = random.Random(seed), {}
    with tempfile.TemporaryDirectory() as temporary:
        place = Path(temporary)
        environment = terminfo(place)
        for name, (words, keys) in programs(place, rng).items():
            if shutil.which(words[0]) is None:
                print(f"{name}: there is no {words[0]}, so it isn't recorded", file=sys.stderr)
                continue
            data = record(words, keys, environment)
            if len(data) < 2_000:
                print(f"{name}: only {len(data)} bytes came, so it is left out", file=sys.stderr)
                continue
            files[name] = folder / (name.replace(" ", "_") + ".rec")
            files[name].write_bytes((data * (size // len(data) + 1))[:size])
    return files


if __name__ == "__main__":
    for file in make(Path(sys.argv[1]), time.time_ns(), 10_000_000).values():
        print(file)
