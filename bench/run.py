"""Prints how fast vtcat is beside libvterm, vt100 and alacritty_terminal, all in one run: MB/s of processor time, and
ratios to the best of the three.

Made-up inputs come from a seed that is drawn anew in each run and printed, and recordings of real programs are made
anew, so that nothing can be tuned to one input. --seed N repeats a run's made-up inputs.

With --instructions it prints how many instructions vtcat takes a byte, counted by valgrind, so that a busy machine
doesn't matter.
"""

import argparse
import random
import re
import resource
import shutil
import subprocess
import sys
import tempfile
from pathlib import Path

sys.dont_write_bytecode = True

import inputs  # noqa: E402
import recorded  # noqa: E402

HERE = Path(__file__).resolve().parent
VTCAT = HERE.parent / "crates" / "vtcat"
REGISTRY = Path("/usr/share/cargo/registry")
SIZE = ["24", "80"]
# of each input as much is counted: what its second half takes, so that start and end don't count
COUNTED = 1_000_000


def run(words, **how):
    return subprocess.run([str(word) for word in words], check=True, **how)


def build_vtcat():
    """Proves and builds vtcat; the toolchain leaves the program in the crate's folder."""
    run([shutil.which("rt") or "rt", "run", "--", "--rows", "2", "--cols", "2"], cwd=VTCAT,
        stdin=subprocess.DEVNULL, stdout=subprocess.DEVNULL)
    return VTCAT / "out" / "vtcat"


def build_libvterm(folder):
    """None if Debian's libvterm-dev isn't there."""
    program = folder / "vterm"
    try:
        run(["cc", "-O2", "-o", program, HERE / "vterm.c", "-lvterm"])
    except (OSError, subprocess.CalledProcessError):
        return None
    return program


def build_crate(folder, name):
    """Builds the driver of a crate of Rust; None if cargo or Debian's librust-NAME-dev isn't there."""
    crate = folder / name
    shutil.copytree(HERE / name, crate, dirs_exist_ok=True)
    (crate / ".cargo").mkdir(exist_ok=True)
    (crate / ".cargo" / "config.toml").write_text(
        '[source.crates-io]\nreplace-with = "debian"\n'
        f'[source.debian]\ndirectory = "{REGISTRY}"\n')
    try:
        run(["cargo", "build", "--release", "--offline", "--quiet"], cwd=crate)
    except (OSError, subprocess.CalledProcessError):
        return None
    return crate / "target" / "release" / f"{name}-driver"


def seconds(words, file):
    """The processor time that a program takes on a file."""
    with open(file, "rb") as stdin:
        before = resource.getrusage(resource.RUSAGE_CHILDREN)
        run(words, stdin=stdin, stdout=subprocess.DEVNULL)
        after = resource.getrusage(resource.RUSAGE_CHILDREN)
    return after.ru_utime + after.ru_stime - before.ru_utime - before.ru_stime


def speed(words, file, times):
    return file.stat().st_size / 1e6 / min(seconds(words, file) for _ in range(times))


def instructions(words, data):
    """The instructions that a program takes for some bytes."""
    counted = run(["valgrind", "--tool=callgrind", "--callgrind-out-file=/dev/null", *words], input=data,
                  stdout=subprocess.DEVNULL, stderr=subprocess.PIPE)
    return int(re.search(rb"Collected : (\d+)", counted.stderr).group(1))


def instructions_a_byte(words, file):
    """The instructions that the second half of the first MB takes, a byte."""
    with open(file, "rb") as it:
        data = it.read(COUNTED)
    half = data[:COUNTED // 2]
    return (instructions(words, data) - instructions(words, half)) / (len(data) - len(half))


def line(name, cells):
    print(f"{name:12}" + "".join(f"{cell:>11}" for cell in cells), flush=True)


def main():
    reader = argparse.ArgumentParser(description=__doc__)
    reader.add_argument("--times", type=int, default=5, help="the best of N runs counts")
    reader.add_argument("--folder", type=Path, help="for inputs and drivers; else a new one, deleted at the end")
    reader.add_argument("--vtcat", type=Path, help="a vtcat that is built already")
    reader.add_argument("--seed", type=int, help="of the made-up inputs; else one by chance")
    reader.add_argument("--instructions", action="store_true", help="count vtcat's instructions a byte instead")
    words = reader.parse_args()
    with tempfile.TemporaryDirectory() as temporary:
        folder = words.folder or Path(temporary)
        folder.mkdir(parents=True, exist_ok=True)
        seed = random.randrange(1_000_000) if words.seed is None else words.seed
        print(f"seed {seed}")
        files = {**inputs.make(folder, seed), **recorded.make(folder, seed, inputs.SIZE)}
        vtcat = words.vtcat or build_vtcat()
        programs = {"vtcat": [vtcat, "--rows", SIZE[0], "--cols", SIZE[1]]}
        if words.instructions:
            line("a byte", files)
            words_of_vtcat = [*programs["vtcat"], "--keep", "0"]
            line("vtcat", [f"{instructions_a_byte(words_of_vtcat, file):.1f}" for file in files.values()])
            return
        others = {"libvterm": build_libvterm(folder), "vt100": build_crate(folder, "vt100"),
                  "alacritty": build_crate(folder, "alacritty")}
        for name, program in others.items():
            if program is None:
                print(f"{name}: its driver could not be built (see README.md)", file=sys.stderr)
            else:
                programs[name] = [program, *SIZE]
        line("MB/s", files)
        table = {}
        for name, program in programs.items():
            table[name] = [speed(program, file, words.times) for file in files.values()]
            line(name, [f"{value:.1f}" for value in table[name]])
        rivals = [speeds for name, speeds in table.items() if name != "vtcat"]
        if rivals:
            best = [max(column) for column in zip(*rivals)]
            line("vtcat : best", [f"{own / other:.2f}" for own, other in zip(table["vtcat"], best)])


main()
