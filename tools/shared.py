"""What the programs of tools/ share."""
import importlib.machinery
import importlib.util
import os
import sys

TOP = os.path.dirname(os.path.dirname(os.path.realpath(__file__)))


def stop(why, status=2):
    """Ends a program of tools/ with a message."""
    print(f"tools/{os.path.basename(sys.argv[0])}: {why}", file=sys.stderr)
    sys.exit(status)


def load(path, name):
    """A program of Python as a module."""
    loader = importlib.machinery.SourceFileLoader(name, path)
    made = importlib.util.module_from_spec(importlib.util.spec_from_loader(name, loader))
    sys.modules[name] = made
    loader.exec_module(made)
    return made


def read_crates():
    """What each crate of crates.txt names, without the toolchain's libraries, in its order."""
    found = {}
    with open(f"{TOP}/crates.txt", encoding="utf-8") as lines:
        for line in lines:
            head, colon, tail = line.partition("#")[0].partition(":")
            if colon and head.split():
                found[head.split()[0]] = tail.split()
    return {name: [it for it in names if it in found] for name, names in found.items()}
