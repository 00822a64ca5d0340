#!/usr/bin/env python3
"""The crates of the repository, from crates.txt, where each stands after those that it uses.

    scripts/crates.py               all of them
    scripts/crates.py below NAME    the crate and those that it stands on, the lowest first
    scripts/crates.py above NAME    the crate and those that stand on it, the lowest first
"""
import os
import sys

TOP = os.path.realpath(os.path.join(os.path.dirname(os.path.abspath(__file__)), ".."))


def uses():
    """What each crate uses of this repository, by the crate's name, in the order of crates.txt."""
    with open(os.path.join(TOP, "crates.txt")) as file:
        lines = [line.partition("#")[0].partition(":") for line in file]
    named = {name.split()[0]: words.split() for name, _, words in lines if name.strip()}
    return {name: [word for word in words if word in named] for name, words in named.items()}


def below(name):
    """The crate and those that it stands on, the lowest first."""
    listed, found, waiting = uses(), set(), [name]
    while waiting:
        crate = waiting.pop()
        if crate not in found:
            found.add(crate)
            waiting += listed[crate]
    return [crate for crate in listed if crate in found]


def above(name):
    """The crate and those that stand on it, the lowest first."""
    return [crate for crate in uses() if name in below(crate)]


def main(words):
    if not words:
        print(*uses(), sep="\n")
    elif len(words) == 2 and words[0] in ("below", "above") and words[1] in uses():
        print(*(below if words[0] == "below" else above)(words[1]), sep="\n")
    else:
        sys.exit("usage: scripts/crates.py [below NAME | above NAME], NAME a crate of crates.txt")


if __name__ == "__main__":
    main(sys.argv[1:])
