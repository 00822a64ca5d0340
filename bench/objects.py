#!/usr/bin/env python3
"""Measures changes of objects in place, and the memory that objects take, beside mruby. Not part of the tests.

    bench/objects.py RITE [--times N]

RITE is the built program (build/rite), `mrbc`, `mruby` and GNU `time` stand on the path. What makes an object grow is
done 1,000,000 times by a loop, what reads or sets an element five times with each of an Array or a Hash of 1,000,000,
and of a Hash of 1,000 as often in all. The nanoseconds are processor time of the program's file with the loop, less
that of the same file whose loop only counts; each is the least of N runs (3 without a number). The bytes are the
greatest memory that a run held which keeps 1,000,000 objects in one Array, less that of an empty program, for each
object; its place in the Array is among them.
"""
import argparse
import os
import subprocess
import tempfile

from program import measured

ROUNDS = 1_000_000

# How many elements a short Hash has.
FEW = 1_000

LOOP = "w = 0\nwhile w < %d\n  i = 0\n  while i < %d\n%s    i += 1\n  end\n  w += 1\nend\n"


def loop(line, times=1, count=ROUNDS):
    """A loop over so many numbers from 0 on, so many times, with that line in it, or none."""
    return LOOP % (times, count, f"    {line}\n" if line else "")


ARRAY = "a = []\n" + loop("a << i")

HASH = "h = {}\n" + loop("h[i] = i")

SHORT_HASH = "h = {}\n" + loop("h[i] = i", 1, FEW)

# What is measured, what stands before the loop, the line within it, and how often it goes over how many numbers.
CHANGES = [
    ("a << x", "a = []\n", "a << i", (1, ROUNDS)),
    ("a[i]", ARRAY, "x = a[i]", (5, ROUNDS)),
    ("a[i] = v", ARRAY, "a[i] = nil", (5, ROUNDS)),
    ("h[k], of 1,000", SHORT_HASH, "x = h[i]", (5_000, FEW)),
    ("h[k]", HASH, "x = h[i]", (5, ROUNDS)),
    ("h[k] = v", HASH, "h[i] = nil", (5, ROUNDS)),
    ("h[k] = v, a new key", "h = {}\n", "h[i] = i", (1, ROUNDS)),
    ("s << t", "s = ''\nt = 'text'\n", "s << t", (1, ROUNDS)),
    ("@x = v", "", "@x = i", (5, ROUNDS)),
]

OBJECTS = [
    ("a String of 10 bytes", "a << 'ten bytes!'"),
    ("an Array of two", "a << [i, i]"),
]


def commands(rite, source, folder):
    """The commands that run a source's file, RITE's and mruby's."""
    path, ours, theirs = [os.path.join(folder, name) for name in ("source.rb", "ours.mrb", "theirs.mrb")]
    with open(path, "w") as file:
        file.write(source)
    subprocess.run([rite, "build", path, ours], check=True)
    subprocess.run(["mrbc", "-o", theirs, path], check=True)
    return [[rite, "run", ours], ["mruby", "-b", theirs]]


def costs(rite, source, times):
    """The seconds and the greatest memory of a source, with RITE and with mruby."""
    with tempfile.TemporaryDirectory() as folder:
        found = [measured(command, times) for command in commands(rite, source, folder)]
    for _, _, status, said in found:
        if status != 0:
            raise SystemExit(f"status {status}: {said}\n{source}")
    return [(seconds, peak) for seconds, peak, _, _ in found]


def row(name, ours, theirs, unit):
    print(f"{name:22}{ours:10.1f}{theirs:10.1f}{ours / theirs:8.2f}  {unit}", flush=True)


def main():
    words = argparse.ArgumentParser(description=__doc__, formatter_class=argparse.RawDescriptionHelpFormatter)
    words.add_argument("rite")
    words.add_argument("--times", type=int, default=3)
    asked = words.parse_args()
    rite = os.path.abspath(asked.rite)
    print(f"{'':22}{'rite':>10}{'mruby':>10}{'ratio':>8}")
    for name, before, line, (times, count) in CHANGES:
        with_it = costs(rite, before + loop(line, times, count), asked.times)
        without = costs(rite, before + loop("", times, count), asked.times)
        row(name, *[(one[0] - other[0]) / (times * count) * 1e9 for one, other in zip(with_it, without)], "ns")
    empty = costs(rite, "", 1)
    for name, line in OBJECTS:
        full = costs(rite, "a = []\n" + loop(line), 1)
        row(name, *[(one[1] - other[1]) / ROUNDS for one, other in zip(full, empty)], "bytes")


if __name__ == "__main__":
    main()
