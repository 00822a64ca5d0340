#!/usr/bin/env python3
"""Measures how long programs run, beside mruby and Ruby. Not part of the tests: it needs ruby, mruby and hyperfine.

    bench/machine.py RITE [--runs N] [NAME..]

RITE is the built program (build/rite). Each program of bench/machine (or those of the names) is built
by RITE and by mrbc, and its file is run by `rite run` and by `mruby -b`; `ruby` runs the source. All have to write the
same. The times are processor seconds, hyperfine's means of N runs (5 without a number) after one that isn't counted,
with the start of the command and the loading of the file; building isn't among them. Where RITE doesn't build a
program, or can't run it, its place is empty, and the geometric mean of the ratios to mruby is of the programs that are
there.
"""
import argparse
import glob
import json
import math
import os
import shlex
import subprocess
import sys
import tempfile

PROGRAMS = os.path.join(os.path.dirname(os.path.abspath(__file__)), "machine")
COLUMNS = ["rite", "mruby", "ruby"]


def output(command):
    """What a command writes, none where it fails."""
    run = subprocess.run(command, stdin=subprocess.DEVNULL, capture_output=True, timeout=600)
    return run.stdout if run.returncode == 0 else None


def commands(rite, path, folder):
    """The commands that run a program, by their columns; without RITE's where it doesn't build it or can't run it."""
    ours, theirs = os.path.join(folder, "ours.mrb"), os.path.join(folder, "theirs.mrb")
    subprocess.run(["mrbc", "-o", theirs, path], check=True)
    found = {"mruby": ["mruby", "-b", theirs], "ruby": ["ruby", path]}
    if output([rite, "build", path, ours]) is not None and output([rite, "run", ours]) is not None:
        found["rite"] = [rite, "run", ours]
    return found


def seconds(command, runs, folder):
    """The mean processor time of a command, by hyperfine."""
    told = os.path.join(folder, "times.json")
    line = shlex.join(command)
    subprocess.run(["hyperfine", "-N", "--warmup", "1", "--runs", str(runs), "--export-json", told, line],
                   check=True, capture_output=True)
    with open(told) as file:
        found = json.load(file)["results"][0]
    return found["user"] + found["system"]


def measured(rite, path, runs):
    """The times of a program by the columns that have one."""
    with tempfile.TemporaryDirectory() as folder:
        found = commands(rite, path, folder)
        written = {column: output(command) for column, command in found.items()}
        if len(set(written.values())) != 1 or None in written.values():
            sys.exit(f"{path}: not all write the same: {written}")
        return {column: seconds(command, runs, folder) for column, command in found.items()}


def cell(number):
    return f"{number:12.3f}" if number is not None else f"{'-':>12}"


def mean(ratios):
    """The geometric mean, none of no ratios."""
    return math.exp(sum(math.log(ratio) for ratio in ratios) / len(ratios)) if ratios else None


def row(name, times, ratios):
    print(f"{name:12}" + "".join(cell(times.get(column)) for column in COLUMNS)
          + "".join(cell(ratios.get(column)) for column in ("rite", "ruby")))


def main():
    words = argparse.ArgumentParser(description=__doc__, formatter_class=argparse.RawDescriptionHelpFormatter)
    words.add_argument("rite")
    words.add_argument("names", nargs="*")
    words.add_argument("--runs", type=int, default=5)
    asked = words.parse_intermixed_args()
    found = {os.path.basename(path)[:-3]: path for path in sorted(glob.glob(os.path.join(PROGRAMS, "*.rb")))}
    print(f"{'':12}" + "".join(f"{column:>12}" for column in [*COLUMNS, "rite/mruby", "ruby/mruby"]))
    every = []
    for name in asked.names or found:
        times = measured(os.path.abspath(asked.rite), found[name], asked.runs)
        every.append({column: times[column] / times["mruby"] for column in times})
        row(name, times, every[-1])
    row("mean", {}, {column: mean([one[column] for one in every if column in one]) for column in ("rite", "ruby")})


if __name__ == "__main__":
    main()
