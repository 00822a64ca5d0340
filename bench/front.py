#!/usr/bin/env python3
"""Measures what compiling a text costs, beside mruby's compiler. Not part of the tests.

    bench/front.py RITE [LINES] [--mebibytes N] [--times N]

RITE is the built program (build/rite), `mrbc` and GNU `time` stand on the path. The texts are

- the programs of examples/programs that both compile, again and again up to about so many lines (9,000 without a
  number; mruby refuses a body of some 11,000);
- 10,000 local variables, each set once and used three times: in scopes of 200, and in one scope, which mruby refuses;
- N MiB of methods (16 without a number).

RITE makes the code of a text, writes its file, loads that again and verifies it. mruby's compiler makes the code, and
with `-c` doesn't write it. The seconds are processor time, the least of N runs (5 without a number). The memory is the
greatest that a run held, by byte of the text, the program itself (some MiB) within it. Where RITE refuses a text for a
count past its limit, what is timed is the front end and the counts.
"""
import argparse
import glob
import os
import subprocess
import sys
import tempfile

from program import measured

PROGRAMS = os.path.join(os.path.dirname(os.path.abspath(__file__)), "..", "examples", "programs", "*.rb")
LOCALS = 10_000
METHOD = """  # adds what it is given
  def add_{0}(text, count = 1_000)
    text.split(", ").each {{ |word| @words[word] += count if word != "the #{{count + {0}}} of them" }}
    @total += count * 0x1F - (3 << 2)
  end
"""


def is_read(rite, text, folder):
    """Whether both compilers take the text."""
    path, target = os.path.join(folder, "part.rb"), os.path.join(folder, "part.mrb")
    with open(path, "w") as file:
        file.write(text)
    ours = subprocess.run([rite, "build", path, target], capture_output=True)
    theirs = subprocess.run(["mrbc", "-c", path], capture_output=True)
    return theirs.returncode == 0 and ours.returncode == 0


def programs(rite, lines, folder):
    """The programs one after another, repeated, without those in which a local variable is a method of another."""
    whole = ""
    for path in sorted(glob.glob(PROGRAMS)):
        with open(path) as file:
            text = whole + file.read().rstrip("\n") + "\n"
        if is_read(rite, text + text, folder):
            whole = text
    return whole * max(1, round(lines / max(1, whole.count("\n"))))


def scope(names):
    """Statements that set so many local variables once and use each three times."""
    first = [f"local_{one} = {one}\n" for one in range(names)]
    others = [f"local_{one} += local_{(one * step) % names}\n" for step in (7, 7_919, 104_729) for one in range(names)]
    return "".join(first + others)


def scopes(names):
    """So many local variables in all, in methods of 200."""
    return "".join(f"def scope_{one}\n{scope(200)}end\n" for one in range(names // 200))


def methods(size):
    """Classes of 100 methods, at most so many bytes."""
    body = "".join(METHOD.format(one) for one in range(100))
    return "".join(f"class Part{one}\n{body}end\n" for one in range(size // (len(body) + 20)))


def compare(name, text, rite, times, folder):
    """Writes the text, drops it, and measures both compilers on it."""
    path, target = os.path.join(folder, "long.rb"), os.path.join(folder, "long.mrb")
    with open(path, "w") as file:
        file.write(text)
    lines, size = text.count("\n"), len(text)
    del text
    print(f"{name}: {lines:,} lines, {size:,} bytes")
    commands = [("rite build", [rite, "build", path, target], (0, 121)), ("mrbc -c", ["mrbc", "-c", path], (0,))]
    spent = {}
    for tool, command, statuses in commands:
        if tool == "mrbc -c" and name == "one scope":
            print("  mrbc -c     has no bodies with so many local variables")
            continue
        seconds, peak, status, said = measured(command, times)
        if status not in statuses:
            print(f"  {tool:10}  status {status}: {said}")
            continue
        spent[tool] = seconds
        speed = f"{lines / max(seconds, 0.001):12,.0f} lines a second ({seconds:.2f} s)"
        print(f"  {tool:10}{speed}, {peak / size:6.1f} bytes a byte   {said if tool == 'rite build' else ''}".rstrip())
    if len(spent) == 2:
        print(f"  time to mrbc's {spent['rite build'] / max(spent['mrbc -c'], 0.001):.2f}")


def main():
    words = argparse.ArgumentParser(description=__doc__, formatter_class=argparse.RawDescriptionHelpFormatter)
    words.add_argument("rite")
    words.add_argument("lines", nargs="?", type=int, default=9_000)
    words.add_argument("--mebibytes", type=int, default=16)
    words.add_argument("--times", type=int, default=5)
    asked = words.parse_intermixed_args()
    with tempfile.TemporaryDirectory() as folder:
        texts = [
            ("programs", lambda: programs(asked.rite, asked.lines, folder)),
            ("scopes of 200", lambda: scopes(LOCALS)),
            ("one scope", lambda: scope(LOCALS)),
            ("methods", lambda: methods(asked.mebibytes << 20)),
        ]
        for name, text in texts:
            compare(name, text(), asked.rite, asked.times, folder)
            sys.stdout.flush()


if __name__ == "__main__":
    main()
