#!/usr/bin/env python3
"""What a round of a loop costs, form by form, beside mruby.

    bench/rounds.py RITE [NAMES..]

RITE is a built `rite`; needs `mruby` and `mrbc` of mruby 3.1, and valgrind, whose counts are the same on a busy machine.
Each program makes ROUNDS rounds with one form in each. Printed are the instructions of the processor that a round takes,
less those of a program that does nothing, of `rite` and of mruby, and the ratio; the loop itself (`while`) is in them.
"""
import os
import re
import subprocess
import sys
import tempfile

ROUNDS = 20_000

LOOP = "i = 0\nwhile i < {n}\n  {body}\n  i += 1\nend\n"
NUMBERS = "a = (0...{n}).to_a\n"
POINT = "class Point\n  attr_accessor :x\n  def initialize(x)\n    @x = x\n  end\nend\n"
ORDERED = (
    "class Ordered\n  include Comparable\n  attr_reader :x\n  def initialize(x)\n    @x = x\n  end\n"
    "  def <=>(other)\n    @x <=> other.x\n  end\nend\na = Ordered.new(1)\nb = Ordered.new(2)\n"
)


def loop(body, before=""):
    return before + LOOP.replace("{body}", body)


PROGRAMS = {
    "while": loop("nil"),
    "times": "{n}.times {{ |i| i }}\n",
    "upto": "1.upto({n}) {{ |i| i }}\n",
    "step": "1.step({n}, 1) {{ |i| i }}\n",
    "range_each": "(1..{n}).each {{ |i| i }}\n",
    "loop": "i = 0\nloop do\n  i += 1\n  break if i == {n}\nend\n",
    "each": NUMBERS + "a.each {{ |x| x }}\n",
    "each_with_index": NUMBERS + "a.each_with_index {{ |x, i| x }}\n",
    "each_slice": NUMBERS + "a.each_slice(2) {{ |x| x }}\n",
    "map": NUMBERS + "a.map {{ |x| x }}\n",
    "select": NUMBERS + "a.select {{ |x| x }}\n",
    "all": NUMBERS + "a.all? {{ |x| x }}\n",
    "inject": NUMBERS + "a.inject(0) {{ |s, x| s + x }}\n",
    "sum": NUMBERS + "a.sum\n",
    "sort_by": NUMBERS + "a.sort_by {{ |x| -x }}\n",
    "hash_each": "h = {{}}\n{n}.times {{ |i| h[i] = i }}\nh.each {{ |k, v| v }}\n",
    "each_char": 's = "a" * {n}\ns.each_char {{ |c| c }}\n',
    "outer_local": "t = 0\n{n}.times {{ |x| t += x }}\n",
    "call": loop("f(i)", "def f(x)\n  x\nend\n"),
    "call_default": loop("f(i)", "def f(x, y = 1)\n  x\nend\n"),
    "call_rest": loop("f(i)", "def f(*x)\n  x\nend\n"),
    "call_block": loop("f {{ |x| x }}", "def f\n  yield 1\nend\n"),
    "lambda": loop("f.call(i)", "f = ->(x) {{ x }}\n"),
    "send": loop("i.send(:+, 1)"),
    "super": loop(
        "b.f(i)",
        "class A\n  def f(x)\n    x\n  end\nend\nclass B < A\n  def f(x)\n    super\n  end\nend\nb = B.new\n",
    ),
    "new": loop("Point.new(i)", POINT),
    "attribute": loop("a.x = i", POINT + "a = Point.new(0)\n"),
    "comparable": loop("a < b", ORDERED),
    "fiber": loop("f.resume", "f = Fiber.new do\n  loop {{ Fiber.yield 1 }}\nend\n"),
    "rescue": loop('begin\n    raise "x"\n  rescue => e\n    e\n  end'),
    "ensure": "i = 0\nwhile i < {n}\n  begin\n    i\n  ensure\n    i += 1\n  end\nend\n",
    "case": loop("case i\n  when 1 then 2\n  when String then 3\n  else 4\n  end"),
    "case_text": loop('case t\n  when "x" then 2\n  when "y" then 3\n  end', 't = "z"\n'),
    "global": loop("$x += 1", "$x = 0\n"),
    "constant": loop("X", "X = 5\n"),
    "assign_two": loop("a, b = b, a", "a = 1\nb = 2\n"),
    "divmod": loop("a, b = i.divmod(7)"),
    "interpolation": loop('s = "a#{{i}}b"'),
    "text_equal": loop('t == "abd"', 't = "abc"\n'),
    "text_append": loop('s << "ab"', 's = ""\n'),
    "text_index": loop("s[1]", 's = "hello"\n'),
    "text_sub": loop('s.sub("o", "0")', 's = "hello world"\n'),
    "text_split": loop('s.split(" ")', 's = "a b c"\n'),
    "to_s": loop("i.to_s"),
    "array_of_two": loop("b = [i, i]"),
    "array_get": loop("a[1]", "a = [1, 2, 3]\n"),
    "array_set": loop("a[1] = i", "a = [1, 2, 3]\n"),
    "push_pop": loop("a.push(i)\n  a.pop", "a = [1, 2, 3]\n"),
    "array_min": loop("[i, 5].min"),
    "array_join": loop('a.join(",")', "a = [1, 2, 3]\n"),
    "hash_symbol": loop("h[:b]", "h = {{a: 1, b: 2}}\n"),
    "hash_text": loop('h["b"]', 'h = {{"a" => 1, "b" => 2}}\n'),
    "hash_count": loop("h[:b] += 1", "h = Hash.new(0)\n"),
    "hash_new_key": "h = {{}}\n{n}.times {{ |i| h[i] = i }}\n",
    "is_a": loop("i.is_a?(Integer)"),
    "respond_to": loop("i.respond_to?(:abs)"),
    "puts": loop("puts i"),
}


def instructions(command):
    """The instructions that a command takes."""
    counted = subprocess.run(
        ["valgrind", "--tool=callgrind", "--callgrind-out-file=/dev/null", *command],
        stdin=subprocess.DEVNULL,
        stdout=subprocess.DEVNULL,
        stderr=subprocess.PIPE,
        text=True,
        errors="replace",
    )
    found = re.search(r"refs:\s+([\d,]+)", counted.stderr)
    if not found:
        sys.exit(f"no count of {' '.join(command)}:\n{counted.stderr}")
    return int(found.group(1).replace(",", ""))


def both(rite, folder, text):
    """The instructions of the code of a text, run by `rite` and by mruby."""
    source, ours, theirs = (os.path.join(folder, name) for name in ("a.rb", "a.mrb", "a.code"))
    with open(source, "w") as file:
        file.write(text)
    subprocess.run([rite, "build", source, ours], check=True)
    subprocess.run(["mrbc", "-o", theirs, source], check=True)
    return instructions([rite, "run", ours]), instructions(["mruby", "-b", theirs])


def main(rite, names):
    with tempfile.TemporaryDirectory() as folder:
        nothing = both(rite, folder, "nil\n")
        for name in names or PROGRAMS:
            counts = both(rite, folder, PROGRAMS[name].format(n=ROUNDS))
            here, there = ((count - less) / ROUNDS for count, less in zip(counts, nothing))
            print(f"{name:16} {here:8.0f} {there:8.0f} {here / there:6.2f}", flush=True)


if __name__ == "__main__":
    if len(sys.argv) < 2:
        sys.exit(__doc__)
    main(sys.argv[1], sys.argv[2:])
