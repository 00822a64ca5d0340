#!/usr/bin/env python3
"""Measures how fast the program reads long texts. Not part of the tests.

    bench/texts.py RITE [MEBIBYTES]

RITE is the built program (build/rite). Each text of about so many MiB (16 without a number) is given
to `build`; it is read up to its core, or refused on the way, and little of it is built so far.
"""
import os
import subprocess
import sys
import tempfile
import time

METHOD = """  # adds what it is given
  def add(text, count = 1_000)
    text.split(", ").each { |word| @words[word] += count if word != "the #{count + 1} of them" }
    @total += count * 0x1F - (3 << 2)
  end
"""


def texts(size):
    """Names and texts of at most so many bytes."""
    yield "open brackets", b"(" * size
    yield "semicolons", b";" * size
    yield "one name", b"a" * size
    yield "digits", b"1" * size
    yield "spaces", b" " * size
    yield "comment", b"#" * size
    yield "string", b'"' + b"s" * (size - 2) + b'"'
    yield "interpolations in one another", b'"#{' * (size // 3)
    yield "heredoc", b"<<A\n" + b"line\n" * ((size - 8) // 5) + b"A\n"
    yield "methods", METHOD.encode() * (size // len(METHOD))


def main(rite, mebibytes):
    with tempfile.TemporaryDirectory() as folder:
        source, target = os.path.join(folder, "long.rb"), os.path.join(folder, "long.mrb")
        for name, text in texts(mebibytes << 20):
            with open(source, "wb") as handle:
                handle.write(text)
            start = time.perf_counter()
            run = subprocess.run([rite, "build", source, target], capture_output=True, timeout=600)
            seconds = time.perf_counter() - start
            assert run.returncode in (0, 121, 123), (name, run.returncode)
            answer = run.stderr.decode().strip() or "built"
            print(f"{name}: {len(text) / seconds / 1e6:.0f} MB/s ({seconds:.2f} s), {answer}")


if __name__ == "__main__":
    if len(sys.argv) < 2:
        sys.exit(__doc__)
    main(sys.argv[1], int(sys.argv[2]) if len(sys.argv) > 2 else 16)
