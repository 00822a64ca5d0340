#!/usr/bin/env python3
"""Measures the program on files, and tries it on broken ones. Not part of the tests.

    bench/files.py speed RITE [MEBIBYTES]   time over a file of many bodies, in MB/s of the file
    bench/files.py hostile RITE             time over files that are dear to judge
    bench/files.py broken RITE [FILES]      files with one to four bytes changed: each call must end with an answer
                                            within a tenth of a second

RITE is the built program (build/rite). Times are the processor's, so that a machine that does something else, too, lets
them stand; they are of the whole process, with its start and the reading of the file, the best of three calls: `info`
reads the header and the sections, `list` loads the file and writes its listing to where nothing is kept, `run` loads
it, verifies it, makes its instructions ready and makes no turn. Where RITE has no command `run`, nothing verifies a
file and its line is missing.
"""
import os
import random
import resource
import struct
import subprocess
import sys
import tempfile

ANSWERS = (0, 121, 122)
USAGE = 120
SLOWEST = 0.1


def record(locals_count, registers, children, code, catches=(), pool=(), symbols=()):
    """The bytes of a record; see docs/formats.md."""
    fields = bytearray(struct.pack(">HHHH", locals_count, registers, children, len(catches)))
    fields += struct.pack(">I", len(code)) + code
    for kind, begin, end, target in catches:
        fields += struct.pack(">BIII", kind, begin, end, target)
    fields += struct.pack(">H", len(pool))
    for item in pool:
        if isinstance(item, int):
            fields += struct.pack(">Bq", 1, item)
        else:
            fields += struct.pack(">BI", 0, len(item)) + item
    fields += struct.pack(">H", len(symbols))
    for name in symbols:
        fields += struct.pack(">I", len(name)) + name
    return struct.pack(">I", len(fields) + 4) + bytes(fields)


def file_of(records, version=b"0002"):
    irep = b"0300" + b"".join(records)
    sections = b"IREP" + struct.pack(">I", len(irep) + 8) + irep + b"END\0" + struct.pack(">I", 8)
    return b"RITE0300" + struct.pack(">I", len(sections) + 20) + b"RBWN" + version + sections


def many_bodies(size):
    """A file of about so many bytes: a main program that makes a lambda of each of its children."""
    straight = b"".join(
        [bytes([0x03, 1, k % 256]) + bytes([0x03, 2, k // 2 % 256]) + bytes([0x27, 1]) for k in range(40)]
    )
    body = bytes([0x22, 0, 0, 0]) + straight + bytes([0x36, 1, 0]) + bytes([0x24, 1])
    child = record(2, 5, 0, body, pool=[b"text of a constant", 1 << 40], symbols=[b"puts", b"name"])
    count = max(1, min(65535, size // (len(child) + 6)))
    code = b"".join([bytes([0x49, 0x3A]) + struct.pack(">HH", 1, k) for k in range(count)]) + bytes([0x48])
    return file_of([record(1, 2, count, code)] + [child] * count)


def like_symbols(size):
    """A file of about so many bytes: one body with 65,535 symbols that differ in their last bytes alone."""
    front = b"x" * (size // 65535 - 8)
    return file_of([record(1, 1, 0, b"\x48", symbols=[front + struct.pack(">I", k) for k in range(65535)])])


def like_constants(size):
    """The same of the pool: integers, and texts that differ in their last bytes alone."""
    front = b"x" * (size // 32768 - 17)
    pool = [k for k in range(32767)] + [front + struct.pack(">I", k) for k in range(32768)]
    return file_of([record(1, 1, 0, b"\x48", pool=pool)])


def deep_scopes(bodies):
    """A chain of lambdas, each in the one before; each reads a variable of the main program."""
    records = [record(2, 3, 1, bytes([0x3A, 2, 0, 0x48]))]
    for level in range(1, bodies):
        read = bytes([0x49, 0x13]) + struct.pack(">HHH", 2, 1, level - 1)
        last = level == bodies - 1
        make = b"" if last else bytes([0x3A, 2, 0])
        records.append(record(2, 3, 0 if last else 1, bytes([0x22, 0, 0, 0]) + read + make + bytes([0x24, 2])))
    return file_of(records)


def spent_by_calls():
    """The processor's time of all calls so far."""
    used = resource.getrusage(resource.RUSAGE_CHILDREN)
    return used.ru_utime + used.ru_stime


def timed(words, limit=600):
    """How long a call takes, and its status."""
    before = spent_by_calls()
    status = subprocess.run(words, stdout=subprocess.DEVNULL, stderr=subprocess.DEVNULL, timeout=limit).returncode
    spent = spent_by_calls() - before
    if status not in ANSWERS:
        sys.exit(f"{' '.join(words)} ended with {status}")
    return spent, status


def commands(rite, names):
    """The calls of a file, by their names; the file's path is to come behind."""
    run = [rite, "run", "--steps", "0"]
    calls = {name: [rite, name] for name in names}
    knows_run = subprocess.run(run + ["none.mrb"], capture_output=True).returncode != USAGE
    return calls | ({"run": run} if knows_run else {})


def best(words):
    return min(timed(words)[0] for _ in range(3))


def report(calls, path, size):
    for name, words in calls.items():
        spent = best(words + [path])
        print(f"  {name}: {size / spent / 1e6:.1f} MB/s ({spent:.3f} s for {size} bytes)")


def over(data, calls):
    """Reports the calls of a file with these bytes."""
    with tempfile.TemporaryDirectory() as folder:
        path = os.path.join(folder, "given.mrb")
        with open(path, "wb") as handle:
            handle.write(data)
        report(calls, path, len(data))


def speed(rite, mebibytes):
    print("many bodies")
    over(many_bodies(mebibytes << 20), commands(rite, ["info", "list"]))


def hostile(rite):
    files = {
        "symbols that look alike": like_symbols(16 << 20),
        "constants that look alike": like_constants(16 << 20),
        "a chain of 65,536 scopes": deep_scopes(65536),
    }
    for name, data in files.items():
        print(name)
        over(data, commands(rite, ["list"]))


def mutated(data):
    """The bytes with one to four changed."""
    data = bytearray(data)
    for _ in range(random.randint(1, 4)):
        data[random.randrange(len(data))] = random.randrange(256)
    return bytes(data)


def broken(rite, files):
    random.seed(1)
    whole = [many_bodies(2000), many_bodies(200), deep_scopes(20), file_of([record(1, 1, 0, b"\x48")], b"0001")]
    calls = commands(rite, ["list", "info"])
    counts, slowest = {}, 0
    with tempfile.TemporaryDirectory() as folder:
        path = os.path.join(folder, "broken.mrb")
        for _ in range(files):
            with open(path, "wb") as handle:
                handle.write(mutated(random.choice(whole)))
            for name, words in calls.items():
                spent, status = timed(words + [path])
                slowest = max(slowest, spent)
                counts[name, status] = counts.get((name, status), 0) + 1
    for (name, status), count in sorted(counts.items()):
        print(f"{name}: {count} ended with {status}")
    print(f"slowest: {slowest:.3f} s")
    if slowest > SLOWEST:
        sys.exit(f"a call took more than {SLOWEST} s")


def main(words):
    if len(words) < 2 or words[0] not in ("speed", "hostile", "broken"):
        sys.exit(__doc__)
    kind, rite = words[0], words[1]
    number = int(words[2]) if len(words) > 2 else None
    if kind == "speed":
        speed(rite, number or 4)
    elif kind == "hostile":
        hostile(rite)
    else:
        broken(rite, number or 20000)


if __name__ == "__main__":
    main(sys.argv[1:])
