"""A program of its own over some of the crates, built in a folder; the processor time and the memory of runs."""
import os
import resource
import shutil
import subprocess
import tempfile

TOP = os.path.join(os.path.dirname(os.path.abspath(__file__)), "..")


def write(path, text):
    os.makedirs(os.path.dirname(path), exist_ok=True)
    with open(path, "w") as file:
        file.write(text)


def built(folder, name, below, files):
    """The program of that name over these crates, the lowest first. `files` has its files by their paths in its crate."""
    for crate in below:
        target = os.path.join(folder, "crates", crate)
        top = os.path.join(TOP, "crates", crate)
        # (a proof may have a folder named `out`, after its function)
        shutil.copytree(top, target, ignore=lambda at, names: {"out"} & set(names) if at == top else set())
    with open(os.path.join(TOP, "crates.txt")) as file:
        lines = {line.split(":")[0]: line.split(":")[1].split() for line in file if ":" in line}
    others = {crate for one in below for crate in lines[one]} - set(below)
    own = name + ": " + " ".join([*reversed(below), *sorted(others)])
    listed = [one + ": " + " ".join(lines[one]) for one in below]
    write(os.path.join(folder, "crates.txt"), "\n".join([*listed, own]) + "\n")
    write(os.path.join(folder, "HANDLES"), "Handles allowed: none.\n")
    crate = os.path.join(folder, "crates", name)
    for path, text in files.items():
        write(os.path.join(crate, path), text)
    subprocess.run(["rt", "run"], cwd=crate, check=True, stdout=subprocess.DEVNULL)
    return os.path.join(crate, "out", name)


def seconds(command):
    """The processor time of a run."""
    before = resource.getrusage(resource.RUSAGE_CHILDREN).ru_utime
    subprocess.run(command, check=True)
    return resource.getrusage(resource.RUSAGE_CHILDREN).ru_utime - before


def measured(command, times):
    """The least processor time of some runs in seconds, the greatest memory in bytes, the status, and what was said.

    A child of this script begins with its memory, one of `time` doesn't: so `time` is asked for the memory.
    """
    seconds, peak = [], 0
    for _ in range(times):
        with tempfile.NamedTemporaryFile() as told:
            before = resource.getrusage(resource.RUSAGE_CHILDREN)
            run = subprocess.run(["time", "-q", "-f", "%M", "-o", told.name, *command], stdin=subprocess.DEVNULL,
                                 capture_output=True)
            after = resource.getrusage(resource.RUSAGE_CHILDREN)
            peak = max(peak, int(told.read()) * 1024)
        seconds.append(after.ru_utime + after.ru_stime - before.ru_utime - before.ru_stime)
    said = (run.stdout + run.stderr).decode(errors="replace").strip().split("\n")[0]
    return min(seconds), peak, run.returncode, said
