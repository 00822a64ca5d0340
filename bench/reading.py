#!/usr/bin/env python3
"""Says where RITE and Ruby don't read the same texts. Not part of the tests: it needs Ruby.

    bench/reading.py RITE [--folder DIR] [--count N] [--seed S] [--examples N]

RITE is the built program (build/rite). The texts are mutants of the programs of examples/programs and
of every program under DIR: one token is dropped, doubled, swapped with the next one or replaced by another token of the
program. There are at most N of them (4,000 without a number), the same ones for the same seed. Ruby compiles each
without running it; RITE reads it where `build` builds it or refuses it for another cause than `Syntax` (`Outside`,
`TooLarge`). Texts that are too deep, or for which there is no memory, are counted apart.

Differences are grouped: what RITE refuses by the token at the place of the refusal and the one before it, what Ruby
refuses by its message. Each group has some examples, with a mark below the place. The status is 0.
"""
import argparse
import collections
import glob
import json
import os
import random
import re
import subprocess
import tempfile

FOLDER = os.path.dirname(os.path.abspath(__file__))
PROGRAMS = os.path.join(FOLDER, "..", "examples", "programs")
ASK = ["ruby", os.path.join(FOLDER, "reading.rb")]
BLANK = {"sp", "ignored_nl", "comment", "embdoc_beg", "embdoc", "embdoc_end", "__end__"}
FIXED = BLANK | {"tstring_content", "heredoc_end"}
WAYS = ["drop", "double", "swap", "replace"]
NAMED = {"ident": "name", "const": "constant", "int": "integer", "ivar": "@name", "gvar": "$name", "label": "label:",
         "nl": "newline", "tstring_content": "text", "CHAR": "?c", "heredoc_beg": "<<ID", "heredoc_end": "ID",
         "float": "float"}
LINE = 100


def programs(folders):
    """The tokens of each program that Ruby reads, as pairs of kind and text."""
    found = [glob.glob(os.path.join(folder, "**", "*.rb"), recursive=True) for folder in folders]
    paths = [path for group in found for path in sorted(group)]
    lines = subprocess.run([*ASK, "tokens", *paths], check=True, capture_output=True, text=True).stdout.splitlines()
    texts = [tokens for tokens in map(json.loads, lines) if tokens]
    errors = errors_of(["".join(text for _, text in tokens) for tokens in texts])
    return [tokens for tokens, error in zip(texts, errors) if error is None]


def errors_of(texts):
    """What Ruby says against each text, None where it reads it. A text that ends Ruby itself is left out as unknown."""
    answers = []
    while len(answers) < len(texts):
        asked = json.dumps(texts[len(answers):])
        run = subprocess.run([*ASK, "errors"], input=asked, capture_output=True, text=True)
        answers += [json.loads(line) for line in run.stdout.splitlines()]
        if len(answers) < len(texts):
            answers.append("Ruby ended")
    return answers


def mutant(tokens, chance):
    """The tokens with one of them dropped, doubled, swapped with the next or replaced by another."""
    places = [at for at, (kind, _) in enumerate(tokens) if kind not in FIXED]
    index = chance.randrange(len(places))
    at, way, changed = places[index], chance.choice(WAYS), list(tokens)
    if way == "drop":
        del changed[at]
    elif way == "double":
        changed[at:at + 1] = [tokens[at], ("sp", " "), tokens[at]]
    elif way == "swap":
        other = places[(index + 1) % len(places)]
        changed[at], changed[other] = tokens[other], tokens[at]
    else:
        changed[at] = tokens[chance.choice(places)]
    return changed


def mutants(sources, count, seed):
    """Different mutants, by their texts. Fewer than so many where the programs don't have them."""
    chance, made = random.Random(seed), {}
    known = {"".join(text for _, text in tokens) for tokens in sources}
    for _ in range(count * 4):
        if len(made) == count:
            break
        changed = mutant(chance.choice(sources), chance)
        text = "".join(part for _, part in changed)
        if text not in known:
            made.setdefault(text, changed)
    return made


def answer(rite, text, folder):
    """What RITE says of a text: nothing where it builds it."""
    path, target = os.path.join(folder, "mutant.rb"), os.path.join(folder, "mutant.mrb")
    with open(path, "w", encoding="utf-8", newline="") as file:
        file.write(text)
    run = subprocess.run([rite, "build", path, target], stdin=subprocess.DEVNULL, capture_output=True, timeout=60)
    said = run.stderr.decode(errors="replace").strip()
    if run.returncode not in (0, 121) and not said:
        return f"status {run.returncode}"
    return said


def place_of(said):
    """The place where RITE refuses a text as Syntax, or none."""
    found = re.fullmatch(r"refused: Syntax at (\d+)", said)
    return int(found[1]) if found else None


def is_read(said):
    return said == "" or re.match(r"refused: (Outside|TooLarge) ", said) is not None


def word(kind, text):
    """A token as groups name it: its class where it is a name or a number, else itself."""
    return NAMED.get(kind) or text.strip().split("\n")[0] or "newline"


def cause(tokens, place):
    """The token at a place, and the one before it."""
    before, at = "the start", 0
    for kind, text in tokens:
        size = len(text.encode())
        if at + size > place and kind not in BLANK:
            return f"{word(kind, text)}   after   {before}"
        if kind not in BLANK:
            before = word(kind, text)
        at += size
    return f"the end   after   {before}"


def message(error):
    """The cause that Ruby gives, without what it expected instead."""
    return re.sub(r",? expecting .*", "", error)


def shown(text, place):
    """The line of a place, its number, and a mark below the place."""
    data = text.encode()
    start = data.rfind(b"\n", 0, place) + 1
    line = data[start:].split(b"\n")[0]
    lead = data[start:place].decode(errors="replace")
    number = data.count(b"\n", 0, start) + 1
    cut = max(0, len(lead) - LINE // 2)
    head = f"      {number}: "
    return f"{head}{line.decode(errors='replace')[cut:cut + LINE]}\n{' ' * (len(head) + len(lead) - cut)}^"


def change_place(text, sources):
    """Where a mutant begins to differ from the program that it is most like."""
    return max(len(os.path.commonprefix([text, source]).encode()) for source in sources)


def groups(title, found, examples):
    """Prints the groups of differences, the largest first."""
    if not found:
        return
    print(f"\n{title}")
    for name, ones in sorted(found.items(), key=lambda item: (-len(item[1]), item[0])):
        print(f"\n  {len(ones):5}  {name}")
        for said, where in ones[:examples]:
            print(where + (f"   {said}" if said else ""))


def compare(rite, made, sources):
    """How many texts there are of each outcome, and the two lists of groups."""
    whole = ["".join(text for _, text in tokens) for tokens in sources]
    counts, ours, theirs = collections.Counter(), collections.defaultdict(list), collections.defaultdict(list)
    with tempfile.TemporaryDirectory() as folder:
        for (text, tokens), error in zip(made.items(), errors_of(list(made))):
            said = answer(rite, text, folder)
            place = place_of(said)
            if error == "Ruby ended" or place is None and not is_read(said):
                counts["undecided"] += 1
            elif place is not None and error is None:
                counts["ours"] += 1
                ours[cause(tokens, place)].append(("", shown(text, place)))
            elif place is None and error is not None:
                counts["theirs"] += 1
                theirs[message(error)].append((said or "built", shown(text, change_place(text, whole))))
            else:
                counts["both read" if error is None else "both refuse"] += 1
    return counts, ours, theirs


def main():
    words = argparse.ArgumentParser(description=__doc__, formatter_class=argparse.RawDescriptionHelpFormatter)
    words.add_argument("rite")
    words.add_argument("--folder", action="append", default=[])
    words.add_argument("--count", type=int, default=4_000)
    words.add_argument("--seed", type=int, default=1)
    words.add_argument("--examples", type=int, default=2)
    asked = words.parse_args()
    sources = programs([PROGRAMS, *asked.folder])
    made = mutants(sources, asked.count, asked.seed)
    counts, ours, theirs = compare(asked.rite, made, sources)
    print(f"{len(made)} mutants of {len(sources)} programs, seed {asked.seed}")
    for name, key in [("read by both", "both read"), ("refused by both", "both refuse"),
                      ("Syntax here, read by Ruby", "ours"), ("read here, refused by Ruby", "theirs"),
                      ("undecided", "undecided")]:
        print(f"  {name:28} {counts[key]:6} {100 * counts[key] / max(1, len(made)):6.2f} %")
    groups("Syntax here, read by Ruby: the token at the refusal and the one before it", ours, asked.examples)
    groups("Read here, refused by Ruby: its message, and what RITE says", theirs, asked.examples)


if __name__ == "__main__":
    main()
