"""Tables that scripts make, and the pages of docs/ that they stand in."""
import os
import sys

from crates import TOP


def lines_of(path):
    """How many lines a file has."""
    with open(path, encoding="utf-8") as file:
        return sum(1 for _ in file)


def table(head, rows):
    """The lines of a table with these columns."""
    first, *others = ("| " + " | ".join(str(cell) for cell in line) + " |\n" for line in [head, *rows])
    return "".join([first, "|" + "---|" * len(head) + "\n", *others])


def put(page, name, text):
    """Writes the text into the page, between its lines `<!-- NAME -->` and `<!-- /NAME -->`."""
    path = os.path.join(TOP, "docs", page)
    with open(path, encoding="utf-8") as file:
        whole = file.read()
    begin, end = f"<!-- {name} -->\n", f"<!-- /{name} -->\n"
    if whole.count(begin) != 1 or whole.count(end) != 1:
        sys.exit(f"docs/{page} needs one line {begin.strip()} and one {end.strip()}")
    front, _, rest = whole.partition(begin)
    with open(path, "w", encoding="utf-8") as file:
        file.write(f"{front}{begin}\n{text}\n{end}{rest.partition(end)[2]}")


def show(page, name, text, words):
    """Prints the text, or writes it into its page where the one word is --write."""
    if words == ["--write"]:
        put(page, name, text)
    elif not words:
        print(text, end="")
    else:
        sys.exit(f"usage: {os.path.relpath(sys.argv[0])} [--write]")
