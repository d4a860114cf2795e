#!/usr/bin/env python3
"""Lists the lines of src/ at which a point of docs/DESIGN-PASS.md may apply, by a pattern for each.

    python3 tools/count_places.py [-v] [FOLDER]

A line that a pattern meets is a candidate: the page says which of them are places.
"""
import collections
import glob
import os
import re
import sys

# point, what is looked for, the pattern that a line of code has to meet
PATTERNS = [
    ("1a", "own enums", r"^\s*(pub(\(\w+\))? )?enum \w"),
    ("1b", "flags in a struct", r"^\s*(pub(\(\w+\))? )?\w+: bool,$"),
    ("1c", "numbers for kinds, causes and refusals", r"\bcause: u?\w*\d|\bcause: \d"),
    ("1d", "refusals in an Option", r"Option<\w*Refusal>"),
    ("1e", "functions that answer 0 and no more", r"\bfn \w+_(opens|back|exact)\b.*-> u8"),
    ("1f", "a match that only maps the inside of an Option", r"^\s*None => None,$"),
    ("3a", "loops over a range of numbers", r"^\s*for .* in [^\"]*\.\..*\{$"),
    ("3b", "loops with a test", r"^\s*(while|loop)\b.*\{$"),
    ("3c", "loops with a flag, a count or an early end", r"^\s*for [^.]*\{$"),
    ("4a", "numbers of enums, by a method or function", r"\bfn (number|cause|number_of|kind_of|refusal_in)\b"),
    ("4b", "equality, by a method or function", r"\bfn same\b.*\{?$"),
    ("4c", "printing, by a method or function", r"\bfn show\w*\b"),
    ("6a", "arrays with a place for the most that may be", r"\[[\w:<>]+; (32|LONGEST|MOST_STATIONS)\]"),
    ("7a", "enums of calls and what is made of them", r"\bmatch (event|call)\b"),
]


def sources(folder):
    return sorted(glob.glob(os.path.join(folder, "crates", "*", "src", "*.rt")))


def lines_of(path):
    with open(path, encoding="utf-8") as file:
        return [(number, line.rstrip("\n")) for number, line in enumerate(file, 1)]


def matches(folder, pattern):
    found = []
    for path in sources(folder):
        for number, line in lines_of(path):
            if not line.lstrip().startswith("//") and re.search(pattern, line):
                found.append((os.path.relpath(path, folder), number, line.strip()))
    return found


def repeated_facts(folder):
    """Facts that stand in the clauses of three or more functions (5a)."""
    places = collections.defaultdict(list)
    for path in sources(folder):
        for number, line in lines_of(path):
            clause = re.match(r"\s*(requires|ensures)\s*(\w+\s*)?\{ (.*) \};?$", line)
            if clause and clause.group(1) == "requires":
                for part in clause.group(3).split(" × "):
                    places[part.strip("() ")].append((os.path.relpath(path, folder), number, line.strip()))
    return [place for fact in places.values() if len(fact) > 2 for place in fact]


def repeated_terms(folder):
    """The fields of one value, written out one after the other in a clause or ghost member (5b)."""
    return matches(folder, r"\((patient|exact) (\w+(\.\w+)?\.stations) ")


def travelling(folder):
    """Functions that take both tables of a run (5c)."""
    found = []
    for path in sources(folder):
        text = "".join(line + "\n" for _, line in lines_of(path))
        for item in re.finditer(r"\bfn (\w+)[^{;]*?stations: &[^{;]*?bytes: &", text):
            number = text.count("\n", 0, item.start()) + 1
            found.append((os.path.relpath(path, folder), number, item.group(1)))
    return found


def main():
    words = [word for word in sys.argv[1:] if word != "-v"]
    folder = words[0] if words else "."
    rows = [(name, what, matches(folder, pattern)) for name, what, pattern in PATTERNS]
    rows.append(("5a", "facts that three or more functions require", repeated_facts(folder)))
    rows.append(("5b", "fields of one value, written out in a clause", repeated_terms(folder)))
    rows.append(("5c", "functions that take both tables of a run", travelling(folder)))
    for name, what, found in sorted(rows, key=lambda row: row[0]):
        print(f"{name}  {len(found):3}  {what}")
        if "-v" in sys.argv:
            for path, number, line in found:
                print(f"        {path}:{number}: {line}")


if __name__ == "__main__":
    main()
