"""What every look uses: the remarks found so far, texts, files, and the crates with those that each stands on."""

import os
import re

# the crates that are made of tests
OF_TESTS = {"journal_cases", "tending_cases", "board_cases", "query_cases", "near_cases", "bucket_cases", "index_cases", "search_cases", "gph_cases", "desk_cases", "trace_cases", "world_cases", "serving_cases"}
PROGRAM = "gph_server"

found = {}


def say(kind, place, text=""):
    """Notes one remark, of a kind, at a place."""
    found.setdefault(kind, []).append(f"{place}{': ' if text else ''}{text[:150]}")


def text_of(path):
    if not os.path.isfile(path):
        return ""
    with open(path, encoding="utf-8", errors="replace") as it:
        return it.read()


def files(top, *ends):
    """The files below a folder whose names end so, without those that rt and git keep."""
    for at, folders, names in os.walk(top):
        folders[:] = sorted(it for it in folders if it not in (".git", "__pycache__") and not re.search(r"(crates/[^/]*|bench|examples)/out$", f"{at}/{it}"))
        for name in sorted(names):
            if name.endswith(ends):
                yield os.path.join(at, name)


def sections(text):
    """The layers of crates.txt: each heading with the crates below it, each with the names that stand after its colon."""
    layers = [("", [])]
    for line in text.splitlines():
        head, _, names = line.partition(":")
        if line.startswith("# "):
            layers.append((line[2:].strip(), []))
        elif head.split() and not head.startswith("#"):
            layers[-1][1].append((head.split()[0], names.partition("#")[0].split()))
    return [layer for layer in layers if layer[1]]


LAYERS = sections(text_of("crates.txt"))
CRATES = [name for _, crates in LAYERS for name, _ in crates]
NAMES = {name: [it for it in names if it in CRATES] for _, crates in LAYERS for name, names in crates}


def all_below(name):
    """A crate and all that it stands on."""
    seen, left = set(), [name]
    while left:
        it = left.pop()
        if it not in seen:
            seen.add(it)
            left += NAMES.get(it, [])
    return seen
