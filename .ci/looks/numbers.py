"""Numbers that stand twice: a constant beside its literal, in src/ and specs/ of the crate that has it and of those above."""

import re

from looks.common import OF_TESTS, all_below, files, say, text_of

DECLARED = re.compile(r"^\s*(pub(?:\(crate\))? )?(?:ghost )?const (\w+): \w+ = ([0-9][0-9_]*);")
# a number that is neither part of a name nor an exponent or its base
LITERAL = re.compile(r"(?<![\w.^])(?<!\^ )([0-9][0-9_]*)(?![\w.])(?! ?\^)")
BOUND = re.compile(r"(?:≤|<=|>) ?([0-9]+)(?![\w.^])(?! [*^])|(?<![\w.^*])(?<![*^] )([0-9]+) <(?!=)")
# as a size or an equation, where the constant stands in the same file
SAME = r"(?:[;≡≤<]|<=) {0}(?![\w.])(?! [*^])"
LIMITS = "crates/hamming_model/src/limits.rt"
# what a limit of one or two digits is told from other numbers by: the word that it bounds
BOUNDED = {
    "WORDS_MOST": r"\bW ≤|\bwords ≤",
    "PARTS_MOST": r"parts|picks|\bcount\b|layout|thresholds",
    "PART_WIDTH_MOST": r"",
    "SHARDS_MOST": r"shards",
}


class Constant:
    def __init__(self, crate, path, found):
        self.crate, self.path, self.name = crate, path, found.group(2)
        self.value, self.is_public = int(found.group(3)), (found.group(1) or "").strip() == "pub"


def sources(crate):
    """The lines of code of a crate's src/ and specs/, without comments."""
    for folder, mark in (("src", "//"), ("specs", "--")):
        for path in files(f"crates/{crate}/{folder}", ".rt", ".antt"):
            for number, line in enumerate(text_of(path).splitlines(), 1):
                yield path, number, line.split(mark)[0]


def look_at_numbers(crates):
    crates = [it for it in crates if it not in OF_TESTS]
    constants = []
    for crate in crates:
        for path, _, line in sources(crate):
            found = DECLARED.match(line)
            if found:
                constants.append(Constant(crate, path, found))
    for crate in crates:
        below = all_below(crate)
        in_reach = [it for it in constants if it.crate == crate or it.is_public and it.crate in below]
        seen = {}
        for path, number, line in sources(crate):
            for name in names_of(path, line, crate, in_reach):
                seen.setdefault((path, name), []).append(number)
        for (path, name), lines in seen.items():
            say("constants beside their literals", f"{path}:{lines[0]}", f"{name}{f', {len(lines)} times' if len(lines) > 1 else ''}")


def names_of(path, line, crate, in_reach):
    """The constants whose literals stand in a line."""
    literals = [int(it.replace("_", "")) for it in LITERAL.findall(line)]
    bounds = [int(one or other) for one, other in BOUND.findall(line)]
    declares = DECLARED.match(line)
    for value in sorted(set(literals)):
        named = [it for it in in_reach if it.value == value]
        if declares:
            # another constant of the same value may well mean something else, as a chunk or a table of 256 does,
            # but for the greatest limits of the whole program
            named = [it for it in named if it.path == LIMITS and path != LIMITS and value >= 1000]
        elif value < 100:
            of_file = [it for it in named if it.path == path and value >= 10 and re.search(SAME.format(value), line)]
            named = of_file or [it for it in named if value in bounds and is_bounded(it, path, line, crate)]
        if named:
            yield " or ".join(sorted({it.name for it in named}))


def is_bounded(constant, path, line, crate):
    if constant.path == LIMITS:
        return constant.name in BOUNDED and bool(re.search(BOUNDED[constant.name], line))
    return constant.crate == crate and constant.value >= 10 and "/specs/" in path
