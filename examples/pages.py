#!/usr/bin/env python3
"""Near-duplicate paragraphs of this repository's own pages, by SimHash (Charikar, STOC 2002), with the standard library and the
client alone.

usage: python3 examples/pages.py [COMMIT]      the pages as they stand, or as they stood at a commit

1. takes all paragraphs of at least twenty-five words of all pages
2. prints those that are near each other already
3. drops one word in twenty from a copy of each, and says how many copies are found at each radius, and how much else is
"""

from __future__ import annotations

import os
import random
import re
import subprocess
import sys
from hashlib import blake2b
from typing import Dict, List, NamedTuple

TOP = os.path.dirname(os.path.dirname(os.path.realpath(__file__)))
sys.path.insert(0, os.path.join(TOP, "clients", "python"))

from gph import Index

LEAST_WORDS, DROPPED, SHOWN = 25, 20, 5


class Paragraph(NamedTuple):
    page: str
    words: List[str]


def git(*words: str) -> str:
    return subprocess.run(["git", "-C", TOP, *words], check=True, stdout=subprocess.PIPE).stdout.decode("utf-8")


def pages(commit: str) -> Dict[str, str]:
    """The text of each page, by its path."""
    if commit:
        names = [name for name in git("ls-tree", "-r", "--name-only", commit).splitlines() if name.endswith(".md")]
        return {name: git("show", f"{commit}:{name}") for name in names}
    texts = {}
    for name in git("ls-files", "*.md").splitlines():
        with open(os.path.join(TOP, name), encoding="utf-8") as it:
            texts[name] = it.read()
    return texts


def paragraphs(texts: Dict[str, str]) -> List[Paragraph]:
    """What stands between empty lines, as lower-case words."""
    split = [Paragraph(page, re.findall("[a-z0-9]+", part.lower())) for page, text in texts.items() for part in text.split("\n\n")]
    return [it for it in split if len(it.words) >= LEAST_WORDS]


def simhash(words: List[str], bits: int) -> int:
    """Of each pair of neighbouring words a hash is made. A bit is 1 where more than half of the hashes have it."""
    pairs = {" ".join(pair) for pair in zip(words, words[1:])}
    hashes = [int.from_bytes(blake2b(pair.encode(), digest_size=bits // 8).digest(), "big") for pair in pairs]
    return sum((2 * sum(one >> place & 1 for one in hashes) > len(hashes)) << place for place in range(bits))


def edited(words: List[str], chance: random.Random) -> List[str]:
    """The words without one in twenty."""
    return [word for word in words if chance.randrange(DROPPED)]


def report_pairs(index: Index, all_of_them: List[Paragraph], codes: List[int], radius: int) -> None:
    """Prints the paragraphs that lie within the radius of each other, the first ones in full."""
    pairs = [
        (distance, place, key)
        for place, answer in enumerate(index.range_many(codes, radius))
        for distance, key in answer.hits
        if key > place
    ]
    print(f"pairs within {radius} bits: {len(pairs)}")
    for distance, *places in sorted(pairs)[:SHOWN]:
        print(f"  {distance} bits: {' and '.join(all_of_them[place].page for place in places)}")


def report_copies(index: Index, copies: List[int], radius: int) -> None:
    """Prints of how many copies the paragraph was found, and how many other paragraphs were."""
    found = others = reads = 0
    for place, answer in enumerate(index.range_many(copies, radius)):
        keys = {hit.key for hit in answer.hits}
        found += place in keys
        others += len(keys - {place})
        reads += answer.cost.reads
    share = reads / len(copies) ** 2
    print(f"{index.bits:5} {radius:7} {found / len(copies):14.3f} {others / len(copies):17.2f} {share:11.1%}")


def main(words: List[str]) -> None:
    all_of_them = paragraphs(pages(words[0] if words else ""))
    chance = random.Random(7)
    copies = [edited(it.words, chance) for it in all_of_them]
    print(f"{len(all_of_them)} paragraphs on {len({it.page for it in all_of_them})} pages")
    for bits in (64, 256):
        codes = [simhash(it.words, bits) for it in all_of_them]
        with Index(bits) as index:
            index.add_many(enumerate(codes))
            if bits == 64:
                report_pairs(index, all_of_them, codes, 8)
                print(" bits  radius   copies found   others for each   of a scan")
            for part in (16, 8, 6, 4):
                report_copies(index, [simhash(copy, bits) for copy in copies], bits // part)


if __name__ == "__main__":
    main(sys.argv[1:])
