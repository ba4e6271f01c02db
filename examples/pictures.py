#!/usr/bin/env python3
"""Near-duplicate pictures, from the drawing to the figures, with the standard library and the client alone.

usage: python3 examples/pictures.py [FOLDER]      by default examples/out

1. draws pictures of shapes, gradients and noise, and five variants of each, as FOLDER/pictures/*.pgm
2. hashes each picture file in two ways, as FOLDER/difference.txt and FOLDER/average.txt, lines NAME HEX
3. finds all pairs within each radius, and says how many are variants of one picture (precision) and how many such pairs were found
   (recall); then the groups that the pairs make
4. draws the postings read against the radius, beside those of a scan, as FOLDER/postings.svg

The pictures are the same at each run. docs/GUIDE.md goes through it.
"""

from __future__ import annotations

import os
import random
import sys
from typing import Callable, Dict, List, NamedTuple, Set, Tuple

HERE = os.path.dirname(os.path.realpath(__file__))
sys.path.insert(0, os.path.join(os.path.dirname(HERE), "clients", "python"))

from chart import line_chart
from gph import Index

# brightness from 0 to 255, row by row
Picture = List[List[int]]

PICTURES, WIDTH, HEIGHT = 200, 96, 72
RADII = (0, 2, 4, 6, 8, 10, 12, 14, 16)


def bright(value: float) -> int:
    return max(0, min(255, int(value)))


def draw(chance: random.Random) -> Picture:
    """A gradient, three to eight boxes and discs on it, and a little noise."""
    base, right, down = 40 + chance.randrange(140), chance.randrange(-90, 90), chance.randrange(-90, 90)
    picture = [[base + right * x // WIDTH + down * y // HEIGHT for x in range(WIDTH)] for y in range(HEIGHT)]
    for _ in range(3 + chance.randrange(6)):
        left, top, half, shade = chance.randrange(WIDTH), chance.randrange(HEIGHT), 5 + chance.randrange(20), chance.randrange(256)
        is_disc = chance.randrange(2) == 0
        for y in range(max(0, top - half), min(HEIGHT, top + half)):
            for x in range(max(0, left - half), min(WIDTH, left + half)):
                if not is_disc or (x - left) ** 2 + (y - top) ** 2 < half * half:
                    picture[y][x] = shade
    return noisy(picture, chance, 6)


def noisy(picture: Picture, chance: random.Random, most: int) -> Picture:
    return [[bright(value + chance.randrange(-most, most + 1)) for value in row] for row in picture]


def cropped(picture: Picture) -> Picture:
    """Without two columns at the left, one at the right, and a row at the top and bottom."""
    return [row[2:-1] for row in picture[1:-1]]


def blurred(picture: Picture) -> Picture:
    """Each value is the mean of the nine around it."""
    rows = [picture[0], *picture, picture[-1]]
    tall = [[a + b + c for a, b, c in zip(*rows[at : at + 3])] for at in range(len(picture))]
    wide = [[row[0], *row, row[-1]] for row in tall]
    return [[(a + b + c) // 9 for a, b, c in zip(row, row[1:], row[2:])] for row in wide]


def brighter(picture: Picture) -> Picture:
    return [[bright(value * 1.2 + 10) for value in row] for row in picture]


def variants(picture: Picture, chance: random.Random) -> Dict[str, Picture]:
    return {
        "original": picture,
        "cropped": cropped(picture),
        "blurred": blurred(picture),
        "brighter": brighter(picture),
        "smaller": shrunk(picture, WIDTH // 2, HEIGHT // 2),
        "noisy": noisy(picture, chance, 30),
    }


def write_picture(path: str, picture: Picture) -> None:
    """Writes a portable graymap, which most viewers show."""
    with open(path, "wb") as it:
        it.write(b"P5 %d %d 255\n" % (len(picture[0]), len(picture)) + b"".join(map(bytes, picture)))


def read_picture(path: str) -> Picture:
    with open(path, "rb") as it:
        _, width, height, _ = it.readline().split()
        return [list(it.read(int(width))) for _ in range(int(height))]


def shrunk(picture: Picture, width: int, height: int) -> Picture:
    """The picture in so many columns and rows, each value the mean of the box that it stands for."""
    tall, wide = len(picture), len(picture[0])
    small = []
    for y in range(height):
        box = picture[y * tall // height : (y + 1) * tall // height]
        columns = [sum(column) for column in zip(*box)]
        edges = [x * wide // width for x in range(width + 1)]
        small.append([sum(columns[a:b]) // ((b - a) * len(box)) for a, b in zip(edges, edges[1:])])
    return small


def hexadecimal(bits: List[bool]) -> str:
    """64 bits, the first one at the top."""
    return "%016x" % sum(bit << place for bit, place in zip(bits, range(63, -1, -1)))


def difference_hash(picture: Picture) -> str:
    """For each of 8 by 8 places whether it is brighter than the one to its left."""
    return hexadecimal([b > a for row in shrunk(picture, 9, 8) for a, b in zip(row, row[1:])])


def average_hash(picture: Picture) -> str:
    """For each of 8 by 8 places whether it is brighter than the mean of all."""
    values = [value for row in shrunk(picture, 8, 8) for value in row]
    return hexadecimal([64 * value > sum(values) for value in values])


def draw_all(folder: str) -> None:
    chance = random.Random(7)
    os.makedirs(folder, exist_ok=True)
    for number in range(PICTURES):
        for kind, picture in variants(draw(chance), chance).items():
            write_picture(os.path.join(folder, f"{number:03}-{kind}.pgm"), picture)


def hash_all(folder: str, hashed: Callable[[Picture], str], path: str) -> List[Tuple[str, str]]:
    """The names of all pictures with their hashes, in order; they are written too, a line each."""
    names = sorted(name for name in os.listdir(folder) if name.endswith(".pgm"))
    rows = [(name, hashed(read_picture(os.path.join(folder, name)))) for name in names]
    with open(path, "w", encoding="utf-8") as it:
        it.writelines(f"{name} {code}\n" for name, code in rows)
    return rows


class Found(NamedTuple):
    """All pairs of rows within a radius, by their places, and the postings that were read for them."""

    pairs: Set[Tuple[int, int]]
    reads: int


def all_pairs(index: Index, codes: List[str], radius: int) -> Found:
    pairs: Set[Tuple[int, int]] = set()
    reads = 0
    for place, answer in enumerate(index.range_many(codes, radius)):
        pairs |= {(place, hit.key) for hit in answer.hits if hit.key > place}
        reads += answer.cost.reads
    return Found(pairs, reads)


def groups(number: int, pairs: Set[Tuple[int, int]]) -> List[List[int]]:
    """The places from 0 in groups, so that those of each pair stand in one."""
    group_of = {place: [place] for place in range(number)}
    for one, other in pairs:
        a, b = group_of[one], group_of[other]
        if a is not b:
            a += b
            group_of.update((place, a) for place in b)
    return sorted({id(group): sorted(group) for group in group_of.values()}.values())


def report(kind: str, rows: List[Tuple[str, str]]) -> Dict[int, Found]:
    """Prints precision and recall at each radius; what was found at each."""
    names, codes = [name for name, _ in rows], [code for _, code in rows]
    original = [name.split("-")[0] for name in names]
    known = {(a, b) for b in range(len(rows)) for a in range(b) if original[a] == original[b]}
    print(f"{kind} hash: {len(rows)} pictures, {len(known)} pairs of variants")
    print("radius   pairs found   precision   recall   postings a query   of a scan")
    with Index(bits=64) as index:
        index.add_many(enumerate(codes))
        found = {radius: all_pairs(index, codes, radius) for radius in RADII}
    for radius, (pairs, reads) in found.items():
        right = len(pairs & known)
        print(
            f"{radius:6} {len(pairs):13} {right / max(1, len(pairs)):11.3f} {right / len(known):8.3f} {reads / len(rows):18.1f}"
            f" {reads / len(rows) ** 2:11.1%}"
        )
    return found


def report_groups(rows: List[Tuple[str, str]], found: Found, radius: int) -> None:
    made = groups(len(rows), found.pairs)
    sizes = [len(group) for group in made]
    print(f"groups within {radius} bits: {len(made)}, of which {sizes.count(6)} have six pictures and {sizes.count(1)} have one")
    print(f"the first: {' '.join(rows[place][0] for place in made[0])}")


def main(words: List[str]) -> None:
    folder = words[0] if words else os.path.join(HERE, "out")
    pictures = os.path.join(folder, "pictures")
    draw_all(pictures)
    series = {}
    for kind, hashed in (("difference", difference_hash), ("average", average_hash)):
        rows = hash_all(pictures, hashed, os.path.join(folder, f"{kind}.txt"))
        found = report(kind, rows)
        report_groups(rows, found[6], 6)
        print()
        series[f"{kind} hash"] = [(radius, it.reads / len(rows)) for radius, it in found.items()]
        series["a scan"] = [(radius, len(rows)) for radius in RADII]
    with open(os.path.join(folder, "postings.svg"), "w", encoding="utf-8") as it:
        it.write(line_chart("Postings read for one query", "radius in bits", "postings", series))
    print(f"{os.path.relpath(folder)} has the pictures, difference.txt, average.txt and postings.svg")


if __name__ == "__main__":
    main(sys.argv[1:])
