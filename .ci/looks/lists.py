"""The lists of crates: crates.txt is the order; crates/README.md has it too, and README.md keeps to it."""

import os
import re

from looks.common import CRATES, LAYERS, NAMES, OF_TESTS, PROGRAM, all_below, say, text_of

LISTED = re.compile(r"^- \[`(\w+)`\]\(\1/README\.md\): (.*)")
NOT_REACHED = ("Not in the program yet.", "No program calls it.")


def look_at_lists():
    for name in sorted(set(os.listdir("crates")) ^ set(CRATES) ^ {"README.md"}):
        say("crates that crates.txt or crates/ lacks", name)
    for place, name in enumerate(CRATES):
        for it in NAMES[name]:
            if it not in CRATES[:place]:
                say("crates that crates.txt has before those that they name", name, it)
    look_at_pages_list()
    promised = re.findall(r"^\| \[(\w+)\]\(crates/\1/README\.md\)", text_of("README.md"), re.M)
    tell_difference("README.md", promised, CRATES)


def look_at_pages_list():
    """The headings, the crates and their order are those of crates.txt; what the program doesn't reach says so."""
    path = "crates/README.md"
    layers, lines = [], {}
    for line in text_of(path).splitlines():
        item = LISTED.match(line)
        if line.startswith("## "):
            layers.append((line[3:].strip(), []))
        elif item and layers:
            layers[-1][1].append(item.group(1))
            lines[item.group(1)] = item.group(2)
        elif line.startswith("- "):
            say("lines of crates/README.md that aren't of its form", line)
    tell_difference(path, [it for head, names in layers for it in (f"## {head}", *names)], [it for head, crates in LAYERS for it in (f"## {head}", *(name for name, _ in crates))])
    reached = all_below(PROGRAM)
    for name, line in lines.items():
        if name not in OF_TESTS and (name in reached) == line.endswith(NOT_REACHED):
            say("crates of which crates/README.md says wrongly whether the program reaches them", name)


def tell_difference(path, told, wanted):
    for it in wanted:
        if it not in told:
            say("what the lists of crates lack beside crates.txt", path, it)
    for it in told:
        if it not in wanted:
            say("what the lists of crates have beyond crates.txt", path, it)
    told, wanted = [it for it in told if it in wanted], [it for it in wanted if it in told]
    first = next((one for one, other in zip(told, wanted) if one != other), None)
    if first:
        say("lists of crates in another order than crates.txt", path, f"first at {first}")
