"""Words that wait, dates, numbers of papers that aren't here, and dead links, in every file of the repository."""

import os
import re

from looks.common import files, say, text_of

# (in pieces, so that this file has none of them)
WAITING = re.compile(r"\b(" + "|".join(("TO" "DO", "FIX" "ME", "XX" "X", "HA" "CK", "WI" "P")) + r")\b")
DATED = re.compile(r"\b20[2-9][0-9]-[01][0-9]-[0-3][0-9]\b")
# how a number of a paper that isn't in the repository would look
CITED = re.compile(
    r"\b[Dd]ocument 0[1-4]\b|\b[Pp]aper 0?[1-4]\b|\b(T[1-5][a-h]|D1[0-9]|R1[0-9]|R20|W1[0-6])\b"
    r"|\((T[1-5]|D[1-9]|R[1-9]|W[1-9])\)|(^|[ (])(D[2-9]|T[1-5]|W[2-9]|R[2-9])([ ,.;:)]|$)|\b[Rr]uling [0-9]"
)
LINK = re.compile(r"\[[^\]]*\]\(([^)\s#]+)(?:#[^)]*)?\)")
KINDS = (("words that wait", WAITING), ("dates", DATED), ("numbers of papers that aren't here", CITED))


def look_at_words():
    for path in files(".", ""):
        path = os.path.relpath(path)
        if path.startswith("docs/sessions/"):
            continue
        for number, line in enumerate(text_of(path).splitlines(), 1):
            for kind, words in KINDS:
                if words.search(line) and not (words is CITED and (path.startswith(".ci/") or re.match(r"\s*(use|ghost use|import)\b", line))):
                    say(kind, f"{path}:{number}", line.strip())
            if path.endswith(".md"):
                look_at_links(path, number, line)


def look_at_links(path, number, line):
    for target in LINK.findall(line):
        if "://" not in target and not os.path.exists(os.path.join(os.path.dirname(path), target)):
            say("dead links", f"{path}:{number}", target)
