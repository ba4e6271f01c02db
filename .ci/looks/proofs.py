"""What a script can see of .antt files: definitions and proofs."""

import os
import re

from looks.common import files, say, text_of

DEFINED, PROVED, SPECS_LINES, ANSWER_LINES = 100, 160, 120, 60
DEFINITION = re.compile(r"^(?:(?:abbrev|unfoldable) pub|pub (?:record|data)) (\S+)")


def look_at_widths(path, lines, most, kind):
    """One remark a file. Lines that bring names in are laid out by rt."""
    wide = [(number, len(line)) for number, line in enumerate(lines, 1) if len(line) > most and not re.match(r"\s*(ghost )?use ", line)]
    if wide:
        widest = max(wide, key=lambda it: it[1])
        say(kind, path, f"{len(wide)} of {len(lines)} lines, the widest {widest[1]} columns, at line {widest[0]}")


def look_at_specs(path):
    lines = text_of(path).splitlines()
    if os.path.basename(path) == "Lib.antt":
        return
    if not lines or not lines[0].startswith("-- "):
        say("definition files without a -- line at the head", path)
    if len(lines) > SPECS_LINES:
        say("definition files over 120 lines", path, f"{len(lines)} lines")
    look_at_widths(path, lines, DEFINED, "definition files with lines over 100 columns")
    for number, line in enumerate(lines, 1):
        if DEFINITION.match(line) and not lines[number - 2].startswith("--"):
            say("definitions without a line above", f"{path}:{number}", line)


def look_at_proofs(path, by_hand):
    lines = text_of(path).splitlines()
    base = os.path.basename(path)
    look_at_widths(path, lines, PROVED, "proof files with lines over 160 columns")
    if base in ("Proof.antt", "Send.antt", "Sync.antt") and path not in by_hand and f"{os.path.basename(os.path.dirname(path))}/{base}" not in by_hand:
        say("proofs by hand that docs/DECISIONS.md doesn't name", path)
    if base == "Answers.antt":
        if len(lines) > ANSWER_LINES:
            say("answers over 60 lines", path, f"{len(lines)} lines")
        lets = [it.strip() for it in lines if it.strip().startswith("let ")]
        for line in sorted({it for it in lets if lets.count(it) >= 3}):
            say("a let line three times in one answer", path, line)
    if base.endswith("Lemmas.antt") and (not lines or not lines[0].startswith("-- ")):
        say("lemma files without a -- line at the head", path)


def look_at_shared_names(crates):
    """A public definition has a name of its own, in all crates."""
    places = {}
    for crate in crates:
        for path in files(f"crates/{crate}/specs", ".antt"):
            for line in text_of(path).splitlines():
                head = DEFINITION.match(line)
                if head:
                    places.setdefault(head.group(1), []).append(f"{crate}/{os.path.basename(path)}")
    for name, where in sorted(places.items()):
        if len({it.split("/")[0] for it in where}) > 1:
            say("definitions that share a name over crates", name, ", ".join(where))
