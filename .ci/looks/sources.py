"""What a script can see of .rt files, of the pages of crates and of must-fail edits."""

import os
import re

from looks.common import OF_TESTS, PROGRAM, files, say, text_of

CLAUSE, SOURCE_LINES, BODY_LINES, PAGE_LINES, MOST_EDITS = 100, 400, 40, 45, 10
PAGE_PARTS = ("What a contract sees", "What is proved", "Only tested", "No clause says", "Stands on")
FUNCTION = re.compile(r"( *)(?:pub(?:\(crate\))? )?(?:unsafe )?(?:const )?fn (\w+)")
SINGLE = re.compile(r"\blet (?:mut )?([a-z])\b|\bfor ([a-z]) in\b|[(,] ?(?:mut )?([a-z]): ")


def look_at_clauses(path, lines):
    """Clauses: one line of at most 100 columns, a longer fact has a name in specs/. A law may have more lines."""
    inside, since, is_law = False, 0, False
    for number, line in enumerate(lines, 1):
        head = line.strip()
        if FUNCTION.match(line):
            is_law = bool(re.search(r"\(\)( \{\})?$", head))
        if re.match(r"(ensures|requires)\b", head):
            inside, since = True, number
        elif re.match(r"(\{|\}|where\b|;|//)", head):
            inside = False
        if inside and len(line) > CLAUSE:
            say("clauses over 100 columns", f"{path}:{number}", f"{len(line)} columns")
        if inside and number - since == 3 and not is_law:
            say("clauses of more than three lines", f"{path}:{since}", lines[since - 1].strip())


def look_at_bodies(path, lines):
    """Bodies: from the line of the opening brace to the closing one at the same depth."""
    name, begun, depth = "", 0, ""
    for number, line in enumerate(lines, 1):
        head = FUNCTION.match(line)
        if head:
            name, begun, depth = head.group(2), 0, head.group(1)
        elif name and line.rstrip() == depth + "{":
            begun = number
        elif name and line.rstrip() == depth + "}":
            if begun and number - begun - 1 > BODY_LINES:
                say("bodies over 40 lines", f"{path}:{begun}", f"{name}, {number - begun - 1} lines")
            name = ""


def look_at_names(path, lines):
    for number, line in enumerate(lines, 1):
        code = line.split("//")[0]
        if re.match(r"\s*(ensures|requires|ghost)\b", code) or "λ" in code or "→" in code:
            continue
        for single in SINGLE.finditer(code):
            say("one-letter names", f"{path}:{number}", next(filter(None, single.groups())))


def look_at_source(path, name):
    lines = text_of(path).splitlines()
    if len(lines) > SOURCE_LINES:
        say("source files over 400 lines", path, f"{len(lines)} lines")
    if os.path.basename(path) in ("lib.rt", "main.rt"):
        if not lines or not lines[0].startswith("//!"):
            say("root files without //! at the head", path)
        if "#![tactic(auto)]" not in lines:
            say("root files without #![tactic(auto)]", path)
    if name not in OF_TESTS and re.search(r"^\s*#\[test\]", "\n".join(lines), re.M):
        say("tests outside the crates of tests", path)
    look_at_clauses(path, lines)
    look_at_bodies(path, lines)
    look_at_names(path, lines)


def look_at_page(folder):
    path = f"{folder}/README.md"
    text = text_of(path)
    if not text:
        say("crates without a README.md", folder)
        return
    if text.count("\n") > PAGE_LINES:
        say("pages of crates over 45 lines", path, f"{text.count(chr(10))} lines")
    for part in PAGE_PARTS:
        if f"## {part}" not in text:
            say("pages of crates that lack a part", path, part)


def look_at_edits(folder, name, claims):
    edits = list(files(f"{folder}/must-fail", ".edit"))
    sources = [text_of(it) for it in files(f"{folder}/src", ".rt")]
    # laws alone have no body that an edit could turn
    has_code = re.search(r"^\s*(?:pub(?:\(crate\))? )?fn \w+(?:<[^(]*>)?\([^)]", "\n".join(sources), re.M)
    lines = sum(it.count("\n") for it in sources)
    if not edits and lines > 80 and has_code and name not in OF_TESTS and name != PROGRAM:
        say("crates of over 80 lines with no must-fail edit", folder)
    if len(edits) > MOST_EDITS:
        say("crates with over ten must-fail edits", folder, f"{len(edits)}")
    for edit in edits:
        if os.path.basename(edit)[: -len(".edit")] not in claims:
            say("must-fail edits that docs/CLAIMS.md doesn't name", edit)
