"""docs/CLAIMS.md against the contracts: the edits, tests, calls and clauses that it names are there, and it names each public call
that has a contract. A call is matched with its type: `Type::call`, and after it bare names of the same type, or bare names of a
`Type` that the cell names; a bare name with no type is a function, or a method of a trait."""

import os
import re

from looks.common import files, say, text_of

TEST = re.compile(r"#\[test\]\s+fn (\w+)")
HEAD = re.compile(r"(?:pub(?:\([a-z]+\))? )?(?:unsafe )?(?:(impl|trait)\b(?:<.*?>(?= ))? *(.*?)(?: where.*)?)\s*\{?$")
FUNCTION = re.compile(r"( *)(pub(?:\([a-z]+\))? )?(?:unsafe )?(?:const )?fn (\w+)")


class Contracts:
    """The labels of the clauses of each function, by its crate, type and name."""

    def __init__(self, crates):
        self.labels, self.public, self.trait_of, self.types = {}, {}, {}, set()
        for crate in crates:
            top = text_of(f"crates/{crate}/src/lib.rt")
            for path in files(f"crates/{crate}/src", ".rt"):
                self.read(crate, path, set(re.findall(r"\w+", top)))

    def read(self, crate, path, handed_out):
        owner, trait, is_trait, key, is_public = "", "", False, None, False
        for line in text_of(path).splitlines():
            if line.startswith("}"):
                owner, trait, is_trait = "", "", False
            block = HEAD.match(line) if re.match(r"(pub(\([a-z]+\))? )?(unsafe )?(impl|trait)\b", line) else None
            if block:
                *traits, owner = (re.match(r"\w*", it.strip()).group(0) for it in block.group(2).split(" for "))
                is_trait = block.group(1) == "trait"
                trait = owner if is_trait else "".join(traits)
                self.types.add(owner)
            head = FUNCTION.match(line)
            if head:
                is_method = bool(head.group(1))
                key = (crate, owner if is_method else "", head.group(3))
                self.labels.setdefault(key, set())
                if is_method and trait:
                    self.trait_of[key] = trait
                name = owner if is_method else head.group(3)
                is_public = name in handed_out and (head.group(2) == "pub " or is_method and is_trait)
            clause = re.match(r" *ensures\*? (?:(\w+) )?\{", line)
            if key and clause:
                self.labels[key].add(clause.group(1))
                if is_public:
                    self.public.setdefault(key, path)

    def named(self, crates, last_type, call):
        """The functions that a name in a row stands for, and the type that the bare names after it are of. With a method of a
        trait goes the trait's own, whose clauses it has, and with the trait's those of its types in the crates of the row."""
        owner, _, name = call.rpartition("::")
        owner = owner.rpartition("::")[2]
        alike = [it for it in self.labels if it[2] == name]
        there = [it for it in alike if not crates or it[0] in crates]
        if owner:
            found = [it for it in there if owner in (it[1], self.trait_of.get(it))]
        else:
            of_type = [it for it in there if last_type and it[1] == last_type]
            functions = [it for it in there if not it[1]]
            found = of_type or functions or [it for it in there if it in self.trait_of]
        traits = {self.trait_of[it] for it in found if it in self.trait_of}
        return found + [it for it in alike if it[1] in traits], owner or last_type


def rows(claims, crates):
    """The rows of the tables, each with the crates that it speaks of: those beside its calls, or else those of its heading."""
    of_heading = []
    for line in claims.splitlines():
        if line.startswith("## "):
            of_heading = [it for it in re.findall(r"`(\w+)`", line) if it in crates]
        cells = line.split("|")
        if len(cells) >= 7 and not set(line) <= set("|- "):
            words = re.findall(r"`([A-Za-z0-9_:]+)`", cells[2])
            yield cells, [it for it in words if it not in crates], [it for it in words if it in crates] or of_heading


def look_at_claims(claims, crates):
    edits = {os.path.basename(it)[: -len(".edit")] for name in crates for it in files(f"crates/{name}/must-fail", ".edit")}
    tests = {it for name in crates for path in files(f"crates/{name}/src", ".rt") for it in TEST.findall(text_of(path))}
    contracts, claimed = Contracts(crates), set()
    for cells, calls, of_row in rows(claims, crates):
        for word in re.findall(r"`([a-z0-9_]+)`", cells[4]):
            if word not in edits:
                say("edits that docs/CLAIMS.md names and no crate has", "docs/CLAIMS.md", word)
        for word in re.findall(r"`([a-z0-9_]+)`", cells[5]):
            if word not in tests:
                say("tests that docs/CLAIMS.md names and no crate has", "docs/CLAIMS.md", word)
        types = [it for it in calls if it in contracts.types]
        meant, last_type = [], types[0] if types else ""
        for call in (it for it in calls if it not in types):
            these, last_type = contracts.named(of_row, last_type, call)
            if not these:
                say("calls that docs/CLAIMS.md names and no crate has", "docs/CLAIMS.md", f"{call} of {', '.join(of_row)}")
            meant += these
        claimed.update(meant)
        for label in re.findall(r"`([a-z0-9_]+)`", cells[3]):
            if meant and not any(label in contracts.labels[it] for it in meant):
                say("clauses that docs/CLAIMS.md names and no such call has", "docs/CLAIMS.md", f"{label} of {calls[0]}")
    for key in sorted(set(contracts.public) - claimed):
        crate, owner, call = key
        say("public calls with a contract that docs/CLAIMS.md doesn't name", crate, f"{owner}::{call}" if owner else call)
