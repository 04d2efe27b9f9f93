#!/usr/bin/env python3
"""Writes how the logic stores trees, from tables of their constructors.

Run it at the top of the repository, with the tables to be read: tools/gen_codes.py tools/trees/*.trees

A tree is stored as its constructor's place in its table, paired with the codes of its fields. The file that is
written also has the proof that trees with the same code are the same. A table has these lines:

    file PATH               the file to be written
    use MODULE NAME ..      further names that the file brings in
    from MODULE             the module that declares the trees
    leaf KIND TERM          a kind of field, and the coding that the logic or the check has of it
    tree KIND TYPE          a type of tree, as a kind of field; its constructors follow
    coded KIND NAME         the coding of a type of tree, as the check asks for it
    CONSTRUCTOR KIND ..     a constructor of the last type, with the kinds of its fields
"""

import sys

HEAD = """\
-- How the logic stores the trees. Written by tools/gen_codes.py from {table}: change that, and not this file.
use Rattle.std.proofs.Common.{{◌≡◌, ◌≢◌, ℕ, refl, ap, arith}}
use Rattle.std.specs.Coded.{{{codings}}}
use base.Stored.{{Gv, gnil, gnum, gcons}}
{uses}
use {module}.{{{names}}}

abbrev head : Gv → Gv
head gnil = gnil
head (gnum n) = gnil
head (gcons a b) = a

abbrev tail : Gv → Gv
tail gnil = gnil
tail (gnum n) = gnil
tail (gcons a b) = b

apart : (m n : ℕ) {{a b : Gv}} → gcons (gnum m) a ≡ gcons (gnum n) b → m ≢ n → ⊥
apart m n p other = other (cc)
"""


class Table:
    def __init__(self, path):
        self.path = path
        self.file = self.module = None
        self.uses = []
        self.leaves = {"nat": "coded_ℕ", "int": "coded_ℤ", "bool": "coded_bool"}
        self.trees = []
        self.coded = []
        with open(path, encoding="utf-8") as text:
            for line in text:
                words = line.split()
                if words:
                    self.read(words[0], words[1:])

    def read(self, word, rest):
        if word == "file":
            (self.file,) = rest
        elif word == "use":
            self.uses.append(f"use {rest[0]}.{{{', '.join(rest[1:])}}}")
        elif word == "from":
            (self.module,) = rest
        elif word == "leaf":
            kind, coding = rest[0], " ".join(rest[1:])
            if coding.startswith("Rattle."):
                self.uses.append(f"use {coding} as {kind}")
                coding = f"{kind}.the_row.coded"
            self.leaves[kind] = coding
        elif word == "tree":
            kind, name = rest
            self.trees.append((kind, name, []))
        elif word == "coded":
            kind, name = rest
            self.coded.append((kind, name))
        else:
            self.trees[-1][2].append((word, rest))

    def code(self, field):
        return f"{self.leaves[field]}.code" if field in self.leaves else f"{field}_code"

    def inj(self, field):
        return f"{self.leaves[field]}.inj" if field in self.leaves else f"{field}_inj"

    def stored(self, tag, fields):
        parts = [f"({self.code(field)} a{i})" for i, field in enumerate(fields)] or ["gnil"]
        whole = parts[-1]
        for part in reversed(parts[:-1]):
            whole = f"(gcons {part} {whole})"
        return f"gcons (gnum {tag}) {whole}"

    def same(self, name, fields):
        if not fields:
            return "refl"
        count = len(fields)
        parts = [f"({self.inj(field)} a{i} b{i} (ap (λ g. {part_of(i, count)}) p) i)" for i, field in enumerate(fields)]
        return f"λ i. {name} {' '.join(parts)}"

    def codings(self):
        """The codings of std that the fields take."""
        taken = " ".join(self.leaves.get(field, "") for _, _, rows in self.trees for _, fields in rows for field in fields)
        return ["Coded"] + [it for it in ("coded_ℕ", "coded_ℤ", "coded_bool", "coded_list") if it in taken]

    def lines(self):
        names = ", ".join(part for _, kind, rows in self.trees for part in [kind] + [name for name, _ in rows])
        yield HEAD.format(table=self.path, codings=", ".join(self.codings()), uses="\n".join(self.uses), module=self.module, names=names)
        yield "abbrev mutual"
        for tree, kind, rows in self.trees:
            yield f"  pub {tree}_code : {kind} → Gv"
            for tag, (name, fields) in enumerate(rows):
                yield f"  {tree}_code {pattern(name, fields, 'a')} = {self.stored(tag, fields)}"
            yield ""
        yield "mutual"
        for tree, kind, rows in self.trees:
            yield f"  pub {tree}_inj : (x y : {kind}) → {tree}_code x ≡ {tree}_code y → x ≡ y"
            for tag, (name, fields) in enumerate(rows):
                for other_tag, (other, other_fields) in enumerate(rows):
                    proof = self.same(name, fields) if tag == other_tag else f"absurd (apart {tag} {other_tag} p (omega arith))"
                    yield f"  {tree}_inj {pattern(name, fields, 'a')} {pattern(other, other_fields, 'b')} p = {proof}"
            yield ""
        types = {tree: kind for tree, kind, _ in self.trees}
        for i, (tree, name) in enumerate(self.coded):
            if i > 0:
                yield ""
            yield f"abbrev pub {name} : Coded {types[tree]}"
            yield f"{name} = record {{ code = {tree}_code; inj = {tree}_inj }}"


def pattern(name, fields, letter):
    if not fields:
        return name
    return f"({name} {' '.join(f'{letter}{i}' for i in range(len(fields)))})"


def part_of(place, count):
    """Where the field at this place of so many stands in the stored tree g."""
    path = "(tail g)"
    for _ in range(place):
        path = f"(tail {path})"
    return f"(head {path})" if place < count - 1 else path


for path in sys.argv[1:]:
    table = Table(path)
    with open(table.file, "w", encoding="utf-8") as out:
        out.write("\n".join(table.lines()) + "\n")
