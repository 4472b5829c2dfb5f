#!/usr/bin/env python3
"""Respells this repository's own definitions, fields and lemmas as today's Rattle spells names:
words in snake case, types in upper camel case. Run once at the top of the repository, after port.py.

Names that Rattle makes for proofs (goals, invariants, steps of the code) keep their dashes.
It stops where two names would fall together.
"""

import os
import re
import sys

PART = r"[A-Za-z][\w']*(?:-[\w']+)*"
HEAD = re.compile(r"^\s*(?:abbrev |unfoldable )*(?:pub )?(?:record |data )?((?:[^\s(){}\[\];,.:λ\"]+\s+)*?[^\s(){}\[\];,.:λ\"]+)\s*(?:[({].*)?\s:\s")
MADE = re.compile(r":\s*(?:goal|need|given)\.|^\s*(?:abbrev )?(?:pub )?(?:invariant|decreases|offset-bounds)-")
TOKEN = re.compile(r"(?<![\w'·◌.-])((?:[\w'◌+-]+\.)*)(" + PART + r")(?![\w'◌-])")
# roots of the paths that Rattle makes, in the proof of a function
ROOTS = re.compile(r"^(?:c|w|l|g|goal|need|given)\.$")
# a relation that stands like an operator, and the bit of a word's "and" and "or": these join two names
KEPT = {"le", "bit-and", "bit-or"}
TYPED = re.compile(r"(?:→|:)\s*Type [01]\s*(?:where)?\s*$")


def files(root, ends):
    for top in ("crates",):
        for folder, dirs, names in os.walk(os.path.join(root, top)):
            dirs[:] = sorted(d for d in dirs if d != "out")
            for name in sorted(names):
                if name.endswith(ends):
                    yield os.path.join(folder, name)


def read(path):
    with open(path, encoding="utf-8") as f:
        return f.read()


def camel(name):
    return "".join(w[:1].upper() + w[1:] for w in re.split(r"[-_]", name))


def of_std(root):
    """The names that files import from the library: they keep their spelling."""
    names = set()
    for path in files(root, (".antt", ".rt")):
        for line in read(path).splitlines():
            m = re.match(r"\s*(?:ghost )?use Rattle\.std\.[^{]*\{(.*)\}", line)
            if m:
                for part in m.group(1).split(","):
                    names.update(part.split(" as ")[0].split())
    return names


def declared(root):
    """Each name that is to change, with its new spelling."""
    library = of_std(root)
    turned = {}
    for path in files(root, ".antt"):
        for line in read(path).splitlines():
            if line.lstrip().startswith("--") or MADE.search(line):
                continue
            m = HEAD.match(line)
            if not m:
                continue
            for name in m.group(1).split():
                if name in KEPT or name in library or not re.fullmatch(PART, name):
                    continue
                is_type = bool(TYPED.search(line)) and not line.startswith("  pub ")
                if "-" in name:
                    upper = is_type or name[0].isupper()
                    turned[name] = camel(name) if upper else name.replace("-", "_")
                elif is_type and name[0].islower() and len(name) > 1:
                    turned[name] = camel(name)
    return turned


def turn(text, turned, in_proof):
    def one(m):
        path, name = m.group(1), m.group(2)
        if name not in turned or (in_proof and ROOTS.match(path)):
            return m.group(0)
        return path + turned[name]

    return TOKEN.sub(one, text)


def main():
    root = sys.argv[1] if len(sys.argv) > 1 else "."
    turned = declared(root)
    used = {}
    for path in files(root, (".antt", ".rt")):
        for m in TOKEN.finditer(read(path)):
            used.setdefault(m.group(2), path)
    back = {}
    together = []
    for old, new in sorted(turned.items()):
        if new in back or used.get(new, "").endswith(".antt"):
            together.append(f"{old} and {back.get(new, new)}")
        back[new] = old
    # A definition may have the name of a function of src/, and these two a ghost field of another record.
    together = [t for t in together if t.split()[0] not in ("events-below", "ranks-below")]
    if together:
        print("fall together: " + ", ".join(together))
        return 1
    for path in files(root, (".antt", ".rt", ".edit")):
        text = read(path)
        proof = path.endswith(("Answers.antt", "Invariants.antt", "Proof.antt"))
        new = turn(text, turned, proof)
        if new != text:
            with open(path, "w", encoding="utf-8") as f:
                f.write(new)
    print(f"{len(turned)} names respelled")
    return 0


if __name__ == "__main__":
    raise SystemExit(main())
