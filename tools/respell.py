#!/usr/bin/env python3
"""Brings the names of this repository's definitions and lemmas to the spelling of today's Rattle.

usage: tools/respell.py      at the top of a checkout that the kit's own script has turned

A word is in snake case (`after-offer` becomes `after_offer`), a fact or a record in camel case (`Links-inside` becomes
`LinksInside`). Names that the prover makes, names of the library and all names of src/ keep their spelling. Files are
rewritten in place; the new names are printed. It refuses to let two names fall together.
"""

import os
import re
import sys

# names for which the rule gives no good one
BY_HAND = {
    "First-come": "FirstComeOrder",  # src/ has a type FirstCome
    "getD-pairs": "get_or_pairs",
    "getD-zeros": "get_or_zeros",
    "every-getD": "every_get_or",
}
# names bound inside a proof
LOCAL = """
i-there j-there length-there low-is no-before one-digit order-then other-digit p-is reads-back snapshot-fits text-is
true-length u-is v-is yes-e
""".split()
# what the prover makes: goals and the steps of a function's code
MADE = re.compile(r"^(returns|loop|invariant|overflow)-|-requires(-|$)")
NAME = r"[^\s(){}\[\];,.«»@\"λ∀→:]+"
DASHED = re.compile(r"[A-Za-z0-9'_]-[A-Za-z]")


def files(ends):
    for folder, dirs, names in os.walk("crates"):
        dirs[:] = sorted(d for d in dirs if d != "out")
        for name in sorted(names):
            if name.endswith(ends):
                yield os.path.join(folder, name)


def read(path):
    with open(path, encoding="utf-8") as f:
        return f.read()


def defined():
    """The names that specs/ and proofs/ define: definitions, records and their fields, lemmas."""
    pattern = re.compile(
        r"(?m)^\s*(?:unfoldable |abbrev |pub |ruleset )*(?:record |data )?(" + NAME + r") *(?:\([^()]*\)|\{[^{}]*\}| )*:(?!=)"
    )
    return {n for path in files(".antt") for n in pattern.findall(re.sub(r"(?m)--.*$", "", read(path)))}


def imported():
    """The names that are taken from a library."""
    own = {"Rattle." + c for c in os.listdir("crates")}
    found = set()
    for path in files((".antt", ".rt")):
        for module, items in re.findall(r"use ([\w.]+?)\.\{([^}]*)\}", read(path)):
            if ".".join(module.split(".")[:2]) not in own:
                found.update(x.strip() for i in items.split(",") for x in i.split(" as "))
    return found


def respelled(name):
    if name in BY_HAND:
        return BY_HAND[name]
    parts = name.split("-")
    if name[0].isupper():
        return "".join(p[0].upper() + p[1:] for p in parts)
    return "_".join(parts)


def main():
    names = defined()
    taken = imported()
    turned = {n: respelled(n) for n in sorted(names) if DASHED.search(n) and not MADE.search(n) and n not in taken}
    turned.update((n, respelled(n)) for n in LOCAL)
    new = list(turned.values())
    clash = [n for n in new if n in names or n in taken or new.count(n) > 1]
    if clash:
        sys.exit(f"these fall together with others: {' '.join(clash)}")
    word = re.compile(r"(?<![\w'·-])(" + "|".join(map(re.escape, sorted(turned, key=len, reverse=True))) + r")(?![\w'·-])")
    for path in files((".antt", ".rt")):
        old = read(path)
        text = word.sub(lambda m: turned[m.group(1)], old)
        if path.endswith(".rt"):
            # a string keeps its words, as does a comment of the code
            text = "\n".join(
                o if '"' in o or o.lstrip().startswith("//") else t for o, t in zip(old.split("\n"), text.split("\n"))
            )
        if text != old:
            with open(path, "w", encoding="utf-8") as f:
                f.write(text)
    for n in sorted(turned):
        print(n, turned[n])


main()
