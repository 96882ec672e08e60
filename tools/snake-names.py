#!/usr/bin/env python3
"""Respells this repository's own words: words in snake case, types in camel case.

usage: tools/snake-names.py [--list]     at the top of the repository

It was run once, when the repository came to a newer Rattle, whose library spells its own words so. A name is the
repository's own where a file below crates/ declares or binds it; a name that a file imports from a library stays as it is
there, and so do the names of goals and steps, which Rattle makes. With --list nothing is written.
"""

import os
import re
import sys

TOKEN = re.compile(r"[^\s(){};.,\"`|]+")
WORD = r"[^\s(){};.,\"`|=:]*[^\s(){};.,\"`|=:-]-[^\s(){};.,\"`|=:]+"
DECLARED = re.compile(r"^\s*(?:pub )?(?:abbrev |unfoldable )?(?:pub )?(?:record |data )?(" + WORD + r"(?: " + WORD + r")*)(?: [({][^:]*)? : (.*)$")
BOUND = [
    re.compile(r"(?:let|in let) (" + WORD + r") [:=]"),
    re.compile(r"λ ((?:[^.(){}]+ )?" + WORD + r"(?: [^.(){}]+)?)\."),
    re.compile(r"[({]([^(){}:;]*" + WORD + r"[^(){}:;]*) :"),
    re.compile(r"[{;] (" + WORD + r") :"),
]
IMPORT = re.compile(r"^\s*(?:pub )?(?:ghost )?use ([\w.+·<>\-\[\]'◌]+?)\.\{([^}]*)\}|^\s*(?:ghost )?use (\S+) as (\S+)")
GOALS = re.compile(r"^\s*(?:pub |abbrev )*(\S+) : (?:goal|need|given|the)\b")
MADE = re.compile(r"^(loop|returns|invariant|decreases|then|else|if|in|overflow|index|mut|not|if-\S+)-|-(init|preserved|smaller|requires)$|^μ")


def files(*ends):
    for top in ("crates", "tools", "docs", "README.md"):
        if os.path.isfile(top):
            yield top
        for folder, dirs, names in os.walk(top):
            dirs[:] = sorted(d for d in dirs if d not in ("out", "data"))
            for n in sorted(names):
                p = os.path.join(folder, n)
                if p.endswith(ends) and p != "tools/snake-names.py" and not n.startswith("PORT"):
                    yield p


def crates():
    return set(os.listdir("crates"))


def imported(text, own):
    """The names that a file takes from a library."""
    names = set()
    for line in text.split("\n"):
        m = IMPORT.match(line)
        if not m or not m.group(1):
            continue
        path = m.group(1).split(".")
        if path[0] == "Rattle" and len(path) > 1 and path[1] in own:
            continue
        for item in m.group(2).split(","):
            names.update(w for w in item.split() if w != "as")
    return names


def respelled(name, is_type):
    if is_type:
        head, *rest = name.split("-")
        return head + "".join(p[:1].upper() + p[1:] for p in rest)
    return name.replace("-", "_")


def own_names():
    own = crates()
    names = {}
    for p in files(".antt"):
        with open(p, encoding="utf-8") as f:
            text = f.read()
        taken = imported(text, own)
        goals = set()
        for line in text.split("\n"):
            g = GOALS.match(line)
            if g:
                goals.add(g.group(1))
        for line in text.split("\n"):
            if line.lstrip().startswith("--"):
                continue
            found = []
            m = DECLARED.match(line)
            if m:
                kind = m.group(2).rstrip(" where")
                is_type = m.group(1)[:1].isupper() and (kind.endswith("Type 0") or kind.endswith("Type"))
                found += [(w, is_type) for w in m.group(1).split()]
            for b in BOUND:
                for it in b.finditer(line):
                    found += [(w, False) for w in it.group(1).split() if "-" in w.strip("-")]
            for w, is_type in found:
                if w in goals or w in taken or "◌" in w or (MADE.search(w) and "/proofs/" in p and p.endswith(("Answers.antt", "Invariants.antt", "Choices.antt"))):
                    continue
                if not re.match(r"^[A-Za-z≤≡<_'\d-]+$", w):
                    continue
                names[w] = names.get(w, False) or is_type
    return names


def main(argv):
    own = crates()
    names = own_names()
    turned = {n: respelled(n, t) for n, t in names.items()}
    if "--list" in argv:
        for n in sorted(turned):
            print(n, turned[n])
        return 0
    every = set()
    for p in files(".antt", ".rt"):
        with open(p, encoding="utf-8") as f:
            every.update(TOKEN.findall(f.read()))
    for n in sorted(turned):
        if turned[n] in every:
            print(f"falls together: {n} and {turned[n]}")
    for p in files(".antt", ".rt", ".edit", ".md", ".txt"):
        with open(p, encoding="utf-8") as f:
            text = f.read()
        keep = imported(text, own) if p.endswith((".antt", ".rt")) else set()
        code = p.endswith((".antt", ".rt", ".edit", ".txt"))

        def turn(m):
            w = m.group(0)
            return turned[w] if w in turned and w not in keep else w

        if code:
            lines = []
            for line in text.split("\n"):
                if p.endswith(".rt") and line.lstrip().startswith("//") or p.endswith(".antt") and line.lstrip().startswith("--"):
                    lines.append(line)
                else:
                    lines.append(TOKEN.sub(turn, line))
            new = "\n".join(lines)
        else:
            new = re.sub(r"`[^`\n]+`", lambda m: TOKEN.sub(turn, m.group(0)), text)
        if new != text:
            with open(p, "w", encoding="utf-8") as f:
                f.write(new)
    return 0


if __name__ == "__main__":
    raise SystemExit(main(sys.argv[1:]))
