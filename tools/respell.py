#!/usr/bin/env python3
"""Brings the names of this repository's own definitions and lemmas to today's spelling: words in snake case.

usage: python3 tools/respell.py            (once, at the top of the repository, right after port.py)
       python3 tools/respell.py --table    (prints the old and new names, and changes nothing)

A name in camel case takes underscores. A dash between two words becomes an underscore; it stays where it joins the
names of two definitions, and where a name of the language's own, a type's name or a number stands beside it. Names that
a library of Rattle declares, names that files of proofs/ give to what Rattle asks for, functions of src/ and whatever
stands in strings keep their spelling. Pages take the new names where they stand between backquotes.
"""

import os
import re
import sys

TOKEN = r"[^\s(){}\[\],;.`\"«»]+"
DECLARED = re.compile(r"(?m)^ *(?:unfoldable |abbrev )?(?:pub )?(?:data |record )?(" + TOKEN + r") :(?= |$)")
# Lemmas that port.py gave the spelling of a definition: they take their dash back.
DASHED = {n: n.replace("_", "-") for n in ("all_read", "from_first", "is_digit", "moved_other", "pair_fits")}
# Names that Rattle makes too.
MADE = re.compile(r"\w+-is$|loop-|returns-")


def below(top, ending):
    for folder, dirs, files in os.walk(top):
        dirs[:] = sorted(d for d in dirs if d not in ("out", "target", ".git"))
        for f in sorted(files):
            if f.endswith(ending):
                yield os.path.join(folder, f)


def read(path):
    with open(path, encoding="utf-8") as f:
        return f.read()


def is_proof(path):
    """Whether a file answers for one function: its names are Rattle's, or private to it."""
    return os.path.basename(path) == "Proof.antt"


def table():
    """The new name of each name that changes, and the names that keep their spelling since another has it already."""
    declared, foreign, local, fields = set(), set(), set(), set()
    for p in below("crates", ".antt"):
        text = re.sub(r"(?m)--.*$", "", read(p))
        if is_proof(p):
            fields |= set(re.findall(r"(?<=\.)" + TOKEN, text))
        else:
            declared |= set(DECLARED.findall(text))
        for m in re.finditer(r"^use (\S+?)\.\{([^}]*)\}", text, re.M):
            if not m.group(1).startswith("Rattle.") or m.group(1).startswith("Rattle.std."):
                foreign |= {it.split(" as ")[0].strip() for it in m.group(2).split(",")}
        local |= set(re.findall(r"[(λ ]([a-z][\w']*)(?=(?: [\w']+)* :|[. ])", text)) - declared
    for p in below("crates", ".rt"):
        local |= set(re.findall(r"\b(\w+): ", read(p)))
    names = {}
    for n in sorted(declared - foreign - set(DASHED)):
        if MADE.match(n):
            continue
        if re.match(r"[a-z]", n) and re.fullmatch(r"[\w'-]+", n):
            new = re.sub(r"-(?![A-Z])", "_", re.sub(r"(?<=[a-z0-9])([A-Z])", lambda m: "_" + m.group(1).lower(), n) if "-" not in n else n)
            new = re.sub(r"(?<=[a-z0-9])([A-Z])", lambda m: "_" + m.group(1).lower(), new)
            if new != n:
                names[n] = new
    # Where two would fall together, or one onto a name that stands, the lemma keeps its dashes.
    taken, told = {}, []
    for n, new in sorted(names.items()):
        taken.setdefault(new, []).append(n)
    for new, olds in sorted(taken.items()):
        stands = (new in declared and new not in DASHED) or new in foreign
        if stands or new in local or len(olds) > 1:
            told.append((new, olds, "declared" if new in declared else "foreign" if new in foreign else "local" if new in local else ""))
        camel = [n for n in olds if "-" not in n]
        for n in olds:
            if stands or (len(olds) > 1 and n not in camel[:1]):
                del names[n]
    return names, told, fields


def main():
    names, told, fields = table()
    if "--table" in sys.argv:
        for n, new in sorted(names.items()):
            print(n, new)
        for new, olds, why in told:
            print("taken:", new, *olds, why)
        print("fields:", *sorted(set(names) & fields))
        return

    def turned(m):
        before, name = m.group(1), m.group(2)
        if name in DASHED and ending == ".antt":
            return before + (DASHED[name] if not before.endswith(".") or before.endswith("FromFirst.") else name)
        return before + names.get(name, name)

    def sub(text):
        return re.sub(r"((?:FromFirst)?\.?)(" + TOKEN + ")", turned, text)

    # Strings of the code are left.
    parts = re.compile(r'"(?:[^"\\\n]|\\.)*"|[^"]+|"')
    for ending in (".antt", ".rt", ".edit"):
        for p in below("crates", ending):
            old = read(p)
            new = parts.sub(lambda m: m.group(0) if m.group(0)[0] == '"' else sub(m.group(0)), old)
            if ending == ".rt":
                new = "\n".join(a if a.lstrip().startswith("//") else b for a, b in zip(old.split("\n"), new.split("\n")))
            write(p, old, new)
    for top in (".", "docs", "crates", "examples", "bindings", "hosts", "portable", "tool", "keeper", "benchmark"):
        pages = [p for p in below(top, ".md")] if top != "." else [p for p in os.listdir(".") if p.endswith(".md")]
        ending = ".md"
        for p in pages:
            old = read(p)
            write(p, old, re.sub(r"`[^`\n]+`", lambda m: sub(m.group(0)), old))


def write(path, old, new):
    if new != old:
        with open(path, "w", encoding="utf-8") as f:
            f.write(new)


if __name__ == "__main__":
    main()
