#!/usr/bin/env python3
"""believed.py: how many lines of definitions have to be believed, module by module.

It starts from the statements in crates/demands/proofs/Demands.antt and the contracts of the functions that a host
calls, and follows each name to its definition in specs/ and on to the names there. Counted are the lines of these
definitions, without blank lines, comments and imports.

With `--check` it prints nothing, unless a module of specs/private/ is reached or another one is not, or the exports of
the archive have other contracts than the functions that they call, or docs/GUARANTEES.md says other numbers, or lacks a
statement of Demands.antt: each is named in the section of its title, in a paragraph that gives the file of its law.
"""
import os
import re
import sys

ROOT = os.path.join(os.path.dirname(os.path.abspath(__file__)), "..")
DEMANDS = "crates/demands/proofs/Demands.antt"
PAGE = "docs/GUARANTEES.md"
# The files of `cuckooormolu`, whose functions `cuckooormolu_c` hands on to hosts by the same names and contracts.
EXPORTS = ["lib", "banks", "plan"]
# The sources with functions that a host calls.
SOURCES = [
    *("cuckooormolu_c/src/" + name for name in EXPORTS), "memory/src/lib:check",
    "monitor/src/lib", "monitor/src/banks", "monitor/src/set_list", "monitor/src/bank_list", "monitor/src/revise",
    "renumber/src/lib", "plans/src/lib", "effort/src/lib:effort", "text/src/read", "text/src/banks",
    "writer/src/write", "writer/src/store", "transcript/src/lib",
]
# What brought (new terms, two banks, two columns, scratch, plans, new numbers), and effort.
LATER = [
    "theory/specs/Columns", "theory/specs/NewNumbers", "theory/specs/MembersRenumbered", "calls/specs/Revising",
    "calls/specs/Renumbering", "calls/specs/MembersLater", "calls/specs/Telling", "reader/specs/OldForm",
    "memory/specs/TableIndex", "text/specs/Banks", "banking/", "plans/", "rulings/", "effort/",
]
NAME = r'[^\s(){}.;,@"«»⌜⌝⟦⟧]+'
USE = re.compile(r"^(?:ghost )?(?:pub )?use ([^\s{;]+)\.\{([^}]*)\};?", re.M)
START = re.compile(r"^( *)(?:unfoldable )?(?:abbrev )?(?:pub )?(data |record )?(%s)(?: [({].*?[)}])* :" % NAME)


def read(path):
    with open(os.path.join(ROOT, path), encoding="utf-8") as f:
        return f.read()


def uses(text):
    """What each imported name stands for: module and name there."""
    found = {}
    for mod, items in USE.findall(text):
        for item in items.split(","):
            parts = item.split(" as ")
            found.setdefault(parts[-1].strip(), []).append((mod, parts[0].strip()))
    return found


def file_of(mod):
    """The file of a module of specs/, and None for any other."""
    m = re.match(r"Rattle\.(\w+)\.specs\.(?!declared)(.+)$", mod)
    if not m:
        return None
    parts = m.group(2).split(".")
    while parts:
        path = "crates/%s/specs/%s.antt" % (m.group(1), "/".join(parts))
        if os.path.exists(os.path.join(ROOT, path)):
            return path
        parts.pop()
    return None


class Module:
    """The definitions of a file: the lines and the names of each."""

    def __init__(self, path):
        text = read(path)
        self.uses = uses(text)
        self.definitions = {}
        self.sections = {}
        self.owner = {}
        current, sections = None, []
        for at, line in enumerate(text.split("\n")):
            if not line.strip() or line.strip().startswith("--") or USE.match(line):
                continue
            indent = len(line) - len(line.lstrip())
            while sections and indent <= sections[-1][0]:
                sections.pop()
            if re.match(r" *module _ ", line):
                sections.append((indent, (at, line)))
                current = None
                continue
            if re.match(r" *infix", line):
                continue
            m = START.match(line)
            base = sections[-1][0] + 2 if sections else 0
            if m and len(m.group(1)) == base:
                current = m.group(3)
                self.definitions.setdefault(current, [])
                self.sections[current] = [s[1] for s in sections]
                self.owner[current] = current
            elif m and current:
                self.owner[m.group(3)] = current
            elif re.match(r" *(?:pub )?(%s)((?: %s)*) : " % (NAME, NAME), line) and current and indent > base:
                for name in re.match(r" *(?:pub )?(.*?) : ", line).group(1).split():
                    self.owner.setdefault(name, current)
            if current:
                self.definitions[current].append(line)

    def names(self, definition):
        sections = [line for _, line in self.sections[definition]]
        return words("\n".join(sections + self.definitions[definition]))


def words(text):
    text = re.sub(r"--[^\n]*", "", text)
    found = set(re.findall(NAME, text))
    return found | {"◌%s◌" % w for w in found} | {"%s◌" % w for w in found} | {"◌%s" % w for w in found}


MODULES = {}


def module(path):
    if path not in MODULES:
        MODULES[path] = Module(path)
    return MODULES[path]


def contracts(source):
    """The contracts of the public functions of a source file, or of one of them."""
    path, _, only = source.partition(":")
    text = read("crates/%s.rt" % path)
    found = []
    for m in re.finditer(r'^pub (?:extern "C" )?fn (\w+).*?^\{', text, re.M | re.S):
        if not only or m.group(1) == only:
            found.append(m.group(0))
    return uses(text), "\n".join(found)


def reached():
    todo, seen = [], set()

    def name(n, imported, here):
        if here and n in module(here).owner:
            todo.append((here, module(here).owner[n]))
            return
        for mod, original in imported.get(n, []):
            path = file_of(mod)
            if path and original in module(path).owner:
                todo.append((path, module(path).owner[original]))

    starts = [contracts(s) for s in SOURCES]
    text = read(DEMANDS)
    starts.append((uses(text), USE.sub("", text)))
    for imported, text in starts:
        for n in words(text):
            name(n, imported, None)
    while todo:
        at = todo.pop()
        if at in seen:
            continue
        seen.add(at)
        for n in module(at[0]).names(at[1]):
            name(n, module(at[0]).uses, at[0])
    return seen


def count(path, definitions):
    sections = {s for d in definitions for s in module(path).sections[d]}
    return len(sections) + sum(len(module(path).definitions[d]) for d in definitions)


def totals(counts):
    """The lines of the base and of what came later."""
    sums = [0, 0]
    for path in counts:
        sums[is_later(path)] += count(path, counts[path])
    return sums


def is_later(path):
    return any(path.startswith("crates/" + p) for p in LATER)


def statements():
    """The title, the name and the file of the law of each statement."""
    title = ""
    for line in read(DEMANDS).split("\n"):
        title = line[len("-- ======== "):] if line.startswith("-- ======== ") else title
        m = re.match(r"(\S+) = (.*)", line)
        if m:
            law = re.sub(r"^Rattle\.(\w+)\.proofs\.(\w+)\..*", r"\1/proofs/\2.antt", m.group(2))
            yield title, m.group(1), law


def paragraphs(text):
    """The names and the files of each paragraph or item: `proofs/X.antt` is of the crate that was named before it."""
    for part in re.split(r"\n(?:\n|(?=- ))", text):
        crate, files = "", set()
        for m in re.finditer(r"(?:(\w+)/)?((?:specs|src|proofs)/[\w/]+\.\w+)", part):
            crate = m.group(1) or crate
            files.add("%s/%s" % (crate, m.group(2)))
        yield set(re.findall(r"`([^`]+)`", part)), files


def unnamed():
    """The statements that the page does not name in their section, or not with the file of their law."""
    sections = dict(s.split("\n", 1) for s in read(PAGE).split("\n## ")[1:])
    for title, name, path in statements():
        found = [files for names, files in paragraphs(sections.get(title, "")) if name in names]
        if not any(path in files for files in found):
            yield "%s (%s) in the section %s" % (name, path, title)


def check(counts):
    """Private modules are those of which nothing is reached; the page says the right numbers and names every theorem."""
    wrong = 0
    for folder, folders, files in os.walk(os.path.join(ROOT, "crates")):
        folders[:] = [name for name in folders if name != "out"]
        for name in files:
            path = os.path.relpath(os.path.join(folder, name), ROOT)
            if "/specs/" not in path or not name.endswith(".antt") or not module(path).definitions:
                continue
            if (path in counts) == ("/specs/private/" in path):
                print(path, "is reached" if path in counts else "is not reached")
                wrong = 1
    says = "{:,} for the base and Q-1 to Q-8, {:,} for Q-9 to Q-14".format(*totals(counts))
    for name in EXPORTS:
        if contracts("cuckooormolu/src/" + name)[1] != contracts("cuckooormolu_c/src/" + name)[1]:
            print("crates/cuckooormolu_c/src/%s.rt has other contracts than that of cuckooormolu" % name)
            wrong = 1
    for missing in ([] if says in " ".join(read(PAGE).split()) else [says]) + list(unnamed()):
        print(PAGE, "does not say:", missing)
        wrong = 1
    return wrong


def main():
    counts = {}
    for path, definition in reached():
        counts.setdefault(path, set()).add(definition)
    if "--check" in sys.argv:
        return check(counts)
    for later, title in enumerate(["The base and Q-1 to Q-8", "Q-9 to Q-14, and effort"]):
        print(title)
        for path in sorted(counts):
            if is_later(path) == bool(later):
                print("  %5d  %s" % (count(path, counts[path]), path[len("crates/"):]))
        print("  %5d  in all" % totals(counts)[later])
    return 0


if __name__ == "__main__":
    sys.exit(main())
