#!/usr/bin/env python3
"""Brings this repository's own names to today's spelling, once, after port.py.

python3 tools/respell.py FOLDER            respells the repository in FOLDER by tools/respelt.tsv
python3 tools/respell.py make FOLDER..     makes that table of the names in these repositories, as port.py left them

A word of the repository's antt (definition, lemma, label, constructor) is in snake case; a dash stands between two names, and a plain word is added with `_`.
Types and modules, the names of ITSO's fields (SECR, IIN, ShellLength, S, B, e#) and what the library names keep their spelling. Printed: what fell together and was left.
"""
import collections
import os
import re
import subprocess
import sys

TABLE = os.path.join(os.path.dirname(os.path.realpath(__file__)), "respelt.tsv")
KIT = os.path.dirname(subprocess.run(["rt", "doc"], stdout=subprocess.PIPE, text=True, check=True).stdout.strip())
TOKEN = re.compile(r"[^\s(){}\[\],;.:\"`@]+")
# names of the library's operations and words, after which a dash stays
LIBRARY = set("""add sub mul div mod pow lt le eq min max succ suc zero length take drop append set get get_or replicate map sum concat reverse
fold insert remove iff not and or all any""".split())
MODIFIERS = re.compile(r"^((?:(?:abbrev|unfoldable|pub|instance|private) )*)")


def files(root, ends):
    for folder, dirs, names in os.walk(root):
        dirs[:] = sorted(d for d in dirs if d not in ("out", ".git", "target"))
        for n in sorted(names):
            if n.endswith(ends):
                yield os.path.join(folder, n)


def read(path):
    with open(path, encoding="utf-8") as f:
        return f.read()


def declared(path):
    """The names that a file declares, each with its kind: def, label or con; a file of a function's proof gives no names of goals."""
    inside = None
    for line in read(path).split("\n"):
        line = re.sub(r"\s*--.*", "", line)
        bare = MODIFIERS.sub("", line)
        m = re.match(r"(record|data)\s+(\S+)", bare)
        if m:
            inside = m.group(1)
            continue
        m = re.match(r"(\S+) : (.*)", bare)
        if m and not line.startswith(" "):
            inside = None
            if not re.match(r"tie\.|goal\.", m.group(2)):
                yield m.group(1), "def"
            continue
        m = re.match(r"\s+(?:pub )?(\S+) : ", line)
        if m and inside:
            yield m.group(1), "label" if inside == "record" else "con"
        elif line and not line.startswith(" "):
            inside = None


def snake(part):
    if not re.match(r"[a-zα-ω][^-]*[A-Z]", part):
        return part
    if part == "getD":
        return "get_or"
    part = re.sub(r"(?<=[a-z0-9#'])([A-Z]+)$", lambda m: "_" + (m.group(1) if len(m.group(1)) > 1 else m.group(1).lower()), part)
    return re.sub(r"(?<=[a-z0-9#'])([A-Z])(?=[a-z])", lambda m: "_" + m.group(1).lower(), part)


def page_labels(root):
    """A label of the page that port.py respelt apart from its neighbours."""
    for p in files(os.path.join(root, "crates", "promises"), (".antt",)):
        t = read(p)
        if "read_table" in t:
            with open(p, "w", encoding="utf-8") as f:
                f.write(re.sub(r"(?<![\w-])read_table(?![\w-])", "read-table", t))


def make(roots):
    kit = set()
    for p in files(os.path.join(KIT, "rattle"), (".antt",)):
        kit.update(t for t in TOKEN.findall(read(p)) if "-" in t or re.search(r"[a-z][A-Z]", t))
    kinds = collections.defaultdict(set)
    definitions, specs = set(), set()
    every = [p for root in roots for p in files(os.path.join(root, "crates"), (".antt", ".rt"))]
    for p in every:
        if not p.endswith(".antt"):
            continue
        for name, kind in declared(p):
            kinds[name].add(kind)
            if os.sep + "specs" + os.sep in p:
                specs.add(name)
            if "-" not in name and (os.sep + "specs" + os.sep in p):
                definitions.add(snake(name))
    used = set()
    for p in every:
        used.update(TOKEN.findall(read(p)))
    respelt = {}
    for name in used:
        if name in kit or name.startswith("-") or not re.match(r"[A-Za-zα-ω]", name):
            continue
        if name not in kinds and not re.match(r"[a-z]+(?:[A-Z][a-z0-9]*)+$", name):
            continue
        parts = [snake(p) for p in name.split("-")]
        if parts[-1] == "spec":
            new = "_".join(parts)
        elif name in kinds and kinds[name] <= {"label", "con"}:
            new = "_".join(parts)
        elif name in kinds:
            new = parts[0]
            for p in parts[1:]:
                joins = p in LIBRARY or p in definitions or any(p.startswith(d + "_") and len(d) > 3 for d in definitions) or re.match(r"[A-Z]", p)
                new += ("-" if joins else "_") + p
        else:
            new = "-".join(parts)
        if new != name:
            respelt[name] = new
    # what falls together: a definition takes the word, a lemma of that name gets `_lem`, and a label or a constructor keeps its dashes
    by_new = collections.defaultdict(list)
    for a, b in respelt.items():
        by_new[b].append(a)
    for b, names in sorted(by_new.items()):
        there = [b] if b in kinds else []
        if len(names) + len(there) == 1:
            continue
        first = [n for n in names if n in specs and "def" in kinds[n]] + [n for n in names + there if "def" in kinds[n]]
        for n in names + there:
            if first and n == first[0]:
                continue
            if "def" in kinds[n]:
                respelt[n] = b + "_lem"
            elif n != b:
                del respelt[n]
            else:
                sys.exit("a label %s falls together with %s" % (n, ", ".join(names)))
            print("together: %s, now %s, with %s, now %s" % (n, respelt.get(n, n), first and first[0], b))

    with open(TABLE, "w", encoding="utf-8") as f:
        f.writelines("%s\t%s\n" % it for it in sorted(respelt.items()))


def turn(root):
    with open(TABLE, encoding="utf-8") as f:
        respelt = dict(l.rstrip("\n").split("\t") for l in f)

    def turned(text):
        return TOKEN.sub(lambda m: respelt.get(m.group(0), m.group(0)), text)

    page_labels(root)
    for p in files(os.path.join(root, "crates"), (".antt", ".rt", ".edit")):
        old = read(p)
        new = turned(old)
        if new != old:
            with open(p, "w", encoding="utf-8") as f:
                f.write(new)
    for p in files(root, (".md",)):
        old = read(p)
        new = re.sub(r"`[^`\n]+`", lambda m: turned(m.group(0)), old)
        if new != old:
            with open(p, "w", encoding="utf-8") as f:
                f.write(new)


if sys.argv[1] == "make":
    for r in sys.argv[2:]:
        page_labels(r)
    make(sys.argv[2:])
else:
    turn(sys.argv[1])
