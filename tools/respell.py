#!/usr/bin/env python3
"""Spells the definitions and lemmas of this repository as Rattle does: words joined by '_', a dash only after the name of a type.

usage: python3 tools/respell.py [--list] [FOLDER]

To be run once, after the kit's port.py, at the top of the repository. literalHolds becomes literal_holds, sat-at becomes sat_at, and
Sat-split stays. It turns the files of specs/ and proofs/, ghost items and clauses of src/, and the comments that name what it
turned. Names that a file imports from the kit's libraries, the names that Rattle makes for proofs, and Rust's names stay. --list
writes nothing and prints each name with its new spelling, and the names that would fall together. FOLDER is the repository, if
not the current one.
"""

import collections
import glob
import os
import re
import sys

W = r"[^\s(){}.;,@\"«»\[\]\\]+"
TOKEN = re.compile(r"--[^\n]*|//[^\n]*|\"(?:[^\"\\]|\\.)*\"|" + W)
DECLARED = re.compile(r"^\s*(?:(?:abbrev|unfoldable|pub|pattern)\s+)*(" + W + r")((?:\s+" + W + r")*)\s+:\s")
OURS = re.compile(r"^(pub )?use Rattle\.(\w+)\.(specs|proofs)\.")
KEYWORDS = {"use", "mod", "module", "record", "data", "let", "in", "where", "ruleset"}


def spelled(name):
    """The name as Rattle spells it."""
    head, dash, rest = name.partition("-")
    if dash and head[:1].isupper():
        return head + "-" + spelled(rest)
    out = re.sub(r"([a-z0-9])([A-Z])", lambda m: m.group(1) + "_" + m.group(2).lower(), name) if not name[:1].isupper() else name
    return out.replace("-", "_").replace("\u2032", "'")


def read(path):
    with open(path, encoding="utf-8") as f:
        return f.read()


def files(top, kind):
    return sorted(p for p in glob.glob(os.path.join(top, "crates/*/*/**/*" + kind), recursive=True) if "/out/" not in p)


def declared(text):
    """The names that a file of specs/ or proofs/ declares: definitions, lemmas, fields of records, parameters of sections."""
    out = set()
    for line in text.split("\n"):
        if line.lstrip().startswith("--"):
            continue
        m = DECLARED.match(line)
        if m and m.group(1) not in KEYWORDS:
            out.add(m.group(1))
            out.update(m.group(2).split())
        for group in re.findall(r"[({]((?:" + W + r"\s+)+):\s", line):
            out.update(group.split())
        for name in re.findall(r"\blet (" + W + r")", line):
            out.add(name)
        for name in re.findall(r"λ ((?:" + W + r"\s+)*" + W + r")\.", line):
            out.update(name.split())
        if re.match(r"\s*(pub )?(use) Rattle\.", line):
            out.update(re.findall(r" as (" + W + r")", line))
    return {n for n in out if re.search(r"[A-Za-z]", n)}


def fields(text):
    """The fields of the records that a file declares."""
    out, depth = set(), None
    for line in text.split("\n"):
        indent = len(line) - len(line.lstrip())
        if re.match(r"\s*(pub )?record \S+.* where$", line):
            depth = indent
        elif depth is not None and line.strip():
            m = DECLARED.match(line)
            if indent <= depth:
                depth = None
            elif m:
                out.add(m.group(1))
    return out


def own_imports(text):
    """The names that a file imports from the repository."""
    out = set()
    for group in re.findall(r"use Rattle\.(?!std)[\w.]+\.\{([^}]*)\}", text):
        out.update(name.strip() for part in group.split(",") for name in part.split(" as "))
    return out


def imports(text):
    """The names that a file imports from the kit's libraries."""
    out = set()
    for line in text.split("\n"):
        m = re.match(r"\s*(?:ghost |pub )*use ([\w.\u00b7]+?)\.\{(.*)\}", line)
        if m and not (m.group(1).startswith("Rattle.") and not m.group(1).startswith("Rattle.std")):
            for name in m.group(2).split(","):
                out.add(name.split(" as ")[-1].strip())
    return out


def main():
    args = [a for a in sys.argv[1:] if a != "--list"]
    listing = "--list" in sys.argv
    top = args[0] if args else "."
    antt = [p for p in files(top, ".antt")]
    everywhere, of_records = {}, set()
    for p in antt:
        names = declared(read(p))
        of_records |= fields(read(p))
        if "/proofs/" in p and os.path.basename(p) == "Proof.antt":
            # the names of a proof by hand are Rattle's, but for its helpers and the names of the library
            names = set()
        for n in names:
            everywhere[n] = spelled(n)
    # A lemma that would have its function's name gets "_lem".
    camel = {spelled(n) for n in everywhere if re.search(r"[a-z0-9][A-Z]", n) and not n[:1].isupper()}
    for n in everywhere:
        if everywhere[n] in camel and not re.search(r"[a-z0-9][A-Z]", n):
            everywhere[n] += "_lem"
    everywhere = {n: v for n, v in everywhere.items() if v != n}
    turned = collections.Counter()

    def turn(path, text, rust):
        kit = imports(text)
        names = dict(everywhere)
        for n in kit:
            names.pop(n, None)
        here = own_imports(text) | (set() if rust else declared(text))
        for n in [n for n in names if not re.search(r"-|[a-z0-9][A-Z]", n) and n not in here]:
            names.pop(n)
        new = set(names.values())
        before = set(re.findall(W, re.sub(r"(--|//)[^\n]*", "", text)))
        for n in sorted(set(names) & before):
            if names[n] in before and names[n] not in names:
                print(f"look: {path}: {n} falls together with {names[n]}")

        def one(m):
            t = m.group(0)
            if t.startswith("--") or t.startswith("//"):
                def word(w):
                    n = w.group(0)
                    if n in names and (re.search(r"[a-z][A-Z]", n) or w.string[: w.start()].endswith("`")):
                        return names[n]
                    return n
                return re.sub(W.replace(r"\"", r"\"`"), word, t)
            if t.startswith('"'):
                return t
            before, after = m.string[m.start() - 1 : m.start()], m.string[m.end() : m.end() + 1]
            if before == "." and t not in of_records:
                return t
            if m.string[: m.start()].endswith("tie.") or (after == "." and "use " in m.string[m.string.rfind("\n", 0, m.start()) + 1 : m.start()]):
                return t
            if t in names:
                turned[t] += 1
                return names[t]
            return t

        return TOKEN.sub(one, text)

    for p in antt:
        text = read(p)
        out = turn(p, text, False)
        if out != text and not listing:
            open(p, "w", encoding="utf-8").write(out)
    for p in files(top, ".rt"):
        text = read(p)
        kit = imports(text)
        fns = set(re.findall(r"\bfn (\w+)", text)) | set(re.findall(r"[(,]\s*(?:mut )?(\w+): ", text))
        used = {n for n in re.findall(W, "".join(re.findall(r"ghost use [^\n]*", text)))}
        for n in sorted(used):
            if n in everywhere and everywhere[n] in fns:
                print(f"look: {p}: {n} would be spelled as the function or parameter {everywhere[n]}")
        out = turn(p, text, True)
        if out != text and not listing:
            open(p, "w", encoding="utf-8").write(out)
    if listing:
        for n in sorted(turned):
            print(n, everywhere[n], turned[n])
    values = collections.defaultdict(set)
    for n, v in everywhere.items():
        values[v].add(n)
    for v, ns in sorted(values.items()):
        if len(ns) > 1:
            print("look: fall together:", v, sorted(ns))
    print(f"turned: {sum(turned.values())} places, {len(turned)} names", file=sys.stderr)


main()
