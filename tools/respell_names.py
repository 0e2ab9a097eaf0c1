#!/usr/bin/env python3
"""Spells the repository's own definitions, fields and lemmas as the library does, in crates/ and in the pages.

usage: python3 tools/respell_names.py [--dry]     at the top of the repository, once

Words are in snake case (planeBits -> plane_bits); types and facts keep their capitals. In a lemma's name a dash stands between two
names of definitions (map-append); a plain word is added with an underscore (staged-leads -> staged_leads). Functions, types and
constants of src/, exported C names, strings, inputs and outputs keep their names. A name that would meet another one stays.
"""
import os
import re
import sys

TOKEN = re.compile(r'[^\s(){}.;,@"«»\[\]]+')
COMMENT = re.compile(r'(?<![^\s(){}.;,@"«»])--[^\n]*')
TOP = re.compile(r"^(?:(?:abbrev|unfoldable|opaque) )?(?:pub )?(?:(?:abbrev|unfoldable|opaque) )?(?:(?:data|record) )?"
                 r"([^\s(){}.;,@\"«»:]+)(?: [^:\n=]*)? :", re.M)
FIELD = re.compile(r"^ +(?:pub )?((?:[^\s(){}.;,@\"«»:=]+ )+): ", re.M)
LABEL = re.compile(r"^([^\s(){}.;,@\"«»:]+) : tie\.", re.M)
# lemmas that have the name that a definition gets: they give way
GIVE_WAY = {it: it + "_lem" for it in ("index_back", "no_walk", "each_below", "line_row")}
WORDS_OF_ANTT = {"pub", "use", "mod", "where", "let", "in", "abbrev", "unfoldable", "record", "data"}
# names that the library has and that lemmas' names are made of
LIBRARY = set("""length map take drop append set replicate sum fold filter zip position find get_or min max swap insert remove reverse
and or not cond eqb if suc zero mod div gcd lcm add mul sub pow""".split())


def files(kinds):
    for folder, dirs, names in os.walk("crates"):
        dirs[:] = sorted(d for d in dirs if d != "out")
        for it in sorted(names):
            if it.endswith(kinds):
                yield os.path.join(folder, it)


def read(path):
    with open(path, encoding="utf-8") as f:
        return f.read()


def humps(name):
    """camelCase to snake_case; a name that begins with a capital keeps its own humps."""
    if name[:1].isupper():
        return name
    return re.sub(r"(?<=[a-z0-9])([A-Z])(?=[a-z0-9]|$|-|_)", lambda m: "_" + m[1].lower(), name)


def joined(name, names):
    """The name with a dash only between two names."""
    parts = name.split("-")
    if len(parts) == 1:
        return humps(name)
    is_name = [p in names or p[:1].isupper() for p in parts]
    out = humps(parts[0])
    for k in range(1, len(parts)):
        # a dash before a name, where a name stands somewhere before it
        dash = is_name[k] and any(is_name[:k])
        out += ("-" if dash else "_") + humps(parts[k])
    return out


def main():
    dry = "--dry" in sys.argv
    antt = {p: read(p) for p in files((".antt",))}
    rt = {p: read(p) for p in files((".rt",))}
    bare = {p: COMMENT.sub(" ", t) for p, t in antt.items()}
    definitions, lemmas, fields = set(), set(), set()
    for p, t in bare.items():
        if p.endswith("/Proof.antt"):
            continue
        for m in TOP.finditer(t):
            (lemmas if "-" in m[1] else definitions).add(m[1])
        if "/specs/" in p or True:
            for m in re.finditer(r"^(?:[\w]+ )*(?:data|record) [^\n]*where\n((?:(?: [^\n]*)?\n)*)", t, re.M):
                for f in FIELD.finditer(m[1]):
                    fields.update(f[1].split())
    names = definitions | LIBRARY
    table = {}
    for it in definitions | fields:
        if it[:1].islower() and humps(it) != it:
            table[it] = humps(it)
    for it in lemmas:
        new = joined(it, names)
        if new != it:
            table[it] = new
    # names inside a proof or a definition
    for t in bare.values():
        for it in TOKEN.findall(t):
            if re.fullmatch(r"[a-z]\w*[a-z0-9][A-Z]\w*'*", it) and it not in table and humps(it) != it:
                table[it] = humps(it)
            elif re.fullmatch(r"[a-z][\w-]*[a-z0-9][A-Z][\w-]*'*", it) and "-" in it and it not in table and joined(it, names) != it:
                table[it] = joined(it, names)
                lemmas.add(it)
    # a name of antt's own, as the labels of proofs by hand, is no lemma
    table = {a: b for a, b in table.items() if a not in WORDS_OF_ANTT and re.match(r"[A-Za-z]", a)}
    def gives_way(p, t):
        def one(m):
            if m[0] not in GIVE_WAY:
                return m[0]
            head = re.search(r"[^\s(){};,]*\Z", t[max(0, m.start() - 200):m.start()])[0]
            moves = (not head or re.search(r"[A-Z]\w*\.\Z", head)) and not t.startswith(".", m.end())
            return GIVE_WAY[m[0]] if moves else m[0]
        return TOKEN.sub(one, t) if p.endswith(".antt") else t

    given = {p: gives_way(p, t) for p, t in antt.items()}
    moved = {p for p in antt if given[p] != antt[p]}
    antt = given
    bare = {p: COMMENT.sub(" ", t) for p, t in antt.items()}
    # a part of a path is no name of the file's own
    tokens = {p: {m[0] for m in TOKEN.finditer(t) if t[m.start() - 1:m.start()] != "." or m[0] in fields}
              for p, t in list(bare.items()) + list(rt.items())}
    # a lemma that would have a definition's name gets `_lem`
    others = definitions | {table[a] for a in table if a not in lemmas} | set().union(*tokens.values())
    for a in lemmas & set(table):
        if table[a] in others:
            table[a] += "_lem"
    # two old names of one new name, or a new name that a file has already
    clash = set()
    by_new = {}
    for a, b in table.items():
        by_new.setdefault(b, []).append(a)
    for b, olds in by_new.items():
        if len(olds) > 1:
            clash.update(olds)
    for p, words in tokens.items():
        for a in words & set(table):
            if table[a] in words:
                if p.endswith(".rt") and not re.search(rf"\b{re.escape(table[a])}: ", rt[p]):
                    continue
                clash.add(a)
                print(f"stays: {a}, since {p} has {table[a]}")
    for b, olds in by_new.items():
        if len(olds) > 1:
            print(f"stays: {' and '.join(sorted(olds))}, which would both be {b}")
    table = {a: b for a, b in table.items() if a not in clash}
    print(f"{len(definitions)} definitions, {len(fields)} fields, {len(lemmas)} lemmas with a dash; {len(table)} respelled")

    def turn(text, may):
        return TOKEN.sub(lambda m: table[m[0]] if m[0] in table and may(m) else m[0], text)

    def whole(path, text):
        if path.endswith("/Proof.antt"):
            labels = set(LABEL.findall(text))

            def may(m):
                before = text[max(0, m.start() - 300):m.start()].rsplit("\n", 1)[-1]
                if m[0] in labels or before.endswith("tie.Need-"):
                    return False
                if before.endswith("."):
                    head = re.search(r"[^\s(){};,]*\Z", before)[0]
                    return head.startswith("Rattle.") or "-" not in m[0]
                return True
            return turn(text, may)
        return turn(text, lambda m: True)

    changed = 0
    for p, t in list(antt.items()) + list(rt.items()):
        new = whole(p, t)
        if new != t or p in moved:
            changed += 1
            if not dry:
                with open(p, "w", encoding="utf-8") as f:
                    f.write(new)
    for p in files((".edit",)):
        t = read(p)
        new = turn(t, lambda m: True)
        if new != t and not dry:
            with open(p, "w", encoding="utf-8") as f:
                f.write(new)
    spans = re.compile(r"`[^`\n]+`")
    pages = ["README.md"] + [os.path.join(d, f) for d, _, fs in os.walk("docs") for f in fs if f.endswith(".md")]
    for p in pages:
        t = read(p)
        new = spans.sub(lambda m: turn(m[0].strip("`"), lambda _: True).join("``"), t)
        if new != t and not dry:
            with open(p, "w", encoding="utf-8") as f:
                f.write(new)
    print(f"{changed} files changed")
    if dry:
        for a in sorted(table):
            print(f"{a}\t{table[a]}")


main()
