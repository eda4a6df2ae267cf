#!/usr/bin/env python3
"""Respells the repository's own definitions and lemmas in snake case, as today's library spells its own.

usage: tools/respell.py [--list]      at the top of the repository, once, behind port.py; --list only prints what it would rename

A name is one that a file of specs/, or a file right in proofs/, declares at the head of a line or as a field, a constructor or a local
function. Dashes become underscores and humps small letters; a name with a capital in front (a type, a fact) stays. Where the new name
already stands beside the old one, a lemma gets `_lem`, and what would still fall together `_told`. Names that are imported from a library stay.
Edits and pages follow; in pages, names in backticks alone.
"""
import os
import re
import sys
from collections import defaultdict
from functools import cache

WORD = re.compile(r"[A-Za-z_ρκμ][A-Za-z0-9_'₀-₉ρκμ-]*[A-Za-z0-9_'₀-₉ρκμ]|[A-Za-z_]")
DECLARED = re.compile(r"^(\s*)(?:(?:pub|abbrev|unfoldable|data|record|ruleset|mutual)\s+)*([^\s(){}.;,@:]+)(?:\s*\{[^}]*\})*\s*(?::|\()")
# Lemmas that the first script gave the name that a definition has now.
GIVEN = ("item_by", "no_byte", "no_bytes", "room_for", "row_words", "rows_pass", "same_key", "size_word")
LEMMA, CLASH = "_lem", "_told"
# What the first script respelled because a library had the same spelling, where it stands in an edit or a page.
FIRST = os.path.join(os.path.dirname(os.path.abspath(__file__)), "respelled.txt")
ALSO = {"in-first", "in-many", "in-row", "in-run", "loop-of-loops"}
GENERATED = re.compile(r"^(loop|invariant|decreases|returns|overflow\w*|if|in|ghost|prove|bounds|slice_bounds)-|-(requires|ensures|spec|init|preserved|smaller)(-\d+)?$")


def snake(name):
    head = re.sub(r"-", "_", name)
    head = re.sub(r"(?<=[a-z0-9])([A-Z])", lambda m: "_" + m[1].lower(), head)
    return re.sub(r"(?<=[A-Z])([A-Z])(?=[a-z])", r"_\1", head).lower() if head[:1].islower() else name


def files(root, endings):
    for folder, dirs, names in os.walk(os.path.join(root, "crates")):
        dirs[:] = sorted(d for d in dirs if d != "out")
        for n in sorted(names):
            if n.endswith(endings):
                yield os.path.join(folder, n)


def bare(path, root):
    parts = os.path.relpath(path, root).split(os.sep)
    return parts[2] == "specs" or (parts[2] == "proofs" and len(parts) == 4)


def declared(root):
    found = set()
    for p in files(root, (".antt",)):
        if not bare(p, root):
            continue
        with open(p, encoding="utf-8") as f:
            for line in f:
                m = DECLARED.match(line)
                if m and not line.lstrip().startswith("--") and not line.startswith("use "):
                    n = m[2]
                    if n[0].islower() and n[0].isascii() and snake(n) != n and WORD.fullmatch(n) and (n in ALSO or not GENERATED.search(n)):
                        found.add(n)
    return found


def foreign(text):
    """The names that a file imports from a library, or from what Rattle makes of its own code."""
    out = set()
    for m in re.finditer(r"^(?:ghost )?use ([\w.'+-]+)\.\{([^}]*)\}", text, re.M):
        head = m[1].split(".")
        own = head[0] == "Rattle" and head[1] not in ("std", "core") and "declared" not in head and "contracts" not in head
        if not own:
            out |= {w.split(" as ")[-1].strip() for w in m[2].split(",")}
    return out


@cache
def words_hidden(path, text):
    return frozenset(hidden_of(path, text, tokens(text)))


def hidden_of(path, text, seen):
    """The words of a file that a new name would meet: no fields and parts of paths, and in code no names of functions."""
    if path.endswith(".antt"):
        if not bare(path, os.getcwd()):
            return frozenset()
        text = re.sub(r"(?m)(^|\s)--.*$", "", text)
        return {m[0] for m in WORD.finditer(text) if text[m.start() - 1] != "."}
    text = re.sub(r"(?ms)//[^\n]*|^ *(pub )?use .*?;", "", text)
    return {w for w in seen if re.search(r"(?<![\w.])" + re.escape(w) + r"(?![\w(-])", text)}


@cache
def tokens(text):
    return set(WORD.findall(text))


def turned(text, table, skip, kind):
    def put(m):
        w = m[0]
        if w not in table or w in skip:
            return w
        before = text[m.start() - 1] if m.start() else " "
        if kind == "walk" and before == "." and not re.search(r"(?:ghost )?use [^\n]*$", text[: m.start()].rsplit("\n", 1)[-1]):
            return table[w] if w in FIELDS else w
        return table[w]

    if kind == "page":
        return re.sub(r"`[^`\n]*`", lambda q: WORD.sub(lambda m: table.get(m[0], m[0]), q[0]), text)
    if kind == "code":
        out, at = [], 0
        for m in re.finditer(r"//[^\n]*|b?\"(?:\\.|[^\"\\])*\"", text):
            out.append(WORD.sub(lambda k: table.get(k[0], k[0]) if k[0] not in skip else k[0], text[at : m.start()]))
            out.append(re.sub(r"`[^`\n]*`", lambda q: WORD.sub(lambda k: table.get(k[0], k[0]), q[0]), m[0]) if m[0].startswith("//") else m[0])
            at = m.end()
        out.append(WORD.sub(lambda k: table.get(k[0], k[0]) if k[0] not in skip else k[0], text[at:]))
        return "".join(out)
    return WORD.sub(put, text)


FIELDS = set()


def main(argv):
    root = os.getcwd()
    found = declared(root)
    for p in files(root, (".antt",)):
        with open(p, encoding="utf-8") as f:
            FIELDS.update(n for n in re.findall(r"^  (?:pub )?([^\s(){}.;,@:]+) :", f.read(), re.M) if n in found)
    texts = {p: open(p, encoding="utf-8").read() for p in files(root, (".rt", ".antt"))}
    seen = {p: tokens(t) for p, t in texts.items()}
    by_new = defaultdict(set)
    for n in found:
        by_new[snake(n)].add(n)
    table, clashes = {}, {}
    for n in sorted(found, key=lambda n: ("-" in n, n)):
        new = snake(n)
        if "-" in n and (by_new[new] - {n} or any(n in s and new in s for p, s in seen.items())):
            new += LEMMA
        others = [p for p, s in seen.items() if n in s and ((new in words_hidden(p, texts[p]) and not (p.endswith(".antt") and new in GIVEN)) or any(table.get(o) == new for o in s))]
        if others:
            clashes[n] = others
            new += CLASH
        table[n] = new
    new_names = defaultdict(list)
    for n, w in table.items():
        new_names[w].append(n)
    if "--list" in argv:
        for n, w in table.items():
            print(n, w, *(["CLASH", *(os.path.relpath(p, root) for p in clashes[n][:3])] if n in clashes else []))
        for w, ns in new_names.items():
            if len(ns) > 1:
                print("TOGETHER", w, *ns)
        return 0
    for p, old in texts.items():
        t = old
        kind = "code" if p.endswith(".rt") else "spec" if bare(p, root) else "walk"
        given = [w for w in GIVEN if w in table.values()]
        if kind != "code" and given:
            t = re.sub(r"(?<![\w'.-])(" + "|".join(given) + r")(?![\w'-])", r"\1" + LEMMA, t)
        new = turned(t, table, foreign(t), kind)
        if new != old:
            with open(p, "w", encoding="utf-8") as f:
                f.write(new)
    first = dict(table)
    if os.path.exists(FIRST):
        with open(FIRST, encoding="utf-8") as f:
            first = {w: snake(w) for w in re.split(r"[,\s]+", f.read()) if w} | table
    for p in files(root, (".edit",)):
        t = open(p, encoding="utf-8").read()
        new = WORD.sub(lambda m: first.get(m[0], m[0]), t.replace("_≡_", "◌≡◌"))
        if new != t:
            with open(p, "w", encoding="utf-8") as f:
                f.write(new)
    for folder, dirs, names in os.walk(root):
        dirs[:] = [d for d in dirs if d not in (".git", "crates", "target", "tools")]
        for n in names:
            if n.endswith(".md"):
                p = os.path.join(folder, n)
                t = open(p, encoding="utf-8").read()
                new = turned(t, first, set(), "page")
                if new != t:
                    with open(p, "w", encoding="utf-8") as f:
                        f.write(new)
    return 0


if __name__ == "__main__":
    raise SystemExit(main(sys.argv[1:]))
