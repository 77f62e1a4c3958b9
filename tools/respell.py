#!/usr/bin/env python3
"""Brings the repository's own definitions and lemmas to one spelling: words in snake case, types and modules in camel case.

usage: tools/respell.py          at the top of a tree that /opt/rattle/port/port.py has turned; once
       tools/respell.py --table  prints the table, old and new, and writes nothing

A name turns if a file of specs/ or proofs/ declares it and it begins with a small letter: `usedAt` and `used-at` become `used_at`. Where two
names would fall together, the definition in camel case gets the plain form and the lemma with a dash gets `_lem` behind it. A name that a library of
the kit has too turns only in files that declare it or import it from this repository. What turns: specs/ and proofs/; in a .rt file the clauses,
`ghost` items and code spans of comments; the old and new lines of must-fail edits of specs/ and proofs/. Names of Rattle functions, and what the check
names after them, stay.
"""
import collections
import glob
import os
import re
import sys

TOP = os.path.dirname(os.path.dirname(os.path.realpath(__file__)))
WORD = re.compile(r"[^\s(){}.;,@\"«»`]+")
DECLARED = re.compile(r"^([ \t]*)((?:(?:abbrev|unfoldable|pub|where|constructor) +)*)([^\s(){}.;,@\"«»:]+) : ", re.M)
CAMEL = re.compile(r"[a-z][\w']*?[a-z0-9][A-Z]")


def texts(pattern):
    return sorted(p for p in glob.glob(os.path.join(TOP, "crates", pattern), recursive=True) if "/out/" not in p)


def read(path):
    with open(path, encoding="utf-8") as f:
        return f.read()


def write(path, text):
    with open(path, "w", encoding="utf-8") as f:
        f.write(text)


def bare(text):
    """The text without its comments."""
    return re.sub(r"--[^\n]*", "", text)


def snake(name):
    name = re.sub(r"(?<=[a-z0-9'])([A-Z])", lambda m: "_" + m.group(1).lower(), name)
    return name.replace("-", "_")


def turns(name):
    return name[0].islower() and name.isascii() is not None and ("-" in name.strip("-") or bool(CAMEL.match(name))) and not name.startswith("Need")


def in_function(path):
    """Whether a file of proofs/ is the proof of a Rattle function."""
    return os.path.basename(path) in ("Proof.antt", "Invariants.antt", "Answers.antt")


def ghost_parts(text):
    """The spans of a .rt file that are ghost: `ghost` items and clauses."""
    spans = []
    for m in re.finditer(r"ghost\s+use\b[^;]*;", text):
        spans.append(m.span())
    for m in re.finditer(r"(?:\b(?:requires|ensures)\*?(?:\s+\w+)?\s*|\bghost\b[^;{}\n]*)\{", text):
        depth, at = 1, m.end()
        while depth and at < len(text):
            depth += {"{": 1, "}": -1}.get(text[at], 0)
            at += 1
        spans.append((m.end() - 1, at))
    for m in re.finditer(r"//[^\n]*", text):
        for n in re.finditer(r"`[^`\n]*`", m.group()):
            spans.append((m.start() + n.start(), m.start() + n.end()))
    spans.sort()
    return spans


def build():
    antts = texts("**/*.antt")
    declared = collections.defaultdict(set)
    fields = set()
    tokens = set()
    outside = set()
    tokens_of_goals = set()
    for p in antts:
        t = bare(read(p))
        tokens.update(WORD.findall(re.sub(r"^use [^\s{]+", "", re.sub(r"(?<=[\w)'])\.[^\s(){}.;,@\"«»`]+", "", t), flags=re.M)))
        for m in re.finditer(r"^use ([^\s{]+?)\.?(?:\{([^}]*)\})?$", t, re.M):
            if not re.match(r"Rattle\.(?!std\b)", m.group(1)):
                outside.update(w.strip() for w in (m.group(2) or "").split(","))
        for m in DECLARED.finditer(t):
            name = m.group(3)
            rest = t[m.end():m.end() + 40]
            if in_function(p) and re.match(r"(?:tie|goal)\.|\{M : Type 1\}", rest):
                tokens_of_goals.add(name)
                continue
            declared[name].add(p)
            if m.group(1):
                fields.add(name)
    for p in texts("**/src/**/*.rt"):
        t = read(p)
        for a, b in ghost_parts(t):
            tokens.update(WORD.findall(re.sub(r"\bRattle\.[\w.]+|\w+\.(?:now|old|new)\b", "", t[a:b])))
    names = [n for n in declared if turns(n)]
    tokens -= tokens_of_goals - set(declared)
    to = {n: snake(n) for n in names}
    table = {}
    by_new = collections.defaultdict(list)
    for n in names:
        by_new[to[n]].append(n)
    for new, olds in by_new.items():
        taken = new in tokens and new not in to
        camel = [n for n in olds if "-" not in n]
        if taken and new in declared and camel:
            table[new] = new + "_lem"
            taken = False
        for n in sorted(olds, key=lambda n: ("-" in n, n)):
            if not taken:
                table[n] = new
                taken = True
            else:
                table[n] = new + "_lem" if "-" in n else new + "_of"
    clash = collections.Counter(table.values())
    assert all(k == 1 for k in clash.values()), [k for k in clash if clash[k] > 1]
    assert not [v for v in table.values() if v.endswith("_lem") and v in tokens]
    return table, declared, fields, outside


def turn_words(text, table, fields, quiet, after_dot):
    def one(m):
        w = m.group()
        if w not in table or w in quiet:
            return w
        before = m.string[:m.start()]
        if before.endswith(".") and not after_dot and w not in fields:
            return w
        return table[w]
    return WORD.sub(one, text)


def turn_antt(p, text, table, declared, fields, outside):
    quiet = set()
    for n in outside & set(table):
        mine = p in declared[n] or re.search(r"use Rattle\.(?!std\b)[^\n]*[{ ,]" + re.escape(n) + r"[,} \n]", text)
        if not mine:
            quiet.add(n)
    after_dot = not in_function(p)
    out = []
    for part in re.split(r"(--[^\n]*)", text):
        if part.startswith("--"):
            part = re.sub(r"(`[^`]*`)", lambda m: turn_words(m.group(), table, fields, quiet, True), part)
            part = turn_words_of_comment(part, table)
        else:
            part = turn_words(part, table, fields, quiet, after_dot)
        out.append(part)
    return "".join(out)


def turn_words_of_comment(part, table):
    """A bare word of a comment turns if it is a definition in camel case."""
    return WORD.sub(lambda m: table[m.group()] if m.group() in table and CAMEL.match(m.group()) else m.group(), part)


def turn_edit(text, table, declared):
    """A must-fail edit of specs/ or proofs/: the names, and projections written tight. Names that port.py turned are known by their snake form."""
    after = set(table.values()) | set(declared)

    def one(m):
        w = m.group()
        if w in table:
            return table[w]
        return snake(w) if turns(w) and snake(w) in after else w

    out, antt = [], False
    for line in text.split("\n"):
        if line.startswith("file: "):
            antt = line.endswith(".antt")
        elif antt and line[:5] in ("old: ", "new: "):
            body = re.sub(r"(?<=[\w)'\]]) \.(?=[\w])", ".", line[5:])
            body = re.sub(r"\(([\w']+(?:\.[\w']+)+)\)", r"\1", body)
            body = re.sub(r"List·(?=Mem)", "Mem", body).replace("Rattle·model.", "Rattle.model.")
            line = line[:5] + WORD.sub(one, body)
        out.append(line)
    return "\n".join(out)


def main():
    table, declared, fields, outside = build()
    if "--table" in sys.argv:
        for k in sorted(table):
            print(k + "\t" + table[k])
        return
    for p in texts("**/*.antt"):
        t = read(p)
        new = turn_antt(p, t, table, declared, fields, outside)
        if new != t:
            write(p, new)
    for p in texts("**/src/**/*.rt"):
        t = read(p)
        out, at = [], 0
        for a, b in ghost_parts(t):
            if a < at:
                continue
            out += [t[at:a], turn_words(t[a:b], table, fields, set(), True)]
            at = b
        out.append(t[at:])
        if "".join(out) != t:
            write(p, "".join(out))
    for p in sorted(glob.glob(os.path.join(TOP, "crates", "*", "must-fail", "*.edit"))):
        t = read(p)
        new = turn_edit(t, table, declared)
        if new != t:
            write(p, new)


main()
