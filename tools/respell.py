#!/usr/bin/env python3
"""Brings the repository's own definitions and lemmas to snake case: `comesBefore` is `comes_before`, `same-lengths` is `same_lengths`.

usage: python3 tools/respell.py        at the top of the repository, once, after the spelling of the kit was brought up to date
       python3 tools/respell.py list   the new names, one a line, and the names that fall together; writes nothing

Run it over what the kit's own script made, before that is committed: eight pairs of names fell together there (`codeOf` and `code-of`), and the committed text tells which
was which. A lemma whose name a definition has gets `_lem`.

Types and modules keep their capitals, and so does a fact's name inside a lemma's. Functions of src/, strings, inputs and outputs keep their names:
only names that a file of specs/ or proofs/ declares are turned, in .antt files, in the clauses of .rt files, in must-fail edits and, between backticks, in pages.
"""
import glob
import os
import re
import subprocess
import sys

DECLARED = re.compile(r"^\s*(?:(?:abbrev|unfoldable|pub|mutual)\s+)*([^\s:(){}.,;\"|↦]+)\s*(?:\{[^}]*\}\s*)*:\s")
TOKEN = re.compile(r"[^\s(){}.,;\"`«»]+")
USE = re.compile(r"\buse\s+([^\s{]+?)\.\{([^}]*)\}", re.S)
TABLE = re.compile(r"^(--   )((?:[^\s]+ )*[^\s]+)(  .*)?$")


def own_names():
    names = set()
    for f in glob.glob("crates/*/specs/*.antt") + glob.glob("crates/*/proofs/*.antt"):
        for line in open(f, encoding="utf-8"):
            m = DECLARED.match(line)
            if m:
                names.add(m.group(1))
    return names


def snake(name):
    parts = []
    for part in name.split("-"):
        if part[:1].isupper():
            parts.append(part)
        else:
            parts.append(re.sub(r"(?<=[a-z0-9])([A-Z])", lambda m: "_" + m.group(1).lower(), part))
    return "_".join(parts)


def turning(names):
    table = {}
    turned = sorted(n for n in names if "◌" not in n and snake(n) != n)
    defs = {snake(n) for n in turned if "-" not in n}
    for n in turned:
        new = snake(n)
        if "-" in n and (new in defs or new in names):
            new += "_lem"
        table[n] = new
    for n in names:
        if n in defs:
            table[n] = n + "_lem"
    return table


FELL = {"all_of": ("all-of", "allOf"), "code_of": ("code-of", "codeOf"), "first_of": ("first-of", "firstOf"), "found_at": ("found-at", "foundAt"),
        "found_from": ("found-from", "foundFrom"), "node_of": ("node-of", "nodeOf"), "pair_of": ("pair-of", "pairOf"), "word_at": ("word-at", "wordAt")}


def part(path, text):
    """Parts what fell together, by the committed text."""
    got = subprocess.run(["git", "show", "HEAD:" + path], capture_output=True)
    if got.returncode:
        return text
    before = got.stdout.decode()
    for new, (lemma, definition) in FELL.items():
        old = [w for w in TOKEN.findall(before) if w in (lemma, definition, new)]
        if lemma not in old:
            continue
        now = [w for w in TOKEN.findall(text) if w == new]
        if len(old) != len(now):
            print(path, new, "left: the counts differ", len(old), len(now))
            continue
        turn = iter(old)
        text = TOKEN.sub(lambda m: (new + "_lem" if next(turn) == lemma else new) if m.group(0) == new else m.group(0), text)
    return text


def crates():
    return {os.path.basename(os.path.dirname(p)) for p in glob.glob("crates/*/src")}


def foreign(text, own):
    """The names that a file takes from a library of the kit."""
    out = set()
    for m in USE.finditer(text):
        head = m.group(1).split(".")
        if head[0] == "Rattle" and len(head) > 1 and head[1] in own:
            continue
        out |= {w.strip() for w in m.group(2).split(",")}
    return out


def turn_text(text, table, skip, dotted):
    paths = [(m.start(1), m.end(1)) for m in USE.finditer(text)]
    at = 0

    def one(m):
        nonlocal at
        w = m.group(0)
        if w in skip or w not in table:
            return w
        while at < len(paths) and paths[at][1] <= m.start():
            at += 1
        if at < len(paths) and paths[at][0] <= m.start():
            return w
        if not dotted and m.start() > 0 and text[m.start() - 1] == "." and not text[: m.start()].endswith("·."):
            return w
        return table[w]

    return TOKEN.sub(one, text)


def spelled(table):
    """The names whose spelling says that they are to be turned."""
    return {old: new for old, new in table.items() if not re.fullmatch(r"[a-z0-9_']+", old)}


def turn_comment(line, table):
    """In a comment a name with a capital is a name; one with a dash is, at the head of a table or between backticks."""
    m = TABLE.match(line)
    if m:
        head = TOKEN.sub(lambda t: table.get(t.group(0), t.group(0)), m.group(2))
        rest = m.group(3) or ""
        grown = len(head) - len(m.group(2))
        if rest and grown > 0:
            gap = len(rest) - len(rest.lstrip(" "))
            rest = " " * max(2, gap - grown) + rest.lstrip(" ")
        elif rest and grown < 0:
            rest = " " * -grown + rest
        line = m.group(1) + head + rest
    line = TOKEN.sub(lambda t: table[t.group(0)] if t.group(0) in table and "-" not in t.group(0) else t.group(0), line)
    return re.sub(r"`([^`]*)`", lambda t: "`" + TOKEN.sub(lambda u: table.get(u.group(0), u.group(0)), t.group(1)) + "`", line)


def turn_antt(text, table, own, inner):
    skip = foreign(text, own)
    out, code = [], []

    def flush():
        if code:
            out.append(turn_text("\n".join(code), table, skip, not inner))
            code.clear()

    for line in text.split("\n"):
        if line.lstrip().startswith("--"):
            flush()
            out.append(turn_comment(line, spelled(table)))
        else:
            code.append(line)
    flush()
    return "\n".join(out)


def turn_rt(text, table, own):
    skip = foreign(text, own)
    lines = []
    for line in text.split("\n"):
        if line.lstrip().startswith("//"):
            lines.append(turn_comment(line, table))
        else:
            lines.append(turn_text(line, table, skip, True))
    return "\n".join(lines)


def main():
    names = own_names()
    table = turning(names)
    if sys.argv[1:] == ["list"]:
        seen = {}
        for old, new in table.items():
            print(old, new)
            if new in seen or new in names and new not in table:
                print("TOGETHER", old, new, seen.get(new))
            seen[new] = old
        for f in sorted(glob.glob("crates/**/*.antt", recursive=True) + glob.glob("crates/**/*.rt", recursive=True)):
            words = set(TOKEN.findall(open(f, encoding="utf-8").read()))
            for w in words:
                if w in table and table[w] in words and table[w] not in table:
                    print("BESIDE", f, w, table[w])
        return
    own = crates()
    clauses = spelled(table)
    for f in sorted(glob.glob("crates/**/*", recursive=True)):
        if not os.path.isfile(f) or "/out/" in f:
            continue
        parts = f.split("/")
        if f.endswith(".antt"):
            inner = parts[2] == "proofs" and len(parts) > 4
            with open(f, encoding="utf-8") as h:
                text = h.read()
            new = turn_antt(part(f, text), table, own, inner)
        elif f.endswith(".rt"):
            with open(f, encoding="utf-8") as h:
                text = h.read()
            new = turn_rt(part(f, text), clauses, own)
        elif f.endswith(".edit"):
            with open(f, encoding="utf-8") as h:
                text = h.read()
            new = turn_text(text, clauses, set(), True)
        else:
            continue
        if new != text:
            with open(f, "w", encoding="utf-8") as h:
                h.write(new)
    for f in ["README.md"] + sorted(glob.glob("docs/**/*.md", recursive=True)):
        with open(f, encoding="utf-8") as h:
            text = h.read()
        new = re.sub(r"`([^`\n]*)`", lambda t: "`" + TOKEN.sub(lambda u: clauses.get(u.group(0), u.group(0)), t.group(1)) + "`", text)
        if new != text:
            with open(f, "w", encoding="utf-8") as h:
                h.write(new)


main()
