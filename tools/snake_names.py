#!/usr/bin/env python3
"""Brings the repository's own names in specs/, proofs/ and clauses to today's spelling: words in snake case (`node-modes` becomes `node_modes`).

usage: python3 tools/snake_names.py [--say]      at the top of the repository, once, after the kit's port.py

A name is the repository's own where a file of crates/ declares it: a definition, a lemma, a field, a constructor or a bound variable. A name that is
imported from elsewhere stays, as do the names of goals behind `tie.`, file and folder names, functions of src/, strings and comments' other words.
Says each new spelling that the repository had for something else already. With --say it only says.
"""
import os
import re
import sys
from collections import Counter, defaultdict

NAME = r"[^\s(){}\[\];.,:\"`«»@]+"
HYPHEN = re.compile(r"(?<=[\w'])-(?=\w)")
TOKEN = re.compile(NAME)
IMPORT = re.compile(r"^(?:ghost\s+|pub\s+)*use\s+([^{;]+?)\.?\{([^}]*)\}", re.M | re.S)


def files():
    for folder, dirs, names in os.walk("crates"):
        dirs[:] = sorted(d for d in dirs if d not in ("out", "target"))
        for name in sorted(names):
            if name.endswith((".antt", ".rt")):
                yield os.path.join(folder, name)


def bare(line, rt):
    """The line without its comment."""
    mark = "//" if rt else "--"
    i = line.find(mark)
    while i > 0 and not rt and not line[i - 1].isspace():
        i = line.find(mark, i + 2)
    return (line, "") if i < 0 else (line[:i], line[i:])


def declared(text):
    for line in text.split("\n"):
        line, _ = bare(line, False)
        m = re.match(r"\s*(?:pub |abbrev |unfoldable |data |record |ruleset )*((?:%s\s+)+)[:({=]" % NAME, line)
        if m and not re.match(r"\s*(use|in|let|where)\b", line):
            yield from m.group(1).split()
        for m in re.finditer(r"[({]\s*((?:%s\s+)+):\s" % NAME, line):
            yield from m.group(1).split()
        for m in re.finditer(r"λ\s+((?:%s\s*|\([^()]*\)\s*)+)\." % NAME, line):
            yield from TOKEN.findall(m.group(1))
        for m in re.finditer(r"\b(?:let|as)\s+(%s)" % NAME, line):
            yield m.group(1)


def main():
    say = "--say" in sys.argv
    own, foreign, all_tokens = set(), set(), Counter()
    where = defaultdict(set)
    texts = {}
    for path in files():
        with open(path, encoding="utf-8") as f:
            texts[path] = f.read()
        text = texts[path]
        crates = set(os.listdir("crates"))
        for m in IMPORT.finditer(text):
            root = m.group(1).strip().split(".")
            if not (root[0] == "Rattle" and len(root) > 1 and root[1] in crates):
                foreign.update(TOKEN.findall(m.group(2)))
        if path.endswith(".antt"):
            own.update(n for n in declared(text))
        for line in text.split("\n"):
            for t in TOKEN.findall(bare(line, path.endswith(".rt"))[0]):
                all_tokens[t] += 1
                where[t].add(path)
    own = {n for n in own if HYPHEN.search(n) and not n.startswith("-")} - foreign
    turn = {n: HYPHEN.sub("_", n) for n in own}
    fall = [(n, t) for n, t in sorted(turn.items()) if t in all_tokens]
    for n, t in fall:
        print(f"already there: {n} -> {t}: {len(where[n] & where[t])} files hold both")
    double = Counter(turn.values())
    for n, t in sorted(turn.items()):
        if double[t] > 1:
            print(f"two fall together: {n} -> {t}")
    left = [(t, k) for t, k in all_tokens.most_common() if HYPHEN.search(t) and t not in turn and t not in foreign]
    print(f"own: {len(turn)}; left as they are: {len(left)}")
    if say:
        print(" ".join(f"{t}:{k}" for t, k in left))
        return
    changed = 0
    for path, text in texts.items():
        rt = path.endswith(".rt")
        out = []
        for line in text.split("\n"):
            code, comment = bare(line, rt)

            def one(m):
                t = m.group(0)
                if code[:m.start()].endswith("tie."):
                    return t
                return turn.get(t, t)

            code = TOKEN.sub(one, code)
            # a comment names a definition between backticks or bare: the whole word only
            comment = TOKEN.sub(lambda m: turn.get(m.group(0), m.group(0)) if "`" in comment else m.group(0), comment)
            out.append(code + comment)
        new = "\n".join(out)
        if new != text:
            changed += 1
            with open(path, "w", encoding="utf-8") as f:
                f.write(new)
    print(f"changed: {changed} files")


main()
