#!/usr/bin/env python3
"""Spells this repository's own names as today's Rattle does: words in snake case, and a dash only where it joins two names.

usage: python3 tools/spelling.py            at the top of the repository, once, right after port.py

- A name like `walkAnswer` becomes `walk_answer`, wherever it stands: in specs/, in proofs/, in the clauses and comments of src/, in must-fail edits and in pages.
- A lemma like `words-more` becomes `words_more`, since `more` is a plain word. `length-words_of` keeps its dash: both are names.
- A lemma that would fall together with another name gets `_lem` at its end.
- A fact that is a type keeps its capital at the head of a lemma's name: `NotLess_trans`.
"""

import os
import re
import sys

NAME = r"[^\s(){}.;,@\"«»\[\]\\`|:']+'*"
CAMEL = re.compile(r"[a-z](?:\w*[a-z0-9])?[A-Z]\w*\Z")
HEX = re.compile(r"0?x[0-9A-F_]+\Z")
DECLARED = re.compile(r"(?m)^(?:abbrev |unfoldable )?(?:pub )?(?:abbrev |unfoldable )?(%s)(?: \{[^{}\n]*\})* :(?= |$)" % NAME)
INNER = re.compile(r"(?m)^ +(?:pub )?(%s) :(?= |$)" % NAME)
IMPORTED = re.compile(r"(?m)^(?:ghost )?use [^\s{]+\.\{([^}]*)\}")


def texts(*endings):
    for top in ("crates", "docs", "README.md"):
        if os.path.isfile(top) and top.endswith(endings):
            yield top
        for folder, dirs, files in os.walk(top):
            dirs[:] = sorted(d for d in dirs if d != "out")
            for f in sorted(files):
                if f.endswith(endings):
                    yield os.path.join(folder, f)


def read(path):
    with open(path, encoding="utf-8") as f:
        return f.read()


def snake(word):
    """walkAnswer -> walk_answer, f32At -> f32_at, twoSMinusQ -> two_s_minus_q."""
    word = re.sub(r"(?<=[A-Z])(?=[A-Z][a-z])", "_", word)
    return re.sub(r"(?<=[a-z0-9])(?=[A-Z])", "_", word).lower()


def is_law_file(path):
    return path.endswith(".antt") and not path.endswith("/Proof.antt")


def main():
    antt = [p for p in texts(".antt")]
    all_text = "\n".join(re.sub(r"--[^\n]*", "", read(p)) for p in antt)
    tokens = set(re.findall(NAME, all_text))
    types = {t for t in tokens if re.match(r"[A-Z]", t)}
    declared, lemmas, inner = set(), [], set()
    for p in antt:
        if is_law_file(p):
            t = read(p)
            names = DECLARED.findall(t)
            declared.update(names)
            inner.update(INNER.findall(t))
            lemmas += [n for n in names + INNER.findall(t) if "-" in n]
    imported = set()
    for p in antt:
        for m in IMPORTED.findall(read(p)):
            imported.update(n.strip() for n in m.split(","))

    table = {}
    for t in sorted(tokens):
        for part in re.split(r"-", t):
            if CAMEL.match(part) and not HEX.match(part):
                head = part[0].upper() + part[1:]
                table[part] = head if t.startswith(part + "-") and head in types else snake(part)
    known = {table.get(n, n) for n in declared | imported if "-" not in n and re.match(r"[a-z]", n)}

    def turned(word):
        return "-".join(table.get(p, p) for p in word.split("-"))

    def is_name(words, at_head):
        """Whether the words are a name, or begin with one, as `set_same` does with `set`."""
        if at_head:
            return "_".join(words) in known or words[0][0].isupper()
        return any("_".join(words[: k + 1]) in known for k in range(len(words)))

    taken = {turned(t) for t in tokens if "-" not in t} | known
    words = dict(table)
    for n in sorted(set(lemmas)):
        parts = turned(n).split("-")
        new = parts[0]
        for at in range(1, len(parts)):
            left = re.split(r"[-]", new)[-1].split("_") if "-" in new else new.split("_")
            joins = is_name(left, True) and is_name([q for p in parts[at:] for q in p.split("_")], False)
            new += ("-" if joins else "_") + parts[at]
        if new in taken:
            new += "_lem"
        if new in taken:
            print("left: %s, which would fall together with another name" % n)
            continue
        taken.add(new)
        if new != n:
            words[n] = new

    for a, b in sorted(table.items()):
        if a in declared and b in declared:
            words[b] = b + "_lem"

    def turn(m):
        """A lemma's name turns only where it stands alone: behind a dot it would be a field or a step."""
        behind = m.string[m.start() - 1 : m.start()] == "."
        return m[0] if behind and "-" in m[1] and m[1] not in inner else words[m[1]]

    token = re.compile(r"(?<![\w'-])(%s)(?![\w'-])" % "|".join(sorted(map(re.escape, words), key=len, reverse=True)))
    camel = re.compile(r"(?<![\w'-])(%s)(?![\w'-])" % "|".join(sorted(map(re.escape, table), key=len, reverse=True)))
    # What port.py spelled anew in the texts, it left in the pages and the edits.
    old = re.compile(r"(?<![\w'./-])([a-z][a-z0-9]*[A-Z]\w*)(?![\w'(-])")
    snakes = taken | set(words.values())

    def also_old(m):
        return snake(m[0]) if snake(m[0]) in snakes else m[0]

    def code_span(m):
        return old.sub(also_old, token.sub(lambda n: words[n[1]], m[0]))

    changed = 0
    for p in texts(".antt", ".rt", ".edit", ".md"):
        t = read(p)
        if p.endswith(".antt"):
            new = token.sub(turn, t)
        elif p.endswith(".rt"):
            new = camel.sub(lambda m: table[m[1]], t)
        elif p.endswith(".edit"):
            new = old.sub(also_old, camel.sub(lambda m: table[m[1]], t))
        else:
            new = re.sub(r"`[^`\n]+`", code_span, t)
        if new != t:
            changed += 1
            with open(p, "w", encoding="utf-8") as f:
                f.write(new)
    for a in sorted(words):
        print("%s\t%s" % (a, words[a]))
    print("spelling: %d names, %d files" % (len(words), changed), file=sys.stderr)


if __name__ == "__main__":
    main()
