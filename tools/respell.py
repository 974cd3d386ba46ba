#!/usr/bin/env python3
"""Brings this repository's own names to today's spelling, by respell.tsv beside it: old name, a tab, new name.

usage: tools/respell.py            at the top, once, right after the kit's port.py

Turned are whole words of antt (specs/, proofs/, the clauses and `ghost use` lines of src/, must-fail edits), and names that README and docs/
set as code. A function, a field of src/, a string and an exported name keep theirs. What is turned:

    decodedOf -> decoded_of            a value in snake case
    command-back -> command_back       the library's dash is for a name of two functions; these are words
    word-cases -> word_cases_lem       a lemma that would have its definition's name
"""

import glob
import os
import re

HERE = os.path.dirname(os.path.realpath(__file__))
WORD = re.compile(r'[^\s(){}.;,@"«»]+')
PLAIN = re.compile(r"[a-z0-9_']+\Z")
# names that are plain already and meet a respelled definition, each in its own crate alone
OWN = {"first_taken": "streams", "no_kind": "demands", "stepped_by": "chain", "word_test": "demands"}
# a name that an import gave, and that meets a respelled definition in that file
ALIASES = {"crates/streams/proofs/Holds.antt": ("first_of", "held_first")}


def table():
    with open(os.path.join(HERE, "respell.tsv"), encoding="utf-8") as f:
        return dict(line.rstrip("\n").split("\t") for line in f)


def camel(word):
    return re.search(r"[a-z0-9][A-Z]", word) is not None


def turned(word, rows, crate):
    if word in OWN and OWN[word] != crate:
        return word
    return rows.get(word, word)


def antt(text, rows, crate, walks):
    """A file of antt: its code, and of its comments the names that its code has."""
    lines = text.split("\n")
    code = [re.split(r"(?<!\S)--(?=\s|$)", line, maxsplit=1) for line in lines]
    has = {w for part in code for w in WORD.findall(part[0])}

    def in_code(m):
        word = m[0]
        behind = m.start() and m.string[m.start() - 1] == "."
        if behind and walks and not camel(word):
            return word
        return turned(word, rows, crate)

    def in_comment(m):
        word = m[0].rstrip(":'`s") if m[0] not in rows else m[0]
        head = m[0].strip("`:")
        if head in rows and (camel(head) or head in has) and head not in OWN:
            return m[0].replace(head, rows[head])
        return m[0]

    out = []
    for part in code:
        line = WORD.sub(in_code, part[0])
        if len(part) > 1:
            line += "--" + WORD.sub(in_comment, part[1])
        out.append(line)
    return "\n".join(out)


def rust(text, rows, crate):
    """A file of Rust: camel case outside strings, and every name of a `ghost use` line."""
    out = []
    for line in text.split("\n"):
        if line.lstrip().startswith("ghost use "):
            line = WORD.sub(lambda m: turned(m[0], rows, crate), line)
        else:
            parts = re.split(r'("(?:\\.|[^"\\])*")', line)
            for i in range(0, len(parts), 2):
                parts[i] = re.sub(r"(?<![\w'-])[a-z]\w*[A-Z]\w*(?![\w'-])", lambda m: rows.get(m[0], m[0]), parts[i])
            line = "".join(parts)
        out.append(line)
    return "\n".join(out)


def page(text, rows):
    """A page: names in camel case, and in code spans names with dashes."""
    text = re.sub(r"(?<![\w'/.-])[a-z]\w*[A-Z]\w*(?![\w'-])", lambda m: rows.get(m[0], m[0]), text)
    span = lambda m: WORD.sub(lambda w: rows.get(w[0], w[0]) if w[0] not in OWN else w[0], m[0][1:-1])
    return re.sub(r"`[^`\n]+`", lambda m: "`" + span(m) + "`", text)


def main():
    os.chdir(os.path.join(HERE, ".."))
    rows = table()
    changed = 0
    paths = []
    for kind in ("specs", "proofs"):
        paths += glob.glob(f"crates/*/{kind}/**/*.antt", recursive=True)
    paths += glob.glob("crates/*/src/**/*.rt", recursive=True) + glob.glob("crates/*/must-fail/*.edit")
    paths += ["README.md"] + glob.glob("docs/**/*.md", recursive=True)
    for path in sorted(paths):
        with open(path, encoding="utf-8") as f:
            old = f.read()
        crate = path.split("/")[1] if path.startswith("crates/") else ""
        text = old
        if path in ALIASES:
            was, now = ALIASES[path]
            text = re.sub(rf"(?<![\w.-]){was}(?![\w.-])", now, text)
        if path.endswith(".antt"):
            text = antt(text, rows, crate, "/proofs/" in path and os.path.basename(path) == "Proof.antt")
        elif path.endswith(".rt"):
            text = rust(text, rows, crate)
        elif path.endswith(".edit"):
            text = WORD.sub(lambda m: turned(m[0], rows, crate) if camel(m[0]) or m[0] in OWN else rows.get(m[0], m[0]), text)
        else:
            text = page(text, rows)
        if text != old:
            with open(path, "w", encoding="utf-8") as f:
                f.write(text)
            changed += 1
    print(f"respell: {len(rows)} names, {changed} files")


if __name__ == "__main__":
    main()
