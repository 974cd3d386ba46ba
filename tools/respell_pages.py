#!/usr/bin/env python3
"""Brings names in README and docs/ to the spelling that the crates have: what the kit's port.py turned in the crates, pages still had.

usage: tools/respell_pages.py      at the top; a name of a page is turned where the crates have it with underscores and not as it stands
"""

import glob
import os
import re

os.chdir(os.path.join(os.path.dirname(os.path.abspath(__file__)), ".."))
NAME = re.compile(r"[A-Za-z][A-Za-z0-9_']*(?:-[A-Za-z0-9_']+)+|[a-z]+[a-z0-9]*[A-Z]\w*")

names = set()
for path in (
    glob.glob("crates/*/specs/**/*.antt", recursive=True)
    + glob.glob("crates/*/proofs/**/*.antt", recursive=True)
    + glob.glob("crates/*/src/**/*.rt", recursive=True)
):
    with open(path, encoding="utf-8") as f:
        names |= set(re.findall(r"[^\s(){}.;,@\"«»:<>&\[\]!?=|`]+", f.read()))


def turned(m):
    old = m[0]
    new = re.sub(r"(?<=[a-z0-9])[A-Z]", lambda c: "_" + c[0].lower(), old).replace("-", "_")
    if old == "FN-unique":
        return "FN_unique"
    return new if old not in names and new in names else old


for path in ["README.md"] + sorted(set(glob.glob("docs/*.md")) - {"docs/PORT.md"}):
    with open(path, encoding="utf-8") as f:
        text = f.read()
    # an option of the command keeps its dash
    new = re.sub(r"`[^`\n]+`", lambda m: m[0] if m[0].startswith("`--") else NAME.sub(turned, m[0]), text)
    if new != text:
        with open(path, "w", encoding="utf-8") as f:
            f.write(new)
        print(path)
