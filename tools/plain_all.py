#!/usr/bin/env python3
"""The library's `AllByRecursion` goes by its own name: the gate takes no other thing under the name `All`.

usage: python3 tools/plain_all.py    at the top of the repository, once, after tools/respell.py
"""

import os
import re

ALIAS = "AllByRecursion as All"
WORD = re.compile(r"(?<![\w.'\-])All(?![\w'\-])")


def main():
    for folder, dirs, names in os.walk("crates"):
        dirs[:] = sorted(d for d in dirs if d != "out")
        for name in sorted(names):
            path = os.path.join(folder, name)
            if not name.endswith((".antt", ".rt", ".edit")):
                continue
            with open(path, encoding="utf-8") as f:
                text = f.read()
            if ALIAS not in text and not name.endswith(".edit"):
                continue
            new = WORD.sub("AllByRecursion", text.replace(ALIAS, "AllByRecursion"))
            if new != text:
                with open(path, "w", encoding="utf-8") as f:
                    f.write(new)


main()
