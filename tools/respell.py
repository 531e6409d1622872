#!/usr/bin/env python3
"""Brings the repository's own names in specs/ and proofs/ to one spelling: definitions, lemmas and fields in snake case,
types, facts and modules in camel case, a prime as an apostrophe.

usage: python3 tools/respell.py    at the top of the repository, once, after the toolchain's own script
Names of src/, of the library and of what the checker makes (goals and steps) stay. It lists names that would fall together, and then changes nothing.
"""

import os
import re
import subprocess
import sys

TOKEN = re.compile(r"[^\W\d][\w'′]*(?:-[\w'′]+)*")
DECLARED = re.compile(r"^\s*(?:(?:pub|abbrev|unfoldable|record|data)\s+)*(?P<name>[^\W\d][\w'′]*(?:-[\w'′]+)*)\s*(?:\([^:]*:.*\)\s*|\{[^:]*:.*\}\s*)*:\s*(?P<type>.*)$")
RECORD = re.compile(r"^\s*(?:pub\s+)?(?:record|data)\s+(?P<name>[^\W\d][\w'′]*(?:-[\w'′]+)*)")
LET = re.compile(r"\blet ([^\W\d][\w'′]*(?:-[\w'′]+)*)\s*[=:]")
BOUND = re.compile(r"[(λ{]\s*((?:[^\W\d][\w'′]*(?:-[\w'′]+)*\s+)*[^\W\d][\w'′]*(?:-[\w'′]+)*)\s*[:.,)]")
CLAUSE = re.compile(r"^\s*[^\W\d][\w'′\-]*((?: [^=]*)?) =(?: |$)")
ALIAS = re.compile(r"\bas ([^\W\d][\w'′]*(?:-[\w'′]+)+)")
USE = re.compile(r"^\s*(?:pub |ghost )?use\s+([\w.\-'◌]+?)\.\{([^}]*)\}", re.M)
MOD = re.compile(r"^\s*(?:pub )?mod ([\w\-]+)\s*$", re.M)


def files(*endings):
    for folder, dirs, names in os.walk("crates"):
        dirs[:] = sorted(d for d in dirs if d != "out")
        for name in sorted(names):
            if name.endswith(endings):
                yield os.path.join(folder, name)


def read(path):
    with open(path, encoding="utf-8") as f:
        return f.read()


def camel(name):
    return "".join(part[:1].upper() + part[1:] for part in name.split("-"))


def respelled(name):
    name = name.replace("′", "'").replace("getD", "get_or")
    return camel(name) if name[0].isupper() else name.replace("-", "_")


def own_names():
    """The names that the repository declares, those that it takes from elsewhere, and those that the checker makes."""
    own, others, made = set(), set(), set()
    for path in files(".antt"):
        text = read(path)
        for line in text.split("\n"):
            if line.lstrip().startswith("use "):
                own.update(ALIAS.findall(line))
            if line.lstrip().startswith(("--", "use ")):
                continue
            found = CLAUSE.match(line)
            if found:
                own.update(n for n in re.findall(r"(?<![\w.'′\-])[^\W\d][\w'′]*(?:-[\w'′]+)+", found.group(1)))
            found = DECLARED.match(line)
            if found:
                (made if found["type"].startswith(("goal.", "tie.")) else own).add(found["name"])
            found = RECORD.match(line)
            if found:
                own.add(found["name"])
            own.update(LET.findall(line))
            for group in BOUND.findall(line):
                own.update(n for n in group.split() if "′" in n or "-" in n)
    for path in files(".antt", ".rt"):
        for module, names in USE.findall(read(path)):
            if module.startswith("Rattle.") and os.path.isdir(os.path.join("crates", module.split(".")[1])):
                continue
            for name in names.split(","):
                others.add(name.split(" as ")[0].strip())
    return own, others, made


def changed(text, names):
    return TOKEN.sub(lambda m: names.get(m.group(0), m.group(0)), text)


def main():
    own, others, made = own_names()
    wanted = sorted(n for n in own if ("-" in n or "′" in n) and n not in others and n not in made)
    names = {n: respelled(n) for n in wanted}
    taken = {}
    bad = 0
    for old, new in names.items():
        if new in taken or new in own or new in others:
            print(f"falls together: {old} -> {new}")
            bad = 1
        taken[new] = old
    for n in sorted(own & (others | made)):
        if "-" in n:
            print(f"stays, since it is the library's or the checker's too: {n}")
    if bad and "--force" not in sys.argv:
        return 1
    modules = {}
    for path in list(files(".antt")):
        base = os.path.basename(path)[: -len(".antt")]
        if "-" in base:
            modules[base] = camel(base)
            subprocess.run(["git", "mv", path, os.path.join(os.path.dirname(path), camel(base) + ".antt")], check=True)
    names.update(modules)
    for path in list(files(".antt", ".rt", ".edit")):
        text = read(path)
        new = changed(text, names)
        if new != text:
            with open(path, "w", encoding="utf-8") as f:
                f.write(new)
    for path in ["README.md"] + [os.path.join("docs", n) for n in sorted(os.listdir("docs")) if n.endswith(".md")]:
        text = read(path)
        new = re.sub(r"`[^`\n]*`", lambda m: changed(m.group(0), names), text)
        if new != text:
            with open(path, "w", encoding="utf-8") as f:
                f.write(new)
    print(f"{len(names)} names respelled")
    return 0


sys.exit(main())
