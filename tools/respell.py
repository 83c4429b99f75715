#!/usr/bin/env python3
"""Respells the repository's own antt names, once, after the kit's port.py: words in snake case, a lemma's dash only where it joins two names
that its statement has. Types, modules, Rust names, strings and comments' prose keep their spelling.

usage: tools/respell.py [--list]     at the top; --list prints the renamings and changes nothing
"""
import os
import re
import sys

NAME = r"[^\s(){}\[\]=.;,:«»\"`|]+"
TOKEN = re.compile(NAME)
DECLARED = re.compile(r"^( *)(?:abbrev |unfoldable )?(?:pub )?(?:abbrev |unfoldable )?(data |record )?(" + NAME + r")((?: \{[^}\n]*\})*(?: \([^)\n]*\))*) :(?= |\n)", re.M)


def files(top, ends):
    for folder, dirs, names in os.walk(top):
        dirs[:] = sorted(d for d in dirs if d not in ("out", ".git", "target"))
        for n in sorted(names):
            if n.endswith(ends):
                yield os.path.join(folder, n)


def read(p):
    with open(p, encoding="utf-8") as f:
        return f.read()


def code_of(text):
    """The text without its comment lines, each as long as it was."""
    return re.sub(r"--(?= |$|-).*", lambda m: " " * len(m[0]), text, flags=re.M)


def words(name):
    """camelCase as snake_case: the first letter of a type stays."""
    return re.sub(r"(?<=[a-z0-9'′])([A-Z])", lambda m: "_" + m[1].lower(), name)


def main():
    laws = {}  # a name, and the statements that it has
    for p in files("crates", ".antt"):
        if not ("/specs/" in p or re.search(r"/proofs/[^/]+\.antt$", p)):
            continue
        t = code_of(read(p))
        found = list(DECLARED.finditer(t))
        for m in found:
            if m[2]:
                continue
            indent = len(m[1])
            end = re.compile(r"^ {0,%d}(?=\S)" % indent, re.M).search(t, m.end())
            laws.setdefault(m[3], []).append((p, t[m.end():end.start() if end else len(t)]))
        # constructors and fields written several to a line are declared one a line here, so nothing is left
    names = {}
    for n in laws:
        if n[0].isupper() or not n[0].isalpha() or re.fullmatch(r"[_-]+", n):
            continue
        if re.search(r"[a-z0-9'][A-Z]", n) and "-" not in n:
            names[n] = words(n)
    single = lambda n: names.get(n, n)
    for n, said in laws.items():
        if "-" not in n or n[0].isupper() or not n[0].isalpha():
            continue
        parts = [words(x) for x in n.split("-")]
        seen = set()
        for _, s in said:
            seen |= {single(x) for x in TOKEN.findall(s)}
        # groups of parts that are names of the statement, the longest first
        groups, i = [], 0
        while i < len(parts):
            for j in range(len(parts), i, -1):
                if "_".join(parts[i:j]) in seen:
                    groups.append(("_".join(parts[i:j]), True))
                    i = j
                    break
            else:
                groups.append((parts[i], False))
                i += 1
        to = groups[0][0]
        for (a, known), (b, known_b) in zip(groups, groups[1:]):
            to += ("-" if known and known_b else "_") + b
        if to != n:
            names[n] = to
    names["pairs_of"], names["pairsOf"] = "pairs_of_lem", "pairs_of"
    # nothing may fall together; a definition may bear the name of the Rust function that it is the result of
    every, functions, others = set(), set(), set()
    for p in files("crates", ".antt"):
        every |= set(TOKEN.findall(code_of(read(p))))
    for p in files("crates", ".rt"):
        t = read(p)
        functions |= set(re.findall(r"\bfn (\w+)", t))
        others |= set(re.findall(r"\b(\w+): ", t)) | set(re.findall(r"\blet (?:mut )?(\w+)", t))
    every |= others
    every -= functions - others
    back = {}
    for n, to in sorted(names.items(), key=lambda x: ("-" in x[0], x[0])):
        if n != "pairsOf" and (to in every and to not in names) or to in back:
            to += "_lem" if "-" in n or to.endswith("_of") else "_of"
        if (to in every and to not in names) or to in back:
            sys.exit("falls together: %s, %s" % (n, to))
        back[to] = n
        names[n] = to
    if "--list" in sys.argv:
        for n, to in names.items():
            print(n, to)
        return
    antt = lambda t: TOKEN.sub(lambda m: names.get(m[0], m[0]), t)

    def proof(t):
        # in a function's proof a name behind a dot is a step that Rattle named, unless it is a field in camel case
        def one(m):
            n = m[0]
            behind = m.start() and t[m.start() - 1] == "."
            return n if behind and "-" in n else names.get(n, n)

        return TOKEN.sub(one, t)

    for p in files("crates", ".antt"):
        t = read(p)
        inner = not ("/specs/" in p or re.search(r"/proofs/[^/]+\.antt$", p))
        new = proof(t) if inner else antt(t)
        if new != t:
            with open(p, "w", encoding="utf-8") as f:
                f.write(new)
    for p in files("crates", ".rt"):
        t = read(p)
        new = re.sub(r"^ghost use .*?;|^ *(?:ensures|requires)\b[^{\n]*\{.*?\}$|^ *ghost \w+: \{.*?\}", lambda m: antt(m[0]), t, flags=re.M | re.S)
        if new != t:
            with open(p, "w", encoding="utf-8") as f:
                f.write(new)
    for p in files("crates", ".edit"):
        t = read(p)
        if "specs/" in t or "proofs/" in t or "ensures" in t:
            with open(p, "w", encoding="utf-8") as f:
                f.write(antt(t))


main()
