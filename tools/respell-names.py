#!/usr/bin/env python3
"""Brings the names of this repository's own definitions and lemmas to one spelling, once, after the toolchain's script has
turned the rest: words are in snake case, types and facts in upper camel case.

usage: tools/respell-names.py [--list]     at the top of the repository; --list only prints old and new names

It renames what a file of specs/ or proofs/ declares, wherever that name is cited: in specs/, in proofs/, and in the clauses,
ghost fields and ghost imports of src/. Comments, texts in quotes, code, and names that the checker makes of the code stay.
"""

import os
import re
import sys

TOKEN = re.compile(r'[^\s(){}\[\];,.«»"λ]+')
DECLARED = re.compile(r"^\s*((?:(?:abbrev|unfoldable|pub|record|data)\s+)*)([^\s(){}\[\];,.«»\"]+)\s*(?:\{[^}]*\}\s*|\([^)]*\)\s*)*:\s*(.*)$")
WORDS = {"use", "module", "let", "open", "unfolding", "where", "in", "elim", "λ", "mod"}
LIBRARY = re.compile(r"^(?:ghost )?use\s+(\S+?)\.?\{([^}]*)\}")


def files(root, *ends):
    for folder, dirs, names in os.walk(os.path.join(root, "crates")):
        dirs[:] = sorted(d for d in dirs if d != "out")
        for name in sorted(names):
            if name.endswith(ends):
                yield os.path.join(folder, name)


def read(path):
    with open(path, encoding="utf-8") as f:
        return f.read()


def new_name(name):
    if name[0].isupper():
        return "".join(part[0].upper() + part[1:] for part in name.split("-") if part)
    return name.replace("-", "_")


def declared(root):
    """Each name that a file declares with a dash in it, but for goals, which the checker names; and all declared names."""
    found, every = {}, {}
    for path in files(root, ".antt"):
        for line in read(path).splitlines():
            m = DECLARED.match(line)
            if not m or m.group(2) in WORDS or m.group(2).startswith("--") or re.match(r"(goal|given|need)\.", m.group(3)):
                continue
            every.setdefault(m.group(2), set()).add(path)
            if "-" in m.group(2).strip("-"):
                found[m.group(2)] = new_name(m.group(2))
    return found, every


def crates(root):
    return {c for c in os.listdir(os.path.join(root, "crates"))}


def foreign(text, own):
    """The names that a file imports from a library."""
    names = set()
    for line in text.splitlines():
        m = LIBRARY.match(line)
        if m and not re.match(r"Rattle\.(%s)\." % "|".join(sorted(own)), m.group(1) + "."):
            names |= {w for item in m.group(2).split(",") for w in item.split()}
    return names


def code_parts(line):
    """The pieces of a line with a mark whether it may be changed: not within quotes, nor behind a comment's dashes."""
    out, i, quoted, start = [], 0, False, 0
    while i < len(line):
        if line[i] == '"':
            out.append((line[start:i + 1], not quoted))
            quoted, start = not quoted, i + 1
        elif not quoted and line.startswith("--", i) and (i == 0 or line[i - 1] == " ") and (line[i + 2:i + 3] in ("", " ")):
            out.append((line[start:i], True))
            return out + [(line[i:], False)]
        i += 1
    return out + [(line[start:], not quoted)]


def respell(text, names, keep):
    def piece(part):
        return TOKEN.sub(lambda m: names[m.group(0)] if m.group(0) in names and m.group(0) not in keep else m.group(0), part)

    return "\n".join("".join(piece(p) if may else p for p, may in code_parts(line)) for line in text.split("\n"))


def ghost_lines(text):
    """For each line of a source whether it is part of a clause, a ghost item or a ghost import."""
    marks, depth, inside = [], 0, False
    for line in text.split("\n"):
        if not inside and re.match(r"\s*(ghost|requires|ensures)\b", line):
            inside, depth = True, 0
        marks.append(inside)
        if inside:
            depth += line.count("{") - line.count("}")
            if depth <= 0:
                inside = False
    return marks


def respell_source(text, names, keep):
    marks = ghost_lines(text)
    return "\n".join(respell(l, names, keep) if g else l for l, g in zip(text.split("\n"), marks))


def main(argv):
    root = "."
    names, every = declared(root)
    if "--list" in argv:
        for old, new in sorted(names.items()):
            print(old, new, "ALSO DECLARED" if new in every else "")
        return 0
    own = crates(root)
    for path in files(root, ".antt", ".rt"):
        text = read(path)
        turn = respell if path.endswith(".antt") else respell_source
        turned = turn(text, names, foreign(text, own))
        if turned != text:
            with open(path, "w", encoding="utf-8") as f:
                f.write(turned)
    for folder in (".", "docs"):
        for name in sorted(os.listdir(folder)):
            if name.endswith(".md"):
                path = os.path.join(folder, name)
                text = read(path)
                turned = re.sub(r"`([^`\n]+)`", lambda m: "`" + names.get(m.group(1), m.group(1)) + "`", text)
                if turned != text:
                    with open(path, "w", encoding="utf-8") as f:
                        f.write(turned)
    print(f"{len(names)} names")
    return 0


if __name__ == "__main__":
    raise SystemExit(main(sys.argv[1:]))
