#!/usr/bin/env python3
"""Brings the repository's own definitions and lemmas to snake case: accountAt becomes account_at, chain-first
chain_first. Run once, at the top, right after the port's own scripts; it renames nothing that is named so already.
Types, modules, functions of src/ and what the checker itself names keep their names, and so do comments, but for names
in backquotes and at the head of a line that lists names. Where two names would fall together the lemma gets `_lem`.
With --list it prints the names, old and new, and writes nothing."""
import collections
import os
import re
import sys

TOKEN = re.compile(r"[A-Za-z_][A-Za-z0-9_'₀₁₂₃₄₅₆₇₈₉]*(?:-[A-Za-z0-9_'₀₁₂₃₄₅₆₇₈₉]+)*")
HEAD = re.compile(r"^( *)((?:(?:pub|abbrev|unfoldable) +)*)([^ :(){}=,.;]+(?: +[^ :(){}=,.;]+)*) +:(?: |$)")
LIBRARY = re.compile(r"use (?!Rattle\.(?!std\b)[a-z_]+\.)[\w.·]+\.\{([^}]*)\}")
MADE = re.compile(r"^(invariant|decreases)-|^(Need|After|At|In|Then|Else)-|^tie$")
# what would fall together with another lemma's or definition's name
APART = {"file-of-bytes": "file_of_is_bytes", "row-of-lt": "row_of_place_lt", "area_of": "area_of_lem",
         "entry_length": "entry_length_lem"}
WORDS = {"pub", "abbrev", "unfoldable", "let", "in", "elim", "use", "module", "record", "data", "where", "unfolding"}


def files(root):
    for folder, dirs, names in os.walk(os.path.join(root, "crates")):
        dirs[:] = sorted(d for d in dirs if d != "out")
        for name in sorted(names):
            if name.endswith((".antt", ".rt", ".edit")):
                yield os.path.join(folder, name)


def read(path):
    with open(path, encoding="utf-8") as f:
        return f.read()


def snake(name):
    name = re.sub(r"(?<=[a-z0-9'])(?=[A-Z])", "_", name)
    return name.replace("-", "_").lower()


def library_names(text):
    flat = re.sub(r"\s+", " ", text)
    return {part.split(" as ")[-1].strip() for group in LIBRARY.findall(flat) for part in group.split(",")}


def declared(text):
    """The names that a file declares, fields and constructors too; not those of the checker's own goals."""
    found = set()
    for line in text.split("\n"):
        m = HEAD.match(line)
        if not m or line.lstrip().startswith("--") or " : tie." in line or " : goal." in line:
            continue
        words = m.group(3).split()
        if words[0] in ("record", "data", "module", "let", "use") or len(m.group(1)) > 8:
            continue
        found.update(w for w in words if w not in WORDS)
    return found


def renaming(root):
    every, antt, taken = set(), {}, collections.defaultdict(set)
    for path in files(root):
        text = read(path)
        if path.endswith(".antt"):
            antt[path] = declared(text)
            every |= antt[path]
    odd = {n for n in every if re.fullmatch(TOKEN, n) and n[0].islower() and re.search(r"[a-z0-9'][A-Z]|-", n)}
    odd = {n for n in odd if not MADE.search(n)}
    for n in every - set(APART):
        taken[n if n not in odd else snake(n)].add(n)
    turned = {old: new for old, new in APART.items() if old in every}
    for new, olds in taken.items():
        for old in sorted(olds & odd):
            turned[old] = new if len(olds) == 1 or "-" not in old else new + "_lem"
    clash = {new: olds for new, olds in taken.items() if len({turned.get(o, o) for o in olds}) != len(olds)}
    return turned, clash


def turn_code(code, turned, kept):
    return TOKEN.sub(lambda m: m.group() if m.group() in kept else turned.get(m.group(), m.group()), code)


def turn_comment(text, turned):
    camel = {o: n for o, n in turned.items() if "-" not in o}
    text = re.sub(r"`[^`]*`", lambda m: turn_code(m.group(), turned, ()), text)
    return turn_code(text, camel, ())


def turn_listed(text, turned):
    """The head of a comment's line that lists names: before the two blanks that stand ahead of what they mean."""
    m = re.match(r"^(\s*(?:--|//)     ?(?: {0,2}))(\S.*?)(  +\S.*|)$", text)
    return m.group(1) + turn_code(m.group(2), turned, ()) + turn_comment(m.group(3), turned) if m and m.group(3) else None


def turn_line(line, turned, kept):
    m = re.match(r"^(.*?)(--|//)(.*)$", line) if ("--" in line or "//" in line) else None
    if not m:
        return turn_code(line, turned, kept)
    listed = turn_listed(line, turned) if not m.group(1).strip() else None
    return listed or turn_code(m.group(1), turned, kept) + m.group(2) + turn_comment(m.group(3), turned)


def main(argv):
    root = "."
    turned, clash = renaming(root)
    if "--list" in argv:
        for old in sorted(turned):
            print(f"{old} {turned[old]}")
    if clash:
        sys.exit(f"port_names: these fall together: { {n: sorted(o) for n, o in sorted(clash.items())} }")
    if "--list" in argv:
        return
    for path in files(root):
        text = read(path)
        kept = library_names(text)
        new = "\n".join(turn_line(line, turned, kept) for line in text.split("\n"))
        if new != text:
            with open(path, "w", encoding="utf-8") as f:
                f.write(new)
    for folder in (".", "docs", "docs/changes"):
        for name in sorted(os.listdir(os.path.join(root, folder))):
            if name.endswith(".md") and name != "CHANGELOG.md":
                path = os.path.join(root, folder, name)
                text = read(path)
                new = "\n".join(turn_comment(line, turned) for line in text.split("\n"))
                if new != text:
                    with open(path, "w", encoding="utf-8") as f:
                        f.write(new)


if __name__ == "__main__":
    main(sys.argv[1:])
