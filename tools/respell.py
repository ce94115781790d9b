#!/usr/bin/env python3
"""Respells this repository's own definitions, lemmas, fields and constructors in antt: words in snake case, types in camel case.

usage: python3 tools/respell.py [FOLDER]      once, on a tree that the toolchain's own port script has just turned

A name is the repository's own if a file of specs/ or proofs/ declares it. Names that Rattle makes (goals, invariants, steps) keep their
dashes, and so do variables and the names that an import gives by `as`. Functions of src/ keep their names. It turns specs/, proofs/, the clauses in
src/, the edits, docs/ and README.md. Comments keep their words, but for what stands between backticks. It prints names that would fall
together with another, and leaves those as they are.
"""
import collections
import pathlib
import re
import sys

ROOT = pathlib.Path(sys.argv[1] if len(sys.argv) > 1 else ".")
DECLARED = re.compile(
    r"^\s*(?:(?:abbrev|unfoldable|pub|record|data|ruleset)\s+)*([A-Za-z][A-Za-z0-9_'?-]*)((?:\s*[({][^()]*(?:\([^()]*\)[^()]*)*[)}])*)\s*:(?=\s)(.*)$", re.M)
TOKEN = re.compile(r"[A-Za-z0-9_'?-]+")


def antt_files():
    for crate in sorted((ROOT / "crates").iterdir()):
        for part in ("specs", "proofs"):
            yield from sorted((crate / part).rglob("*.antt"))


def declared():
    """The repository's own names, and the names that Rattle makes."""
    own, made = set(), set()
    for path in antt_files():
        for m in DECLARED.finditer(path.read_text()):
            name, said = m.group(1), m.group(3)
            if re.match(r"\s*goal\.", said):
                made.add(name)
            else:
                own.add(name)
    return own, made


def respelt(name):
    if name[0].isupper():
        parts = [p for p in re.split("[-_]", name) if p]
        return "".join(p[0].upper() + p[1:] for p in parts)
    return "_".join(p for p in name.split("-") if p)


def code_and_comment(line, mark):
    at = line.find(mark)
    return (line, "") if at < 0 else (line[:at], line[at:])


def turn(text, names, mark):
    def token(m):
        word, s, at = m.group(0), m.string, m.start()
        if word not in names:
            return word
        before, after = s[:at], s[m.end():]
        if before and (ord(before[-1]) > 127 and before[-1] not in "λ⌜⌝«»←¬"):
            return word
        if after and ord(after[0]) > 127 and after[0] not in "⌜⌝«»":
            return word
        if re.search(r"(?<![A-Za-z0-9_'?.-])goal\.$", before):
            return word
        return names[word]

    out = []
    for line in text.split("\n"):
        if mark is None:
            code, comment = "", line
        else:
            code, comment = code_and_comment(line, mark)
        code = TOKEN.sub(token, code)
        comment = re.sub(r"`[^`]*`", lambda m: TOKEN.sub(token, m.group(0)), comment)
        out.append(code + comment)
    return "\n".join(out)


def main():
    own, made = declared()
    dashed = sorted(n for n in own if n not in made and ("-" in n or n[0].isupper() and "_" in n))
    new = collections.defaultdict(list)
    for n in dashed:
        new[respelt(n)].append(n)
    names = {}
    for to, froms in sorted(new.items()):
        if len(froms) > 1 or to in own:
            print(f"left: {froms} would be {to}, which stands already")
            continue
        names[froms[0]] = to
    changed = 0
    files = list(antt_files())
    for crate in sorted((ROOT / "crates").iterdir()):
        files += sorted((crate / "src").rglob("*.rt"))
        files += sorted((crate / "must-fail").glob("*.edit"))
    files += sorted((ROOT / "docs").glob("*.md")) + [ROOT / "README.md"]
    for path in files:
        text = path.read_text()
        mark = {".antt": "--", ".rt": "//", ".edit": "//", ".md": None}[path.suffix]
        to = turn(text, names, mark)
        if to != text:
            path.write_text(to)
            changed += 1
    print(f"respell: {len(names)} names, {changed} files")


main()
