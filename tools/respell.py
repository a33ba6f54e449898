#!/usr/bin/env python3
"""Brings this repository's own ghost names to the spelling of today's Rattle: words in snake case, types in camel case.

usage: tools/respell.py [--check]        at the top, once, right after the kit's port.py

A name that begins with a capital loses its dashes (Image-is: ImageIs); any other gets underscores (line-of: line_of). What stays: names that
come from the library, and in the files of a function's proof the labels that Rattle makes. It turns .antt files, the ghost text of .rt files,
the texts of must-fail edits, and code spans of .md files; comments too, where they name a name. --check writes nothing. It prints each new
name that stood somewhere before ('meets:'), so that no two names fall together unseen.
"""
import collections
import os
import re
import sys

TOKEN = re.compile(r'[^\s(){}.;,@"«»`\[\]]+')
DASH = re.compile(r"[A-Za-z0-9'₀-₉]-[A-Za-z0-9]")
USE = re.compile(r"\buse ([^\s;{]+?)\.?(\{[^;}]*?\})?(?: as ([^\s;]+))?(?=;|\n|$)")
LIBRARY = re.compile(r"(Rattle\.(core|std|std_alloc|std_collections|io|libc|anyhow)\b|(?!Rattle\.))")
PROOF = re.compile(r"/proofs/(?:.*/)?(?:Answers|Invariants|Proof)\.antt$")
FIELD = re.compile(r"(?m)^ +(?:pub )?([^\s(){}.;,:]+) :")
# A name whose new spelling is the library's gets another.
TAKEN = {"bit-or": "bit_of_or"}
# Types that the kit's script gave an underscore.
TYPES = {"Asks_all": "AsksAll"}
# Comments that the reader sees as prose: only spans between backticks are names there.
PROSE_ANTT = re.compile(r"--[^\n]*")
PROSE_RT = re.compile(r'//[^\n]*|"(?:\\.|[^"\\])*"')


def files(top):
    for folder, inner, names in os.walk(top):
        inner[:] = sorted(x for x in inner if x not in ("out", "target", ".git"))
        for name in sorted(names):
            yield os.path.join(folder, name)


def read(path):
    with open(path, encoding="utf-8") as f:
        return f.read()


def respelled(name):
    if name in TAKEN:
        return TAKEN[name]
    if name[0].isupper():
        head, *rest = name.split("-")
        return head + "".join(part[:1].upper() + part[1:] for part in rest)
    return name.replace("-", "_")


def of_library(text, at):
    path = re.search(r"[^\s(){};,]*\.$", text[:at])
    return path and re.match(r"(native|mathlib|lib|Prim|Rattle\.(core|std)\b)", path[0])


def outside(prose, text, turn):
    """Turns the text between the comments, and code spans inside them."""
    made, at = [], 0
    for m in prose.finditer(text):
        made.append(turn(text[at : m.start()]))
        made.append(re.sub(r"`[^`\n]+`", lambda s: turn(s[0]), m[0]))
        at = m.end()
    made.append(turn(text[at:]))
    return "".join(made)


def main(argv):
    check = "--check" in argv
    antt = [p for p in files("crates") if p.endswith(".antt")]
    rust = [p for p in files("crates") if p.endswith(".rt")]
    edits = [p for p in files("crates") if p.endswith(".edit")]
    pages = [p for p in ["README.md", *files("docs"), *files("second")] if p.endswith(".md")]

    library, own, fields, seen = set(), dict(TYPES), set(), collections.defaultdict(set)
    for path in antt + rust:
        text = read(path)
        for head, items, _ in USE.findall(text):
            if LIBRARY.match(head):
                for item in items.strip("{}").split(","):
                    library.add(item.strip().split(" as ")[0])
    for path in antt:
        text = PROSE_ANTT.sub("", read(path))
        for m in TOKEN.finditer(text):
            seen[m[0]].add(path)
        if PROOF.search(path):
            continue
        fields.update(n for n in FIELD.findall(text) if DASH.search(n))
        for m in TOKEN.finditer(text):
            if DASH.search(m[0]) and m[0] not in library and not of_library(text, m.start()):
                own[m[0]] = respelled(m[0])
    for path in rust:
        for m in TOKEN.finditer(PROSE_RT.sub("", read(path))):
            seen[m[0]].add(path)
            if m[0] not in library and DASH.search(m[0]):
                own[m[0]] = respelled(m[0])

    met = collections.defaultdict(set)
    for old, new in own.items():
        met[new].add(old)
        if new in seen:
            print(f"meets: {old} -> {new}: {' '.join(sorted(seen[new])[:6])}")
    for new, olds in met.items():
        if len(olds) > 1:
            print(f"fall together: {sorted(olds)} -> {new}")

    def turn(text):
        return TOKEN.sub(lambda m: m[0] if of_library(text, m.start()) else own.get(m[0], m[0]), text)

    def turn_proof(text):
        labels = {n for n in re.findall(r"goal\.([^\s(){}.;,]+)", text)}
        made, at = [], 0
        for m in TOKEN.finditer(text):
            name, behind = m[0], text[m.start() - 1 : m.start()] == "."
            if name in TYPES:
                name = TYPES[name]
            if DASH.search(name) and name not in library and not of_library(text, m.start()):
                if behind:
                    dotted = re.search(r"(goal|given)\.$", text[: m.start()])
                    if name in fields and name in own and not dotted:
                        name = own[name]
                elif name not in labels:
                    name = own.get(name, respelled(name))
            made.append(text[at : m.start()] + name)
            at = m.end()
        return "".join(made) + text[at:]

    count = 0
    for path in antt + rust + edits + pages:
        text = read(path)
        if path.endswith(".antt"):
            new = outside(PROSE_ANTT, text, turn_proof if PROOF.search(path) else turn)
        elif path.endswith(".rt"):
            new = outside(PROSE_RT, text, turn)
        elif path.endswith(".edit"):
            new = "\n".join(l if l.startswith("file:") else turn(l) for l in text.split("\n"))
        else:
            new = re.sub(r"`[^`\n]+`", lambda s: turn(s[0]), text)
        # an import under its own name needs no 'as'
        new = re.sub(r"(?<![^\s{,])([^\s{},]+) as \1(?=[,}])", r"\1", new)
        if new != text:
            count += 1
            if not check:
                with open(path, "w", encoding="utf-8") as f:
                    f.write(new)
    print(f"respell: {len(own)} names, {count} files")
    return 0


if __name__ == "__main__":
    raise SystemExit(main(sys.argv[1:]))
