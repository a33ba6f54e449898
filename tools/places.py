#!/usr/bin/env python3
"""Lists the lines of src/ that each point of docs/DESIGN-PASS.md looks at, and how many there are.

    tools/places.py [COMMIT] [--count]

A line listed is a place to look at, and not yet a fault: the page says what was found there. Without a commit the files of this folder
are read.
"""
import collections
import re
import subprocess
import sys

WORDS = set(
    "as break const continue crate else enum fn for if impl in let loop match mod move mut pub ref return self Self struct trait type use "
    "where while u8 u16 u32 u64 u128 usize bool Some None Ok Err Result Option ghost requires ensures new old now result".split()
)


def files(commit):
    if commit:
        names = subprocess.check_output(["git", "ls-tree", "-r", "--name-only", commit], text=True).split()
    else:
        names = subprocess.check_output(["git", "ls-files"], text=True).split()
    for name in names:
        if re.match(r"crates/.*/src/.*\.rt$", name):
            if commit:
                text = subprocess.check_output(["git", "show", commit + ":" + name], text=True)
            else:
                text = open(name).read()
            yield name[len("crates/"):], text


def matching(sources, pattern):
    return [
        "%s:%d: %s" % (name, at, line.strip())
        for name, text in sources
        for at, line in enumerate(text.split("\n"), 1)
        if re.search(pattern, line)
    ]


def shape(line):
    line = line.strip()
    if re.fullmatch(r"[\W_]*", line) or line.startswith(("//", "use ", "ghost use ", "#[")):
        return None
    line = re.sub(r'b?"[^"]*"|b?\'[^\']*\'', "T", line)
    line = re.sub(r"\b\d[\w]*\b", "N", line)
    return re.sub(r"[^\W\d]\w*", lambda m: m.group(0) if m.group(0) in WORDS else "_", line)


def twins(sources):
    """Runs of six lines and more that stand twice, but for names, numbers and texts; tests left out."""
    seen = collections.defaultdict(list)
    for name, text in sources:
        text = text.split("#[cfg(test)]")[0]
        lines = [(at, shape(line)) for at, line in enumerate(text.split("\n"), 1)]
        lines = [(at, line) for at, line in lines if line]
        for i in range(len(lines) - 5):
            seen[tuple(line for _, line in lines[i:i + 6])].append((name, lines[i][0], lines[i + 5][0]))
    found, covered = [], set()
    for places in seen.values():
        fresh = [p for p in places if (p[0], p[1]) not in covered]
        if len(places) > 1:
            for name, first, last in places:
                covered.update((name, at) for at in range(first, last + 1))
            if len(fresh) > 1:
                found.append(" ~ ".join("%s:%d-%d" % p for p in places))
    return found


def together(sources):
    """Two parameters that stand together in three functions of a crate or more."""
    where = collections.defaultdict(list)
    for name, text in sources:
        for m in re.finditer(r"\bfn (\w+)(<[^(]*>)?\(([^)]*)\)", text):
            parameters = [p.strip() for p in m.group(3).replace("\n", " ").split(",") if ":" in p]
            parameters = [re.sub(r"^mut ", "", p) for p in parameters]
            for i, a in enumerate(parameters):
                for b in parameters[i + 1:]:
                    where[name.split("/")[0], a, b].append(m.group(1))
    return ["%s: %s, %s in %s" % (c, a, b, " ".join(w)) for (c, a, b), w in where.items() if len(w) > 2]


def repeated(sources):
    """A requires that stands in three contracts of a crate or more, and a view of self that stands in five or more."""
    asked, views = collections.Counter(), collections.Counter()
    for name, text in sources:
        crate = name.split("/")[0]
        for m in re.finditer(r"(requires|ensures)\s*\w*\s*\{(.*)\}", text):
            if m.group(1) == "requires":
                asked[crate, m.group(2).strip()] += 1
            words = re.findall(r"\b[A-Za-z_.]+ self\.(?:now|old|new)(?:\.\w+)?", m.group(2))
            for word in set(re.sub(r"self\.(now|old|new)", "self", w) for w in words):
                views[crate, word] += 1
    return ["%s: requires %s, %d times" % (c, t, n) for (c, t), n in asked.items() if n > 2] + [
        "%s: %s, in %d clauses" % (c, t, n) for (c, t), n in views.items() if n > 4
    ]


POINTS = [
    ("1 enums", lambda s: matching(s, r"\benum [A-Z]")),
    ("1 flags, and numbers for none", lambda s: matching(s, r"^\s+(pub )?[a-z_]+: bool,|Result<bool|Result<Option<|bool\)|, or 0|return 0;|=> 0,")),
    ("1 numbers for kinds", lambda s: matching(s, r"\b(kind|base|buffers): u8|^\s*\(?\d+(, [\d_]+\))? =>")),
    ("2 twins", twins),
    ("3 loops by an index or a count", lambda s: matching(s, r"\bwhile |\bfor \w+ in \w+\.\.|enumerate\(\)")),
    ("4 conversions and copies", lambda s: matching(s, r"fn ([a-z]+_number|number|named|fields|call_of|core_of|kind_of|same|two_bytes|small|locate|[a-z]+_digits|settled|heading)\(|^impl.* (Clone|Copy|PartialEq|Eq|Ord|Debug|Default) for")),
    ("5 parameters together", together),
    ("5 facts repeated", repeated),
    ("6 buffers, places and tables", lambda s: matching(s, r"^\s+(pub )?(place|at|length|count): (usize|u16)|, at: usize|^\s+(pub )?\w+: \[[\w;\[\] ]+\],|get\(0\.\.|^\s+(One|Two|Three|Four)\(")),
    ("7 switches on what to run", lambda s: matching(s, r"match (kind|way|code|step|\(base, buffers\)|plan\.code)\b")),
]


def main():
    words = [w for w in sys.argv[1:] if not w.startswith("--")]
    sources = list(files(words[0] if words else None))
    for title, find in POINTS:
        rows = find(sources)
        print("%s: %d" % (title, len(rows)))
        if "--count" not in sys.argv:
            for row in rows:
                print("    " + row)


main()
