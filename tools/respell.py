#!/usr/bin/env python3
"""Respells the repository's own definitions, lemmas and fields: words in snake case, a dash only where it joins two functions' names.

usage: python3 tools/respell.py      once, at the top, right after the kit's port.py

It was run once, on the way to the Rattle of November 2026 (docs/PORT.md), and stays so that this step can be repeated.
Turned are .antt files, the clauses and `ghost use` items of .rt files, must-fail edits, and code spans of README.md and docs/.
Functions of src/ keep their names, and so does a name that a file has from a library. The file /tmp/respelled.tsv lists old and new names.
"""
import collections
import glob
import re

WORD = re.compile(r"[^\s(){}.;,@\"«»`]+")
DECLARED = re.compile(r"(?m)^ *(?:(?:abbrev|unfoldable|pub) )*([^\s(){}.;,@\"«»:]+)(?: \{[^{}\n]*\})* :(?=\s)")
FUNCTION = re.compile(r"(?m)^(?:abbrev|unfoldable) (?:pub )?([^\s(){}.;,@\"«»:]+)(?: \{[^{}\n]*\})* :(?= )")
RECORD = re.compile(r"(?m)^( *)(?:abbrev )?(?:pub )?record [^\n]*where\n((?:\1 +[^\n]*\n|\n)*)")
FIELD = re.compile(r"(?m)^ +(?:pub )?([^\s(){}.;,@\"«»:]+) :(?= )")
USE = re.compile(r"(?m)^ *(?:pub )?(?:ghost )?use ([^\s{;]+?)\.?(?:\{([^}]*)\})?(?: as (\S+?))?;?$")
LIBRARY = "length append take drop map set get sum mod mul add sub div pow le lt cond and or not reverse replicate".split()


def snake(name):
    return re.sub(r"(?<=[a-z0-9])[A-Z](?=[a-z])", lambda m: "_" + m[0].lower(), name)


def files(kind):
    return sorted(p for p in glob.glob(f"crates/*/**/*.{kind}", recursive=True) if "/out/" not in p)


def of_function(path):
    """Whether the file is of a function's proof, where Rattle gives most names."""
    return "/proofs/" in path and path.split("/proofs/")[1].count("/") > 0


def code(text):
    return re.sub(r"--[^\n]*", "", text)


def tight(line):
    """A projection is written tight: (x .f) is x.f."""
    while True:
        new = re.sub(r"\((\w+(?:\.\w+)*) \.(\w+)\)", r"\1.\2", line)
        new = re.sub(r"(?<=[\w)]) \.(\w+)\b", r".\1", new)
        if new == line:
            return line
        line = new


# fields whose new name a function has
OTHER = {
    "binomial-number": "number_of_binomial",
    "composition-number": "number_of_composition",
    "inverse-number": "number_of_inverse",
    "product-number": "number_of_product",
    "projection-number": "number_of_projection",
    "sum_number": "number_of_sum",
    "kind-is": "kind_agrees",
}


def main():
    texts = {p: open(p, encoding="utf-8").read() for p in files("antt")}
    declared, fields, functions = collections.defaultdict(set), set(), set(LIBRARY)
    for p, t in texts.items():
        bare = code(t)
        for m in RECORD.finditer(bare):
            fields |= {f[1] for f in FIELD.finditer(m[2])}
        if "/specs/" in p:
            functions |= {snake(m[1]) for m in FUNCTION.finditer(bare)}
        if not of_function(p):
            for m in DECLARED.finditer(bare):
                declared[m[1]].add(p)

    def respelled(name):
        name = snake(name)
        if "-" not in name or not name[0].isalpha():
            return name
        parts = name.split("-")
        if name in fields:
            return "_".join(parts)
        # the longest functions' names first, then a dash between two of them
        pieces, i = [], 0
        while i < len(parts):
            for j in range(len(parts), i, -1):
                if "_".join(parts[i:j]) in functions:
                    pieces.append(("_".join(parts[i:j]), True))
                    i = j
                    break
            else:
                pieces.append((parts[i], False))
                i += 1
        out = pieces[0][0]
        for (a, f), (b, g) in zip(pieces, pieces[1:]):
            out += ("-" if f and g else "_") + b
        return out

    names = {}
    for n in declared:
        if n[0].islower() or "-" in n:
            new = "_".join(n.split("-")) if n in fields else respelled(n)
            if n in fields:
                new = snake(new)
            if new != n:
                names[n] = new
    # names that fall together: a lemma gives way to a function, and a later spelling to an earlier one
    taken = collections.defaultdict(set)
    for n in declared:
        taken[names.get(n, n)].add(n)
    for new, olds in sorted(taken.items()):
        if len(olds) > 1:
            keep = sorted(olds, key=lambda n: (n in fields, "-" in n, n != new, n))
            names.pop(keep[0], None) if keep[0] == new else names.update({keep[0]: new})
            for n in keep[1:]:
                names[n] = OTHER.get(n, new + "_lem")
            print("together:", keep, ["field " * (n in fields) + names.get(n, n) for n in keep])
    for n, new in names.items():
        if new.endswith("_lem") and new in declared:
            print("taken:", n, new)

    def turn(text, path):
        keep, aliases = set(), set()
        for m in USE.finditer(text):
            if not m[1].startswith("Rattle.") or m[1].startswith("Rattle.std"):
                keep |= {x.strip().split(" as ")[-1] for x in (m[2] or "").split(",")}
                aliases |= {m[3]} - {None}
        if path.endswith(".antt") and of_function(path):
            for m in re.finditer(r"(?m)^ *(?:(?:abbrev|pub) )*(\S+) :(?= *(?:tie|goal)\.)", text):
                keep.add(m[1])

        def one(m):
            w = m[0]
            if w in keep:
                return w
            if w not in names:
                # names that port.py respelled in .antt and .rt alone
                new = snake(w).replace("-", "_")
                return new if path.endswith((".edit", ".md")) and new != w and new in declared else w
            before = text[max(0, m.start() - 9): m.start()]
            if any(re.search(rf"(?<![^\s(]){re.escape(a)}\.$", before) for a in aliases):
                return w
            if re.search(r"(?:tie|goal)\.$", before) or re.search(r"(?<!\w)c\.$", before) and of_function(path):
                return w
            return names[w]

        return WORD.sub(one, text)

    for p, t in texts.items():
        new = turn(t, p)
        if new != t:
            open(p, "w", encoding="utf-8").write(new)
    camel = {n: new for n, new in names.items() if re.search("[a-z0-9][A-Z]", n) and "-" not in n}
    every = dict(names)
    for p in files("rt"):
        t = open(p, encoding="utf-8").read()
        parts = re.split(r"(ghost use [^;]*;)", t)
        # in the code and the clauses between them a dash may be a minus
        for i, part in enumerate(parts):
            names.clear()
            names.update(every if i % 2 else camel)
            parts[i] = turn(part, p)
        names.clear()
        names.update(every)
        new = "".join(parts)
        if new != t:
            open(p, "w", encoding="utf-8").write(new)
    for p in files("edit"):
        t = open(p, encoding="utf-8").read()
        new = "\n".join(l if l.startswith("file:") else tight(turn(l, p)) for l in t.split("\n"))
        if new != t:
            open(p, "w", encoding="utf-8").write(new)
    for p in ["README.md"] + sorted(glob.glob("docs/**/*.md", recursive=True)):
        t = open(p, encoding="utf-8").read()
        new = re.sub(r"`[^`\n]+`", lambda m: turn(m[0], p), t)
        if new != t:
            open(p, "w", encoding="utf-8").write(new)
    with open("/tmp/respelled.tsv", "w", encoding="utf-8") as f:
        f.writelines(f"{n}\t{names[n]}\n" for n in sorted(names))
    print(len(names), "names")
    # a function's parameter, field or local that has a name that its file's clauses now cite
    for p in files("rt"):
        t = open(p, encoding="utf-8").read()
        cited = {x.strip() for m in re.finditer(r"ghost use [^;{]*\{([^}]*)\}", t) for x in m[1].split(",")}
        for m in set(re.findall(r"\b([a-z_0-9]+)(?=: )|let (?:mut )?([a-z_0-9]+)", t)):
            w = m[0] or m[1]
            if w in cited and w in set(names.values()):
                print("hides:", p, w)
    # a new name that a file had before, as something else
    back = collections.defaultdict(set)
    for n, new in names.items():
        back[new].add(n)
    for p, t in texts.items():
        words = set(WORD.findall(code(t)))
        for w in words & set(back):
            if w not in declared and back[w] & words:
                print("meets:", p, w, sorted(back[w]))


if __name__ == "__main__":
    main()
