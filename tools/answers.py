#!/usr/bin/env python3
"""Turns a function's Proof.antt of the older form (tie.Need-.., tie.close) into Invariants.antt and Answers.antt.

usage: python3 tools/answers.py CRATE [FUNCTION..]      at the top, after `rt check --generated /tmp/names-CRATE --old-names` in crates/CRATE

The names come from /tmp/names-CRATE/names.json, the clauses' from the sources. The check decides; what this leaves is mended by hand.
"""
import glob
import json
import os
import re
import sys

PATH = re.compile(r"[^\s(){};,@\"«»←↦|]+")


def contracts():
    """callee -> (names of its requires, names of its ensures), None for a lone unnamed clause"""
    out, LENT_ = {}, LENT
    for p in glob.glob("crates/*/src/**/*.rt", recursive=True):
        crate = p.split("/")[1]
        t = open(p, encoding="utf-8").read()
        mod = p.split("/src/")[1][:-3].replace("/", "::")
        mods = [] if mod in ("lib", "main") else mod.split("::")
        owner = None
        for line in t.split("\n"):
            m = re.match(r"impl(?:<[^>]*>)? (\w+)", line)
            if m:
                owner = m[1]
            if line.startswith("}"):
                owner = None
            m = re.match(r"\s*(?:pub(?:\(\w+\))? )?(?:unsafe )?(?:extern \"C\" )?fn (\w+)", line)
            if m:
                name = "::".join([crate] + mods + ([owner] if owner and line.startswith(" ") else []) + [m[1]])
                here = out.setdefault(name, ([], []))
                PARAMS[name] = re.findall(r"[(,]\s*(?:mut )?(\w+)(?=: )|[(,]\s*&?(?:mut )?(self)", t[t.index(line):].split("{")[0])
                PARAMS[name] = [a or b for a, b in PARAMS[name]]
                LENT_[name] = re.findall(r"(\w+): &mut", t[t.index(line):].split("{")[0])
                out.setdefault("::".join([crate] + ([owner] if owner and line.startswith(" ") else []) + [m[1]]), here)
            m = re.match(r"\s+(requires|ensures)\*?\s*(\w+)?\s*\{", line)
            if m and out:
                (here[0] if m[1] == "requires" else here[1]).append(m[2])
    return out


# callee -> the parameters that it may change, and all
LENT = {}
PARAMS = {}


def norm(s):
    s = re.sub(r"_lem(?=-|$)", "", s)
    for w in ("overflow-", "nonzero-"):
        s = s.replace(w, "")
    return s.replace("_", "-")


def clause_of(names, m):
    steps = m[2].split(".")[1:]
    got = named(names, steps)
    return ".".join([m[1], got[0]] + steps[got[1]:]) if got else m[0]


def named(names, steps):
    """The clause that steps through pairs of pairs lead to, and how many steps that takes; None for a lone clause or part of them."""
    if len(names) < 2:
        return None
    k = i = 0
    while k < len(names) - 1:
        if i >= len(steps) or steps[i] not in ("0", "1"):
            return None
        i += 1
        if steps[i - 1] == "0":
            break
        k += 1
    return names[k], i


class Turn:
    def __init__(self, crate, key, d, known, folder):
        self.crate, self.d, self.known, self.folder = crate, d, known, folder
        self.needs = {norm(o): n for o, n in d["needs"]}
        self.at = {n: a for (o, n), a in zip(d["needs"], d["asked_at"])}
        self.parent = {p[0]: p[1] for p in d["places"]}
        self.step = {p[0]: p[2] for p in d["places"]}
        self.callee = {p[0]: p[3] for p in d["places"]}
        self.newplace = {p[0]: n for p, n in zip(d["places"], d["places_by_name"])}
        self.loops = {o: (n, v) for lp in d["loops"] for (o, n), v in [lp]}
        self.arms = {p[0]: a for p, a in zip(d["places"], d["arms"])}
        self.changed = {lp[0][0]: c for lp, c in zip(d["loops"], d["changed"])}
        self.own = None
        self.left = []
        self.helpers = {}
        self.rec = False
        self.gone = set()
        self.kept = {}

    def clauses(self, callee, kind):
        if callee is None or callee not in self.known:
            return []
        return self.known[callee][0 if kind == "requires" else 1]

    def fields(self, rest, callee):
        out = []
        if self.rec and callee == self.own and rest[:2] == ["requires", "1"]:
            rest = ["requires"] + rest[2:]
        elif self.rec and callee == self.own and rest[:2] == ["requires", "0"]:
            rest = ["decreases"]
        i = 0
        while i < len(rest):
            out.append(rest[i])
            if rest[i] in ("ensures", "requires") and i + 1 < len(rest) and rest[i + 1].isdigit():
                got = named(self.clauses(callee, rest[i]), rest[i + 1:])
                if got:
                    out.append(got[0])
                    i += got[1]
            i += 1
        for word in ("auto", "new"):
            if word in out and callee in PARAMS:
                k = i = out.index(word) + 1
                while k < len(out) and out[k] == "1":
                    k += 1
                if k < len(out) and out[k] == "0" and k - i < len(PARAMS[callee]):
                    out = out[:i] + [PARAMS[callee][k - i]] + out[k + 1:]
        return out

    def path(self, w, env, goal):
        """A path of the old form in the new one; None if it names a place alone."""
        parts = w.split(".")
        if parts[0] not in env:
            return w, None
        place = env[parts[0]]
        i = 1
        exact = place
        while i < len(parts) and parts[i] == "before":
            exact = self.parent.get(exact) or exact
            i += 1
        rest = parts[i:]
        if not rest:
            return None, exact
        # an arm of a match: what it binds, and that the value is of its variant
        up = place
        while up:
            arm = self.arms.get(up)
            if arm:
                for new, step, way in sorted(arm[2], key=lambda x: -len(x[2])):
                    if norm(step) == norm(rest[0]) and rest[1: 1 + len(way)] == way:
                        if len(rest) == 1 and not new.endswith("-own") and way:
                            continue
                        if way or new.endswith("-own"):
                            return ".".join(["c", arm[0]] + ([new] if way else []) + rest[1 + len(way):]), None
                if len(rest) == 1 and any(way and norm(step) == norm(rest[0]) for _, step, way in arm[2]):
                    return "c." + arm[0], None
            up = self.parent.get(up)
        if rest[0].replace("-", "_") == "well_formed":
            rest[0] = "well_formed"
        if rest[:2] == ["args", "result"] and "res" in PARAMS.get(self.own, []):
            rest[1] = "res"
        if rest[0] in ("args", "requires", "ranges", "auto", "well_formed", "told", "utf8"):
            return "c." + ".".join(self.fields(rest, self.own)), None
        # the nearest place above with that step: the older form had steps that are gone
        here = place
        while here and not (self.step[here][0] and norm(rest[0]) == norm(self.step[here][0])):
            here = self.parent.get(here)
        if here is None:
            self.left.append(w)
            return w, None
        rest = self.fields(rest, self.callee[here])
        for old, new in next(p[4] for p in self.d["places"] if p[0] == here):
            if len(rest) > 1 and rest[1] == old:
                rest[1] = new
                break
        return "c." + ".".join([self.step[here][1]] + rest[1:]), None

    def body(self, text, env, goal, place):
        env = dict(env)
        # lets that name a place alone go
        while True:
            hit = None
            for m in re.finditer(r"let (\S+) = (\S+) in\s*", text):
                head = m[2].split(".")[0]
                if head in env:
                    _, p = self.path(m[2], env, goal)
                    if p is not None:
                        hit = (m, p)
                        break
            if not hit:
                break
            m, p = hit
            # the name is bound from here on
            # any place of this path: fields are found by their names
            env[m[1]] = place
            text = text[: m.start()] + text[m.end():]

        def one(m):
            w = m[0]
            new, p = self.path(w, env, goal)
            if p is None:
                return new
            if re.match(r"\s+=\s", text[m.end():]):
                # a field's label
                return w
            before = re.search(r"([^\s(){},;]+)\s+" + ("t\\s+" if self.rec else "") + "$", text[: m.start()])
            if before and before[1] in self.helpers:
                p = self.helpers[before[1]]
            if p == place:
                return "c"
            if goal is None:
                return f"c.{self.newplace[p]}"
            return f"(goal.at.{goal} {'t ' * self.rec}c).{self.newplace[p]}"

        text = PATH.sub(one, text)
        names = self.clauses(self.own, "requires")
        if len(names) > 1:
            for m in list(re.finditer(r"let (\S+) = c\.requires in", text)):
                text = re.sub(rf"(?<![\w.-])({re.escape(m[1])})((?:\.\d)+)(?!\d)", lambda x: clause_of(names, x), text)
        # a test's fact stands beside its value now
        text = re.sub(r"\(eqb-(?:true|false) _ _ (c\.[^\s()]+)\.(true|false)-raw\)", r"\1.\2", text)
        text = re.sub(r"eqb-(?:true|false) _ _ (c\.[^\s()]+)\.(true|false)-raw", r"\1.\2", text)
        if "res" in PARAMS.get(self.own, []):
            for m in re.finditer(r"let (\S+) = c\.(args|loop-\w+) in", text):
                text = re.sub(rf"(?<![\w.-]){re.escape(m[1])}\.result(?![\w-])", f"{m[1]}.res", text)
            text = re.sub(r"(?<![\w.-])c\.(args|loop-[\w]+)\.result(?![\w-])", r"c.\1.res", text)
        # through a name for an arm
        for m in list(re.finditer(r"let (\S+) = c\.(in-\S+|in_\S+) in", text)):
            for arm in self.arms.values():
                if arm and arm[0] == m[2]:
                    for new, step, way in arm[2]:
                        if way:
                            text = re.sub(rf"(?<![\w.-]){re.escape(m[1])}\.{re.escape('.'.join(way))}(?!\d)", f"{m[1]}.{new}", text)
        # through a name for a call, or for what it ensures
        for m in list(re.finditer(r"let (\S+) = c\.(\S+?)(\.ensures)? in", text)):
            for p in self.d["places"]:
                if p[2][1] != m[2] or p[3] not in PARAMS:
                    continue
                name = rf"(?<![\w.-]){re.escape(m[1])}"
                clauses = self.clauses(p[3], "ensures")

                def param(x, p=p, m=m):
                    k = x[2].count("1")
                    return f"{m[1]}.{x[1]}.{PARAMS[p[3]][k]}" if k < len(PARAMS[p[3]]) else x[0]

                if not m[3]:
                    text = re.sub(name + r"\.(auto|new)\.((?:1\.)*)0(?!\d)", param, text)
                if len(clauses) > 1:
                    text = re.sub("(" + name + (r"\.ensures" if not m[3] else "") + r")((?:\.\d)+)(?!\d)", lambda x: clause_of(clauses, x), text)
        return text


def split_tuple(t):
    """The parts of '(a, b, c)', or None"""
    t = t.strip()
    if not (t.startswith("(") and t.endswith(")")):
        return None
    depth, parts, start = 0, [], 1
    for i, ch in enumerate(t):
        if ch in "({[":
            depth += 1
        elif ch in ")}]":
            depth -= 1
            if depth == 0 and i != len(t) - 1:
                return None
        elif ch == "," and depth == 1:
            parts.append(t[start:i])
            start = i + 1
    parts.append(t[start:-1])
    parts = [p.strip() for p in parts]
    if parts and parts[-1] == "":
        parts.pop()
    return parts if len(parts) > 1 else None


def flatten(t, n):
    parts = split_tuple(t)
    if parts is None:
        return None
    while len(parts) < n:
        more = split_tuple(parts[-1])
        if more is None:
            if not re.fullmatch(r"[\w.-]+", parts[-1]):
                return None
            # what is left of a product that has a name
            rest, k = parts.pop(), n - len(parts)
            return parts + [f"{rest}{'.1' * j}{'.0' if j < k - 1 else ''}" for j in range(k)]
        parts[-1:] = more
    if len(parts) > n:
        # the last parts belong to the last clause
        parts[n - 1:] = ["(" + ", ".join(parts[n - 1:]) + ")"]
    return parts


def as_record(text, names):
    """A body that ends in a tuple of clauses becomes one that ends in a record"""
    if len(names) < 2:
        return text
    i = 0
    # the end behind the last ' in' of the outermost lets
    lets = re.match(r"(?s)\s*let ", text)
    head, tail = "", text
    while re.match(r"\s*let ", tail):
        depth, j, n = 0, 0, 0
        words = list(re.finditer(r"[(){}\[\]]|(?<!\S)let(?!\S)|(?<!\S)in(?!\S)", tail))
        level = 0
        end = None
        for m in words:
            if m[0] in "({[":
                depth += 1
            elif m[0] in ")}]":
                depth -= 1
            elif depth == 0 and m[0] == "let":
                level += 1
            elif depth == 0 and m[0] == "in":
                level -= 1
                if level == 0:
                    end = m.end()
                    break
        if end is None:
            return text
        head += tail[:end]
        tail = tail[end:]
    parts = flatten(tail, len(names))
    if parts is None:
        t = tail.strip()
        m = re.match(r"(?s)rw ((?:\([^()]*(?:\([^()]*\)[^()]*)*\))|\S+) (\(.*\))$", t)
        if m and flatten(m[2], len(names)):
            return head + f" rw {m[1]} (record {{ " + "; ".join(f"{n} = {p}" for n, p in zip(names, flatten(m[2], len(names)))) + " })"
        if t.startswith(("record", "search", "omega", "grind", "elim", "rw", "simp", "λ", "absurd")):
            return text
        return head + f" let all = {t} in record {{ " + "; ".join(f"{n} = all{'.1' * k}{'.0' if k < len(names) - 1 else ''}" for k, n in enumerate(names)) + " }"
    inner = "; ".join(f"{n} = {p}" for n, p in zip(names, parts))
    return head + " record { " + inner + " }"


def turn_file(crate, folder, key, d, known, own):
    src = folder + "/Proof.antt"
    t = open(src, encoding="utf-8").read()
    T = Turn(crate, key, d, known, folder)
    T.own = own
    T.rec = key.startswith("+")
    if T.rec:
        # a function that calls itself: each goal takes the measure's value t
        me = key[1:]
        t = re.sub(r"Need-(\S+) \(\n[^)]*\)", r"Need-\1 (calls t)", t)
        t = re.sub(r"\(t : ℕ\) → [\w-]+-lts\.(Need-\S+)[^\n]*", r"tie.\1", t)
        t = re.sub(r"\(t : ℕ\) \((\w+) : [\w-]+-lts\.([A-Z]\S*) \(calls t\) \([\w-]+ t\) \S+?\)", r"(t : ℕ) (\1 : tie.\2)", t)
        t = re.sub(r"(?m)^use (borrow\.Fn|Rattle\.\S+\.(Reads|Kinds|Lts-\S+) as|Rattle\.\S+\.proofs\.\+\w+\.).*\n", "", t)
    # a place that stands for another one: fields are found by their names
    held = r"(?: invariant-\S+ decreases-\S+)?"
    same = set()
    for m in list(re.finditer(r"(?m)^(?:--[^\n]*\n)*(?:abbrev )?(\S+) : (?:\(\w+ : tie\.\S+%s\)|tie\.[A-Z]\S*%s) → tie\.[A-Z]\S*%s\n\1 (\w+) = (?:\S+ \2|\2|\(\S+ \2\))(?:\.before)*\n" % (held, held, held), t)):
        t = t.replace(m[0], "")
        same.add(m[1])
    for _ in range(4):
        for name in same:
            t = re.sub(r"\(%s ([^\s()]+)\)" % re.escape(name), r"\1", t)
            t = re.sub(r"= %s ([^\s()]+) in\b" % re.escape(name), r"= \1.before in", t)
    t = t.replace(".pre.", ".requires.")
    t = re.sub(r"(?m)^((?:abbrev )?\S+) : (tie\.[A-Z]\S*(?: invariant-\S+ decreases-\S+)?) → ", r"\1 : (c : \2) → ", t)
    lines = t.split("\n")
    uses = []
    i = 0
    blocks = []
    lead = []
    for line in lines:
        if re.match(r"(pub )?use ", line):
            uses.append(line)
        elif line.startswith("--"):
            lead.append(line)
        elif not line.strip():
            continue
        elif re.match(r"\S", line) and (re.match(r"(?:(?:abbrev|pub|unfoldable) )*\S+(?: \{[^{}]*\})* :(?= |$)", line) or re.match(r"((abbrev|pub) )*(module|record|data) ", line)):
            blocks.append(lead + [line])
            lead = []
        elif blocks:
            blocks[-1].append(line)
    path = "Rattle." + crate + ".proofs." + folder.split("/proofs/")[1].replace("/", ".")
    keep = [u for u in uses if not re.search(r"\.(Statement|Tie)(\.| as )", u)]
    inv, ans, helpers, shared = [], [], [], []
    for b in blocks:
        m = re.match(r"(?:(?:abbrev|pub|unfoldable) )*(\S+)(?: \{[^{}]*\})* :[^\n]*\((\S+) : tie\.([A-Z][^\s)]*)", "\n".join(l for l in b if not l.startswith("--")))
        if m:
            q = next((q for q in T.parent if norm(q) == norm(m[3])), None)
            if q:
                T.helpers[m[1]] = q
    for b in blocks:
        text = "\n".join(l for l in b if not l.startswith("--"))
        note = "".join(l + "\n" for l in b if l.startswith("--"))
        m = re.match(r"(?:(?:abbrev|pub|unfoldable) )*(\S+)(?: \{[^{}]*\})* :\s*(.*)", text)
        if not m or re.match(r"((abbrev|pub) )*(module|record|data) ", text):
            word = re.match(r"(?:(?:abbrev|pub) )*(?:module|record|data) (\S+)", text)
            helpers.append((note + text, word[1] if word else text.split()[1], False))
            continue
        name, rest = m[1], m[2]
        if re.search(r"\bstatement\b", rest):
            continue
        if T.rec and name.startswith("μ-"):
            k = int(re.search(r"= a((?:\.1)*)\.0$", text)[1].count("1"))
            inv.append(f"abbrev pub decreases-{me} : goal.decreases-{me}\ndecreases-{me} l = l.{PARAMS[own][k]}")
            continue
        if T.rec and (name == "calls" or re.search(r"-(at|below)$", name) and "Kinds" not in name and "ps" in text):
            continue
        mm = re.match(r"tie\.(invariant|decreases)-(\S+)\s*$", rest)
        if mm:
            old = mm[2]
            hits = [o for o in T.loops if norm(o) == norm(old)]
            if not hits:
                T.left.append(name)
                helpers.append((note + text, name, True))
                continue
            new, variables = T.loops[hits[0]]
            ch = T.changed[hits[0]]
            old_args = [v + ("₀" if c else "") for v, c in zip(variables, ch)] + [v for v, c in zip(variables, ch) if c]
            targets = ["l.initial." + v if c else "l." + v for v, c in zip(variables, ch)] + ["l." + v for v, c in zip(variables, ch) if c]
            body = "\n".join(text.split("\n")[1:])
            k = re.match(r"(?s)(unfolding [^\n]*\n)?\s*" + re.escape(name) + r"((?:\s+[^\s=]+)*)\s+=\s*(.*)", body)
            args = k[2].split()
            if len(args) != len(targets):
                T.left.append(f"{name}: arguments {args} for {old_args}")
            table = dict(zip(args, targets))

            def one(w):
                parts = w[0].split(".")
                if parts[0] in table:
                    return ".".join([table[parts[0]]] + parts[1:])
                return w[0]

            inv.append(f"{note}abbrev pub {mm[1]}-{new} : goal.{mm[1]}-{new}\n{k[1] or ''}{mm[1]}-{new} l = " + PATH.sub(one, k[3]))
            continue
        mm = re.match(r"tie\.Need-(\S+)(.*)", rest)
        if mm:
            n = norm(mm[1])
            new = T.needs.get(n) or T.needs.get(re.sub(r"result(?=$|-)", "res", n)) or T.needs.get(n.replace("slice-bounds-", "part-"))
            if new is None:
                if mm[1] and "search rules" not in text:
                    T.left.append("no goal " + mm[1])
                T.gone.add(name)
                continue
            body = "\n".join(text.split("\n")[1:])
            k = re.match(r"(?s)((?:unfolding [^\n]*\n)*)\s*" + re.escape(name) + r"((?:\s+[^\s=]+)*)\s+=\s*(.*)", body)
            if not k:
                T.left.append("form of " + name)
                continue
            if k[3].strip() in ("search rules", "tt") and not k[1]:
                T.gone.add(name)
                continue
            T.kept[name] = new
            place = T.at[new][0]
            args = [a for a in k[2].split() if not (T.rec and a == "t")]
            env = {args[0]: place} if args else {}
            if args and args[0] != "c":
                T.left.append(f"argument {args[0]} of {name}")
            b2 = T.body(k[3], env, new, place)
            names = []
            if "requires" in new:
                step = re.sub(r"-requires.*", "", new)
                for p in d["places"]:
                    if p[2][1] == step and p[3]:
                        names = T.clauses(p[3], "requires")
                if T.rec and len(names) > 1 and any(p[3] == own and p[2][1] == step for p in d["places"]):
                    b2 = re.sub(r"(?s)^((?:.* in)?\s*)\((.*)\)\s*$", r"\1(\2)", b2)
                    names = []
                b2 = as_record(b2, names)
            elif new.startswith("returns"):
                b2 = as_record(b2, T.clauses(own, "ensures"))
            ans.append(f"{note}pub {new} : goal.{new}\n{k[1]}{new} {'t ' * T.rec}c = {b2}")
            continue
        # a helper: with a place as its argument, or plain
        places = re.findall(r"tie\.([A-Z]\S*)", text)
        if places:
            env = {}
            for v, p in re.findall(r"\((\S+) : tie\.([A-Z][^\s)]*)[^)]*\)", text):
                env[v] = next((q for q in T.parent if norm(q) == norm(p)), None)
            if None in env.values() or not env:
                T.left.append("place of " + name)
            else:
                def typed(x):
                    q = next((q for q in T.parent if norm(q) == norm(x[2])), None)
                    return f"({x[1]} : goal.{T.newplace[q]}{' t' * T.rec})" if q else x[0]

                text = re.sub(r"\((\S+) : tie\.([A-Z][^\s)]*)[^)]*\)", typed, text)
                first = next(iter(env.values()))
                sig = re.match(r"(?s)(.*?goal\.[^)]*\))(.*)", text)
                if sig:
                    text = sig[1] + T.body(sig[2], env, None, first)
                else:
                    T.left.append("signature of " + name)
            if name in T.helpers:
                shared.append((note, name, text))
                continue
        helpers.append((note + text, name, True))
    # what several goals share: a lemma of their common place, or a let in each
    calls = {name: re.compile(r"(?<![\w.-])%s (?:t )?(?:c(?![\w.-])|\(goal\.at\.\S+ (?:t )?c\)\.[\w-]+|c\.[A-Z][\w-]*)" % re.escape(name)) for _, name, _ in shared}
    lets = []
    for note, name, text in shared:
        users = [i for i, a in enumerate(ans) if calls[name].search(a)]
        linked = any(calls[name].search(x[2]) for x in shared if x[1] != name) or any(calls[x[1]].search(text) for x in shared if x[1] != name)
        at = {T.at[re.search(r"goal\.(\S+)", ans[i])[1]][1] for i in users}
        if len(at) == 1 and not linked:
            place_ = at.pop()
            text = re.sub(r"\((\S+) : goal\.[^)]*\)", f"(\\1 : goal.{place_}{' t' * T.rec})", text, count=1)
            for i in users:
                ans[i] = calls[name].sub(f"{name} {'t ' * T.rec}c", ans[i])
            helpers.append((note + text, name, True))
            continue
        k = re.match(r"(?s)(?:abbrev )?\S+ :\s*(?:\(t : ℕ\) )?\(c : goal\.[^)]*\)\s*((?:[({][^→]*[)}] )*)→ (.*?)\n((?:unfolding [^\n]*\n)?)%s (?:t )?c((?: \S+)*?) =(.*)" % re.escape(name), text)
        if not k or k[3]:
            T.left.append("form of " + name)
            helpers.append((note + text, name, True))
            continue
        typ = (k[1] + "→ " if k[1].strip() else "") + re.sub(r"\s+", " ", k[2].strip())
        val = ("λ" + k[4] + ". " if k[4].strip() else "") + k[5].strip()
        lets.append((name, typ, val))
    for i, a in enumerate(ans):
        need_, grew = set(), True
        while grew:
            grew = False
            for name, typ, val in lets:
                if name not in need_ and (calls[name].search(a) or any(calls[name].search(t_ + " " + v_) for n_, t_, v_ in lets if n_ in need_)):
                    need_.add(name)
                    grew = True
        if not need_:
            continue
        m = re.match(r"(?s)((?:--[^\n]*\n)*pub \S+ : \S+\n(?:unfolding [^\n]*\n)*\S+ (?:t )?c =)(.*)", a)
        text = "".join(f"\n    let {n_} : {t_} = {v_} in" for n_, t_, v_ in lets if n_ in need_) + m[2]
        for n_ in need_:
            text = re.sub(r"\(" + calls[n_].pattern + r"\)", n_, text)
            text = calls[n_].sub(n_, text)
        ans[i] = m[1] + text
    # an answer that cites another goal's proof, which a search finds here too
    ans = [re.sub(r"\((?:%s) (?:t )?c\)" % "|".join(map(re.escape, T.gone or {"-"})), "(search rules)", a) for a in ans]
    for name, new in T.kept.items():
        ans = [re.sub(r"\(%s (?=(?:t )?c\))" % re.escape(name), f"({new} ", a) for a in ans]
    # helpers that the invariants need
    inv_text = "\n".join(inv)
    need = set()
    grew = True
    while grew:
        grew = False
        for h, n, _ in helpers:
            if n not in need and re.search(rf"(?<![\w-]){re.escape(n)}(?![\w-])", inv_text + "\n".join(x for x, y, _ in helpers if y in need)):
                need.add(n)
                grew = True
    out = []
    if inv:
        pre = [re.sub(r"^((?:--[^\n]*\n)*)(abbrev |unfoldable )?(pub )?", lambda m: m[1] + (m[2] or "") + "pub ", h) for h, n, _ in helpers if n in need]
        text = "\n".join(keep + [f"use {path}.Given as goal"]) + "\n\n" + "\n\n".join(pre + inv) + "\n"
        open(folder + "/Invariants.antt", "w", encoding="utf-8").write(text)
        out.append("Invariants")
    rest = [h for h, n, _ in helpers if n not in need]
    if ans or any(True for h in rest):
        more = [f"use {path}.Invariants.{{{', '.join(sorted(need))}}}"] if need else []
        text = "\n".join(keep + more + [f"use {path}.Goals as goal"]) + "\n\n" + "\n\n".join(rest + ans) + "\n"
        if ans:
            open(folder + "/Answers.antt", "w", encoding="utf-8").write(text)
            out.append("Answers")
    os.remove(src)
    print(f"{key}: {' '.join(out) or 'nothing left'}" + (f"; left: {T.left}" if T.left else ""))


def main(argv):
    crate = argv[0]
    only = argv[1:]
    names = json.load(open(f"/tmp/names-{crate}/names.json", encoding="utf-8"))
    known = contracts()
    for key, d in names.items():
        m = re.match(rf"Rattle-{crate}-proofs\.(.*)\.Lts(?:-\w+)?$", key)
        if not m:
            continue
        f = m[1]
        folder = f"crates/{crate}/proofs/" + f.replace(".", "/")
        if only and f not in only:
            continue
        if not os.path.exists(folder + "/Proof.antt"):
            continue
        own = crate + "::" + f.replace(".", "::").lstrip("+")
        turn_file(crate, folder, f, d, known, own)
    for p in glob.glob(f"crates/{crate}/proofs/**/Proof.antt", recursive=True):
        print("stays:", p)


if __name__ == "__main__":
    main(sys.argv[1:])
