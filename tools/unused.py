#!/usr/bin/env python3
"""Drops names that a function's Answers.antt or Invariants.antt imports and does not use, by text: usage: tools/unused.py FILE.."""
import re
import sys

WORD = re.compile(r"[^\s(){};,@\"«»]+")
USE = re.compile(r"(?m)^use (\S+?)(?:\.\{([^}]*)\}| as (\S+))\n")


def used(name, text, words):
    name = name.split(" as ")[-1].strip()
    if "◌" in name:
        parts = [p for p in name.split("◌") if p]
        if name == "◌∷◌":
            return "∷" in words
        return all(p in words or p in text for p in parts)
    return name in words


for path in sys.argv[1:]:
    t = open(path, encoding="utf-8").read()
    body = re.sub(r"--[^\n]*", "", USE.sub("", t))
    words = set()
    for w in WORD.findall(body):
        words |= {w} | set(w.split("."))
    words |= set(re.findall(r"[^\s\w(){};,.@\"«»-]+", body))

    def one(m):
        if m[3]:
            return m[0] if m[3] in words else ""
        names = [n.strip() for n in m[2].split(",")]
        kept = [n for n in names if used(n, body, words)]
        return f"use {m[1]}.{{{', '.join(kept)}}}\n" if kept else ""

    new = USE.sub(one, t)
    if new != t:
        open(path, "w", encoding="utf-8").write(new)
