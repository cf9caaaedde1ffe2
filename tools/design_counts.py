# Counts, for docs/DESIGN-PASS.md, the places of the points of the design pass in the crates of a tree: design_counts.py [FOLDER] [--list]
# The folder is a checkout (this one if none is named); --list names the places. Each row is a pattern read line by line in
# crates/*/src, comments left out, but for the twins (functions whose bodies are the same but for names and numbers) and the proofs.
import glob
import os
import re
import sys

listing = '--list' in sys.argv
folder = ([a for a in sys.argv[1:] if a != '--list'] or ['.'])[0]

ROWS = [
    ('1a', 'own enums of the shape of Option or Result', r'enum (\w*Answer|Checked|Reciprocal)\b'),
    ('1b', 'a number of a refusal with a value beside it', r'^\s*pub number: u32,|^\s*pub answer: HeaderAnswer'),
    ('1c', 'functions that answer a word or a number for nothing or a refusal', r'^(pub )?fn (\w+_word|also|or_else|measure)\('),
    ('1d', 'answers with a refusal by its number', r'Refused\(\w+\)|Written::refused\(|=> word,|return word;'),
    ('1e', 'a number that stands for none', r'\b(NO_SET|NO_CALL|NONE|NO_NUMBER)\b.*='),
    ('1f', 'numbers or bytes for kinds in parameters', r'\b(kind: u32|how: u8|call: u8|taking: bool)\b'),
    ('3', 'while loops', r'^\s*while '),
    ('4', 'conversions, minima and maxima written by hand', r'fn (wide|lesser|larger|least|size|is_between|sum\(a: u64)\b'),
    ('5a', 'clauses that a modulus is valid', r'requires( valid)? \{ Valid (modulus|self) \}'),
    ('5b', 'fields of three tables that go together (a board; four of a recipe)', r'a: &(mut )?\[u32\],$'),
    ('6', 'buffers with a length beside, parallel arrays', r'\[0u64; ARRAY_LENGTH\]|labels: &(mut )?\[u64\]|pub bytes: \[u8; \d+\]'),
    ('7', 'switches on which step to run', r'match (how|call|self|code|name|sign|function|lines::call\(line\)) \{|if taking \{|if kind == 0'),
]


def sources():
    return sorted(glob.glob(os.path.join(folder, 'crates/*/src/**/*.rt'), recursive=True))


def code(path):
    with open(path) as file:
        return [line.split('//')[0].rstrip() for line in file]


def places(pattern):
    return [(os.path.relpath(p, folder), k, line.strip())
            for p in sources() for k, line in enumerate(code(p), 1) if re.search(pattern, line)]


# The bodies of functions of five lines or more, with every name and number replaced by its turn.
def shapes():
    found = {}
    for path in sources():
        lines = code(path)
        for k, line in enumerate(lines):
            name = re.match(r'\s*(?:pub )?(?:extern "C" )?fn (\w+)', line)
            if not name:
                continue
            start = next((j for j in range(k, len(lines)) if lines[j].rstrip().endswith('{') and lines[j].strip() in ('{',) or
                          (j == k and line.endswith('{'))), None)
            if start is None:
                continue
            indent = len(line) - len(line.lstrip())
            end = next((j for j in range(start + 1, len(lines)) if lines[j] == ' ' * indent + '}'), start)
            body = [x.strip() for x in lines[start + 1:end] if x.strip()]
            if len(body) < 4:
                continue
            turns = {}
            shape = re.sub(r"[A-Za-z_][A-Za-z_0-9:]*|\d+|b'.'", lambda m: '#%d' % turns.setdefault(m.group(0), len(turns)), '\n'.join(body))
            found.setdefault(shape, []).append('%s %s' % (os.path.relpath(path, folder), name.group(1)))
    return [names for names in found.values() if len(names) > 1]


for row, what, pattern in ROWS:
    found = places(pattern)
    print('%-3s %-75s %d' % (row, what, len(found)))
    if listing:
        print(''.join('      %s:%d: %s\n' % place for place in found), end='')
twins = shapes()
print('%-3s %-75s %d' % ('2', 'functions beyond the first of each shape of body', sum(len(names) - 1 for names in twins)))
if listing:
    print(''.join('      %s\n' % ', '.join(names) for names in twins), end='')
proofs = glob.glob(os.path.join(folder, 'crates/*/proofs/**/*.antt'), recursive=True)
statements = glob.glob(os.path.join(folder, 'crates/*/specs/**/*.antt'), recursive=True)
lines = [line for p in proofs for line in open(p)]
print('%-3s %-75s %d' % ('8a', 'lines of proofs/', len(lines)))
print('%-3s %-75s %d' % ('8b', 'files of answers', sum(p.endswith('Answers.antt') for p in proofs)))
print('%-3s %-75s %d' % ('8c', 'lines over 200 characters in proofs/ and specs/', sum(len(line) > 201 for p in proofs + statements for line in open(p))))
