#!/usr/bin/env python3
"""Brings the repository's own definitions and lemmas to Rattle's spelling: words in snake case, types and modules in camel case.

Use, at the top of a repository that port.py has turned:  tools/respell.py

It rewrites crates/ by tools/respell.tsv, a row for each name: old, a tab, new. A name in camel case that begins with a small letter goes to snake
case. A dash becomes an underscore, but in a lemma whose name joins two by it, as length-bytes_of or bytes-append. A lemma that would have shared
its name with a definition in one file ends in _lem. Functions of src/, exported C names, strings and comments keep theirs; in a .rt file clauses,
ghost items and imports alone are read.
"""
import glob
import os
import re

ROOT = os.path.dirname(os.path.dirname(os.path.abspath(__file__)))
TABLE = os.path.join(ROOT, 'tools', 'respell.tsv')
WORD = re.compile(r'[^\s(){}.;,@"«»]+')
QUIET = re.compile(r'"(?:[^"\\\n]|\\.)*"|(?<![^\s(){}.;,@"«»])--[^\n]*|\{-.*?-\}', re.S)
KEPT = re.compile(QUIET.pattern + r'|^(?:pub )?use [^\s{]+', re.S | re.M)
IMPORT = re.compile(r'^(?:pub )?use ([^\s{]+)\.\{([^}]*)\}', re.M)


def read(path):
    with open(path, encoding='utf-8', newline='') as file:
        return file.read()


def files():
    for ending in ('antt', 'rt'):
        for path in sorted(glob.glob(os.path.join(ROOT, 'crates', '*', '**', '*.' + ending), recursive=True)):
            if '/out/' not in path:
                yield path


def turned(code, rows):
    return WORD.sub(lambda found: rows.get(found[0], found[0]), code)


def fitting(path, text, rows):
    """The rows for one file: a name that port.py has already turned goes on only where it is the lemma's, and not a function's of src/."""
    if not path.endswith('/Proof.antt'):
        return rows
    imported = {item.split(' as ')[0].strip() for module, names in IMPORT.findall(text) for item in names.split(',')}
    return {old: new for old, new in rows.items() if new != old + '_lem' or old in imported}


def turn_antt(text, rows):
    parts, at = [], 0
    for quiet in KEPT.finditer(text):
        parts += [turned(text[at:quiet.start()], rows), quiet[0]]
        at = quiet.end()
    return ''.join(parts) + turned(text[at:], rows)


def turn_rt(text, rows):
    """Clauses, ghost blocks and imports: from the word up to the brace or semicolon that ends it."""
    parts, at = [], 0
    for start in re.finditer(r'(?m)^(?!\s*//).*?\b(?:(requires|ensures)\b[^{\n]*\{|(ghost)\b)', text):
        begin = start.end()
        if begin <= at:
            continue
        if start[2]:
            end = begin
            deep = 0
            while deep or text[end] != ';':
                deep += (text[end] == '{') - (text[end] == '}')
                end += 1
        else:
            end, deep = begin, 1
            while deep:
                deep += (text[end] == '{') - (text[end] == '}')
                end += 1
        parts += [text[at:begin], turned(text[begin:end], rows)]
        at = end
    return ''.join(parts) + text[at:]


def main():
    rows = dict(line.rstrip('\n').split('\t') for line in open(TABLE, encoding='utf-8'))
    changed = 0
    for path in files():
        before = read(path)
        after = (turn_antt if path.endswith('.antt') else turn_rt)(before, fitting(path, before, rows))
        if after != before:
            with open(path, 'w', encoding='utf-8', newline='') as file:
                file.write(after)
            changed += 1
    print(f'{changed} files')


main()
