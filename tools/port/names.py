#!/usr/bin/env python3
# Spells the definitions, fields and lemmas of this repository as today's Rattle spells names: words in snake case, a
# dash only between two names. It was run once, on the tree that port.py left (docs/PORT.md); first.tsv holds the lemmas
# whose name a definition takes, names.tsv all the rest. Functions of src/, exported names and strings keep theirs.
import glob
import os
import re
import subprocess
import sys

HERE = os.path.dirname(os.path.abspath(__file__))
SNAKE = '/opt/rattle/port/notes/2026-11-18-names-are-in-snake-case/snake.py'
WORD = re.compile(r"(?<![\w'-])[^\W\d_](?:[\w']|-(?=\w))*")


def rows(name):
    with open(os.path.join(HERE, name), encoding='utf-8') as f:
        return dict(line.rstrip('\n').split('\t') for line in f)


def turned(path, table, behind):
    """Turns a file's whole words by the table; a word behind a dot only where `behind` says so."""
    with open(path, encoding='utf-8') as f:
        old = f.read()

    def one(found):
        dotted = old[:found.start()].endswith('.')
        return found[0] if dotted and not behind else table.get(found[0], found[0])
    new = WORD.sub(one, old)
    if new != old:
        with open(path, 'w', encoding='utf-8') as f:
            f.write(new)


os.chdir(os.path.join(HERE, '..', '..'))
for path in glob.glob('crates/**/*.antt', recursive=True):
    turned(path, rows('first.tsv'), False)
table = os.path.join(HERE, 'names.tsv')
for kinds, paths in ('antt,rt', ['crates']), ('md', ['README.md', *glob.glob('docs/*.md')]):
    if subprocess.run([sys.executable, SNAKE, '--table', table, '--only', kinds, *paths]).returncode not in (0, 1):
        sys.exit(1)
for path in glob.glob('crates/*/must-fail/*.edit'):
    turned(path, rows('names.tsv'), True)
