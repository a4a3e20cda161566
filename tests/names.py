#!/usr/bin/env python3
"""names.py [where]: every name that docs/PROVED.md has in backquotes is declared; with `where`, a line for each says where.

Of what stands in backquotes each word is a name, but for what follows a path: that is a command. A single letter is a variable, and a
prime behind a word says "afterwards". A name is one of: a file or a directory, in crates/ also by the end of its path; what a module of
specs/ or proofs/ declares, but for fields and what is local to a proof; a function, type, parameter or field of src/; what specs/ uses of
the kit; a word of contracts. Names right before a module or a crate in brackets, as in `a`, `b` (`proofs/C`), must be declared there.
"""
import os
import re
import sys
from collections import defaultdict
from glob import glob

PAGE = 'docs/PROVED.md'
CONTRACTS = {'requires', 'ensures'}
DECLARES = re.compile(r' *(?:abbrev |unfoldable |pub )*(?:(?:record|data|mod) (\S+)|(\S+) : )')
INNER = re.compile(r' *(?:(?:pub )?record .*|where)$')
KIT = re.compile(r'use (?!Rattle\.(?!std\.))\S+\.\{(.*)\}')
SOURCE = re.compile(r'\b(?:fn|struct|enum|const) (\w+)|\b(\w+): ')
QUOTED = re.compile(r'`([^`]+)`')
PLACED = re.compile(r'((?:`[^`\s]+`(?:, | and | ))+)\(`([^`]+)`')


def module_names(path):
    """What a module declares; what is indented below a record's head or below `where` is inner to it."""
    outer = None
    for line in open(path, encoding='utf-8'):
        indent = len(line) - len(line.lstrip())
        if outer is not None and line.strip() and indent <= outer:
            outer = None
        if outer is None:
            found = DECLARES.match(line)
            if found:
                yield found[1] or found[2]
            if INNER.match(line.rstrip()):
                outer = indent
        kit = KIT.match(line)
        if kit and '/specs/' in path:
            yield from kit[1].split(', ')


def declarations():
    """For each name the files that declare it; for each end of a path in crates/ the files and directories that have it."""
    named, placed = defaultdict(set), defaultdict(set)
    modules = glob('crates/*/specs/*.antt') + glob('crates/*/proofs/*.antt')
    sources = glob('crates/*/src/*.rt')
    for path in modules:
        for name in module_names(path):
            named[name].add(path)
    for path in sources:
        for names in SOURCE.findall(re.sub('//.*', '', open(path, encoding='utf-8').read())):
            named[''.join(names)].add(path)
    for path in modules + sources + glob('crates/*') + glob('crates/*/*'):
        parts = path.replace('.antt', '').split('/')
        for start in range(len(parts)):
            placed['/'.join(parts[start:])].add(path)
    return named, placed


def words(quoted):
    quoted = quoted.split()
    for word in quoted[:1] if '/' in quoted[0] else quoted:
        for part in [word.rstrip('/')] if '/' in word else re.split(r'[(){}.,:]+', word):
            part = part.rstrip("'")
            if len(part) > 1 and any(c.isalpha() for c in part) and part not in CONTRACTS:
                yield part


def main():
    os.chdir(os.path.join(os.path.dirname(os.path.abspath(__file__)), '..'))
    named, placed = declarations()
    text = open(PAGE, encoding='utf-8').read()
    names = sorted({word for quoted in QUOTED.findall(text) for word in words(quoted)})
    for name in filter(os.path.exists, names):
        placed[name].add(name)
    wrong = ['%s: declared nowhere' % name for name in names if not named[name] | placed[name]]
    for listed, place in PLACED.findall(text.replace('\n', ' ')):
        for name in (word for quoted in QUOTED.findall(listed) for word in words(quoted)):
            if placed[place] and named[name] and not any((path + '/').startswith(at + '/') for path in named[name] for at in placed[place]):
                wrong.append('%s: not declared in %s, but in %s' % (name, place, ', '.join(sorted(named[name]))))
    if sys.argv[1:] == ['where']:
        for name in names:
            print('%s: %s' % (name, ', '.join(sorted(named[name] | placed[name]))))
    for line in wrong:
        print('%s: %s' % (PAGE, line))
    print('%d names of %s, %d wrong' % (len(names), PAGE, len(wrong)))
    sys.exit(1 if wrong else 0)


if __name__ == '__main__':
    main()
