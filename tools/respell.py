#!/usr/bin/env python3
"""Brings the repository's own definitions and lemmas to today's spelling, once, after port.py: words in snake case, also in lemmas.

usage: tools/respell.py            at the top of the checkout: rewrites crates/
       tools/respell.py --names    prints each old name with its new one, and writes nothing
       tools/respell.py --pages NAMES FILE..   rewrites in pages and scripts the names that the file NAMES has, an old and a new one a line
"""
import re
import sys
from pathlib import Path

# a name of antt: letters, digits, dashes, primes, subscripts and arrows; a dot ends it
NAME = re.compile(r"[^\W\d][\w'→₀₁₂₃₄₅₆₇₈₉·-]*")
DECLARED = re.compile(r"^\s*(?:(?:abbrev|unfoldable|pub|data|record)\s+)*((?:[^\W\d][\w'→₀₁₂₃₄₅₆₇₈₉-]*\s+)*?[^\W\d][\w'→₀₁₂₃₄₅₆₇₈₉-]*)\s+:(?:\s|$)")
KEYWORDS = {'let', 'module', 'use', 'elim', 'where', 'in', 'do', 'mod', 'abbrev', 'unfoldable', 'pub', 'data', 'record', 'mutual', 'unfolding'}
# what std calls its own words now
WORDS = {'getD': 'get_or', 'In-span': 'InSpan'}
# words of std that a lemma of the repository would hide
TAKEN = {'bit_and', 'bit_or', 'bit_xor'}


def respelled(name):
    for old, new in WORDS.items():
        name = name.replace(old, new)
    name = name.replace('-', '_')
    if name[0].isupper():
        return name
    return re.sub(r'(?<=[a-z0-9\'])([A-Z])(?=[a-z])', lambda m: '_' + m.group(1).lower(), name)


def own(top):
    """The files in which the repository declares names of its own."""
    yield from sorted(top.glob('crates/*/specs/**/*.antt'))
    yield from (p for p in sorted(top.glob('crates/*/proofs/**/*.antt')) if p.name != 'Proof.antt')


def declared(top):
    names = set()
    for path in own(top):
        for line in path.read_text().splitlines():
            code = line.split('--')[0] if line.lstrip().startswith('--') else line
            m = DECLARED.match(code)
            if m:
                words = m.group(1).split()
                if words[0] not in KEYWORDS:
                    names.update(words)
    return names


def is_word(name):
    """Whether a name was a definition's, in camel case, and not a lemma's, with dashes."""
    return '-' not in name and re.search(r'[a-z][A-Z]', name) is not None


def renamed(top):
    """Each name with its new one. Where a lemma would fall together with a definition, or with a word of std, the lemma gets _lem."""
    all_names = declared(top)
    words = {respelled(n) for n in all_names if is_word(n)}
    names = {}
    for n in all_names:
        new = respelled(n)
        if not is_word(n) and (new in words or new in TAKEN or (new != n and new in all_names)):
            new += '_lem'
        if new != n:
            names[n] = new
    return names


def strings(text):
    """The places of string literals in a source file."""
    return [m.span() for m in re.finditer(r'b?"(?:[^"\\\n]|\\.)*"', text)]


def turn(text, names, skip=(), antt=True):
    """Old names for new. A name in snake case may be a function's too, so it is turned in antt alone, and not in a path."""
    def new(m):
        name = m.group(0)
        if any(a <= m.start() < b for a, b in skip):
            return name
        snake = '-' not in name and not is_word(name)
        if snake and (not antt or text[m.start() - 1:m.start()] == '.'):
            return name
        return names.get(name, name)
    return NAME.sub(new, text)


def main(argv):
    top = Path.cwd()
    names = renamed(top)
    if argv == ['--names']:
        for old in sorted(names):
            print(old, names[old])
        return 0
    if argv and argv[0] == '--pages':
        # the names as LANDED spells them: port.py respelled some of them first
        table = dict(line.split() for line in Path(argv[1]).read_text().splitlines())
        for path in map(Path, argv[2:]):
            text = path.read_text()
            new = turn(text, table)
            if new != text:
                path.write_text(new)
        return 0
    for path in sorted(top.glob('crates/**/*')):
        if path.suffix not in ('.antt', '.rt', '.edit') or 'out' in path.parts:
            continue
        text = path.read_text()
        new = turn(text, names, strings(text) if path.suffix == '.rt' else (), path.suffix == '.antt')
        if new != text:
            path.write_text(new)
    return 0


if __name__ == '__main__':
    raise SystemExit(main(sys.argv[1:]))
