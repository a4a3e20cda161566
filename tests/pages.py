#!/usr/bin/env python3
"""pages.py: what docs/ARCHITECTURE.md and CONTRIBUTING.md say of the repository is so.

A fenced block whose first line names a file, as in ```rust crates/keys/src/lib.rt, quotes it: its lines stand there one after another.
A line of two dots alone stands for lines that are left out; in a block of `text` the marks of comments are left out too.
The tables of crates have every crate once, in the order of crates.txt. A name in ARCHITECTURE's is declared in the row's crate, and a name
in the tables of PLACING is declared, where a module or a crate stands behind it in brackets, there. No line of NARROW has over
120 characters. In every page a link leads to a file that is there, and to a heading of it. The version at the head of docs/CHANGES.md
is every package's. README and the newest landing in docs/CHANGES.md say how many must-fail edits there are.
"""
import os
import re
import sys
from glob import glob

sys.dont_write_bytecode = True
from names import PLACED, QUOTED, declarations, words  # noqa: E402
from picture import listed  # noqa: E402

HOUSE, GUIDE, CHANGES = 'docs/ARCHITECTURE.md', 'CONTRIBUTING.md', 'docs/CHANGES.md'
EDITS = [('README.md', r'(\d+) wrong edits'), (CHANGES, r'\*\*Must-fail edits\*\*: (\d+)')]
CRATES = '## The crates in order'
QUOTING = [HOUSE, GUIDE]
TABLES = [(HOUSE, CRATES), (GUIDE, '## How long each crate takes')]
PLACING = [(HOUSE, '## Words'), (GUIDE, '## To add a kind of record')]
NARROW = ['README.md', 'docs/SPECIFICATION.md', HOUSE]
WIDEST = 120


def read(path):
    with open(path, encoding='utf-8') as page:
        return page.read()


def section(page, heading):
    """What stands below a heading, up to the next one of the first two levels."""
    text = '\n' + read(page)
    if '\n%s\n' % heading not in text:
        return ''
    return re.split(r'\n#{1,2} ', text.split('\n%s\n' % heading)[1])[0]


def rows(page, heading):
    """The rows of the table below a heading, without its head, a list of cells each."""
    table = [line for line in section(page, heading).split('\n') if line.startswith('|')]
    return [[cell.strip() for cell in line.strip('|').split('|')] for line in table[2:]]


def named_in(cell):
    return [word for quoted in QUOTED.findall(cell) for word in words(quoted)]


def quotes(page):
    """The language, the file and the lines of each quote."""
    for language, path, body in re.findall(r'^```(\S+) (\S+)\n(.*?)^```$', read(page), re.M | re.S):
        yield language, path, body


def is_quoted(language, path, body):
    text = read(path)
    if language == 'text':
        text = re.sub(r'(?m)^// ?', '', text)
    at = 0
    for part in re.split(r'(?m)^\.\.\n', body):
        found = ('\n' + text).find('\n' + part, at)
        if found < 0:
            return False
        at = found + len(part)
    return True


def wrong_quotes():
    for page in QUOTING:
        for language, path, body in quotes(page):
            if not os.path.exists(path):
                yield '%s: there is no %s to quote' % (page, path)
            elif not is_quoted(language, path, body):
                yield '%s: this does not stand in %s:\n%s' % (page, path, body)


def wrong_tables():
    crates = list(listed())
    for page, heading in TABLES:
        told = [row[0].strip('`') for row in rows(page, heading)]
        if told != crates:
            apart = sorted(set(told) ^ set(crates))
            yield '%s, "%s": not the crates of crates.txt in their order%s' % (page, heading, ''.join(': ' + name for name in apart))


def wrong_names():
    named, placed = declarations()

    def stands(name, places):
        return any((path + '/').startswith(at + '/') for path in named[name] for at in places)

    for crate, _, change in rows(HOUSE, CRATES):
        for name in named_in(change):
            if not os.path.exists(name) and not placed[name] and not stands(name, ['crates/' + crate.strip('`')]):
                yield '%s: %s is not declared in crate %s' % (HOUSE, name, crate)
    for page, where in ((page, row[-1]) for page, heading in PLACING for row in rows(page, heading)):
        for name in named_in(where):
            if not named[name] | placed[name]:
                yield '%s: %s is declared nowhere' % (page, name)
        for names, place in PLACED.findall(where):
            for name in named_in(names):
                if not stands(name, placed[place]):
                    yield '%s: %s is not declared in %s' % (page, name, place)


def anchors(page):
    """The headings of a page as links spell them."""
    for heading in re.findall(r'(?m)^#+ (.*)$', read(page)):
        yield re.sub(r'[^\w\- ]', '', heading.lower()).replace(' ', '-')


def wrong_links():
    for page in glob('*.md') + glob('docs/*.md'):
        text = re.sub(r'`[^`\n]*`', '', read(page))
        for target in re.findall(r'\]\(([^)\s]+)\)|(?m:^\[[^\]]+\]: (\S+)$)', text):
            target = target[0] or target[1]
            path, _, anchor = target.partition('#')
            path = os.path.normpath(os.path.join(os.path.dirname(page), path)) if path else page
            if '://' in target:
                continue
            if not os.path.exists(path):
                yield '%s: there is no %s to link to' % (page, path)
            elif anchor and anchor not in anchors(path):
                yield '%s: %s has no heading #%s' % (page, path, anchor)


def wrong_lines():
    for page in NARROW:
        for number, line in enumerate(read(page).split('\n'), 1):
            if len(line) > WIDEST:
                yield '%s:%d: %d characters' % (page, number, len(line))


def wrong_versions():
    said = re.findall(r'\bversion (\d+\.\d+\.\d+)', section(CHANGES, '# Changes'))
    if len(said) != 1:
        yield '%s: its head does not say one version' % CHANGES
    for package in glob('Cargo.toml') + glob('*/Cargo.toml'):
        for version in re.findall(r'(?m)^version = "(.*)"', read(package)):
            if said != [version]:
                yield '%s: version %s, where %s says %s' % (package, version, CHANGES, ', '.join(said))


def wrong_counts():
    edits = len(glob('crates/*/must-fail/*.edit'))
    for page, form in EDITS:
        said = re.search(form, read(page))
        if not said or int(said[1]) != edits:
            yield '%s: it does not say that there are %d must-fail edits' % (page, edits)


CHECKS = [wrong_quotes, wrong_tables, wrong_names, wrong_links, wrong_lines, wrong_versions, wrong_counts]


def main():
    os.chdir(os.path.join(os.path.dirname(os.path.abspath(__file__)), '..'))
    wrong = [fault for check in CHECKS for fault in check()]
    for fault in wrong:
        print(fault)
    print('%d quotes in the pages; %d wrong' % (sum(1 for page in QUOTING for _ in quotes(page)), len(wrong)))
    sys.exit(1 if wrong else 0)


if __name__ == '__main__':
    main()
