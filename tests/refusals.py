#!/usr/bin/env python3
"""refusals.py: docs/REFUSALS.md and docs/SPECIFICATION.md name the refusals that the definitions give.

The table in REFUSALS.md has a row for each number that a definition gives, in number order, and no other row; a row names exactly the
operations that can give its number, or "all", or "all but" some, and a sentence behind the table names all. The section of
SPECIFICATION.md that an operation's link leads to has the line "Refusals, in order:", with exactly the operation's numbers, in the
order in which its definition looks for them.

The numbers are read from the text of the definitions, which stand in DEFINED. A number is given by `refused`, `refuses`, `fault` or
`refusal_along` with a numeral behind it, and in a definition whose name ends in _refusal by a clause or an arm of `cond` that is a
numeral. An operation gives what its definition names and what is given by those that it names. An arm that is written out is looked
for before one that is a name of `let`, since the definitions bind by `let` what comes later.

The library for Rust and the reasoner say of each number what the table says is wrong. And where a file refers to SPECIFICATION by
section, as in SPECIFICATION 9.4, there is such a section.
"""
import os
import re
import sys
from glob import glob

TABLE, PAGE, HEADER = 'docs/REFUSALS.md', 'docs/SPECIFICATION.md', 'crates/exports/gimbuka.h'
# the operations by their names in C, and the program: the name in the table, and the definition
OPERATIONS = {
    'read_vocabulary': ('Read vocabulary', 'read_vocabulary'),
    'read_policy': ('Read policy', 'read_policy'),
    'read_second_policy': ('Read second policy', 'read_second_policy'),
    'possible': ('Possible', 'possibility'),
    'compliance': ('Compliance', 'compliance'),
    'equality': ('Equality', 'equality'),
    'model_check': ('Model check', 'model_check'),
    'read_owl': ('Read OWL', 'read_owl'),
    'spell': ('Spell', 'spell'),
    'rehearse': ('Rehearse', 'rehearse'),
}
PROGRAM = ('program', 'program')
# the definitions of one operation may stand in a crate of its own
DEFINED = ['crates/meaning/specs/*.antt', 'crates/owl/specs/*.antt', 'crates/spelling/specs/*.antt',
           'crates/rehearsal/specs/*.antt']
# where a number has its sentence once more: the form of a row, and numbers that it does not have
SAID = {
    'gimbuka/src/refusal.rs': (r'\((\d+), "([^"]*)"\)', {40}),
    'reasoner/src/text/mod.rs': (r'(\d+) => "([^"]*)"', set()),
}
REFERRING = ['README.md', 'CONTRIBUTING.md', 'docs/*.md', 'tests/*', 'crates/*/src/*.rt', 'crates/*/specs/*.antt', 'crates/*/proofs/**/*.antt',
             'crates/exports/gimbuka.h', 'gimbuka/**/*.rs', 'reasoner/**/*.rs', 'judges/**/*.rs']
GIVES = ('refused', 'refuses', 'fault', 'refusal_along')
SIGNATURE = re.compile(r'(?:abbrev |unfoldable )?(?:pub )?([^\s(]+) : ')


def is_numeral(item):
    return isinstance(item, str) and item.isdigit()


def parsed(tokens):
    """Tokens up to a closing bracket as a list, with a list for what stands in brackets."""
    items = []
    for token in tokens:
        if token == ')':
            break
        items.append(parsed(tokens) if token == '(' else token)
    return items


def definitions():
    """For each name the right-hand sides of its clauses."""
    bodies, name = {}, None
    for path in (path for form in DEFINED for path in glob(form)):
        for line in open(path, encoding='utf-8'):
            line = re.sub(r'(^|\s)--.*', '', line.rstrip())
            signature = SIGNATURE.match(line)
            if signature:
                name = signature[1]
                bodies.setdefault(name, [])
            elif name and line.startswith(name + ' '):
                bodies[name].append(line.split(' =', 1)[1])
            elif name and line.startswith(' ') and bodies[name]:
                bodies[name][-1] += line
            elif line:
                name = None
    return {name: [parsed(iter(re.findall(r'[()]|[^\s()]+', body))) for body in clauses] for name, clauses in bodies.items()}


class Numbers:
    """The numbers that definitions give, in the order in which they are looked for."""

    def __init__(self):
        self.bodies = definitions()
        self.within, self.known = [], {}
        # a second policy's numbers are so many more
        (self.more,) = [int(clause[0]) for clause in self.bodies['second_refusal'] if clause[1:] == ['+', 'suc', 'n']]

    def given(self, name):
        if name not in self.bodies or name in self.within:
            return []
        if name not in self.known:
            # a definition names itself or earlier ones alone, so that what it gives does not depend on who asks
            self.within.append(name)
            self.known[name] = list(dict.fromkeys(n for clause in self.bodies[name] for n in self.arm(clause, {})))
            self.within.pop()
        return self.known[name]

    def arm(self, items, lets):
        """What a clause or an arm of `cond` gives: in a refusal it may be the number itself, and 0 is none."""
        if len(items) == 1 and is_numeral(items[0]) and self.within[-1].endswith('_refusal'):
            return [int(items[0])] if int(items[0]) else []
        return self.of(items, lets)

    def of(self, items, lets):
        numbers, i = [], 0
        while i < len(items):
            item = items[i]
            if item == 'let':
                end = items.index('in', i)
                lets = {**lets, items[i + 1]: (items[items.index('=', i) + 1:end], lets)}
                i = end
            elif item == 'cond':
                numbers += self.of([items[i + 1]], lets)
                for arm in sorted(items[i + 2:i + 4], key=lambda arm: isinstance(arm, str) and arm in lets):
                    numbers += self.arm([arm], lets)
                i += 3
            elif item == 'second_refusal' and i + 1 < len(items):
                numbers += [self.more + n for n in self.of([items[i + 1]], lets)]
                i += 1
            elif item in GIVES and i + 1 < len(items) and is_numeral(items[i + 1]):
                numbers.append(int(items[i + 1]))
                i += 1
            elif isinstance(item, list):
                numbers += self.of(item, lets)
            elif item in lets:
                numbers += self.of(*lets[item])
            else:
                numbers += self.given(item)
            i += 1
        return numbers


def orders(numbers, wrong):
    """For each operation its numbers, in order."""
    exported = re.findall(r'\bgimbuka_(\w+)\(', open(HEADER).read())
    wrong += ['%s: an operation that this test does not know: %s' % (HEADER, name) for name in exported if name not in OPERATIONS]
    found = {title: list(dict.fromkeys(numbers.given(name))) for title, name in [*OPERATIONS.values(), PROGRAM]}
    # the program lends Compliance a full work slice
    assert 'work_size' in str(numbers.bodies['program'])
    found['program'] = [n for n in found['program'] if n != 21]
    known = {n for name in numbers.bodies for n in numbers.given(name)}
    wrong += ['the definitions give %d, and no operation does' % n for n in sorted(known - set(sum(found.values(), [])))]
    for name in numbers.bodies:
        if re.match('[a-z].*_refusal$', name) and name != 'second_refusal' and not numbers.given(name):
            wrong.append('%s: no number is found in its definition' % name)
    return found


def named(cell, found):
    """The operations that a cell of the table names."""
    linked = re.findall(r'\[([^\]]+)\]', cell)
    return [title for title in found if title not in linked] if re.match('all( but |$)', cell) else linked


def rows(text, found, wrong):
    """The table's numbers, each with its operations and what is wrong."""
    table, sentences = {}, {}
    for line in text.split('\n'):
        cells = [cell.strip() for cell in line.split('|')[1:-1]]
        if cells and cells[0].isdigit():
            number = int(cells[0])
            if len(cells) != 4 or not all(cells):
                wrong.append('%s: row %d has not four cells' % (TABLE, number))
            if table and number <= max(table):
                wrong.append('%s: row %d is not in number order' % (TABLE, number))
            table[number] = named(cells[1], found)
            sentences[number] = cells[2][0].lower() + cells[2][1:].rstrip('.')
    told = re.search(r'\n"All" are ([^.]*)\.', text)
    if not told or re.findall(r'\[([^\]]+)\]', told[1]) != list(found):
        wrong.append('%s: "all" are not %s' % (TABLE, ', '.join(found)))
    return table, sentences


def said(sentences, wrong):
    """What is wrong is told in one sentence everywhere."""
    for path, (form, without) in SAID.items():
        told = {int(number): sentence for number, sentence in re.findall(form, open(path, encoding='utf-8').read())}
        for number in sorted(set(sentences) - without | set(told)):
            if told.get(number) != sentences.get(number):
                wrong.append('%s: of %d it says "%s"; %s has "%s"' % (path, number, told.get(number), TABLE, sentences.get(number)))


def references(page, wrong):
    """How many references to a section there are, each of which has to lead to one."""
    sections = set(re.findall(r'\n##+ ([\d.]+) ', page))
    count = 0
    for path in sorted(path for form in REFERRING for path in glob(form, recursive=True) if os.path.isfile(path)):
        for several in re.findall(r'SPECIFICATION (\d+(?:\.\d+)?(?:(?:, | and | to )\d+\.\d+)*)', open(path, encoding='utf-8').read()):
            for number in re.findall(r'\d+(?:\.\d+)?', several):
                count += 1
                if number not in sections:
                    wrong.append('%s: there is no section %s' % (path, number))
    return count


def stated(page, link):
    """The order of refusals in the section that a link leads to."""
    for section in re.split(r'\n(?=##)', page):
        heading = section.split('\n')[0].lstrip('# ').lower()
        if link == re.sub(r'[^\w -]', '', heading).replace(' ', '-'):
            told = re.search(r'\nRefusals, in order: ([^.]*)\.', section)
            return [int(n) for n in re.findall(r'\d+', told[1])] if told else []
    return []


def main():
    os.chdir(os.path.join(os.path.dirname(os.path.abspath(__file__)), '..'))
    wrong = []
    found = orders(Numbers(), wrong)
    text, page = (open(path, encoding='utf-8').read() for path in (TABLE, PAGE))
    table, sentences = rows(text, found, wrong)
    said(sentences, wrong)
    count = references(page, wrong)
    for number in sorted(set(table) | set(sum(found.values(), []))):
        wanted = [title for title in found if number in found[title]]
        if not wanted:
            wrong.append('%s: row %d is of no refusal' % (TABLE, number))
        elif number not in table:
            wrong.append('%s: no row for %d' % (TABLE, number))
        elif table[number] != wanted:
            wrong.append('%s: row %d names %s; it is given by %s' % (TABLE, number, ', '.join(table[number]), ', '.join(wanted)))
    links = dict(re.findall(r'\n\[([^\]]+)\]: SPECIFICATION\.md#(\S+)', text))
    for title, order in found.items():
        told = stated(page, links.get(title))
        if told != order:
            wrong.append('%s: the order of %s is %s; the definitions have %s' % (PAGE, title, told, order))
    for line in wrong:
        print(line)
    print('%d refusals of %d operations, %d references to sections, %d wrong' % (len(table), len(found), count, len(wrong)))
    sys.exit(1 if wrong or not count else 0)


if __name__ == '__main__':
    main()
