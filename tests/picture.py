#!/usr/bin/env python3
"""picture.py [--check]: writes docs/crates.svg, the picture of the crates, from crates.txt; with --check, fails if it is another.

An arrow goes from a crate to one that uses it. An arrow that others say already is left out, and so is every arrow from a crate of
SHARED, which are used in many places. Where a crate stands and its few words are in STAGES; a crate of the list that is not there, or
one there that is not in the list, is an error. Nothing of what an arrow says is written by hand: WAYS only leads some around boxes.
"""
import os
import sys
from html import escape
from textwrap import wrap

LIST, PICTURE = 'crates.txt', 'docs/crates.svg'
SHARED = {'meaning', 'theory', 'intervals', 'frames', 'words', 'records', 'keys', 'layout', 'spelling'}
PLACES, CALLERS = 'layout', 'exports'

# Each stage has a title, a colour, and its crates: the column and the row that each stands in, and what it is for.
STAGES = [
    ('The shelf, used in many places: no arrows are drawn from these', '#f1f1ee', {
        'meaning': (1.25, 0, 'the definitions, with their examples; the names, the answers, the limits'),
        'theory': (4.75, 0, 'the theorems about the definitions'),
        'intervals': (0, 1, 'lo..hi: inside, empty, touching'),
        'frames': (1, 1, 'what a call may change; 21; clearing'),
        'words': (2, 1, 'sets of numbers in words'),
        'records': (3, 1, 'a word, a link; chains read and written'),
        'keys': (4, 1, 'feature and value as one number'),
        'layout': (5, 1, 'the map of the work slice'),
        'spelling': (6, 1, 'one spelling: definitions, theorems'),
    }),
    ('1  Tables read', '#fdf3dc', {
        'vocabulary': (1, 2, 'what is refused of it: 1 to 3, 44'),
        'policy': (4, 2, 'what is refused of it: 4 to 8, 14 to 18'),
        'readers': (5, 2, 'a program that tries the readers'),
        'model': (6, 2, 'what is refused of it: 31 to 33'),
    }),
    ('2  Vocabulary prepared, once a call', '#e3f1e3', {
        'closure': (0, 3, 'the classes above each class, each range'),
        'pairs': (1, 3, 'the disjoint pairs, as a list'),
        'functional': (2, 3, 'which names are functional'),
        'preparation': (1, 4, 'all three'),
    }),
    ('3  Normal form', '#dcefee', {
        'normal_form': (2, 5, 'a term as flat tables'),
        'tabulation': (2, 6, 'and whether it is possible'),
    }),
    ('4  Split and tried', '#e2ebf8', {
        'splitting': (3, 3, 'ends, pieces, how many combinations'),
        'subsumption': (4, 3, 'Algorithm 1, the constraints whole'),
        'carriers': (5, 3, 'who has a dial at or below'),
        'odometer': (3, 4, 'on to the next that may fail'),
        'retest': (4.5, 4, 'Algorithm 1 on a combination'),
        'trial': (4, 5, 'whole, else by combinations'),
        'countermodel': (5, 5, 'the words of a no'),
        'short_way': (3, 6, 'term by term, until one is not taken'),
        'decision': (4, 6, '22; the first combination to fail'),
    }),
    ('5  Model check', '#f6e6ee', {
        'satisfaction': (6, 3, 'does the model obey the vocabulary'),
        'spans': (6, 4, 'who has a value from lo to hi'),
        'extension': (6, 5, 'which records hold of whom'),
        'model_check': (6, 6, 'the operation Model check'),
    }),
    ('6  Operations', '#ece4f7', {
        'containment': (5, 7, 'Possible and Compliance'),
        'equality': (5, 8, 'Equality'),
    }),
    ('7  A vocabulary from OWL text', '#f8e9dc', {
        'name_table': (2, 7, 'names, and their numbers by look-up'),
        'tokens': (3, 7, 'bytes to tokens'),
        'statements': (4, 7, 'tokens to the eight forms'),
        'declarations': (3, 8, 'the declared names, counted and listed'),
        'owl': (4, 8, 'the operation Read OWL: 41, 42, 1, 23'),
    }),
    ('8  A policy in one spelling', '#eef3d8', {
        'entries': (0, 6, 'what is put in order; runs compared'),
        'flattening': (1, 6, 'each class below itself alone'),
        'arrangement': (0, 7, 'the entries in order, repeats dropped'),
        'writing': (0, 8, 'what stands in order, counted and written'),
        'spell': (1, 8, 'the operation Spell: 43, 23'),
    }),
    ('9  Loads for rehearsals, and what callers see', '#f1f1ee', {
        'input': (0, 9, 'bytes to words and parts, and back'),
        'printing': (1, 9, 'bytes, names, decimals'),
        'rehearsal': (3, 9, 'the operation Rehearse: 45, 23'),
        'exports': (5, 9, 'the operations for C'),
        'demands': (6, 9, 'the three demands, as theorems'),
        'rehearse': (0, 10, 'a program that writes a load'),
        'text': (1, 10, 'answers to lines'),
        'desk': (2.5, 10, 'the program as a function'),
        'comply': (4, 10, 'the program'),
        'streams': (5.5, 10, 'standard input and output'),
    }),
]
PLACE = {name: place for _, _, crates in STAGES for name, place in crates.items()}

# The points, in columns and rows, by which an arrow goes around what is in its way; it starts and ends at the sides named.
WAYS = {
    ('vocabulary', 'model'): ('top', [(1.3, 1.54), (6, 1.54)], 'top'),
    ('functional', 'satisfaction'): ('top', [(2.3, 2.47), (5.8, 2.47)], 'top'),
    ('preparation', 'normal_form'): ('right', [(2.24, 4)], 'top'),
    ('policy', 'normal_form'): ('bottom', [(3.7, 2.4), (2.5, 2.4), (2.5, 4.45), (2.37, 4.45)], 'top'),
    ('policy', 'spans'): ('bottom', [(4.3, 2.4), (5.5, 2.4), (5.5, 4)], 'left'),
    ('tabulation', 'spell'): ('left', [(1.5, 6), (1.5, 8)], 'right'),
    ('containment', 'desk'): ('left', [(4.5, 7), (4.5, 8.42), (2.5, 8.42)], 'top'),
    ('rehearsal', 'demands'): ('bottom', [(3.2, 9.46), (5.8, 9.46)], 'bottom'),
    ('rehearsal', 'rehearse'): ('bottom', [(2.8, 9.46), (0.25, 9.46)], 'top'),
    ('model_check', 'exports'): ('bottom', [(5.8, 6.42), (5.5, 6.42), (5.5, 8.42), (5.2, 8.42)], 'top'),
}

# In pixels: a column's and a box's width, a row's and a box's height, the sheet's margin, and where each row's boxes begin.
STEP, WIDTH, HEIGHT, MARGIN = 164, 142, 56, 26
ROWS = [50, 128, 250, 372, 462, 580, 670, 794, 884, 1006, 1096]
SHEET = (STEP * 6 + WIDTH + 2 * MARGIN, 1218)


def listed():
    """The crates and what each uses, in the list's order."""
    uses = {}
    for line in open(LIST, encoding='utf-8'):
        line = line.split('#')[0]
        if line.strip():
            name, used = line.split(':')
            # behind the name may stand what kind of library it is
            uses[name.split()[0]] = used.split()
    return uses


def arrows(uses):
    """From the used to the user, without SHARED, and without what other arrows lead to."""
    uses = {name: [u for u in used if u in uses and u not in SHARED] for name, used in uses.items() if name not in SHARED}

    def below(name):
        return {name}.union(*(below(used) for used in uses[name]))

    return [(used, name) for name in uses for used in uses[name]
            if not any(used in below(other) for other in uses[name] if other != used)]


def pixel(column, row):
    """The middle of a box that stands there; between two rows, a share of the way."""
    at = int(row)
    top = ROWS[at] + (ROWS[at + 1] - ROWS[at]) * (row - at) if row > at else ROWS[at]
    return round(MARGIN + column * STEP + WIDTH / 2), round(top + HEIGHT / 2)


def box(name):
    """Left, top, width and height; the two crates that all are built on are half as wide as the sheet."""
    column, row, _ = PLACE[name]
    x, y = pixel(column, row)
    width = round(WIDTH + 2.5 * STEP) if row == 0 else WIDTH
    return x - width // 2, y - HEIGHT // 2, width, HEIGHT


def side(name, which, shift=0):
    x, y, width, height = box(name)
    return {'top': (x + width // 2 + shift, y), 'bottom': (x + width // 2 + shift, y + height),
            'left': (x, y + height // 2), 'right': (x + width, y + height // 2)}[which]


def path(arrow):
    """An arrow's line: along its way, straight within a row, else a curve from the bottom to the top."""
    used, user = arrow
    (from_column, from_row, _), (to_column, to_row, _) = PLACE[used], PLACE[user]
    if arrow in WAYS:
        start, points, end = WAYS[arrow]
        points = [pixel(*point) for point in points]
        out, into = side(used, start), side(user, end)
        if start in ('top', 'bottom'):
            out = (points[0][0], out[1])
        if end in ('top', 'bottom'):
            into = (points[-1][0], into[1])
        return 'M%d %d ' % out + ' '.join('L%d %d' % point for point in points + [into])
    if from_row == to_row:
        ends = ('right', 'left') if from_column < to_column else ('left', 'right')
        return 'M%d %d L%d %d' % (side(used, ends[0]) + side(user, ends[1]))
    # those that come from or go to the left leave and arrive a little left of the middle, so that they are told apart
    lean = max(-1, min(1, to_column - from_column))
    (x, y), (u, v) = side(used, 'bottom', round(26 * lean)), side(user, 'top', round(-26 * lean))
    bend = (v - y) // 2
    return 'M%d %d C%d %d %d %d %d %d' % (x, y, x, y + bend, u, v - bend, u, v)


def panel(title, colour, crates):
    boxes = [box(name) for name in crates]
    left, top = min(b[0] for b in boxes) - 9, min(b[1] for b in boxes) - 36
    right, bottom = max(b[0] + b[2] for b in boxes) + 9, max(b[1] + b[3] for b in boxes) + 11
    yield '<rect x="%d" y="%d" width="%d" height="%d" rx="8" fill="%s"/>' % (left, top, right - left, bottom - top, colour)


def heading(title, colour, crates):
    """The title, with the panel's colour around it: an arrow that crosses it stays behind."""
    boxes = [box(name) for name in crates]
    at = (min(b[0] for b in boxes), min(b[1] for b in boxes) - 17)
    yield '<text x="%d" y="%d" class="title" stroke="%s">%s</text>' % (at + (colour, escape(title)))


def drawn(name, uses):
    x, y, width, height = box(name)
    called = name in uses[CALLERS] and name not in SHARED
    yield '<rect x="%d" y="%d" width="%d" height="%d" rx="4" class="%s"/>' % (x, y, width, height, 'called' if called else 'box')
    if PLACES in uses[name]:
        yield '<rect x="%d" y="%d" width="5" height="%d" class="works"/>' % (x + 1, y + 4, height - 8)
    middle = x + width // 2
    yield '<text x="%d" y="%d" class="name">%s</text>' % (middle, y + 18, escape(name))
    for i, line in enumerate(wrap(PLACE[name][2], width // 6)):
        yield '<text x="%d" y="%d" class="says">%s</text>' % (middle, y + 34 + 14 * i, escape(line))


def legend():
    y = SHEET[1] - 26
    yield '<rect x="%d" y="%d" width="5" height="18" class="works"/>' % (MARGIN, y - 13)
    yield '<text x="%d" y="%d" class="note">works in the tables of a decision, in the work slice</text>' % (MARGIN + 13, y)
    yield '<rect x="%d" y="%d" width="26" height="18" rx="4" class="called"/>' % (MARGIN + 360, y - 13)
    yield '<text x="%d" y="%d" class="note">has an operation for callers</text>' % (MARGIN + 394, y)
    yield '<path d="M%d %d L%d %d" class="arrow"/>' % (MARGIN + 620, y - 4, MARGIN + 656, y - 4)
    yield '<text x="%d" y="%d" class="note">is used by, where no other arrows say so</text>' % (MARGIN + 666, y)


def picture(uses):
    yield ('<svg xmlns="http://www.w3.org/2000/svg" viewBox="0 0 %d %d" width="%d" height="%d" '
           'font-family="DejaVu Sans, Verdana, sans-serif">' % (SHEET + SHEET))
    yield '<!-- Made by tests/picture.py from crates.txt. -->'
    yield '<title>The crates, from the definitions to what callers see</title>'
    yield ('<style>.title{font-size:13px;font-weight:bold;fill:#444;stroke-width:5;paint-order:stroke}.name{font-size:13px;font-weight:bold;text-anchor:middle;fill:#111}'
           '.says{font-size:10px;text-anchor:middle;fill:#333}.note{font-size:12px;fill:#333}.box{fill:#fff;stroke:#999}'
           '.called{fill:#fff;stroke:#222;stroke-width:2.4}.works{fill:#3f72b5}'
           '.arrow{fill:none;stroke:#566;stroke-width:1.5;marker-end:url(#head)}</style>')
    yield ('<defs><marker id="head" viewBox="0 0 8 8" refX="7" refY="4" markerWidth="7" markerHeight="7" orient="auto">'
           '<path d="M0 0 L8 4 L0 8 z" fill="#566"/></marker></defs>')
    yield '<rect width="%d" height="%d" fill="#fff"/>' % SHEET
    for stage in STAGES:
        yield from panel(*stage)
    for arrow in arrows(uses):
        yield '<path d="%s" class="arrow"/>' % path(arrow)
    for stage in STAGES:
        yield from heading(*stage)
    for name in uses:
        yield from drawn(name, uses)
    yield from legend()
    yield '</svg>'


def faults(uses):
    for name in uses:
        if name not in PLACE:
            yield 'STAGES does not say where %s stands' % name
    for name in PLACE:
        if name not in uses:
            yield '%s of STAGES is not in %s' % (name, LIST)
    for arrow in WAYS:
        if set(arrow) <= set(uses) and arrow not in arrows(uses):
            yield 'there is no arrow from %s to %s, which WAYS leads' % arrow


def main():
    os.chdir(os.path.join(os.path.dirname(os.path.abspath(__file__)), '..'))
    uses = listed()
    wrong = list(faults(uses))
    made = '' if wrong else '\n'.join(picture(uses)) + '\n'
    if not wrong and sys.argv[1:] == ['--check']:
        with open(PICTURE, encoding='utf-8') as stored:
            if stored.read() != made:
                wrong.append('%s is not what %s says: run tests/picture.py' % (PICTURE, LIST))
    elif not wrong:
        with open(PICTURE, 'w', encoding='utf-8') as stored:
            stored.write(made)
    for line in wrong:
        print('picture.py: %s' % line)
    print('%d crates in %s, %d wrong' % (len(uses), PICTURE, len(wrong)))
    sys.exit(1 if wrong else 0)


if __name__ == '__main__':
    main()
