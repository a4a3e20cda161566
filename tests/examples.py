#!/usr/bin/env python3
"""examples.py PROGRAM [WRAPPER...]: the consent desk's examples through the program, against the output stored in tests/examples.

The wrapper is a command to put before the program, such as valgrind -q --error-exitcode=99.

SPECIFICATION 11.2: those that go through the program, the ones that are also proved and the rest. Each case is a vocabulary and
two policies; what the program must print stands in tests/examples/NAME.txt, written by hand. A case with no stored output, or a stored output with no case, is a failure.
"""
import os
import struct
import subprocess
import sys

HERE = os.path.join(os.path.dirname(os.path.abspath(__file__)), 'examples')


def chained(records, width):
    """The records of a table, each linked to the next."""
    words = []
    for i, record in enumerate(records):
        words += list(record) + [i + 2 if i + 1 < len(records) else 0]
        assert len(record) + 1 == width
    return words


def vocabulary(classes, roles, features, axioms=()):
    return [classes, roles, features, 1 if axioms else 0] + chained(axioms, 4)


def policy(*terms):
    """Terms are lists of conjuncts: ('class', a), ('never',), ('some', r, conjuncts), ('span', f, lo, hi)."""
    table = []

    def chain(entries):
        """Writes the entries one behind another, each followed by its child chain; the first one's number, 0 for none."""
        numbers = []
        for kind, a, lo, hi, inner in entries:
            table.append([kind, a, lo, hi, 0, 0])
            number = len(table)
            numbers.append(number)
            table[number - 1][4] = chain(inner)
        for number, following in zip(numbers, numbers[1:]):
            table[number - 1][5] = following
        return numbers[0] if numbers else 0

    def conjunct(c):
        if c[0] == 'class':
            return (1, c[1], 0, 0, [])
        if c[0] == 'never':
            return (2, 0, 0, 0, [])
        if c[0] == 'some':
            return (3, c[1], 0, 0, [conjunct(x) for x in c[2]])
        return (4, c[1], c[2], c[3], [])

    first = chain([(5, 0, 0, 0, [conjunct(c) for c in term]) for term in terms])
    return [first, 0, 0, 0, 0, 0] + [word for record in table for word in record]


def nested(depth):
    """A conjunct at each depth from 1 to depth."""
    inner = [('class', 1)]
    for _ in range(depth - 1):
        inner = [('some', 1, inner)]
    return inner


AXIOMS = [(1, 2, 1), (1, 4, 1), (1, 4, 3), (2, 1, 3), (3, 1, 0), (3, 2, 0), (4, 1, 0), (5, 3, 1), (6, 3, 0)]
DESK = vocabulary(4, 3, 1, AXIOMS)
# as it was printed before role 3 was stated many-valued
PRINTED = vocabulary(4, 3, 1, AXIOMS[:-1])
# kind 7 in the place of kind 4
MANY_VALUED = vocabulary(4, 3, 1, [(7, 1, 0) if axiom == (4, 1, 0) else axiom for axiom in AXIOMS])
# nothing is stated: the role and the feature are functional
UNSTATED = vocabulary(1, 1, 1)


def role(r, *inner):
    return ('some', r, list(inner))


def span(lo, hi, f=1):
    return ('span', f, lo, hi)


def features(n):
    return vocabulary(1, 0, n), policy([span(0, 1, f) for f in range(1, n + 1)]), policy()


MANY = [span(0, 1, f) for f in range(1, 18)]
WIDE = vocabulary(2, 1, 17)

ANY = policy([])
NONE = policy()
R1_1, R1_2 = policy([role(1, ('class', 1))]), policy([role(1, ('class', 2))])
APART = policy([span(0, 4), span(6, 9)])
# what is asked of two values of role 3, and of one
R3_2_WITH_R3_3_3 = policy([role(3, ('class', 2)), role(3, span(3, 3))])
R3_BOTH = policy([role(3, ('class', 2), span(3, 3))])


def both_ways(*axioms):
    return vocabulary(2, 2, 2, axioms)


CASES = {
    'r1_2_in_r1_1': (DESK, R1_2, R1_1),
    'r1_1_in_r1_2': (DESK, R1_1, R1_2),
    'r1_1_in_r1_2_as_printed': (PRINTED, R1_1, R1_2),
    'r1_1_with_r1_3': (DESK, policy([role(1, ('class', 1)), role(1, ('class', 3))]), NONE),
    'class_4': (DESK, policy([('class', 4)]), NONE),
    'range': (DESK, policy([role(3)]), policy([role(3, ('class', 1))])),
    'two_halves': (DESK, policy([span(0, 9)]), policy([span(0, 4)], [span(5, 9)])),
    'a_hole': (DESK, policy([span(0, 9)]), policy([span(0, 4)], [span(6, 9)])),
    'five_pieces': (DESK, policy([span(1, 9)]), policy([span(5, 12)])),
    'apart': (DESK, APART, NONE),
    'apart_by_default': (UNSTATED, APART, NONE),
    'apart_but_not_functional': (MANY_VALUED, APART, NONE),
    'role_3_many_valued': (DESK, R3_2_WITH_R3_3_3, R3_BOTH),
    'role_3_by_default': (PRINTED, R3_2_WITH_R3_3_3, R3_BOTH),
    'role_both_ways': (both_ways((3, 1, 0), (4, 1, 0), (6, 1, 0)), NONE, NONE),
    'feature_both_ways': (both_ways((7, 2, 0), (3, 2, 0), (4, 2, 0)), NONE, NONE),
    'role_and_feature_of_one_number': (both_ways((3, 1, 0), (7, 1, 0), (4, 2, 0), (6, 2, 0)), NONE, NONE),
    'many_valued_twice': (both_ways((6, 1, 0), (7, 2, 0), (6, 1, 0), (7, 2, 0)), NONE, NONE),
    'both_ways_and_kind_8': (both_ways((3, 1, 0), (6, 1, 0), (8, 1, 0)), NONE, NONE),
    'both_ways_and_no_policy': (both_ways((3, 1, 0), (6, 1, 0)), [], []),
    'no_simple_policy': (DESK, NONE, R1_1),
    'only_an_empty_term': (DESK, R1_1, ANY),
    'all_individuals': (DESK, ANY, NONE),
    'features_16': features(16),
    'features_17': features(17),
    'features_17_in_the_same': (WIDE, policy(MANY), policy(MANY)),
    'features_17_behind_a_role': (WIDE, policy([role(1, *MANY)]), policy([role(1)])),
    'features_17_each_by_another': (WIDE, policy(MANY, [('class', 1)]), policy([('class', 1)], MANY)),
    'features_17_and_one_that_fails': (WIDE, policy(MANY, [('class', 2)]), policy([('class', 1)], MANY)),
    'features_17_in_the_impossible': (WIDE, policy(MANY), policy([('never',)])),
    'classes_256': (vocabulary(256, 0, 0), policy([('class', 256)]), policy([('class', 255)])),
    'classes_257': (vocabulary(257, 0, 0), policy([('class', 256)]), policy([('class', 255)])),
    'depth_16': (UNSTATED, policy(nested(16)), policy(nested(16))),
    'depth_17': (UNSTATED, policy(nested(17)), policy(nested(16))),
    'depth_17_in_the_second': (UNSTATED, policy(nested(16)), policy(nested(17))),
}


def encoded(case):
    return b''.join(struct.pack('<%dI' % (len(part) + 1), len(part), *part) for part in case)


def inputs():
    for name, case in CASES.items():
        yield name, encoded(case)
    whole = encoded(CASES['r1_2_in_r1_1'])
    yield 'empty_input', b''
    yield 'cut_short', whole[:-1]
    yield 'followed_by_more', whole + b'\0'
    yield 'longest_input', struct.pack('<I', 16381) + bytes(65532)
    yield 'longer_than_the_longest', struct.pack('<I', 16381) + bytes(65533)


def main():
    command, failed, seen = sys.argv[2:] + sys.argv[1:2], 0, set()
    for name, data in inputs():
        seen.add(name + '.txt')
        run = subprocess.run(command, input=data, stdout=subprocess.PIPE)
        with open(os.path.join(HERE, name + '.txt'), 'rb') as stored:
            wanted = stored.read()
        if run.returncode or run.stdout != wanted:
            failed += 1
            print('%s: status %d, printed %r, wanted %r' % (name, run.returncode, run.stdout[:200], wanted[:200]))
    for name in sorted(set(os.listdir(HERE)) - seen):
        failed += 1
        print('%s: no such case' % name)
    print('%d examples through %s, %d failed' % (len(seen), os.path.basename(command[0]), failed))
    sys.exit(1 if failed else 0)


if __name__ == '__main__':
    main()
