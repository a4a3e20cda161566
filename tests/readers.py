#!/usr/bin/env python3
"""What the program `readers` must print, from SPECIFICATION 9.2 to 9.4 alone.

One line a case: the refusal's number, 0 where the table is accepted. Usage: readers.py [> crates/readers/stdout]
"""

# the desk's, with a second feature, which is many-valued: one word damaged names a role or a feature both ways
VOCABULARY = [
    4, 3, 2, 1,  1, 2, 1, 2,  1, 4, 1, 3,  1, 4, 3, 4,  2, 1, 3, 5,  3, 1, 0, 6,  3, 2, 0, 7,  4, 1, 0, 8,  5, 3, 1, 9,
    6, 3, 0, 10,  7, 2, 0, 0,
]

# two terms, a role with a chain below it, a class, an interval, the impossible concept, and a record that nothing reaches
POLICY = [
    1, 0, 0, 0, 0, 0,
    5, 0, 0, 0, 2, 6,
    3, 1, 0, 0, 3, 5,
    1, 2, 0, 0, 0, 4,
    4, 1, 3, 9, 0, 0,
    1, 1, 0, 0, 0, 0,
    5, 0, 0, 0, 7, 0,
    3, 3, 0, 0, 0, 8,
    2, 0, 0, 0, 0, 0,
    9, 9, 9, 9, 9, 9,
]

VALUES = [0, 1, 2, 3, 4, 5, 6, 7, 8, 9, 10, 65, 256, 257, 4294967295]


def link(last, k, x):
    return x == 0 or (k < x <= last)


def read_vocabulary(v):
    if len(v) % 4 or len(v) < 4 or len(v) > 4100:
        return 1
    last = len(v) // 4 - 1
    n, r, f, k = v[0:4]
    if not 1 <= n <= 256 or r > 64 or f > 64 or k > last:
        return 2
    series = {1: (n, n), 2: (n, n), 3: (r, None), 4: (f, None), 5: (r, n), 6: (r, None), 7: (f, None)}
    named = {kind: set() for kind in series}
    while k:
        kind, a, b, after = v[4 * k:4 * k + 4]
        if kind not in series:
            return 3
        left, right = series[kind]
        if not 1 <= a <= left or (b != 0 if right is None else not 1 <= b <= right) or not link(last, k, after):
            return 3
        named[kind].add(a)
        k = after
    # a role that is functional and many-valued, or a feature
    return 44 if named[3] & named[6] or named[4] & named[7] else 0


def read_policy(v, p):
    if len(p) % 6 or len(p) < 6 or len(p) > 3078:
        return 4
    last = len(p) // 6 - 1
    if p[0] > last or any(p[1:6]):
        return 5
    reached = set()

    def fits(depth, kind, a, lo, hi, child):
        if depth == 0:
            return kind == 5 and (a, lo, hi) == (0, 0, 0)
        if kind == 1:
            return 1 <= a <= v[0] and (lo, hi, child) == (0, 0, 0)
        if kind == 2:
            return (a, lo, hi, child) == (0, 0, 0, 0)
        if kind == 3:
            return 1 <= a <= v[1] and (lo, hi) == (0, 0)
        return kind == 4 and 1 <= a <= v[2] and child == 0

    todo = [(0, p[0])]
    while todo:
        depth, k = todo.pop()
        if k == 0:
            continue
        if k in reached:
            return 7
        kind, a, lo, hi, child, after = p[6 * k:6 * k + 6]
        if not fits(depth, kind, a, lo, hi, child) or not link(last, k, child) or not link(last, k, after):
            return 6
        if depth == 17:
            return 8
        reached.add(k)
        todo.append((depth, after))
        todo.append((depth + 1, child))
    return 0


def damaged(table, i, x):
    return table[:i] + [x] + table[i + 1:]


def nested(n):
    """A term of n roles, each the child of the one before."""
    table = [1, 0, 0, 0, 0, 0, 5, 0, 0, 0, 2, 0]
    for k in range(2, n + 2):
        table += [3, 1, 0, 0, k + 1 if k < n + 1 else 0, 0]
    return table


for n in range(len(VOCABULARY) + 1):
    print(read_vocabulary(VOCABULARY[:n]))
for i in range(len(VOCABULARY)):
    for x in VALUES:
        print(read_vocabulary(damaged(VOCABULARY, i, x)))
for n in range(len(POLICY) + 1):
    print(read_policy(VOCABULARY, POLICY[:n]))
for i in range(len(POLICY)):
    for x in VALUES:
        refusal = read_policy(VOCABULARY, damaged(POLICY, i, x))
        print(refusal)
        print(refusal + 10 if refusal else 0)
for n in range(1, 20):
    print(read_policy(VOCABULARY, nested(n)))
