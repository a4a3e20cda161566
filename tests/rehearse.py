#!/usr/bin/env python3
"""rehearse.py PROGRAM WRAPPER: what the program `rehearse` writes, and what it tells where it writes nothing (SPECIFICATION 10.5).

A load's bytes are held to those that SPECIFICATION 9.14 asks for, which are worked out here once more. Each case has the status, standard
output and standard error that it must have. The program's exit status is 0. The wrapper, scripts/rehearse, runs the program and ends with 2
where there was trouble. The command with scripts/rehearse that README shows prints what README says.
"""
import os
import re
import struct
import subprocess
import sys

TOP = os.path.join(os.path.dirname(os.path.abspath(__file__)), '..')
REFUSED = b'rehearse: refused 45: SEED is from 1 to 2147483646, CLASSES from 1 to 256, TERMS from 1 to 100\n'
USAGE = b'usage: rehearse SEED CLASSES TERMS\n'
UNWRITTEN = b'rehearse: the load cannot be written\n'

# arguments that make a load, with the numbers that they are
LOADS = {
    ('1', '1', '1'): (1, 1, 1),
    ('1', '2', '1'): (1, 2, 1),
    ('2147483646', '256', '100'): (2147483646, 256, 100),
    ('007', '03', '0000000000000002'): (7, 3, 2),
}
OUT_OF_RANGE = [('0', '1', '1'), ('2147483647', '1', '1'), ('4294967296', '1', '1'), ('4294967297', '1', '1'), ('9999999999999999', '1', '1'),
                ('1', '0', '1'), ('1', '257', '1'), ('1', '1', '0'), ('1', '1', '101')]
NO_NUMBERS = [('', '1', '1'), ('1', ' 1', '1'), ('1', '1', '1 '), ('-1', '1', '1'), ('+1', '1', '1'), ('1', '0x1', '1'), ('1', '1', '1.0'), ('a', 'b', 'c'),
              ('1', '1', '\n1'), ('1/', '1', '1'), ('1:', '1', '1'), ('00000000000000001', '1', '1'), ('1', '1', '1' * 1000)]
WRONG_COUNT = [(), ('1',), ('1', '1'), ('1', '1', '1', '1'), ('--help',)]


def table(width, records):
    return [word for record in records for word in record + [0] * (width - len(record))]


def load(seed, classes, terms):
    """The bytes of a load: the generator's numbers first, then each table by them."""
    draws, s = [], seed
    for _ in range(classes - 1 + 6 * terms):
        s = 48271 * s % 2147483647
        draws.append(s)
    above = [[1, k, 1 + draws[k - 2] % (k - 1), k] for k in range(2, classes + 1)]
    parts = [table(4, [[classes, 0, 1, 1]] + above + [[4, 1]])]
    for start in (classes - 1, classes - 1 + 3 * terms):
        records = [[1]]
        for t in range(terms):
            a, b, c = draws[start + 3 * t:start + 3 * t + 3]
            following = 3 * t + 4 if t + 1 < terms else 0
            records += [[5, 0, 0, 0, 3 * t + 2, following], [1, 1 + a % classes, 0, 0, 0, 3 * t + 3], [4, 1, b % 100, b % 100 + c % 100]]
        parts.append(table(6, records))
    return b''.join(struct.pack('<%dI' % (len(part) + 1), len(part), *part) for part in parts)


def ran(program, arguments, redirections=''):
    run = subprocess.run(['sh', '-c', 'exec "$0" "$@" ' + redirections, program, *arguments], stdin=subprocess.DEVNULL, stdout=subprocess.PIPE,
                         stderr=subprocess.PIPE)
    return run.returncode, run.stdout, run.stderr


def cases(program, trouble):
    """The name of each case, what the program did, and what it must do: with this status in trouble."""
    for arguments, numbers in LOADS.items():
        yield arguments, ran(program, arguments), (0, load(*numbers), b'')
    for arguments in OUT_OF_RANGE + NO_NUMBERS:
        yield arguments, ran(program, arguments), (trouble, b'', REFUSED)
    for arguments in WRONG_COUNT:
        yield arguments, ran(program, arguments), (trouble, b'', USAGE)
    for redirections in ('>&-', '1</dev/null', '>/dev/full'):
        yield redirections, ran(program, ('1', '256', '100'), redirections), (trouble, b'', UNWRITTEN)
    yield 'refused, standard output closed', ran(program, ('0', '1', '1'), '>&-'), (trouble, b'', REFUSED)


def shown():
    """The command of README, what it prints, and what README says that it prints."""
    with open(os.path.join(TOP, 'README.md'), encoding='utf-8') as page:
        (command, wanted), = re.findall(r'^    \$ (scripts/rehearse .*)\n((?:    [^$\n].*\n)+)', page.read(), re.M)
    run = subprocess.run(command, shell=True, cwd=TOP, stdout=subprocess.PIPE, stderr=subprocess.PIPE)
    return command, (run.returncode, run.stdout, run.stderr), (0, re.sub('^    ', '', wanted, flags=re.M).encode(), b'')


def main():
    program, wrapper = (os.path.abspath(path) for path in sys.argv[1:])
    tried = [*cases(program, 0), *cases(wrapper, 2), shown()]
    failed = [(name, did, wanted) for name, did, wanted in tried if did != wanted]
    for name, did, wanted in failed:
        print('%s: status, output and error are %.300r, wanted %.300r' % (name, did, wanted))
    print('%d cases of loads written, %d failed' % (len(tried), len(failed)))
    sys.exit(1 if failed else 0)


if __name__ == '__main__':
    main()
