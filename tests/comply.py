#!/usr/bin/env python3
"""comply.py PROGRAM WRAPPER: what the program tells where its input cannot be read or its answer cannot be written (SPECIFICATION 10.3).

Each case has the status, standard output and standard error that it must have. The program's exit status is 0 unless a signal ends the
program; it ignores the signal of a pipe that nobody reads. The wrapper, scripts/comply, runs the program and ends with 2 where there was trouble.
One example comes in pieces: that the bytes of several reads are put one behind another is proved of a reader that says which bytes it has.
"""
import os
import subprocess
import sys
import time

sys.dont_write_bytecode = True
from examples import CASES, HERE, encoded  # noqa: E402

# Long enough for the program to have read what there is.
PAUSE = 0.05
PIECES = 'a_hole'

UNREAD = b'comply: the input cannot be read\n'
UNWRITTEN = b'comply: the answer cannot be written\n'
# An empty input is refused.
ANSWER = b'refused 40\n'

# The redirections, as a shell has them, and what standard output and standard error then get. All but the first are trouble.
REDIRECTED = {
    'an empty input': ('</dev/null', ANSWER, b''),
    'standard output closed': ('</dev/null >&-', b'', UNWRITTEN),
    'standard output open for reading alone': ('</dev/null 1</dev/null', b'', UNWRITTEN),
    'a full disk': ('</dev/null >/dev/full', b'', UNWRITTEN),
    'standard input closed': ('<&-', b'', UNREAD),
    'a folder as standard input': ('<.', b'', UNREAD),
    'standard input open for writing alone': ('0>/dev/null', b'', UNREAD),
    'neither to be read nor to be written': ('<&- >&-', b'', UNREAD),
    'standard output and standard error closed': ('</dev/null >&- 2>&-', b'', b''),
    'standard input and standard error closed': ('<&- 2>&-', b'', b''),
}


def redirected(program, redirections):
    run = subprocess.run(['sh', '-c', 'exec "$0" ' + redirections, program], stdout=subprocess.PIPE, stderr=subprocess.PIPE)
    return run.returncode, run.stdout, run.stderr


def unread_pipe(program, is_ignored):
    """Standard output is a pipe that nobody reads; the signal for that is ignored or not where the program starts."""
    reading, writing = os.pipe()
    os.close(reading)
    # Python ignores the signal, and so does what it starts unless it is told to restore it
    run = subprocess.run([program], stdin=subprocess.DEVNULL, stdout=writing, stderr=subprocess.PIPE, restore_signals=not is_ignored)
    os.close(writing)
    return run.returncode, b'', run.stderr


def in_pieces(program):
    """An example in three pieces, the second of which begins and ends inside a word."""
    data = encoded(CASES[PIECES])
    child = subprocess.Popen([program], stdin=subprocess.PIPE, stdout=subprocess.PIPE, stderr=subprocess.PIPE)
    for piece in (data[:21], data[21:50], data[50:]):
        child.stdin.write(piece)
        child.stdin.flush()
        time.sleep(PAUSE)
    output, error = child.communicate()
    return child.returncode, output, error


def waiting(program):
    """Standard input is a pipe that has nothing yet and does not wait: a read fails, and the input has not ended."""
    reading, writing = os.pipe()
    os.set_blocking(reading, False)
    run = subprocess.run([program], stdin=reading, stdout=subprocess.PIPE, stderr=subprocess.PIPE)
    os.close(reading)
    os.close(writing)
    return run.returncode, run.stdout, run.stderr


def cases(program, trouble):
    """The name of each case, what the program did, and what it must do: with this status in trouble."""
    for name, (redirections, output, error) in REDIRECTED.items():
        yield name, redirected(program, redirections), (0 if output else trouble, output, error)
    yield 'a pipe that nobody reads, the signal ignored', unread_pipe(program, True), (trouble, b'', UNWRITTEN)
    yield 'a pipe that nobody reads', unread_pipe(program, False), (trouble, b'', UNWRITTEN)
    yield 'an input that has nothing yet', waiting(program), (trouble, b'', UNREAD)
    with open(os.path.join(HERE, PIECES + '.txt'), 'rb') as stored:
        yield 'an input in pieces', in_pieces(program), (0, stored.read(), b'')


def main():
    program, wrapper = (os.path.abspath(path) for path in sys.argv[1:])
    ways = [(program, 0), (wrapper, 2)]
    tried, failed = 0, 0
    for way in ways:
        for name, did, wanted in cases(*way):
            tried += 1
            if did != wanted:
                failed += 1
                print('%s, %s: status, output and error are %r, wanted %r' % (way[0], name, did, wanted))
    print('%d cases of input and output, %d failed' % (tried, failed))
    sys.exit(1 if failed else 0)


if __name__ == '__main__':
    main()
