#!/usr/bin/env python3
"""progress.py: what scripts/progress makes of rt's lines, in a repository of three crates, a program among them, with three must-fail edits."""
import os
import pty
import shutil
import subprocess
import sys
import tempfile

SCRIPT = os.path.join(os.path.dirname(os.path.abspath(__file__)), '..', 'scripts', 'progress')
LIST = '# from the bottom\nlow:\nhigh staticlib: low\n\nmain: low anyhow\n'
FILES = {'low/must-fail/a.edit': '', 'low/must-fail/c.edit': '', 'high/must-fail/b.edit': '', 'main/src/main.rt': '',
         'low/src/lib.rt': '#[test]\n'}

KEPT = 'rt: %s is kept: an earlier run on this machine proved the same files over the same libraries'
TRIED = 'rt: %s: %d of its %d must-fail edits were tried by an earlier run on this machine, and nothing that they stand on has changed'
RAN = ['rt: main ran, and wrote what its file stdout has', "rt: main ran (built by Rattle's own compiler), and wrote what its file stdout has"]
WAITING = 'low: another run on this machine is proving the same; waiting for it'
VERDICT = 'logic=proved functions=1 sum=0'
TESTS = ['tests: 1', 'test t ... FAILED', 'test result: FAILED. 0 passed; 1 failed; 0 ignored; 0 filtered out', 'rt: low: its tests FAILED']

# name, the crate asked for, what rt prints, what must stand on standard output, what on standard error
CASES = [
    ('all, with edits', [], [
        '== low', 'note: of low', VERDICT, 'rt: low proved', 'rt: low: trying its must-fail edits (2)',
        '== low: its tests', 'note: of tests', VERDICT, 'rt: low: its tests are proved',
        '== high', VERDICT, 'rt: high proved', '== main', VERDICT, 'linked target=it', 'rt: main proved',
        'rt: must-fail low/a.edit: refused, as it must be: ./proofs/f/Answers.antt:1:2: error: no',
        'rt: must-fail low/c.edit: refused, as it must be (only by a limit of the prover, which gave no verdict): no',
        'rt: must-fail high/b.edit: refused, as it must be', *RAN, 'tests: 1', 'test t ... ok',
        'test result: ok. 1 passed; 0 failed; 0 ignored; 0 filtered out', 'rt: low: its tests passed',
        'rt: ok; handles allowed: none; must-fail edits: 3 refused; every proof and must-fail edit was done in this run', '6 passed, 0 failed'],
     ['rt: ok; handles allowed: none; must-fail edits: 3 refused; every proof and must-fail edit was done in this run', '6 passed, 0 failed'],
     ['[1/3] low proved', 'low: trying its must-fail edits (2)', 'low: its tests are proved', '[2/3] high proved', '[3/3] main proved',
      '[1/3] must-fail low/a refused, as it must be', '[2/3] must-fail low/c refused, as it must be',
      '[3/3] must-fail high/b refused, as it must be', '[1/2] main ran', "[2/2] main ran (built by Rattle's own compiler)",
      '[1/1] low: its tests passed']),
    ('what is kept from an earlier run', [], [
        KEPT % 'low', KEPT % 'high', '== main', VERDICT, 'rt: main proved', TRIED % ('low', 1, 2), 'rt: must-fail low/a.edit: refused, as it must be',
        'rt: must-fail low/c.edit: refused, as it must be', TRIED % ('high', 1, 1), 'rt: must-fail high/b.edit: refused, as it must be', *RAN,
        'rt: ok; handles allowed: none', '6 passed, 0 failed'],
     ['rt: ok; handles allowed: none', '6 passed, 0 failed'],
     ['[3/3] main proved', '[1/3] must-fail low/a refused, as it must be', '[2/3] must-fail low/c refused, as it must be', '[1/2] main ran',
      "[2/2] main ran (built by Rattle's own compiler)"]),
    ('a crate that is not proved', [], [
        KEPT % 'low', '== high', 'high/src/lib.rt:1:1: error: no', 'rt: high', VERDICT, 'logic=not-proved', 'rt: high NOT PROVED',
        'rt: main NOT PROVED: its library high failed', 'rt: FAILED: high main', '1 passed, 2 failed'],
     ['== high', 'high/src/lib.rt:1:1: error: no', 'rt: high', VERDICT, 'logic=not-proved', 'rt: high NOT PROVED',
      'rt: main NOT PROVED: its library high failed', 'rt: FAILED: high main', '1 passed, 2 failed'],
     []),
    ('tests that are not proved, and another run', [], [
        'rt: ' + WAITING, '== low: its tests', 'low/src/lib.rt:1:1: error: no', 'rt: ' + WAITING, 'rt: low: its tests are NOT PROVED', '== low',
        'note: of low', 'rt: ' + WAITING, 'rt: low proved', 'rt: FAILED: low', '0 passed, 1 failed'],
     ['== low: its tests', 'low/src/lib.rt:1:1: error: no', 'rt: low: its tests are NOT PROVED', 'rt: FAILED: low', '0 passed, 1 failed'],
     [WAITING, WAITING, WAITING, '[1/3] low proved']),
    ('a repository that is refused', [], ['rt: main: crates.txt lists libc or os, which reach past the handles: call std instead', '0 passed, 1 failed'],
     ['rt: main: crates.txt lists libc or os, which reach past the handles: call std instead', '0 passed, 1 failed'],
     []),
    ('a crate that no check reads', [], ['rt: low: no check reads it', 'rt: low NOT PROVED', '0 passed, 1 failed'],
     ['rt: low: no check reads it', 'rt: low NOT PROVED', '0 passed, 1 failed'],
     []),
    ('an edit that does not reach the prover', [], [
        'rt: must-fail low/a.edit: BAD EDIT: it did not reach the prover; the first lines of what it said:', 'error: one', 'error: two',
        'rt: must-fail high/b.edit: refused, as it must be', 'rt: note: bad must-fail edits, as told above: 1.', 'rt: ok; must-fail edits: 1 refused, 1 bad'],
     ['rt: must-fail low/a.edit: BAD EDIT: it did not reach the prover; the first lines of what it said:', 'error: one', 'error: two',
      'rt: note: bad must-fail edits, as told above: 1.', 'rt: ok; must-fail edits: 1 refused, 1 bad'],
     ['[1/3] must-fail high/b refused, as it must be']),
    ('edits that are not refused', [], [
        TRIED % ('low', 2, 2), 'rt: must-fail low/a.edit: NOT REFUSED: the crate is still proved with this edit', 'rt: must-fail low/c.edit: NOT TRIED: its check',
        'it was killed', 'rt: FAILED: low/a.edit low/c.edit', '5 passed, 2 failed'],
     ['rt: must-fail low/a.edit: NOT REFUSED: the crate is still proved with this edit', 'rt: must-fail low/c.edit: NOT TRIED: its check', 'it was killed',
      'rt: FAILED: low/a.edit low/c.edit', '5 passed, 2 failed'],
     []),
    ('a program that prints something else, and a test that fails', [], [
        'rt: main: what the program wrote, out/stdout, is not what its file stdout has: they differ first at byte 1, line 1', *TESTS, '6 passed, 2 failed'],
     ['rt: main: what the program wrote, out/stdout, is not what its file stdout has: they differ first at byte 1, line 1', *TESTS, '6 passed, 2 failed'],
     []),
    ('a static library', ['high'], [
        'rt: low: begins with what a check kept in crates/low', 'only=nothing', 'rt: chose --jobs 2 for low', 'note: of low', VERDICT,
        'rt: chose --jobs 1 for high', 'note: of high', VERDICT],
     [],
     ['[1/2] low proved', '[2/2] high proved']),
    ('a program', ['main'], [
        'rt: main: another copy of the repository is building this library; waiting for it, at most half an hour, to use its work',
        'rt: chose --jobs 2 for main', VERDICT, 'linked target=it', 'rt: running out/main; to give it other input, run that file yourself',
        'main: the input cannot be read'],
     ['main: the input cannot be read'],
     ['main: another copy of the repository is building this library; waiting for it, at most half an hour, to use its work', '[2/2] main proved']),
    ('a static library that is not proved', ['high'], [
        'rt: chose --jobs 2 for low', 'note: of low', VERDICT, 'rt: chose --jobs 1 for high', 'high/src/lib.rt:1:1: error: no', 'logic=not-proved'],
     ['high/src/lib.rt:1:1: error: no', 'logic=not-proved'],
     ['[1/2] low proved']),
]


def text(lines):
    return ''.join(line + '\n' for line in lines).encode()


def on_terminal(command):
    """What standard error gets where it is a terminal."""
    ours, theirs = pty.openpty()
    environment = dict(os.environ, TERM='xterm', COLUMNS='20')
    given = text([KEPT % 'low', '== high', 'rt: high proved', TRIED % ('low', 2, 2), 'rt: must-fail low/a.edit: refused, as it must be', 'rt: ok'])
    run = subprocess.run(command, input=given, stdout=subprocess.PIPE, stderr=theirs, env=environment)
    os.close(theirs)
    return run.returncode, run.stdout, os.read(ours, 1000)


def main():
    failed = []
    with tempfile.TemporaryDirectory() as top:
        for path, has in {'scripts/progress': '', **{'crates/' + name: has for name, has in FILES.items()}}.items():
            os.makedirs(os.path.join(top, os.path.dirname(path)), exist_ok=True)
            with open(os.path.join(top, path), 'w') as file:
                file.write(has)
        with open(os.path.join(top, 'crates.txt'), 'w') as crates:
            crates.write(LIST)
        script = os.path.join(top, 'scripts/progress')
        shutil.copy(SCRIPT, script)
        for name, asked, given, stdout, stderr in CASES:
            run = subprocess.run([script] + asked, input=text(given), stdout=subprocess.PIPE, stderr=subprocess.PIPE)
            if (run.returncode, run.stdout, run.stderr) != (0, text(stdout), text(stderr)):
                failed.append('%s: %r, %r' % (name, run.stdout, run.stderr))
        told = on_terminal([script])
        over = b'\r\033[K'
        # a line is cut to the terminal's 20 columns, and cleared before another stands in its place
        if told != (0, b'rt: ok\n', over + b'[1/3] low proved' + over + b'[2/3] high proved' + over + b'[1/3] must-fail low' + over + over):
            failed.append('on a terminal: %r' % (told,))
    for line in failed:
        print('scripts/progress: %s' % line)
    print('%d runs of scripts/progress, %d failed' % (len(CASES) + 1, len(failed)))
    sys.exit(1 if failed else 0)


if __name__ == '__main__':
    main()
