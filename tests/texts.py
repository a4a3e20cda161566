#!/usr/bin/env python3
"""texts.py PROGRAM COMMAND: the texts in examples/ through the proved program and the command, against the answers stored.

examples/answers/NAME.VERB.txt is what `COMMAND VERB --why examples/NAME.txt` prints, on standard error too, and in a last line its status.
`comply` stands for the proved program: what it prints for the text's bytes, an empty line, and that read aloud by the command. `vocabulary` is
asked of examples/NAME.ofn, without `--why`. A text with no answer, or an answer with no text, is a failure.

README shows the answer to examples/heart_rate.txt, and in two sections commands with what they print, which are run in
examples/collection. The picture that one of them draws is docs/bob.svg.
"""
import os
import re
import subprocess
import sys
from glob import glob

TOP = os.path.join(os.path.dirname(os.path.abspath(__file__)), '..')
SECTIONS = ['A day with a collection', 'From an OWL editor']
COMMANDS = 7


def run(command, given=b'', folder='.', stderr=None):
    ran = subprocess.run(command, input=given, stdout=subprocess.PIPE, stderr=stderr, cwd=os.path.join(TOP, folder))
    return ran.stdout, ran.returncode


def printed(program, command, verb, text):
    if verb == 'comply':
        answer, _ = run([program], run([command, 'encode', text])[0])
        return answer + b'\n' + run([command, 'aloud', text], answer)[0]
    why = [] if verb == 'vocabulary' else ['--why']
    output, status = run([command, verb] + why + [text], stderr=subprocess.STDOUT)
    return output + b'status %d\n' % status


def shown(command):
    """What README shows that is not so, and how many commands it has."""
    with open(os.path.join(TOP, 'README.md'), encoding='utf-8') as file:
        readme = file.read()
    with open(os.path.join(TOP, 'examples', 'answers', 'heart_rate.check.txt'), encoding='utf-8') as file:
        answer = file.read().rsplit('status', 1)[0]
    wrong = [] if re.sub('(?m)^', '    ', answer.rstrip()) in readme else ['README: not the answer to examples/heart_rate.txt']
    sections = [readme.split('\n## %s\n' % heading)[1].split('\n## ')[0] for heading in SECTIONS]
    commands = re.findall(r'(?m)^    \$ gimbuka (.*)\n((?:    (?!\$ ).*\n)*)', '\n'.join(sections))
    for words, output in commands:
        words, _, picture = words.partition(' > ')
        did = run([command] + words.split(), folder='examples/collection', stderr=subprocess.STDOUT)[0].decode()
        if picture:
            with open(os.path.join(TOP, 'docs', picture), encoding='utf-8') as file:
                output = file.read()
        else:
            output = re.sub('(?m)^    ', '', output)
        if did != output:
            wrong.append('README: gimbuka %s prints\n%s' % (words, did))
    return wrong, len(commands)


def main(program, command):
    program, command = os.path.abspath(program), os.path.abspath(command)
    stem = lambda path: os.path.basename(path).split('.')[0]
    texts = {stem(path): os.path.relpath(path, TOP) for path in glob(os.path.join(TOP, 'examples', '*.*'))}
    stored = sorted(glob(os.path.join(TOP, 'examples', 'answers', '*.txt')))
    wrong = ['%s: no answer is stored' % name for name in sorted(set(texts) - {stem(path) for path in stored})]
    for path in stored:
        name, verb = os.path.basename(path).split('.')[:2]
        if name not in texts:
            wrong.append('%s: there is no such text' % os.path.basename(path))
            continue
        with open(path, 'rb') as file:
            expected = file.read()
        did = printed(program, command, verb, texts[name])
        if did != expected:
            wrong.append('%s: what is printed is\n%s' % (os.path.basename(path), did.decode()))
    unlike, commands = shown(command)
    wrong += unlike
    for line in wrong:
        print(line)
    print('%d texts, %d answers, %d commands of README, %d failed' % (len(texts), len(stored), commands, len(wrong)))
    sys.exit(1 if wrong or not stored or commands != COMMANDS else 0)


if __name__ == '__main__':
    main(*sys.argv[1:])
