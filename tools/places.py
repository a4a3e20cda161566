#!/usr/bin/env python3
"""places.py [COMMIT] [-v]: the places in crates/*/src/ that docs/DESIGN-PASS.md counts, point by point, of a commit or of what lies here.

A place is a line that one of a point's patterns finds; a line is counted once for a point. -v prints the places too.
Twins are functions whose bodies are the same once names, numbers and types are struck out, and which have at least three lines.
"""
import re
import subprocess
import sys
from glob import glob

POINTS = {
    '1 own enums': r'^(pub )?enum ',
    '1 a flag with a value beside it': r'^    (pub )?(ok|found|holds|impossible): bool,',
    '1 refusals as numbers': r'^ *(pub )?fn ([a-z_]*(refusal|refused_unless|fault)[a-z_]*|walk_from|reading)\(.*-> (u32|Reading)|fn axioms_refusal\(|Refused\(u32\)',
    '1 kinds and states as numbers':
        r'match (kind|kind_of\(.*\)|fact_kind\(.*\)|axiom_kind\(.*\)) \{|\bkind (==|!=) [0-9a-zE]|6 <= kind|_kind\(.*\) (==|!=) |\bkind_of\(.*\) (==|!=) '
        r'|\.kind (==|!=) [0-9E]|^(pub )?const (NOTHING|PASSES|FAILS|OPEN|END): u32',
    '1 a number for none':
        r'^ *// .*(0 for none|0: none|, or 0\b|; 0 |0 stands for none|, or n\b|0 where|stands for none|answers 0|0 comes from|gives? 0\b|0 from `?next|with 0\b)',
    '3 loops that count': r'^ *(for [a-z_]+ in [^&=]*[^&=.]\.\.[^=].*\{|while [a-z_.]+ < .*\{|while 0 < .*\{)$',
    '4 by hand what the library has':
        r'fn (greater|lesser|larger|smaller|lower|by|is_same|same|between|is_letter|is_sign|is_space|wide|place|digit|copy|clear|is_one|both|before|compare_names'
        r'|compare_fields|word_at|put_bytes|put_name)\(',
    '5 seven parameters or more': None,
    '6 a length beside a buffer': r'\b(keys|ends|cuts|dials|terms|counts|order): &(mut )?\[u(32|64)\], .*\b(n|m|top|first|last): (usize|u32)',
    '7 a flag that chooses a step': r'fn .*\b[a-z_]+: bool[,)]|^    [a-z_]+: bool,$',
}
FN = re.compile(r'^ *(?:#\[.*\] *)?(?:pub )?(?:const )?(?:extern "C" )?fn ([a-z_0-9]+)')


def sources(commit):
    if not commit:
        return {p: open(p, encoding='utf-8').read() for p in sorted(glob('crates/*/src/*.rt'))}
    names = subprocess.run(['git', 'ls-tree', '-r', '--name-only', commit, 'crates'], capture_output=True, text=True, check=True).stdout.split('\n')
    names = [n for n in names if re.fullmatch(r'crates/[a-z_]+/src/[a-z_]+\.rt', n)]
    return {n: subprocess.run(['git', 'show', f'{commit}:{n}'], capture_output=True, text=True, check=True).stdout for n in names}


def functions(text):
    """(line, name, header, body) of each function."""
    lines = text.split('\n')
    i = 0
    while i < len(lines):
        m = FN.match(lines[i])
        if not m:
            i += 1
            continue
        indent = len(lines[i]) - len(lines[i].lstrip())
        j = i
        while not (lines[j].startswith(' ' * indent + '{') or lines[j].rstrip().endswith('{') and j > i - 1):
            j += 1
        k = j
        while lines[k] != ' ' * indent + '}':
            k += 1
        yield i + 1, m.group(1), '\n'.join(lines[i:j + 1]), '\n'.join(lines[j + 1:k])
        i = k + 1


def shape(body):
    body = re.sub(r'//.*', '', body)
    body = re.sub(r'[A-Za-z_][A-Za-z_0-9:]*', 'a', body)
    return re.sub(r'\s+', ' ', re.sub(r'[0-9]+', '0', body)).strip()


def main():
    commit = next((a for a in sys.argv[1:] if not a.startswith('-')), None)
    shown = '-v' in sys.argv
    texts = sources(commit)
    for point, pattern in POINTS.items():
        found = []
        for path, text in texts.items():
            if pattern is None:
                for line, name, header, _ in functions(text):
                    signature = header.split('requires')[0].split('ensures')[0]
                    if len(re.findall(r'[a-z_0-9]+: [&A-Zu\[b]', signature)) >= 7:
                        found.append(f'{path}:{line}: {name}')
                continue
            for number, line in enumerate(text.split('\n'), 1):
                if re.search(pattern, line):
                    found.append(f'{path}:{number}: {line.strip()}')
        print(f'{len(found):4} {point}')
        if shown:
            print(''.join(f'       {f}\n' for f in found), end='')
    shapes = {}
    for path, text in texts.items():
        for line, name, _, body in functions(text):
            if body.count('\n') >= 2:
                shapes.setdefault(shape(body), []).append(f'{path}:{line}: {name}')
    twins = [v for v in shapes.values() if len(v) > 1]
    print(f'{sum(map(len, twins)):4} 2 twins, in {len(twins)} groups')
    if shown:
        for group in twins:
            print('       ' + '; '.join(group))


main()
