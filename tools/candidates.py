#!/usr/bin/env python3
"""Lists the lines of the crates' sources where an older form may stand, point by point, for docs/DESIGN-PASS.md.

usage: python3 tools/candidates.py [POINT ...]        at the top of the checkout

It only finds lines by their shape. Which of them are places of the point, the page says.
"""
import collections
import glob
import os
import re
import sys

SOURCES = sorted(glob.glob('crates/*/src/**/*.rt', recursive=True))

# Lines by their shape.
SHAPES = {
    '1': r'^ *(pub(\(crate\))? )?enum |\) -> (u8|usize|bool)( \{)?$|: bool[,;)]|^ *(pub )?[a-z_]+: u8,',
    '3': r'^ *(for [^{]* in [^{]*\.\.|while |for .*enumerate\(\))|= [a-z.]+\.saturating_add\(1\)',
    '4': r'\bfn (from_[a-z]+|to_[a-z]+|number|number32|lift|name|[a-z]+_name|equal|same|same_front|slice|revision'
         r'|permissions|fmt|hex|shown|count_of|op_of|primitive|byte|length|short|signed|metadata|is_known|told|labelled)\b',
    '6': r'^ *(pub(\(crate\))? )?(buffer|part|filled|count|bytes|size|schedule|words|inverse|paper|runs|block|entries'
         r'|offset|len|name|method)\b: |^const ALL',
    '7': r'^ *match (self|op|way|act|kind|tag|method|step|series|self\.[a-z]+|revision|version|refusal|stage|event|\(&mut self)',
}


def by_shape(pattern):
    found = []
    for path in SOURCES:
        for number, line in enumerate(open(path, encoding='utf-8'), 1):
            if re.search(pattern, line):
                found.append(f'{path}:{number}:{line.rstrip()}')
    return found


def same_names():
    """Functions whose names are the same once sizes and directions are taken out of them."""
    groups = collections.defaultdict(list)
    for path in SOURCES:
        for number, line in enumerate(open(path, encoding='utf-8'), 1):
            for name in re.findall(r'\bfn ([a-z_0-9]+)', line):
                stem = re.sub(r'inv_|decrypt|encrypt|_framed|_shipped|_with|[0-9]+', '', name)
                groups[stem].append(f'{path}:{number}:{name}')
    return [f'{len(g)}: ' + ' '.join(g) for g in groups.values() if len(g) > 1]


def repeated():
    """Facts in three contracts or more, and runs of parameters that stand in three functions or more."""
    facts, runs = collections.Counter(), collections.Counter()
    for path in SOURCES:
        text = open(path, encoding='utf-8').read()
        for line in text.split('\n'):
            clause = re.match(r'\s+(requires|ensures)\s*\w*\s*\{(.*)\};?$', line)
            if clause:
                facts.update(clause.group(1) + ' ' + f.strip(' ()') for f in clause.group(2).split(' × '))
        for head in re.finditer(r'\bfn [a-z_0-9]+(?:<[^(]*>)?\(([^)]*)\)', text):
            parameters = [re.sub(r'\s+', ' ', p.strip()) for p in head.group(1).split(',') if ':' in p]
            for i in range(len(parameters)):
                for j in range(i + 2, len(parameters) + 1):
                    runs[', '.join(parameters[i:j])] += 1
    return [f'{n}: {what}' for c in (facts, runs) for what, n in c.most_common() if n >= 3]


def answers():
    """Files of answers in the crates' proofs."""
    return [f for f in sorted(glob.glob('crates/*/proofs/**/Answers.antt', recursive=True)) if os.path.isfile(f)]


def main():
    for point in sys.argv[1:] or ['1', '2', '3', '4', '5', '6', '7', '8']:
        lines = {'2': same_names, '5': repeated, '8': answers}.get(point, lambda: by_shape(SHAPES[point]))()
        print(f'== point {point}: {len(lines)}')
        print('\n'.join(lines))


main()
