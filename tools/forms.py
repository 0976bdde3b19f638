#!/usr/bin/env python3
"""Lists, for docs/DESIGN-PASS.md, the places in crates/*/src that an older form of the language shapes.

Run it at the top of the repository: `python3 tools/forms.py` prints the counts, `python3 tools/forms.py 3` the places of one point.
"""
import collections
import glob
import re
import sys

SIZES = r'(_AT|_LEN|_SIZE|ROOM|^MAX_|^MOST_|^LAST|^FIRST_|FIGURES|BLOCK|INPUT|LONG|BASIS|PRIME|MODULUS|READ$|KEPT|WRITTEN|LENGTHS|LINE_FEED|AFTER_|BELOW_|^SERVERS$|^BUCKETS$|^SLOTS$|^MESSAGES$|^CONTENTS$)'
BY_HAND = r'^(same_\w+|compare|above|larger|lesser|at_most|wide|widened|within|\w*outcome_number|written_number|change_number|number_of_\w+|put_two|put_four|copy_part_bytes|result_word|wrapping_mul_u32|zero_\w+|placed|place_at|pick_version|chosen|trimmed_\w+)$'
LENGTHS = r'(len|count|from|held|end)'


def sources():
    for path in sorted(glob.glob('crates/*/src/**/*.rt', recursive=True)):
        yield path, open(path, encoding='utf-8').read()


def functions():
    """Path, line, name, parameters, clauses and body of each function."""
    head = re.compile(r'^(?: {0,4})(?:pub(?:\(\w+\))? )?(?:const )?(?:extern "C" )?fn (\w+)(<[^(]*>)?\(', re.M)
    for path, text in sources():
        for found in head.finditer(text):
            at, depth = found.end(), 1
            while depth:
                depth += {'(': 1, ')': -1}.get(text[at], 0)
                at += 1
            params = text[found.end():at - 1]
            brace = re.compile(r'\{\}?$', re.M).search(text, at)
            if not brace:
                continue
            start, depth = brace.start() + 1, 1
            stop = start
            while depth:
                depth += {'{': 1, '}': -1}.get(text[stop], 0)
                stop += 1
            yield path, text[:found.start()].count('\n') + 1, found.group(1), params, text[at:brace.start()], text[start:stop - 1]


def lines(pattern):
    for path, text in sources():
        for number, line in enumerate(text.split('\n'), 1):
            if re.search(pattern, line) and not line.strip().startswith('//'):
                yield f'{path}:{number}: {line.strip()}'


def structs():
    for path, text in sources():
        for found in re.finditer(r'^(?:pub )?struct (\w+)[^{;]*\{\n(.*?)^\}', text, re.M | re.S):
            fields = re.findall(r'^ +(?:pub )?(\w+): (.+),$', found.group(2), re.M)
            yield path, text[:found.start()].count('\n') + 1, found.group(1), fields


def point_1():
    yield from lines(r'^\s*(pub )?enum ')
    for path, line, name, fields in structs():
        for field, kind in fields:
            if kind == 'bool' or field in ('outcome', 'refusal', 'next') and kind in ('u32', 'usize', 'Outcome'):
                yield f'{path}:{line}: {name}.{field}: {kind}'
    groups = collections.Counter()
    for place in lines(r'^\s*(pub )?const [A-Z_0-9]+: (u8|u32|usize|u16|u64) = '):
        name = re.search(r'const (\w+)', place).group(1)
        if not re.search(SIZES, name) and not re.search('offsets.rt|measures.rt', place):
            groups[place.split(':')[0]] += 1
    for path, count in groups.items():
        yield f'{path}: {count} numbers that stand for a choice'


def shape(text):
    """The tokens of a body with each name replaced by the place where it first stands, and each number by 0."""
    names, out = {}, []
    for token in re.findall(r"b?'[^']*'|b?\"[^\"]*\"|\w+|[^\w\s]", re.sub(r'//.*', '', text)):
        if re.match(r'\d', token) or token[:1] in '"\'' or token[:2] in ('b"', "b'"):
            token = '0'
        elif re.match(r'[A-Za-z_]', token) and token not in ('let', 'mut', 'if', 'else', 'while', 'for', 'in', 'match', 'return', 'true', 'false', 'as'):
            token = f'n{names.setdefault(token, len(names))}'
        out.append(token)
    return ' '.join(out), len(out)


def point_2():
    kinds = collections.defaultdict(list)
    for path, line, name, params, _, body in functions():
        text, size = shape(body)
        if size >= 20:
            kinds[text, params.count(':')].append(f'{path}:{line}: {name}')
    for places in kinds.values():
        if len(places) > 1:
            yield ' = '.join(places)


def point_3():
    yield from lines(r'^\s*(while|loop)\b')


def point_4():
    for path, line, name, *_ in functions():
        if re.match(BY_HAND, name):
            yield f'{path}:{line}: fn {name}'
    yield from lines(r'\bwrapping_(add|sub|mul)_u32\(')


def point_5():
    for path, line, name, params, *_ in functions():
        count = len(re.findall(r'\w+: ', params))
        if count > 8:
            yield f'{path}:{line}: {name} takes {count} parameters'
    facts = collections.defaultdict(list)
    for path, line, name, _, clauses, _ in functions():
        for clause in re.findall(r'requires (?:\w+ )?\{ (.*) \}', clauses):
            facts[path.split('/')[1], clause].append(name)
    for (crate, clause), names in sorted(facts.items()):
        if len(names) >= 3:
            yield f'{crate}: {{ {clause} }} in {len(names)} functions'


def point_6():
    for path, line, name, fields in structs():
        if any('[' in kind for _, kind in fields) and any(re.fullmatch(LENGTHS, field) for field, _ in fields):
            yield f'{path}:{line}: struct {name}'


def point_7():
    for path, line, name, _, _, body in functions():
        arms = re.findall(r'^\s*[\w:|{} .=()]+ => (?:return )?(\w[\w:]*)\(', body, re.M)
        if len(set(arms)) >= 3:
            yield f'{path}:{line}: {name} chooses among {len(set(arms))} functions'


def point_8():
    for name in ('Invariants', 'Answers', 'Proof'):
        paths = [p for p in glob.glob(f'crates/*/proofs/**/{name}.antt', recursive=True)]
        size = sum(open(p, encoding='utf-8').read().count('\n') for p in paths)
        yield f'{len(paths)} files {name}.antt, {size} lines'
    paths = [p for p in glob.glob('crates/*/proofs/*.antt')]
    yield f'{len(paths)} files of lemmas, {sum(open(p, encoding="utf-8").read().count(chr(10)) for p in paths)} lines'


def main():
    points = [point_1, point_2, point_3, point_4, point_5, point_6, point_7, point_8]
    if len(sys.argv) > 1:
        print('\n'.join(points[int(sys.argv[1]) - 1]()))
        return
    for number, point in enumerate(points, 1):
        places = list(point())
        print(f'{number}: {len(places)} places' if number < 8 else f'{number}: ' + '; '.join(places))


main()
