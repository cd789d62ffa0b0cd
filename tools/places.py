#!/usr/bin/env python3
"""Lists, for each point of docs/DESIGN-PASS.md, the places in crates/*/src that its patterns find.

    python3 tools/places.py [COMMIT]        the lists, of the work tree or of a commit
    python3 tools/places.py --counts [COMMIT]

A place that is found is not yet one to change: the page says of each what became of it.
"""
import collections
import re
import subprocess
import sys


def sources(commit):
    """The .rt files of crates/*/src, as {path: lines}."""
    where = [commit] if commit else []
    listing = ['ls-tree', '-r', '--name-only', commit] if commit else ['ls-files', '-co', '--exclude-standard']
    names = subprocess.run(['git'] + listing, check=True, capture_output=True, text=True).stdout.split()
    found = {}
    for name in sorted(names):
        if re.fullmatch(r'crates/\w+/src/.*\.rt', name):
            if commit:
                text = subprocess.run(['git', 'show', f'{commit}:{name}'], check=True, capture_output=True, text=True).stdout
            else:
                text = open(name).read()
            found[name] = text.split('\n')
    return found


def bare(line):
    """The line without its comment."""
    return re.sub(r'(^|\s)//.*', '', line)


def lines_like(files, pattern):
    for name, lines in files.items():
        for i, line in enumerate(lines):
            if re.search(pattern, bare(line)):
                yield f'{name}:{i + 1}: {line.strip()}'


def functions(files):
    """Each function with a body: (place, name, parameters, clauses, body)."""
    for name, lines in files.items():
        text = '\n'.join(bare(line) for line in lines)
        for m in re.finditer(r'^([ ]*)(?:pub(?:\(crate\))? )?(?:extern "C" )?fn (\w+)(?:<.*?>)?\((.*?)\)(.*?)^\1\{(.*?)^\1\}', text, re.S | re.M):
            yield f"{name}:{text[:m.start()].count(chr(10)) + 1}", m[2], m[3], m[4], m[5]
        for m in re.finditer(r'^([ ]*)(?:pub(?:\(crate\))? )?fn (\w+)(?:<[^\n]*?>)?\(([^\n]*?)\)([^\n{]*)\{\n(.*?)^\1\}', text, re.S | re.M):
            yield f"{name}:{text[:m.start()].count(chr(10)) + 1}", m[2], m[3], m[4], m[5]


def point_1(files):
    yield from lines_like(files, r'^\s*(pub(\(crate\))? )?enum ')
    yield from lines_like(files, r'-> .*Result<bool>|-> [^;]*Option<bool>')
    yield from lines_like(files, r'\bkind: (u8|[0-9])|\bkind (==|<=) [0-9]|match kind\b|_KIND: u8')
    yield from lines_like(files, r'\bside (==|>) [01]|1 - side\b')
    yield from lines_like(files, r'const (REFUSED|NO_TARGET)\b|\b1000 \+|unwrap_or\(9999\)|=> \(0, 0\)|Err\(_\) => 0|Ok\(_\) => 0|fault\.refusal\.number\(\),$')


def point_2(files):
    shapes = collections.defaultdict(list)
    for place, name, parameters, _, body in functions(files):
        shape = re.sub(r'\b[A-Za-z_]\w*\b', 'n', re.sub(r'\b\d\w*', '0', body))
        shape = re.sub(r'\s+', ' ', shape)
        if len(re.findall(r'\bn\b', shape)) >= 4:
            shapes[shape].append(f'{place}: {name}')
    for same in shapes.values():
        if len(same) > 1:
            yield ' ~ '.join(same)


def point_3(files):
    yield from lines_like(files, r"(^|\s|: )(for [a-z]\w* in [^{]*\.\.|while |loop \{)")


def point_4(files):
    yield from lines_like(files, r'fn (same|eq|cmp|number|digit|two_bytes|push_hex|put_digit|put_number|read_line|read_call|call_line|answer_line|swap_lines?|print_refusal)\b')
    yield from lines_like(files, r'println!\(rt; "REFUSED')


def point_5(files):
    clauses = collections.Counter()
    groups = collections.Counter()
    for _, _, parameters, contract, _ in functions(files):
        for clause in set(re.findall(r'requires\s*\w*\s*\{(.*?)\}\s*$', contract, re.M)):
            clauses[clause.strip()] += 1
        named = [re.sub(r'\s+', ' ', p.strip()) for p in re.split(r',\s*(?![^<\[]*[>\]])', parameters) if ':' in p]
        for i in range(len(named)):
            for j in range(i + 1, len(named)):
                for k in range(j + 1, len(named)):
                    groups[', '.join((named[i], named[j], named[k]))] += 1
    for clause, n in sorted(clauses.items(), key=lambda x: -x[1]):
        if n >= 3:
            yield f'{n} functions require {clause}'
    for group, n in sorted(groups.items(), key=lambda x: -x[1]):
        if n >= 3:
            yield f'{n} functions take {group}'


def point_6(files):
    for name, lines in files.items():
        text = '\n'.join(bare(line) for line in lines)
        for m in re.finditer(r'^(?:pub(?:\(crate\))? )?struct (\w+)[^;{]*\{(.*?)^\}', text, re.S | re.M):
            arrays = re.findall(r'(\w+): &?(?:mut )?\[[^\n]*; \w+\],', m[2])
            counts = re.findall(r'\b(count|used|total|size|places): \w+,', m[2])
            if arrays and (counts or len(arrays) > 1):
                yield f"{name}:{text[:m.start()].count(chr(10)) + 1}: struct {m[1]}: {', '.join(arrays)} beside {', '.join(counts)}"
    for place, name, parameters, _, _ in functions(files):
        if re.search(r'&(mut )?\[', parameters) and re.search(r'\b(n|count|at|start|used): usize', parameters):
            yield f"{place}: fn {name}: a slice or array beside a count or position"


def point_7(files):
    for place, name, _, _, body in functions(files):
        arms = re.findall(r'=> (?:return )?[\w:.]+\(', body)
        if len(arms) >= 3:
            yield f'{place}: fn {name}: {len(arms)} arms that call'
    yield from lines_like(files, r'\bdyn\b|: fn\(')


POINTS = [point_1, point_2, point_3, point_4, point_5, point_6, point_7]


def main():
    words = sys.argv[1:]
    counts_only = '--counts' in words
    commits = [w for w in words if w != '--counts']
    files = sources(commits[0] if commits else None)
    for n, point in enumerate(POINTS, 1):
        found = list(dict.fromkeys(point(files)))
        print(f'point {n}: {len(found)} places')
        if not counts_only:
            for line in found:
                print('    ' + line)


main()
