#!/usr/bin/env python3
"""Counts, in the code of crates/*/src, the places of older forms: python3 tools/forms.py [-v] [TREE].

1 own enums and numbers where Option, Result and an error enum serve; 2 twins; 3 loops that count an index by hand;
4 tests, copies and conversions written out; 5 facts and parameters that travel together; 6 buffers with a length beside;
7 switches on a step; 8 proofs by hand. With -v the places themselves."""
import collections
import difflib
import glob
import os
import re
import sys

verbose = '-v' in sys.argv
trees = [a for a in sys.argv[1:] if a != '-v']
tree = trees[0] if trees else os.path.join(os.path.dirname(os.path.abspath(__file__)), '..')
os.chdir(tree)
files = {p: open(p).read() for p in sorted(glob.glob('crates/*/src/*.rt'))}


def lines(pattern, only=lambda p: True):
    """Each line that the pattern matches."""
    return [(p, n, line.strip()) for p, text in files.items() if only(p)
            for n, line in enumerate(text.split('\n'), 1) if re.search(pattern, line)]


def spans(pattern):
    """Each match over several lines."""
    return [(p, text.count('\n', 0, m.start()) + 1, ' '.join(m[0].split())[:90])
            for p, text in files.items() for m in re.finditer(pattern, text, re.M)]


def index_loops():
    """while loops whose condition names a variable that the body steps by one number."""
    found = []
    for p, text in files.items():
        rows = text.split('\n')
        for n, row in enumerate(rows):
            m = re.match(r'^(\s*)while (.*) \{$', row)
            if not m:
                continue
            end = next(k for k in range(n + 1, len(rows)) if re.match('^' + m[1] + r'\}', rows[k]))
            body = '\n'.join(rows[n + 1:end])
            names = re.findall(r'\b([a-z_]\w*)\b', m[2])
            if any(re.search(r'^\s*' + v + r' [+-]= (\d+|\w+);', body, re.M) for v in names):
                found.append((p, n + 1, row.strip()))
    return found


def signatures():
    for p, text in files.items():
        for m in re.finditer(r'^(?:pub )?(?:extern "C" )?fn (\w+)[^(]*\(([^{]*?)\)\s*(?:->|\n|requires|ensures|\{)', text, re.M):
            yield p, text.count('\n', 0, m.start()) + 1, m[1], re.findall(r'(\w+): ', m[2])


def together(*names):
    return [(p, n, f) for p, n, f, args in signatures() if all(a in args for a in names)]


def clauses():
    count = collections.Counter()
    where = collections.defaultdict(list)
    for p, n, line in lines(r'^\s+requires'):
        for fact in re.sub(r'^requires (\w+ )?\{ | \}$', '', line).split(' × '):
            fact = fact.strip('() ')
            count[fact] += 1
            where[fact].append((p, n, fact))
    return [w for fact, k in count.items() if k >= 3 for w in where[fact]]


def twins():
    """Functions of one name in two crates, or next to one another, whose tokens are alike but for types, sizes and constants."""
    functions = []
    for p, text in files.items():
        for m in re.finditer(r'^(?:pub )?(?:extern "C" )?fn (\w+).*?^\}', text, re.M | re.S):
            body = m[0][m[0].index('{\n'):] if '{\n' in m[0] else ''
            tokens = [t for t in re.findall(r'\w+|[^\s\w]', re.sub(r'//.*', '', body))]
            if len(tokens) >= 30:
                shape = ['#' if re.fullmatch(r'\d\w*|[ui](8|16|32|64|128|size)|[A-Z_0-9]+', t) else t for t in tokens]
                functions.append((p, text.count('\n', 0, m.start()) + 1, m[1], shape))
    found = []
    for i, (p, n, f, x) in enumerate(functions):
        for q, k, g, y in functions[:i]:
            near = f == g or p == q
            if near and abs(len(x) - len(y)) <= len(x) // 4 and difflib.SequenceMatcher(None, x, y, False).ratio() >= 0.8:
                found.append((p, n, f'{f} ~ {q}:{k} {g}'))
                break
    return found


points = [
    ('1 refusals carried as a number', lines(r'(Refused|Stop)\(u32\)') + lines(r'refusal: u32')),
    ('1 a number where 0 is none or a case', spans(r'^(pub )?fn (\w*refusal|check\w*|scanned)\([^{]*?-> u32')
     + spans(r'^(pub )?fn (first_holding)\([^{]*?-> usize') + lines(r'\bway(: | == )')),
    ('1 constants for refusals', lines(r'pub const \w+: u32', lambda p: p == 'crates/model/src/refusal.rt')),
    ('1 a flag with values beside it', lines(r'^    pub (accepted|fits|second|spent|any|refused|found|far): bool')),
    ('1 own Option or Result', lines(r'^\s+(NoSuchSet|From\(Cursor\)|Length\(usize\)|Seen\(u64, u32\)),')),
    ('2 functions like another but for a type, a size or a constant', twins()),
    ('3 loops that count an index', index_loops()),
    ('3 (all while loops)', lines(r'^\s*while ')),
    ('4 a test by if and return', spans(r'if [^{}]+ \{\s+return (true|false);\s+\}\s+[^;{}]+\n\}')),
    ('4 copies of a field before its use', lines(r'^\s+let (\w+) = \w+\.\w+;$')),
    ('4 a sign by 0 - x', lines(r'[^.\w]0 - [(\w]')),
    ('4 a bool by a match on each case', lines(r'=> (true|false),$')),
    ('4 a number by a match on each case', lines(r'=> (-?\d+|0 - \(k as i64\)),$')),
    ('5 tables that travel together', together('place', 'kinds') + together('tables', 'lengths')),
    ('5 corners that travel together', together('low', 'high') + together('lows', 'highs')),
    ('5 facts in three requires or more', clauses()),
    ('6 a length beside its buffer', lines(r'^    pub (divs|cons|count|len|length|steps): (usize|u32),')),
    ('7 a switch on a step', lines(r'\bmatch (step|phase|stage|state|mode)\b')),
    ('8 proofs that walk the code by hand', [(p, 1, '') for p in sorted(glob.glob('crates/*/proofs/**/Proof.antt', recursive=True))]),
]
for name, places in points:
    print(f'{len(places):5} {name}')
    if verbose:
        for p, n, what in places:
            print(f'        {p}:{n}: {what}')
