#!/usr/bin/env python3
"""Lists the places of src/ (tests aside) that a newer form may serve, point by point, with their number.

    python3 tools/places.py [COMMIT] [--all]

Without a commit it reads the working tree; --all also prints each place. docs/DESIGN-PASS.md says what the points are.
"""
import collections
import difflib
import itertools
import re
import subprocess
import sys

commit = next((a for a in sys.argv[1:] if not a.startswith('-')), None)
show = '--all' in sys.argv


def files(pattern):
    args = ['git', 'ls-tree', '-r', '--name-only', commit] if commit else ['git', 'ls-files']
    names = subprocess.run(args, capture_output=True, text=True, check=True).stdout.split()
    for name in sorted(n for n in names if re.fullmatch(pattern, n)):
        if commit:
            yield name, subprocess.run(['git', 'show', f'{commit}:{name}'], capture_output=True, text=True).stdout
        else:
            try:
                yield name, open(name).read()
            except FileNotFoundError:
                pass


SOURCES = [(n, t) for n, t in files(r'crates/[^/]+/src/.*\.rt') if not n.endswith('/tests.rt')]


def lines(regex, keep=lambda name, text, i: True):
    for name, text in SOURCES:
        for i, line in enumerate(text.split('\n'), 1):
            if re.search(regex, line) and not line.lstrip().startswith('//') and keep(name, text, i):
                yield f'{name}:{i}: {line.strip()}'


def functions():
    """Each function with a body: its place, name, head and body."""
    for name, text in SOURCES:
        for m in re.finditer(r'^([ \t]*)(?:pub(?:\(crate\))? )?(?:const )?fn (\w+)', text, re.M):
            indent = m.group(1)
            start = text.find('\n' + indent + '{\n', m.start())
            same = re.match(r'[^\n]*\{\n', text[m.start():])
            semi = re.search(r';\n', text[m.start():])
            if same:
                start = m.start() + same.end() - 2
            if start < 0 or (semi and m.start() + semi.start() < start):
                continue
            end = text.find('\n' + indent + '}', start)
            at = text.count('\n', 0, m.start()) + 1
            yield f'{name}:{at}', m.group(2), text[m.start():start], text[start:end].strip()


FUNCTIONS = list(functions())


def report(point, what, places):
    places = list(places)
    print(f'{point}  {len(places):4}  {what}')
    if show:
        for p in places:
            print(f'            {p}')


# ---- 1
def enums():
    for name, text in SOURCES:
        for m in re.finditer(r'^(?:pub(?:\(crate\))? )?enum (\w+)(?:<[^>]*>)? \{\n(.*?)^\}', text, re.M | re.S):
            variants = [v for v in re.findall(r'^    (\w+)(\(| \{|,)', m.group(2), re.M)]
            bare = [v for v, k in variants if k == ',']
            full = [v for v, k in variants if k != ',']
            # a case that says no, or yes, beside cases that hold something or say why
            if (bare and full and len(variants) <= 3) or {'Yes', 'No'} & {v for v, _ in variants}:
                at = text.count('\n', 0, m.start()) + 1
                yield f'{name}:{at}: enum {m.group(1)}'


report('1a', 'own enums that may be an Option or a Result', enums())
report('1b', 'matches that hand an Option or a Result on',
       lines(r'None => (None|false|return None|return false)\b|Some\(_\) => true|Ok\(None\) => true|Err\((\w+)\) => Err\(\2\)|None => Err\('))
report('1c', 'functions that give a number for a kind',
       lines(r'fn (number|index|accepted|kind_of|number_of)\b.*-> (Option<)?(u8|u32|usize)'))


# ---- 2
KEYWORDS = set('if else match for in while loop return let mut true false Some None Ok Err as self Self'.split())


def shape(body):
    body = re.sub(r'//[^\n]*', '', body)
    tokens = re.findall(r'[A-Za-z_]\w*|b?"[^"]*"|b?\'[^\']*\'|\d[\d_]*|[^\s\w]', body)
    return [t if t in KEYWORDS or not re.match(r'[A-Za-z_0-9"\']|b["\']', t) else 'x' for t in tokens]


def twins():
    shapes = [(at, name, shape(body)) for at, name, _, body in FUNCTIONS]
    shapes = [s for s in shapes if len(s[2]) >= 24]
    for (a, f, s), (b, g, t) in itertools.combinations(shapes, 2):
        if abs(len(s) - len(t)) <= 6 and difflib.SequenceMatcher(None, s, t, autojunk=False).ratio() >= 0.92:
            yield f'{a} {f} and {b} {g}'


report('2 ', 'pairs of functions of one shape (24 tokens or more, 92 in 100 alike)', twins())

# ---- 3
report('3a', 'loops that count an index', lines(r'^\s*for \w+ in \(?0\.\.|^\s*while .*\b(len\(\)|\w+ < \w+)'))


def scans():
    for at, name, _, body in FUNCTIONS:
        if re.search(r'\bfor \S+ in [^\n]*\{\s*(let [^;]*;\s*)*if [^\n]*\{\s*return (true|false|Some\([^;]*\));\s*\}\s*\}\s*(true|false|None)', body):
            yield f'{at} {name}'


report('3b', 'loops that only look for an element', scans())

# ---- 4
report('4a', 'functions that are one `==`, or compare a record part by part',
       [f'{at} {name}' for at, name, _, body in FUNCTIONS
        if re.fullmatch(r'\{\s*\w+ == \w+', body.strip()) or re.search(r'(\w+)\.(\w+) == (\w+)\.\2 && \1\.(\w+) == \3\.\4', body)])
report('4b', 'chains of comparisons with words', lines(r'(if|else if|\|\|)?.*\bsame(_name)?\((\w|\.)+, b"'))
report('4c', 'matches that only say true or false', [f'{at} {name}' for at, name, _, body in FUNCTIONS
       if re.search(r'=> true,', body) and re.search(r'_ => false', body)])
report('4d', 'equal arms', [f'{at} {name}' for at, name, _, body in FUNCTIONS
       if re.search(r'=> (\w[^\n{]*),\n\s*[\w:]+[^\n]*=> \1,\n', body)])


# ---- 5
def clauses():
    seen = collections.defaultdict(set)
    for at, name, head, _ in FUNCTIONS:
        for c in re.findall(r'^\s*(?:requires|ensures)(?: \w+)? \{ (.*) \}$', head, re.M):
            if len(c) > 8:
                seen[c].add(at)
    return [f'{len(v)} times: {c}' for c, v in sorted(seen.items()) if len(v) >= 3]


report('5a', 'clauses that three functions or more repeat', clauses())


def companions():
    seen = collections.Counter()
    for at, name, head, _ in FUNCTIONS:
        head = head.split('\n    requires')[0].split('\n    ensures')[0]
        params = re.findall(r'(\w+): (&?(?:mut )?[\w<>\[\]\', ;&]+?)(?:,|\)|\n)', head[head.find('('):])
        for a, b in itertools.combinations(sorted(set(params)), 2):
            seen[(a, b)] += 1
    return [f'{n} times: {a[0]}: {a[1]} and {b[0]}: {b[1]}' for (a, b), n in sorted(seen.items()) if n >= 3]


report('5b', 'pairs of parameters that three functions or more take together', companions())

# ---- 6
report('6a', 'arrays with a length beside them', lines(r'^\s*(pub(\(crate\))? )?\w+: \[[^\]]*; \w+\],|&mut \[\w+; \w+\]'))
report('6b', 'memory with a count beside it', lines(r'\w*count: (&mut )?usize[,)]'))

# ---- 7
report('7 ', 'switches on which step to run', [f'{at} {name}' for at, name, _, body in FUNCTIONS
       if len(re.findall(r'=> (?:return )?(?:Some\(|Ok\()?[a-z_]+\(', body)) >= 2 and not re.search(r'write', body)])

# ---- 8
PROOFS = list(files(r'crates/[^/]+/proofs/.*\.antt'))
print(f'8   {sum(t.count(chr(10)) for _, t in PROOFS):5}  lines in proofs/, in {len(PROOFS)} files')
ANSWERS = [(n, t) for n, t in PROOFS if n.endswith(('Answers.antt', 'Invariants.antt'))]
print(f'    {sum(t.count(chr(10)) for _, t in ANSWERS):5}  of them answers and invariants, in {len(ANSWERS)} files')
