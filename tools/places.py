#!/usr/bin/env python3
"""Lists the places in crates/*/src that docs/DESIGN-PASS.md counts, point by point.

    python3 tools/places.py [-l] [COMMIT]

Without a commit it reads the files as they lie here; with -l it prints each place, else the counts alone.
"""
import collections, glob, itertools, re, subprocess, sys

args = [a for a in sys.argv[1:] if a != '-l']
long = '-l' in sys.argv
if args:
    names = subprocess.run(['git', 'ls-tree', '-r', '--name-only', args[0], 'crates'], capture_output=True, text=True).stdout.split()
    read = lambda f: subprocess.run(['git', 'show', f'{args[0]}:{f}'], capture_output=True, text=True).stdout
else:
    names = glob.glob('crates/*/src/**/*.rt', recursive=True)
    read = lambda f: open(f).read()
files = {f: read(f) for f in sorted(names) if '/src/' in f and f.endswith('.rt')}


def tell(title, places):
    print(f'{len(places):4}  {title}')
    if long:
        for p in places:
            print('        ' + p)


def lines(pattern, but=None):
    return [f'{f[7:]}:{i}: {l.strip()}' for f, t in files.items() for i, l in enumerate(t.splitlines(), 1)
            if re.search(pattern, l) and not (but and re.search(but, l))]


def functions():
    """Crate, file, name, parameters, result, and the code without comments and clauses, of each function."""
    for f, t in files.items():
        for m in re.finditer(r'^( *)(?:pub(?:\([a-z]+\))? )?fn (\w+)', t, re.M):
            ends = [e for e in (t.find('\n' + m[1] + s, m.start()) for s in ('}', '{}')) if e >= 0]
            text = t[m.start():min(ends, default=len(t))]
            code = [l for l in text.splitlines() if not re.match(r'\s*(ensures|requires|//)', l)]
            head = re.split(r'\n\s*\{|\{\n|;\s*(?:\n|$)|\b(?:ensures|requires)\b', text)[0]
            inner = head[head.find('(') + 1:head.rfind(') ->') if ') ->' in head else head.rfind(')')]
            given = [p.strip() for p in re.split(r',\s*(?![^(<]*[)>])', inner) if ':' in p]
            result = head[head.rfind('->'):] if '->' in head else ''
            yield f.split('/')[1], f, m[2], given, result, re.sub(r'\s+', ' ', ' '.join(code)).strip()


all_functions = list(functions())

print('1. answers')
tell('enums of our own', lines(r'^ *(pub(\([a-z]+\))? )?enum \w+'))
tell('functions that answer bool', [f'{c}: {n}' for c, _, n, _, r, _ in all_functions if r.strip() == '-> bool'])
tell('an answer in an answer', lines(r'->.*(Result<Option|Result<bool|Option<Result|Option<Option)'))
tell('flags in structs', lines(r'^    (pub(\([a-z]+\))? )?\w+: bool,'))
tell('numbers for kinds and refusals: constants, and functions that give a variant its number or place',
     lines(r'const \w+: u8 = \d|fn (number|place)\(self'))

print('2. twins')
same = collections.defaultdict(list)
for c, f, n, _, _, code in all_functions:
    same[re.sub(r'^pub(\([a-z]+\))? ', '', re.sub(r'\b(crate|super)::', '', code))].append((c, f, n))
tell('functions whose code stands twice or more', [f'{v[0][2]}: ' + ', '.join(c for c, _, _ in v)
     for v in same.values() if len({f for _, f, _ in v}) > 1])
shape = collections.defaultdict(list)
for c, f, n, _, _, code in all_functions:
    if len(code) > 60:
        blank = re.sub(r'"[^"]*"|\b\d[\d_]*\b', '0', re.sub(r'^(pub(\([a-z]+\))? )?fn \w+', 'fn', code))
        for w in sorted(set(re.findall(r'\b(?:Records|Bytes|mates|takers|others|\w+_(?:256|64))\b', blank))):
            blank = re.sub(rf'\b{w}\b', 'x', blank)
        shape[blank].append((c, f, n))
tell('groups of functions that differ in a name, a number or a field', [', '.join(f'{c}:{n}' for c, _, n in v)
     for v in shape.values() if len({n for _, _, n in v}) > 1])

print('3. loops')
tell('for over a range of numbers', lines(r'\bfor \S+ in .*\.\.'))
tell('while over a length or a count', lines(r'^ *while ', r'\.pop\(\)|next_waiting'))

print('4. conversion, printing')
tell('arms that turn a variant into a word or a number', lines(r'^\s*[A-Z]\w*::\w+.*=> (b?"|\d+,)'))
tell('impls of From, TryFrom, FromStr, Display', lines(r'^impl.*\b(From<|TryFrom<|FromStr|Display).* for'))
tell('words read by hand', lines(r'^\s*\[?"[a-z-]+"\]? => Some'))

print('5. what travels together')
pairs = collections.defaultdict(set)
for c, f, n, given, _, _ in all_functions:
    given = [g for g in given if not re.match(r'(rt|heap|alloc)\b', g)]
    for a, b in itertools.combinations(sorted(given), 2):
        pairs[(a, b)].add((c, n))
tell('pairs of parameters that three functions of a crate or more take', sorted(f'{a}, {b}: ' + ', '.join(sorted(f'{c}:{n}' for c, n in v))
     for (a, b), v in pairs.items() if max(collections.Counter(c for c, _ in v).values()) > 2))
clauses = collections.defaultdict(list)
for f, t in files.items():
    for m in re.finditer(r'^\s*(?:requires|ensures)\s*\w*\s*\{(.*)\}$', t, re.M):
        clauses[(f.split('/')[1], m[1].strip())].append(f)
tell('clauses that stand in three contracts of a crate or more', sorted(f'{c}: {x} ({len(v)})' for (c, x), v in clauses.items() if len(v) > 2))

print('6. memory')
tell('arrays in structs', lines(r'^    (pub(\([a-z]+\))? )?\w+: \[.*;.*\],'))
tell('lengths in structs', lines(r'^    (pub(\([a-z]+\))? )?(len|count|depth|standing|end|got): (usize|u16),'))

print('7. steps')
tell('enums that say which step to run, where they are used', lines(r'\bAction::\w+'))

if not args:
    print('8. proofs')
    proofs = glob.glob('crates/*/proofs/**/*.antt', recursive=True)
    print(f'{len(proofs):4}  files, {sum(len(open(p).read().splitlines()) for p in proofs)} lines')
