#!/usr/bin/env python3
"""forms.py COMMIT [-v]: counts the places in crates/*/src that older forms of the language leave.

For each point of docs/DESIGN-PASS.md a line: what is counted and how many there are; with -v the places too.
Comments and the lines of clauses are left out, except where a line counts clauses.
"""
import re, subprocess, sys
from collections import Counter, defaultdict

if len(sys.argv) < 2:
    sys.exit(__doc__)
commit, verbose = sys.argv[1], '-v' in sys.argv

def git(*words):
    return subprocess.check_output(['git', *words], text=True)

paths = git('ls-tree', '-r', '--name-only', commit, 'crates').split()
texts = {p: git('show', commit + ':' + p) for p in paths if '/src/' in p and p.endswith('.rt')}
answers = [p for p in paths if '/proofs/' in p and p.endswith(('/Answers.antt', '/Invariants.antt', '/Proof.antt'))]

def code_of(text):
    """The text without comments, ghost lines and clauses."""
    kept = []
    for line in text.split('\n'):
        bare = line.strip()
        if re.match(r'(//|ghost |requires|ensures|#\[tactic|#!\[)', bare):
            continue
        kept.append(line.split('//')[0])
    return '\n'.join(kept)

code = {p: code_of(t) for p, t in texts.items()}

def places(pattern, where=code):
    found = []
    for p, t in sorted(where.items()):
        for m in re.finditer(pattern, t, re.M):
            found.append('%s: %s' % (p.replace('crates/', '').replace('/src', ''), ' '.join(m.group(0).split())))
    return found

# each function: its path, name, parameters and the clauses of its contract
functions = []
for p, t in sorted(texts.items()):
    for m in re.finditer(r'\bfn (\w+)(?:<[^>]*>)?\(([^)]*)\)', t):
        clauses, rest = [], t[m.end():]
        head = rest[:rest.find('\n{')] if '\n{' in rest else rest.split('{\n')[0]
        for line in re.split(r'\n\s*\n|\n\s*\{\n', rest)[0].split('\n'):
            c = re.match(r'\s*requires(?: \w+)? \{ (.*) \}$', line)
            if c:
                clauses.append(c.group(1))
        params = [re.sub(r'\s+', ' ', x.strip()) for x in m.group(2).split(',') if ':' in x]
        functions.append((p, m.group(1), params, clauses))

def repeated_facts():
    count = defaultdict(set)
    for p, name, params, clauses in functions:
        for c in clauses:
            for fact in re.split(r' × ', c):
                count[(p.split('/')[1], fact.strip('() '))].add(name)
    return ['%s: %s (%d functions)' % (k[0], k[1], len(v)) for k, v in sorted(count.items()) if len(v) >= 3]

def travelling_pairs():
    count = defaultdict(set)
    for p, name, params, clauses in functions:
        if name.startswith('haq_'):
            continue
        for i, a in enumerate(params):
            for b in params[i + 1:]:
                count[(p.split('/')[1], a, b)].add((p, name))
    return ['%s: %s, %s (%d functions)' % (*k, len(v)) for k, v in sorted(count.items()) if len(v) >= 4]

def lengths_beside():
    found = []
    for p, name, params, clauses in functions:
        slices = [x for x in params if re.search(r'\[(u8|u32|u64)(; \w+)?\]', x)]
        counts = [x for x in params if re.match(r'(n|held|count|used|size|end|filled): (usize|u32)', x)]
        if slices and counts and not name.startswith('haq_'):
            found.append('%s: fn %s(%s)' % (p.replace('crates/', '').replace('/src', ''), name, ', '.join(slices + counts)))
    return found

def flags():
    found = []
    for p, name, params, clauses in functions:
        for x in params:
            if x.endswith(': bool'):
                found.append('%s: fn %s, %s' % (p.replace('crates/', '').replace('/src', ''), name, x))
    return found + places(r'^    (pub )?\w+: bool,')

def twins():
    """Pairs of functions whose bodies differ in at most three words, of twelve words or more."""
    bodies = []
    for p, t in sorted(code.items()):
        for m in re.finditer(r'\bfn (\w+)[^{;]*\{\n(.*?)\n( {4})?\}', t, re.S):
            words = re.findall(r'\w+|[^\w\s]', m.group(2))
            if len(words) >= 12:
                bodies.append((p, m.group(1), words))
    found = []
    for i, (p, a, x) in enumerate(bodies):
        for q, b, y in bodies[i + 1:]:
            if len(x) == len(y):
                apart = sum(1 for u, v in zip(x, y) if u != v)
                if apart <= max(3, len(x) // 8):
                    found.append('%s: %s and %s of %s' % (p.replace('crates/', '').replace('/src', ''), a, b, q.replace('crates/', '').replace('/src', '')))
    return found

own = r'\b(Done|Looked|Tallied|Estimated|Judged|BoundsAnswer|ChartAnswer|Grant|Located|Chain|Part|FreeChain|Surveyed|Number|Count|Field|Command)::(\w+)'
lines_of = sum(git('show', commit + ':' + p).count('\n') for p in answers)
table = [
    ('1 own enums', places(r'^(pub )?enum \w+')),
    ('1 replies and findings of an own enum', places(own)),
    ('1 refusals written as numbers', places(r'(Refused\(\d+\)|put_refusal\(out, \d+\)|refusal\(rt, \d+\))')),
    ('1 numbers for kinds', places(r"(== b'[a-z]'|^ +b'[a-z]'[^=]*=>)")),
    ('2 functions that differ in few words', twins()),
    ('3 loops by while', places(r'\bwhile (?!let)[^{]*\{')),
    ('3 loops by for', places(r'\bfor [^{]* in ')),
    ('4 functions that the library has', places(r'\bfn (minimum|maximum|less|lacking|find|fill|digit|is_digit|put_bytes|put_number|sum_of|is_zero|add_to|both_counts|all_units|no_units|is_undecided|goes_on|state_of)\b')),
    ('4 conversions by as', places(r'\bas (u8|u32|u64|usize|f64)\b')),
    ('5 facts in three contracts or more', repeated_facts()),
    ('5 pairs of parameters in four functions or more', travelling_pairs()),
    ('6 runs of memory with a length beside them', lengths_beside()),
    ('7 flags', flags()),
    ('8 answer files', answers),
]
for name, found in table:
    print('%-52s %d' % (name, len(found)))
    if verbose:
        for place in found:
            print('    ' + place)
print('%-52s %d' % ('8 lines of answers', lines_of))
