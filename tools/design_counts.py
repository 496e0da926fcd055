#!/usr/bin/env python3
"""Counts, in crates/*/src, the places that docs/DESIGN-PASS.md speaks of: one figure a kind of place, or each place with -v."""
import collections, glob, re, sys

NUMBER = r'(?:u8|u16|u32|u64|usize)'
LINES = [
    ('1 own enums', r'^(?:pub )?enum \w+'),
    ('1 numbers for refusals', r'number: (?:\d+|u16|usize|number)\b|refused\(\d+|refusal: (?:\d+|usize)|number [!=]= [A-Z]|'
                               r': (?:u16|u64) = (?:12|13|21);'),
    ('1 a number for none', r'\bNONE\b|\bNO_CHILD\b'),
    ('1 a flag beside a value', r'^    (?:pub )?\w+: bool,$'),
    ('3 while and loop', r'^\s*(?:while|loop)\b'),
    ('3 for over indices', r'\bfor \w+ in [^{]*\.\.'),
    ('4 casts', r'\bas ' + NUMBER + r'\b'),
    ('6 parallel columns', r'\bcounts: &|, counts: Vec'),
    ('6 arrays of a fixed length', r': \[\w+; ?\w+\]|: &(?:mut )?\[\w+; ?\w+\]|= \[[^;\]]*; ?\w+\]'),
    ('7 a switch on a step', r'\bform: Form\b|\bbook: bool\b|\bwidth: usize\b|\bmatch form\b'),
]
HEAD = re.compile(r'^( *)(?:pub(?:\(crate\))? )?(?:extern "C" )?fn (\w+)')

# Words of a clause that are no facts: types and variants.
NO_FACTS = {'Words', 'Word', 'Ok', 'Some'}


def sources():
    for path in sorted(glob.glob('crates/*/src/**/*.rt', recursive=True)):
        yield path, open(path).read()


def code_lines():
    for path, text in sources():
        for n, line in enumerate(text.splitlines(), 1):
            if not re.match(r'\s*(?://|use |ghost use |pub use |requires|ensures)', line):
                yield f'{path}:{n}', line


def functions():
    for path, text in sources():
        lines = text.splitlines()
        for n, line in enumerate(lines):
            head = HEAD.match(line)
            if not head or line.rstrip().endswith(';'):
                continue
            indent, name = head[1], head[2]
            end = next(k for k in range(n, len(lines)) if lines[k] == indent + '}')
            opens = next(k for k in range(n, end) if re.search(r'(^|[^×] )\{$', lines[k]))
            signature = ' '.join(lines[n:opens + 1])
            params = re.findall(r'(\w+): (?!\{)', re.split(r'\) ?(?:->|requires|ensures|\{)', signature)[0])
            yield path, name, params, signature, '\n'.join(lines[opens + 1:end])


def required(clauses):
    for clause in re.finditer(r'\brequires(?: \w+)? \{', clauses):
        depth, k = 1, clause.end()
        while depth:
            depth += {'{': 1, '}': -1}.get(clauses[k], 0)
            k += 1
        yield clauses[clause.end():k - 1]


def shape(name, body):
    body = re.sub(r'//.*', '', body)
    body = re.sub(r'\b' + name + r'\b', 'SELF', body)
    body = re.sub(r'\b\d[\d_]*(?:u8|u16|u64)?\b', '0', body)
    body = re.sub(r'\b(?:' + NUMBER[3:-1] + r'|[A-Z][A-Z_0-9]+)\b', 'T', body)
    return re.sub(r'\s+', ' ', body).strip()


def show(kind, places, verbose):
    print(f'{kind}: {len(places)}')
    if verbose:
        for place in places:
            print('   ', place)


def main():
    verbose = '-v' in sys.argv
    for kind, pattern in LINES:
        show(kind, [f'{p}: {l.strip()}' for p, l in code_lines() if re.search(pattern, l)], verbose)
    alike, runs, facts = (collections.defaultdict(list) for _ in range(3))
    for path, name, params, clauses, body in functions():
        if len(shape(name, body)) > 8:
            alike[shape(name, body)].append(f'{path} {name}')
        for a, b in zip(params, params[1:]):
            runs[a, b].append(name)
        for fact in set(re.findall(r'\b([A-Z][a-z]\w+) ', ' '.join(required(clauses)))) - NO_FACTS:
            facts[fact].append(name)
    twins = [', '.join(g) for g in alike.values() if len(g) > 1]
    show('2 bodies that differ in a type, a size or a constant at most', twins, verbose)
    print('2 functions among these:', sum(len(g) for g in alike.values() if len(g) > 1))
    show('5 pairs of parameters that stand together in 3 functions or more',
         [f'{len(v)} {a}, {b}' for (a, b), v in sorted(runs.items(), key=lambda r: -len(r[1])) if len(v) > 2 and 'rt' not in (a, b)], verbose)
    show('5 facts that 3 functions or more require',
         [f'{len(v)} {k}: {", ".join(v)}' for k, v in sorted(facts.items(), key=lambda r: -len(r[1])) if len(v) > 2], verbose)
    walks = glob.glob('crates/*/proofs/**/Proof.antt', recursive=True)
    print('8 proofs that walk the code by hand:', len(walks), 'of', sum(len(open(w).readlines()) for w in walks), 'lines')
    print('8 lines of proofs:', sum(len(open(w).readlines()) for w in glob.glob('crates/*/proofs/**/*.antt', recursive=True)))


main()
