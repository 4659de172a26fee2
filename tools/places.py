#!/usr/bin/env python3
"""Lists the places of src/ that the design pass looks at, point by point, with their counts.

    python3 tools/places.py [COMMIT] [--counts]

Without COMMIT it reads the files as they stand; with it, those of that commit. It goes by the text
alone, so it finds places that are right as they are; docs/DESIGN-PASS.md says which."""
import re
import subprocess
import sys
from collections import Counter, defaultdict

COUNTS_ONLY = '--counts' in sys.argv
NAMED = [a for a in sys.argv[1:] if not a.startswith('--')]
COMMIT = NAMED[0] if NAMED else None


def git(*args):
    return subprocess.run(('git',) + args, capture_output=True, text=True, check=True).stdout


def files(under):
    if COMMIT:
        names = git('ls-tree', '-r', '--name-only', COMMIT, 'crates').split('\n')
    else:
        names = git('ls-files', 'crates').split('\n')
    for name in sorted(n for n in names if under in n):
        try:
            yield name, git('show', f'{COMMIT}:{name}') if COMMIT else open(name).read()
        except FileNotFoundError:
            pass


SOURCES = [(n, t.split('\n')) for n, t in files('/src/') if n.endswith('.rt')]


class Function:
    def __init__(self, where, name, head, clauses, body):
        self.where, self.name, self.head, self.clauses, self.body = where, name, head, clauses, body


def functions(name, lines):
    """Each function with its head (to its result), its clauses and its body's lines."""
    i = 0
    while i < len(lines):
        m = re.match(r'(\s*)(?:pub(?:\(crate\))? )?(?:final )?(?:const )?fn (\w+)', lines[i])
        if not m or m.group(1) == '' and False:
            i += 1
            continue
        indent, start, head, clauses = m.group(1), i, '', []
        while i < len(lines):
            line = lines[i]
            opens = line == indent + '{' or line.startswith(indent) and not line.startswith(indent + ' ') and line.endswith('{')
            if re.match(r'\s*(requires|ensures)', line):
                clauses.append(line.strip())
            elif not opens or line != indent + '{':
                head += ' ' + line.strip()
            if opens or line.rstrip().endswith(';') or re.match(r'\s*ensures.*};$', line):
                break
            i += 1
        body = []
        if i < len(lines) and not lines[i].rstrip().endswith(';'):
            i += 1
            while i < len(lines) and lines[i] != indent + '}':
                body.append(lines[i])
                i += 1
        yield Function(f'{name}:{start + 1}', m.group(2), head.strip(), clauses, body)
        i += 1


FUNCTIONS = [f for n, lines in SOURCES for f in functions(n, lines)]


def matching(pattern):
    return [(f'{n}:{i + 1}', line.strip()) for n, lines in SOURCES for i, line in enumerate(lines)
            if re.search(pattern, line) and not line.strip().startswith('//')]


def report(title, found):
    print(f'{len(found):4}  {title}')
    if not COUNTS_ONLY:
        for where, what in found:
            print(f'        {where}  {what[:110]}')


def enums():
    for name, lines in SOURCES:
        for i, line in enumerate(lines):
            m = re.match(r'(?:pub(?:\(crate\))? )?enum (\w+)', line)
            if m:
                end = next(j for j in range(i, len(lines)) if lines[j] == '}')
                variants = [v.strip() for v in lines[i + 1:end] if re.match(r'    [A-Z]', v)]
                yield f'{name}:{i + 1}', m.group(1), lines[i - 1], variants


def structs():
    for name, lines in SOURCES:
        for i, line in enumerate(lines):
            m = re.match(r'(?:pub(?:\(crate\))? )?struct (\w+).*{$', line)
            if m:
                end = next(j for j in range(i, len(lines)) if lines[j] == '}')
                fields = [re.match(r'    (?:pub(?:\(crate\))? )?(\w+): (.*),$', v) for v in lines[i + 1:end]]
                yield f'{name}:{i + 1}', m.group(1), [f.groups() for f in fields if f and f.group(1) != 'ghost']


def point_1():
    print('1. Shapes of Option and Result, flags beside values, numbers for kinds and refusals')
    report('functions that answer a number for a kind or a refusal, or take one',
           [(f.where, f.head) for f in FUNCTIONS if f.name in ('number', 'code', 'from_number', 'from_code')])
    report('fields and parameters that hold the number of a kind, a type, a rule or a refusal',
           matching(r'\b(kind|rule|number|code|from|to): u(8|32)\b'))
    report('functions that answer a flag and change what they are lent',
           [(f.where, f.head) for f in FUNCTIONS if '&mut' in f.head and f.head.endswith('-> bool')])
    report('functions that answer one of their bounds where there is nothing to find, or a made-up value',
           [(f.where, f.head) for f in FUNCTIONS if any(re.match(r' {4,8}(end|\w+\.len\(\))$', b) for b in f.body[-1:])
            or any('from: 0,' in b for b in f.body)])
    report('enums that derive no equality', [(w, n) for w, n, d, v in enums() if 'PartialEq' not in d])
    report('enums of two cases, and with a value in one', [(w, n) for w, n, d, v in enums() if len(v) == 2])


def shape(body):
    text = ' '.join(line.strip() for line in body if not line.strip().startswith('//'))
    text = re.sub(r'"[^"]*"|b\'.\'|\d\w*', '0', text)
    return re.sub(r'[A-Za-z_]\w*', lambda m: m.group() if m.group() in KEYWORDS else 'x', text)


KEYWORDS = {'match', 'if', 'else', 'for', 'in', 'while', 'let', 'mut', 'return', 'Some', 'None', 'Ok', 'Err'}


def point_2():
    print('2. Twins')
    groups = defaultdict(list)
    for f in FUNCTIONS:
        if len(shape(f.body)) > 24:
            groups[shape(f.body)].append(f)
    report('functions whose bodies differ in names and numbers only',
           [(f.where, f.head) for g in groups.values() if len(g) > 1 for f in g])
    alike = defaultdict(list)
    for where, name, fields in structs():
        if fields:
            alike[tuple(n for n, t in fields)].append((where, name))
    report('structs with the same fields', [s for g in alike.values() if len(g) > 1 for s in g])
    names = defaultdict(list)
    for where, name, derives, variants in enums():
        names[name].append((where, name))
    report('enums of one name', [s for g in names.values() if len(g) > 1 for s in g])


def point_3():
    print('3. Loops that count by hand')
    report('while', matching(r'^\s*while '))
    report('for over a range of numbers', matching(r'^\s*for \w+ in .*\.\.'))
    report('for with an index beside the item', matching(r'^\s*for .*enumerate\(\)'))
    report('for that fills a list or a text item by item, or searches',
           [(f.where, f.head) for f in FUNCTIONS
            if any(re.match(r'\s*for (?!.*(\.\.|enumerate))', b) for b in f.body)])


def point_4():
    print('4. Equality, order, copying, conversion and printing by hand')
    report('conversions', [(f.where, f.head) for f in FUNCTIONS if re.fullmatch(
        r'number|code|name|from_\w+|to_bytes|carried|read_as|tells|kind_name|reason|event_of|rule_setting|into_pattern|parse|symbol|symbol_of|text_of', f.name)])
    report('equality and order', [(f.where, f.head) for f in FUNCTIONS if re.fullmatch(
        r'is_name|names|is_plus|ends_in_plus|lesser|join', f.name) and f.body])
    report('printing', [(f.where, f.head) for f in FUNCTIONS if 'String' in f.head and not f.name.startswith('main')])


def point_5():
    print('5. Facts and parameters that go together')
    clauses = Counter()
    for f in FUNCTIONS:
        for c in f.clauses:
            m = re.match(r'(?:requires|ensures)(?: \w+)? (\{.*)', c)
            if m and 'result ≡ 0' not in c:
                clauses[m.group(1)] += 1
    report('clauses in three contracts or more', [(str(n), c) for c, n in clauses.most_common() if n >= 3])
    pairs = Counter()
    for f in FUNCTIONS:
        m = re.search(r'\((.*)\)', f.head)
        names = re.findall(r'(\w+): ', m.group(1)) if m else []
        for a, b in {(a, b) for i, a in enumerate(names) for b in names[i + 1:]}:
            pairs[a, b] += 1
    report('pairs of parameters of three functions or more', [(str(n), f'{a}, {b}') for (a, b), n in pairs.most_common() if n >= 3])


def point_6():
    print('6. Buffers, parallel arrays, indices')
    report('arrays of a fixed size in types', matching(r'(: |-> \(?|&mut )\[(T|u8|bool|Node|Pair); (N|\d+)\]'))
    report('a length or a place kept as a field beside a buffer',
           [(w, n) for w, n, fields in structs() if any(t == 'usize' for _, t in fields)
            and any(t.startswith('[') or t.startswith('&') for _, t in fields)])
    report('arrays that are made', matching(r'\[(0|false|fill|true|Node::\w+(\(\w+\))?); (N|\d+|CHUNK)\]'))
    report('parallel slices', [(f.where, f.head) for f in FUNCTIONS if f.head.count('[') > 1 and re.search(r'events|older', f.head)])


def point_7():
    print('7. Switches on a step')
    found = []
    for f in FUNCTIONS:
        arms = [b.strip() for b in f.body if re.match(r'\s+[\w:(), |]+ => (self\.)?\w+\(.*\)\??,$', b)]
        if len(arms) > 2:
            found.append((f.where, f.head))
    report('functions with three arms or more that each call one', found)
    report('tables of functions and boxed closures', matching(r'\bdyn |Box<|: fn\(|&fn\('))


def point_8():
    print('8. Proofs')
    total = Counter()
    for name, text in files('/proofs/'):
        total[name.split('/')[1]] += text.count('\n')
    report('crates with proofs of their own, with their lines', [(str(n), c) for c, n in sorted(total.items())])
    print(f'{sum(total.values()):4}  lines of proofs in all')
    answers = [(n, f'{t.count(chr(10))} lines') for n, t in files('/proofs/') if n.endswith('Answers.antt')]
    report('files of answers', answers)


for point in (point_1, point_2, point_3, point_4, point_5, point_6, point_7, point_8):
    point()
