#!/usr/bin/env python3
# Counts the places that docs/DESIGN-PASS.md speaks of, in crates/*/src below the folder given (default: here); with -v each by its name.
import collections, pathlib, re, sys

verbose = '-v' in sys.argv
top = pathlib.Path([a for a in sys.argv[1:] if a != '-v'][0] if [a for a in sys.argv[1:] if a != '-v'] else '.')
files = sorted(top.glob('crates/*/src/**/*.rt'))


def say(point, what, found):
    print(f'{point}  {len(found):4}  {what}')
    for name in found if verbose else []:
        print('            ' + name)


def functions(text):
    """Each function as (name, head, body): the head has parameters, result and clauses."""
    lines, i, found = text.split('\n'), 0, []
    while i < len(lines):
        m = re.match(r'^( *)(?:pub(?:\(\w+\))? )?(?:unsafe )?(?:extern "C" )?fn (\w+)', lines[i])
        if not m:
            i += 1
            continue
        indent, j = m.group(1), i
        while not (lines[j] == indent + '{' or lines[j] == indent + '{}' or (lines[j].endswith('{') and 'ensures' not in lines[j] and 'requires' not in lines[j]) or lines[j].endswith(';')):
            j += 1
        k = j
        if lines[j].endswith('{'):
            while lines[k] != indent + '}':
                k += 1
        found.append((m.group(2), '\n'.join(lines[i:j + 1]), '\n'.join(lines[j + 1:k])))
        i = k + 1
    return found


everything = []
for path in files:
    where = str(path.relative_to(top / 'crates')).replace('/src', '').replace('.rt', '')
    for name, head, body in functions(path.read_text()):
        everything.append((where + '::' + name, name, head, body))

# ---- 1: enums of two cases of which one holds a value; numbers or flags that stand beside a value; functions that give a number for a refusal
pairs, flags = [], []
for path in files:
    text = path.read_text()
    where = str(path.relative_to(top / 'crates')).replace('/src', '').replace('.rt', '')
    for name, inside in re.findall(r'enum (\w+)[^{\n]*\{\n(.*?)\n\}', text, re.S):
        cases = [c for c in re.findall(r'^    (\w+(?:\(.*\))?)', inside, re.M)]
        if len(cases) == 2 and any('(' in c for c in cases):
            pairs.append(f'{where}::{name}')
    for name, inside in re.findall(r'struct (\w+)[^{\n]*\{\n(.*?)\n\}', text, re.S):
        for field in re.findall(r'^    (?:pub )?(number|refusal|firm): (?:u32|usize|bool)', inside, re.M):
            flags.append(f'{where}::{name}.{field}')
numbers = [n for n, _, head, _ in everything if re.search(r'\) -> u32', head) and re.search(r'efusal|sizes|Judged|Sited|Twins|bad\b|range', head.split('ensures')[-1])
           or re.search(r'\) -> u32', head) and re.search(r' when | otherwise ', head)]
say('1a', 'enums of two cases, one of them with a value', pairs)
say('1b', 'fields that say whether the value beside them counts, or why not', flags)
say('1c', 'functions whose result is a refusal\'s number, or 0', numbers)

# ---- 2: functions, and structs, that are alike but for types, sizes and constants
suffix = r'_(?:256|2048|4096|most|many|wide|words|word|bits|bytes)\b'
groups = collections.defaultdict(list)


def plain(text):
    text = re.sub(r'//.*', '', text)
    text = re.sub(suffix, '', text)
    text = re.sub(r'\b(?:fill|stretch|value|bit|wide|larger|input|file)\b', 'f', text)
    text = re.sub(r'\b(words|bytes|word|byte)\b', 'b', text)
    text = re.sub(r'\b(?:[ui](?:8|16|32|64)|usize)\b', 'T', text)
    text = re.sub(r'\b(?:Wheel::MOST_TICKS|FEW_LATE|LATE_EDGES|FEW_EDGES|MOST_EDGES|most_ticks|few_edges|most_edges|byte_end|word_end|\d+)\b', 'N', text)
    return re.sub(r'\s+', ' ', text)


for full, name, head, body in everything:
    if len(body.split('\n')) < 1 or not body.strip():
        continue
    short = re.sub(r'\bfn \w+', 'fn', re.sub(r'^ *pub ', '', head.split('requires')[0].split('ensures')[0]))
    groups[plain(short) + plain(body)].append(full)
twins = [' = '.join(g) for g in groups.values() if len(g) > 1]
shapes = collections.defaultdict(list)
for path in files:
    where = str(path.relative_to(top / 'crates')).replace('/src', '').replace('.rt', '')
    for name, inside in re.findall(r'struct (\w+) \{\n(.*?)\n\}', path.read_text(), re.S):
        shapes[where.split('/')[0] + re.sub(r': .*', '', re.sub(r'//.*', '', inside))].append(f'{where}::{name}')
alike = [' = '.join(s) for s in shapes.values() if len(s) > 1]
say('2a', 'sets of functions that differ in a type, a size or a constant', twins)
print(f'      {sum(t.count(" = ") + 1 for t in twins):4}  functions in them')
say('2c', 'functions that lend an array in two sizes by hand', [n for n, _, _, body in everything if re.search(r'let mut few = ', body)])
say('2b', 'sets of structs with the same fields of other types', alike)
print(f'      {sum(t.count(" = ") + 1 for t in alike):4}  structs in them')

# ---- 3: `while` loops whose condition counts a variable that the body moves on by hand
counted, other = [], []
for full, name, head, body in everything:
    lines = body.split('\n')
    for i, line in enumerate(lines):
        m = re.match(r"^( *)(?:'\w+: )?while (.*) \{$", line)
        if not m:
            continue
        j = i + 1
        while lines[j] != m.group(1) + '}':
            j += 1
        inside = '\n'.join(lines[i + 1:j])
        moved = [v for v in re.findall(r'\b[a-z]\w*\b', m.group(2)) if re.search(rf'^ *{v} (?:\+=|-=|= {v} \+) ?(?:\d+|n|k - i)', inside, re.M) or re.search(rf'^ *{v} = (?:end|to|past\(|found\.at)', inside, re.M)]
        (counted if moved else other).append(full + ': while ' + m.group(2))
say('3a', 'loops that count an index by hand', counted)
say('3b', 'other `while` loops', other)

# ---- 4: written by hand: casts as functions, larger and smaller, bytes and numbers, digits and signs
casts = [n for n, _, _, body in everything if re.fullmatch(r' *\w+ as \w+', body.strip('\n'))]
choice = [n for n, _, head, body in everything if re.fullmatch(r' *if (\w+) < (\w+) \{ (\1|\2) \} else \{ (\1|\2) \}', body.strip('\n'))]
bits = [n for n, _, _, body in everything if re.search(r'if \w+ (?:== 1|) ?\{ 1 \} else \{ 0 \}|if \w+ \{ 1 \} else \{ 0 \}', body)]
bytes_ = [n for n, _, _, body in everything if re.search(r'% 256\)|256 \* |/ 256', body)]
digits = [n for n, _, _, body in everything if re.search(r'48 \+|- 48|2147483648|4294967296 -|- 4294967296|\+ 4294967296', body)]
say('4a', 'casts as functions', casts)
say('4b', 'the larger or the smaller of two by hand', choice)
say('4c', 'a test as 1 or 0 by hand', bits)
say('4d', 'numbers taken from bytes, or put into them, by arithmetic', bytes_)
say('4e', 'digits and signs by hand', digits)

# ---- 5: facts in the `requires` of three functions or more; three parameters or more that travel together through three or more
facts = collections.defaultdict(set)
runs = collections.defaultdict(set)
for full, name, head, body in everything:
    for clause in re.findall(r'requires \w* ?\{(.*)\}', head):
        for fact in clause.split(' × '):
            word = re.match(r'^[ (]*([A-Z]\w+)', fact)
            facts[word.group(1) if word else re.sub(r'[ ()]', '', fact)].add(full)
    taken = re.findall(r'(\w+): (&mut \[\w+\]|&\[\w+\]|\w+)', head.split(') ->')[0].split('requires')[0])
    for n in range(3, len(taken) + 1):
        for i in range(len(taken) - n + 1):
            runs[', '.join(f'{a}: {b}' for a, b in taken[i:i + n])].add(full)
often = [f'{fact}: {len(who)}' for fact, who in sorted(facts.items(), key=lambda x: -len(x[1])) if len(who) >= 3]
longest = {r: w for r, w in runs.items() if len(w) >= 3}
longest = [f'{r}: {len(w)}' for r, w in longest.items() if not any(r != s and r in s and w <= longest[s] for s in longest)]
say('5a', 'facts in the `requires` of three functions or more', often)
say('5b', 'three parameters or more that travel together through three functions or more', sorted(longest, key=lambda x: -int(x.split(': ')[-1])))

# ---- 6: a buffer with how much of it counts, or a place in it, beside it
beside = [n for n, _, head, _ in everything if re.search(r'&mut \[', head.split('ensures')[0]) and re.search(r'\b(?:n|at|seen|done): usize', head.split('requires')[0])]
say('6', 'functions that take a buffer and a number of its entries beside it', beside)

# ---- 7: an enum that says which step to run
switch = [n for n, _, head, _ in everything if re.search(r'\bask: Ask\b', head)]
say('7', 'functions that take which question to answer', switch)

# ---- 8: proofs
proofs = sorted(top.glob('crates/*/proofs/**/*.antt'))
for kind in ('Invariants.antt', 'Answers.antt', 'Proof.antt', None):
    some = [p for p in proofs if (p.name == kind if kind else p.name not in ('Invariants.antt', 'Answers.antt', 'Proof.antt', 'Lib.antt'))]
    print(f'8   {len(some):4}  {kind or "files of lemmas"}, {sum(len(p.read_text().splitlines()) for p in some)} lines')
