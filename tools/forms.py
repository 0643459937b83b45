#!/usr/bin/env python3
"""Lists the older forms that stand in crates/*/src: `tools/forms.py [POINT]`, at the top of a checkout.

A line for each place, FILE:LINE NAME, under the number of its point, and at the end the count of each. It reads text,
and no types: what it names is to be judged by a reader, and docs/DESIGN-PASS.md does."""
import collections, glob, re, sys

INT = r'(?:u8|u16|u32|u64|usize|i32|i64)'
places = collections.defaultdict(list)


def place(point, file, line, name):
    places[point].append((file, line, name))


def code_of(text):
    """Comments and ghost lines go, and each line keeps its number."""
    return [re.sub(r'//.*', '', line) if not re.match(r'\s*ghost use', line) else '' for line in text.split('\n')]


def blocks(lines, opens):
    """Each item that begins with a line of that form: its first line, its name, and its lines up to its closing brace."""
    for i, line in enumerate(lines):
        found = re.match(opens, line)
        if not found:
            continue
        depth = 0
        begun = False
        for j in range(i, len(lines)):
            bare = re.sub(r"b?'(\\.|[^'\\])'|b?\"(\\.|[^\"\\])*\"", '0', lines[j])
            # The braces of a clause stand on lines of their own.
            clause = re.match(r'\s*(requires|ensures)\b', bare)
            depth += 0 if clause else bare.count('{') - bare.count('}')
            begun = begun or (not clause and '{' in bare)
            if begun and depth == 0:
                yield i, found.group(1), lines[i:j + 1]
                break


def split_fn(lines):
    """The head, the clauses and the body of a function."""
    head, clauses, body, where = [], [], [], 0
    for line in lines:
        if where < 2 and re.match(r'\s*(requires|ensures)\b', line):
            clauses.append(line.strip())
            where = 1
        elif where == 0 and not line.rstrip().endswith('{'):
            head.append(line)
        elif where == 0:
            head.append(line.rstrip()[:-1])
            where = 2
        else:
            where = 2
            body.append(line)
    return ' '.join(head), clauses, [line for line in body if line.strip() not in ('', '{')]


def shape(head, body):
    """A body with its types, its numbers and the names of its parameters taken out."""
    text = ' '.join(part.strip() for part in body)
    names = re.findall(r'(\w+):', head)
    for k, name in enumerate(names):
        text = re.sub(r'\b%s\b' % name, 'p%d' % k, text)
    text = re.sub(r'\b(0x[0-9A-Fa-f]+|\d+)(?:%s)?\b' % INT, 'N', text)
    return re.sub(r'\b%s\b' % INT, 'T', text)


def variants(lines):
    inner = ' '.join(lines)
    inner = inner[inner.index('{') + 1:inner.rindex('}')]
    inner = re.sub(r'\{[^{}]*\}', '(..)', inner)
    return [v.strip() for v in re.split(r',(?![^()]*\))', inner) if v.strip()]


shapes = collections.defaultdict(list)
facts = collections.defaultdict(list)
together = collections.defaultdict(list)
NONE = r'(Nothing|None|Unknown|Unseen|Missing|Nobody|Refused)\b'
CODES = r'(number|said|fits|found|failed|ended|more|unread|unwritten|all|types|clock|other_make)'

for file in sorted(glob.glob('crates/*/src/*.rt')):
    lines = code_of(open(file).read())
    for i, name, body in blocks(lines, r'\s*(?:pub )?enum (\w+)'):
        vs = variants(body)
        full = [v for v in vs if '(' in v]
        # 1: one variant alone has a value, or one says that there is none.
        if (len(vs) > 1 and len(full) == 1) or any(re.match(NONE, v) for v in vs):
            place('1', file, i, 'enum ' + name)
    for i, name, body in blocks(lines, r'\s*(?:pub )?struct (\w+)'):
        for k, line in enumerate(body):
            # 1: a flag, or a number for a kind, beside the values of a struct.
            if re.match(r'\s*(?:pub )?(\w*_)?%s: (bool|%s)' % (CODES, INT), line):
                place('1', file, i + k, 'struct %s, %s' % (name, line.strip()))
            # 6: a buffer beside its length, a place in a buffer that lies elsewhere, an array in a struct.
            if re.match(r'\s*(?:pub )?\w+: \[', line) or re.match(r'\s*(?:pub )?(len|end): usize', line):
                place('6', file, i + k, 'struct %s, %s' % (name, line.strip()))
    for i, name, text in blocks(lines, r'\s*(?:pub(?:\(crate\))? )?(?:extern "C" )?fn (\w+)'):
        head, clauses, body = split_fn(text)
        whole = ' '.join(part.strip() for part in body)
        # 1: a number for a kind or a refusal comes in or goes out.
        if re.search(r'\b(number|kind|sensor_type|other_make): %s' % INT, head) or (
                re.search(r'number', name) and re.search(r'-> %s' % INT, head)):
            place('1', file, i, 'fn ' + name)
        # 3: a loop that goes by a number of its own.
        for k, line in enumerate(text):
            if re.match(r"\s*('\w+: )?while (?!let)", line):
                place('3', file, i + k, 'fn %s, %s' % (name, line.strip()))
        # 4: least, greatest, less and their like; each variant's value, one by one; fields compared one by one.
        if re.search(r'^if [^{}]* [<>]=? [^{}]* \{ [^{}]* \} else \{ [^{}]* \}( \})?$', whole) or (
                re.match(r'^match \w+ \{ (\w+::\w+(\([^)]*\)|\s*\{[^}]*\})? => (true|false|\d+), )+\} \}$', whole)) or (
                re.search(r'% 256\) as u8', whole)):
            place('4', file, i, 'fn ' + name)
        # 2: functions that are one and the same but for types, numbers and names.
        if len(whole) > 8:
            shapes[shape(head, body)].append((file, i, name))
        # 5: what the clauses of three functions say, and what comes in together three times.
        for clause in clauses:
            for fact in re.split(r'[×&]{1,2}', re.sub(r'^\w+\s*\w*\s*\{|\}$', '', clause)):
                fact = re.sub(r'[()\s]+', ' ', fact).strip()
                if fact and 'result ≡' not in fact:
                    facts[re.sub(r'\b[a-z_]+\.(?=old|now|new)', '', fact)].append((file, i, name))
        params = re.findall(r'(\w+): (&?(?:mut )?[\w:<>\[\]]+)', head[head.index('('):])
        for a in range(len(params)):
            for b in range(a + 1, len(params)):
                together[(params[a], params[b])].append((file, i, name))
        # 7: what is to be done comes in as a number or an enum of steps, or as a pointer.
        if re.search(r'\bfn\(', head) or re.search(r': \[fn|match (step|which|op)\b', whole):
            place('7', file, i, 'fn ' + name)

for same in shapes.values():
    if len(same) > 1:
        for file, i, name in same:
            place('2', file, i, 'fn %s (%s)' % (name, ', '.join(sorted({n for _, _, n in same}))))
for fact, where in facts.items():
    if len({(f, n) for f, _, n in where}) > 2:
        file, i, name = where[0]
        place('5', file, i, '%d clauses: %s' % (len(where), fact))
for (a, b), where in together.items():
    crates = collections.Counter(f.split('/')[1] for f, _, _ in where)
    crate, count = crates.most_common(1)[0]
    if count > 3:
        file, i, name = where[0]
        place('5', file, i, '%d functions of %s: %s, %s' % (count, crate, ': '.join(a), ': '.join(b)))

for point in sorted(places):
    if len(sys.argv) < 2 or sys.argv[1] == point:
        for file, i, name in sorted(places[point]):
            print('%s  %s:%d  %s' % (point, file, i + 1, name))
print(' '.join('%s:%d' % (point, len(places[point])) for point in sorted(places)))
