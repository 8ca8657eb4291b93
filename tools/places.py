#!/usr/bin/env python3
"""Counts, in crates/*/src, the places that could be written in a plainer form, by the points of docs/DESIGN-PASS.md.

usage: tools/places.py [-v]       -v names each place
It goes by text: what it names is a candidate, and the page says of each what became of it."""
import collections, glob, os, re, sys

os.chdir(os.path.join(os.path.dirname(os.path.abspath(__file__)), '..'))
verbose = '-v' in sys.argv[1:]


def code(path):
    """The text of a file without comments and strings."""
    text = open(path, encoding='utf-8').read()
    text = re.sub(r'//[^\n]*', '', text)
    return re.sub(r'b?"(\\.|[^"\\])*"', '""', text)


def block(text, at):
    """From the brace at `at` to the one that closes it."""
    depth = 0
    for i in range(at, len(text)):
        depth += {'{': 1, '}': -1}.get(text[i], 0)
        if depth == 0:
            return text[at:i + 1]
    return text[at:]


def parts(text):
    """What stands between the commas outside of brackets."""
    out, depth, start = [], 0, 0
    for i, c in enumerate(text):
        depth += (c in '([{<') - (c in ')]}' or (c == '>' and text[i - 1] not in '-='))
        if c == ',' and depth == 0:
            out.append(text[start:i].strip())
            start = i + 1
    return [p for p in out + [text[start:].strip()] if p]


files = sorted(glob.glob('crates/*/src/**/*.rt', recursive=True))
texts = {f: code(f) for f in files}


class Fn:
    def __init__(self, file, name, params, clauses, body, span):
        self.file, self.name, self.params, self.clauses, self.body, self.span = file, name, params, clauses, body, span
        self.place = f"{file[7:].replace('/src', '').replace('.rt', '')}: {name}"


def functions():
    for f, t in texts.items():
        for m in re.finditer(r'\bfn (\w+)\s*(<[^(]*>)?\(', t):
            depth, i = 1, m.end()
            while depth:
                depth += {'(': 1, ')': -1}.get(t[i], 0)
                i += 1
            params = [tuple(x.strip() for x in p.split(':', 1)) for p in parts(t[m.end():i - 1]) if ':' in p]
            clauses, rest = [], t[i:]
            k = re.match(r'(?:\[[^\]]*\]|[^{;\[])*?(?=\s(requires|ensures)\b|\{|;)', rest).end()
            while True:
                c = re.match(r'\s*(requires|ensures)\s*\w*\s*', rest[k:])
                if not c:
                    break
                b = block(rest, k + c.end())
                clauses.append((c.group(1), ' '.join(b[1:-1].split())))
                k += c.end() + len(b)
            b = re.match(r'\s*(\{|;)', rest[k:])
            if b and b.group(1) == '{':
                yield Fn(f, m.group(1), params, clauses, block(rest, k + b.end() - 1), (m.start(), i + k))


fns = list(functions())
found = collections.OrderedDict()


def row(key, what, places):
    found[key] = (what, list(places))


def coded(name, kind):
    return name == 'slot' or bool(re.match(r'(number|refusal|kind|stage|about|ending|base|exception)$', name) and re.match(r'u(8|16|32)$', kind))


# 1
enums, codes, flags = [], [], []
for f, t in texts.items():
    where = f[7:].replace('/src', '').replace('.rt', '')
    for m in re.finditer(r'\benum (\w+)[^{]*\{', t):
        vs = parts(block(t, m.end() - 1)[1:-1])
        full = [v for v in vs if re.search(r'[({]', v)]
        if (len(vs) == 2 and full) or (len(vs) == 3 and full and len(full) < 3) or any(v.startswith('Refused') for v in vs):
            enums.append(f'{where}: enum {m.group(1)}')
    for m in re.finditer(r'\bstruct (\w+)[^{;(]*\{', t):
        for p in parts(block(t, m.end() - 1)[1:-1]):
            name, _, kind = re.sub(r'^pub(\(crate\))? ', '', p).partition(':')
            if kind.strip() == 'bool':
                flags.append(f'{where}: {m.group(1)}.{name}')
            if coded(name, kind.strip()):
                codes.append(f'{where}: {m.group(1)}.{name}')
    for fn in (g for g in fns if g.file == f):
        for name, kind in fn.params:
            if coded(name, kind):
                codes.append(f'{where}: {fn.name}({name})')
row('1a', 'own enums of the shape of Option or Result', enums)
row('1b', 'flags with a value beside them (bool fields)', flags)
row('1c', 'numbers for kinds or refusals (fields and parameters)', codes)

# 2
shapes = collections.defaultdict(list)
for fn in fns:
    tokens = re.findall(r'\w+|[^\s\w]', fn.body)
    keep = {'if', 'else', 'while', 'for', 'in', 'match', 'let', 'mut', 'return', 'loop', 'as', 'true', 'false'}
    norm = ' '.join(t if t in keep or not re.match(r'\w', t) else 'x' for t in tokens)
    if len(tokens) >= 25:
        shapes[norm].append(fn.place)
row('2', 'functions whose bodies are the same but for names and numbers', [' = '.join(v) for v in shapes.values() if len(v) > 1])

# 3
row('3', 'loops that are no `for` (while, loop)', [fn.place for fn in fns for _ in re.findall(r'\b(?:while|loop)\b', fn.body)])

# 4
names = r'(\w+_of_(byte|word|size|u32)|same\w*|least|copy_\w+|is_found|is_at|is_nothing|said_number|base_number|const_base|word_base|(show|print)_\w+|digit|byte|zero_from|clear|word_at|number_at|byte_at)$'
row('4', 'equality, order, copying, conversion and printing by hand', [fn.place for fn in fns if re.match(names, fn.name) and not fn.file.startswith('crates/bridge_c')])

# 5
facts = collections.defaultdict(list)
for fn in fns:
    for kind, text in fn.clauses:
        if kind == 'requires':
            facts[text].append(fn.place)
row('5a', 'facts that the clauses of three or more functions ask', [f'{t}  ({len(v)})' for t, v in facts.items() if len(v) > 2])
row('5b', 'functions with six parameters or more', [f'{fn.place} ({len(fn.params)})' for fn in fns if len(fn.params) > 5])

# 6
row('6a', 'buffers with a place or a length beside them', [fn.place for fn in fns if any('mut [' in k for n, k in fn.params) and any(n in ('at', 'len', 'size', 'end', 'room', 'n', 'last') and k == 'usize' for n, k in fn.params)])
pairs = []
for f, t in texts.items():
    for m in re.finditer(r'\bstruct (\w+)[^{;(]*\{', t):
        kinds = re.findall(r'\[\w+; (\w+)\]', block(t, m.end() - 1))
        if len(kinds) > len(set(kinds)):
            pairs.append(f"{f[7:].replace('/src', '').replace('.rt', '')}: {m.group(1)}")
row('6b', 'parallel arrays', pairs)

# 7
row('7', 'a flag handed over that says which way to go (bool parameters)', [f'{fn.place}({n})' for fn in fns for n, k in fn.params if k == 'bool'])

# 8
answers = sum(len(re.findall(r'^pub \S+ : goal\.', open(p, encoding='utf-8').read(), re.M)) for p in glob.glob('crates/*/proofs/**/Answers.antt', recursive=True))
lines = sum(sum(1 for _ in open(p, encoding='utf-8')) for p in glob.glob('crates/*/proofs/**/*.antt', recursive=True))

for key, (what, places) in found.items():
    print(f'{key:3} {len(places):4}  {what}')
    if verbose:
        for p in places:
            print('         ', p)
print(f'8   {answers:4}  answers of goals in proofs/ ({lines} lines of proofs in all)')
