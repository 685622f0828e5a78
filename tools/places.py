#!/usr/bin/env python3
"""A second count, by other patterns than tools/forms.py: usage places.py TREE [--list]"""
import collections, glob, os, re, sys
tree = sys.argv[1]; listing = '--list' in sys.argv
KEY = set('if else while for in return match let mut true false as loop break continue self fn const usize u8 u16 u32 u64 bool Some None Ok Err'.split())
files = {}
for p in sorted(glob.glob(tree + '/crates/*/src/*.rt')):
    files[p[len(tree) + 1:]] = open(p).read()
def strip(t): return re.sub(r'//[^\n]*', '', t)
P = collections.defaultdict(list)
def where(p, t, i): return f"{p.split('/')[1]}/{os.path.basename(p)}:{t.count(chr(10), 0, i) + 1}"
fns = []
for p, t in files.items():
    for m in re.finditer(r'^( *)(pub )?(?:final )?(?:extern "C" )?fn (\w+)', t, re.M):
        rest = t[m.start():]
        b = re.search(r'^' + m.group(1) + r'\{$|\{$', rest, re.M); e = re.search(r'^' + m.group(1) + r'\}$', rest, re.M)
        if not b or not e: continue
        head, body = rest[:b.start()], rest[b.end():e.start()]
        c = re.search(r'^\s*(requires|ensures)', head, re.M)
        before = t[:m.start()].rstrip().split('\n'); doc = ''
        for l in reversed(before):
            if l.strip().startswith('//') or l.strip().startswith('#['): doc = l.strip() + ' ' + doc
            else: break
        fns.append(dict(p=p, at=where(p, t, m.start()), name=m.group(3), sig=head[:c.start()] if c else head, clauses=head[c.start():] if c else '', body=body, doc=doc))
name = lambda f: f"{f['p'].split('/')[1]}::{f['name']}"
# 1
for f in fns:
    if re.search(r'-> (usize|u8|u16|u32|u64)\b', f['sig']):
        body = strip(f['body'])
        lits = re.findall(r'(?:return |=> |^\s+)(\d+)(?:;|,|\n|$)', body, re.M)
        if lits: P['1a number answered as a literal (a sentinel, or a table)'].append(f"{name(f)} {sorted(set(lits))}")
    for m in re.finditer(r'(?:== 0|!= 0|== 4|< 5|0 <)(?=[ ;)]|$)', strip(f['body'])):
        line = f['body'][:].split('\n')
    hits = [l.strip() for l in strip(f['body']).split('\n') if re.search(r'\b\w+(?:\.\w+)* (?:==|!=) [045]\b|\b0 < \w|< 5\b', l)]
    for h in hits: P['1b a test of a number against 0, 4 or 5'].append(f"{name(f)}: {h}")
    if re.search(r'-> \(', f['sig']): P['1c a tuple answered'].append(name(f))
    bools = re.findall(r'(\w+): bool', f['sig'])
    if len(bools): P['1d a function with a bool parameter'].append(f"{name(f)} {bools}")
    for m in re.finditer(r'\w+\((?:[^()]|\([^()]*\))*?(?<![\w.])(\d+),', strip(f['body'])):
        if re.search(r'notify|notice', m.group(0)): P['1e a literal number passed to a writer of notices'].append(f"{name(f)}: {m.group(0)[:50]}")
for p, t in files.items():
    for m in re.finditer(r'^(?:pub )?enum (\w+)[^{]*\{(.*?)^\}', t, re.M | re.S):
        vs = re.findall(r'^    (\w+)(.*?),?$', strip(m.group(2)), re.M)
        if any(re.fullmatch(r'None|Empty|Nothing|Missing|Unasked|No\w*|Un\w+', v) for v, _ in vs): P['1f an enum with a case that is named as none'].append(f"{p.split('/')[1]}::{m.group(1)} {[v for v, _ in vs]}")
    for m in re.finditer(r'^(?:pub )?struct (\w+)[^{;(]*\{(.*?)^\}', t, re.M | re.S):
        fields = re.findall(r'^\s+(?:pub )?(\w+): ([^\n]+),$', strip(m.group(2)), re.M)
        if any(ty == 'bool' for _, ty in fields): P['1g a struct with a bool field'].append(f"{p.split('/')[1]}::{m.group(1)} {[n for n, ty in fields if ty == 'bool']}")
        if any(ty.startswith('[') for _, ty in fields) and any(n in ('count', 'len', 'columns', 'active') for n, _ in fields): P['6a a struct of an array with a length beside'].append(f"{p.split('/')[1]}::{m.group(1)}")
# 2
shapes = collections.defaultdict(list)
for f in fns:
    toks = re.findall(r"b?'(?:\\.|[^'])'|b?\"(?:\\.|[^\"])*\"|\w+|[^\s\w]", strip(f['body']))
    names = {}
    out = []
    for t in toks:
        if re.match(r'[A-Za-z_]\w*$', t) and t not in KEY: out.append('n%d' % names.setdefault(t, len(names)))
        elif re.match(r"\d|b?['\"]", t): out.append('#')
        else: out.append(t)
    if len(out) >= 12: shapes[' '.join(out)].append(name(f))
for s, g in shapes.items():
    if len(g) > 1: P['2a functions whose bodies are one body with other names (12 tokens or more)'].append(', '.join(g))
for f in fns:
    if re.fullmatch(r'\w+_(?:\d+|of|at|part|by|one|two|three)', f['name']):
        stem = f['name'].rsplit('_', 1)[0]
        if any(g['name'] == stem and g['p'].split('/')[1] == f['p'].split('/')[1] for g in fns): P['2b a function named by another and a suffix'].append(name(f))
    lines = [l.strip() for l in strip(f['body']).split('\n') if l.strip()]
    if len(lines) == 1 and re.fullmatch(r'[\w:.]+\((?:&?(?:mut )?[\w.\[\]:]+(?:, )?)*\)', lines[0]): P['2c a function that only calls another with its own words'].append(f"{name(f)}: {lines[0]}")
# 3
for p, t in files.items():
    s = strip(t)
    for i, l in enumerate(t.split('\n'), 1):
        c = re.sub(r'//.*', '', l)
        w = f"{p.split('/')[1]}/{os.path.basename(p)}:{i}"
        if re.search(r'\bwhile\b|\bloop\b', c): P['3a while or loop'].append(f"{w} {c.strip()}")
        if re.search(r'\bfor (\w+) in [\w.()]+\.\.', c): P['3b for over a range of numbers'].append(f"{w} {c.strip()}")
        if re.search(r'^\s*(?:i|k|n|j|at|from|column|columns|count|notes|number) \+= ', c): P['3c a counter that a turn raises'].append(f"{w} {c.strip()}")
        if re.search(r'\bas (?:u8|u16|u32|u64|usize|i8)\b', c): P['4a a cast by as'].append(f"{w} {c.strip()}")
        if re.search(r'\bio::(?!Result|Error|ErrorKind|\{|self|prelude)', c) : P['4d io by a path'].append(f"{w} {c.strip()}")
        if re.search(r'/ 8\b|% 8\b|\* 8\b|< 8\b|8 <=|>= 8', c): P['6c arithmetic on a cell'].append(f"{w} {c.strip()}")
for f in fns:
    b = strip(f['body'])
    arms = re.findall(r'=> (.+?),?$', b, re.M)
    rep = [a for a, n in collections.Counter(arms).items() if n > 1 and a not in ('{',)]
    if rep: P['4b a match with two arms alike'].append(f"{name(f)} {rep}")
    flat = ' '.join(b.split())
    if re.search(r'return (?:true|false);', flat): P['4c a test that returns true or false by hand'].append(name(f))
    if re.search(r'let (\w+) = [^;]*(?:==|<|>|!)[^;]*; if \1 \{', flat): P['4e a condition named only to be tested'].append(name(f))
    if len(re.findall(r'\bif [^{]*\{ (?:if|return)', flat)) >= 2 and 'else' not in flat: P['4f ifs in a row or in each other'].append(name(f))
for p, t in files.items():
    for m in re.finditer(r'((?:^\s*#\[[^\n]*\]\n)*)^(pub )?(struct|enum) (\w+)', t, re.M):
        d = m.group(1)
        if 'PartialEq' not in d: P['4g a type without derived equality'].append(f"{p.split('/')[1]}::{m.group(4)} {'pub' if m.group(2) else 'private'}")
        if 'Debug' not in d: P['4h a type without derived Debug'].append(f"{p.split('/')[1]}::{m.group(4)} {'pub' if m.group(2) else 'private'}")
# 5
facts = collections.defaultdict(set); pairs = collections.defaultdict(set)
for f in fns:
    params = re.findall(r'(\w+): ([^,()]+|\([^)]*\))(?=[,)]|$)', f['sig'][f['sig'].find('('):])
    ty = {n: re.sub(r"\s+|'\w+ ?", '', t) for n, t in params}
    for kind in ('requires', 'ensures'):
        for cl in re.findall(kind + r'(?: \w+)? \{ (.*) \}', f['clauses']):
            for part in re.split(r' × ', cl):
                part = re.sub(r'[()]', '', part).strip()
                if kind == 'ensures' and len(part.split()) < 3: continue
                g = re.sub(r'\b(\w+)\.(now|old|new)\b', lambda m: f"<{ty.get(m.group(1), m.group(1))}>", part)
                g = re.sub(r'\b(' + '|'.join(map(re.escape, ty)) + r')\b', lambda m: f"<{ty[m.group(1)]}>", g) if ty else g
                if kind == 'requires': facts[(kind, g)].add(name(f))
    for a in range(len(params)):
        for b in range(a + 1, len(params)): pairs[tuple(sorted((f"{params[a][0]}: {ty[params[a][0]]}", f"{params[b][0]}: {ty[params[b][0]]}")))].add(name(f))
for (k, g), s in sorted(facts.items(), key=lambda x: -len(x[1])):
    if len(s) >= 3: P['5a a fact over types in the requires of three functions or more'].append(f"[{len(s)}] {g}  -- {', '.join(sorted(s)[:6])}{' ..' if len(s) > 6 else ''}")
for g, s in sorted(pairs.items(), key=lambda x: -len(x[1])):
    if len(s) >= 4: P['5b a pair of parameters of those names and types in four functions or more'].append(f"[{len(s)}] {g[0]}, {g[1]}")
for f in fns:
    n = len(re.findall(r'\w+: ', f['sig'][f['sig'].find('('):f['sig'].rfind(')')]))
    if n >= 7: P['5c a function of seven parameters or more'].append(f"{name(f)} {n}")
# 6
for f in fns:
    if re.search(r': &(?:mut )?\[\w+(?:; \d+)?\]', f['sig']) and re.search(r'\b(?:active|count|n|columns|len|long|room): usize', f['sig']): P['6b a slice or array parameter with a length beside'].append(name(f))
    for m in re.finditer(r'length \w+\.(?:old|now) ≡ \d+', f['clauses']): P['6d a slice held to a fixed length by a clause'].append(f"{name(f)} {m.group(0)}")
    if re.search(r'\b(?:from|begin|at): usize', f['sig']) and re.search(r'&\[u8\]', f['sig']): P['6e a slice with an index into it beside'].append(name(f))
# 7
for f in fns:
    if re.search(r'\b(?:step|mode|kind|what|phase|side|pass): (?:bool|u8|usize)\b', f['sig']): P['7a a number or flag that says which'].append(name(f))
loops = collections.defaultdict(list)
for f in fns:
    for m in re.finditer(r'lines::token_end\(line, from\)', f['body']): loops['the walk over tokens by token_end'].append(name(f))
    if re.search(r'items::is_digit\(b\)', f['body']) and 'while' in f['body']: loops['the walk over items'].append(name(f))
    if re.search(r'spines::token_at', f['body']): loops['the walk over path tokens'].append(name(f))
    if re.search(r'place::(next_line|past_line)', f['body']): loops['the walk over lines'].append(name(f))
for k, v in loops.items(): P['7b a walk that several functions make by hand'].append(f"{k}: {sorted(set(v))}")
# 8
for c in sorted(os.listdir(tree + '/crates')):
    n = l = 0; texts = collections.Counter()
    for d, _, fs in os.walk(f'{tree}/crates/{c}/proofs'):
        for x in fs:
            if x.endswith('.antt'):
                n += 1; t = open(os.path.join(d, x)).read(); l += sum(1 for y in t.split('\n') if y.strip() and not y.strip().startswith('--'))
                for y in re.findall(r'^[\w.+-]+ (?:c|l|x|_) = (.{12,})$', t, re.M): texts[y] += 1
    many = [(v, k) for k, v in texts.items() if v >= 3]
    if n: P['8a files and lines of proofs by crate'].append(f"{c}: {n} files, {l} lines")
    for v, k in sorted(many, reverse=True): P['8b an answer that a crate gives three times or more'].append(f"{c}: {v} x {k[:110]}")
    one = 0
for k in sorted(P):
    print(f"{len(P[k]):4}  {k}")
    if listing:
        for x in P[k]: print('        ' + x)
