#!/usr/bin/env python3
"""Counts the places in crates/*/src that could take a newer form of the language, point by point.

    python3 tools/forms.py            the counts
    python3 tools/forms.py --list     each place as well
    python3 tools/forms.py --at REV   of a commit in place of the work tree

docs/DESIGN-PASS.md says what the points are and what became of each place.
"""
import collections, re, subprocess, sys

def sources(rev):
    if rev:
        names = subprocess.run(['git', 'ls-tree', '-r', '--name-only', rev, 'crates'], capture_output=True, text=True, check=True).stdout.split('\n')
        read = lambda p: subprocess.run(['git', 'show', f'{rev}:{p}'], capture_output=True, text=True, check=True).stdout
    else:
        names = subprocess.run(['git', 'ls-files', 'crates'], capture_output=True, text=True, check=True).stdout.split('\n')
        read = lambda p: open(p).read()
    return {p: read(p) for p in sorted(names) if '/src/' in p and p.endswith('.rt')}

ENUM = re.compile(r'^(?:pub )?enum (\w+)[^{]*\{(.*?)^\}', re.M | re.S)
STRUCT = re.compile(r'^(?:pub )?struct (\w+)[^{;(]*\{(.*?)^\}', re.M | re.S)
FN = re.compile(r'^( *)(?:pub )?(?:const )?(?:extern "C" )?fn (\w+)', re.M)

def functions(text):
    """(name, signature, clauses, body) of each function."""
    found = []
    for m in FN.finditer(text):
        indent = m.group(1)
        rest = text[m.start():]
        brace = re.search(r'^' + indent + r'\{$|\{$', rest, re.M)
        end = re.search(r'^' + indent + r'\}$', rest, re.M)
        if not brace or not end:
            continue
        head, body = rest[:brace.start()], rest[brace.end():end.start()]
        cut = re.search(r'^\s*(requires|ensures)', head, re.M)
        found.append((m.group(2), head[:cut.start()] if cut else head, head[cut.start():] if cut else '', body))
    return found

def variants(body):
    body = re.sub(r'//.*', '', body)
    depth, word, out = 0, '', []
    for ch in body:
        if ch in '({':
            depth += 1
        if ch in ')}':
            depth -= 1
        if ch == ',' and depth == 0:
            out.append(word.strip()); word = ''
        else:
            word += ch
    if word.strip():
        out.append(word.strip())
    return [v for v in out if v]

def shape(body):
    """The body with names and numbers blanked, but for words of the language."""
    kept = {'if', 'else', 'while', 'for', 'in', 'return', 'match', 'let', 'mut', 'true', 'false', 'as', 'loop', 'break', 'continue', 'self'}
    body = re.sub(r'//.*', '', body)
    tokens = re.findall(r"b?'(?:\\.|[^'])'|b?\"(?:\\.|[^\"])*\"|\w+|[^\s\w]", body)
    return ' '.join(t if t in kept or not re.match(r"[\w'\"]", t) else '_' for t in tokens)

def count(files):
    places = collections.defaultdict(list)
    shapes = collections.defaultdict(list)
    facts = collections.defaultdict(set)
    together = collections.defaultdict(set)
    for path, text in files.items():
        crate = path.split('/')[1]
        where = crate if path.endswith(('lib.rt', 'main.rt')) else crate + '::' + path.split('/')[-1][:-3]
        for m in ENUM.finditer(text):
            vs = variants(m.group(2))
            bare = [v for v in vs if re.fullmatch(r'\w+', v)]
            if vs and len(bare) < len(vs) and (len(vs) == 2 or any('number' in v for v in vs) or len(bare) == 1 and len(vs) == 3):
                places['1 enum of the shape of Option or Result'].append(f'{where}::{m.group(1)}')
        for m in STRUCT.finditer(text):
            for f in re.findall(r'^\s*(?:pub )?(no|missing|kern|named|given|lacking): (?:bool|u8),', m.group(2), re.M):
                places['1 flag with a value beside it'].append(f'{where}::{m.group(1)}.{f}')
        for m in re.finditer(r'//[^\n]*(?:\b0 (?:where|for none|is none|is no |of any other)|\b(?:4 for none|or 4\b|; 5 for any other|, 0 where)|\bor 0\b|; the index itself past)[^\n]*\n(?:[^\n]*\n){0,3}?\s*(?:pub )?(?:extern "C" )?fn (\w+)', text):
            places['1 number for none'].append(f'{where}::{m.group(1)}')
        for i, line in enumerate(text.split('\n'), 1):
            code = re.sub(r'//.*', '', line)
            if re.search(r'\b(Notice|Unread|Turned|Mode|Symbol|Clef)\((?:u8|usize|\d+)\)|\bnumber: \d+,|notify(?:_token)?\([^()]*, \d+,|by_value\(\d+|\bnumber: (?:usize|u8),', code) or \
               re.match(r'\s*\w+::\w+ => \d+,$', code):
                places['1 number for a kind, a notice or a refusal'].append(f'{where}:{i}')
            if re.search(r'\bwhile (?!let)|\bloop \{', code):
                places['3 loop by hand'].append(f'{where}:{i}')
            if re.search(r'/ \d+ % 256\) as u8|% 256\) as u8', code):
                places['4 byte of a number by hand'].append(f'{where}:{i}')
            if re.match(r'\s*#\[derive\((?!.*PartialEq)', code):
                places['4 type with no derived equality'].append(f'{where}:{i}')
            if re.search(r'io::(?:print_decimal|write_all|read_full)', code):
                places['4 printing and reading by hand'].append(f'{where}:{i}')
            if re.search(r'\[u\d+; \d+\]|\[\w+; \d+\]|&(?:mut )?\[u(?:16|32)\]', code) and not re.search(r'answer: |lines: &mut \[u64; 15\]', code):
                places['6 array of numbers or with a length beside it'].append(f'{where}:{i}')
        for name, sig, clauses, body in functions(text):
            full = f'{where}::{name}'
            if len(re.findall(r'=> (?:true|false),', body)) >= 3 or re.fullmatch(r'(?:if .{1,60} return (?:true|false|1|0|\w+); )+[\w =<>*.!\[\]\']{1,40}', ' '.join(body.split()).replace('{ ', '').replace(' }', '')):
                places['4 test, copy or choice by hand'].append(full)
            s = shape(body)
            if len(s.split()) >= 25:
                shapes[s].append(full)
            for clause in re.findall(r'requires(?: \w+)? \{ (.*) \}', clauses):
                for part in re.split(r' × ', clause):
                    part = re.sub(r'[()]', '', part).strip()
                    part = re.sub(r'\b\w+\.(now|old)\b', r'_.\1', part)
                    facts[part].add(full)
            names = re.findall(r'(?:^|[(,]\s*)(?:mut )?(\w+): ', sig)
            for i, a in enumerate(names):
                for b in names[i + 1:]:
                    together[(a, b)].add(full)
    for group in shapes.values():
        if len(group) > 1:
            places['2 function of the shape of another'] += group
    stems = collections.defaultdict(set)
    for path, text in files.items():
        crate = path.split('/')[1]
        for name, *_ in functions(text):
            m = re.fullmatch(r'(\w+?)_(?:4|8|16|64|of|part)', name)
            if m:
                stems[(crate, m.group(1))].add(name)
            stems[(crate, name)].add(name)
    for (crate, stem), names in stems.items():
        if len(names) > 1:
            places['2 function named like another, by size or by wrapping'] += [f'{crate}::{n}' for n in sorted(names)]
    for part, fs in facts.items():
        if len(fs) >= 3:
            places['5 fact in the requires of three functions or more'].append(f'{part}  [{len(fs)}]')
    for pair, fs in together.items():
        if len(fs) >= 6:
            places['5 parameters together in six functions or more'].append(f'{pair[0]}, {pair[1]}  [{len(fs)}]')
    return places

def main():
    rev = sys.argv[sys.argv.index('--at') + 1] if '--at' in sys.argv else None
    places = count(sources(rev))
    for point in sorted(places):
        print(f'{len(places[point]):5}  {point}')
        if '--list' in sys.argv:
            for p in places[point]:
                print('         ' + p)
    kept = sum(len(re.findall(r'// Stays: ', t)) for t in sources(rev).values())
    print(f'{kept:5}  reasons written beside a place (// Stays: )')

main()
