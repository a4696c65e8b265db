#!/usr/bin/env python3
"""Counts the places of docs/DESIGN-PASS.md in src/ (and, for point 8, in proofs/) of a checkout: places.py [FOLDER] [-v].
Each line is what a pattern finds; -v prints the places too."""
import re, sys, pathlib, collections

folders = [a for a in sys.argv[1:] if not a.startswith('-')]
root = pathlib.Path(folders[0] if folders else '.')
verbose = '-v' in sys.argv
files = sorted(root.glob('crates/*/src/**/*.rt'))
text = {f: f.read_text() for f in files}


def code(s):
    return re.sub(r'//[^\n]*', '', s)


def places(pattern, flags=re.M):
    out = []
    for f in files:
        s = code(text[f])
        for m in re.finditer(pattern, s, flags):
            line = s[:m.start()].count('\n') + 1
            out.append((str(f.relative_to(root)), line, m.group(0).strip().split('\n')[0]))
    return out


def show(name, found):
    print(f'{len(found):5}  {name}')
    if verbose:
        for p in found:
            print('        ', *p)


print('point 1')
show('enums', places(r'^(?:pub(?:\(crate\))? )?enum \w+'))
show('... that hold what Option or Result would (a case for each refusal, or one case that is none)',
     places(r'^(?:pub(?:\(crate\))? )?enum (?:AckHeader|AckStep|WriteAck|ReadFrame|Span|WriteFrame|WriteHead|WriteQueue|MakeNew|Receive|Take|Piece|Insert|Framed)\b'))
show('fields that say by a flag, a code or an answer what the fields beside them mean',
     places(r'^    (?:pub )?(?:answer|number|found|sound|ascending|rise|full|joined|tag|what): [A-Za-z0-9]+,$'))
show('constants that number kinds, uses or ends', places(r'^(?:pub )?const (?:END|NEW|AT|INSERT|MISSING|WINDOW|ONE_SET|ONE_CLEAR|LOW|READ|WRITE\w*|HEAD|SPLIT|LONG|UNUSED|OPEN|HELD|READY|RELEASED|SINGLE|RANGE|ACK|NACK): \w+ ='))
print('point 2')
KEPT = set('let mut if else while for in loop match return as fn pub true false break continue self Self bool'.split())
TOKEN = re.compile(r"[A-Za-z_]\w*|\d\w*|[^\sA-Za-z_0-9]")


def matching(s, i, a, b):
    depth = 0
    while i < len(s):
        depth += {a: 1, b: -1}.get(s[i], 0)
        i += 1
        if depth == 0:
            return i
    return i


def shape(t):
    if t[0].isdigit():
        return '0'
    return t if t in KEPT or not (t[0].isalpha() or t[0] == '_') else 'x'


groups = collections.defaultdict(list)
for f in files:
    s = code(text[f])
    for m in re.finditer(r'^ *(?:pub(?:\(crate\))? )?(?:extern "C" )?fn (\w+)', s, re.M):
        end = matching(s, s.index('(', m.end()), '(', ')')
        start = re.compile(r'(?:\n *\{\n)|(?: \{\n)').search(s, end)
        if not start:
            continue
        body = s[start.end():matching(s, s.index('{', start.start()), '{', '}') - 1]
        if len(TOKEN.findall(body)) >= 8:
            groups[' '.join(map(shape, TOKEN.findall(s[m.end():end] + body)))].append(f'{f.relative_to(root / "crates")}:{m.group(1)}')
twins = [g for g in groups.values() if len(g) > 1]
print(f'{sum(map(len, twins)):5}  functions of {len(twins)} groups whose parameters and bodies are the same but for names, numbers and widths')
if verbose:
    for g in twins:
        print('        ', ', '.join(g))
show('the lesser or greater of two, 0 past the end, 1 or 0 of a test, written by hand',
     places(r'^ *(?:pub(?:\(crate\))? )?fn (?:lesser|greater|least|smaller|larger|byte|word|number_at|entry_at|place_at|one_if|byte_at)\('))
print('point 3')
show('while', places(r'^ *while '))
show('loop', places(r'^ *loop '))
show('... of these, those whose test compares an index or a rest', places(r'^ *while [^\n]*<'))
print('point 4')
show('`as` between unsigned numbers', places(r' as (?:u8|u16|u32|u64|usize)\b'))
show('functions that tell an answer in numbers', places(r'^ *(?:pub )?fn (?:\w*told|\w*_number|\w+_numbers|ack_written|record_found|no_\w+|refused|untaken|number_of|profile_of)\('))
print('point 5')
show('lists of parameters that begin with h: Heads', places(r'^    h: Heads,$'))
counts = collections.Counter()
for f in files:
    for m in re.finditer(r'requires (?:\w+ )?\{ ([^{}]*) \}', code(text[f])):
        for part in re.split(r' × (?![^()]*\))', m.group(1)):
            counts[re.sub(r'\.(old|now)\b', '', part.strip().strip('()'))] += 1
often = [(c, p) for p, c in counts.items() if c >= 3]
print(f'{len(often):5}  facts that stand in the requires of three functions or more')
if verbose:
    for c, p in sorted(often, reverse=True):
        print('        ', c, p)
print('point 6')
show('parameters that are rows flattened to words', places(r'\bwords: &(?:mut )?\[u32\]'))
show('parameters that are nexts, memories and profile flattened to numbers', places(r'\bnexts: &(?:mut )?\[u32[\];]'))
show('arrays that are filled as far as a count says', places(r'let mut \w+(?:: \[[^\]]*\])? = \[0[\w]*; [^\]]*\];'))
print('point 7')
show('matches on a number of a kind of call', places(r'^ *match (?:\w+\.)?(?:tag|what|kind|item\.tag)\b'))
print('point 8')
answers = sorted(root.glob('crates/*/proofs/**/Answers.antt'))
print(f'{len(answers):5}  Answers.antt, {sum(len(a.read_text().splitlines()) for a in answers)} lines')
lemmas = [p for p in root.glob('crates/*/proofs/*.antt')]
print(f'{len(lemmas):5}  lemma files, {sum(len(a.read_text().splitlines()) for a in lemmas)} lines')
