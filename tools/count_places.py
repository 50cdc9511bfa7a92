#!/usr/bin/env python3
"""Counts the places of points 1 to 7 in crates/*/src/*.rt, and the proofs of point 8. Run at the repository's top:
    python3 tools/count_places.py            the counts, by point and crate
    python3 tools/count_places.py 3          .. of point 3, with each place as file:line"""
import re, sys, glob, collections

# ---- the reader. Strings and comments are blanked and lines kept; functions and types are found by their brackets.
BLANK = re.compile(r'''//[^\n]*|b?"(?:\\.|[^"\\])*"|b'(?:\\.|[^'\\])'|'(?:\\.|[^'\\])\'''')
def blank(m):
    t = m.group(0)
    return re.sub(r'[^\n]', ' ', t) if t[0] == '/' else '"' + re.sub(r'[^\n]', '_', t[1:-1]) + '"'
def close(s, i):                                   # behind the bracket that closes the one at i
    b, n = {'{': '}', '(': ')', '[': ']'}[s[i]], 0
    for j in range(i, len(s)):
        n += (s[j] == s[i]) - (s[j] == b)
        if n == 0: return j + 1
F = collections.namedtuple('F', 'file line name pub params ret clauses body')
def functions(f):
    s = BLANK.sub(blank, open(f).read())
    for m in re.finditer(r'^[ ]*((?:pub(?:\(crate\))? )?(?:extern "_" )?)fn (\w+)', s, re.M):
        p, d = m.end(), 0                          # behind what stands in angle brackets
        while s[p] != '(' or d: d += (s[p] == '<') - (s[p] == '>' and s[p - 1] != '-'); p += 1
        q = close(s, p); clauses = []
        r = re.match(r'\s*->\s*(.*?)\s*(?=\n\s*(?:requires|ensures)\b|\{)', s[q:], re.S)
        pos = q + (r.end() if r else 0)
        while k := re.match(r'\s*(requires|ensures)( \w+)? (?=\{)', s[pos:]):
            e = close(s, pos + k.end()); clauses.append((k.group(1), s[pos + k.end() + 1:e - 1].strip())); pos = e
        if re.match(r'\s*;', s[pos:]): continue    # a trait's method with no body
        b = s.index('{', pos); e = close(s, b); ps = [tuple(t.strip() for t in x.split(':', 1)) for x in re.split(r',(?![^\[(<]*[\])>])', s[p + 1:q - 1]) if x.strip()]
        yield F(f, s.count('\n', 0, m.start(2)) + 1, m.group(2), m.group(1).strip(), [(x[0].split()[-1], x[1] if len(x) > 1 else 'Self') for x in ps], r.group(1).strip() if r else '', clauses, s[b:e])
def types(f):
    s = BLANK.sub(blank, open(f).read())
    for m in re.finditer(r'^(?:pub(?:\(crate\))? )?(struct|enum) (\w+)[^{;(]*\{', s, re.M):
        yield f, s.count('\n', 0, m.start()) + 1, m.group(1), m.group(2), s[m.end():close(s, m.end() - 1) - 1]
FILES = sorted(glob.glob('crates/*/src/*.rt'))
RAW = {f: open(f).read().split('\n') for f in FILES}
CODE = {f: BLANK.sub(blank, '\n'.join(RAW[f])).split('\n') for f in FILES}
FNS = [x for f in FILES for x in functions(f)]
TYPES = [t for f in FILES for t in types(f)]
OWN = {t[3] for t in TYPES}
def grep(pattern, text=CODE, but='^$', files=''): return [(f, i + 1, l.strip()) for f in FILES if re.search(files, f) for i, l in enumerate(text[f]) if re.search(pattern, l) and not re.search(but, l)]
def at(x, what=''): return x.file, x.line, f'fn {x.name}' + (f': {what}' if what else '')
base = lambda t: re.sub(r"^&('a )?(mut )?", '', t).split('::')[-1]
NUMBERS = {'u8', 'u16', 'u32', 'u64', 'usize'}

# ---- 1
def own_enums():                                   # a variant with a refusal or a fault: a Result; a bare one beside one with data: an Option
    for f, line, kind, name, body in TYPES:
        vs = [v for v in re.split(r',(?![^{(]*[})])', body) if v.strip()]
        bare = [v for v in vs if not re.search(r'[({]', v)]
        if kind == 'enum' and re.search(r'\((Refusal|Fault)\)', body): yield f, line, f'{name}, a Result'
        elif kind == 'enum' and 0 < len(bare) < len(vs): yield f, line, f'{name}, an Option'
def flags():                                       # a flag, or a number that can be 0, and values that stand only with it or only without it
    for f, line, kind, name, body in TYPES:
        m = re.findall(r'\b(why: Refusal|number: u8|whole: \w+|known: bool|open: bool|standing: |tried: |phase: |wrong: usize)', body)
        if kind == 'struct' and m and name != 'Refusal': yield f, line, f'{name}: ' + ', '.join(x.split(':')[0] for x in m)
def kinds(): return grep(r'\bconst [A-Z_0-9]+: u8 = \d+;', but='MOST|LARGEST|OF_')
def absent(): return grep(r"//.*(\b0 where (they|there|none|it)|0 is nothing|or 16\b|, or 0\b|or 0 and 0|(length( of the list)?|end|before it|are) where (there|it) is none|to` where there is none|number: 1 where|or how many (there )?are|or this one|where there is none the device|None is left where|nobody contends, the place)", RAW)
def commands(): return grep(r'\bif command [<=]|^\s*\d+( \| \d+)* => ', files='(desk|moortinker)/src/(lib|commands|arguments).rt')
def passed_on(): return grep(r'::(Refused|Wrong|Invalid)\((why|_)\) => |let .* = .* else \{')
# ---- 2
KEY = set('as bool break continue const else enum extern false fn for if impl in let loop match mut pub ref return self Self static struct true while'.split())
def shape(text):                                   # a name, with its path, is x; a number or a string 0; a number's type T
    t = re.findall(r'[A-Za-z_]\w*(?:::\w+)*|\d\w*|"_*"|"|[^\s\w]', text)
    return ' '.join(w if w in KEY else 'T' if w in NUMBERS else '0' if w[0].isdigit() or w[0] == '"' else 'x' if w[0].isalpha() or w[0] == '_' else w for w in t)
def twins(least=14):
    by = collections.defaultdict(list)
    for x in FNS:
        s = shape('(' + ', '.join(f'{n}: {t}' for n, t in x.params) + ')' + x.body)
        if len(x.body.split()) > 3 and s.count(' ') >= least: by[s].append(x)
    return sorted((v for v in by.values() if len(v) > 1), key=lambda v: (-len(v), v[0].file))
def type_twins():
    by = collections.defaultdict(list)
    for f, line, kind, name, body in TYPES: by[kind + shape(re.sub(r'\bpub\b', '', body))].append((f, line, name))
    return sorted((v for v in by.values() if len(v) > 1), key=lambda v: -len(v))
def near(least=40, part=0.9):                      # pairs of that many words, nine tenths alike
    import difflib
    t = [(x, w, set(zip(*(w[i:] for i in range(6))))) for x in FNS for w in [shape('(' + ', '.join(f'{n}: {t}' for n, t in x.params) + ')' + x.body).split()] if len(w) >= least]
    for i, (x, v, g) in enumerate(t):
        for y, w, h in t[i + 1:]:
            if v != w and 0.8 < len(v) / len(w) < 1.25 and len(g & h) > 0.45 * len(g | h) and difflib.SequenceMatcher(None, v, w, autojunk=False).ratio() >= part: yield x, y
# ---- 3
def whiles(index):                                 # with the name in the test counted up or down by one, or not
    for f, i, l in grep(r'^\s*while '):
        s = '\n'.join(CODE[f][i - 1:]); body = s[s.index('{'):close(s, s.index('{'))]
        by_one = any(re.search(rf'\b{v} [+-]= 1;', body) and not re.search(rf'\b{v} [+-]= (?!1;)|\b{v} = ', body) for v in re.findall(r'[a-z_]\w*', l.split('{')[0])[1:])
        if by_one == index: yield f, i, l
def for_index(): return grep(r'^\s*for [a-z]\w* in [^.{]*\.\.')
# ---- 4
def derives(): return grep(r'#\[derive\(', but='PartialEq')
def equality():                                    # whether two parameters, two elements, or fields and parameters, are alike
    for x in FNS:
        ns, b = [n for n, t in x.params], x.body
        if x.ret == 'bool' and (any(re.search(rf'\b{n} [=!]= {m}\b', b) for n in ns for m in ns if n != m) or re.search(r'\w\] [=!]= [\w.]+(\[|$|;| \{)', b) and len(ns) > 1 and re.search(r'\[[^\]]*\] [=!]= (\w+\[|due|table)', b) or len(re.findall(r'\w+ == [\w.]+(?![\w(])', b)) > 1 and ' && ' in b): yield at(x)
def order():                                       # a smaller, a larger, a sum or a difference that stays in range
    for x in FNS:
        ts = [t for n, t in x.params]
        if ts and len(ts) < 3 and set(ts) <= NUMBERS and x.ret in NUMBERS and 'if ' in x.body and re.fullmatch(r'\{\s*((if [^{]* <=? [^{]* \{\s*(return )?[^;}]*;?\s*\}|let \w+ = [^;]*;)\s*)+(else \{)?[^;]*\}', x.body): yield at(x)
def copying():                                     # a lent list written in a loop, or by another that does
    for x in FNS:
        if any(re.match(r"&('a )?mut \[", t) for n, t in x.params) and 'Print' not in str(x.params) and re.search(r'while |for |\bput\(|put_behind\(', x.body) and re.search(r'\w+\[[^\]]+\] = |\bput\(|put_behind\(', x.body): yield at(x, 'loop' if re.search(r'while |for ', x.body) else 'put')
def conversion():                                  # one value of one type into one of another
    for x in FNS:
        if len(x.params) == 1 and '[' not in x.params[0][1] and x.ret:
            a, b = base(x.params[0][1]), base(x.ret)
            if a != b and ({a, b} & OWN) and not {a, b} & {'Desk', 'Page', 'impl Env', 'Self', 'Tally', 'bool'} or a == 'bool' and b in NUMBERS:
                if re.search(r'match |if ', x.body) or re.search('_(for|from)_c', x.name): yield at(x, f'{a} to {b}')
def printing():                                    # a value of a type said on a page or put into a line
    for x in FNS:
        own = [base(t) for n, t in x.params if base(t) in OWN - {'Page', 'Numbers', 'Desk', 'Walk', 'Asked', 'State', 'Window'}]
        if own and re.search(r'impl Print|LINE\]', str(x.params)) and not re.match('write|add$|event_behind|scanned', x.name): yield at(x, ', '.join(own))
# ---- 5
def facts():                                       # what the requires of three functions or more ask
    by = collections.defaultdict(list)
    for x in FNS:
        for k, c in x.clauses:
            d, cur = 0, ''
            for ch in c + '×' if k == 'requires' else '':
                d += (ch in '({[') - (ch in ')}]')
                if ch == '×' and d == 0:
                    p = re.sub(r'\.(now|old|new)\b', '', cur.strip()); p = p[1:-1] if p[0] == '(' and close(p, 0) == len(p) else p
                    if x not in by[p]: by[p].append(x)
                    cur = ''
                else: cur += ch
    return sorted(((p, v) for p, v in by.items() if len(v) > 2), key=lambda t: -len(t[1]))
TOGETHER = {'the table': 'serials addresses marks', 'the queues': 'flags lasts counts slots', 'table and queues': 'serials addresses marks flags lasts counts slots',
    'one queue': 'count slots', 'what a scan found': 'found_serials found_addresses', 'the relay': 'registers access', 'relay and write': 'registers access write', 'the three buffers': 'command reply_1 reply_2',
    'the same in the desk': 'command first second', 'the contest': 'keys windows prefix', 'run and tables': 'run tables', 'run and command': 'run command at', 'marks and bytes in hand': 'm bytes held',
    'a frame at a place': 'input at', 'a new event': 'urgent kind identifier payload', 'an event request': 'minimum most confirmed flag', 'head of a command': 'source destination primary secondary',
    'a device found': 'serial address', 'an exchange counted': 'kind commands replies', 'a line and a place': 'line at', 'a line, a place and the desk': 'line at d', 'printer and page': 'rt page', 'walk over a capture': 'asked stretch page', 'from and to': 'from to', 'rule, row and table': 'rule row table'}
def together(): return [(k, [x for x in FNS if set(w.split()) <= {n for n, t in x.params}]) for k, w in TOGETHER.items()]
def named(word, docs=[]):                          # in a README or a document but the port's page, as code
    if not docs: docs.append('\n'.join(open(f).read() for f in ['README.md'] + [g for g in glob.glob('docs/**/*.md', recursive=True) if 'PORT' not in g]))
    return bool(re.search(rf'`(\w+::)*{word}(::\w+)*[`(]|\*\*([\w, ]+, )?{word}[,.*]|\b{word}::\w|::{word}\b', docs[0]))
EXPORTS = {f.split('/')[1] for f in FILES if 'extern "_"' in '\n'.join(CODE[f])}
def callers(x):
    c, mod = x.file.split('/')[1], x.file.split('/')[-1][:-3]; out = set()
    for f in FILES:
        t = '\n'.join(CODE[f])
        if f.split('/')[1] != c and (re.search(rf'\b({c}|{mod})::(\w+::)*{x.name}(?!\w|::)', t) or re.search(rf'use {c}(::\w+)*::\{{[^}}]*\b{x.name}\b', t) or re.search(rf'use {c}::(\w+::)*{x.name};', t)): out.add(f.split('/')[1])
    return out
# ---- 6
def arrays(): return [(f, line, f'{name}: ' + ', '.join(re.findall(r'(\w+): \[', body))) for f, line, kind, name, body in TYPES if kind == 'struct' and re.search(r': \[\w+; ', body)]
def lists(): return [at(x, f'{n} lists') for x in FNS for n in [sum(bool(re.match(r"&('a )?(mut )?\[", t)) for _, t in x.params)] if n > 2]
def locals_(): return grep(r'let mut (store|line|out|answer|bytes|input|page|stretch|body|head|text) = \[')
# ---- 7
def switches(): return [at(x, ', '.join(f'{n}: {t}' for n, t in x.params if t in ('bool', 'Asked', 'Lines'))) for x in FNS if 'extern' not in x.pub and any(t in ('bool', 'Lines') or t == 'Asked' and 'capturedesk' not in x.file for n, t in x.params)]
def one_call(): return [v for v in twins() if len({tuple(re.findall(r'([a-z_]\w*(?:::\w+)*)\(', x.body)) for x in v}) > 1]
def dispatch(): return grep(r'^\s*match (command|asked|of|what|group|rule|option|name) \{')
# ---- 8
def answers():
    by, goals = collections.defaultdict(list), collections.Counter()
    for f in sorted(glob.glob('crates/*/proofs/**/Answers.antt', recursive=True)):
        for m in re.finditer(r'^(?:abbrev )?pub (\S+) : goal\.\S+\n((?:.+\n?)*)', open(f).read(), re.M):
            goals[f.split('/')[1]] += 1
            by[re.sub(r'\b\d\w*', '0', re.sub(r'\b[a-z]\.[\w.+-]+', 'x', ' '.join(m.group(2).partition(' =')[2].split())))].append((f, m.group(1)))
    return goals, sorted(((t, v) for t, v in by.items() if len(v) > 2), key=lambda t: -len(t[1]))
# ---- printing
def show(title, places, full):
    places = list(places); n = collections.Counter(p[0].split('/')[1] for p in places)
    print(f'{title}: {len(places)} ({", ".join(f"{c} {k}" for c, k in sorted(n.items()))})')
    for f, i, t in places if full else []: print(f'    {f[7:]}:{i}  {t}')
def groups(title, gs, full):
    print(f'{title}: {len(gs)} groups, {len({(x.file, x.line) for h, v in gs for x in v})} functions')
    for h, v in gs if full else []: print(f'    {len(v)} {h}' + '; '.join(f'{x.file[7:]}:{x.line} {x.name}' for x in v))
def main(which):
    on, full = (lambda n: not which or n in which), bool(which)
    if on('1'):
        show('1a own enums of the shape of Result or Option', own_enums(), full); show('1b structs with a flag or a number beside a value', flags(), full)
        show('1c numbers for kinds, refusals, faults and texts', kinds(), full); show('1d a number or a place that stands for none, by its comment', absent(), full)
        show('1e commands and options by number', commands(), full); show('1f refusals passed on by hand', passed_on(), full)
    if on('2'):
        groups('2a functions that are the same but for names, types, numbers and what they call', [('', v) for v in twins()], full)
        print(f'2b types that are: {len(type_twins())} groups, {sum(map(len, type_twins()))} types')
        for v in type_twins() if full else []: print(f'    {len(v)} ' + '; '.join(f'{f[7:]}:{i} {n}' for f, i, n in v))
        pairs = list(near()); print(f'2c pairs of functions of 40 words or more that are nine tenths alike: {len(pairs)}, {len({(x.file, x.line) for p in pairs for x in p})} functions')
        for x, y in pairs if full else []: print(f'    {x.file[7:]}:{x.line} {x.name}; {y.file[7:]}:{y.line} {y.name}')
    if on('3'):
        show('3a while loops that count by one', whiles(True), full); show('3b .. by another step', whiles(False), full); show('3c for loops over a range, with its number used', for_index(), full)
    if on('4'):
        show('4a types that derive no comparison', derives(), full); show('4b equality', equality(), full); show('4c order and sums that stay in range', order(), full)
        show('4d copying', copying(), full); show('4e conversion', conversion(), full); show('4f printing of a type', printing(), full)
    if on('5'):
        groups('5a facts that three functions or more ask', [(p + ': ', v) for p, v in facts()], full); groups('5b parameters that travel together', [(f'{k} ({TOGETHER[k]}): ', v) for k, v in together()], full)
        shared = [x for i, x in sorted({(x.file, x.line): x for k, v in together() + facts() for x in v if x.pub == 'pub' and callers(x)}.items())]
        inner = [x for x in shared if not callers(x) & EXPORTS and not named(x.name) and not named(x.file.split('/')[-1][:-3]) and not named(x.file.split('/')[1])]
        print(f'5c public functions of these groups that other crates call: {len(shared)}; called by a crate for C: {sum(bool(callers(x) & EXPORTS) for x in shared)}; named in README.md or docs: {sum(named(x.name) for x in shared)}; in a module or a crate that is: {sum(named(x.file.split("/")[-1][:-3]) or named(x.file.split("/")[1]) for x in shared)}; inner: {len(inner)}')
        for x in shared if full else []: print(f'    {x.file[7:]}:{x.line} {x.name}: called by {", ".join(sorted(callers(x)))}' + ('; for C' if callers(x) & EXPORTS else '') + ('; named' if named(x.name) else '') + ('; its module or crate named' if named(x.file.split('/')[-1][:-3]) or named(x.file.split('/')[1]) else ''))
    if on('6'):
        show('6a structs with arrays', arrays(), full); show('6b functions of three lists or more', lists(), full); show('6c local arrays with a length beside them', locals_(), full)
    if on('7'):
        show('7a flags and kinds as parameters', switches(), full); groups('7b functions that differ in what they call', [('', v) for v in one_call()], full); show('7c a match on which step', dispatch(), full)
    if on('8'):
        n = {c: sum(open(f).read().count('\n') for f in glob.glob(f'crates/{c}/proofs/**/*.antt', recursive=True)) for c in sorted({f.split('/')[1] for f in FILES})}
        g, same = answers()
        print(f'8a lines in proofs/: {sum(n.values())} (' + ', '.join(f'{c} {k}' for c, k in n.items() if k) + ')'); print(f'8b goals answered: {sum(g.values())} (' + ', '.join(f'{c} {k}' for c, k in sorted(g.items())) + ')')
        print(f'8c answers that stand three times or more: {len(same)} shapes, {sum(len(v) for t, v in same)} answers')
        for t, v in same if full else []: print(f'    {len(v)} in {len({f.split("/")[1] for f, n in v})} crates: {t[:150]}')
if __name__ == '__main__': main(sys.argv[1:])
