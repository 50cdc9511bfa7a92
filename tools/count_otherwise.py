#!/usr/bin/env python3
"""Points 1 to 4 counted a second way, with no reader of functions or types: by lines, words and windows of lines.
At the repository's top: python3 tools/count_otherwise.py [1 2 3 4]"""
import re, sys, glob, collections
FILES = sorted(glob.glob('crates/*/src/*.rt'))
TEXT = {f: re.sub(r'//[^\n]*', '', open(f).read()) for f in FILES}
def by_crate(title, places, full):
    places = list(places); n = collections.Counter(p.split('/')[1] for p in places)
    print(f'{title}: {len(places)} (' + ', '.join(f'{c} {k}' for c, k in sorted(n.items())) + ')')
    for p in places if full else []: print('    ' + p[7:])
def lines(pattern): return [f'{f}:{i}  {l.strip()}' for f in FILES for i, l in enumerate(TEXT[f].split('\n'), 1) if re.search(pattern, l)]
def main(which):
    on, full = (lambda n: not which or n in which), bool(which)
    if on('1'):
        # by use: names before ::Refused, ::Wrong and ::Invalid are Results; bare variants that a match meets beside one with data are Options
        uses = collections.defaultdict(set)
        for f in FILES:
            for a, b in re.findall(r'\b([A-Z]\w+)::(Refused|Wrong|Invalid|Broken|Uneven|Silent|Silence|NoAnswer|Nothing|Idle|Neither|Failed|Done|Passed)\b', TEXT[f]): uses[a].add(b)
        results = sorted(a for a, b in uses.items() if b & {'Refused', 'Wrong', 'Invalid'}); options = sorted(a for a in uses if a not in results)
        print(f'1 names used as a Result: {len(results)} ({", ".join(results)})\n1 names used as an Option or with a bare failing variant: {len(options)} ({", ".join(options)})')
        by_crate('1 refusals made by hand', lines(r'::(Refused|Wrong|Invalid)\((Refusal|fault_at|why|Fault)|Refusal \{'), full)
        by_crate('1 arms that take a refusal apart', lines(r'(Refused|Wrong|Invalid)\(\w+\) (=>|else)'), full)
        by_crate('1 tests of a number for none', lines(r'\bif [^{]*(number|what|fault|wrong|file|thrown|standing)\w*(\.\w+)? (!=|==|>) 0\b|\b0 < (head|number)'), full)
    if on('2'):
        # windows of six lines whose names, numbers and strings are blanked, that stand twice; a file's windows that overlap count once
        seen = collections.defaultdict(list)
        for f in FILES:
            ls = [(i, re.sub(r'\s+', ' ', re.sub(r'\b(?!fn\b|let\b|mut\b|if\b|while\b|for\b|match\b|return\b|else\b|pub\b|ensures\b|requires\b|enum\b|struct\b|use\b|impl\b)[A-Za-z_]\w*|\d\w*', 'x', l)).strip()) for i, l in enumerate(TEXT[f].split('\n'), 1)]
            ls = [(i, l) for i, l in ls if l and l not in '{}' and not re.match(r'(ghost |pub )?use|(ensures|requires|x) |#|"|x(, x)*,?$', l)]
            for k in range(len(ls) - 5): seen['\n'.join(l for _, l in ls[k:k + 6])].append((f, ls[k][0]))
        hit = {w: v for w, v in seen.items() if len(v) > 1}; runs = collections.Counter(); last = {}
        for w, v in hit.items():
            for f, i in v:
                if i - last.get(f, -99) > 12: runs[f.split('/')[1]] += 1
                last[f] = i
        print(f'2 windows of six lines that stand twice or more: {len(hit)}, in {sum(runs.values())} stretches (' + ', '.join(f'{c} {k}' for c, k in sorted(runs.items())) + ')')
        same = collections.defaultdict(set)        # one name for functions of several crates
        for f in FILES:
            for n in re.findall(r'\bfn (\w+)', TEXT[f]): same[n].add(f.split('/')[1])
        many = {n: c for n, c in same.items() if len(c) > 1 and not n.startswith('moor_')}
        print(f'2 names of functions that two crates or more have: {len(many)}' + (': ' + '; '.join(f'{n} ({", ".join(sorted(c))})' for n, c in sorted(many.items())) if full else ''))
    if on('3'):
        # a number that begins at a value, and is made one more or less below
        found = []
        for f in FILES:
            for m in re.finditer(r'\bwhile ([^{]*)\{', TEXT[f]):
                before, behind = TEXT[f][max(0, m.start() - 500):m.start()], TEXT[f][m.end():m.end() + 700].split('\n}')[0]
                v = [v for v in re.findall(r'[a-z]\w*', m.group(1)) if re.search(rf'let mut {v}\b', before) and re.search(rf'\b{v} [+-]= 1;', behind) and not re.search(rf'\b{v} (= |[+-]= (?!1;))', behind)]
                if v: found.append(f'{f}:{TEXT[f].count(chr(10), 0, m.start()) + 1}  {v[0]}')
        by_crate('3 numbers that a while walks by one', dict.fromkeys(found), full); by_crate('3 lines that count by one', lines(r'^\s*\w+ [+-]= 1;'), full); by_crate('3 while', lines(r'\bwhile '), full)
    if on('4'):
        by_crate('4 arms that turn a variant or a number into a value', lines(r'^\s*([A-Z]\w+::)?[A-Z]\w+(\(_(, _)*\))? => ([A-Z_0-9]+|[A-Z]\w*::\w+|texts::[A-Z_]+|\d+),$'), full)
        by_crate('4 bytes taken out of or put into a number', lines(r'/ (0x100+|256)\b.* as u8|% 256\) as u8|\* 256 \+|\* 65536'), full)
        by_crate('4 a field beside a field or a parameter', lines(r'\w\.\w+ == [\w.]+ *(&&|;|,|$)|&& \w+ == '), full)
        by_crate('4 a choice of two numbers', lines(r'^\s*if \w+(\.len\(\))? <=? \w+(\.len\(\))? \{$'), full)
        by_crate('4 functions that say or spell', lines(r'\bfn (say|spelled|named|text|plain|kind_name|counted|accepted|refused|telegrams|written|skipped|hex|decimal|serial|bytes|byte|piece|filled|ended)\w*\('), full)
main(sys.argv[1:])
