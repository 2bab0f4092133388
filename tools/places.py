#!/usr/bin/env python3
"""Lists the places of crates/*/src that older forms of Rattle left: python3 tools/places.py [POINT] [TOP].

POINT is 1 to 8, or `all` for the counts alone; TOP is the top of a checkout, here if it is left out.
The script goes by text. It lists candidates, and docs/DESIGN-PASS.md says which of them are places.
"""
import difflib
import glob
import os
import re
import sys


def sources(top):
    found = sorted(glob.glob(os.path.join(top, 'crates/*/src/**/*.rt'), recursive=True))
    return [(os.path.relpath(f, top), open(f, encoding='utf8').read()) for f in found]


def bare(text):
    """Without comments."""
    return re.sub(r'//[^\n]*', '', text)


def line_of(text, at):
    return text.count('\n', 0, at) + 1


def functions(top):
    """(file, line, name, parameters, clauses, body) of each function with a body."""
    out = []
    for name, text in sources(top):
        text = bare(text)
        for m in re.finditer(r'^[ ]*(?:pub(?:\(crate\))? )?fn ([a-z_0-9]+)', text, re.M):
            rest = text[m.end():]
            body_at = re.search(r'\n[ ]*\{\n', rest)
            semicolon = rest.find(';')
            one_line = re.search(r'\{[ ]*(?:\n|.*\})', rest)
            indent = re.match(r'[ ]*', text[m.start():]).group(0)
            ends = re.search(r'\n' + indent + r'\}', rest)
            if not ends:
                continue
            whole = rest[:ends.start()]
            starts = re.search(r'\n' + indent + r'\{\n|\{\n', whole)
            if not starts:
                continue
            head, body = whole[:starts.start()], whole[starts.end():]
            out.append((name, line_of(text, m.start()), m.group(1), head, body))
    return out


def grep(top, pattern):
    hits = []
    for name, text in sources(top):
        text = bare(text)
        for m in re.finditer(pattern, text, re.M):
            at = text.rfind('\n', 0, m.start()) + 1
            end = text.find('\n', m.end())
            hits.append(f'{name}:{line_of(text, m.start())}: {" ".join(text[at:end].split())[:110]}')
    return hits


def point1(top):
    return {
        'a refusal or none as a number': grep(top, r'Ok\(\(\)\) => (?:\(0|0,)|Err\(_\) => (?:0|false)|Ok\(_\) => 0|saturating_add\(1000\)|\+ 1000,|_ => 0,\n    \}\n\}|Err\((?:refusal|fault)\) => \((?:refusal|fault)')
        + grep(top, r'^.*(?:heads|links): Vec<u32>'),
        'a flag with a value beside it': grep(top, r'^    pub(?:\(crate\))? [a-z_]+: bool,'),
        'a value handed back through a parameter': grep(top, r'[a-z_]+: &mut (?:Weight|u64|u16|usize|bool)\b'),
        'an empty list for none': grep(top, r'count: 0, items \}'),
        'an Option made a refusal by hand': grep(top, r'=> return (?:None|Err)|None => Err\(|else \{\n *return Err\('),
    }


def tokens(text):
    return re.findall(r'[A-Za-z_]+|\d+|[^\sA-Za-z_\d]', text)


def point2(top):
    all_functions = [(f, l, n, tokens(b)) for f, l, n, h, b in functions(top)
                     if '_cases/' not in f and '/system_tour/' not in f]
    hits = []
    for i, (f, l, n, a) in enumerate(all_functions):
        for g, k, m, b in all_functions[i + 1:]:
            if len(a) < 12 or len(b) < 12 or abs(len(a) - len(b)) > 0.3 * max(len(a), len(b)):
                continue
            s = difflib.SequenceMatcher(None, a, b, autojunk=False)
            if s.quick_ratio() >= 0.8 and s.ratio() >= 0.8:
                hits.append(f'{f}:{l} {n} ~ {g}:{k} {m} ({s.ratio():.2f})')
    return {'functions that are alike': hits}


def point3(top):
    return {
        'for over a range': grep(top, r'for [a-z_]+ in [a-z_0-9]+\.\.'),
        'while': grep(top, r'^ *while '),
        'a count by hand': grep(top, r'^ *(?:i|k|at|end|next|node|number) [+-]= '),
    }


def point4(top):
    return {
        'a fault turned into another by a match': grep(top, r'Err\(HeaderFault::Version\)'),
        'text put together by hand': grep(top, r'push_str\(|put_number\(|print!\(rt; "[ ,;()]'),
        'a bool turned into a number': grep(top, r'\{ 1 \} else \{ 0 \}'),
        'an index that is tested first': grep(top, r'if [a-z]+ (?:<|>=) (?:self\.count|[a-z]+\.len\(\)|self\.[a-z]+_count)'),
        'bytes put together by hand': grep(top, r'\* 256|/ 256|% 256|65536'),
        'a match for true': grep(top, r'=> true,\n *_ => false'),
        'types without Debug, PartialEq and Eq': grep(top, r'#\[derive\(Clone, Copy\)\]'),
    }


def split_clauses(head):
    return re.findall(r'(requires|ensures)(?: [a-z_]+)? \{ (.*?) \}\n', head + '\n')


def point5(top):
    requires, pairs = {}, {}
    for f, l, n, h, b in functions(top):
        for kind, clause in split_clauses(h):
            if kind != 'requires':
                continue
            for fact in re.split(r' × ', clause):
                fact = fact.strip('() ')
                requires.setdefault(fact, []).append(f'{f}:{l} {n}')
        signature = re.search(r'\((.*?)\)(?: ->|\n|$)', h, re.S)
        if signature:
            names = re.findall(r'([a-z_]+): ([^,]+)', signature.group(1))
            for x, y in zip(names, names[1:]):
                pairs.setdefault((x[0], y[0]), []).append(f'{f}:{l} {n}')
    return {
        'requires that stand three times and more': [f'{len(v)} × {k}' for k, v in sorted(requires.items()) if len(v) > 2],
        'parameters that travel together through five functions and more':
            [f'{len(v)} × {" ".join(k)}' for k, v in sorted(pairs.items()) if len(v) > 4],
        'clauses of two facts': grep(top, r'requires(?: [a-z]+)? \{ \(.*\) × \('),
    }


def point6(top):
    hits = []
    for name, text in sources(top):
        text = bare(text)
        for m in re.finditer(r'struct ([A-Za-z]+)(?:<[^>]*>)? \{(.*?)\n\}', text, re.S):
            fields = re.findall(r'^\s+(?:pub(?:\(crate\))? )?([a-z_]+): ([^,]+(?:; \d+\])?)', m.group(2), re.M)
            arrays = [f for f, t in fields if t.startswith('[')]
            lists = [f for f, t in fields if t.startswith('Vec<')]
            if arrays or len(lists) > 1:
                hits.append(f'{name}:{line_of(text, m.start())} {m.group(1)}: {", ".join(arrays + lists)} of {", ".join(f for f, t in fields)}')
    return {'structs with arrays': hits, 'arrays that are made': grep(top, r'= \[[^\]]*; (?:16|64|256|4096)\];')}


def point7(top):
    return {'a step chosen by a match': grep(top, r'match (?:rule|tally|part|asked|verb|call|kind) \{')}


def point8(top):
    answers = sorted(glob.glob(os.path.join(top, 'crates/*/proofs/**/*.antt'), recursive=True))
    lines = lambda fs: sum(len(open(f, encoding='utf8').read().splitlines()) for f in fs)
    kinds = {
        'files of answers': [f for f in answers if f.endswith('/Answers.antt')],
        'files of invariants': [f for f in answers if f.endswith('/Invariants.antt')],
        'whole proofs by hand': [f for f in answers if f.endswith('/Proof.antt')],
    }
    rest = [f for f in answers if not re.search(r'/(Answers|Invariants|Proof)\.antt$', f)]
    return {**{f'{k} ({lines(v)} lines)': [os.path.relpath(f, top) for f in v] for k, v in kinds.items()},
            f'files of lemmas ({lines(rest)} lines)': [os.path.relpath(f, top) for f in rest]}


POINTS = [point1, point2, point3, point4, point5, point6, point7, point8]


def main():
    which = sys.argv[1] if len(sys.argv) > 1 else 'all'
    top = sys.argv[2] if len(sys.argv) > 2 else '.'
    for i, point in enumerate(POINTS, 1):
        if which not in ('all', str(i)):
            continue
        for what, hits in point(top).items():
            print(f'{i}: {what}: {len(hits)}')
            if which != 'all':
                print(''.join(f'    {h}\n' for h in hits), end='')


main()
