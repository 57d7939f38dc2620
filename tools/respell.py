#!/usr/bin/env python3
"""Respells this repository's own definitions and lemmas: words in snake case.

    python3 tools/respell.py [TOP]      once, after the toolchain's port.py

It takes the names that specs/*.antt and the lemma files proofs/*.antt declare and that imports give, and turns those with a dash or with a capital
inside a lower-case word. Names that Rattle makes (in proofs/F/), names from src/, types and modules keep their spelling.
It prints each name that it turns, and stops, with nothing written, where two names would fall together.
"""
import glob
import os
import re
import sys

DECL = re.compile(r'^\s*(?:(?:unfoldable|abbrev|pub|opaque)\s+)*(?:(?:record|data|ruleset)\s+)?([^\s:{(]+)(?:\s*\{[^}]*\})?\s*(?:\(.*\)\s*)?:\s')
ALIAS = re.compile(r'(?<=[\w?.-] as )[a-z][A-Za-z0-9_?]*(?:-[A-Za-z0-9_?]+)+(?=[,}\s])')
TOKEN = re.compile(r"[^\s(){}\[\].;,:«»`'\"]+'*|'")
CODE = re.compile(r"[A-Za-z_?][A-Za-z0-9_?']*(?:-[A-Za-z0-9_?']+)+|[a-z][a-z0-9_]*[A-Z][A-Za-z0-9_]*")
# names that would fall together with a field, a function of src/ or its theorem
APART = {
    'refused-line': 'refusal_line', 'read-sheet': 'read_sheet_lem', 'turns-of-rounds': 'turns_of_rounds_lem',
    'rounds-below-turns': 'rounds_below_turns_lem', 'layers-stand': 'layers_stand_lem', 'matching-stands': 'matching_stands_lem',
    'stack-stands': 'stack_stands_lem', 'chain-unique': 'chain_unique_lem', 'chain-short': 'chain_short_lem',
    'tall-unique': 'tall_unique_lem', 'depths-chain': 'depths_chain_lem', 'depths-tall': 'depths_tall_lem',
    'depths-greatest': 'depths_greatest_lem', 'tall-depths': 'tall_depths_lem', 'sizes-exist': 'sizes_exist_lem',
    'size-unique': 'size_unique_lem', 'size_low': 'size_low_lem', 'size-sum': 'size_sum_lem', 'size-rule': 'size_rule_lem',
}
NOT = {'use', 'mod', 'module', 'where', 'let', 'in', 'λ', '→', '×'}


def snake(name):
    if name in APART:
        return APART[name]
    words = re.sub(r'([a-z0-9])([A-Z])', r'\1_\2', name.replace('-', '_'))
    return words if words[:1].isupper() else words.lower()


def files(top, *patterns):
    out = []
    for p in patterns:
        out += glob.glob(os.path.join(top, p), recursive=True)
    return sorted(f for f in set(out) if '/out/' not in f)


def declared(top):
    names = set()
    for f in files(top, 'crates/*/specs/*.antt', 'crates/*/proofs/*.antt'):
        for line in open(f, encoding='utf-8'):
            m = DECL.match(line)
            if m and not line.lstrip().startswith('--') and m.group(1) not in NOT:
                names.add(m.group(1))
    for f in files(top, 'crates/*/specs/*.antt', 'crates/*/proofs/**/*.antt', 'crates/*/src/**/*.rt'):
        names.update(ALIAS.findall(open(f, encoding='utf-8').read()))
    return names


def main():
    top = sys.argv[1] if len(sys.argv) > 1 else '.'
    names = declared(top)
    turn = {n: snake(n) for n in names if re.fullmatch(r"[a-z][A-Za-z0-9_?'-]*", n) and snake(n) != n}
    clash = [(n, t) for n, t in turn.items() if t in names and t not in turn]
    back = {}
    for n, t in turn.items():
        if t in back:
            clash.append((n, back[t]))
        back[t] = n
    texts = {}
    crates = '|'.join(os.path.basename(os.path.dirname(f)) for f in files(top, 'crates/*/src'))
    for f in files(top, 'crates/**/*.antt'):
        texts[f] = open(f, encoding='utf-8').read()
        here = set(TOKEN.findall(texts[f]))
        clash += [(n, t + ' in ' + f) for n, t in turn.items() if n in here and t in here and t not in turn]
    if clash:
        for n, t in clash:
            print('falls together: %s and %s' % (n, t))
        sys.exit(1)
    put = lambda m: turn.get(m.group(0), m.group(0))
    for f, text in texts.items():
        # in proofs/F/ what stands after a dot and has a dash is a step of the walk, which Rattle names
        made = re.search(r'/proofs/.*/', f) is not None
        # and what a file takes from the libraries keeps its spelling there
        kept = set(TOKEN.findall(' '.join(l for l in text.split('\n') if re.match(r'(pub )?use (?!Rattle[.](%s)[.])' % crates, l))))
        step = lambda m: m.group(0) if m.group(0) in kept else m.group(0) if made and '-' in m.group(0) and m.string[m.start() - 1:m.start()] == '.' else put(m)
        lines = [l if l.lstrip().startswith('--') and '`' not in l else TOKEN.sub(step, l) for l in text.split('\n')]
        new = '\n'.join(lines)
        if new != text:
            open(f, 'w', encoding='utf-8').write(new)
    # in code only clauses and ghost items have such names; pages and edits name them in back quotes or clauses
    for f in files(top, 'crates/*/src/**/*.rt', 'crates/*/must-fail/*.edit'):
        text = open(f, encoding='utf-8').read()
        new = '\n'.join(CODE.sub(put, l) if re.search(r'ghost|ensures|requires|λ|[⌜≡≤×→]|[.]Silent[.]', l) else l for l in text.split('\n'))
        if new != text:
            open(f, 'w', encoding='utf-8').write(new)
    for f in files(top, 'README.md', 'docs/*.md'):
        if os.path.basename(f) == 'PORT.md':
            continue
        text = open(f, encoding='utf-8').read()
        new = re.sub(r'`[^`\n]*`', lambda q: CODE.sub(put, q.group(0)), text)
        if new != text:
            open(f, 'w', encoding='utf-8').write(new)
    for n in sorted(turn):
        print('%s -> %s' % (n, turn[n]))


main()
