#!/usr/bin/env python3
"""Takes the dash out of the repository's own names where it joins plain words, after tools/respell.py, which kept it too often.

usage: tools/respell_lemmas.py [--list] [ROOT]      once, at the top

A dash joins two names, as in length-splice; a plain word is added with an underscore, as in stays_well. A name is a public definition of specs/, or one of the words
of the library below. It stops where two names would fall together and leaves a name that a goal has too.
"""
import glob, importlib.util, os, re, sys

here = os.path.dirname(os.path.abspath(__file__))
args = [a for a in sys.argv[1:] if not a.startswith('--')]
root = os.path.abspath(args[0] if args else '.')
listing = '--list' in sys.argv
sys.argv = ['respell', root]
spec = importlib.util.spec_from_file_location('respell', os.path.join(here, 'respell.py'))
respell = importlib.util.module_from_spec(spec)
spec.loader.exec_module(respell)
WORDS = respell.WORDS | set('zero suc one true false none some accepted refused'.split())
PUBLIC = re.compile(r'^ *(?:(?:abbrev|unfoldable|opaque) )*pub (?:(?:abbrev|unfoldable) )*([^\s:(){}]+) :', re.M)


def main():
    kinds, texts, defined = {}, {}, set(WORDS)
    for p in respell.files():
        texts[p] = open(p, encoding='utf-8').read()
        if respell.lemmas(p):
            for name, kind in respell.declared(texts[p]):
                kinds.setdefault(name, set()).add(kind)
        if '/specs/' in p:
            defined |= {n for n in PUBLIC.findall(texts[p]) if kinds.get(n) == {'word'}}
    for p in sorted(glob.glob(root + '/crates/*/must-fail/*.edit')):
        texts[p] = open(p, encoding='utf-8').read()
    table = {}
    for name in kinds:
        if '-' not in name or '◌' in name or name.startswith('-') or name.endswith('-'):
            continue
        parts = name.split('-')
        new = parts[0]
        for a, b in zip(parts, parts[1:]):
            fact = b[:1].isupper() or a[:1].isupper()
            joins = (a in defined and b in defined) or fact or not re.match(r'\w', b) or not re.search(r'\w$', a)
            new += ('-' if joins else '_') + b
        if new != name:
            table[name] = new
    bad = 0
    taken = {}
    for n in kinds:
        taken.setdefault(table.get(n, n), set()).add(n)
    for new, names in sorted(taken.items()):
        if len(names) > 1 and any(n in table for n in names):
            turned = [n for n in names if n in table]
            # the definition has the plain name, and a lemma beside it ends in _lem
            if len(names) == 2 and len(turned) == 1 and new + '_lem' not in taken:
                table[turned[0]] = new + '_lem'
            else:
                print('falls together:', new, sorted(names))
                bad += 1
    goals = set()
    for t in texts.values():
        goals |= set(re.findall(r"\bgoal\.([\w'-]+)", t)) | set(re.findall(r"\bc\.([\w'-]+)", t))
    # a lemma whose name a goal or a step has too keeps it, since the check makes those
    for n in sorted(set(table) & goals):
        del table[n]
    if listing:
        for n in sorted(table):
            print(n, table[n])
        return 0
    if bad:
        print('%d names: nothing was written' % bad)
        return 1
    changed = 0
    for p, t in texts.items():
        foreign = respell.brought(t)
        new = ''.join(table[b] if b in table and b not in foreign else b for b in respell.SEP.split(t))
        if new != t:
            changed += 1
            open(p, 'w', encoding='utf-8').write(new)
    print('%d names, %d files' % (len(table), changed))
    return 0


if __name__ == '__main__':
    sys.exit(main())
