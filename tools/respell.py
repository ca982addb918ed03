#!/usr/bin/env python3
"""Turns the repository's own definitions, fields and lemmas to the spelling of today's Rattle, where port.py left the older one.

usage: tools/respell.py [--list] [ROOT]      once, at the top, right after port.py

Words are in snake case: zeroFrom is zero_from, and a field or a constructor not-super is not_super. In a lemma's name a dash stays where it joins the names of
two definitions, as in length-splice, and a plain word is added with an underscore, as in splice_before. Types, facts and modules keep their capitals, what the
library or the check names keeps its name, and so do the functions of src/, exported C names and strings. It stops where two names would fall together.
"""
import glob, os, re, sys

args = [a for a in sys.argv[1:] if not a.startswith('--')]
root = os.path.abspath(args[0] if args else '.')
SEP = re.compile(r'([\s(){}\[\],;."`]+)')
crates = sorted(os.path.basename(os.path.dirname(p)) for p in glob.glob(root + '/crates/*/src'))
# words of the library that own lemmas are named after
WORDS = set('length take drop set get_or replicate append cons nil add mul sub div mod pow min max le lt map fold find lookup delete insert'.split())


def files():
    for c in crates:
        for kind in ('specs', 'proofs'):
            for p in sorted(glob.glob('%s/crates/%s/%s/**/*.antt' % (root, c, kind), recursive=True)):
                yield p
        for p in sorted(glob.glob('%s/crates/%s/src/**/*.rt' % (root, c), recursive=True)):
            yield p


def lemmas(p):
    """A file of definitions or lemmas, and not one that answers a function's goals."""
    parts = os.path.relpath(p, root).split('/')
    return p.endswith('.antt') and (parts[2] == 'specs' or len(parts) == 4)


DECL = re.compile(r'^(\s*)((?:abbrev |unfoldable |pub )*)(\S+)\s+:(?:\s|$)')
HEAD = re.compile(r'^\s*(?:pub )?(?:data|record) (\S+)')


def declared(text):
    """(name, kind) for each declaration: kind is 'word' for a definition or lemma and 'member' for a field or constructor."""
    inside = None
    for line in text.split('\n'):
        if line.lstrip().startswith('--'):
            continue
        h = HEAD.match(line)
        if h:
            inside = len(line) - len(line.lstrip())
            continue
        if line.strip() and inside is not None and len(line) - len(line.lstrip()) <= inside:
            inside = None
        d = DECL.match(line)
        if d and not re.search(r'[(){}\[\],;."`]', d.group(3)):
            yield d.group(3), 'member' if inside is not None else 'word'


def snake(part):
    if part[:1].isupper() or not re.search(r'[a-z0-9][A-Z]', part):
        return part
    return re.sub(r'(?<=[a-z0-9])([A-Z])', lambda m: '_' + m.group(1).lower(), part)


KIT = re.compile(r'^\s*(?:ghost )?use ([^\s{]+)\.\{([^}]*)\}', re.M)


def brought(text):
    """The names that a file imports from elsewhere than the repository's crates."""
    found = set()
    for m in KIT.finditer(text):
        head = m.group(1).split('.')
        if not (head[0] == 'Rattle' and head[1] in crates):
            found |= {x.split(' as ')[-1].strip() for x in m.group(2).split(',')}
    return found


def falls_as_field(kinds, old, new):
    return kinds[old] == {'member'} or kinds.get(new) == {'member'}


def main():
    kinds, texts, defined = {}, {}, set()
    for p in files():
        texts[p] = open(p, encoding='utf-8').read()
        if lemmas(p):
            for name, kind in declared(texts[p]):
                kinds.setdefault(name, set()).add(kind)
                if '/specs/' in p:
                    defined.add(name)
    words = {snake(n) for n, k in kinds.items() if '-' not in n} | WORDS
    table = {}
    for name in kinds:
        if '◌' in name or name.startswith('-') or name.endswith('-'):
            continue
        parts = [snake(x) for x in name.split('-')]
        new = parts[0]
        for i, part in enumerate(parts[1:], 1):
            joins = 'member' not in kinds[name] and parts[i - 1] in words and part in words
            new += ('-' if joins or not re.match(r'\w', part) or not re.search(r'\w$', new) else '_') + part
        if new != name:
            table[name] = new
    bad = 0
    # Where two names would fall together, the definition has the plain one, a lemma ends in _lem, and a field or constructor, which stands behind a dot or in its own
    # type, may share it.
    back = {}
    for name in kinds:
        back.setdefault(table.get(name, name), set()).add(name)
    for new, names in sorted(back.items()):
        words_only = {n for n in names if 'word' in kinds[n]}
        if len(words_only) < 2:
            continue
        plain = [n for n in words_only if '-' not in n and (n != new or n in defined)]
        if len(plain) != 1:
            print('falls together:', new, sorted(names))
            bad += 1
        for n in words_only - set(plain):
            table[n] = new + '_lem'
            if new + '_lem' in back:
                print('falls together:', new + '_lem', sorted(names))
                bad += 1
    changed = {}
    for p, t in texts.items():
        foreign = brought(t)
        out = []
        for line in t.split('\n'):
            mark = '//' if p.endswith('.rt') else '--'
            code, note = (line, '') if mark not in line else (line[:line.index(mark)], line[line.index(mark):])
            if code.count('"') % 2:
                code, note = line, ''
            bits = SEP.split(code)
            bits = [table[b] if b in table and b not in foreign else b for b in bits]
            # a note speaks of words in snake case too; a dash there is mostly plain English
            said = [table[b] if b in table and b not in foreign and '-' not in b else b for b in SEP.split(note)]
            out.append(''.join(bits) + ''.join(said))
        new = '\n'.join(out)
        if new != t:
            changed[p] = new
            # a name of the same spelling that the file has already, and that is no part of a path
            have = {m.group(1) for m in re.finditer(r"(?<![\w.'-])([\w'-]+)(?![\w'-]|\.\w)", t)} if p.endswith('.antt') else foreign
            for b in set(SEP.split(t)) & set(table):
                if b not in foreign and table[b] in have and table[b] not in table and not falls_as_field(kinds, b, table[b]):
                    print('falls together in', os.path.relpath(p, root) + ':', b, table[b])
                    bad += 1
    if '--list' in sys.argv:
        for n in sorted(table):
            print(n, table[n])
        return 0
    if bad:
        print('%d names fall together: nothing was written' % bad)
        return 1
    for p, t in changed.items():
        open(p, 'w', encoding='utf-8').write(t)
    print('%d names, %d files' % (len(table), len(changed)))
    return 0


if __name__ == '__main__':
    sys.exit(main())
