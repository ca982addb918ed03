#!/usr/bin/env python3
"""Compares the definitions, theorems and contracts at the end of the port, which is the commit that docs/DESIGN-PASS.md begins with, with those of the
commit that docs/PORT.md begins with, up to spelling.

usage: tools/same_words.py     at the top of the repository

Names are turned by docs/port-names.tsv; imports, comments, brackets and white space are left out, and a clause's binder, its corners and the older words for a
reference's values are read as today's. It prints each place that still differs, and the counts. Of a file of proofs/ only the statements are compared.
"""
import difflib, os, re, subprocess, sys

os.chdir(os.path.join(os.path.dirname(os.path.abspath(__file__)), '..'))
BEGAN = open('docs/PORT.md', encoding='utf-8').readline().strip()
ENDED = open('docs/DESIGN-PASS.md', encoding='utf-8').readline().strip()
NAMES = {}
with open('docs/port-names.tsv', encoding='utf-8') as table:
    for row in table:
        crate, file, old, new = row.rstrip('\n').split('\t')
        NAMES[old] = new
# words of the library
LIBRARY = {'getD': 'get_or', 'toZ': 'to_z', 'ofZ': 'of_z', 'ltZ': 'lt_z', 'leZ': 'le_z', 'nonNeg': 'non_neg', 'natAbs': 'nat_abs', 'bitAnd': 'bit_and', 'bitOr': 'bit_or',
           'negℤ': 'neg_ℤ'}
NAMES.update(LIBRARY)
SPLIT = re.compile(r'([\s(){}\[\],;."`]+)')


def git(*words):
    return subprocess.run(['git', *words], capture_output=True, text=True, check=True).stdout


def ported(path):
    try:
        return git('show', ENDED + ':' + path)
    except subprocess.CalledProcessError:
        return ''


def respelled(text):
    text = re.sub(r'\s\.(?=\w)', '.', text).replace("′", "'").replace("″", "''")
    return ''.join(NAMES.get(w, w) for w in SPLIT.split(text))


def words(text, old):
    text = respelled(text) if old else text
    text = re.sub(r'_([^\w\s]+)_', r'◌\1◌', text) if old else text
    text = re.sub(r'[()«»·]', ' ', text)
    text = re.sub(r'\s*\.\s*', '.', text)
    return re.sub(r'([;,{}])', r' \1 ', text).split()


def code(text):
    return '\n'.join(re.split(r'(?:^|\s)--(?:\s|$)', x, maxsplit=1)[0] for x in text.split('\n') if not re.match(r'\s*(pub )?use ', x))


def statements(text):
    """Each name that a file of lemmas declares, with its type."""
    found, lines = [], code(text).split('\n')
    for i, line in enumerate(lines):
        m = re.match(r'( *)((?:abbrev |unfoldable |pub )*)([^\s:(){}]+) : ?(.*)', line)
        if not m:
            continue
        indent, parts, j = len(m.group(1)), [m.group(4)], i + 1
        while j < len(lines) and lines[j].strip() and len(lines[j]) - len(lines[j].lstrip()) > indent:
            parts.append(lines[j])
            j += 1
        found.append((m.group(3), ' '.join(parts)))
    return found


FN = re.compile(r'(?:pub )?(?:extern "C" )?fn (\w+)(?:<[^>(]*>)?\s*\(([^)]*)\)\s*(?:->[^{\n]*?)?\s*((?:(?:requires|ensures)[^{]*\{.*?\}\s*)*)\{', re.S)
CLAUSE = re.compile(r'(requires|ensures)\s*\w*\s*\{(.*?)\}\s*(?=requires|ensures|$)', re.S)


def contracts(text):
    for m in FN.finditer(re.sub(r'//[^\n]*', '', text)):
        lent = {p.split(':')[0].strip() for p in m.group(2).split(',') if '&mut' in p} | ({'self'} if '&mut self' in m.group(2) else set())
        yield m.group(1), lent, CLAUSE.findall(m.group(3))


def clause(kind, text, lent):
    """An older clause in today's words, but for names."""
    text = re.sub(r'\s\.(?=\w)', '.', ' '.join(text.split()))
    m = re.match(r'λ (\w+)\.\s*', text)
    if kind == 'ensures' and m:
        text = re.sub(r"(?<![\w.'])%s(?![\w'])" % m.group(1), 'result', text[m.end():])
    first = lambda m: m.group(1) + ('.old' if m.group(1) in lent else '.now')
    text = re.sub(r'now \((\w+)\.exit\)', r'\1.new', text.replace('⌜', '').replace('⌝', ''))
    return re.sub(r'now (\w+)', first, re.sub(r'now \((\w+)\.entry\)', first, text))


def show(where, a, b):
    for tag, i, j, k, l in difflib.SequenceMatcher(None, a, b, autojunk=False).get_opcodes():
        if tag != 'equal':
            print('%s: %s => %s' % (where, ' '.join(a[max(0, i - 3):j + 3])[:160], ' '.join(b[max(0, k - 3):l + 3])[:160]))


def main():
    counts = {'definitions': 0, 'statements': 0, 'contracts': 0}
    differ = 0
    for path in git('ls-tree', '-r', '--name-only', BEGAN, 'crates').split('\n'):
        parts = path.split('/')
        if path.endswith('.antt') and parts[2] == 'specs':
            before, since = code(git('show', BEGAN + ':' + path)), code(ported(path))
            counts['definitions'] += len(statements(before))
            a, b = words(before, True), words(since, False)
            differ += a != b
            show(path, a, b)
        elif path.endswith('.antt') and len(parts) == 4:
            since = {}
            for n, t in statements(ported(path)):
                since.setdefault(n, []).append(t)
            for n, t in statements(git('show', BEGAN + ':' + path)):
                counts['statements'] += 1
                new = NAMES.get(n, n)
                a, bs = words(t, True), [words(x, False) for x in since.get(new, [])]
                if a not in bs:
                    differ += 1
                    if bs:
                        show('%s %s' % (path, new), a, bs[0])
                    else:
                        print('%s: %s is gone' % (path, n))
        elif path.endswith('.rt'):
            before, since = list(contracts(git('show', BEGAN + ':' + path))), {n: (l, c) for n, l, c in contracts(ported(path))}
            for n, lent, old in before:
                counts['contracts'] += 1
                if n not in since:
                    differ += 1
                    print('%s: %s is gone' % (path, n))
                    continue
                a = [(k, words(clause(k, t, lent), True)) for k, t in old]
                b = [(k, words(t, False)) for k, t in since[n][1]]
                if a != b:
                    differ += 1
                    print('%s: %s' % (path, n))
                    for x, y in zip(a, b):
                        if x != y:
                            print('    was %s { %s }\n    is  %s { %s }' % (x[0], ' '.join(x[1]), y[0], ' '.join(y[1])))
                    if len(a) != len(b):
                        print('    had %d clauses, has %d' % (len(a), len(b)))
    print('compared with %s: %s; %d places differ by more than spelling' % (BEGAN[:8], ', '.join('%d %s' % (v, k) for k, v in counts.items()), differ))


if __name__ == '__main__':
    main()
