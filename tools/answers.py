#!/usr/bin/env python3
"""Turns each proofs/F/Proof.antt of a crate, which passes every goal of F to tie.spec, to proofs/F/Invariants.antt and proofs/F/Answers.antt.

usage: tools/answers.py CRATE NAMES [F..]     NAMES: the folder that `rt check --generated NAMES --old-names` wrote, run in the crate's folder

What a goal and a step were called, and are called now, stands in NAMES/names.json. A path c.before.before.STEP is followed from place to place to the step that it
names; an answer that only says `search rules` goes, since the check tries that itself.
"""
import glob, json, os, re, sys

crate, names = sys.argv[1:3]
only = sys.argv[3:]
root = 'crates/%s/proofs/' % crate
data = json.load(open(os.path.join(names, 'names.json'), encoding='utf-8'))


def plain(n):
    return re.sub(r'^(overflow|nonzero|bounds)-', '', n.replace('_', '-'))


def blocks(text):
    """The top-level declarations of a file, each as its lines; `use` lines apart."""
    uses, out, cur = [], [], []
    for line in text.split('\n'):
        if line.startswith('use '):
            uses.append(line)
        elif not line.strip():
            if cur:
                out.append(cur)
            cur = []
        elif re.match(r'(abbrev|pub|unfoldable|module|data|record|\S+ :)', line) and cur and not cur[-1].startswith('--') and re.match(r'(?:abbrev |pub |unfoldable )*\S+ :', line):
            out.append(cur)
            cur = [line]
        else:
            cur.append(line)
    if cur:
        out.append(cur)
    return uses, out


def same_step(old, word):
    return plain(old) == plain(word) or re.sub(r'\d+$', '', plain(old)) == re.sub(r'\d+$', '', plain(word))


def named(fields, rest):
    if not fields or not rest or not rest[0].isdigit():
        return rest
    k = 0
    while True:
        if k == len(fields) - 1:
            return [fields[k]] + rest
        if not rest or not rest[0].isdigit():
            return ['(' + '?'.join(fields[k:]) + ')'] + rest
        d, rest = rest[0], rest[1:]
        if d == '0':
            return [fields[k]] + rest
        k += 1


def lent_params(callee):
    """The names of a function's `&mut` parameters."""
    words = (callee or '').split('::')
    for p in glob.glob('crates/%s/src/*.rt' % words[0]):
        m = re.search(r'fn %s(?:<[^(]*>)?\(([^)]*)\)' % re.escape(words[-1]), open(p, encoding='utf-8').read())
        if m:
            return [x.split(':')[0].strip().split(' ')[-1] for x in m.group(1).split(',') if '&mut' in x]
    return []


def split_tuple(text):
    """The parts of a text that is one (a, b, ..), else None."""
    text = text.strip()
    if not (text.startswith('(') and text.endswith(')')):
        return None
    depth, parts, cur = 0, [], ''
    for i, ch in enumerate(text):
        if ch in '([{':
            depth += 1
            if depth == 1:
                continue
        elif ch in ')]}':
            depth -= 1
            if depth == 0:
                if i != len(text) - 1:
                    return None
                parts.append(cur)
                break
        if ch == ',' and depth == 1:
            parts.append(cur)
            cur = ''
        else:
            cur += ch
    parts = [x.strip() for x in parts]
    if parts and not parts[-1]:
        parts.pop()
    return parts if len(parts) > 1 else None


def as_record(body, fields):
    """An answer of several clauses, which was a pair or nested pairs, as a record."""
    at = 0
    depth = 0
    # the last part of a chain of lets
    for m in re.finditer(r'[(\[{)\]}]|(?<=\s)in\s', body):
        if m.group(0) in '([{':
            depth += 1
        elif m.group(0) in ')]}':
            depth -= 1
        elif depth == 0:
            at = m.end()
    head, last = body[:at], body[at:]
    parts = split_tuple(last)
    if not parts:
        return None
    while len(parts) < len(fields):
        more = split_tuple(parts[-1])
        if not more:
            return None
        parts = parts[:-1] + more
    if len(parts) != len(fields):
        return None
    lead = re.match(r'\s*', last).group(0)
    return head + lead + 'record { ' + '; '.join('%s = %s' % (f, x) for f, x in zip(fields, parts)) + ' }'


class Fn:
    def __init__(self, path, info):
        self.path, self.info = path, info
        self.places = {p[0]: p for p in info['places']}
        self.clauses = {p[0]: c for p, c in zip(info['places'], info['clauses'])}
        self.arms = {p[0]: c for p, c in zip(info['places'], info['arms'])}
        self.typed = {p[0]: c for p, c in zip(info['places'], info['typed'])}
        self.said = []

    def step(self, place, word):
        """The new name of the step `word` of a place."""
        if word in ('args', 'requires', 'ranges', 'lifetimes'):
            return word
        p = self.places[place]
        old, new = p[2]
        if same_step(old, word):
            return new
        self.said.append('no step %s at %s (%s)' % (word, place, old))
        return None

    def clause(self, place, word, rest):
        """rest with a numbered clause by its name: the clauses were a pair whose second part is the pair of the others."""
        if word == 'requires':
            return named((self.info['pre'] or {}).get('fields'), rest)
        if rest[:1] in (['new'], ['auto']) and rest[1:2] and rest[1].isdigit():
            lent = lent_params(self.places[place][3])
            if int(rest[1]) < len(lent):
                return [rest[0], lent[int(rest[1])]] + rest[2:]
        if rest[:1] in (['ensures'], ['requires']):
            return rest[:1] + named((self.clauses.get(place) or {}).get('fields'), rest[1:])
        return rest

    def chains(self, body, goal):
        bound = {'c': goal}
        # let x = c.before.before in: x stands at a place
        pat = re.compile(r"let ([\w']+) = (\w+)((?:\.before)+) in\s*")
        while True:
            m = next((m for m in pat.finditer(body) if m.group(2) in bound), None)
            if not m:
                break
            at = self.climb(bound[m.group(2)], m.group(3).count('.before'))
            bound[m.group(1)] = at
            body = body[:m.start()] + body[m.end():]
        path = re.compile(r"(?<![\w.'-])(%s)((?:\.[^\s.(){}\[\],;]+)+)" % '|'.join(bound))
        # let x = c.before.f.ensures in: its clauses are named too
        for m in list(re.finditer(r"let ([\w']+) = (%s)((?:\.before)*)\.((?:[\w-]+\.)?)(requires|ensures|new) in" % '|'.join(bound), body)):
            word = m.group(4)[:-1] or 'requires'
            at = self.near(goal, self.climb(bound[m.group(2)], m.group(3).count('.before')), word)
            if m.group(5) == 'new':
                lent = lent_params(self.places[at][3]) if at else []
                body = re.sub(r"(?<![\w.'-])%s\.(\d+)" % re.escape(m.group(1)), lambda k: m.group(1) + '.' + lent[int(k.group(1))] if int(k.group(1)) < len(lent) else k.group(0), body)
                continue
            fields = ((self.info['pre'] or {}) if word == 'requires' else (self.clauses.get(at) or {})).get('fields')
            if fields:
                body = re.sub(r"(?<![\w.'-])%s((?:\.\d+)+)" % re.escape(m.group(1)), lambda k: '.'.join([m.group(1)] + named(fields, k.group(1)[1:].split('.'))), body)

        def turn(m):
            place, parts = bound[m.group(1)], m.group(2)[1:].split('.')
            n = 0
            while n < len(parts) and parts[n] == 'before':
                n += 1
            place = self.climb(place, n)
            if n == len(parts):
                self.said.append('cannot follow ' + m.group(0))
                return m.group(0)
            place = self.near(goal, place, parts[n])
            if place is None:
                self.said.append('cannot follow ' + m.group(0))
                return m.group(0)
            known = [v for v, s in self.typed.get(goal, []) if plain(s) == plain(parts[n])]
            if known and parts[n + 1:n + 2] == ['given']:
                return '.'.join(['c', 'type_inv', known[0]] + parts[n + 2:])
            arm = self.arm(goal, place, parts[n:])
            if arm:
                return '.'.join(['c'] + arm)
            word = self.step(place, parts[n])
            if word is None:
                return m.group(0)
            rest = parts[n + 1:]
            again = dict(self.places[place][4] or [])
            if rest and rest[0] in again:
                rest = [again[rest[0]]] + rest[1:]
            rest = self.clause(place, word, rest)
            return '.'.join(['c', word] + rest)

        # let x = c.before.f in: x stands for a call
        for m in list(re.finditer(r"let ([\w']+) = (%s)((?:\.before)*)\.([\w-]+) in" % '|'.join(bound), body)):
            if m.group(4) in ('before', 'args', 'requires', 'ranges', 'lifetimes'):
                continue
            at = self.near(goal, self.climb(bound[m.group(2)], m.group(3).count('.before')), m.group(4))
            if at and self.places[at][3]:
                body = re.sub(r"(?<![\w.'-])%s\.((?:new|auto|ensures)(?:\.\d+)+)" % re.escape(m.group(1)), lambda k: '.'.join([m.group(1)] + self.clause(at, m.group(4), k.group(1).split('.'))), body)
        body = path.sub(turn, body)
        for b in bound:
            if b != 'c' and re.search(r"(?<![\w.'-])%s(?![\w'-])" % b, body):
                self.said.append('%s still stands for a place' % b)
        return body

    def near(self, goal, place, word):
        """The place that the path meant: where today's walk has fewer places, the nearest above the goal that has such a step."""
        if word in ('args', 'requires', 'ranges', 'lifetimes'):
            return self.info['places'][0][0]
        at = goal
        seen = []
        while at is not None:
            seen.append(at)
            at = self.places[at][1]
        if place in seen and same_step(self.places[place][2][0], word):
            return place
        good = [p for p in seen if plain(self.places[p][2][0]) == plain(word)] or [p for p in seen if same_step(self.places[p][2][0], word)]
        if good:
            return good[0]
        return place if place is not None else None

    def arm(self, goal, place, parts):
        """The path of a fact of a match's arm, which has one step now for what were several."""
        at = goal
        while at is not None:
            it = self.arms.get(at)
            if it:
                over, q = [], at
                for _ in range(it[1]):
                    over.append(q)
                    q = self.places[q][1]
                if place in over:
                    for field, old, path in sorted(it[2], key=lambda x: -len(x[2])):
                        if plain(old) == plain(parts[0]) and parts[1:1 + len(path)] == path:
                            if field.endswith('-own') and parts[1 + len(path):][:1] != ['rest']:
                                return [it[0]] + parts[1 + len(path):]
                            return [it[0], field] + parts[1 + len(path):]
            at = self.places[at][1]
        return None

    def climb(self, place, n):
        for _ in range(n):
            if place is None:
                return None
            place = self.places[place][1]
        return place

    def live(self, k, lines):
        """The body of an invariant or measure over l."""
        text = '\n'.join(lines)
        m = re.match(r'\S+((?: \S+)*?) =\s*', text)
        params, body = m.group(1).split(), text[m.end():]
        (old, new), vars_ = self.info['loops'][k]
        changed = self.info['changed'][k]
        want = [('l.initial.' + v if ch else 'l.' + v) for v, ch in zip(vars_, changed)] + ['l.' + v for v, ch in zip(vars_, changed) if ch]
        if len(want) != len(params):
            self.said.append('loop %s has %d variables, its invariant %d' % (new, len(want), len(params)))
        table = dict(zip(params, want))
        return re.sub(r"(?<![\w.'-])(%s)(?![\w'-])" % '|'.join(re.escape(p) for p in sorted(table, key=len, reverse=True)), lambda m: table[m.group(1)], body) if table else body

    def turn(self, text):
        uses, parts = blocks(text)
        dead = re.compile(r'use Rattle\.\S+\.(?:Statement\.\{statement\}|Tie as tie|Tie\.\{.*\}|Lts as lts|\S*Reads as \S+|Kinds as \S+)$')
        uses = [u for u in uses if not dead.match(u) and not re.search(r'\.Reads as \S+$', u)]
        inv, ans, helpers = [], [], []
        order = [plain(o) for o, _ in self.info['needs']]
        loops = {plain(l[0][0]): i for i, l in enumerate(self.info['loops'])}
        for b in parts:
            notes = [x for x in b if x.startswith('--')]
            b = [x for x in b if not x.startswith('--')]
            if not b:
                continue
            head = b[0]
            m = re.match(r'abbrev (?:pub )?(\S+) : tie\.(invariant|decreases)-(\S+)$', head)
            if m:
                k = loops.get(plain(m.group(3)))
                if k is None:
                    self.said.append('no loop ' + m.group(3))
                    continue
                new = self.info['loops'][k][0][1]
                name = '%s-%s' % (m.group(2), new)
                notes = [x for x in notes if not re.match(r'-- src/', x)]
                opened = [x for x in b[1:] if x.startswith('unfolding')]
                inv.append('\n'.join(notes + ['abbrev pub %s : goal.%s' % (name, name)] + opened + ['%s l = %s' % (name, self.live(k, [x for x in b[1:] if not x.startswith('unfolding')]))]))
                continue
            sig = ' '.join(b)
            m = re.match(r'(\S+) :\s+tie\.Need-(\S+)', sig)
            if m:
                word = plain(m.group(2))
                # the signature may go over several lines: the body begins with the answer's own name
                i = next(i for i, x in enumerate(b) if i and (x.startswith(m.group(1) + ' ') or x.startswith('unfolding')))
                opened = []
                while b[i].startswith('unfolding'):
                    opened.append(b[i])
                    i += 1
                body = '\n'.join(b[i:])
                if word not in order and re.search(r'= search rules$', body.strip()):
                    continue
                if word not in order:
                    self.said.append('no goal %s of %s' % (word, order))
                    continue
                k = order.index(word)
                new = self.info['needs'][k][1]
                place = self.info['asked_at'][k][0]
                h = re.match(r'%s((?: \S+)*?) =\s*' % re.escape(m.group(1)), body)
                heads = [x for x in h.group(1).split() if x != 'κs']
                body = body[h.end():]
                if body.strip() == 'search rules' and not opened:
                    continue
                if 'κs' in body:
                    self.said.append('κs in ' + new)
                body = self.chains(body, place)
                fields = self.info['asked'].get(self.info['needs'][k][0])
                if fields:
                    whole = as_record(body, fields)
                    if whole is not None:
                        body = whole
                    elif not body.strip().startswith('search'):
                        self.said.append('%s asks %s' % (new, ' '.join(fields)))
                sep = '\n    ' if '\n' in body or len(body) > 120 else ' '
                notes = [x for x in notes if not re.match(r'-- src/', x)]
                ans.append('\n'.join(notes + ['pub %s : goal.%s' % (new, new)] + opened + ['%s %s =%s%s' % (new, ' '.join(heads), sep, body)]))
                continue
            if re.match(r'pub \S+[-_]spec : ', head):
                continue
            helpers.append('\n'.join(notes + b))
        module = 'Rattle.%s.proofs.%s' % (crate, self.path.replace('/', '.'))
        files = {}
        if inv:
            mine = [h for h in helpers if any(used(h, i) for i in inv)]
            files['Invariants.antt'] = '\n'.join(uses + ['use %s.Given as goal' % module]) + '\n\n' + '\n\n'.join(mine + inv) + '\n'
            helpers = [h for h in helpers if h not in mine]
        if ans or helpers:
            files['Answers.antt'] = '\n'.join(uses + ['use %s.Goals as goal' % module]) + '\n\n' + '\n\n'.join(helpers + ans) + '\n'
        return {f: trim(t) for f, t in files.items()}


def used(helper, text):
    m = re.search(r'^(?:abbrev |pub |unfoldable )*(\S+) :', helper, re.M)
    return bool(m and re.search(r"(?<![\w'-])%s(?![\w'-])" % re.escape(m.group(1)), text))


def trim(text):
    """Drops the imports that the file does not use."""
    lines = text.split('\n')
    rest = '\n'.join(x for x in lines if not x.startswith('use '))
    out = []
    for x in lines:
        m = re.match(r'(use [^\s{]+\.)\{([^}]*)\}$', x)
        if m:
            kept = []
            for n in m.group(2).split(','):
                n = n.strip()
                bits = [b for b in n.split(' as ')[-1].split('◌') if b]
                if all(re.search(r"(?<![\w'-])%s(?![\w'-])" % re.escape(b), rest) if re.match(r'\w', b) else b in rest for b in bits):
                    kept.append(n)
            if kept:
                out.append('%s{%s}' % (m.group(1), ', '.join(kept)))
        else:
            out.append(x)
    return '\n'.join(out)


for p in sorted(glob.glob(root + '**/Proof.antt', recursive=True)):
    path = os.path.relpath(os.path.dirname(p), root)
    if only and path not in only:
        continue
    key = 'Rattle-%s-proofs.%s.Lts' % (crate, path.replace('/', '.'))
    if key not in data:
        print('no names for', path, [k for k in data if path.split('/')[-1] in k][:3])
        continue
    f = Fn(path, data[key])
    try:
        made = f.turn(open(p, encoding='utf-8').read())
    except Exception as e:
        print('failed', path, type(e).__name__, e)
        continue
    for name, text in made.items():
        open(os.path.join(os.path.dirname(p), name), 'w', encoding='utf-8').write(text)
    os.remove(p)
    for s in f.said:
        print(path + ':', s)
