#!/usr/bin/env python3
# Turns proofs that gather their goals by `tie.spec` (Proof.antt) into Invariants.antt and Answers.antt. It was run
# once, after names.py. usage: answers.py NAMES CRATE.., where NAMES is the folder that `rt names NAMES` wrote.
# What it cannot turn it leaves in the answer as it stood, and says so on a line 'look:'.
import glob
import json
import os
import re
import sys

HERE = os.path.dirname(os.path.abspath(__file__))
ROOT = os.path.join(HERE, '..', '..')
def norm(s):
    """A step's name, however it was spelled."""
    s = re.sub(r'_lem$', '', s.replace('-', '_').lower())
    return {'ordered_with': 'with_order'}.get(s, s)


WORD = re.compile(r"[^\s(){};,@\"«»\[\]]+")


def clauses():
    """The names of each function's requires and ensures, by its path."""
    found = {}
    for path in glob.glob(os.path.join(ROOT, 'crates/*/src/**/*.rt'), recursive=True):
        parts = os.path.relpath(path, os.path.join(ROOT, 'crates'))[:-3].split('/')
        mods = [parts[0]] + [p for p in parts[2:] if p not in ('lib', 'main')]
        with open(path, encoding='utf-8') as f:
            lines = f.read().split('\n')
        inside, name = None, None
        for line in lines:
            impl = re.match(r'impl(?:<[^>]*>)? (?:\w+ for )?(\w+)', line)
            if impl:
                inside = impl[1]
            if line == '}':
                inside = None
            fn = re.match(r'( *)(?:pub(?:\([^)]*\))? )?(?:unsafe )?(?:extern "C" )?fn (\w+)', line)
            if fn:
                name = '::'.join(mods + ([inside] if inside and fn[1] else []) + [fn[2]])
                found[name] = {'requires': [], 'ensures': []}
            clause = re.match(r' *(requires|ensures)\*? ?(\w*) ?\{', line)
            if clause and name:
                found[name][clause[1]].append(clause[2])
    return found


CLAUSES = {}


def nested(names, rest):
    """A path into clauses that were pairs of pairs, by the clauses' names."""
    while len(names) > 1 and rest and rest[0] in '01':
        if rest[0] == '0':
            return [names[0]] + rest[1:]
        names, rest = names[1:], rest[1:]
    return names + rest if len(names) == 1 else rest


def parts_of(text):
    """The parts of a tuple's inside; a last part that is a tuple gives its own."""
    parts, depth, last = [], 0, 0
    for k, ch in enumerate(text):
        if ch in '([{':
            depth += 1
        elif ch in ')]}':
            depth -= 1
        elif ch == ',' and depth == 0:
            parts.append(text[last:k].strip())
            last = k + 1
    if text[last:].strip():
        parts.append(text[last:].strip())
    return parts


class Proof:
    def __init__(self, path, names):
        self.path, self.said, self.nots, self.goal = path, [], set(), None
        with open(path, encoding='utf-8') as f:
            self.text = f.read()
        tie = re.search(r'^use (Rattle\.(\w+)\.proofs\.(\S+))\.Tie as tie$', self.text, re.M)
        self.module, self.crate, self.fn = tie[1], tie[2], tie[3]
        self.d = names['Rattle-%s-proofs.%s.Lts' % (tie[2], tie[3])]
        self.places = {}
        for i, p in enumerate(self.d['places']):
            self.places[p[0]] = (i, p)
        self.own = CLAUSES.get('::'.join([self.crate] + self.fn.split('.')), {'requires': [], 'ensures': []})
        self.parse()

    # ---- declarations
    def parse(self):
        head, blocks, pending = [], [], []
        lines = self.text.split('\n')
        i = 0
        while i < len(lines) and (lines[i].startswith('--') or lines[i].startswith('use ')):
            head.append(lines[i])
            i += 1
        self.head = head
        chunk = []
        for line in lines[i:] + ['']:
            if line.strip() == '':
                if chunk:
                    blocks.append(chunk)
                chunk = []
            else:
                chunk.append(line)
        # a chunk that goes on indented belongs to the one before
        merged = []
        for b in blocks:
            if merged and b[0].startswith(' '):
                merged[-1] += [''] + b
            else:
                merged.append(b)
        self.decls = []
        for b in merged:
            comments = []
            while b and b[0].startswith('--'):
                comments.append(b.pop(0))
            if not b:
                self.decls.append({'name': None, 'comments': comments, 'sig': '', 'unfolding': [], 'body': '', 'lines': []})
                continue
            m = re.match(r'((?:abbrev |unfoldable |pub )*)(\S+) : ?(.*)$', b[0])
            t = re.match(r'(?:pub )?(?:record|data|module) (\S+)', b[0])
            if t:
                inner = [m[1] for l in b for m in [re.match(r' +(?:(?:abbrev|unfoldable|pub) )*(\S+) : ', l)] if m]
                module = b[0].startswith('module')
                self.decls.append({'comments': comments, 'lines': b, 'mark': 'type', 'name': t[1], 'names': inner if module else [t[1]], 'module': module, 'sig': '', 'unfolding': [], 'body': '', 'args': []})
                continue
            d = {'comments': comments, 'lines': b, 'mark': '', 'name': None, 'sig': '', 'unfolding': [], 'body': '', 'args': []}
            if m:
                d['mark'], d['name'] = m[1], m[2]
                sig, j = [m[3]], 1
                while j < len(b) and b[j].startswith(' '):
                    sig.append(b[j].strip())
                    j += 1
                d['sig'] = ' '.join(sig)
                while j < len(b) and b[j].startswith('unfolding'):
                    d['unfolding'].append(b[j])
                    j += 1
                rest = b[j:]
                defs = [l for l in rest if l.startswith(m[2] + ' ')]
                d['clauses'] = len(defs)
                if len(defs) == 1 and rest and rest[0] == defs[0]:
                    k = re.match(r'(\S+)((?: [^=\s]+)*) =(.*)$', rest[0])
                    if k:
                        d['args'] = k[2].split()
                        d['body'] = '\n'.join([k[3].strip()] + rest[1:]).strip('\n')
            self.decls.append(d)

    def kind(self, d):
        s = d['sig']
        if d['name'] is None:
            return 'comment'
        if d['mark'] == 'type':
            return 'lemma'
        if re.search(r'→ \w*\.?statement', s):
            return 'theorem'
        if re.match(r'tie\.Need-', s):
            return 'need'
        if re.match(r'tie\.(invariant|decreases)', s):
            return 'invariant'
        if re.match(r'tie\.[^\s]+ ?.* → tie\.', s) and 'abbrev' in d['mark']:
            return 'alias'
        if 'tie.' in s:
            return 'fact'
        return 'lemma'

    # ---- expressions
    def fields(self, place, fields):
        """The flat path of fields behind a place; a place where only `before` is taken."""
        i, p = self.places[place]
        while fields and fields[0] == 'before':
            place = p[1]
            if place is None:
                return None, None
            i, p = self.places[place]
            fields = fields[1:]
        if not fields:
            return place, None
        f, rest = fields[0], fields[1:]
        if f in ('args', 'blocks', 'ranges'):
            return None, '.'.join(['c', f] + rest)
        if norm(f) in ('type_inv', 'well_formed'):
            return None, '.'.join(['c', norm(f)] + rest)
        if f in ('requires', 'pre'):
            names = self.own['requires']
            if rest and rest[0].isdigit() and len(names) > 1:
                rest = nested(names, rest)
            return None, '.'.join(['c', 'requires'] + rest)
        arm = self.d['arms'][i]
        if arm:
            best = None
            for new, old, sub in arm[2]:
                if norm(old) == norm(f) and rest[:len(sub)] == sub and (best is None or len(sub) > len(best[1])):
                    best = (new, sub)
            if best:
                return None, '.'.join(['c', arm[0], best[0]] + rest[len(best[1]):])
        old, new = p[2]
        if norm(f) == norm(old):
            if rest and rest[0] == 'ensures' and len(rest) > 1 and rest[1].isdigit():
                names = CLAUSES.get(p[3] or '', {}).get('ensures', [])
                if len(names) > 1:
                    rest = ['ensures'] + nested(names, rest[1:])
            rest = [norm(r) if r == 'type-inv' else r for r in rest]
            return None, '.'.join(['c', new] + rest)
        near = self.near(place, f)
        if near and near != place:
            return self.fields(near, fields)
        self.said.append('%s has no %s' % (place, f))
        return None, '.'.join(['c', 'LOOK', f] + rest)

    def near(self, place, f):
        """The nearest place with a step of that name, above this one or on the way to the goal."""
        def chain(at):
            while at is not None:
                yield at
                at = self.places[at][1][1]

        def has(at):
            i, p = self.places[at]
            arm = self.d['arms'][i]
            return norm(p[2][0]) == norm(f) or bool(arm and any(norm(old) == norm(f) for _, old, _ in arm[2]))
        for at in list(chain(place)) + list(reversed(list(chain(self.goal) if self.goal else []))):
            if has(at):
                return at
        return None

    def turn(self, text, env):
        """The text with each path of a place flat. env: the variables that are places; what is used of the facts."""
        used = []
        out, pos = [], 0
        env = dict(env)

        def atom(at):
            """A place or a path at a position: (place, flat, end), or None."""
            if text[at:at + 1] == '(':
                m = re.compile(r'\(\s*([^\s(){};,]+)\s+').match(text, at)
                if m and m[1] in self.aliases:
                    got = atom(m.end())
                    if got and got[0] and text[got[2]:got[2] + 1] == ')':
                        return behind(self.aliases[m[1]](got[0]), got[2] + 1)
                return None
            m = WORD.match(text, at)
            if not m:
                return None
            parts = m[0].split('.')
            if env.get(parts[0]) == 'requires':
                return (None, self.fields('Start', ['requires'] + parts[1:])[1], m.end())
            if parts[0] in env:
                place, flat = self.fields(env[parts[0]], parts[1:]) if len(parts) > 1 else (env[parts[0]], None)
                return (place, flat, m.end())
            if m[0] in self.aliases:
                n = re.compile(r'\s+').match(text, m.end())
                got = n and atom(n.end())
                if got and got[0]:
                    return (self.aliases[m[0]](got[0]), None, got[2])
            return None

        def behind(place, end):
            m = re.compile(r'(\.[^\s(){};,@"«»\[\].]+)+').match(text, end)
            if not m:
                return (place, None, end)
            p, flat = self.fields(place, m[0][1:].split('.'))
            return (p, flat, m.end())

        while pos < len(text):
            ch = text[pos]
            m = re.compile(r'let (\S+) =\s+').match(text, pos)
            if m and (pos == 0 or text[pos - 1] in ' \n('):
                got = atom(m.end())
                if got and got[0]:
                    n = re.compile(r'\s+in\s*').match(text, got[2])
                    if n:
                        env[m[1]] = got[0]
                        pos = n.end()
                        continue
                if got and got[1] == 'c.requires' and len(self.own['requires']) > 1:
                    n = re.compile(r'\s+in\s*').match(text, got[2])
                    if n:
                        env[m[1]] = 'requires'
                        pos = n.end()
                        continue
            if pos == 0 or text[pos - 1] in ' \n([{;,':
                if ch == '(':
                    got = atom(pos)
                    if got and got[1]:
                        out.append(got[1])
                        pos = got[2]
                        continue
                w = WORD.match(text, pos)
                if w:
                    if w[0] in self.facts:
                        n = re.compile(r'\s+').match(text, w.end())
                        got = n and atom(n.end())
                        paren = False
                        if n and not got and text[n.end()] == '(':
                            inner = re.compile(r'\(\s*').match(text, n.end())
                            got = atom(inner.end())
                            if got and text[got[2]] == ')':
                                got = (got[0], got[1], got[2] + 1)
                            else:
                                got = None
                        if got and got[0]:
                            if w[0] not in used:
                                used.append(w[0])
                            out.append(w[0])
                            pos = got[2]
                            continue
                    got = atom(pos)
                    if got and got[1]:
                        out.append(got[1])
                        pos = got[2]
                        continue
                    if got and got[0]:
                        out.append('LOOK-place')
                        self.said.append('a place by itself: ' + text[pos:got[2]])
                        pos = got[2]
                        continue
                    out.append(w[0])
                    pos = w.end()
                    continue
            out.append(ch)
            pos += 1
        return ''.join(out), used

    def place_of(self, text):
        """The old place that a type names, as tie.After-x invariant-loop decreases-loop."""
        m = re.match(r'tie\.(\S+)', text)
        norm = lambda s: s.replace('-', '').replace('_', '').lower()
        if m[1] in self.places:
            return m[1]
        for p in self.places:
            if norm(p) == norm(m[1]):
                return p
        return None

    def answer(self, place, args, body, env=None):
        """A body turned at a place, with the facts that it uses bound before it."""
        var = args[0] if args else 'c'
        new, used = self.turn(body, {var: place})
        lets, seen = [], []

        def need(name):
            if name in seen:
                return
            fact = self.facts[name]
            sig, u1 = self.turn(fact['rest'], {fact['var']: fact['place']})
            text, u2 = self.turn(fact['body'], {(fact['args'] or ['c'])[0]: fact['place']})
            for u in u1 + u2:
                need(u)
            if name in seen:
                return
            seen.append(name)
            more = fact['args'][1:]
            text = ('λ %s. ' % ' '.join(more) if more else '') + text
            lets.append('    let %s%s = %s in' % (name, ' : ' + sig if sig else '', ' '.join(text.split())))
        for name in used:
            need(name)
        new = new.strip()
        if '\n' in new or (lets and 'let ' in new):
            new = '\n    ' + new
        if lets:
            new = '\n' + '\n'.join(lets) + '\n    ' + new.strip()
        return new

    def plain_tests(self, text):
        """A test of `!x` says now what x is, and no longer what `not x` is."""
        test = r'(c\.if-not-[^\s(){};,]+\.(?:true|false))'
        text = re.sub(r'\(not-(?:true|false) _ %s\)' % test, r'\1', text)
        text = re.sub(r'(?<![\w-])not-(?:true|false) _ %s' % test, r'\1', text)
        new = re.sub(r'(?<![\w-])check_(?:passed|failed) (\([^()]*\)|[^\s(){};,]+) %s' % test, r'(sym \1 ∙ \2)', text)
        if new != text:
            self.nots |= {'sym', '◌∙◌'}
        return new

    def tuple_to_record(self, body, names):
        """A last tuple as a record of the clauses' names."""
        if len(names) < 2:
            return body
        text = body.rstrip()

        def taken():
            m = re.match(r'((?:.*(?:\n|\s)in\s)?)(.*)$', text, re.S)
            if m[2].lstrip().startswith('record'):
                return body
            last = len(names) - 1
            each = ('%s = all%s' % (n, '.1' * i + ('' if i == last else '.0')) for i, n in enumerate(names))
            return m[1].rstrip() + '\n    let all = ' + m[2].strip() + ' in\n    record { ' + '; '.join(each) + ' }'
        if not text.endswith(')'):
            return taken()
        depth, at = 0, len(text) - 1
        while at >= 0:
            if text[at] == ')':
                depth += 1
            if text[at] == '(':
                depth -= 1
                if depth == 0:
                    break
            at -= 1
        before = text[:at].rstrip()
        if before and not re.search(r'(^|\s)in$', before):
            return taken()
        parts = parts_of(text[at + 1:-1])
        while len(parts) < len(names) and parts[-1].startswith('(') and parts[-1].endswith(')'):
            parts = parts[:-1] + parts_of(parts[-1][1:-1])
        if len(parts) != len(names):
            return taken()
        return text[:at] + 'record { ' + '; '.join('%s = %s' % (n, p) for n, p in zip(names, parts)) + ' }'

    # ---- the files
    def write(self):
        folder = os.path.dirname(self.path)
        self.aliases, self.facts = {}, {}
        lemmas, needs, invs = [], {}, []
        theorem = None
        for d in self.decls:
            k = self.kind(d)
            d['kind'] = k
            if k == 'theorem':
                theorem = d
            elif k == 'invariant':
                invs.append(d)
            elif k == 'need':
                needs[d['name']] = d
            elif k == 'alias':
                var, body = d['args'][0], d['body']
                m = re.match(r'tie\.(\S+)', d['sig'])

                def go(place, var=var, body=body):
                    hold, self_used = self.turn_place(body, {var: place})
                    return hold
                self.aliases[d['name']] = go
            elif k == 'fact':
                m = re.match(r'\((\S+) : (tie\.[^)]*)\) (?:→ )?(.*)$', d['sig']) or re.match(r'()(tie\.\S+(?: invariant-\S+| decreases-\S+)*) → (.*)$', d['sig'])
                if not m or not self.place_of(m[2]):
                    self.said.append('a fact: ' + d['name'] + ' : ' + d['sig'])
                    continue
                self.facts[d['name']] = {'var': m[1] or 'c', 'place': self.place_of(m[2]), 'rest': m[3], 'args': d['args'], 'body': d['body']}
            else:
                lemmas.append(d)
        order = self.spec_args(theorem['body'] if theorem else '')
        given = [a for a in order if not re.match(r'(invariant|decreases)-', a)]
        wanted = self.d['needs']
        if len(given) != len(wanted):
            pass
        for n, a in enumerate(given):
            target = self.find(a, needs, n, wanted, len(given) == len(wanted))
            if a in needs and target is not None and self.d['asked_at'][target][0] in self.places:
                self.facts[a] = {'var': (needs[a]['args'] or ['c'])[0], 'place': self.d['asked_at'][target][0], 'rest': '', 'args': needs[a]['args'][:1], 'body': needs[a]['body']}
        answers = []
        for n, a in enumerate(given):
            target = self.find(a, needs, n, wanted, len(given) == len(wanted))
            if target is None:
                if 'search rules' not in (needs[a]['body'] if a in needs else a):
                    self.said.append('no goal for ' + a)
                continue
            old, new = wanted[target]
            place = self.d['asked_at'][target][0]
            if a in needs:
                d = needs[a]
                args, body, unf, comments = d['args'], d['body'], d['unfolding'], d['comments']
            else:
                m = re.match(r'\(λ ([^.]*)\. (.*)\)$', a, re.S)
                if not m:
                    self.said.append('an argument of spec: ' + a)
                    continue
                args, body, unf, comments = m[1].split(), m[2], [], []
            if body.strip() in ('search rules', 'search needs') and not unf:
                continue
            if place not in self.places:
                self.said.append('no place %s' % place)
                continue
            self.goal = place
            text = self.plain_tests(self.answer(place, args, body))
            if old.split('-')[0] == 'returns' or re.match(r'returns(-\d+)?$', old):
                text = self.tuple_to_record(text, self.own['ensures'])
            if 'requires' in old:
                callee = self.d['asked'].get(old)
                if callee:
                    text = self.tuple_to_record(text, callee)
            answers.append('\n'.join(comments + ['pub %s : goal.%s' % (new, new)] + unf + ['%s c =%s%s' % (new, '' if text.startswith('\n') else ' ', text)]))
        uses = [l for l in self.head if l.startswith('use ') and not re.search(r'\.(Tie as tie|Statement\.\{statement\})$', l)]
        top = [l for l in self.head if l.startswith('--')]
        invariants = []
        body_of_invs = ''
        for d in invs:
            text = self.invariant(d)
            if text:
                invariants.append('\n'.join(d['comments']) + ('\n' if d['comments'] else '') + text)
                body_of_invs += text
        named = lambda d: d.get('names') or [d['name']]
        shared, seen = [], body_of_invs
        for d in reversed([l for l in lemmas if l['name']]):
            if any(re.search(r"(?<![^\s(){};,])%s(?![^\s(){};,.])" % re.escape(n), seen) for n in named(d)):
                shared.insert(0, d)
                seen += '\n'.join(d['lines'])
        whole = lambda d: '\n'.join(d['comments'] + d['lines'])
        if invariants:
            made = []
            for d in shared:
                first = d['lines'][0]
                if d.get('module'):
                    made.append('\n'.join(d['comments'] + [re.sub(r'^( +)((?:abbrev |unfoldable )?)(?!pub )(?=\S+ : )', r'\1\2pub ', l) if not re.match(r' +(abbrev|unfoldable) pub', l) else l for l in d['lines']]))
                    continue
                if d['mark'] == 'type':
                    made.append('\n'.join(d['comments'] + [first if first.startswith('pub') else 'pub ' + first] + [re.sub(r'^  (?!pub )(\S+ :)', r'  pub \1', l) for l in d['lines'][1:]]))
                    continue
                if 'pub' not in d['mark']:
                    first = re.sub(r'^((?:abbrev|unfoldable) )?', lambda m: (m[1] or '') + 'pub ', first, count=1)
                made.append('\n'.join(d['comments'] + [first] + d['lines'][1:]))
            self.put(os.path.join(folder, 'Invariants.antt'), '\n'.join(top + uses + ['use %s.Given as goal' % self.module]) + '\n\n' + '\n\n'.join(made + invariants) + '\n')
        if answers:
            wanted_names = [n for n in sorted(self.nots) if not re.search(r'[{ ,]%s[,}]' % re.escape(n), '\n'.join(uses))]
            extra = ['use mathlib.Core.Path.{%s}' % ', '.join(wanted_names)] if wanted_names else []
            if shared:
                extra += ['use %s.Invariants.{%s}' % (self.module, ', '.join(n for d in shared for n in named(d)))]
            kept = [whole(d) for d in lemmas if d not in shared]
            self.put(os.path.join(folder, 'Answers.antt'), '\n'.join(top + uses + extra + ['use %s.Goals as goal' % self.module]) + '\n\n' + '\n\n'.join(kept + answers) + '\n')
        os.remove(self.path)
        for line in self.said:
            print('look: %s: %s' % (self.path, line))

    def turn_place(self, body, env):
        text = body.strip()
        m = re.match(r'^\(?([^\s()]+)\)?$', text)
        if m:
            parts = m[1].split('.')
            if parts[0] in env:
                place, flat = self.fields(env[parts[0]], parts[1:]) if len(parts) > 1 else (env[parts[0]], None)
                return place, None
        m = re.match(r'^(\S+) (.*)$', text, re.S)
        if m and m[1] in self.aliases:
            inner, _ = self.turn_place(m[2].strip('()') if m[2].startswith('(') else m[2], env)
            return (self.aliases[m[1]](inner), None) if inner else (None, None)
        m = re.match(r'^\((\S+) (.*)\)((?:\.before)+)$', text, re.S)
        if m and m[1] in self.aliases:
            inner, _ = self.turn_place(m[2], env)
            if inner:
                return self.fields(self.aliases[m[1]](inner), m[3][1:].split('.'))[0], None
        self.said.append('an alias: ' + text)
        return None, None

    def spec_args(self, body):
        m = re.search(r'tie\.spec\b', body)
        if not m:
            return []
        text, args, depth, cur = body[m.end():], [], 0, ''
        for ch in text:
            if ch == '(':
                depth += 1
            if ch == ')':
                depth -= 1
                if depth < 0:
                    break
            if depth == 0 and ch in ' \n':
                if cur.strip():
                    args.append(' '.join(cur.split()))
                cur = ''
            else:
                cur += ch
        if cur.strip():
            args.append(' '.join(cur.split()))
        return args

    def find(self, a, needs, n, wanted, positional):
        if positional:
            return n
        norm = lambda s: re.sub(r'^(overflow|nonzero)_?', '', s.replace('-', '_'))
        names = [a] if a not in needs else [re.match(r'tie\.Need-(\S+)', needs[a]['sig'])[1], a]
        for name in names:
            hits = [i for i, (old, new) in enumerate(wanted) if norm(old) == norm(name) or norm(new) == norm(name)]
            if len(hits) == 1:
                return hits[0]
        return None

    def invariant(self, d):
        m = re.match(r'tie\.(invariant|decreases)-(\S+)', d['sig'])
        hit = None
        for i, (names, variables) in enumerate(self.d['loops']):
            if names[0].replace('_', '-') == m[2].replace('_', '-') or names[1].replace('_', '-') == m[2].replace('_', '-'):
                hit = i, names, variables
        if hit is None:
            self.said.append('no loop for ' + d['sig'])
            return None
        i, names, variables = hit
        changed = self.d['changed'][i]
        params = d['args']
        want = [(v, 'initial' if ch else 'own') for v, ch in zip(variables, changed)] + [(v, 'now') for v, ch in zip(variables, changed) if ch]
        if len(params) != len(want):
            self.said.append('an invariant with %d parameters, and %d wanted' % (len(params), len(want)))
            want = [(q.rstrip('₀₁₂'), 'initial' if q.endswith('₀') else 'now') for q in params]
        sub = {}
        for p, (v, what) in zip(params, want):
            sub[p] = ('l.initial.' if what == 'initial' else 'l.') + v
        body = d['body']

        def one(w):
            parts = w[0].split('.')
            if parts[0] in sub:
                return '.'.join([sub[parts[0]]] + parts[1:])
            return w[0]
        body = re.sub(r"(?<![^\s(){};,\[\]])[^\s(){};,@\"«»\[\]]+", one, body)
        new = '%s-%s' % (m[1], names[1])
        return 'abbrev pub %s : goal.%s\n%s%s l = %s' % (new, new, ''.join(u + '\n' for u in d['unfolding']), new, body)

    def put(self, path, text):
        with open(path, 'w', encoding='utf-8') as f:
            f.write(text)


def main(words):
    CLAUSES.update(clauses())
    names_folder, crates = words[0], words[1:]
    for crate in crates:
        with open(os.path.join(names_folder, 'crates', crate, 'names.json')) as f:
            names = json.load(f)
        for path in sorted(glob.glob(os.path.join(ROOT, 'crates', crate, 'proofs/**/Proof.antt'), recursive=True)):
            with open(path, encoding='utf-8') as f:
                text = f.read()
            if 'tie.spec' not in text:
                print('look: %s: a walk by hand' % path)
                continue
            try:
                Proof(path, names).write()
            except Exception as e:
                print('look: %s: %r' % (path, e))


main(sys.argv[1:])
