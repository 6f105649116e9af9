#!/usr/bin/env python3
"""Turns proofs of the older check into today's form, as far as that goes by the text.

usage: python3 tools/convert.py NAMES CRATE [PART..]     at the top of the repository

Each proofs/../FUNCTION/Proof.antt of CRATE (a folder, as crates/buffer; with PARTs, those whose path has one of them) that answers the
needs of a `tie.spec` becomes Invariants.antt and Answers.antt beside it, and goes. NAMES is the folder that `rt names NAMES` wrote: it has
the older and today's name of each goal and each step. What rattle tries by itself is left out (`search rules`, `omega arith`, `refl`, and
what says that a slice kept its length). What was not turned is printed; a proof of a cycle of functions or one without `tie.spec` stays.
"""
import glob
import json
import os
import re
import sys

NAME = r'[^\s(){}.;,@"«»]+'
FOUND_BY_ITSELF = {'search rules', 'omega arith', 'refl'}
# a goal's kind in the text that port.py leaves, and in the names that rt lists
KINDS = [('overflow_', ''), ('slice_bounds_', 'part_'), ('slice_bounds_', 'slice_aggregate_'), ('bounds_', 'slice_read_'),
         ('slice_bounds_', 'sub_')]


def plain(name):
    """A name without what the two spellings differ in."""
    return re.sub(r'_lem(?=\d*$)', '', name.replace('-', '_').lower())


def stem(name):
    """A plain name without the number behind it."""
    return re.sub(r'\d+$', '', plain(name))


def number(name):
    return int(re.search(r'(\d*)$', name)[1] or 1)


class Function:
    """What rt lists of a function: its goals, and its places, each a step of the code behind another one."""

    def __init__(self, listed):
        self.loops, self.changed, self.arms, self.typed, self.settled = (
            listed[it] for it in ('loops', 'changed', 'arms', 'typed', 'settled'))
        self.order = [new for _, new in listed['needs']]
        self.goals = {}
        for old, new in listed['needs']:
            self.goals.setdefault(plain(old), new)
        self.asked_at = {new: old for (_, new), (old, _) in zip(listed['needs'], listed['asked_at'])}
        self.places = listed['places']
        self.index = {place[0]: i for i, place in enumerate(self.places)}

    def behind(self, i):
        above = self.places[i][1]
        return self.index.get(above) if above else None

    def label(self, i):
        """The older and today's name of a step, or None."""
        label = self.places[i][2]
        return label if label and label[0] else None

    def outwards(self, goal):
        """The places from a goal's to the function's start; of an unknown goal all, the last first."""
        place = self.asked_at.get(goal)
        if place not in self.index:
            return list(range(len(self.places)))[::-1]
        i, found = self.index[place], []
        while i is not None:
            found.append(i)
            i = self.behind(i)
        return found

    def goal(self, old):
        old = plain(old)
        for word, other in [('', '')] + KINDS:
            if old.replace(word, other) in self.goals:
                return self.goals[old.replace(word, other)]
        return None

    def kept_lengths(self, text, places):
        """Older labels under which a text cites that a variable kept its length, each with the place that it is of: the highest number is
        the nearest one."""
        cited = {}
        for m in re.finditer(rf'\.({NAME})\.given(?![.\w])', text):
            cited.setdefault(stem(m[1]), set()).add(m[1])
        found = {}
        for variable, labels in cited.items():
            near = [i for i in places if self.label(i) and stem(self.label(i)[0]) == variable]
            found.update(zip(sorted(labels, key=number, reverse=True), near))
        return found

    def call_of(self, i):
        """The call behind which the place of a kept length stands."""
        i = self.behind(i)
        while self.places[i][3] is None and self.behind(i) is not None and not self.places[i][0].startswith('At-'):
            i = self.behind(i)
        return self.places[i][2][1]

    def in_arm(self, label, rest, places):
        """A field of an arm of a match, which was several steps."""
        best = None
        for i in places:
            for new, old, fields in self.arms[i][2] if self.arms[i] else []:
                fits = fields and plain(old) == plain(label) and rest[:len(fields)] == list(fields)
                if fits and (best is None or len(fields) > best[0]):
                    best = len(fields), self.arms[i][0], new
        return best and [best[1], best[2]] + rest[best[0]:]

    def of_type(self, label, places):
        """The variable whose type says what a label like `slice_known2` cites."""
        known = [(v, old) for v, old in (self.typed[places[0]] if places else []) if stem(old) == stem(label)]
        exact = [v for v, old in known if plain(old) == plain(label)]
        if len({v for v, _ in known}) == 1:
            return known[0][0]
        return exact[0] if len(exact) == 1 else 'VAR-' + '|'.join(f'{v}:{plain(old)}' for v, old in known)

    def path(self, label, rest, places, kept):
        """Today's path for a label with the fields behind it, or None."""
        if plain(label) in ('args', 'requires', 'ranges', 'fn'):
            return [label] + rest
        arm = self.in_arm(label, rest, places)
        if arm:
            return arm
        if rest[:1] == ['given'] and stem(label).endswith('known'):
            return ['type_inv', self.of_type(label, places)] + rest[1:]
        if rest[:1] == ['given'] and label in kept:
            return [self.call_of(kept[label]), 'auto', stem(label)] + rest[1:]
        steps = [self.label(i) for i in places if self.label(i)]
        for old, new in steps:
            if plain(old) == plain(label):
                return [new] + rest
        alike = [new for old, new in steps if stem(old) == stem(label)]
        return [alike[0]] + rest if len(set(alike)) == 1 else None

    def turned(self, text, said, goal=None):
        """A text with its paths: `c.before.before.if1.true` is `c.if-a-b.true`."""
        places = self.outwards(goal)
        kept = self.kept_lengths(text, places)

        def turn(m):
            head, parts = m[1], m[2].strip('.').split('.')
            out = next((i for i, it in enumerate(parts) if it != 'before'), len(parts))
            if out == 0 and head != 'c':
                return m[0]
            if out == len(parts):
                said.append('a whole context: ' + m[0])
                return m[0]
            path = self.path(parts[out], parts[out + 1:], places, kept)
            if path is None:
                said.append('no step ' + '.'.join(parts[out:]))
                path = parts[out:]
            return '.'.join([head] + path)

        return re.sub(rf'(?<![\w.\-])(c|[a-z]\w*)((?:\.{NAME})+)', turn, text)


HEAD = re.compile(rf'(?:(?:pub|abbrev|unfoldable) )*({NAME})(?: \{{[^{{}}]*\}})? : (.*)$')
BEGINS = re.compile(rf'(?:(?:pub|abbrev|unfoldable) )*{NAME}(?: \{{[^{{}}]*\}})? :(?= )|(?:pub )?(?:use|data|record) |module |--')


def blocks(text):
    """The declarations of a file, each with the comment above it."""
    found, block = [], []
    for line in text.split('\n'):
        if line and not line[0].isspace() and BEGINS.match(line) and any(it.strip() and not it.startswith('--') for it in block):
            found.append('\n'.join(block).rstrip('\n'))
            block = []
        block.append(line)
    return [it for it in found + ['\n'.join(block).rstrip('\n')] if it.strip()]


def arguments(text):
    """What stands behind `tie.spec`: names, and terms in brackets."""
    found, i = [], 0
    while i < len(text) and text[i] != ')':
        if text[i].isspace():
            i += 1
        elif text[i] == '(':
            depth, j = 1, i + 1
            while depth:
                depth += {'(': 1, ')': -1}.get(text[j], 0)
                j += 1
            found.append(text[i:j])
            i = j
        else:
            found.append(re.match(r'[^\s()]+', text[i:])[0])
            i += len(found[-1])
    return found


def invariant(kind, loop, opens, rest, function, said):
    """An invariant or a measure, over the record of the loop's variables."""
    which = [i for i, (label, _) in enumerate(function.loops) if plain(label[0]) == plain(loop)]
    if not which:
        said.append(f'no loop {loop}')
        return None
    label, variables = function.loops[which[0]]
    left, body = rest.split('=', 1)
    at = {}
    for word in left.split()[1:]:
        name = word.rstrip('₀')
        if name in variables:
            initial = word != name and function.changed[which[0]][variables.index(name)]
            at[word] = ('l.initial.' if initial else 'l.') + name
        elif word != '_':
            said.append(f'no variable {word}')
    body = re.sub(rf'(?<![\w.\-])({NAME})', lambda m: at.get(m[1], m[1]), function.turned(body, said))
    name = f'{kind}-{label[1]}'
    return '\n'.join([f'abbrev pub {name} : goal.{name}', *opens, f'{name} l ={body}'])


def inline(text, function, said):
    """Answers that stand within the call of `tie.spec`, where as many goals lie between two named ones as today."""
    given = arguments(text[text.index('tie.spec') + len('tie.spec'):])[2 * len(function.loops):]
    needs = {m[1]: m[2] for m in re.finditer(rf'(?m)^({NAME}) : tie\.Need-({NAME})', text)}
    at = [function.order.index(function.goal(needs[it])) if function.goal(needs.get(it, '')) in function.order else None for it in given]
    for k, term in enumerate(given):
        m = re.match(r'\(λ c(?: κs)?\. (.*)\)$', term, re.S)
        if not term.startswith('(') or m and m[1].strip() in FOUND_BY_ITSELF:
            continue
        low = max((i for i in range(k) if at[i] is not None), default=-1)
        high = min((i for i in range(k + 1, len(given)) if at[i] is not None), default=len(given))
        first = at[low] if low >= 0 else -1
        last = at[high] if high < len(given) else len(function.order)
        if m is None or high - low != last - first:
            said.append('within the call: ' + term[:200])
            continue
        goal = function.order[first + k - low]
        if not goal.startswith('shape_of'):
            yield f'pub {goal} : goal.{goal}\n{goal} c = ' + function.turned(m[1], said, goal)


def written(parts, uses, module):
    """A file of these parts, with the imports that they use."""
    body = '\n\n'.join(parts)
    words = set(re.findall(rf'{NAME}', body))
    lines = []
    for use in uses:
        m = re.match(r'(?:pub )?use (\S+)\.\{(.*)\}\s*$', use.replace('\n', ' '))
        if not m:
            lines.append(use)
            continue
        items = [it.strip() for it in m[2].split(',') if it.strip()]
        used = [it for it in items if it.split(' as ')[-1] in words or '◌' in it and all(p in body for p in it.split('◌') if p)]
        if used:
            lines.append(f'use {m[1]}.{{{", ".join(used)}}}')
    return '\n'.join(lines + [f'use {module} as goal']) + '\n\n' + body + '\n'


def convert(text, function, said):
    """The imports, the invariants, the lemmas and the answers of a proof."""
    uses, invariants, lemmas, answers = [], [], [], []
    for block in blocks(text):
        lines = block.split('\n')
        comment = [it for it in lines if it.startswith('--')]
        code = '\n'.join(it for it in lines if not it.startswith('--'))
        first, _, rest = code.partition('\n')
        if not code.strip() or 'statement M' in first:
            continue
        if re.match(r'(pub )?use ', code):
            if '.Statement.{statement}' not in code and '.Tie as tie' not in code:
                uses.append(code)
            continue
        head = HEAD.match(first)
        opens = []
        if rest.startswith('unfolding'):
            line, _, rest = rest.partition('\n')
            opens = [line]
        loop = head and re.match(r'tie\.(invariant|decreases)-(\S+)', head[2])
        need = head and re.match(rf'tie\.Need-({NAME})', head[2])
        if loop:
            made = invariant(loop[1], loop[2], opens, rest, function, said)
            (invariants if made else lemmas).append('\n'.join(comment + [made]) if made else block)
        elif need:
            left, body = rest.split('=', 1)
            if body.strip() in FOUND_BY_ITSELF and not opens:
                continue
            goal = function.goal(need[1])
            if goal is None and plain(need[1]) in map(plain, function.settled) or goal and goal.startswith('shape_of'):
                continue
            if goal is None:
                said.append(f'no goal {need[1]}')
                goal = 'UNKNOWN-' + need[1]
            names = [it for it in left.split()[1:] if it != 'κs']
            answer = [f'pub {goal} : goal.{goal}', *opens, f'{goal} {" ".join(names)} ={function.turned(body, said, goal)}']
            answers.append('\n'.join(comment + answer))
        else:
            lemmas.append('\n'.join(comment + [code]) if head else block)
    return uses, invariants, lemmas, answers + list(inline(text, function, said))


def main():
    names, crate, parts = sys.argv[1], sys.argv[2].rstrip('/'), sys.argv[3:]
    own = os.path.basename(crate)
    with open(f'{names}/crates/{own}/names.json', encoding='utf-8') as f:
        listed = json.load(f)
    count = 0
    for path in sorted(glob.glob(crate + '/proofs/**/Proof.antt', recursive=True)):
        folder = os.path.dirname(path)
        module = os.path.relpath(folder, crate + '/proofs').replace('/', '.')
        key = f'Rattle-{own}-proofs.{module}.Lts'
        if parts and not any(part in path for part in parts):
            continue
        with open(path, encoding='utf-8') as f:
            text = f.read()
        if 'tie.spec' not in text or key not in listed:
            print('stays:', path)
            continue
        said = []
        uses, invariants, lemmas, answers = convert(text, Function(listed[key]), said)
        if invariants:
            with open(folder + '/Invariants.antt', 'w', encoding='utf-8') as f:
                f.write(written(invariants, uses, f'Rattle.{own}.proofs.{module}.Given'))
        if answers:
            with open(folder + '/Answers.antt', 'w', encoding='utf-8') as f:
                f.write(written(lemmas + answers, uses, f'Rattle.{own}.proofs.{module}.Goals'))
        elif lemmas:
            said.append(f'lemmas with no answer: {len(lemmas)}')
        os.remove(path)
        if not os.listdir(folder):
            os.rmdir(folder)
        count += 1
        for line in said:
            print(f'{os.path.relpath(folder, crate)} | {line[:300]}')
    print(count, 'turned')


main()
