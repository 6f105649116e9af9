#!/usr/bin/env python3
"""Makes docs/EVIDENCE.md from the contracts and the must-fail edits of crates/: docs/evidence.py, at the repository's root.

A user can call: what is exported to C, and what the exports and the programs of users call of our crates.
A must-fail edit is told with the comment at its head and the function or definition that it changes.
"""
import os
import re

USERS = ['elab', 'listing']  # the exports, and the program
CLAUSES = ('requires', 'ensures')
INPUT = 'read_full'  # says what it reads of an input whose bytes are known; those of standard input are not


def read(path):
    with open(path, encoding='utf-8') as f:
        return f.read()


def deps():
    found = {}
    for line in read('crates.txt').split('\n'):
        line = line.split('#')[0]
        if ':' in line:
            name, rest = line.split(':', 1)
            found[name.split()[0]] = rest.split()
    return found


CRATES = deps()


def used_in(text):
    """What the `use` lines of a file bring, each as a whole path."""
    found = []
    for head, group, one in re.findall(r'(?m)^use ([\w:]+::)(?:\{([^}]*)\}|(\w+));', text):
        found += [head + name.strip() for name in (group or one).split(',') if name.strip()]
    return found


def functions(text):
    """Each function of a file: name, a method's behind its type's; pub or not; exported or not; comment above; contract; first and last line."""
    lines = text.split('\n')
    owner, above, facts = '', '', []
    for i, line in enumerate(lines):
        impl = re.match(r'impl(?:<.*?>)? (.*) \{$', line)
        if impl:
            owner, above, facts = re.match(r'\w+', impl[1].split(' for ')[-1])[0] + '::', comment_above(lines, i), []
        if line == '}':
            owner, above, facts = '', '', []
        if owner and re.match(r' +ghost \w+ = ', line):
            facts.append(line.strip())
        m = re.match(r'( *)(pub(?:\(crate\))? )?(extern "C" )?fn (\w+)', line)
        if not m:
            continue
        head = i
        while head < len(lines) and lines[head] != m[1] + '{' and not (lines[head].endswith(' {') and not lines[head].strip().startswith(CLAUSES)):
            head += 1
        end = head
        while end < len(lines) and lines[end] != m[1] + '}':
            end += 1
        contract = [l.strip() for l in lines[i:head] if l.strip().startswith(CLAUSES)]
        yield owner + m[4], m[2] == 'pub ', bool(m[3]), comment_above(lines, i) or above, contract or facts, i, end


def comment_above(lines, i):
    while i and lines[i - 1].strip().startswith('#['):
        i -= 1
    found = []
    while i and lines[i - 1].strip().startswith('//'):
        i -= 1
        found.insert(0, lines[i].strip()[2:].strip())
    return ' '.join(found)


def calls(name, body):
    """Whether a body calls a function; a method is told by its own name behind a dot, or by its type's."""
    owner, _, own = name.rpartition('::')
    if not owner:
        return re.search(rf'(?<![.:\w]){name}(?:::<[^()]*>)?\(', body) is not None
    return re.search(rf'\.{own}\(|\b(?:{owner}|Self)::{own}\(', body) is not None


def sources(crate):
    for folder, _, files in sorted(os.walk(f'crates/{crate}/src')):
        for f in sorted(files):
            yield os.path.join(folder, f)


def module(crate, path):
    inside = os.path.relpath(path, f'crates/{crate}/src')[:-3].replace('/', '::')
    return crate if inside in ('lib', 'main') else f'{crate}::{inside}'


def bodies_of(path):
    text = read(path)
    lines = text.split('\n')
    return {name: '\n'.join(lines[first:end]) for name, _, _, _, _, first, end in functions(text)}


def called(crate, name):
    """The functions of a crate that one of them calls, directly or not."""
    bodies = {}
    for path in sources(crate):
        for own, body in bodies_of(path).items():
            bodies[own] = bodies.get(own, '') + body
    seen, todo = set(), [name]
    while todo:
        body = bodies.get(todo.pop(), '')
        for other in bodies:
            if other not in seen and other != name and calls(other, body):
                seen.add(other)
                todo.append(other)
    return seen


def handed_to(key):
    """The functions of other crates that the one at KEY calls, as CRATE and FUNCTION."""
    crate = key.split('::')[0]
    for path in sources(crate):
        for name, body in bodies_of(path).items():
            if f'{module(crate, path)}::{name}' == key:
                for used in used_in(read(path)):
                    other, own = used.split('::')[0], used.split('::')[-1]
                    if other in CRATES and calls(own, body):
                        yield other, own
                    if other in CRATES and '.into()' in body and re.search(rf'-> {own}\n', body):
                        yield other, own + '::from'


def user_calls():
    """What a user can call, as CRATE::MODULE::FUNCTION: comment and contract."""
    named = set()
    for crate in USERS:
        for path in sources(crate):
            text = read(path)
            named |= {u for u in used_in(text) if u.split('::')[0] in CRATES and u.split('::')[0] != INPUT}
    rows = {}
    for crate in CRATES:
        for path in sources(crate) if os.path.isdir(f'crates/{crate}/src') else []:
            for name, _, exported, comment, contract, _, _ in functions(read(path)):
                key = f'{module(crate, path)}::{name}'
                # a type that is named brings what makes it of another
                if exported or key in named or key.endswith('::from') and key[: -len('::from')] in named:
                    rows[key] = comment, contract
    return rows


def border():
    """The `pub` functions that ask something, and what."""
    for crate in CRATES:
        for path in sources(crate):
            text = read(path)
            for name, public, _, _, contract, _, _ in functions(text):
                asks = [c[len('requires'):].strip() for c in contract if c.startswith('requires')]
                if asks and public:
                    clauses = [re.sub(r'^(\w+ )?\{ | \}$', '', a) for a in asks]
                    yield f'{module(crate, path)}::{name}', ' × '.join(clauses).replace('|', '\\|')


def facts():
    """The `pub` structs with a fact that whoever makes one shows, and the fact."""
    for crate in CRATES:
        for path in sources(crate):
            for name, fields in re.findall(r'(?m)^pub struct (\w+)[^\n]*\{\n(.*?)^\}', read(path), re.S):
                for fact in re.findall(r'(?m)^ +ghost \w+: \{ (.*?) \}(?: by .*)?,$', fields):
                    yield f'{module(crate, path)}::{name}', fact.replace('|', '\\|')


def makers(key):
    """The functions that make a struct of the type KEY, its fields written out."""
    found = []
    crate, name = key.split('::')[0], key.split('::')[-1]
    for other in CRATES:
        if other != crate and crate not in CRATES[other]:
            continue
        for path in sources(other):
            at = module(other, path)
            brought = used_in(read(path))
            if at == key[: -len(name) - 2] or key in brought or 'crate::' + '::'.join(key.split('::')[1:]) in brought:
                found += [f'{at}::{own}' for own, body in bodies_of(path).items() if re.search(rf'(?<!-> )\b{name} \{{$', body, re.M)]
    return found


def law(crate, contract):
    """What the law of a conversion says, where a clause gives it by the name of a definition of the crate's specs/."""
    found = []
    for clause in contract:
        m = re.match(r'ghost \w+ = \{ (\w+) \};$', clause)
        for folder, _, files in sorted(os.walk(f'crates/{crate}/specs')) if m else []:
            for f in sorted(files):
                found += re.findall(rf'(?m)^{m[1]} \w[^\n]* = [^\n]*', read(os.path.join(folder, f)))
    return found


def callers(key):
    """The functions that call the one at KEY."""
    found = []
    crate = key.split('::')[0]
    for other in CRATES:
        if other != crate and crate not in CRATES[other]:
            continue
        for path in sources(other):
            # a method is called where its type, or what hands it out, is known: in its crate and those that use it
            at = module(other, path)
            name = key.split('::')[-2] + '::' + key.split('::')[-1] if key.split('::')[-2][0].isupper() else key.split('::')[-1]
            inside = at == key[: -len(name) - 2]
            brought = used_in(read(path))
            named = '::' in name or key in brought or 'crate::' + '::'.join(key.split('::')[1:]) in brought and other == crate
            for own, body in bodies_of(path).items() if inside or named else []:
                if own != name and calls(name, body):
                    found.append(f'{at}::{own}')
    return found


def changed(crate, edit):
    """What an edit changes: the function or definition around each place, and the comment at its head."""
    comment, where, place = [], '', []
    for line in edit.split('\n'):
        if line.startswith('#'):
            comment.append(line[1:].strip())
        elif line.startswith('file: '):
            where = line[6:]
        elif line.startswith('old: '):
            text = read(f'crates/{crate}/{where}')
            before = text[:text.index(line[5:]) + 1]
            at = before.count('\n')
            if where.endswith('.rt'):
                names = [name for name, _, _, _, _, _, end in functions(text) if end >= at][:1]
            else:
                names = re.findall(r'(?m)^(?:\w+ )*?(?:pub )?(?:record |data )?([^\s:()]+) (?:\([^\n]*)?: ', before)
            if names:
                place.append((where, names[-1]))
    return ' '.join(comment), sorted(set(place))


def main():
    out = ['# Evidence', '']
    out += ['Made by `docs/evidence.py` from the contracts and edits themselves. What a contract\'s words mean is in `specs/` of the crates that its file names;',
            'docs/PROVED.md has demand 3 sentence by sentence.', '']
    edits = {}
    for crate in CRATES:
        folder = f'crates/{crate}/must-fail'
        for f in sorted(os.listdir(folder)) if os.path.isdir(folder) else []:
            comment, place = changed(crate, read(f'{folder}/{f}'))
            edits[crate, f[:-5]] = comment, place
    out += ['## What a user can call', '',
            'No function here asks anything of its caller. Each contract fixes every number that comes back and every byte of every lent buffer. Left out is `read_full`, which says what it reads of any input whose bytes are known; those of standard input are unknown to the logic.', '']
    for key, (comment, contract) in sorted(user_calls().items()):
        crate = key.split('::')[0]
        # a method stands behind its type's name
        name = '::'.join(key.split('::')[-2:]) if key.split('::')[-2][0].isupper() else key.split('::')[-1]
        own = [e for (c, e), (_, place) in edits.items() if c == crate and any(w.endswith('.rt') and n == name for w, n in place)]
        there = called(crate, name)
        below = [e for (c, e), (_, place) in edits.items() if c == crate and e not in own and any(w.startswith('src/') and n in there for w, n in place)]
        asks = [c for c in contract if c.startswith('requires')]
        out += [f'### `{key}`', '', comment, '', '```', *contract, *law(crate, contract), '```', '']
        if asks:
            out += ['**It asks something of its caller.**', '']
        if own:
            out += ['Refused in it: ' + ', '.join(f'`{e}`' for e in own) + '.', '']
        for other, function in sorted(handed_to(key)):
            there = called(other, function) | {function}
            also = [e for (c, e), (_, place) in edits.items() if c == other and any(w.startswith('src/') and n in there for w, n in place)]
            if also:
                out += [f'Refused in `{function}` of `{other}`, which it calls: ' + ', '.join(f'`{e}`' for e in also) + '.', '']
        if below:
            out += ['Refused in what it calls there: ' + ', '.join(f'`{e}`' for e in below) + '.', '']
    out += ['## What stands at a crate\'s border and asks something of its callers', '',
            'docs/DECISIONS.md says why. What is in neither of these two tables asks nothing.', '', '| function | asks | called by |', '|---|---|---|']
    for key, asks in border():
        out.append(f'| `{key}` | `{asks}` | ' + ', '.join(f'`{c}`' for c in callers(key)) + ' |')
    out += ['', 'A struct may hold a fact as well: whoever makes one shows it, and a function that takes one asks for it by its type.', '',
            '| struct | asks of who makes one | made by |', '|---|---|---|']
    for key, fact in facts():
        out.append(f'| `{key}` | `{fact}` | ' + ', '.join(f'`{c}`' for c in makers(key)) + ' |')
    out.append('')
    out += ['## Must-fail edits', '', 'Each is a wrong program, or a wrong reading of a document, that the prover refuses in every gate.', '']
    for crate in CRATES:
        mine = [(e, v) for (c, e), v in edits.items() if c == crate]
        if mine:
            out += [f'**{crate}**', '', '| edit | what is wrong | where |', '|---|---|---|']
            for e, (comment, place) in mine:
                out.append(f'| {e} | {comment} | ' + ', '.join(f'{w}, `{n}`' for w, n in place) + ' |')
            out.append('')
    with open('docs/EVIDENCE.md', 'w', encoding='utf-8') as f:
        f.write('\n'.join(out).rstrip('\n') + '\n')


main()
