#!/usr/bin/env python3
"""Spells the repository's own definitions, fields and lemmas as today's library does: words in snake case, an apostrophe for a prime.

usage: python3 tools/respell.py          at the top, once, right after the toolchain's port.py
       python3 tools/respell.py --list   only prints the old and the new spellings

A capital inside a name that begins in lower case begins a new word (arcsOf: arcs_of). A dash stays where it joins the names of two functions of specs/ or
of the library (bit-and, ones-added), and else becomes an underscore (left-low: left_low). Types, modules, and every name of src/ stay as they are, and so do
the labels that the prover gives (after c., l., w., g. or goal. in Answers and Invariants).
A name that would fall together with another one that is declared, or with a name that the code of a file uses, is printed and the script stops.
"""
import os
import re
import sys

WORD = re.compile(r'[^\s(){}.;,@"«»:]+')
MARKS = r'((?:pattern |unfoldable |abbrev |pub |axiom )*)'
TYPED = re.compile(MARKS + r'([^\s(){}.;,@"«»:]+)(?: \{[^{}]*\})* :(?: (.*))?$')
BARE = re.compile(r'((?:pattern |unfoldable |abbrev |pub )+)([^\s(){}.;,@"«»:]+)$')
TOLD = re.compile(MARKS + r'(?:record|data|inductive) ([^\s(){}.;,@"«»:]+)')
QUIET = re.compile(r'"(?:[^"\\\n]|\\.)*"|(?<![^\s(){}.;,@"«»])--[^\n]*', re.S)
CLAUSE = re.compile(r'\b(?:requires|ensures)\s*(?:\w+\s*)?\{|\bghost\s*(?:\w+\s*(?::\s*|=\s*))?\{|\bghost use\b')
RUST_NAME = re.compile(r'\b(?:fn|let|let mut|const|static|struct|enum|type|trait|mod|for|ghost) (\w+)|\b(\w+)\s*:(?!:)')
MADE = re.compile(r'(?:^|[^\w.])(?:c|l|w|g|goal)(?:\.row|\.fn|\.args|\.initial|\.new)?\.$')
# words of the library that a lemma's name is made with
LIBRARY = set('and xor shr shl mod div add sub mul take drop append length map set get_or eqb leb ltb min max suc '.split())
# words that are plain words in a lemma's name, though some definition has the same name
PLAIN = set('a at before by each first from in is last new no none not of off old on one only or out same short some step that there two with without'.split())
# a name that would fall together with another, and what it is called instead
SPECIAL = {
    'add-cause': 'refusal-adds',
    'can-add': 'may_add',
    'can-retract': 'may_retract',
    'can-load': 'may_load',
    'count_less': 'count_is_less',
    'ends-good': 'two_ends',
    'house-good': 'house_fits',
    'house-at': 'house_stands_at',
    'bit-and': 'bit-and',
    'bit-or': 'bit-or',
    'bit-xor': 'bit-xor',
}


def files():
    for top in sorted(os.listdir('crates')):
        for d, ds, fs in os.walk(os.path.join('crates', top)):
            ds[:] = sorted(x for x in ds if x not in ('must-fail', 'out', 'data'))
            for f in sorted(fs):
                if f.endswith(('.antt', '.rt')):
                    yield os.path.join(d, f)


def is_made(path):
    return os.path.basename(path) in ('Answers.antt', 'Invariants.antt', 'Proof.antt')


def declared(text):
    """The names that a text declares: each with its signature, as far as it stands on the same line."""
    for line in text.split('\n'):
        s = line.strip()
        if s.startswith(('--', 'use ')):
            continue
        for pattern in (TYPED, BARE, TOLD):
            m = pattern.match(s)
            if m:
                yield m[2], (m.group(3) or '') if pattern is TYPED else ''
                break


def fields_of(text):
    inside = False
    for line in text.split('\n'):
        if line[:1].strip():
            inside = bool(TOLD.match(line))
        m = inside and TYPED.match(line.strip())
        if m and line[:1] == ' ':
            yield m[2]


def snake(name, functions, fields):
    if name in SPECIAL:
        return SPECIAL[name]
    if name[0].islower() or not name[0].isalpha():
        name = re.sub(r'(?<=[a-z0-9])([A-Z])(?![A-Z]|$)', lambda m: '_' + m[1].lower(), name)
        name = re.sub(r'(?<=[a-z0-9])([A-Z])(?=$|-)', lambda m: '_' + m[1].lower(), name)
    elif '-' in name:
        head, rest = name.split('-', 1)
        return head + '-' + snake(rest, functions, fields)
    parts = name.split('-')
    out = parts[0]
    for a, b in zip(parts, parts[1:]):
        out += ('-' if a in functions and b in functions and name not in fields else '_') + b
    return out


def table_of(texts):
    functions, fields, names = set(LIBRARY), set(), {}
    for path, text in texts.items():
        if not path.endswith('.antt'):
            continue
        fields.update(fields_of(text))
        for name, kind in declared(text):
            if is_made(path) and 'goal.' in kind:
                continue
            if is_made(path) and not kind:
                continue
            names.setdefault(name, set()).add(path)
        if '/specs/' in path:
            for line in text.split('\n'):
                m = re.match(r'(?:unfoldable |abbrev )(?:pub )?([a-z]\w*)(?: \{[^{}]*\})* :', line) or re.match(r'pub ([a-z]\w*) : ', line)
                if m:
                    functions.add(m[1])
    functions -= PLAIN
    rust = set()
    for path, text in texts.items():
        if path.endswith('.rt'):
            rust.update(a or b for a, b in RUST_NAME.findall(text))
    table = {}
    for name in names:
        new = snake(name, functions, fields)
        if new != name:
            table[name] = new
    return table, names, rust


def turned(text, table, made):
    def one(m):
        if made and '-' in m[0] and MADE.search(text[max(0, m.start() - 24):m.start()]):
            return m[0]
        return table.get(m[0], m[0])
    return WORD.sub(one, text)


def in_comment(text, table):
    text = re.sub(r'`[^`\n]*`', lambda m: WORD.sub(lambda w: table.get(w[0].strip('`'), w[0].strip('`')), m[0][1:-1]).join('``'), text)
    return re.sub(r'(?<![\w-])[a-z]+[A-Z]\w*(?![\w-])', lambda m: table.get(m[0], m[0]), text)


def antt(text, table, made):
    out, at = [], 0
    for m in QUIET.finditer(text):
        out += [turned(text[at:m.start()], table, made), m[0] if m[0][0] == '"' else in_comment(m[0], table)]
        at = m.end()
    return ''.join(out + [turned(text[at:], table, made)])


def closing(text, at):
    depth = 1
    while depth:
        depth += {'{': 1, '}': -1}.get(text[at], 0)
        at += 1
    return at - 1


def rust(text, table):
    out, at = [], 0
    for m in CLAUSE.finditer(text):
        if m.start() < at:
            continue
        line = text.rfind('\n', 0, m.start()) + 1
        if '//' in text[line:m.start()]:
            continue
        end = text.index(';', m.end()) if m[0].startswith('ghost use') else closing(text, m.end())
        out += [comments(text[at:m.end()], table), antt(text[m.end():end], table, False)]
        at = end
    return ''.join(out + [comments(text[at:], table)])


def comments(text, table):
    return re.sub(r'//[^\n]*', lambda m: in_comment(m[0], table), text)


def main():
    texts = {p: open(p, encoding='utf8').read() for p in files()}
    table, names, of_rust = table_of(texts)
    if '--list' in sys.argv:
        for old in sorted(table):
            print('%s\t%s\t%s' % (old, table[old], ' '.join(sorted(names[old]))))
        return
    meet = []
    new_to_old = {}
    for old, new in table.items():
        new_to_old.setdefault(new, []).append(old)
    for path, text in texts.items():
        words = set(WORD.findall(text))
        for new, olds in new_to_old.items():
            here = [o for o in olds if o in words]
            called = path.endswith('.rt') and re.search(r'\bfn %s\(|\b%s\(|::%s\b' % (new, new, new), text)
            at_home = '/proofs/' in path and '/' + new + '/' in path
            if here and (new in words and new not in table and not called and not at_home or len(here) > 1):
                meet.append('%s: %s -> %s' % (path, ' '.join(here), new))
    if meet:
        print('\n'.join(meet))
        sys.exit('respell: these fall together; nothing was written')
    n = 0
    for path, text in texts.items():
        new = antt(text, table, is_made(path)) if path.endswith('.antt') else rust(text, table)
        if new != text:
            open(path, 'w', encoding='utf8').write(new)
            n += 1
    print('respell: %d names, %d files' % (len(table), n))


main()
