#!/usr/bin/env python3
"""Lists the top-level statements and definitions that stand in more than one crate, whatever they and their variables are called.

    docs/check_statements.py          at the top of the repository; ends with 1 if there is one

A statement is the type of a lemma: a definition that only has the same signature as another is none. A definition is an `abbrev` or a
record with all that it says. The loops of one function have their own (Invariants.antt), which are left out.
"""
import collections
import glob
import itertools
import re
import sys

TOKEN = re.compile(r'--[^\n]*|\s+|[(){},;.]|[^\s(){},;.]+')
PART = re.compile(r'[(){},;]|\.(?=\s)|(?:[^\s(){},;.]|\.(?!\s))+')
HEAD = re.compile(r'(?:(?:pub|unfoldable|abbrev|opaque) )*(?P<name>[^\s:(){}=]+) :(?P<type>\s.*)', re.S)
ITEM = re.compile(r'(?m)^(?=\S)')
DEFINED = re.compile(r'(?:pub )?(?:abbrev|record) (?:pub )?(?P<name>[^\s:(){}=]+)[\s:({]')
VARIABLE = re.compile(r"[A-Za-z_][\w'-]*")
ALIAS = re.compile(r'(?m)^(?:pub )?use [\w.]+ as (\w+)')
CONSTRUCTOR = re.compile(r'(?m)^  ([^\s:(){}]+) :')
# Definitions that say the same of two things, by one name of each.
TWO_NOTIONS = {
    ('depth_after', 'nesting_by'): 'brackets that are open, counted from the front of the tokens on, and from their end',
    ('width_after', 'row_by'): 'tokens of a row, counted from its front on, and from its end',
    ('boot_head_bytes', 'weakest'): 'the bytes of a piece of code, and the precedence of an operator',
    ('Holds', 'StackIs'): 'words that stand in code, and the words of a stack',
    ('is_true', 'holds'): 'the word on top of a stack, and the value of an expression, which may be a long',
    ('Event', 'Written'): 'an event of a trace, steps and word, and a write of an instruction, address and word',
    ('Look', 'Registers'): 'what stands in the ring by address, and what stands in the registers by number',
    ('ring_slots', 'ring_words'): 'the slots of the ring in a compiled image, and the words of a ring that any map may name',
    ('Given', 'TaskInputs'): 'what a task of any model is given, and what a task of a source is',
    ('capped',): 'prices of a source, and cycles of paths of code, by crates that have no other in common',
    ('is_word',): 'the words of the FRAM board, and those of the board of tests, each by its own memory',
}
OTHER = ('use', 'mod', 'module', 'mutual', 'record', 'data', 'open', 'ruleset', 'syntax', 'infixl', 'infixr', 'infix', '--')


def statements(text):
    """The name and the type of each item that begins a line."""
    for part in ITEM.split(text):
        if part and not part.startswith(OTHER):
            head = HEAD.match(part)
            if head:
                body = re.sub(r'--[^\n]*', '', head.group('type'))
                yield head.group('name'), re.split(r'\n\s+unfolding ', body)[0]


def words(text):
    return [t for t in TOKEN.findall(text) if not t.isspace() and not t.startswith('--')]


def closing(ws, start):
    depth = 0
    for at in range(start, len(ws)):
        depth += (ws[at] in '({') - (ws[at] in ')}')
        if depth == 0:
            return at
    return len(ws) - 1


def plain(ws, names):
    return ' '.join(w if at and ws[at - 1] == '.' else names.get(w, w) for at, w in enumerate(ws))


def normal(text):
    """The statement with its variables numbered, one binder for each, and what it says in the end."""
    ws, names, out, at = words(text), {}, [], 0
    while at < len(ws):
        if ws[at] in '({':
            colon = at + 1
            while colon < len(ws) and re.fullmatch(r"[^(){},.:→λ]+", ws[colon]):
                colon += 1
            if colon < len(ws) and ws[colon] == ':' and colon > at + 1:
                end = closing(ws, at)
                kind = plain(ws[colon + 1:end], names)
                for name in ws[at + 1:colon]:
                    names[name] = 'v%d' % len(names)
                    out.append('(%s : %s) →' % (names[name], kind))
                at = end + 2 if end + 1 < len(ws) and ws[end + 1] == '→' else end + 1
                continue
        if ws[at] == 'λ':
            while at < len(ws) and ws[at] != '.':
                if ws[at] != 'λ':
                    names[ws[at]] = 'v%d' % len(names)
                out.append(names.get(ws[at], ws[at]))
                at += 1
            continue
        out.append(ws[at] if ws[at - 1:at] == ['.'] else names.get(ws[at], ws[at]))
        at += 1
    return ' '.join(out)


def is_said(text):
    """Whether it says something, and isn't the signature of a definition."""
    end = re.split(r'→', text)[-1].strip()
    return '→' in text and not re.match(r'(Type 0|Bool|ℕ|List|Option|Result|[A-Z]\w*$|[a-z]\w*$)', end)


def definitions(text):
    """The name and all lines of each definition that begins a line: of a function, the lines behind its type begin with its name."""
    name, lines = None, ''
    for part in ITEM.split(text):
        if name and part.startswith(name + ' '):
            lines += part
            continue
        if name:
            yield name, lines
        head = DEFINED.match(part)
        name, lines = (head.group('name'), part) if head else (None, '')
    if name:
        yield name, lines


def bound(ws, known):
    """The variables that a line binds: those of its patterns, of binders, of λ and of `let`."""
    front = ws[1:ws.index('=')] if '=' in ws else []
    found = [w for w in front if VARIABLE.fullmatch(w) and w[0].islower() and w not in known]
    for at, w in enumerate(ws):
        if w in ('λ', 'let', '(', '{'):
            names = list(itertools.takewhile(VARIABLE.fullmatch, ws[at + 1:]))
            if w in ('λ', 'let') or ws[at + 1 + len(names):][:1] == [':']:
                found += names
    return found


def plain_number(word):
    return str(int(word, 16)) if re.fullmatch('0x[0-9A-Fa-f]+', word) else word


def body(name, text, aliases, known):
    """What a definition says: its own name, those of its variables and those of imported modules replaced."""
    out = []
    for line in ITEM.split(text):
        ws = PART.findall(line)
        names = {}
        for variable in bound(ws, known):
            names.setdefault(variable, 'v%d' % len(names))
        for word in ws:
            parts = word.split('.')
            if len(parts) > 1 and parts[0] in aliases:
                parts = parts[1:]
            parts[0] = 'self' if parts[0] == name else names.get(parts[0], plain_number(parts[0]))
            out.append('.'.join(parts))
    return ' '.join(w for w in out if w not in ('pub', 'abbrev', 'unfoldable', 'opaque'))


def constructors(texts):
    """The names that no pattern binds, of all data."""
    data = (part for text in texts.values() for part in ITEM.split(text) if re.match('(?:pub |abbrev )*data ', part))
    return {'true', 'false', 'zero', 'suc'} | {name for part in data for name in CONSTRUCTOR.findall(part)}


def files():
    paths = glob.glob('crates/*/specs/**/*.antt', recursive=True) + glob.glob('crates/*/proofs/**/*.antt', recursive=True)
    texts = {}
    for path in sorted(paths):
        with open(path, encoding='utf-8') as file:
            texts[path] = file.read()
    return texts


def same_statements(texts):
    found = collections.defaultdict(set)
    for path, text in texts.items():
        for name, statement in statements(text):
            if is_said(statement):
                found[normal(statement)].add((path.split('/')[1], path, name))
    return in_two_crates(found)


def same_definitions(texts):
    found = collections.defaultdict(set)
    known = constructors(texts)
    for path, text in texts.items():
        if path.endswith('/Invariants.antt'):
            continue
        aliases = set(ALIAS.findall(text))
        for name, lines in definitions(re.sub(r'(?m)(?:^|(?<=\s))--.*$', '', text)):
            found[body(name, lines, aliases, known)].add((path.split('/')[1], path, name))
    apart = [set(names) for names in TWO_NOTIONS]
    return [(s, places) for s, places in in_two_crates(found) if {name for _, _, name in places} not in apart]


def in_two_crates(found):
    return sorted((s, places) for s, places in found.items() if len({crate for crate, _, _ in places}) > 1)


def main():
    texts = files()
    twice = 0
    for kind, found in (('statements', same_statements(texts)), ('definitions', same_definitions(texts))):
        for says, places in found:
            print(says)
            for _, path, name in sorted(places):
                print('   ', name, path)
        print(len(found), kind, 'stand in more than one crate')
        twice += len(found)
    return 1 if twice else 0


if __name__ == '__main__':
    sys.exit(main())
