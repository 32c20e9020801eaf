#!/usr/bin/env python3
"""Spells the repository's own definitions and lemmas as today's Rattle does: words in snake case, a lemma that would have
its function's name with _lem. And the definition's choice, `if b then x else y`, is `when b then x else y`: std has an operator
of the first name, another one. Run once, at the top, after the kit's port.py; docs/PORT.md says when that was.

Turns the names that specs/ and proofs/*.antt declare, wherever they stand: in .antt files, in the clauses of .rt files and in
the edits. Names of src/, words in quotes and words of comments stay, but for a definition's name in camel case."""
import collections, glob, os, re, sys

TOKEN = re.compile(r'"(?:[^"\\]|\\.)*"|[^\s(){}\[\].,;«»"@`]+')
DECLARED = re.compile(r"\s*(?:(?:abbrev|unfoldable|pub|data|record|constructor|ruleset)\s+)*([^\s(){}\[\].,;«»\"@:]+)\s*:(?:\s|$)")
HEADED = re.compile(r"(?:(?:abbrev|unfoldable|pub)\s+)*(?:data|record)\s+([^\s(){}\[\].,;«»\"@:]+)")
BUILT = re.compile(r"\s*constructor\s+(\S+)")


def declared():
    names = set()
    for f in sorted(glob.glob('crates/*/specs/*.antt') + glob.glob('crates/*/proofs/*.antt')):
        for line in open(f, encoding='utf-8'):
            if line.strip().startswith('--'):
                continue
            m = DECLARED.match(line) or HEADED.match(line) or BUILT.match(line)
            if m:
                names.add(m.group(1))
    return names


def libraries():
    """The names that some file takes from a library."""
    names = set()
    for f in sorted(glob.glob('crates/*/**/*.antt', recursive=True)):
        for line in open(f, encoding='utf-8'):
            m = re.match(r'use (?:Rattle\.(?:std|core|io|libc|os)|Prim|native|lib|borrow|denote|mathlib)\b[^{]*\{(.*)\}', line)
            if m:
                names |= set(re.split(r'[,\s]+', m.group(1)))
    return names


def snake(name):
    return re.sub(r"([a-z0-9?'])([A-Z])", lambda m: m.group(1) + '_' + m.group(2).lower(), name).replace('-', '_')


def renamings():
    names = declared()
    taken = libraries()
    to, of = {}, collections.defaultdict(list)
    for n in sorted(names):
        if re.match('[a-z]', n) and n not in taken and (re.search('[A-Z]', n) or '-' in n):
            of[snake(n)].append(n)
    for new, olds in of.items():
        words = [n for n in olds if '-' not in n]
        if len(words) > 1:
            sys.exit(f'respell: {words} fall together')
        for n in olds:
            if '-' in n and (words or new in names):
                to[n] = new + '_lem'
            else:
                to[n] = new
        if words and new in names:
            to[new] = new + '_lem'
    for n, new in to.items():
        if new.endswith('_lem') and new in names:
            sys.exit(f'respell: {new} is there already')
    return to


def camel(n):
    return re.search('[A-Z]', n) and '-' not in n


def turn(text, to, words=True):
    def one(m):
        t = m.group(0)
        if t.startswith('"'):
            return t
        return to[t] if t in to and (words or camel(t)) else t
    return TOKEN.sub(one, text)


def turn_edit(text, to, names, words):
    """An edit's text, which port.py leaves: its names, and a projection written tight."""
    text = re.sub(r"\((\w+) \.(\w+)\)", r'\1.\2', text)
    text = re.sub(r"(?<=[\s(])(\w+) \.(\w+)", r'\1.\2', text)
    text = re.sub(r"\b(getD)\b", 'get_or', text)
    text = turn(text, to, words)
    return TOKEN.sub(lambda m: snake(m.group(0)) if (camel(m.group(0)) or words and '-' in m.group(0)) and m.group(0) not in names and snake(m.group(0)) in names else m.group(0), text)


def turn_line(line, to, mark, words=True):
    code, sep, said = line, '', ''
    m = re.search(r'(^|\s)' + re.escape(mark) + r'(?=\s|$)', line)
    if m:
        code, sep, said = line[:m.start()], line[m.start():m.end()], line[m.end():]
    return turn(code, to, words) + sep + turn(said, to, False)


CHOICE = re.compile(r"""(?P<said>(?:^|(?<=\s))--(?=\s)[^\n]*)|(?P<text>"(?:[^"\\]|\\.)*")|(?P<open>[({\[])|(?P<close>[)}\]])|(?P<end>\n(?=\S))|(?P<word>[^\s(){}\[\].,;«»"@`]+)""")


def choice(text):
    """`if` is `when` where a `then` belongs to it: a test, `refusal if b`, has none."""
    at, stack = [], [[]]
    for m in CHOICE.finditer(text):
        word = m.group('word')
        if m.group('end'):
            stack = [[]]
        elif m.group('open'):
            stack.append([])
        elif m.group('close'):
            if len(stack) > 1:
                stack.pop()
        elif word == 'if':
            stack[-1].append(m.start())
        elif word == 'then' and stack[-1]:
            at.append(stack[-1].pop())
        elif word == 'if◌then◌else◌':
            at.append(m.start())
    for i in sorted(at, reverse=True):
        text = text[:i] + 'when' + text[i + 2 :]
    return text


def choices():
    for f in sorted(glob.glob('crates/*/**/*.antt', recursive=True)):
        if '/out/' not in f:
            put(f, [choice(open(f, encoding='utf-8').read())])
    for f in sorted(glob.glob('crates/*/src/*.rt')):
        put(f, [choice(l) if l.startswith('ghost use') or re.match(r'\s*(requires|ensures)\b', l) else l for l in open(f, encoding='utf-8')])
    for f in sorted(glob.glob('crates/*/must-fail/*.edit')):
        put(f, [l[:4] + choice(l[4:]) if l.startswith(('old:', 'new:')) else l for l in open(f, encoding='utf-8')])


def main():
    if '--choice' in sys.argv:
        choices()
        return
    to = renamings()
    names = declared() | set(to.values())
    if '--list' in sys.argv:
        for n in sorted(to):
            print(n, to[n])
        return
    for f in sorted(glob.glob('crates/*/**/*.antt', recursive=True)):
        put(f, [turn_line(l, to, '--') for l in open(f, encoding='utf-8')])
    code = {n: v for n, v in to.items() if camel(n)}
    for f in sorted(glob.glob('crates/*/**/*.rt', recursive=True)):
        put(f, [turn_line(l, to if l.startswith('ghost use') or re.match(r'\s*(requires|ensures|ghost)\b', l) else code, '//') for l in open(f, encoding='utf-8')])
    for f in sorted(glob.glob('crates/*/must-fail/*.edit')):
        lines = open(f, encoding='utf-8').read().split('\n')
        out, specs = [], False
        for l in lines:
            if l.startswith('file:'):
                specs = l.rstrip().endswith('.antt')
            out.append(turn_edit(l, to, names, specs) if l.startswith(('old:', 'new:')) else turn(l, to, False))
        put(f, ['\n'.join(out)])
    choices()


def put(f, lines):
    text = ''.join(lines)
    if text != open(f, encoding='utf-8').read():
        with open(f, 'w', encoding='utf-8') as h:
            h.write(text)


if __name__ == '__main__':
    main()
