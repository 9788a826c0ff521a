#!/usr/bin/env python3
"""Lists the places that docs/DESIGN-PASS.md counts, by point.

    tools/places.py            a count for each point and kind of place
    tools/places.py 3          the places of point 3, one a line
    tools/places.py 3 book     those of one crate

It goes by text, over crates/*/src/*.rt and crates/*/proofs: what it lists is read by hand."""
import collections
import glob
import re
import sys

Place = collections.namedtuple('Place', 'point kind crate where text')


def sources():
    for path in sorted(glob.glob('crates/*/src/**/*.rt', recursive=True)):
        yield path, path.split('/')[1], open(path).read()


# A function: its name, parameters, clauses and body, by the braces.
def functions(text):
    for start in re.finditer(r'^( *)(?:pub(?:\(crate\))? )?fn (\w+)', text, re.M):
        end = re.search(r'^' + start.group(1) + r'(?:\}|\{\})$|;$', text[start.end():], re.M)
        whole = text[start.start():start.end() + (end.end() if end else 0)]
        body = re.search(r'^' + start.group(1) + r'\{', whole, re.M) or re.search(r'\{$', whole, re.M)
        head, inner = (whole[:body.start()], whole[body.start():]) if body else (whole, '')
        yield start.group(2), text.count('\n', 0, start.start()) + 1, head, inner


def by_line(point, kind, pattern):
    for path, crate, text in sources():
        for number, line in enumerate(text.split('\n'), 1):
            code = line.split('//')[0]
            if 'ghost' not in code and 'ensures' not in code and re.search(pattern, code):
                yield Place(point, kind, crate, f'{path}:{number}', line.strip())


def clauses(head):
    return re.findall(r'(?:requires|ensures)[^{\n]*\{(.*)\}\s*$', head, re.M)


# The parameters of a function's head, between the brackets after its name and its type parameters.
def parameters_of(head):
    depth, start, found = 0, None, []
    for at in range(re.search(r'fn \w+', head).end(), len(head)):
        char = head[at]
        if char == '>' and head[at - 1] in '-=':
            continue
        if char == '(' and depth == 0 and start is None:
            start = at + 1
        elif char == ')' and depth == 1 and start is not None:
            return found + [head[start:at]]
        elif char == ',' and depth == 1 and start is not None:
            found.append(head[start:at])
            start = at + 1
        depth += {'(': 1, '<': 1, '[': 1, ')': -1, '>': -1, ']': -1}.get(char, 0)
    return found


# Functions whose bodies are the same but for names and numbers, in one crate or in two.
def twins():
    shapes = collections.defaultdict(list)
    for path, crate, text in sources():
        for name, number, head, body in functions(text):
            tokens = re.findall(r'\w+|[^\w\s]', body)
            if len(tokens) < 16:
                continue
            kept = {'if', 'else', 'match', 'for', 'in', 'while', 'let', 'return', 'mut', 'Some', 'None', 'Ok', 'Err', 'as'}
            shape = ' '.join(t if t in kept or not re.match(r'\w', t) else 'x' for t in tokens)
            shapes[shape].append((crate, f'{path}:{number}', name))
    for group in shapes.values():
        if len(group) > 1:
            for crate, where, name in group:
                others = ', '.join(n if c == crate else f'{c} {n}' for c, w, n in group if w != where)
                yield Place(2, 'same body but for names', crate, where, f'{name}: {others}')


# Functions that only hand their arguments on to one function with the same clauses.
def forwarders():
    for path, crate, text in sources():
        for name, number, head, body in functions(text):
            called = re.fullmatch(r'\{\s*([\w:<>.&]+)\(([\w, &.]*)\);?\s*\}', body.strip())
            if called and clauses(head) and not called.group(1).startswith('self.0'):
                yield Place(2, 'hands its arguments on', crate, f'{path}:{number}', f'{name} -> {called.group(1)}')


# A premise of an ensures, or a requires, that stands in three or more functions of a crate.
def repeated_facts():
    found = collections.defaultdict(list)
    for path, crate, text in sources():
        for name, number, head, body in functions(text):
            facts = set()
            for clause in clauses(head):
                facts.update(p.strip() for p in clause.split('→')[:-1] if not p.strip().startswith('('))
            for clause in re.findall(r'requires[^{\n]*\{(.*)\}\s*$', head, re.M):
                facts.update(p.strip(' ()') for p in clause.split('×'))
            for fact in facts:
                found[crate, fact].append((f'{path}:{number}', name))
    for (crate, fact), group in sorted(found.items()):
        if len(group) >= 3:
            yield Place(5, 'a fact in three clauses or more', crate, group[0][0], f'{fact}: {", ".join(n for w, n in group)}')


# Parameters that stand side by side, by name and type, in three or more functions of a crate.
def repeated_parameters():
    found = collections.defaultdict(list)
    for path, crate, text in sources():
        for name, number, head, body in functions(text):
            parameters = [re.sub(r'\s+', ' ', p).strip() for p in parameters_of(head) if ':' in p]
            for pair in zip(parameters, parameters[1:]):
                found[crate, re.sub(r'&\'?\w* ?', '&', ' , '.join(p.replace('mut ', '') for p in pair))].append(name)
    for (crate, pair), names in sorted(found.items()):
        if len(names) >= 3:
            yield Place(5, 'parameters side by side in three functions or more', crate, crate, f'{pair}: {", ".join(names)}')


# Unit structs and structs made to carry one test or step of the crate's own trait.
def carriers():
    for path, crate, text in sources():
        for found in re.finditer(r'^(?:pub )?struct (\w+);', text, re.M):
            yield Place(7, 'a struct with no field', crate, f'{path}:{text.count(chr(10), 0, found.start()) + 1}', found.group(0))


def proofs():
    for path in sorted(glob.glob('crates/*/proofs/**/*.antt', recursive=True)):
        crate, name, text = path.split('/')[1], path.split('/')[-1], open(path).read()
        if name == 'Answers.antt':
            for answer in re.findall(r'^pub ([\w-]+) : goal\.', text, re.M):
                yield Place(8, 'answers', crate, path, answer)
        elif name not in ('Lib.antt', 'Invariants.antt'):
            for lemma in re.findall(r'^(?:pub )?([^\s:]+) : (?!Type)', text, re.M):
                yield Place(8, 'lemmas in proofs/', crate, path, lemma)
    for path in sorted(glob.glob('crates/*/specs/*.antt')):
        crate, text = path.split('/')[1], open(path).read()
        for lemma in re.findall(r'^(?:pub )?([^\s:]+) : ', text, re.M):
            yield Place(8, 'lemmas in specs/', crate, path, lemma)


def places():
    yield from by_line(1, 'an enum of our own', r'\benum \w+')
    yield from by_line(1, 'a field that is a flag', r'^\s+(?:pub )?\w+: bool,$')
    yield from by_line(1, 'a number for a kind, a refusal or a verdict', r'-> u8\b|\bcode: u8|\(u8, usize\)|kind: u16|-> u16\b')
    yield from twins()
    yield from forwarders()
    yield from by_line(3, 'while', r'\bwhile\b')
    yield from by_line(3, 'for over numbers', r'\bfor \w+ in \(?[\w.()]+\.\.')
    yield from by_line(3, 'for with a counted place', r'\bfor \(\w+, \w+\) in')
    yield from by_line(3, 'a count by hand', r'\+= 1;|saturating_add\(1\)|-= 1;')
    yield from by_line(4, 'a cast by as', r'\bas (?:[iu]\d+|usize|isize)\b')
    yield from by_line(4, 'equality by hand', r'fn (?:agree|same_\w+|eq|equal\w*)\b|impl (?:PartialEq|Ord|PartialOrd|Clone|Copy)\b')
    yield from by_line(4, 'a conversion by hand', r'fn (?:of|from|to|into)_\w+|fn (?:verdict|kind)\b')
    yield from by_line(4, 'printing into a formatter outside Display', r'^fn \w+<W: fmt::Write>')
    yield from by_line(4, 'an Option taken apart by hand', r'^\s+None => (?:None|false|true|0|aft|a),')
    yield from repeated_facts()
    yield from repeated_parameters()
    yield from by_line(6, 'a buffer of fixed size', r'\[\w+; \w+\]|\[[\w {:,}]+; \w+\]')
    yield from by_line(6, 'the first items of a buffer', r'\[0\.\.\w+\]|\[\.\.\w+\]|\.take\(self\.count\)')
    yield from carriers()
    yield from by_line(7, 'a call chosen by an enum', r'match occasion\b|match call\b')
    yield from proofs()


def main():
    wanted = int(sys.argv[1]) if len(sys.argv) > 1 else None
    crate = sys.argv[2] if len(sys.argv) > 2 else None
    all_places = [p for p in places() if crate in (None, p.crate)]
    if wanted:
        for p in all_places:
            if p.point == wanted:
                print(f'{p.kind}\t{p.where}\t{p.text}')
        return
    counts = collections.Counter((p.point, p.kind) for p in all_places)
    for (point, kind), count in sorted(counts.items(), key=lambda item: item[0][0]):
        print(f'{point}  {count:4}  {kind}')


main()
