#!/usr/bin/env python3
"""Lists the places in src/ that docs/DESIGN-PASS.md counts: places.py [POINT] [-v], at the top of a checkout.

1 enums with a case that holds nothing beside cases that hold something, flags and numbers that are answers, numbers in matches
2 functions and types that have one shape
3 loops that count an index, and while loops
4 functions that compare, convert or print by hand
5 facts that stand in the clauses of three or more functions, parameters that travel together
6 structs with a count beside an array or a Vec
7 matches of six or more arms, function pointers, dyn
"""
import collections
import glob
import itertools
import re
import sys

ITEM = re.compile(r'\b(fn|struct|enum)\s+(\w+)')
CLAUSE = re.compile(r'^\s*(?:requires|ensures)\b', re.M)


def files():
    for path in sorted(glob.glob('crates/*/src/**/*.rt', recursive=True)):
        yield path, open(path, encoding='utf-8').read()


def closed(text, at):
    """The end of the braces that open at `at`; strings and bytes are passed over."""
    depth, i = 0, at
    while i < len(text):
        quoted = re.compile(r'''b?"(?:\\.|[^"\\])*"|b?'(?:\\.|[^'\\])'|//[^\n]*''').match(text, i)
        if quoted:
            i = quoted.end()
            continue
        depth += (text[i] == '{') - (text[i] == '}')
        i += 1
        if depth == 0:
            return i
    return i


def opening(text, i):
    """The next brace or semicolon that stands in no brackets."""
    depth = 0
    while i < len(text) and (depth or text[i] not in '{;'):
        depth += (text[i] in '[(') - (text[i] in '])')
        i += 1
    return i


def items(text):
    """Each fn, struct and enum: kind, name, head (with clauses), body."""
    text = re.sub(r'^\s*//.*$', '', text, flags=re.M)
    for found in ITEM.finditer(text):
        at = found.start()
        i = opening(text, found.end())
        if found.group(1) == 'fn':
            # clauses have braces of their own
            while i < len(text) and text[i] == '{':
                line = text[text.rfind('\n', 0, i) + 1:i]
                if not re.match(r'\s*(requires|ensures)', line):
                    break
                i = opening(text, closed(text, i))
        head = text[at:i]
        if i >= len(text) or text[i] == ';':
            continue
        yield found.group(1), found.group(2), head, text[i:closed(text, i)]


def every(wanted):
    """Each fn, struct or enum of the sources: path, the file's text, name, head, body."""
    for path, text in files():
        for kind, name, head, body in items(text):
            if kind == wanted:
                yield path, text, name, head, body


def lines(matches):
    """Each line of the sources that matches, with its place."""
    for path, text in files():
        for n, line in enumerate(text.split('\n'), 1):
            if matches(line):
                yield f'{path}:{n} {line.strip()}'


def say(name, rows, verbose):
    print(f'{name}: {len(rows)}')
    if verbose:
        for row in rows:
            print('   ', row)


def enums(verbose):
    mixed = []
    for path, _, name, _, body in every('enum'):
        cases = re.findall(r'^\s{4,8}(\w+)(\s*[({]?)', body, flags=re.M)
        cases = [c for c in cases if c[0][0].isupper()]
        plain = [c[0] for c in cases if not c[1].strip()]
        if plain and len(plain) < len(cases):
            mixed.append(f'{path} {name}: {" ".join(plain)} beside {len(cases) - len(plain)}')
    say('1 enums, some cases hold nothing and some hold something', mixed, verbose)


ANSWER = re.compile(r'->\s*(bool|u8|u16|\(u8, usize\)|Option<(?:\w+::)?Fault>)\s*($|\n)')
NUMBER = re.compile(r'\s*\(?\d+[^.\w]*(, \w+\)?)? =>')
NUMBERED = re.compile(r'=> (?:Some\()?\d+\)?,?$|\b(row|fields|part|credit|write_truth)\((out, )?\d+,|End\(\d+\)')


def answers(verbose):
    rows = []
    for path, _, name, head, body in every('fn'):
        got = ANSWER.search(head.split('requires')[0].split('ensures')[0])
        if got and re.sub(r'\s', '', body) != '{0}' and not re.match(r'(is|has)_', name):
            rows.append(f'{path} {name} -> {got.group(1)}')
    say('1 functions that answer a flag, a number or an Option of a fault', rows, verbose)
    say('1 numbers that stand for kinds, in matches and calls', list(lines(lambda line: NUMBER.match(line) or NUMBERED.search(line))), verbose)


WORD = re.compile(r"b?\"(?:\\.|[^\"\\])*\"|'\w+|\w+|[^\s\w]")
KEEP = set('if else match for in while let mut return self Self fn struct enum Some None Ok Err true false as move loop break continue unsafe where ref'.split())


def shape(text):
    """The words of a text with each name, number and type as a mark."""
    out = []
    for w in WORD.findall(re.sub(r'//.*', '', text)):
        out.append(w if w in KEEP or not re.match(r'\w|b?"', w) else ('N' if w[0].isdigit() else 'x'))
    return out


def twins(verbose):
    shapes = collections.defaultdict(list)
    for wanted, least in (('fn', 24), ('struct', 12), ('enum', 12)):
        for path, text, name, head, body in every(wanted):
            at = text.find(f'fn {name}')
            signature = re.split(r'\n\s*(?:requires|ensures)', head)[0]
            words = shape(signature + body)
            if '#[test]' not in text[max(0, at - 12):at] and re.sub(r'\s', '', body) != '{0}' and len(words) >= least:
                shapes[(wanted, ' '.join(words))].append(f'{path} {name}')
    groups = [g for g in shapes.values() if len(g) > 1]
    say('2 functions and types in groups of one shape', [', '.join(g) for g in groups], verbose)
    print('  in them:', sum(len(g) for g in groups))


LOOP = re.compile(r'\s*(for \w+ in [^{]*\.\.|while |loop\b)')


def loops(verbose):
    say('3 loops that count an index, and while loops', list(lines(LOOP.match)), verbose)


BY_HAND = re.compile(r'(same|same_bytes|equal|is|number|place|name|of|value|newer|shown|tag_mark|key_mark|status_of|unsent|escapes?|hex_digit|refused|accepted|write_(?:number|bytes|action|actions|program|arrival|cut|user|command|truth)|counted|texted|call|call_\w+|add_(?:word|number|bytes)|user_number|byte|short|wide|way|ends|open_or_shut|guess|encode|decode)$')


BY_HAND_IMPL = re.compile(r'\s*impl.* (From|TryFrom|PartialEq|Eq|PartialOrd|Ord|Display|Debug|Clone|Default)\b.* for ')


def by_hand(verbose):
    rows = [f'{path} {name}' for path, _, name, _, _ in every('fn') if BY_HAND.match(name)]
    rows += lines(BY_HAND_IMPL.match)
    say('4 functions that compare, convert or print by hand, and impls of such traits', rows, verbose)


def facts(verbose):
    where = collections.defaultdict(set)
    for path, _, name, head, _ in every('fn'):
        for clause in re.findall(r'(?:requires|ensures)[^{]*\{(.*)\}\s*$', head, flags=re.M):
            for part in set(parts(clause)):
                where[(path.split('/')[1], part)].add(name)
    rows = [(c, p, fs) for (c, p), fs in where.items() if len(fs) >= 3]
    rows = [r for r in rows if not any(r[0] == s[0] and r[1] != s[1] and r[1] in s[1] and r[2] <= s[2] for s in rows)]
    say('5 facts and terms in clauses of three or more functions of a crate', [f'{c}: {len(f)} x {p}' for c, p, f in sorted(rows)], verbose)
    where = collections.defaultdict(set)
    for path, _, name, head, _ in every('fn'):
        inside = re.split(r'\)\s*(?:->|$|\n)', head.partition('(')[2])[0]
        named = [p.strip() for p in inside.replace('\n', ' ').split(',') if ':' in p]
        for one, other in itertools.combinations(named, 2):
            where[(path.split('/')[1], one, other)].add(name)
    rows = [f'{c}: {len(f)} x {a}, {b}' for (c, a, b), f in sorted(where.items()) if len(f) >= 3]
    say('5 pairs of parameters in three or more functions of a crate', rows, verbose)


def parts(clause):
    """A clause's premises and facts, and what stands in parentheses."""
    pieces = re.split(r' (?:→|×|↔) ', clause) + re.findall(r'(?:\b[A-Z]\w*\.[A-Z]\w*\.\w+ ){2,}', clause)
    stack = []
    for i, c in enumerate(clause):
        if c == '(':
            stack.append(i)
        elif c == ')' and stack:
            pieces.append(clause[stack.pop() + 1:i])
    for piece in pieces:
        piece = re.sub(r'\.(now|old|new)\b', '', piece.strip())
        if (piece.count(' ') >= 2 or re.match(r'[A-Z]\w*\.[A-Z]\w*\.', piece)) and len(piece) >= 16 and piece.count('(') == piece.count(')'):
            yield piece


def buffers(verbose):
    rows = []
    for path, _, name, _, body in every('struct'):
        count = re.findall(r'\b(?:pub )?(len|size|count|n|held|head|left|turn): (?:usize|u8|u16|u32|u64)\b', body)
        array = re.findall(r'(\w+): (?:Vec<[^\n]*>|\[[^\n]*\]|Block)', body)
        if array:
            rows.append(f'{path} {name}: {" ".join(count)}{" beside " if count else ""}{" ".join(array)}')
    say('6 structs with an array or a Vec', rows, verbose)


def switches(verbose):
    rows = []
    for path, _, name, _, body in every('fn'):
        for found in re.finditer(r'\bmatch\b', body):
            at = body.find('{', found.end())
            count = len(re.findall(r'=>', body[at:closed(body, at)])) if at >= 0 else 0
            if count >= 6:
                rows.append(f'{path} {name}: {count} arms')
                break
    rows += lines(re.compile(r'.*(\bdyn\b|: fn\(|&fn\(|\[fn\()').match)
    say('7 functions with a match of six or more arms; function pointers and dyn', rows, verbose)


POINTS = {'1': (enums, answers), '2': (twins,), '3': (loops,), '4': (by_hand,), '5': (facts,), '6': (buffers,), '7': (switches,)}


def main():
    words = [w for w in sys.argv[1:] if w != '-v']
    for point, lists in POINTS.items():
        if not words or point in words:
            for each in lists:
                each('-v' in sys.argv)


main()
