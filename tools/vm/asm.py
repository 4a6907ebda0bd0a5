#!/usr/bin/env python3
"""asm: text to a program's bytes, and back.   asm FILE.asm > FILE.prog      asm --list FILE.prog

A line is `label:`, an instruction as docs/MACHINE.md names it, or both; `;` begins a comment. Registers are r0 to r15, numbers
decimal, 0x.., 'c', or -k for 2^32 - k; a jump takes a label or a place.
"""
import sys

FORMS = {  # name: opcode, what it takes
    'const': (1, 'an'), 'move': (2, 'ab'), 'add': (3, 'abc'), 'compare': (4, 'ab'),
    'jump': (5, 'n'), 'jump_less': (6, 'n'), 'jump_equal': (7, 'n'), 'load': (8, 'ab'), 'store': (9, 'ab'),
    'read': (10, 'abc'), 'write': (11, 'ab'), 'end': (12, 'a'), 'go_on': (13, ''),
}

class Bad(Exception):
    pass

def number(word, labels):
    if word in labels:
        return labels[word]
    if len(word) == 3 and word[0] == word[2] == "'":
        return ord(word[1])
    try:
        return int(word, 0) % 2**32
    except ValueError:
        raise Bad(f"found {word}, expected a number or a label")

def assemble(text):
    rows, labels = [], {}
    for at, line in enumerate(text.split('\n'), 1):
        line = line.split(';')[0].strip()
        if ':' in line:
            label, line = line.split(':', 1)
            labels[label.strip()] = len(rows)
        if line.strip():
            rows.append((at, line.split()))
    out = b''
    for at, (name, *words) in rows:
        try:
            if name not in FORMS:
                raise Bad(f"found {name}, expected an instruction")
            opcode, takes = FORMS[name]
            if len(words) != len(takes):
                raise Bad(f"found {len(words)} words behind {name}, expected {len(takes)}")
            regs, n = {'a': 0, 'b': 0, 'c': 0}, 0
            for kind, word in zip(takes, words):
                if kind == 'n':
                    n = number(word, labels)
                elif word[:1] == 'r' and word[1:].isdigit() and int(word[1:]) < 16:
                    regs[kind] = int(word[1:])
                else:
                    raise Bad(f"found {word}, expected r0 to r15")
        except Bad as why:
            raise SystemExit(f"line {at}: {why}")
        out += bytes([opcode, regs['a'], regs['b'], regs['c']]) + n.to_bytes(4, 'big')
    return out

def listing(code):
    names = {opcode: (name, takes) for name, (opcode, takes) in FORMS.items()}
    for place in range(0, len(code), 8):
        row = code[place:place + 8]
        name, takes = names[row[0]]
        value = {'a': f'r{row[1]}', 'b': f'r{row[2]}', 'c': f'r{row[3]}', 'n': str(int.from_bytes(row[4:], 'big'))}
        yield ' '.join([name] + [value[k] for k in takes])

if __name__ == '__main__':
    if sys.argv[1:2] == ['--list']:
        print('\n'.join(listing(open(sys.argv[2], 'rb').read())))
    else:
        sys.stdout.buffer.write(assemble(open(sys.argv[1]).read()))
