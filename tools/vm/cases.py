#!/usr/bin/env python3
"""cases: writes crates/vm_run/data/cases and what crates/vm_run must print of them, by the interpreter of its own.

A case is: name (1 + it), program (2 + it), input (2 + it), turns (2); numbers high byte first.
Cases with a name are the programs of tools/vm/programs and edges; those without are 1,000 random programs.
"""
import random
from pathlib import Path
from asm import assemble
from interpreter import play

root = Path(__file__).resolve().parent.parent.parent

def program(name):
    return assemble((root / 'tools/vm/programs' / f'{name}.asm').read_text())

def edge(text):
    return assemble(text.replace(' / ', '\n'))

def plain(n):
    """n instructions, the n-th of which writes a byte: 4 a round, 5 around them, and some to fill up"""
    rounds, fill = divmod(n - 5, 4)
    return edge(f"const r1 {rounds} / const r15 1 / " + "move r3 r3 / " * fill + "again: compare r2 r1 / jump_equal out / add r2 r2 r15 / jump again / out: write r15 r4 / end r5")

def show(n, value):
    """the outcome of comparing, as a byte: l, e or g"""
    return edge(f"const r0 {n} / const r1 {value} / const r9 1 / compare r0 r1 / jump_less l / jump_equal e / const r2 'g' / jump o / l: const r2 'l' / jump o / e: const r2 'e' / o: store r2 r3 / write r9 r3 / end r3")

named = [
    ('echo', program('echo'), b'What is read is written.', 20),
    ('echo, nothing', program('echo'), b'', 20),
    ('echo, much', program('echo'), bytes(range(256)) * 5, 20),
    ('count', program('count'), b'one\ntwo\nthree\n' * 93, 40),
    ('count, nothing', program('count'), b'', 10),
    ('numbers', program('numbers'), b'7', 20),
    ('measure', program('measure'), b'', 300),
    ('dome', program('dome'), b'soscsx', 40),
    ('forever', program('forever'), b'', 5),
    ('round', program('round'), bytes(range(256)) + b'abc' * 20, 20),
    ('no instructions', b'', b'', 3),
    ('read of 0', edge('read r0 r1 r2'), b'', 3),
    ('read of 1,024', edge('const r0 1024 / read r0 r1 r2 / end r2'), b'abc', 4),
    ('read of 1,025', edge('const r0 1025 / read r0 r1 r2'), b'abc', 3),
    ('write of 0', edge('write r0 r1'), b'', 3),
    ('write of 1,024', edge('const r0 1024 / write r0 r1 / end r2'), b'', 3),
    ('write of 1,025', edge('const r0 1025 / write r0 r1'), b'', 3),
    ('status 255', edge('const r0 255 / end r0'), b'', 3),
    ('status 256', edge('const r0 256 / end r0'), b'', 3),
    ('status 2^32 - 1', edge('const r0 -1 / end r0'), b'', 3),
    ('jump to the last', edge('const r0 7 / jump 3 / end r1 / end r0'), b'', 3),
    ('jump past the last', edge('const r0 7 / jump 4 / end r1 / end r0'), b'', 3),
    ('jump far', edge('jump -1'), b'', 3),
    ('off the end', edge('const r0 1'), b'', 3),
    ('a sum that wraps', edge("const r0 -1 / const r1 50 / add r0 r0 r1 / end r0"), b'', 3),
    ('the largest sum', edge("const r0 -1 / add r0 r0 r0 / const r1 3 / add r0 r0 r1 / end r0"), b'', 3),
    ('0 and 0', show(0, 0), b'', 3),
    ('0 and 2^32 - 1', show(0, -1), b'', 3),
    ('2^32 - 1 and 0', show(-1, 0), b'', 3),
    ('2^32 - 1 twice', show(-1, -1), b'', 3),
    ('store at 255, load at 511', edge("const r0 'y' / const r1 255 / store r0 r1 / const r2 511 / load r3 r2 / store r3 r4 / const r5 1 / write r5 r4 / end r4"), b'', 3),
    ('store of 256', edge("const r0 321 / store r0 r1 / load r2 r1 / end r2"), b'', 3),
    ('a read into its own registers', edge("const r0 2 / read r0 r0 r0 / end r0"), b'ab', 3),
    ('9,999 instructions', plain(9999), b'', 6),
    ('10,000 instructions', plain(10000), b'', 6),
    ('10,001 instructions', plain(10001), b'', 6),
    ('20,001 instructions', plain(20001), b'', 6),
    ('a full row', edge('move r0 r0 / ' * 1023 + 'end r1'), b'', 3),
]

def random_program(rng):
    size = rng.randint(1, 24)
    small = lambda: rng.choice([0, 1, 2, 3, 4, 5, 255, 256, 257, 1023, 1024, 1025, 2**32 - 1, rng.randrange(2**32), rng.randrange(64)])
    reg = lambda: rng.choice([rng.randrange(4), rng.randrange(16)])
    out = b''.join(bytes([1, r, 0, 0]) + rng.choice([1, 2, 7, 100, 255, 300, 1024, rng.randrange(2**32)]).to_bytes(4, 'big') for r in range(4))
    for _ in range(size):
        op = rng.choice([1, 1, 1, 2, 3, 3, 4, 5, 6, 7, 8, 9, 9, 10, 11, 11, 13, rng.randint(1, 13)])
        a, b, c, n = {'1': (reg(), 0, 0, small()), '3': (reg(), reg(), reg(), 0), '10': (reg(), reg(), reg(), 0)}.get(str(op), (0, 0, 0, 0))
        if op in (2, 4, 8, 9, 11): a, b = reg(), reg()
        if op in (5, 6, 7): n = rng.choice([rng.randrange(size + 5), rng.randrange(size + 4), rng.randrange(size + 4), small()])
        if op == 12: a = reg()
        out += bytes([op, a, b, c]) + n.to_bytes(4, 'big')
    return out

def word(n):
    return n.to_bytes(4, 'big')

def digest(m, did):
    h = 2166136261
    def feed(bs):
        nonlocal h
        for b in bs:
            h = (h ^ b) * 16777619 % 2**32
    for act in did:
        kind = act[0]
        feed({'read': b'\x01', 'write': b'\x02', 'end': b'\x03', 'go on': b'\x04'}[kind])
        feed(act[1] if kind == 'write' else word(act[1]) if kind != 'go on' else b'')
    for v in m.r:
        feed(word(v))
    feed(m.memory)
    feed(word(m.pc % 2**32) + bytes([m.less, m.equal]))
    return h

rng = random.Random(1)
cases = named + [('', random_program(rng), bytes(rng.randrange(256) for _ in range(rng.choice([0, 1, 5, 20, 40, 300]))), 12) for _ in range(1000)]
data, said = b'', ''
for name, code, given, turns in cases:
    half = lambda bs: len(bs).to_bytes(2, 'big') + bs
    data += bytes([len(name)]) + name.encode() + half(code) + half(given) + turns.to_bytes(2, 'big')
    m, did, status = play(code, given, turns)
    if name:
        end = f'ended with {status}' if status is not None else 'runs on'
        wrote = b''.join(act[1] for act in did if act[0] == 'write')
        shown = ''.join(chr(b) if 32 <= b < 127 and b not in b'"\\' else f'\\x{b:02x}' for b in wrote[:64])
        said += f'{name}: {len(did)} turns, {end}, wrote {len(wrote)} "{shown}", {digest(m, did):08x}\n'
    else:
        said += f'{digest(m, did):08x}\n'
(root / 'crates/vm_run/data/cases').write_bytes(data)
(root / 'crates/vm_run/stdout').write_text(said)
print(len(cases), 'cases,', len(data), 'bytes')
