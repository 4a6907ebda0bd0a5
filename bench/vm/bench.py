#!/usr/bin/env python3
"""bench: instructions a second of the proved machine (crates/vm_run/out/vm_run) beside a switch loop in C (gcc -O3), in one run.

Each program runs without end for 20,000 turns of 10,000 instructions; both must print the same digest. The least processor time of seven runs counts.
"""
import os, subprocess, sys
from pathlib import Path
root = Path(__file__).resolve().parent.parent.parent
sys.path.insert(0, str(root / 'tools/vm'))
from asm import assemble

TURNS = 20000
PROGRAMS = {
    'sums': "const r1 1 / const r2 7 / again: add r0 r0 r1 / add r3 r3 r2 / move r4 r0 / add r5 r4 r3 / compare r5 r3 / jump_less again / jump again",
    'bytes': "const r1 1 / again: add r0 r0 r1 / store r0 r0 / add r2 r0 r1 / load r3 r2 / compare r3 r0 / jump_equal again / const r4 9 / jump again",
    'search': "const r15 1 / const r14 200 / start: const r3 0 / scan: compare r3 r14 / jump_equal done / load r4 r3 / add r3 r3 r15 / compare r4 r15 / jump_equal found / jump scan / found: add r6 r6 r15 / done: store r15 r6 / jump start",
    'forever': "again: jump again",
}

out = root / 'bench/out/vm'
out.mkdir(parents=True, exist_ok=True)
subprocess.run(['gcc', '-O3', '-o', out / 'switch', root / 'bench/vm/switch.c'], check=True)
total = {'proved': 0.0, 'C': 0.0}
for name, text in PROGRAMS.items():
    code = assemble(text.replace(' / ', '\n'))
    (out / 'cases').write_bytes(b'\0' + len(code).to_bytes(2, 'big') + code + b'\0\0' + TURNS.to_bytes(2, 'big'))
    best, said = {}, {}
    for _ in range(7):
        for who, what in (('proved', root / 'crates/vm_run/out/vm_run'), ('C', out / 'switch')):
            child = subprocess.Popen([what], cwd=out, stdout=subprocess.PIPE)
            said[who] = child.stdout.read()
            _, status, used = os.wait4(child.pid, 0)
            if status:
                sys.exit(f"{what}: {status}")
            best[who] = min(best.get(who, 1e9), used.ru_utime)
    if said['proved'] != said['C']:
        sys.exit(f"{name}: not the same: {said}")
    for who in best:
        total[who] += best[who]
    rate = {who: TURNS * 10000 / t / 1e6 for who, t in best.items()}
    print(f"{name:8} proved {rate['proved']:6.0f}, C {rate['C']:6.0f} million instructions a second: {rate['proved'] / rate['C']:.2f} times")
print(f"all      {total['C'] / total['proved']:.2f} times")
