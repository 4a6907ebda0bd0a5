#!/usr/bin/env python3
"""Writes crates/samples/stdout: twenty sealed messages, by an implementation of its own over hashlib and hmac (ChaCha20 from RFC 8439)."""
import hmac, hashlib, struct
from pathlib import Path

def rotl(x, n):
    return ((x << n) | (x >> (32 - n))) & 0xffffffff

def quarter(s, a, b, c, d):
    s[a] = (s[a] + s[b]) & 0xffffffff; s[d] = rotl(s[d] ^ s[a], 16)
    s[c] = (s[c] + s[d]) & 0xffffffff; s[b] = rotl(s[b] ^ s[c], 12)
    s[a] = (s[a] + s[b]) & 0xffffffff; s[d] = rotl(s[d] ^ s[a], 8)
    s[c] = (s[c] + s[d]) & 0xffffffff; s[b] = rotl(s[b] ^ s[c], 7)

def block(key, counter, nonce):
    first = list(struct.unpack('<4I', b'expand 32-byte k')) + list(struct.unpack('<8I', key)) + [counter] + list(struct.unpack('<3I', nonce))
    s = first[:]
    for _ in range(10):
        for q in ((0, 4, 8, 12), (1, 5, 9, 13), (2, 6, 10, 14), (3, 7, 11, 15), (0, 5, 10, 15), (1, 6, 11, 12), (2, 7, 8, 13), (3, 4, 9, 14)):
            quarter(s, *q)
    return struct.pack('<16I', *[(x + y) & 0xffffffff for x, y in zip(s, first)])

def chacha20(key, nonce, text):
    out = bytearray()
    for i in range(0, len(text), 64):
        out += bytes(x ^ y for x, y in zip(text[i:i + 64], block(key, i // 64, nonce)))
    return bytes(out)

def mac(key, text):
    return hmac.new(key, text, hashlib.sha256).digest()

def sealed(key, client, server, back, number, inside):
    way = mac(key, bytes([2 if back else 1]) + client + server)
    n = struct.pack('>Q', number)
    body = struct.pack('>H', len(inside)) + chacha20(way, bytes(4) + n, inside)
    return body + mac(key, bytes([4 if back else 3]) + client + server + n + body)[:16]

def some(n):
    return bytes((7 * i + 3) % 256 for i in range(n))

def head(kind, channel=0):
    return struct.pack('>BH', kind, channel)

THERE = [head(1) + bytes([7]) + some(32), head(2, 1) + bytes([9]), head(3, 1) + some(5), head(4, 1) + struct.pack('>I', 8192), head(5, 1),
         head(6, 1), head(7), head(3, 65535) + some(1024), head(3, 258) + some(64), head(4, 2) + struct.pack('>I', 0xffffffff)]
BACK = [head(16) + b'\x01', head(17, 1) + b'\x01', head(18, 1) + some(5), head(19, 1) + struct.pack('>I', 8192), head(20, 1) + bytes([255]),
        head(21), head(16) + b'\x00', head(17, 2) + b'\x00', head(18, 65535) + some(1024), head(18, 258) + some(256)]
KEY, CLIENT, SERVER = bytes(range(32)), bytes(range(100, 132)), bytes(range(200, 232))
if __name__ == '__main__':
    lines = [sealed(KEY, CLIENT, SERVER, back, n, m).hex() for back, ms in ((False, THERE), (True, BACK)) for n, m in enumerate(ms)]
    Path(__file__).resolve().parent.parent.joinpath('crates/samples/stdout').write_text('\n'.join(lines) + '\n')
