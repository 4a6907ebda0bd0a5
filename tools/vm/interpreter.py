"""An interpreter of its own, written from docs/MACHINE.md alone, to compare the proved one with."""

class Machine:
    def __init__(self, code):
        self.rows = [code[i:i + 8] for i in range(0, len(code), 8)]
        self.r, self.memory, self.pc, self.less, self.equal = [0] * 16, bytearray(256), 0, False, False
        self.asked = self.turn(0)

    def turn(self, done):
        """from the next instruction to what the turn asks for; `done` instructions of it are done"""
        while True:
            if self.pc >= len(self.rows):
                return ('end', 255)
            row = self.rows[self.pc]
            op, a, b, c, n = row[0], row[1], row[2], row[3], int.from_bytes(row[4:], 'big')
            r = self.r
            if op == 10:
                return ('read', r[a]) if 1 <= r[a] <= 1024 else ('end', 255)
            if op == 11:
                if not 1 <= r[a] <= 1024:
                    return ('end', 255)
                return ('write', bytes(self.memory[(r[b] + i) % 256] for i in range(r[a])))
            if op == 12:
                return ('end', r[a] if r[a] <= 255 else 255)
            if op == 13:
                return ('go on',)
            if done == 9999:  # this one is the turn's 10,000th: it is done when the next turn comes
                return ('go on',)
            self.plain(op, a, b, c, n)
            done += 1

    def plain(self, op, a, b, c, n):
        r, to = self.r, self.pc + 1
        if op == 1: r[a] = n
        elif op == 2: r[a] = r[b]
        elif op == 3: r[a] = (r[b] + r[c]) & 0xffffffff
        elif op == 4: self.less, self.equal = r[a] < r[b], r[a] == r[b]
        elif op == 5: to = n
        elif op == 6: to = n if self.less else to
        elif op == 7: to = n if self.equal else to
        elif op == 8: r[a] = self.memory[r[b] % 256]
        elif op == 9: self.memory[r[b] % 256] = r[a] % 256
        else: raise ValueError(op)
        self.pc = to

    def resume(self, came, eof):
        row = self.rows[self.pc]
        op, a, b, c, n = row[0], row[1], row[2], row[3], int.from_bytes(row[4:], 'big')
        if op == 10:
            at = self.r[b]
            for i, byte in enumerate(came):
                self.memory[(at + i) % 256] = byte
            self.r[a] = len(came)
            self.r[c] = 1 if eof else 0
            self.pc += 1
        elif op in (11, 13):
            self.pc += 1
        else:
            self.plain(op, a, b, c, n)
        self.asked = self.turn(0)

def play(code, data, turns):
    """the actions of a program that is given all the input there is, and how it ended: a status, or None where it still runs"""
    m, did = Machine(code), []
    for _ in range(turns):
        did.append(m.asked)
        kind = m.asked[0]
        if kind == 'end':
            return m, did, m.asked[1]
        came = b''
        if kind == 'read':
            came, data = data[:m.asked[1]], data[m.asked[1]:]
        m.resume(came, kind == 'read' and not came)
    return m, did, None
