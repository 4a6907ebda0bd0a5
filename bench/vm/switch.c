// The same machine as a switch loop in C: plays a file of cases as crates/vm_run does, and prints the same lines for cases with no name.
#include <stdint.h>
#include <stdio.h>
#include <stdlib.h>
#include <string.h>

struct row { uint8_t op, a, b, c; uint32_t n; };
struct machine { uint32_t r[16]; uint8_t memory[256]; uint32_t pc; uint8_t less, equal; };

static uint32_t digest;
static void feed(const uint8_t *p, size_t n) { for (size_t i = 0; i < n; i++) digest = (digest ^ p[i]) * 16777619u; }
static void word(uint32_t n) { uint8_t b[4] = { n >> 24, n >> 16, n >> 8, n }; feed(b, 4); }

// one ordinary instruction; 0 where it is none
static inline int step(struct machine *m, const struct row *i)
{
    uint32_t *r = m->r;
    switch (i->op) {
    case 1: r[i->a] = i->n; break;
    case 2: r[i->a] = r[i->b]; break;
    case 3: r[i->a] = r[i->b] + r[i->c]; break;
    case 4: m->less = r[i->a] < r[i->b]; m->equal = r[i->a] == r[i->b]; break;
    case 5: m->pc = i->n; return 1;
    case 6: m->pc = m->less ? i->n : m->pc + 1; return 1;
    case 7: m->pc = m->equal ? i->n : m->pc + 1; return 1;
    case 8: r[i->a] = m->memory[r[i->b] & 255]; break;
    case 9: m->memory[r[i->b] & 255] = (uint8_t)r[i->a]; break;
    default: return 0;
    }
    m->pc++;
    return 1;
}

static void run(struct machine *m, const struct row *code, uint32_t size)
{
    for (int left = 9999; left > 0; left--) {
        if (m->pc >= size || !step(m, &code[m->pc]))
            return;
    }
}

static uint8_t *data; static size_t size, at;
static uint32_t take(int n) { uint32_t v = 0; while (n--) v = v << 8 | data[at++]; return v; }

int main(void)
{
    FILE *f = fopen("cases", "rb");
    fseek(f, 0, SEEK_END); size = ftell(f); rewind(f);
    data = malloc(size);
    if (fread(data, 1, size, f) != size) return 1;
    while (at < size) {
        at += take(1);
        uint32_t bytes = take(2), rows = bytes / 8;
        struct row *code = malloc(sizeof *code * (rows + 1));
        for (uint32_t i = 0; i < rows; i++) {
            code[i] = (struct row){ data[at], data[at + 1], data[at + 2], data[at + 3], 0 };
            at += 4; code[i].n = take(4);
        }
        uint32_t left = take(2); const uint8_t *input = data + at; at += left;
        uint32_t turns = take(2);
        struct machine m = { 0 };
        digest = 2166136261u;
        run(&m, code, rows);
        while (turns--) {
            const struct row *i = m.pc < rows ? &code[m.pc] : 0;
            uint32_t a = i ? m.r[i->a] : 0;
            if (!i || ((i->op == 10 || i->op == 11) && (a < 1 || a > 1024)) || (i->op == 12)) {
                uint32_t status = i && i->op == 12 && a <= 255 ? a : 255;
                feed((const uint8_t *)"\3", 1); word(status); break;
            }
            if (i->op == 10) {
                uint32_t count = a < left ? a : left, to = m.r[i->b];
                feed((const uint8_t *)"\1", 1); word(a);
                for (uint32_t k = 0; k < count; k++) m.memory[(to + k) & 255] = input[k];
                input += count; left -= count;
                m.r[i->a] = count; m.r[i->c] = count == 0; m.pc++;
            } else if (i->op == 11) {
                feed((const uint8_t *)"\2", 1);
                for (uint32_t k = 0; k < a; k++) feed(&m.memory[(m.r[i->b] + k) & 255], 1);
                m.pc++;
            } else {
                feed((const uint8_t *)"\4", 1);
                if (i->op == 13) m.pc++; else step(&m, i);
            }
            run(&m, code, rows);
        }
        for (int k = 0; k < 16; k++) word(m.r[k]);
        feed(m.memory, 256); word(m.pc);
        feed(&m.less, 1); feed(&m.equal, 1);
        printf("%08x\n", digest);
        free(code);
    }
    return 0;
}
