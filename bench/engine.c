/* The instruction table as a plain C loop: the yardstick of the simulator's speed. Usage: engine OBJECT STEPS */
#include <stdint.h>
#include <stdio.h>
#include <stdlib.h>
#include <string.h>

struct instruction { uint8_t kind, op, dst, x, y, k; uint32_t value; };

static uint32_t registers[7 * 16]; /* A, B, L, LD, S, SD, nowhere: sixteen places each, numbered as in an object */
static uint32_t sram[65536], sdram[131072], scratch[1024];

static uint32_t *memory_of(unsigned mem, uint64_t *size, unsigned *unit)
{
    *unit = mem == 1 ? 2 : 1;
    *size = mem == 0 ? 65536 : mem == 1 ? 131072 : 1024;
    return mem == 0 ? sram : mem == 1 ? sdram : scratch;
}

int main(int count, char **words)
{
    if (count != 3) return 2;
    FILE *file = fopen(words[1], "rb");
    uint8_t head[12];
    if (!file || fread(head, 1, 12, file) != 12) return 2;
    uint32_t length = head[8] | head[9] << 8 | head[10] << 16 | (uint32_t)head[11] << 24;
    struct instruction *code = malloc(length * sizeof *code);
    for (uint32_t i = 0; i < length; i++) {
        uint8_t b[8];
        if (fread(b, 1, 8, file) != 8) return 2;
        struct instruction n = { b[0], b[1], b[2], b[3], b[4], b[4], 0 };
        if (b[0] == 2) n.value = (uint32_t)(b[4] | b[5] << 8) << b[1];
        if (b[0] == 3) n.value = b[4] | b[5] << 8 | b[6] << 16 | (uint32_t)b[7] << 24;
        if (b[0] == 4 || b[0] == 5) n.k = b[5];
        code[i] = n;
    }
    uint64_t steps = strtoull(words[2], 0, 10);
    uint32_t place = 0;
    int z = 0, c = 0;
    registers[16 + 15] = 512;
    for (uint64_t step = 0; step < steps; step++) {
        const struct instruction *n = &code[place];
        uint32_t x, y, v;
        switch (n->kind) {
        case 0:
            x = registers[n->x], y = registers[n->y];
            switch (n->op) {
            case 0: v = x + y, c = v < x; break;
            case 1: v = x - y, c = x >= y; break;
            case 2: v = x & y, c = 0; break;
            case 3: v = x | y, c = 0; break;
            default: v = x ^ y, c = 0; break;
            }
            registers[n->dst] = v, z = v == 0, place++;
            break;
        case 1:
            x = registers[n->x];
            switch (n->op) {
            case 0: v = x; break;
            case 1: v = ~x; break;
            case 2: v = x << n->k; break;
            case 3: v = x >> n->k; break;
            default: v = x << n->k | x >> (32 - n->k); break;
            }
            registers[n->dst] = v, z = v == 0, c = 0, place++;
            break;
        case 2:
            registers[n->dst] = n->value, place++;
            break;
        case 3: {
            int holds = n->op == 0 || (n->op == 1 ? z : n->op == 2 ? !z : n->op == 3 ? c : !c);
            place = holds ? n->value : place + 1;
            break;
        }
        case 4:
        case 5: {
            uint64_t size;
            unsigned unit;
            uint32_t *words_ = memory_of(n->op, &size, &unit);
            uint64_t at = (uint64_t)registers[n->y] + n->k;
            if (at * unit + n->x > size) { printf("fault\n"); return 0; }
            uint32_t *run = registers + (n->kind == 4 ? (n->op == 1 ? 48 : 32) : (n->op == 1 ? 80 : 64)) + n->dst;
            if (n->kind == 4) memcpy(run, words_ + at * unit, n->x * 4);
            else memcpy(words_ + at * unit, run, n->x * 4);
            place++;
            break;
        }
        default:
            printf("halted after %llu\n", (unsigned long long)step + 1);
            return 0;
        }
    }
    printf("going %08x\n", registers[0]);
    return 0;
}
