/* What is live at each place of an object of version 1, once, by the steps of uc_peep in plain C: two sweeps from the last place to the first, the
   branches to each place whose set rose, and a last sweep. Prints how often a set was looked at, and the sum of the numbers of live registers and flags. */
#include <stdint.h>
#include <stdio.h>
#include <stdlib.h>
#include <string.h>

typedef unsigned __int128 Set;

enum { ALU, UN, IMMED, BR, READ, WRITE, HALT };
enum { BANK_L = 32, BANK_LD = 40, BANK_S = 48, BANK_SD = 56, ZERO = 64, CARRY = 65, NOWHERE = 0x60 };

static uint32_t count;
static uint8_t *code; /* 8 bytes an instruction */
static Set *sets;
static int32_t *heads, *links, *work;
static size_t waiting;
static uint64_t looks;

static Set one(int bit) { return (Set)1 << bit; }
static Set run(int first, int n) { return (((Set)1 << n) - 1) << first; }
static Set flags(void) { return one(ZERO) | one(CARRY); }

/* A register of an object has its bank in the upper half of its byte. */
static Set bit_of(int r) { return r < 0x20 ? one(r) : r == NOWHERE ? 0 : one(BANK_L + (r >> 4) * 8 - 16 + (r & 7)); }

static int is_sdram(const uint8_t *i) { return i[1] == 1; }

static Set reads(const uint8_t *i) {
    switch (i[0]) {
    case ALU: return bit_of(i[3]) | bit_of(i[4]);
    case UN: return bit_of(i[3]);
    case BR: return i[1] == 0 ? 0 : i[1] <= 2 ? one(ZERO) : one(CARRY);
    case READ: return bit_of(i[4]);
    case WRITE: return run((is_sdram(i) ? BANK_SD : BANK_S) + i[2], i[3]) | bit_of(i[4]);
    case HALT: return run(0, i[1]);
    default: return 0;
    }
}

static Set writes(const uint8_t *i) {
    switch (i[0]) {
    case ALU:
    case UN: return bit_of(i[2]) | flags();
    case IMMED: return bit_of(i[2]);
    case READ: return run((is_sdram(i) ? BANK_LD : BANK_L) + i[2], i[3]);
    default: return 0;
    }
}

static uint32_t target_of(const uint8_t *i) {
    uint32_t t;
    memcpy(&t, i + 4, 4);
    return t;
}

static Set after(const uint8_t *i, uint32_t x) {
    if (i[0] == HALT)
        return 0;
    if (i[0] == BR)
        return sets[target_of(i)] | (i[1] ? sets[x + 1] : 0);
    return sets[x + 1];
}

static int update(uint32_t x) {
    const uint8_t *i = code + 8 * (size_t)x;
    Set set = sets[x] | (after(i, x) & ~writes(i)) | reads(i);
    looks++;
    if (set == sets[x])
        return 0;
    sets[x] = set;
    return 1;
}

static int update_noted(uint32_t x) {
    int rose = update(x);
    if (rose && heads[x] >= 0)
        work[waiting++] = (int32_t)x;
    return rose;
}

static void follow(int32_t place) {
    for (int32_t b = heads[place]; b >= 0; b = links[b])
        for (int32_t x = b; x >= 0 && update_noted((uint32_t)x); x--)
            ;
}

int main(int argc, char **argv) {
    FILE *it = argc > 1 ? fopen(argv[1], "rb") : NULL;
    uint8_t head[12];
    if (!it || fread(head, 1, 12, it) != 12 || memcmp(head, "NVO1", 4))
        return 2;
    memcpy(&count, head + 8, 4);
    code = malloc(8 * (size_t)count);
    sets = calloc(count + 1, sizeof *sets);
    heads = malloc(4 * (size_t)count);
    links = malloc(4 * (size_t)count);
    work = malloc(4 * (size_t)count * 128);
    if (!code || !sets || !heads || !links || !work || fread(code, 8, count, it) != count)
        return 5;
    memset(heads, 0xff, 4 * (size_t)count);
    for (uint32_t x = 0; x < count; x++)
        if (code[8 * (size_t)x] == BR) {
            uint32_t t = target_of(code + 8 * (size_t)x);
            links[x] = heads[t];
            heads[t] = (int32_t)x;
        }
    for (uint32_t x = count; x-- > 0;)
        update(x);
    for (uint32_t x = count; x-- > 0;)
        update_noted(x);
    while (waiting)
        follow(work[--waiting]);
    for (int rose = 1; rose;) {
        rose = 0;
        for (uint32_t x = count; x-- > 0;)
            rose |= update(x);
    }
    uint64_t live = 0;
    for (uint32_t x = 0; x < count; x++)
        live += (uint64_t)(__builtin_popcountll((uint64_t)sets[x]) + __builtin_popcountll((uint64_t)(sets[x] >> 64)));
    printf("looks %llu live %llu\n", (unsigned long long)looks, (unsigned long long)live);
    return 0;
}
