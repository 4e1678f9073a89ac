/* A listing of an object of version 1 in plain C: the yardstick of the speed of `dis`. It believes that the bytes are an object. Usage: list OBJECT */
#include <stdint.h>
#include <stdio.h>
#include <stdlib.h>
#include <string.h>

static char *to;

static void put(const char *word)
{
    while (*word) *to++ = *word++;
}

static void put_number(uint32_t n)
{
    char digits[10];
    int count = 0;
    do digits[count++] = '0' + n % 10; while (n /= 10);
    while (count) *to++ = digits[--count];
}

static void put_spaced(uint32_t n)
{
    *to++ = ' ';
    put_number(n);
}

/* A register by its code: banks A, B, L, LD, S, SD of sixteen codes each, and none. */
static void put_register(uint8_t code)
{
    static const char *banks[] = { "A", "B", "L", "LD", "S", "SD" };
    *to++ = ' ';
    if (code == 0x60) put("none");
    else put(banks[code >> 4]), put_number(code & 15);
}

static void put_instruction(const uint8_t *b)
{
    static const char *twos[] = { " ADD", " SUB", " AND", " OR", " XOR" }, *ones[] = { " COPY", " NOT", " SHL", " SHR", " ROL" };
    static const char *conditions[] = { "ALWAYS", "Z", "NZ", "C", "NC" }, *memories[] = { " sram", " sdram", " scratch" };
    switch (b[0]) {
    case 0: put("alu"), put_register(b[2]), put(twos[b[1]]), put_register(b[3]), put_register(b[4]); break;
    case 1:
        put("un"), put_register(b[2]), put(ones[b[1]]);
        if (b[1] > 1) put_spaced(b[4]);
        put_register(b[3]);
        break;
    case 2: put("immed"), put_register(b[2]), put_spaced(b[4] | b[5] << 8), put_spaced(b[1]); break;
    case 3:
        put("br "), put(conditions[b[1]]), put(" @");
        put_number(b[4] | b[5] << 8 | b[6] << 16 | (uint32_t)b[7] << 24);
        break;
    case 4:
    case 5: put(b[0] == 4 ? "read" : "write"), put(memories[b[1]]), put_spaced(b[2]), put_spaced(b[3]), put_register(b[4]), put_spaced(b[5]); break;
    default: put("halt"), put_spaced(b[2] | b[3] << 8), put_spaced(b[1]);
    }
    *to++ = '\n';
}

int main(int count, char **words)
{
    if (count != 2) return 2;
    FILE *file = fopen(words[1], "rb");
    uint8_t head[12];
    if (!file || fread(head, 1, 12, file) != 12) return 2;
    uint32_t length = head[8] | head[9] << 8 | head[10] << 16 | (uint32_t)head[11] << 24;
    uint8_t *code = malloc(8ul * length);
    char *text = to = malloc(40ul * length + 40);
    if (fread(code, 8, length, file) != length) return 2;
    put("params"), put_spaced(head[4]), *to++ = '\n';
    for (uint32_t i = 0; i < length; i++) put_instruction(code + 8ul * i);
    return fwrite(text, 1, to - text, stdout) != (size_t)(to - text);
}
