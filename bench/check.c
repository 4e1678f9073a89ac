/* A checker of reports in plain C: the yardstick of the speed of `check`. It believes that the text is of the format. Usage: check REPORT */
#include <stdint.h>
#include <stdio.h>
#include <stdlib.h>
#include <string.h>

struct term { uint32_t column; int32_t a; };

static char *at;
static uint32_t columns, rows;
static uint32_t *costs, *starts;
static int32_t *leasts;
static struct term *terms;
static __int128 *weights;
static int8_t *places; /* -1 where the column isn't fixed */
static int64_t spent, target;
static int has_cost, is_proved = 1;

static int64_t number(void)
{
    int is_negative = *at == '-';
    int64_t n = 0;
    at += is_negative;
    while (*at >= '0' && *at <= '9') n = 10 * n + (*at++ - '0');
    return is_negative ? -n : n;
}

/* Goes behind a word and the space that follows it. */
static void skip(const char *word)
{
    size_t length = strlen(word);
    if (strncmp(at, word, length)) { printf("not %s\n", word); exit(2); }
    at += length;
}

static int more(void)
{
    if (*at++ == '\n') return 0;
    return 1;
}

/* The bound of the multipliers that follow, over the denominator; with all costs 0 where that is 0. */
static __int128 bound(int64_t d)
{
    char *from = at;
    __int128 sum = d * (__int128)spent;
    while (more()) {
        uint32_t row = number();
        at++;
        int64_t m = number();
        sum += (__int128)m * leasts[row];
        for (uint32_t k = starts[row]; k < starts[row + 1]; k++) weights[terms[k].column] += (__int128)m * terms[k].a;
    }
    at = from;
    while (more()) {
        uint32_t row = number();
        at++;
        number();
        for (uint32_t k = starts[row]; k < starts[row + 1]; k++) {
            uint32_t j = terms[k].column;
            __int128 over = d * (__int128)costs[j] - weights[j];
            if (places[j] == 1) sum -= weights[j];
            else if (places[j] < 0 && over < 0) sum += over;
            weights[j] = 0;
        }
    }
    return sum;
}

static void node(void)
{
    char kind = *at++;
    if (kind == 'b') {
        at++;
        uint32_t j = number();
        at++;
        places[j] = 0;
        node();
        places[j] = 1;
        spent += costs[j];
        node();
        spent -= costs[j];
        places[j] = -1;
    } else if (kind == 'd') {
        at++;
        int64_t d = number();
        __int128 b = bound(d);
        if (!has_cost || d * (__int128)(target - 1) >= b) is_proved = 0;
    } else if (kind == 'k') {
        if (bound(0) <= 0) is_proved = 0;
    } else {
        at++;
        is_proved = 0;
    }
}

int main(int count, char **words)
{
    if (count != 2) return 2;
    FILE *file = fopen(words[1], "rb");
    if (!file) return 2;
    fseek(file, 0, SEEK_END);
    long size = ftell(file);
    rewind(file);
    char *text = malloc(size + 1);
    if (fread(text, 1, size, file) != (size_t)size) return 2;
    text[size] = 0;
    at = text;
    skip("novareport 1\nslots "), number();
    skip("\nbudget "), number();
    skip("\ncolumns "), columns = number();
    skip("\nrows "), rows = number();
    at++;
    costs = malloc((columns + 1) * sizeof *costs), places = malloc(columns + 1), weights = calloc(columns + 1, sizeof *weights);
    leasts = malloc((rows + 1) * sizeof *leasts), starts = malloc((rows + 1) * sizeof *starts);
    memset(places, -1, columns + 1);
    for (uint32_t j = 0; j < columns; j++) skip("c "), costs[j] = number(), at++;
    size_t room = 1 << 20, used = 0;
    terms = malloc(room * sizeof *terms);
    for (uint32_t i = 0; i < rows; i++) {
        skip("r "), leasts[i] = number(), starts[i] = used;
        while (more()) {
            if (used == room) terms = realloc(terms, (room *= 2) * sizeof *terms);
            terms[used].column = number(), at++, terms[used].a = number(), used++;
        }
    }
    starts[rows] = used;
    skip("verdict ");
    char verdict = *at;
    while (*at != '\n') at++;
    at++;
    if (*at == 'x') {
        int64_t *sums = calloc(rows + 1, sizeof *sums);
        int8_t *on = calloc(columns + 1, 1);
        at++;
        while (more()) { uint32_t j = number(); on[j] = 1, target += costs[j]; }
        for (uint32_t i = 0; i < rows; i++) {
            for (uint32_t k = starts[i]; k < starts[i + 1]; k++) if (on[terms[k].column]) sums[i] += terms[k].a;
            if (sums[i] < leasts[i]) { printf("a row isn't met\n"); return 1; }
        }
    }
    has_cost = verdict == 'o';
    skip("tree "), number(), at++;
    node();
    int is_searched = verdict == 'o' || verdict == 'i';
    printf(!is_searched ? "cut off\n" : is_proved ? "proved\n" : "falls short\n");
    return 0;
}
