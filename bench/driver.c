/* driver TURNS CALLS [time] < CASE: one case of the case protocol, TURNS times: each turn puts the table back as it came and, where CALLS is 1, makes the
 * call. Prints the last result and, if asked, the nanoseconds of all turns (a number of varying size, so not where instructions are counted).
 * Compiled for the library and, with its calls renamed, for bench/baseline.c. */
#include "dymosaw.h"

#include <stdio.h>
#include <stdlib.h>
#include <string.h>
#include <time.h>

enum { MOST = 1 << 17, FIELDS = 6 };

struct field {
    uint8_t bytes[MOST];
    size_t length;
};

/* Table, request, host, realm, answer and cancel buffer; or table and frame. */
static struct field fields[FIELDS];
static uint8_t before[MOST];
static int op;

static void fail(const char *what)
{
    fprintf(stderr, "driver: %s\n", what);
    exit(2);
}

static void read_field(struct field *field)
{
    uint8_t n[4];
    if (fread(n, 1, 4, stdin) != 4)
        fail("no field");
    field->length = (size_t)n[0] << 24 | (size_t)n[1] << 16 | (size_t)n[2] << 8 | n[3];
    if (field->length > MOST || fread(field->bytes, 1, field->length, stdin) != field->length)
        fail("a field cut short");
}

static uint64_t call(void)
{
    struct field *const f = fields;
    if (op == 2)
        return dymosaw_correct(f[0].bytes, f[0].length, f[1].bytes, f[1].length);
    return dymosaw_request(f[0].bytes, f[0].length, f[1].bytes, f[1].length, f[2].bytes, f[2].length, f[3].bytes, f[3].length,
                           f[4].bytes, f[4].length, f[5].bytes, f[5].length);
}

/* The stretch of the table that a call changes. */
static void changed(size_t *from, size_t *to)
{
    size_t i;
    *from = *to = 0;
    for (i = 0; i < fields[0].length; i++)
        if (fields[0].bytes[i] != before[i]) {
            *from = *to == 0 ? i : *from;
            *to = i + 1;
        }
}

static void turn(long turns, int calls, uint64_t *result)
{
    size_t from, to;
    changed(&from, &to);
    for (; turns > 0; turns--) {
        memcpy(fields[0].bytes + from, before + from, to - from);
        if (calls)
            *result = call();
    }
}

static long long nanoseconds(void)
{
    struct timespec t;
    clock_gettime(CLOCK_MONOTONIC, &t);
    return t.tv_sec * 1000000000LL + t.tv_nsec;
}

int main(int argc, char **argv)
{
    long long began;
    uint64_t result;
    int i;

    if (argc < 3)
        fail("usage: driver TURNS CALLS [time]");
    op = getchar();
    for (i = 0; i < (op == 2 ? 2 : FIELDS); i++)
        read_field(&fields[i]);
    memcpy(before, fields[0].bytes, fields[0].length);
    result = call();
    began = nanoseconds();
    turn(strtol(argv[1], NULL, 10), argv[2][0] == '1', &result);
    printf("%llu", (unsigned long long)result);
    if (argc > 3)
        printf(" %lld", nanoseconds() - began);
    printf("\n");
    return 0;
}
