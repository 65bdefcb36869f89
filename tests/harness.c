/* harness: the case protocol over the library, so that its outcomes can be compared with the second program's.
 * Cases on standard input, results on standard output, until the input ends between two cases. Every buffer stands between guard
 * bytes; a guard byte or an input that a call changed ends the run with status 1.
 */
#include "dymosaw.h"

#include <stdio.h>
#include <stdlib.h>
#include <string.h>

enum { GUARD = 64, GUARD_BYTE = 0xA5 };

/* Bytes lent to a call, guards on both sides, and the bytes as they were before it. */
struct lent {
    uint8_t *bytes;
    uint8_t *before;
    size_t length;
};

static unsigned long case_number;

static void fail(const char *what)
{
    fprintf(stderr, "harness: case %lu: %s\n", case_number, what);
    exit(1);
}

static void *room(size_t size)
{
    void *memory = malloc(size);
    if (memory == NULL)
        fail("no memory");
    return memory;
}

/* ---- the protocol */

static void read_all(uint8_t *to, size_t length)
{
    if (fread(to, 1, length, stdin) != length)
        fail("the input ends inside a case");
}

static void write_all(const uint8_t *from, size_t length)
{
    if (fwrite(from, 1, length, stdout) != length)
        fail("the output is not taken");
}

static uint32_t read_number(void)
{
    uint8_t b[4];
    read_all(b, sizeof b);
    return (uint32_t)b[0] << 24 | (uint32_t)b[1] << 16 | (uint32_t)b[2] << 8 | b[3];
}

static void write_number(uint32_t n)
{
    const uint8_t b[4] = {(uint8_t)(n >> 24), (uint8_t)(n >> 16), (uint8_t)(n >> 8), (uint8_t)n};
    write_all(b, sizeof b);
}

static struct lent read_field(void)
{
    struct lent field;
    uint8_t *whole;
    field.length = read_number();
    whole = room(field.length + 2 * GUARD);
    memset(whole, GUARD_BYTE, field.length + 2 * GUARD);
    field.bytes = whole + GUARD;
    field.before = room(field.length + 1);
    read_all(field.bytes, field.length);
    memcpy(field.before, field.bytes, field.length);
    return field;
}

static void write_field(const struct lent *field)
{
    write_number((uint32_t)field->length);
    write_all(field->bytes, field->length);
}

/* ---- what a call must leave alone */

static void check_guards(const struct lent *field, const char *what)
{
    size_t i;
    for (i = 0; i < GUARD; i++)
        if (field->bytes[(ptrdiff_t)i - GUARD] != GUARD_BYTE || field->bytes[field->length + i] != GUARD_BYTE)
            fail(what);
}

static void check_input(const struct lent *field, const char *what)
{
    if (memcmp(field->bytes, field->before, field->length) != 0)
        fail(what);
}

static void give_back(struct lent *field)
{
    free(field->bytes - GUARD);
    free(field->before);
}

/* ---- the calls */

static void correction(void)
{
    struct lent table = read_field();
    struct lent frame = read_field();
    const uint32_t number = dymosaw_correct(table.bytes, table.length, frame.bytes, frame.length);

    check_guards(&table, "a byte beside the table was changed");
    check_guards(&frame, "a byte beside the frame was changed");
    check_input(&frame, "the frame was changed");
    if (number != DYMOSAW_STORED)
        check_input(&table, "a refused correction changed the table");
    write_number(number);
    write_field(&table);
    give_back(&table);
    give_back(&frame);
}

static void request(void)
{
    struct lent table = read_field();
    struct lent message = read_field();
    struct lent host = read_field();
    struct lent realm = read_field();
    struct lent answer = read_field();
    struct lent cancel = read_field();
    const uint64_t result =
        dymosaw_request(table.bytes, table.length, message.bytes, message.length, host.bytes, host.length, realm.bytes,
                        realm.length, answer.bytes, answer.length, cancel.bytes, cancel.length);

    check_guards(&table, "a byte beside the table was changed");
    check_guards(&message, "a byte beside the request was changed");
    check_guards(&host, "a byte beside the own host was changed");
    check_guards(&realm, "a byte beside the own realm was changed");
    check_guards(&answer, "a byte beside the answer buffer was changed");
    check_guards(&cancel, "a byte beside the cancel buffer was changed");
    check_input(&message, "the request was changed");
    check_input(&host, "the own host was changed");
    check_input(&realm, "the own realm was changed");
    write_number(dymosaw_number(result));
    write_number(dymosaw_length(result));
    write_field(&table);
    write_field(&answer);
    write_field(&cancel);
    give_back(&table);
    give_back(&message);
    give_back(&host);
    give_back(&realm);
    give_back(&answer);
    give_back(&cancel);
}

int main(void)
{
    int op;
    while ((op = getchar()) != EOF) {
        case_number++;
        if (op == 1)
            request();
        else if (op == 2)
            correction();
        else
            fail("an operation that is not built");
    }
    if (ferror(stdin) || fflush(stdout) != 0)
        fail("the streams");
    return 0;
}
