/* reach: what lies in a C caller's reach, with the numbers of document 01 written out.
 *
 * Zero lengths in every place, greatest sizes, lengths past 32 bits, odd addresses, larger buffers, a small stack, the same call
 * twice. Every buffer lies against a page that may not be touched: right behind it, or right before it, by turns. So a byte read or
 * written outside ends the run, and a byte that has to stay is compared.
 */
#define _DEFAULT_SOURCE
#include "dymosaw.h"

#include <stdio.h>
#include <stdlib.h>
#include <string.h>
#include <sys/mman.h>
#include <ucontext.h>
#include <unistd.h>

static unsigned long checks;

static void expect(int right, const char *what)
{
    checks++;
    if (!right) {
        printf("reach: check %lu: %s\n", checks, what);
        exit(1);
    }
}

/* ---- buffers against a forbidden page */

enum side { END, START }; /* the buffer's end, or its start, lies at the forbidden page */

struct lent {
    uint8_t *at;
    size_t length;
    uint8_t *whole;
    size_t mapped;
};

static struct lent lend(const uint8_t *from, size_t length, enum side side)
{
    const size_t page = (size_t)sysconf(_SC_PAGESIZE);
    const size_t room = (length + page - 1) / page * page;
    struct lent lent = {NULL, length, NULL, room + 2 * page};
    lent.whole = mmap(NULL, lent.mapped, PROT_NONE, MAP_PRIVATE | MAP_ANONYMOUS | MAP_NORESERVE, -1, 0);
    expect(lent.whole != MAP_FAILED, "no room for a buffer");
    expect(room == 0 || mprotect(lent.whole + page, room, PROT_READ | PROT_WRITE) == 0, "a buffer's pages");
    lent.at = side == END ? lent.whole + page + room - length : lent.whole + page;
    if (from != NULL)
        memcpy(lent.at, from, length);
    return lent;
}

static void give_back(const struct lent *lent)
{
    munmap(lent->whole, lent->mapped);
}

/* ---- tables, requests and frames, byte by byte from document 01 */

enum { TABLE_HEADER = 8, RECORD = 256, ANSWER = 4352, CANCEL = 136, FILL = 0x5A };

static void put(uint8_t *at, uint32_t number, unsigned width)
{
    while (width-- > 0) {
        at[width] = (uint8_t)number;
        number >>= 8;
    }
}

static uint32_t get(const uint8_t *at, unsigned width)
{
    uint32_t number = 0;
    while (width-- > 0)
        number = number << 8 | *at++;
    return number;
}

static void counted(uint8_t *at, const char *text)
{
    at[0] = (uint8_t)strlen(text);
    memcpy(at + 1, text, strlen(text));
}

/* A table of so many records with the IMSIs 262010000000000, 262010000000001, ..; each has both subscriptions and change number 7. */
static size_t make_table(uint8_t *table, unsigned count)
{
    const size_t length = TABLE_HEADER + (size_t)RECORD * count;
    unsigned i;
    memset(table, 0, length);
    put(table, (uint32_t)length, 4);
    table[4] = 1;
    put(table + 6, count, 2);
    for (i = 0; i < count; i++) {
        uint8_t *record = table + TABLE_HEADER + (size_t)RECORD * i;
        char imsi[16];
        snprintf(imsi, sizeof imsi, "26201%010u", i);
        counted(record, imsi);
        put(record + 16, 7, 4);
        record[20] = 3;
    }
    return length;
}

static size_t add_avp(uint8_t *request, size_t at, uint32_t vendor, uint32_t code, const void *data, size_t size)
{
    const size_t head = vendor != 0 ? 12 : 8;
    put(request + at, code, 4);
    request[at + 4] = vendor != 0 ? 0xC0 : 0x40;
    put(request + at + 5, (uint32_t)(head + size), 3);
    if (vendor != 0)
        put(request + at + 8, vendor, 4);
    memcpy(request + at + head, data, size);
    memset(request + at + head + size, 0, (4 - size % 4) % 4);
    put(request + 1, (uint32_t)(at + head + (size + 3) / 4 * 4), 3);
    return at + head + (size + 3) / 4 * 4;
}

static size_t add_number(uint8_t *request, size_t at, uint32_t vendor, uint32_t code, uint32_t number)
{
    uint8_t data[4];
    put(data, number, 4);
    return add_avp(request, at, vendor, code, data, sizeof data);
}

/* A header, and the AVPs that every command requires. */
static size_t make_request(uint8_t *request, uint32_t command, const char *origin_host, const char *imsi)
{
    size_t at = 20;
    memset(request, 0, at);
    request[0] = 1;
    put(request + 1, 20, 3);
    request[4] = 0xC0; /* R and P */
    put(request + 5, command, 3);
    put(request + 8, 16777251, 4);
    at = add_avp(request, at, 0, 263, "s;1", 3);
    at = add_number(request, at, 0, 277, 1);
    at = add_avp(request, at, 0, 264, origin_host, strlen(origin_host));
    at = add_avp(request, at, 0, 296, "visited", 7);
    at = add_avp(request, at, 0, 283, "example", 7);
    return add_avp(request, at, 0, 1, imsi, strlen(imsi));
}

/* An Update-Location-Request: RAT-Type 1004, the ULR-Flags given, Visited-PLMN-Id of MCC 001 and MNC 01. */
static size_t make_ulr(uint8_t *request, uint32_t flags, const char *origin_host, const char *imsi)
{
    size_t at = make_request(request, 316, origin_host, imsi);
    at = add_number(request, at, 10415, 1032, 1004);
    at = add_number(request, at, 10415, 1405, flags);
    return add_avp(request, at, 10415, 1407, "\x00\xF1\x10", 3);
}

/* A correction of kind 1: byte 20 becomes 1. */
static size_t make_frame(uint8_t *frame, const char *imsi, uint32_t seen)
{
    memset(frame, 0, 25);
    put(frame, 25, 2);
    frame[2] = 1;
    frame[3] = 1;
    counted(frame + 4, imsi);
    put(frame + 20, seen, 4);
    frame[24] = 1;
    return 25;
}

/* ---- one call with its six buffers */

enum place { TABLE, REQUEST, HOST, REALM, ANSWERED, CANCELLED, PLACES };

struct call {
    const uint8_t *bytes[PLACES]; /* NULL: filled with FILL */
    size_t length[PLACES];
};

static uint8_t table_bytes[TABLE_HEADER + RECORD * 241], request_bytes[8192], table_after[sizeof table_bytes], answer_after[1 << 16],
    cancel_after[1 << 16];

static const char IMSI_0[] = "262010000000000";
enum { S6A = 2, INITIAL_ATTACH = 32 }; /* of ULR-Flags */

/* An Update-Location-Request from MME `mme.visited` on a table of `count` records. */
static struct call usual_call(unsigned count)
{
    struct call call = {{table_bytes, request_bytes, (const uint8_t *)"hss.example", (const uint8_t *)"example", NULL, NULL},
                        {0, 0, 11, 7, ANSWER, CANCEL}};
    call.length[TABLE] = make_table(table_bytes, count);
    call.length[REQUEST] = make_ulr(request_bytes, S6A, "mme.visited", IMSI_0);
    return call;
}

static void lend_all(const struct call *call, struct lent *lent, enum side side)
{
    unsigned i;
    for (i = 0; i < PLACES; i++) {
        lent[i] = lend(call->bytes[i], call->length[i], side);
        if (call->bytes[i] == NULL)
            memset(lent[i].at, FILL, call->length[i]);
    }
}

static uint64_t call_with(const struct lent *lent)
{
    return dymosaw_request(lent[TABLE].at, lent[TABLE].length, lent[REQUEST].at, lent[REQUEST].length, lent[HOST].at, lent[HOST].length,
                           lent[REALM].at, lent[REALM].length, lent[ANSWERED].at, lent[ANSWERED].length, lent[CANCELLED].at,
                           lent[CANCELLED].length);
}

static void give_back_all(const struct lent *lent)
{
    unsigned i;
    for (i = 0; i < PLACES; i++)
        give_back(&lent[i]);
}

/* From byte `from` on every byte is FILL. */
static int filled(const struct lent *lent, size_t from)
{
    while (from < lent->length && lent->at[from] == FILL)
        from++;
    return from >= lent->length;
}

/* Makes the call with every buffer at the given side and compares what has to stay: the bytes that are only read, and on a refusal all
 * of them. What it left is kept in table_after, answer_after and cancel_after. */
static uint64_t make_call(const struct call *call, enum side side)
{
    struct lent lent[PLACES];
    uint64_t result;
    unsigned i;
    lend_all(call, lent, side);
    result = call_with(lent);
    for (i = 0; i < PLACES; i++)
        if (call->bytes[i] != NULL && (i != TABLE || dymosaw_number(result) != 0))
            expect(memcmp(lent[i].at, call->bytes[i], call->length[i]) == 0, "bytes that are only read were changed");
    expect(filled(&lent[ANSWERED], dymosaw_length(result)), "a byte behind the answer was changed");
    expect(filled(&lent[CANCELLED], dymosaw_number(result) == 0 ? 136 : 0), "a byte behind the entries was changed");
    memcpy(table_after, lent[TABLE].at, call->length[TABLE]);
    memcpy(answer_after, lent[ANSWERED].at, call->length[ANSWERED]);
    memcpy(cancel_after, lent[CANCELLED].at, call->length[CANCELLED]);
    give_back_all(lent);
    return result;
}

/* The call is refused without an answer, on both sides. */
static void refused(const struct call *call, uint32_t number, const char *what)
{
    expect(make_call(call, END) == (uint64_t)number << 32, what);
    expect(make_call(call, START) == (uint64_t)number << 32, what);
}

/* The Result-Code of the answer that was left, 0 where there is none; it stands first or behind Session-Id "s;1". */
static uint32_t result_code(void)
{
    const uint8_t *first = answer_after + 20;
    if (get(first, 4) == 263)
        first += 12;
    return get(first, 4) == 268 ? get(first + 8, 4) : 0;
}

static void answered(const struct call *call, uint32_t code, const char *what)
{
    enum side side;
    for (side = END; side <= START; side++) {
        const uint64_t result = make_call(call, side);
        expect(dymosaw_number(result) == 0 && dymosaw_length(result) >= 20 && dymosaw_length(result) <= 4292, what);
        expect(get(answer_after + 1, 3) == dymosaw_length(result) && result_code() == code, what);
    }
}

static uint32_t correct(const uint8_t *table, size_t table_len, const uint8_t *frame, size_t frame_len, enum side side)
{
    struct lent lent_table = lend(table, table_len, side), lent_frame = lend(frame, frame_len, side);
    const uint32_t number = dymosaw_correct(lent_table.at, table_len, lent_frame.at, frame_len);
    expect(memcmp(lent_frame.at, frame, frame_len) == 0, "the frame was changed");
    expect(number == 0 || memcmp(lent_table.at, table, table_len) == 0, "a refused correction changed the table");
    memcpy(table_after, lent_table.at, table_len);
    give_back(&lent_table);
    give_back(&lent_frame);
    return number;
}

static void corrected(const uint8_t *table, size_t table_len, const uint8_t *frame, size_t frame_len, uint32_t number, const char *what)
{
    expect(correct(table, table_len, frame, frame_len, END) == number, what);
    expect(correct(table, table_len, frame, frame_len, START) == number, what);
}

/* ---- what is tried */

/* Every number of the header beside document 01's. */
static void constants(void)
{
    static const uint32_t pairs[][2] = {
        {DYMOSAW_TABLE_HEADER, 8}, {DYMOSAW_TABLE_VERSION, 1}, {DYMOSAW_RECORD, 256}, {DYMOSAW_MOST_RECORDS, 240},
        {DYMOSAW_MOST_TABLE, 8 + 256 * 240}, {DYMOSAW_AT_IMSI, 0}, {DYMOSAW_AT_CHANGE, 16}, {DYMOSAW_AT_SUBSCRIPTION, 20},
        {DYMOSAW_AT_RESTRICTION, 24}, {DYMOSAW_AT_PLMN_COUNT, 28}, {DYMOSAW_AT_PLMNS, 32}, {DYMOSAW_AT_PURGED, 56}, {DYMOSAW_AT_MME, 64},
        {DYMOSAW_AT_SGSN, 129}, {DYMOSAW_AT_AMBR_UPLINK, 196}, {DYMOSAW_AT_AMBR_DOWNLINK, 200}, {DYMOSAW_AT_IMEI, 204}, {DYMOSAW_EPS, 1},
        {DYMOSAW_GPRS, 2}, {DYMOSAW_PURGED_MME, 1}, {DYMOSAW_PURGED_SGSN, 2}, {DYMOSAW_MOST_NAME, 64}, {DYMOSAW_LEAST_REQUEST, 20},
        {DYMOSAW_MOST_REQUEST, 4096}, {DYMOSAW_LEAST_ANSWER, 4352}, {DYMOSAW_MOST_ANSWER, 4292}, {DYMOSAW_LEAST_CANCEL, 136},
        {DYMOSAW_ENTRY, 68}, {DYMOSAW_ENTRIES, 2}, {DYMOSAW_ENTRY_NODE, 0}, {DYMOSAW_ENTRY_TYPE, 1}, {DYMOSAW_ENTRY_NAME_LENGTH, 2},
        {DYMOSAW_ENTRY_NAME, 4}, {DYMOSAW_NODE_MME, 1}, {DYMOSAW_NODE_SGSN, 2}, {DYMOSAW_MME_UPDATE, 0}, {DYMOSAW_SGSN_UPDATE, 1},
        {DYMOSAW_INITIAL_ATTACH, 4}, {DYMOSAW_ANSWERED, 0}, {DYMOSAW_BUFFER_SHORT, 3}, {DYMOSAW_OWN_NAME, 5},
        {DYMOSAW_TABLE_NOT_VALID, 4}, {DYMOSAW_REQUEST_SIZE, 1}, {DYMOSAW_NOT_A_REQUEST, 2}, {DYMOSAW_STORED, 0},
        {DYMOSAW_FRAME_LENGTH, 11}, {DYMOSAW_FRAME_VERSION, 12}, {DYMOSAW_FRAME_KIND, 13}, {DYMOSAW_FRAME_LENGTH_FOR_KIND, 14},
        {DYMOSAW_FRAME_VALUE, 15}, {DYMOSAW_NO_SUCH_IMSI, 16}, {DYMOSAW_CHANGE_DIFFERS, 17}, {DYMOSAW_KIND_SUBSCRIPTION, 1},
        {DYMOSAW_KIND_RESTRICTION, 2}, {DYMOSAW_KIND_PLMNS, 3}, {DYMOSAW_KIND_AMBR, 4}, {DYMOSAW_FRAME_HEAD, 24}, {DYMOSAW_MOST_FRAME, 49},
    };
    size_t i;
    for (i = 0; i < sizeof pairs / sizeof pairs[0]; i++)
        expect(pairs[i][0] == pairs[i][1], "a number of the header");
}

static void zero_lengths(void)
{
    static const uint32_t number[PLACES] = {4, 1, 5, 5, 3, 3};
    uint8_t frame[25];
    struct call call = usual_call(1);
    unsigned i;
    answered(&call, 2001, "the usual request");
    for (i = 0; i < PLACES; i++) {
        const size_t length = call.length[i];
        call.length[i] = 0;
        refused(&call, number[i], "a length of 0");
        call.length[i] = length;
    }
    memset(call.length, 0, sizeof call.length);
    refused(&call, 3, "every length 0");
    call.length[ANSWERED] = ANSWER;
    call.length[CANCELLED] = CANCEL;
    refused(&call, 5, "every length 0 but the buffers'");
    call = usual_call(0);
    expect(call.length[TABLE] == 8, "the empty table");
    answered(&call, 0, "a request on the empty table: Experimental-Result");

    make_frame(frame, IMSI_0, 7);
    corrected(table_bytes, 0, frame, sizeof frame, 4, "a table of 0 bytes");
    corrected(table_bytes, 0, frame, 0, 4, "a table and a frame of 0 bytes");
    corrected(table_bytes, make_table(table_bytes, 1), frame, 0, 11, "a frame of 0 bytes");
    corrected(table_bytes, make_table(table_bytes, 0), frame, sizeof frame, 16, "a correction of the empty table");
}

static void greatest_table(void)
{
    uint8_t frame[25];
    struct call call = usual_call(240);
    size_t last = TABLE_HEADER + (size_t)RECORD * 239;
    answered(&call, 2001, "the first of 240 records");
    expect(memcmp(table_after + 8 + 64, "\x0Bmme.visited", 13) == 0, "its MME");
    call.length[REQUEST] = make_ulr(request_bytes, S6A, "mme.visited", "262010000000239");
    answered(&call, 2001, "the last of 240 records");
    expect(memcmp(table_after + last + 64, "\x0Bmme.visited", 13) == 0, "its MME");
    expect(memcmp(table_after, table_bytes, last) == 0, "the records before it");
    call.length[TABLE] = make_table(table_bytes, 241);
    refused(&call, 4, "a table of 241 records");

    make_frame(frame, "262010000000239", 7);
    corrected(table_bytes, make_table(table_bytes, 240), frame, sizeof frame, 0, "a correction of the last of 240 records");
    expect(table_after[last + 20] == 1 && get(table_after + last + 16, 4) == 8, "what it stored");
    expect(memcmp(table_after, table_bytes, last + 16) == 0, "the bytes before");
    corrected(table_bytes, make_table(table_bytes, 241), frame, sizeof frame, 4, "a correction of a table of 241 records");
}

/* The usual request, filled up to so many bytes by a Proxy-Info, which the answer gives back. */
static void request_of(struct call *call, size_t length)
{
    static uint8_t data[8192];
    const size_t at = make_ulr(request_bytes, S6A, "mme.visited", IMSI_0);
    call->length[REQUEST] = add_avp(request_bytes, at, 0, 284, data, length - at - 8);
    expect(call->length[REQUEST] == length, "the request's length");
}

static void greatest_request(void)
{
    struct call call = usual_call(1);
    request_of(&call, 4096);
    answered(&call, 2001, "a request of 4096 bytes");
    request_of(&call, 4100);
    refused(&call, 1, "a request of 4100 bytes");
    call.length[REQUEST] = 4097;
    refused(&call, 1, "a request of 4097 bytes");
    call = usual_call(1);
    call.length[REQUEST] = 20;
    put(request_bytes + 1, 20, 3);
    answered(&call, 5005, "a request of 20 bytes");
    call.length[REQUEST] = 19;
    refused(&call, 1, "a request of 19 bytes");
    call = usual_call(1);
    call.length[REQUEST] += 1;
    answered(&call, 5015, "a request with a byte more than its length field says");
    call = usual_call(1);
    request_bytes[4] = 0x40;
    refused(&call, 2, "the R bit clear");
}

static void greatest_names(void)
{
    char name[66];
    struct call call = usual_call(1);
    memset(name, 'n', sizeof name);
    name[65] = 0;
    call.bytes[HOST] = call.bytes[REALM] = (const uint8_t *)name;
    call.length[HOST] = call.length[REALM] = 64;
    answered(&call, 2001, "own names of 64 bytes");
    call.length[HOST] = 65;
    refused(&call, 5, "an own host of 65 bytes");
    call.length[HOST] = 64;
    call.length[REALM] = 65;
    refused(&call, 5, "an own realm of 65 bytes");
    call = usual_call(1);
    call.length[REQUEST] = make_ulr(request_bytes, S6A, name, IMSI_0);
    answered(&call, 5004, "an Origin-Host of 65 bytes");
    name[64] = 0;
    call.length[REQUEST] = make_ulr(request_bytes, S6A, name, IMSI_0);
    answered(&call, 2001, "an Origin-Host of 64 bytes");
    expect(table_after[8 + 64] == 64 && memcmp(table_after + 8 + 65, name, 64) == 0 && table_after[8 + 129] == 0, "it is stored whole");
}

static void sizes_of_buffers(void)
{
    static const size_t answers[] = {4352, 4353, 8192, 65536}, cancels[] = {136, 137, 272, 65536};
    struct call call = usual_call(1);
    unsigned i;
    for (i = 0; i < 4; i++) {
        call.length[ANSWERED] = answers[i];
        call.length[CANCELLED] = cancels[i];
        answered(&call, 2001, "larger buffers");
    }
    call.length[ANSWERED] = 4351;
    refused(&call, 3, "an answer buffer of 4351 bytes");
    call.length[ANSWERED] = 4352;
    call.length[CANCELLED] = 135;
    refused(&call, 3, "a cancel buffer of 135 bytes");
}

/* Lengths that a 32-bit number would take for usual ones, and a large buffer's for a short one. The bytes behind are never touched, so the
 * pages stay empty. */
static void past_32_bits(void)
{
    static const uint64_t number[PLACES] = {4, 1, 5, 5, 0, 0};
    const size_t more = (size_t)1 << 32;
    const struct call call = usual_call(1);
    uint8_t frame[25];
    struct lent huge, table;
    unsigned i, j;
    for (i = 0; i < PLACES; i++) {
        struct lent lent[PLACES];
        for (j = 0; j < PLACES; j++) {
            const size_t cut = j == ANSWERED || j == CANCELLED ? 100 : call.length[j];
            lent[j] = lend(NULL, i == j ? more + cut : call.length[j], START);
            if (call.bytes[j] != NULL)
                memcpy(lent[j].at, call.bytes[j], call.length[j]);
        }
        expect(dymosaw_number(call_with(lent)) == number[i], "a length past 32 bits");
        give_back_all(lent);
    }
    huge = lend(NULL, make_frame(frame, IMSI_0, 7) + more, START);
    memcpy(huge.at, frame, sizeof frame);
    table = lend(table_bytes, call.length[TABLE], END);
    expect(dymosaw_correct(table.at, table.length, huge.at, huge.length) == 11, "a frame past 32 bits");
    give_back(&huge);
    give_back(&table);
}

static void long_frames(void)
{
    static uint8_t frame[65536 + 25];
    const size_t length = make_table(table_bytes, 1);
    make_frame(frame, IMSI_0, 7);
    put(frame, 65535, 2);
    corrected(table_bytes, length, frame, 65535, 14, "a frame of 65535 bytes");
    put(frame, 0, 2);
    corrected(table_bytes, length, frame, 65536, 11, "a frame of 65536 bytes");
    put(frame, 25, 2);
    corrected(table_bytes, length, frame, 65536 + 25, 11, "a frame of 65561 bytes whose length field says 25");
    corrected(table_bytes, length, frame, 24, 11, "a frame of 24 bytes whose length field says 25");
    corrected(table_bytes, length, frame, 25, 0, "the frame itself");
}

static void odd_addresses(void)
{
    const struct call call = usual_call(3);
    static uint8_t answer[ANSWER + 8], cancel[CANCEL + 8], table[sizeof table_bytes + 8], request[4096 + 8], host[19], realm[15];
    uint8_t first_answer[ANSWER], first_table[sizeof table_bytes];
    uint64_t first = make_call(&call, END);
    unsigned by;
    memcpy(first_answer, answer_after, dymosaw_length(first));
    memcpy(first_table, table_after, call.length[TABLE]);
    for (by = 0; by < 8; by++) {
        memcpy(table + by, call.bytes[TABLE], call.length[TABLE]);
        memcpy(request + 7 - by, call.bytes[REQUEST], call.length[REQUEST]);
        memcpy(host + by, call.bytes[HOST], 11);
        memcpy(realm + 7 - by, call.bytes[REALM], 7);
        expect(dymosaw_request(table + by, call.length[TABLE], request + 7 - by, call.length[REQUEST], host + by, 11, realm + 7 - by, 7,
                               answer + by, ANSWER, cancel + 7 - by, CANCEL) == first, "the same number at another address");
        expect(memcmp(answer + by, first_answer, dymosaw_length(first)) == 0, "the same answer at another address");
        expect(memcmp(table + by, first_table, call.length[TABLE]) == 0, "the same table at another address");
    }
}

/* ---- a small stack: 16 KiB, its lowest byte at a forbidden page */

static ucontext_t here, there;
static struct lent lent_there[PLACES];
static struct lent frame_there;
static uint64_t result_there;
static uint32_t number_there;

static void both_calls(void)
{
    result_there = call_with(lent_there);
    number_there = dymosaw_correct(lent_there[TABLE].at, lent_there[TABLE].length, frame_there.at, frame_there.length);
}

/* The request, then a correction, on a stack of their own: answered, and stored. */
static void on_small_stack(const struct call *call)
{
    const struct lent stack = lend(NULL, 16384, START);
    uint8_t frame[25];
    make_frame(frame, IMSI_0, 7);
    frame_there = lend(frame, sizeof frame, END);
    lend_all(call, lent_there, END);
    expect(getcontext(&there) == 0, "a context");
    there.uc_stack.ss_sp = stack.at;
    there.uc_stack.ss_size = stack.length;
    there.uc_link = &here;
    makecontext(&there, both_calls, 0);
    expect(swapcontext(&here, &there) == 0, "another stack");
    expect(dymosaw_number(result_there) == 0 && number_there == 0, "the calls on a small stack");
    give_back_all(lent_there);
    give_back(&frame_there);
    give_back(&stack);
}

static void small_stack(void)
{
    struct call call = usual_call(240);
    size_t at = call.length[REQUEST];
    unsigned left;
    on_small_stack(&call);
    for (left = 9; left > 0; left--) { /* Subscription-Data in Subscription-Data, nine deep: each holds those behind it */
        add_avp(request_bytes, at, 10415, 1400, "", 0);
        put(request_bytes + at + 5, 12 * left, 3);
        at += 12;
    }
    call.length[REQUEST] = at;
    answered(&call, 5004, "a group inside eight others");
    on_small_stack(&call);
    request_of(&call, 4096);
    on_small_stack(&call);
}

/* ---- the same call twice */

static int is_entry(unsigned place, uint8_t node, uint8_t type, const char *name)
{
    uint8_t entry[68] = {node, type};
    entry[2] = (uint8_t)strlen(name);
    memcpy(entry + 4, name, strlen(name));
    return memcmp(cancel_after + 68 * place, entry, 68) == 0;
}

/* The request of `call` once more, on the table that the first one left: the answer and the table stay, and nobody is listed. */
static void once_more(struct call call, const char *what)
{
    static uint8_t first_answer[ANSWER], first_table[sizeof table_bytes];
    memcpy(first_answer, answer_after, ANSWER);
    memcpy(first_table, table_after, call.length[TABLE]);
    call.bytes[TABLE] = first_table;
    expect(dymosaw_number(make_call(&call, END)) == 0, what);
    expect(memcmp(answer_after, first_answer, ANSWER) == 0, what);
    expect(memcmp(table_after, first_table, call.length[TABLE]) == 0, what);
    expect(is_entry(0, 0, 0, "") && is_entry(1, 0, 0, ""), what);
}

static void same_request_twice(void)
{
    struct call call = usual_call(1);
    counted(table_bytes + 8 + 64, "a");
    counted(table_bytes + 8 + 129, "s");
    table_bytes[8 + 56] = 3; /* both purged: a purged node is listed like another */
    call.length[REQUEST] = make_ulr(request_bytes, S6A | INITIAL_ATTACH, "b", IMSI_0);
    answered(&call, 2001, "an Update-Location on S6a from b, Initial-Attach");
    expect(is_entry(0, 1, 0, "a") && is_entry(1, 2, 4, "s"), "MME a is listed with type 0, SGSN s with type 4");
    expect(table_after[8 + 56] == 0 && table_after[8 + 129] == 0, "the purge bits and the SGSN are cleared");
    once_more(call, "the same Update-Location twice");

    call.length[REQUEST] = make_request(request_bytes, 321, "a", IMSI_0);
    answered(&call, 2001, "a Purge-UE from a");
    expect(table_after[8 + 56] == 3, "the purge bits, set before or not");
    once_more(call, "the same Purge-UE twice");

    call.length[REQUEST] = add_number(request_bytes, make_request(request_bytes, 323, "a", IMSI_0), 10415, 1443, 1);
    answered(&call, 2001, "a Notify from a, Single-Registration");
    expect(is_entry(0, 2, 1, "s") && is_entry(1, 0, 0, ""), "SGSN s is listed with type 1");
    once_more(call, "the same Notify twice");
}

static void same_correction_twice(void)
{
    static uint8_t first[sizeof table_bytes];
    const size_t length = make_table(table_bytes, 2);
    uint8_t frame[25];
    make_frame(frame, IMSI_0, 7);
    corrected(table_bytes, length, frame, sizeof frame, 0, "a correction");
    memcpy(first, table_after, length);
    corrected(first, length, frame, sizeof frame, 17, "the same correction twice");
    make_frame(frame, IMSI_0, 8);
    corrected(first, length, frame, sizeof frame, 0, "with the change number that the first one left");
}

int main(void)
{
    constants();
    zero_lengths();
    greatest_table();
    greatest_request();
    greatest_names();
    sizes_of_buffers();
    past_32_bits();
    long_frames();
    odd_addresses();
    small_stack();
    same_request_twice();
    same_correction_twice();
    printf("%lu checks\n", checks);
    return 0;
}
