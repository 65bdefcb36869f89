/* baseline.c: document 01 in plain C, the yardstick of `make bench`. Straightforward code with memcpy, memset and memcmp where they fit, one walk for
 * the visit and one for the used AVPs; no tricks, and nothing slowed down. `make bench` first compares its bytes with the second program's.
 */
#include "baseline.h"

#include <stdbool.h>
#include <string.h>

enum {
    LEAST_REQUEST = 20,
    MOST_REQUEST = 4096,
    LEAST_ANSWER = 4352,
    CANCEL_SIZE = 136,
    ENTRY_SIZE = 68,
    MOST_NAME = 64,
    MOST_RECORDS = 240,
    DEEPEST = 8,
};

/* ---- bytes and numbers */

static uint32_t get16(const uint8_t *p)
{
    return (uint32_t)p[0] << 8 | p[1];
}

static uint32_t get24(const uint8_t *p)
{
    return (uint32_t)p[0] << 16 | (uint32_t)p[1] << 8 | p[2];
}

static uint32_t get32(const uint8_t *p)
{
    return (uint32_t)p[0] << 24 | (uint32_t)p[1] << 16 | (uint32_t)p[2] << 8 | p[3];
}

static uint8_t *put32(uint8_t *p, uint32_t v)
{
    p[0] = (uint8_t)(v >> 24);
    p[1] = (uint8_t)(v >> 16);
    p[2] = (uint8_t)(v >> 8);
    p[3] = (uint8_t)v;
    return p + 4;
}

static inline bool all_between(const uint8_t *s, size_t n, uint8_t low, uint8_t high)
{
    for (size_t i = 0; i < n; i++)
        if (s[i] < low || s[i] > high)
            return false;
    return true;
}

static inline bool all_zero(const uint8_t *s, size_t n)
{
    for (size_t i = 0; i < n; i++)
        if (s[i] != 0)
            return false;
    return true;
}

static bool all_digits(const uint8_t *s, size_t n)
{
    return all_between(s, n, '0', '9');
}

static bool is_name(const uint8_t *s, size_t n)
{
    return n >= 1 && n <= MOST_NAME && all_between(s, n, 0x21, 0x7E);
}

/* ---- the table */

enum {
    HEADER = 8,
    RECORD = 256,
    IMSI_SIZE = 16,
    CHANGE = 16,
    SUBSCRIPTION = 20,
    RESTRICTION = 24,
    PLMN_COUNT = 28,
    PLMNS = 32,
    MOST_PLMNS = 8,
    PURGED = 56,
    MME = 64,
    SGSN = 129,
    UPLINK = 196,
    DOWNLINK = 200,
    IMEI = 204,
    MOST_DIGITS = 15,
};

/* One of the two nodes of a record: its number in the list, its purge bit, and where its name's length stands. */
struct node {
    uint8_t number;
    uint8_t bit;
    size_t at;
};

static const struct node mme = {1, 1, MME};
static const struct node sgsn = {2, 2, SGSN};

/* A count, that many bytes between the bounds, and zeros. */
static inline bool counted_right(const uint8_t *field, size_t most, uint8_t low, uint8_t high)
{
    const size_t n = field[0];
    return n <= most && all_between(field + 1, n, low, high) && all_zero(field + 1 + n, most - n);
}

static bool plmns_right(uint8_t count, const uint8_t *plmns)
{
    return count <= MOST_PLMNS && all_zero(plmns + 3 * count, 3 * (size_t)(MOST_PLMNS - count));
}

static bool purged_right(const uint8_t *r)
{
    return r[PURGED] <= 3 && !(r[PURGED] & mme.bit && r[MME] == 0) && !(r[PURGED] & sgsn.bit && r[SGSN] == 0);
}

static bool record_right(const uint8_t *r)
{
    const uint8_t digits = r[IMEI];
    return r[0] >= 6 && counted_right(r, MOST_DIGITS, '0', '9') && r[SUBSCRIPTION] <= 3 && all_zero(r + 21, 3) &&
           plmns_right(r[PLMN_COUNT], r + PLMNS) && all_zero(r + 29, 3) && purged_right(r) && all_zero(r + 57, 7) &&
           counted_right(r + MME, MOST_NAME, 0x21, 0x7E) && counted_right(r + SGSN, MOST_NAME, 0x21, 0x7E) &&
           all_zero(r + 194, 2) && (digits == 0 || digits == 14 || digits == 15) &&
           counted_right(r + IMEI, MOST_DIGITS, '0', '9') && all_zero(r + 220, 36);
}

static bool table_right(const uint8_t *t, size_t n)
{
    if (n < HEADER)
        return false;
    const size_t count = get16(t + 6);
    if (get32(t) != n || t[4] != 1 || t[5] != 0 || count > MOST_RECORDS || n != HEADER + RECORD * count)
        return false;
    const uint8_t *const end = t + n;
    for (const uint8_t *r = t + HEADER; r < end; r += RECORD) {
        if (!record_right(r))
            return false;
        if (r > t + HEADER && memcmp(r - RECORD, r, IMSI_SIZE) >= 0)
            return false;
    }
    return true;
}

/* The record with the IMSI, 16 bytes as stored, or NULL. */
static uint8_t *find_record(uint8_t *t, const uint8_t *imsi)
{
    size_t low = 0, high = get16(t + 6);
    while (low < high) {
        const size_t middle = low + (high - low) / 2;
        uint8_t *const r = t + HEADER + RECORD * middle;
        const int order = memcmp(r, imsi, IMSI_SIZE);
        if (order == 0)
            return r;
        if (order < 0)
            low = middle + 1;
        else
            high = middle;
    }
    return NULL;
}

static void store_counted(uint8_t *field, size_t most, const uint8_t *bytes, size_t n)
{
    field[0] = (uint8_t)n;
    memcpy(field + 1, bytes, n);
    memset(field + 1 + n, 0, most - n);
}

static void store_node(uint8_t *r, const struct node *node, const uint8_t *name, size_t n)
{
    r[PURGED] &= (uint8_t)~node->bit;
    store_counted(r + node->at, MOST_NAME, name, n);
}

static void clear_node(uint8_t *r, const struct node *node)
{
    r[PURGED] &= (uint8_t)~node->bit;
    memset(r + node->at, 0, 1 + MOST_NAME);
}

/* ---- the reader */

enum kind { ANY, GROUP, CLOSED, FOUR = 4, EIGHT = 8, UNKNOWN };

struct row {
    uint64_t key;
    enum kind kind;
};

/* Made from docs/DICTIONARY.md by bench/dictionary.py; the keys ascend. */
static const struct row dictionary[] = {
#include "dictionary.inc"
};

#define KEY(vendor, code) ((uint64_t)(vendor) << 32 | (code))
#define TGPP 10415u

static inline enum kind kind_of(uint64_t key)
{
    size_t low = 0, high = sizeof dictionary / sizeof dictionary[0];
    while (low < high) {
        const size_t middle = low + (high - low) / 2;
        if (dictionary[middle].key == key)
            return dictionary[middle].kind;
        if (dictionary[middle].key < key)
            low = middle + 1;
        else
            high = middle;
    }
    return UNKNOWN;
}

enum { V = 0x80, M = 0x40 };

/* An AVP of the request: where it stands, where what encloses it ends, and what its header says. */
struct avp {
    const uint8_t *at;
    const uint8_t *end;
    uint64_t key;
    const uint8_t *data;
    size_t size;
};

/* Reads the AVP at `at`; false where none lies there. Gives the place behind its padding. */
static inline bool read_avp(const uint8_t *at, const uint8_t *end, struct avp *avp, const uint8_t **next)
{
    avp->at = at;
    avp->end = end;
    if (end - at < 8)
        return false;
    const size_t head = at[4] & V ? 12 : 8, length = get24(at + 5), padded = (length + 3) & ~(size_t)3;
    if (length < head || padded > (size_t)(end - at))
        return false;
    avp->key = KEY(at[4] & V ? get32(at + 8) : 0, get32(at));
    avp->data = at + head;
    avp->size = length - head;
    *next = at + padded;
    return true;
}

/* The code of the first fault with its AVP, 0 where there is none, and the first unknown AVP with M. */
struct visit {
    uint32_t fault;
    struct avp faulty;
    bool has_unknown;
    struct avp unknown;
};

static bool visit_list(struct visit *v, const uint8_t *at, const uint8_t *end, unsigned depth);

static bool fault(struct visit *v, uint32_t code, const struct avp *avp)
{
    v->fault = code;
    v->faulty = *avp;
    return false;
}

static bool visit_avp(struct visit *v, const struct avp *avp, unsigned depth)
{
    switch (kind_of(avp->key)) {
    case FOUR:
        return avp->size == 4 || fault(v, 5014, avp);
    case EIGHT:
        return avp->size == 8 || fault(v, 5014, avp);
    case GROUP:
        if (depth == DEEPEST)
            return fault(v, 5004, avp);
        return visit_list(v, avp->data, avp->data + avp->size, depth + 1);
    case UNKNOWN:
        if (avp->at[4] & M && !v->has_unknown) {
            v->has_unknown = true;
            v->unknown = *avp;
        }
        return true;
    default:
        return true;
    }
}

static bool visit_list(struct visit *v, const uint8_t *at, const uint8_t *end, unsigned depth)
{
    struct avp avp;
    while (at < end) {
        if (!read_avp(at, end, &avp, &at))
            return fault(v, 5014, &avp);
        if (!visit_avp(v, &avp, depth))
            return false;
    }
    return true;
}

/* ---- the request */

enum { APPLICATION = 16777251, ULR = 316, PUR = 321, NOR = 323 };

enum used {
    SESSION_ID,
    AUTH_SESSION_STATE,
    ORIGIN_HOST,
    ORIGIN_REALM,
    DESTINATION_REALM,
    USER_NAME,
    RAT_TYPE,
    ULR_FLAGS,
    VISITED_PLMN_ID,
    TERMINAL_INFORMATION,
    PUR_FLAGS,
    NOR_FLAGS,
    USED,
};

static const uint64_t used_keys[USED] = {
    [SESSION_ID] = KEY(0, 263),          [AUTH_SESSION_STATE] = KEY(0, 277),
    [ORIGIN_HOST] = KEY(0, 264),         [ORIGIN_REALM] = KEY(0, 296),
    [DESTINATION_REALM] = KEY(0, 283),   [USER_NAME] = KEY(0, 1),
    [RAT_TYPE] = KEY(TGPP, 1032),        [ULR_FLAGS] = KEY(TGPP, 1405),
    [VISITED_PLMN_ID] = KEY(TGPP, 1407), [TERMINAL_INFORMATION] = KEY(TGPP, 1401),
    [PUR_FLAGS] = KEY(TGPP, 1635),       [NOR_FLAGS] = KEY(TGPP, 1443),
};

static const uint64_t imei_key = KEY(TGPP, 1402);
static const uint64_t proxy_info_key = KEY(0, 284);

/* The used AVPs of a command, the first `required` of them required, in the order of 5005. */
struct command {
    uint32_t code;
    size_t required;
    size_t used;
    enum used order[10];
};

#define COMMON SESSION_ID, AUTH_SESSION_STATE, ORIGIN_HOST, ORIGIN_REALM, DESTINATION_REALM, USER_NAME

static const struct command commands[] = {
    {ULR, 9, 10, {COMMON, RAT_TYPE, ULR_FLAGS, VISITED_PLMN_ID, TERMINAL_INFORMATION}},
    {PUR, 6, 7, {COMMON, PUR_FLAGS}},
    {NOR, 6, 8, {COMMON, NOR_FLAGS, TERMINAL_INFORMATION}},
};

/* What a request holds of the AVPs that its command uses; `at` is NULL where one is absent. */
struct request {
    const struct command *command;
    struct avp found[USED];
    struct avp imei;
};

enum shown { NOTHING, WHOLE, BARE, MISSING };

/* What an answer says. */
struct reply {
    uint32_t code;
    bool experimental;
    bool echo;
    enum shown shown;
    struct avp failed;
};

/* Sets the reply of a refusal; false, so that a test can return it. */
static bool refuse(struct reply *reply, uint32_t code, bool echo, enum shown shown, const struct avp *failed)
{
    reply->code = code;
    reply->echo = echo;
    reply->shown = shown;
    if (failed != NULL)
        reply->failed = *failed;
    return false;
}

static bool header_right(const uint8_t *m, size_t n, struct reply *reply)
{
    if (m[0] != 1)
        return refuse(reply, 5011, false, NOTHING, NULL);
    if (get24(m + 1) != n || n % 4 != 0)
        return refuse(reply, 5015, false, NOTHING, NULL);
    if (m[4] & 0x20)
        return refuse(reply, 3008, false, NOTHING, NULL);
    return true;
}

static const struct command *command_of(uint32_t code)
{
    for (size_t i = 0; i < sizeof commands / sizeof commands[0]; i++)
        if (commands[i].code == code)
            return &commands[i];
    return NULL;
}

/* The used AVP with the key, USED where the command uses none. */
static inline enum used used_of(const struct command *command, uint64_t key)
{
    for (size_t i = 0; i < command->used; i++)
        if (used_keys[command->order[i]] == key)
            return command->order[i];
    return USED;
}

/* The IMEI directly in Terminal-Information; a second one is refused. */
static bool take_imei(struct request *q, const struct avp *terminal, struct reply *reply)
{
    const uint8_t *at = terminal->data, *const end = terminal->data + terminal->size;
    struct avp avp;
    while (at < end && read_avp(at, end, &avp, &at)) {
        if (avp.key != imei_key)
            continue;
        if (q->imei.at != NULL)
            return refuse(reply, 5009, true, WHOLE, &avp);
        q->imei = avp;
    }
    return true;
}

/* Takes the used AVPs at the top level; the second of one is refused. */
static bool take_used(struct request *q, const uint8_t *at, const uint8_t *end, struct reply *reply)
{
    struct avp avp;
    while (at < end && read_avp(at, end, &avp, &at)) {
        const enum used used = used_of(q->command, avp.key);
        if (used == USED)
            continue;
        if (q->found[used].at != NULL)
            return refuse(reply, 5009, true, WHOLE, &avp);
        q->found[used] = avp;
        if (used == TERMINAL_INFORMATION && !take_imei(q, &avp, reply))
            return false;
    }
    return true;
}

static bool none_absent(const struct request *q, struct reply *reply)
{
    for (size_t i = 0; i < q->command->required; i++) {
        const enum used used = q->command->order[i];
        if (q->found[used].at == NULL) {
            const struct avp missing = {.key = used_keys[used]};
            return refuse(reply, 5005, true, MISSING, &missing);
        }
    }
    return true;
}

static bool values_right(const struct request *q, struct reply *reply)
{
    const struct avp *const user = &q->found[USER_NAME], *const host = &q->found[ORIGIN_HOST];
    const struct avp *const plmn = &q->found[VISITED_PLMN_ID], *const imei = &q->imei;
    if (user->size < 6 || user->size > MOST_DIGITS || !all_digits(user->data, user->size))
        return refuse(reply, 5004, true, WHOLE, user);
    if (!is_name(host->data, host->size))
        return refuse(reply, 5004, true, WHOLE, host);
    if (plmn->at != NULL && plmn->size != 3)
        return refuse(reply, 5004, true, WHOLE, plmn);
    if (imei->at != NULL && ((imei->size != 14 && imei->size != 15) || !all_digits(imei->data, imei->size)))
        return refuse(reply, 5004, true, WHOLE, imei);
    return true;
}

/* The refusals with an answer, first that applies; true where none does. */
static bool accept(const uint8_t *m, size_t n, struct request *q, struct reply *reply)
{
    struct visit v;
    v.has_unknown = false;
    if (!header_right(m, n, reply))
        return false;
    if (!visit_list(&v, m + LEAST_REQUEST, m + n, 0))
        return refuse(reply, v.fault, false, BARE, &v.faulty);
    if (get32(m + 8) != APPLICATION)
        return refuse(reply, 3007, true, NOTHING, NULL);
    q->command = command_of(get24(m + 5));
    if (q->command == NULL)
        return refuse(reply, 3001, true, NOTHING, NULL);
    if (v.has_unknown)
        return refuse(reply, 5001, true, WHOLE, &v.unknown);
    memset(q->found, 0, sizeof q->found);
    memset(&q->imei, 0, sizeof q->imei);
    return take_used(q, m + LEAST_REQUEST, m + n, reply) && none_absent(q, reply) && values_right(q, reply);
}

/* ---- the procedures */

enum { SINGLE_REGISTRATION = 1, S6A = 2, SKIP_SUBSCRIBER_DATA = 4, INITIAL_ATTACH = 32 };

/* The nodes to cancel, and the purge bits that a PUR sets. */
struct done {
    uint8_t *next_entry;
    uint32_t purges;
};

static uint32_t number_in(const struct avp *avp)
{
    return avp->at == NULL ? 0 : get32(avp->data);
}

static bool is_registered_as(const uint8_t *r, const struct node *node, const struct avp *host)
{
    return r[node->at] == host->size && memcmp(r + node->at + 1, host->data, host->size) == 0;
}

static bool rat_refused(uint32_t rat, uint32_t restriction)
{
    static const uint8_t bits[] = {0, 1, 2, 3, 4, 4};
    if (rat < 1000 || rat - 1000 >= sizeof bits)
        return true;
    return restriction >> bits[rat - 1000] & 1;
}

static bool plmn_refused(const uint8_t *r, const struct avp *plmn)
{
    for (size_t i = 0; i < r[PLMN_COUNT]; i++)
        if (memcmp(r + PLMNS + 3 * i, plmn->data, 3) == 0)
            return false;
    return r[PLMN_COUNT] != 0;
}

/* The Experimental-Result-Code of a request on its record, 0 where none refuses it. */
static uint32_t experimental(const struct request *q, const uint8_t *r)
{
    const struct avp *const host = &q->found[ORIGIN_HOST];
    if (q->command->code == ULR) {
        const bool s6a = number_in(&q->found[ULR_FLAGS]) & S6A;
        if (!(r[SUBSCRIPTION] & (s6a ? 1 : 3)))
            return 5420;
        if (rat_refused(number_in(&q->found[RAT_TYPE]), get32(r + RESTRICTION)))
            return 5421;
        if (plmn_refused(r, &q->found[VISITED_PLMN_ID]))
            return 5004;
    }
    if (q->command->code == NOR && !is_registered_as(r, &mme, host) && !is_registered_as(r, &sgsn, host))
        return 5423;
    return 0;
}

/* Lists a registered node, unless it is the sender. */
static void list_node(struct done *done, const uint8_t *r, const struct node *node, uint8_t type, const struct avp *host)
{
    const size_t n = r[node->at];
    if (n == 0 || is_registered_as(r, node, host))
        return;
    done->next_entry[0] = node->number;
    done->next_entry[1] = type;
    done->next_entry[2] = (uint8_t)n;
    memcpy(done->next_entry + 4, r + node->at + 1, n);
    done->next_entry += ENTRY_SIZE;
}

/* Lists and clears a registered node. */
static void cancel_node(struct done *done, uint8_t *r, const struct node *node, uint8_t type, const struct avp *host)
{
    if (r[node->at] == 0)
        return;
    list_node(done, r, node, type, host);
    clear_node(r, node);
}

static void update_location(const struct request *q, uint8_t *r, struct done *done)
{
    const uint32_t flags = number_in(&q->found[ULR_FLAGS]);
    const struct avp *const host = &q->found[ORIGIN_HOST];
    const struct node *const own = flags & S6A ? &mme : &sgsn, *const other = flags & S6A ? &sgsn : &mme;
    list_node(done, r, own, flags & S6A ? 0 : 1, host);
    store_node(r, own, host->data, host->size);
    if (flags & S6A && flags & SINGLE_REGISTRATION)
        cancel_node(done, r, other, 1, host);
    else if (flags & INITIAL_ATTACH)
        cancel_node(done, r, other, 4, host);
}

static void purge_node(const struct request *q, uint8_t *r, const struct node *node, struct done *done)
{
    const struct avp *const flags = &q->found[PUR_FLAGS];
    if (flags->at != NULL && !(get32(flags->data) & node->bit))
        return;
    if (!is_registered_as(r, node, &q->found[ORIGIN_HOST]))
        return;
    r[PURGED] |= node->bit;
    done->purges |= node->bit;
}

static void carry_out(const struct request *q, uint8_t *r, struct done *done)
{
    switch (q->command->code) {
    case ULR:
        update_location(q, r, done);
        break;
    case PUR:
        purge_node(q, r, &mme, done);
        purge_node(q, r, &sgsn, done);
        break;
    default:
        if (number_in(&q->found[NOR_FLAGS]) & SINGLE_REGISTRATION)
            cancel_node(done, r, &sgsn, 1, &q->found[ORIGIN_HOST]);
    }
    if (q->imei.at != NULL)
        store_counted(r + IMEI, MOST_DIGITS, q->imei.data, q->imei.size);
}

/* ---- the answer */

static uint8_t *put_head(uint8_t *out, uint64_t key, uint8_t flags, size_t size)
{
    out = put32(out, (uint32_t)key);
    out = put32(out, (uint32_t)flags << 24 | (uint32_t)((flags & V ? 12 : 8) + size));
    return flags & V ? put32(out, (uint32_t)(key >> 32)) : out;
}

static uint8_t *put_as_received(uint8_t *out, uint64_t key, uint8_t flags, const uint8_t *data, size_t size)
{
    const size_t padding = -size & 3;
    out = put_head(out, key, flags, size);
    memcpy(out, data, size);
    memset(out + size, 0, padding);
    return out + size + padding;
}

static uint8_t flags_of(uint64_t key)
{
    return key >> 32 ? V | M : M;
}

static uint8_t *put_avp(uint8_t *out, uint64_t key, const uint8_t *data, size_t size)
{
    return put_as_received(out, key, flags_of(key), data, size);
}

static uint8_t *put_number(uint8_t *out, uint64_t key, uint32_t v)
{
    return put32(put_head(out, key, flags_of(key), 4), v);
}

static uint8_t *put_session_id(uint8_t *out, const uint8_t *at, const uint8_t *end)
{
    struct avp avp;
    while (at < end && read_avp(at, end, &avp, &at))
        if (avp.key == used_keys[SESSION_ID])
            return put_avp(out, avp.key, avp.data, avp.size);
    return out;
}

static uint8_t *put_proxy_infos(uint8_t *out, const uint8_t *at, const uint8_t *end)
{
    struct avp avp;
    while (at < end && read_avp(at, end, &avp, &at))
        if (avp.key == proxy_info_key)
            out = put_avp(out, avp.key, avp.data, avp.size);
    return out;
}

static uint8_t *put_result(uint8_t *out, const struct reply *reply)
{
    if (!reply->experimental)
        return put_number(out, KEY(0, 268), reply->code);
    out = put_head(out, KEY(0, 297), M, 24);
    out = put_number(out, KEY(0, 266), TGPP);
    return put_number(out, KEY(0, 298), reply->code);
}

/* The head of an AVP that is no right one, bytes past the end of what encloses it read as 0. */
static uint8_t *put_bare(uint8_t *out, const struct avp *avp)
{
    uint8_t head[12] = {0};
    const size_t left = (size_t)(avp->end - avp->at);
    memcpy(head, avp->at, left < sizeof head ? left : sizeof head);
    return put_head(out, KEY(get32(head + 8), get32(head)), head[4], 0);
}

static uint8_t *put_missing(uint8_t *out, uint64_t key)
{
    return kind_of(key) == FOUR ? put_number(out, key, 0) : put_head(out, key, flags_of(key), 0);
}

static uint8_t *put_failed(uint8_t *out, const struct reply *reply)
{
    const struct avp *const avp = &reply->failed;
    uint8_t *const inner = out + 8, *end;
    switch (reply->shown) {
    case WHOLE:
        end = put_as_received(inner, avp->key, avp->at[4], avp->data, avp->size);
        break;
    case BARE:
        end = put_bare(inner, avp);
        break;
    case MISSING:
        end = put_missing(inner, avp->key);
        break;
    default:
        return out;
    }
    put_head(out, KEY(0, 279), M, (size_t)(end - inner));
    return end;
}

static uint8_t *put_subscription(uint8_t *out, const uint8_t *r)
{
    const uint32_t restriction = get32(r + RESTRICTION);
    out = put_head(out, KEY(TGPP, 1400), V | M, restriction != 0 ? 76 : 60);
    out = put_number(out, KEY(TGPP, 1424), 0);
    if (restriction != 0)
        out = put_number(out, KEY(TGPP, 1426), restriction);
    out = put_head(out, KEY(TGPP, 1435), V | M, 32);
    out = put_number(out, KEY(TGPP, 516), get32(r + UPLINK));
    return put_number(out, KEY(TGPP, 515), get32(r + DOWNLINK));
}

static uint8_t *put_success(uint8_t *out, const struct request *q, const uint8_t *r, const struct done *done)
{
    if (q->command->code == PUR)
        return put_number(out, KEY(TGPP, 1442), done->purges);
    if (q->command->code != ULR)
        return out;
    out = put_number(out, KEY(TGPP, 1406), 1);
    if (number_in(&q->found[ULR_FLAGS]) & SKIP_SUBSCRIBER_DATA)
        return out;
    return put_subscription(out, r);
}

static void put_header(uint8_t *out, const uint8_t *m, const struct reply *reply, size_t length)
{
    const bool error = !reply->experimental && reply->code / 1000 == 3;
    put32(out, 1u << 24 | (uint32_t)length);
    out[4] = (uint8_t)((m[4] & 0x40) | (error ? 0x20 : 0));
    memcpy(out + 5, m + 5, 15);
}

/* ---- the calls */

/* What is lent to one call for a request. */
struct call {
    uint8_t *table;
    const uint8_t *request, *host, *realm;
    uint8_t *answer, *cancel;
    size_t table_len, request_len, host_len, realm_len, answer_len, cancel_len;
};

/* The number of the refusals without an answer, first that applies; 0 where none does. */
static uint32_t silent_number(const struct call *c)
{
    if (c->answer_len < LEAST_ANSWER || c->cancel_len < CANCEL_SIZE)
        return 3;
    if (!is_name(c->host, c->host_len) || !is_name(c->realm, c->realm_len))
        return 5;
    if (!table_right(c->table, c->table_len))
        return 4;
    if (c->request_len < LEAST_REQUEST || c->request_len > MOST_REQUEST)
        return 1;
    return c->request[4] & 0x80 ? 0 : 2;
}

/* Meets the record of an accepted request: an Experimental-Result, or success. The record, or NULL where refused. */
static uint8_t *serve_accepted(const struct call *c, const struct request *q, struct reply *reply, struct done *done)
{
    const struct avp *const user = &q->found[USER_NAME];
    uint8_t imsi[IMSI_SIZE];
    store_counted(imsi, MOST_DIGITS, user->data, user->size);
    uint8_t *const r = find_record(c->table, imsi);
    const uint32_t code = r == NULL ? 5001 : experimental(q, r);
    reply->echo = true;
    reply->shown = NOTHING;
    reply->experimental = code != 0;
    reply->code = code != 0 ? code : 2001;
    if (code != 0)
        return NULL;
    carry_out(q, r, done);
    return r;
}

static size_t serve(const struct call *c)
{
    struct request q;
    struct reply reply = {.experimental = false};
    struct done done = {.next_entry = c->cancel, .purges = 0};
    const uint8_t *r = NULL, *const first = c->request + LEAST_REQUEST, *const end = c->request + c->request_len;
    memset(c->cancel, 0, CANCEL_SIZE);
    if (accept(c->request, c->request_len, &q, &reply))
        r = serve_accepted(c, &q, &reply, &done);
    uint8_t *out = c->answer + LEAST_REQUEST;
    if (reply.echo)
        out = put_session_id(out, first, end);
    out = put_result(out, &reply);
    out = put_number(out, KEY(0, 277), 1);
    out = put_avp(out, KEY(0, 264), c->host, c->host_len);
    out = put_avp(out, KEY(0, 296), c->realm, c->realm_len);
    out = put_failed(out, &reply);
    if (r != NULL)
        out = put_success(out, &q, r, &done);
    if (reply.echo)
        out = put_proxy_infos(out, first, end);
    put_header(c->answer, c->request, &reply, (size_t)(out - c->answer));
    return (size_t)(out - c->answer);
}

uint64_t baseline_request(uint8_t *table, size_t table_len, const uint8_t *request, size_t request_len, const uint8_t *host,
                          size_t host_len, const uint8_t *realm, size_t realm_len, uint8_t *answer, size_t answer_len,
                          uint8_t *cancel, size_t cancel_len)
{
    const struct call c = {table,    request,   host,     realm,      answer,    cancel,
                           table_len, request_len, host_len, realm_len, answer_len, cancel_len};
    const uint32_t number = silent_number(&c);
    return number != 0 ? (uint64_t)number << 32 : serve(&c);
}

/* The refusals of a correction that look at the frame alone, and its kind's size. */
static uint32_t frame_number(const uint8_t *f, size_t n)
{
    static const uint8_t sizes[] = {0, 1, 4, 25, 8};
    if (n < 24 || get16(f) != n)
        return 11;
    if (f[2] != 1)
        return 12;
    if (f[3] < 1 || f[3] > 4)
        return 13;
    if (n != 24u + sizes[f[3]])
        return 14;
    if ((f[3] == 1 && f[24] > 3) || (f[3] == 3 && !plmns_right(f[24], f + 25)))
        return 15;
    return 0;
}

static void store_value(uint8_t *r, const uint8_t *f)
{
    switch (f[3]) {
    case 1:
        r[SUBSCRIPTION] = f[24];
        break;
    case 2:
        memcpy(r + RESTRICTION, f + 24, 4);
        break;
    case 3:
        r[PLMN_COUNT] = f[24];
        memcpy(r + PLMNS, f + 25, 24);
        break;
    default:
        memcpy(r + UPLINK, f + 24, 8);
    }
}

uint32_t baseline_correct(uint8_t *table, size_t table_len, const uint8_t *frame, size_t frame_len)
{
    if (!table_right(table, table_len))
        return 4;
    const uint32_t number = frame_number(frame, frame_len);
    if (number != 0)
        return number;
    uint8_t *const r = find_record(table, frame + 4);
    if (r == NULL)
        return 16;
    const uint32_t change = get32(r + CHANGE);
    if (change != get32(frame + 20))
        return 17;
    store_value(r, frame);
    put32(r + CHANGE, change + 1);
    return 0;
}
