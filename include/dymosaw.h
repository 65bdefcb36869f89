/* dymosaw.h: the home registry (the HSS side of S6a and S6d) for C.
 *
 * The registry keeps nothing between calls: the subscriber table is lent with every call. A call allocates no memory and needs
 * less than 16 KiB of stack (tests/reach.c runs it on that much). The library libdymosaw.a is for x86-64; of the C library it
 * needs memcpy and memset only.
 *
 * +--------------------------------------------------------------------------------------------------------------------+
 * | WHAT THE CALLER OWES                                                                                               |
 * |                                                                                                                    |
 * | No call can test this, and C can break it. Whoever breaks it has no promise of anything.                           |
 * |                                                                                                                    |
 * | 1. No pointer is null, not even where its length is 0.                                                             |
 * | 2. A pointer points to as many bytes as the length behind it says.                                                 |
 * | 3. The buffers of one call lie apart. So the answer is never written into the request's own buffer, and the own    |
 * |    host is not lent as a part of the table.                                                                        |
 * | 4. Calls on one table are made one at a time, and nobody else reads or writes its buffers during a call. Where     |
 * |    several clerks correct one table, the caller queues their corrections; requests stand in the same queue. Calls  |
 * |    on different tables may run at the same time.                                                                   |
 * |                                                                                                                    |
 * | Nothing else is asked: any bytes may stand in any buffer, and each call says what it comes to for all of them.     |
 * +--------------------------------------------------------------------------------------------------------------------+
 *
 * A caller that goes by this page is examples/link/link.c; tools/dymosaw-text turns tables, corrections and messages into
 * readable text and back.
 */
#ifndef DYMOSAW_H
#define DYMOSAW_H

#include <stddef.h>
#include <stdint.h>

#ifdef __cplusplus
extern "C" {
#endif

/* ---- The subscriber table ----------------------------------------------------------------------------------------- */

/* A table is a header of 8 bytes and up to 240 records of 256 bytes. All numbers in it are big-endian. Its length is
 * DYMOSAW_TABLE_HEADER + DYMOSAW_RECORD * count, with 0 records too.
 *
 * Header:
 *   0-3      the table's whole length, which is also the table_len of a call
 *   4        version: 1
 *   5        zero
 *   6-7      count of records, at most 240
 * The records follow in strictly ascending order of their bytes 0-15.
 */
#define DYMOSAW_TABLE_HEADER 8u
#define DYMOSAW_TABLE_VERSION 1u
#define DYMOSAW_RECORD 256u
#define DYMOSAW_MOST_RECORDS 240u
#define DYMOSAW_MOST_TABLE 61448u /* a table of 240 records */

/* Where the fields of a record start, from the record's first byte. "Then zeros" is up to the next field that is listed; a
 * byte or a bit that is not listed is zero. A table that breaks any of this is not valid, and every call refuses it.
 */
#define DYMOSAW_AT_IMSI 0u           /* 0-15: digit count 6 to 15, that many ASCII digits, then zeros */
#define DYMOSAW_AT_CHANGE 16u        /* 16-19: change number, any; a stored correction adds 1 */
#define DYMOSAW_AT_SUBSCRIPTION 20u  /* 20: DYMOSAW_EPS, DYMOSAW_GPRS, both or neither */
#define DYMOSAW_AT_RESTRICTION 24u   /* 24-27: Access-Restriction-Data (TS 29.272 clause 7.3.31), any value */
#define DYMOSAW_AT_PLMN_COUNT 28u    /* 28: count 0 to 8 of the PLMNs in which the subscriber may be; 0: in any */
#define DYMOSAW_AT_PLMNS 32u         /* 32-55: the PLMNs, 3 bytes each (MCC 001, MNC 01 is 00 F1 10), then zeros */
#define DYMOSAW_AT_PURGED 56u        /* 56: DYMOSAW_PURGED_MME, DYMOSAW_PURGED_SGSN; each only beside its node's name */
#define DYMOSAW_AT_MME 64u           /* 64: length 0 to 64 of the MME's name, 0: not registered; 65-128: name, then zeros */
#define DYMOSAW_AT_SGSN 129u         /* 129: length 0 to 64 of the SGSN's name; 130-193: name, then zeros */
#define DYMOSAW_AT_AMBR_UPLINK 196u  /* 196-199: AMBR uplink, any value */
#define DYMOSAW_AT_AMBR_DOWNLINK 200u /* 200-203: AMBR downlink, any value */
#define DYMOSAW_AT_IMEI 204u         /* 204: digit count 0, 14 or 15; 205-219: that many ASCII digits, then zeros */

#define DYMOSAW_EPS 1u         /* of byte 20 */
#define DYMOSAW_GPRS 2u        /* of byte 20 */
#define DYMOSAW_PURGED_MME 1u  /* of byte 56 */
#define DYMOSAW_PURGED_SGSN 2u /* of byte 56 */

#define DYMOSAW_MOST_NAME 64u  /* a name has at most 64 bytes, each 0x21 to 0x7E: a node's, the own host, the own realm */

/* Both calls refuse a table that is not valid, with this number and no byte changed. */
#define DYMOSAW_TABLE_NOT_VALID 4u

/* ---- Requests ----------------------------------------------------------------------------------------------------- */

/* Sizes, in bytes. */
#define DYMOSAW_LEAST_REQUEST 20u  /* a request has at least so many .. */
#define DYMOSAW_MOST_REQUEST 4096u /* .. and at most so many */
#define DYMOSAW_LEAST_ANSWER 4352u /* the answer buffer has at least so many */
#define DYMOSAW_MOST_ANSWER 4292u  /* no answer is longer */
#define DYMOSAW_LEAST_CANCEL 136u  /* the cancel buffer has at least so many: two entries */
#define DYMOSAW_ENTRY 68u          /* one entry of the cancel buffer */
#define DYMOSAW_ENTRIES 2u         /* so many entries */

/* Why a request gets no answer. Where several hold, the first in this order is given; no buffer is changed then. */
#define DYMOSAW_ANSWERED 0u      /* answered, with success or with a refusal: the answer's Result-Code says which */
#define DYMOSAW_BUFFER_SHORT 3u  /* answer buffer under 4352 bytes, or cancel buffer under 136 */
#define DYMOSAW_OWN_NAME 5u      /* own host or realm: not 1 to 64 bytes, or a byte that is no name byte */
/*      DYMOSAW_TABLE_NOT_VALID 4u  the table is not valid (above) */
#define DYMOSAW_REQUEST_SIZE 1u  /* the request has under 20 or over 4096 bytes */
#define DYMOSAW_NOT_A_REQUEST 2u /* the R bit is clear */

/* Where the fields of an entry of the cancel buffer start, from the entry's first byte. */
#define DYMOSAW_ENTRY_NODE 0u        /* 0: DYMOSAW_NODE_MME or DYMOSAW_NODE_SGSN; 0: no entry, and none behind it */
#define DYMOSAW_ENTRY_TYPE 1u        /* 1: Cancellation-Type (TS 29.272 clause 7.3.24): 0, 1 or 4 */
#define DYMOSAW_ENTRY_NAME_LENGTH 2u /* 2: the name's length, 1 to 64; 3: zero */
#define DYMOSAW_ENTRY_NAME 4u        /* 4-67: the name, then zeros */

#define DYMOSAW_NODE_MME 1u
#define DYMOSAW_NODE_SGSN 2u

#define DYMOSAW_MME_UPDATE 0u     /* Cancellation-Type: another MME has registered */
#define DYMOSAW_SGSN_UPDATE 1u    /* another SGSN has registered, or Single-Registration was asked for */
#define DYMOSAW_INITIAL_ATTACH 4u /* the subscriber attached anew at the other kind of node */

/* Answers one Diameter request (Update-Location, Purge-UE or Notify).
 *
 * table, table_len      the subscriber table; of an accepted request's subscriber the record is changed, else nothing.
 * request, request_len  the Diameter message, from its header on, without any transport's framing; only read.
 * host, host_len        the own Origin-Host, without a zero byte at its end; only read.
 * realm, realm_len      the own Origin-Realm, likewise; only read.
 * answer, answer_len    at least 4352 bytes; receives the answer from its first byte on; later bytes stay as they came.
 * cancel, cancel_len    at least 136 bytes; receives 136 bytes, the nodes to cancel: two entries of 68 bytes, filled from the
 *                       first, unused ones zero; later bytes stay as they came. Each node listed is to be sent a
 *                       Cancel-Location-Request; that is the caller's part.
 *
 * Returns one number: dymosaw_number() of it is DYMOSAW_ANSWERED or the refusal's number, dymosaw_length() the answer's length
 * (0 where there is none).
 *
 * The same request once more is answered again, on the table as the first one left it, and then lists no node. So the safe order
 * is: tell the listed nodes, store the table for good, send the answer. Where this is cut short, the sender has no answer and sends
 * its request again, and no listed node is forgotten.
 */
uint64_t dymosaw_request(uint8_t *table, size_t table_len, const uint8_t *request, size_t request_len, const uint8_t *host,
                         size_t host_len, const uint8_t *realm, size_t realm_len, uint8_t *answer, size_t answer_len,
                         uint8_t *cancel, size_t cancel_len);

/* DYMOSAW_ANSWERED or the refusal's number, of what dymosaw_request returned. */
static inline uint32_t dymosaw_number(uint64_t result)
{
    return (uint32_t)(result >> 32);
}

/* The answer's length in bytes, of what dymosaw_request returned; 0 where there is no answer. */
static inline uint32_t dymosaw_length(uint64_t result)
{
    return (uint32_t)(result & 0xFFFFFFFFu);
}

/* ---- Corrections -------------------------------------------------------------------------------------------------- */

/* What dymosaw_correct answers. Where several refusals hold, the first in this order is given. */
#define DYMOSAW_STORED 0u                 /* the value is stored */
/*      DYMOSAW_TABLE_NOT_VALID 4u           the table is not valid (above) */
#define DYMOSAW_FRAME_LENGTH 11u          /* the frame has under 24 bytes, or its length field is not its length */
#define DYMOSAW_FRAME_VERSION 12u         /* the frame's version is not 1 */
#define DYMOSAW_FRAME_KIND 13u            /* the kind is none of 1 to 4 */
#define DYMOSAW_FRAME_LENGTH_FOR_KIND 14u /* the frame's length is not the one of its kind */
#define DYMOSAW_FRAME_VALUE 15u           /* the value may not stand in a table */
#define DYMOSAW_NO_SUCH_IMSI 16u          /* no record has the IMSI */
#define DYMOSAW_CHANGE_DIFFERS 17u        /* the record's change number is not the one that the clerk saw */

/* Kinds of a correction, and the bytes of the record that the value replaces. */
#define DYMOSAW_KIND_SUBSCRIPTION 1u /* byte 20; value of 1 byte, at most 3 */
#define DYMOSAW_KIND_RESTRICTION 2u  /* bytes 24-27: Access-Restriction-Data; value of 4 bytes */
#define DYMOSAW_KIND_PLMNS 3u        /* byte 28 and bytes 32-55: the count of PLMNs, at most 8, and the PLMNs of 3 bytes
                                        each, zeros behind them; value of 25 bytes */
#define DYMOSAW_KIND_AMBR 4u         /* bytes 196-203: AMBR uplink and downlink; value of 8 bytes */

#define DYMOSAW_FRAME_HEAD 24u /* the bytes of a frame before its value */
#define DYMOSAW_MOST_FRAME 49u /* the longest frame that is stored: kind 3 */

/* Corrects one record of the table.
 *
 * table, table_len  the subscriber table; changed only where the answer is DYMOSAW_STORED.
 * frame, frame_len  the correction; only read. All numbers are big-endian:
 *                     0-1    the frame's whole length
 *                     2      version: 1
 *                     3      kind: 1 to 4
 *                     4-19   IMSI as it stands in the record: digit count, ASCII digits, zeros
 *                     20-23  the change number that the clerk saw
 *                     24-    the value
 *
 * Returns DYMOSAW_STORED: of the one record with this IMSI the bytes of the kind hold the value and the change number is one
 * more, 4294967295 going to 0; every other byte of the table is as it was, and the table is valid again. The same frame once
 * more is then refused with DYMOSAW_CHANGE_DIFFERS.
 * Returns a refusal's number: no byte of the table is changed.
 */
uint32_t dymosaw_correct(uint8_t *table, size_t table_len, const uint8_t *frame, size_t frame_len);

#ifdef __cplusplus
}
#endif

#endif
