/* baseline.h: the two calls of include/dymosaw.h under other names, as the plain C implementation of bench/baseline.c has them. Arguments and
 * results are the library's. */
#ifndef BASELINE_H
#define BASELINE_H

#include <stddef.h>
#include <stdint.h>

uint64_t baseline_request(uint8_t *table, size_t table_len, const uint8_t *request, size_t request_len, const uint8_t *host,
                          size_t host_len, const uint8_t *realm, size_t realm_len, uint8_t *answer, size_t answer_len,
                          uint8_t *cancel, size_t cancel_len);

uint32_t baseline_correct(uint8_t *table, size_t table_len, const uint8_t *frame, size_t frame_len);

#endif
