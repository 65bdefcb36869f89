/* reader_harness [hosts]: messages through the proved message reader. Standard input: each message as a 4-byte big-endian length and its bytes.
 * Standard output: for each message the numbers that `second read` writes: code (0, 5014, 5004 or 5001), the AVP's place, the end of what encloses it,
 * 4 bytes each. With `hosts`, as `second hosts`: its Origin-Host, as a 4-byte length and its bytes. */
#include <stdint.h>
#include <stdio.h>
#include <string.h>

uint64_t dymosaw_read_visit(const uint8_t *message, size_t length);
uint64_t dymosaw_read_origin_host(const uint8_t *message, size_t length, uint8_t *out, size_t room);

/* The packed answer holds places and ends under 16 MB. */
static uint8_t message[(1 << 24) - 1], host[sizeof message];

static void put_number(uint32_t n)
{
    for (int shift = 24; shift >= 0; shift -= 8)
        putchar((int)(n >> shift & 0xFF));
}

static void put_visit(size_t length)
{
    uint64_t told = dymosaw_read_visit(message, length);
    put_number((uint32_t)(told >> 48));
    put_number((uint32_t)(told & 0xFFFFFF));
    put_number((uint32_t)(told >> 24 & 0xFFFFFF));
}

static void put_host(size_t length)
{
    uint64_t size = dymosaw_read_origin_host(message, length, host, sizeof host);
    put_number((uint32_t)size);
    fwrite(host, 1, size, stdout);
}

int main(int argc, char **argv)
{
    const int hosts = argc > 1 && strcmp(argv[1], "hosts") == 0;
    uint8_t size[4];
    while (fread(size, 1, 4, stdin) == 4) {
        size_t length = (size_t)size[0] << 24 | (size_t)size[1] << 16 | (size_t)size[2] << 8 | size[3];
        if (length > sizeof message || fread(message, 1, length, stdin) != length) {
            fprintf(stderr, "reader_harness: a message is cut short or over 16 MB\n");
            return 2;
        }
        if (hosts)
            put_host(length);
        else
            put_visit(length);
    }
    return ferror(stdin) || fflush(stdout) ? 2 : 0;
}
