/* link: what the site's link software does with the registry, on files instead of connections.
 *
 *   link TABLE REQUEST HOST REALM ANSWER-OUT   answers a request: TABLE and REQUEST are files, HOST and REALM the own names;
 *                                              writes the answer to ANSWER-OUT, and TABLE again where the request changed it
 *   link --correct TABLE FRAME                 applies a clerk's correction to the table
 *
 * Exit status: 0 answered or stored, 1 refused, 2 usage or a fault of a file. An answer that refuses (its Result-Code says so)
 * is an answer: status 0.
 *
 * To compile it from the repository, after `make lib`:
 *   gcc -Wall -Wextra -Werror -Ibuild/lib examples/link/link.c -Lbuild/lib -ldymosaw -o link
 * with an installed library:
 *   gcc -Wall -Wextra -Werror link.c $(pkg-config --cflags --libs dymosaw) -o link
 * To make the files of the example, and to read what it wrote:
 *   tools/dymosaw-text table make examples/link/table.txt --out table
 *   tools/dymosaw-text request make examples/link/request.txt --out request
 *   tools/dymosaw-text correction make examples/link/correction.txt --out frame
 *   ./link table request hss.example example answer && tools/dymosaw-text answer show answer
 *   ./link --correct table frame && tools/dymosaw-text table show table
 */
#include "dymosaw.h"

#include <errno.h>
#include <stdio.h>
#include <stdlib.h>
#include <string.h>

enum status { DONE = 0, REFUSED = 1, FAULT = 2 };

struct bytes {
    uint8_t *at;
    size_t length;
};

/* ---- files */

static void stop(const char *path, const char *what)
{
    fprintf(stderr, "link: %s: %s\n", path, what);
    exit(FAULT);
}

/* The whole file. Its pointer is not null even where the file is empty: the calls ask for that. */
static struct bytes read_file(const char *path)
{
    struct bytes file = {NULL, 0};
    size_t room = 0, got = 0;
    FILE *from = fopen(path, "rb");
    if (from == NULL)
        stop(path, strerror(errno));
    do {
        file.length += got;
        if (file.length == room) {
            room = 2 * room + DYMOSAW_MOST_REQUEST;
            file.at = realloc(file.at, room);
            if (file.at == NULL)
                stop(path, "no memory");
        }
        got = fread(file.at + file.length, 1, room - file.length, from);
    } while (got != 0);
    if (ferror(from))
        stop(path, "cannot be read");
    fclose(from);
    return file;
}

static struct bytes copy_of(const struct bytes *file)
{
    struct bytes copy = {malloc(file->length + 1), file->length};
    if (copy.at == NULL)
        stop("a copy of the table", "no memory");
    memcpy(copy.at, file->at, file->length);
    return copy;
}

static void write_file(const char *path, const uint8_t *from, size_t length)
{
    FILE *to = fopen(path, "wb");
    if (to == NULL)
        stop(path, strerror(errno));
    if (fwrite(from, 1, length, to) != length || fclose(to) != 0)
        stop(path, "cannot be written");
}

/* The table is written beside its file and then put in its place, so that a program that is stopped leaves a whole table. */
static void replace_file(const char *path, const struct bytes *table)
{
    const size_t room = strlen(path) + sizeof ".part";
    char *part = malloc(room);
    if (part == NULL)
        stop(path, "no memory");
    snprintf(part, room, "%s.part", path);
    write_file(part, table->at, table->length);
    if (rename(part, path) != 0)
        stop(path, strerror(errno));
    free(part);
}

/* ---- words */

static const char *refusal_words(uint32_t number)
{
    switch (number) {
    case DYMOSAW_BUFFER_SHORT: return "answer or cancel buffer too short";
    case DYMOSAW_OWN_NAME: return "own host or realm is not 1 to 64 name bytes";
    case DYMOSAW_TABLE_NOT_VALID: return "the table is not valid (tools/dymosaw-text table show says why)";
    case DYMOSAW_REQUEST_SIZE: return "the request has under 20 or over 4096 bytes";
    case DYMOSAW_NOT_A_REQUEST: return "the message is no request: its R bit is clear";
    case DYMOSAW_FRAME_LENGTH: return "the frame has under 24 bytes, or its length field is wrong";
    case DYMOSAW_FRAME_VERSION: return "the frame's version is not 1";
    case DYMOSAW_FRAME_KIND: return "the frame's kind is none of 1 to 4";
    case DYMOSAW_FRAME_LENGTH_FOR_KIND: return "the frame's length is wrong for its kind";
    case DYMOSAW_FRAME_VALUE: return "the value may not stand in a table";
    case DYMOSAW_NO_SUCH_IMSI: return "no record has this IMSI";
    case DYMOSAW_CHANGE_DIFFERS: return "the record has been corrected since it was seen";
    default: return "a number that this program does not know";
    }
}

/* Names of TS 29.272 clause 7.3.24. */
static const char *type_words(uint8_t type)
{
    switch (type) {
    case DYMOSAW_MME_UPDATE: return "MME_UPDATE_PROCEDURE";
    case DYMOSAW_SGSN_UPDATE: return "SGSN_UPDATE_PROCEDURE";
    case DYMOSAW_INITIAL_ATTACH: return "INITIAL_ATTACH_PROCEDURE";
    default: return "a type that the registry does not list";
    }
}

static enum status refused(uint32_t number)
{
    printf("refused, %u: %s\n", (unsigned)number, refusal_words(number));
    return REFUSED;
}

/* What was printed has gone out, or the program stops. */
static void flush(void)
{
    if (fflush(stdout) != 0)
        stop("standard output", strerror(errno));
}

/* Here the link software would send each node its Cancel-Location-Request. */
static void show_cancel(const uint8_t *cancel)
{
    unsigned i;
    for (i = 0; i < DYMOSAW_ENTRIES; i++) {
        const uint8_t *entry = cancel + i * DYMOSAW_ENTRY;
        if (entry[DYMOSAW_ENTRY_NODE] == 0)
            break;
        printf("cancel: %s %.*s, Cancellation-Type %u (%s)\n",
               entry[DYMOSAW_ENTRY_NODE] == DYMOSAW_NODE_MME ? "MME" : "SGSN", (int)entry[DYMOSAW_ENTRY_NAME_LENGTH],
               (const char *)entry + DYMOSAW_ENTRY_NAME, (unsigned)entry[DYMOSAW_ENTRY_TYPE],
               type_words(entry[DYMOSAW_ENTRY_TYPE]));
    }
    if (i == 0)
        printf("cancel: no node\n");
    flush();
}

/* ---- the calls */

static enum status answer_request(char **argument)
{
    const char *table_path = argument[0], *host = argument[2], *realm = argument[3];
    struct bytes table = read_file(table_path), before = copy_of(&table), request = read_file(argument[1]);
    uint8_t answer[DYMOSAW_LEAST_ANSWER], cancel[DYMOSAW_LEAST_CANCEL];
    enum status status = DONE;
    const uint64_t result = dymosaw_request(table.at, table.length, request.at, request.length, (const uint8_t *)host,
                                            strlen(host), (const uint8_t *)realm, strlen(realm), answer, sizeof answer,
                                            cancel, sizeof cancel);

    if (dymosaw_number(result) != DYMOSAW_ANSWERED) {
        status = refused(dymosaw_number(result));
    } else {
        /* First the list, then the table, then the answer. Where this is cut short, the node that asked gets no answer and asks
         * again: on the table as it was the list comes once more, and on the changed one the nodes have been told. */
        const int changed = memcmp(table.at, before.at, table.length) != 0;
        show_cancel(cancel);
        if (changed)
            replace_file(table_path, &table);
        printf("table: %s\n", changed ? "changed and written" : "unchanged");
        write_file(argument[4], answer, dymosaw_length(result));
        printf("answered, %u bytes\n", (unsigned)dymosaw_length(result));
    }
    free(table.at);
    free(before.at);
    free(request.at);
    return status;
}

static enum status correct(char **argument)
{
    struct bytes table = read_file(argument[0]), frame = read_file(argument[1]);
    enum status status = DONE;
    const uint32_t number = dymosaw_correct(table.at, table.length, frame.at, frame.length);

    if (number != DYMOSAW_STORED) {
        status = refused(number);
    } else {
        replace_file(argument[0], &table);
        printf("stored\n");
    }
    free(table.at);
    free(frame.at);
    return status;
}

int main(int count, char **argument)
{
    enum status status = FAULT;
    if (count == 4 && strcmp(argument[1], "--correct") == 0)
        status = correct(argument + 2);
    else if (count == 6)
        status = answer_request(argument + 1);
    else
        fprintf(stderr, "usage: link TABLE REQUEST HOST REALM ANSWER-OUT\n       link --correct TABLE FRAME\n");
    flush();
    return status;
}
