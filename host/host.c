/*
 * host PLAN [EVIDENCE]
 *
 * Prints the listing of a plan file and, if one is named, of an evidence file.
 */
#include "roof_listing.h"

#include <errno.h>
#include <stdbool.h>
#include <stdio.h>
#include <stdlib.h>
#include <string.h>

struct bytes {
    uint8_t *at;
    size_t length;
};

/* Grows a buffer to twice its room, and to 4,096 bytes at first. */
static bool widen(struct bytes *bytes, size_t *room)
{
    size_t wider = *room == 0 ? 4096 : *room * 2;
    uint8_t *at = realloc(bytes->at, wider);
    if (at == NULL)
        return false;
    bytes->at = at;
    *room = wider;
    return true;
}

/* Reads a stream to its end. There is an address even if it is empty. */
static bool read_all(FILE *file, struct bytes *bytes)
{
    size_t room = 0;
    do {
        if (bytes->length == room && !widen(bytes, &room))
            return false;
        bytes->length += fread(bytes->at + bytes->length, 1, room - bytes->length, file);
    } while (bytes->length == room);
    return ferror(file) == 0;
}

static bool read_file(const char *name, struct bytes *bytes)
{
    FILE *file = fopen(name, "rb");
    if (file == NULL)
        return false;
    bool done = read_all(file, bytes);
    return fclose(file) == 0 && done;
}

static bool print_listing(struct bytes plan, struct bytes evidence)
{
    uint8_t place[ROOF_PLACE_BYTES];
    int32_t length = roof_listing(plan.at, plan.length, evidence.at, evidence.length, place, sizeof place);
    if (length < 0) {
        fprintf(stderr, "host: refused %d\n", -length);
        return false;
    }
    return fwrite(place, 1, (size_t)length, stdout) == (size_t)length && fflush(stdout) == 0;
}

int main(int count, char **words)
{
    static uint8_t nothing[1];
    struct bytes plan = {0};
    struct bytes evidence = {0};
    struct bytes none = {.at = nothing, .length = 0};
    int status = EXIT_SUCCESS;

    if (count != 2 && count != 3) {
        fprintf(stderr, "usage: host PLAN [EVIDENCE]\n");
        return 2;
    }
    if (!read_file(words[1], &plan)) {
        fprintf(stderr, "host: %s: %s\n", words[1], strerror(errno));
        status = EXIT_FAILURE;
    } else if (count == 3 && !read_file(words[2], &evidence)) {
        fprintf(stderr, "host: %s: %s\n", words[2], strerror(errno));
        status = EXIT_FAILURE;
    } else if (!print_listing(plan, count == 3 ? evidence : none)) {
        status = EXIT_FAILURE;
    }
    free(plan.at);
    free(evidence.at);
    return status;
}
