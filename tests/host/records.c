/* The records of a file. A record is a letter, then its parts; a part is its length in four bytes, low byte first, and its bytes, and
 * a number is a part of four bytes. */
#include <string.h>

#include "calls.h"

static const char LETTERS[] = "CRQAJTFDE";
static const size_t PARTS[] = {12, 2, 3, 4, 4, 3, 4, 4, 3};

static uint32_t two(const uint8_t *at) { return at[0] | (uint32_t)at[1] << 8; }

uint32_t number_in(struct bytes part) { return two(part.at) | two(part.at + 2) << 16; }

static struct bytes take(struct bytes *file, size_t len) {
    if (file->len < len) stop("bad file");
    struct bytes taken = {file->at, len};
    file->at += len, file->len -= len;
    return taken;
}

int read_record(struct bytes *file, struct record *r) {
    if (file->len == 0) return 0;
    r->letter = *take(file, 1).at;
    const char *found = memchr(LETTERS, r->letter, sizeof PARTS / sizeof *PARTS);
    if (found == NULL) stop("bad file");
    for (size_t i = 0; i < PARTS[found - LETTERS]; i++) r->part[i] = take(file, number_in(take(file, 4)));
    return 1;
}

void unpack(struct bytes part, struct form *out) {
    out->len = number_in(take(&part, 4));
    if (out->len > sizeof out->at) stop("bad file");
    memset(out->at, 0, out->len);
    while (part.len > 0) {
        struct bytes run = take(&part, 4);
        size_t start = two(run.at), len = two(run.at + 2);
        if (start + len > out->len) stop("bad file");
        if (len > 0) memcpy(out->at + start, take(&part, len).at, len);
    }
}
