/* Single bytes changed in a held register or in a held tree. An edit is where (two bytes), the byte, and whether all calls are made. */
#include <stdio.h>
#include <string.h>

#include "calls.h"

static unsigned place_of(const uint8_t *edit) { return edit[0] | (unsigned)edit[1] << 8; }

/* What the calls say of a held register with one byte changed. A form of nothing is 22, 11 and 22, and nothing is printed; any other one
 * joined with the empty register is itself. */
static void run_edit(const struct form *query, struct bytes text, const struct form *held, const uint8_t edit[4]) {
    static const uint8_t empty[HELD];
    static uint8_t both[HELD];
    uint8_t marks[MOST_PAGES];
    struct bytes h = {held->at, HELD}, none = {empty, HELD};
    size_t pages = 0;
    memset(marks, 2, sizeof marks);
    int32_t number = ask_call(whole(query), h, MOST_PAGES, -1, marks);
    if (number == -22 && edit[3] == 0) return;
    int32_t made = query_call(h, text, QUERY, NULL), first = join_call(h, none, HELD, both);
    if (first == 0 && memcmp(both, held->at, HELD) != 0) fault("another form joined with the empty register", edit[2]);
    int32_t second = join_call(none, h, HELD, both);
    if (second == 0 && memcmp(both, held->at, HELD) != 0) fault("another form joined to the empty register", edit[2]);
    if (number == -22 && made == -11 && first == -22 && second == -22) return;
    while (number >= 0 && pages < MOST_PAGES && marks[pages] < 2) pages++;
    printf(" %u:%u", place_of(edit), edit[2]);
    print_marks(number, marks, pages);
    printf(" %d %d %d", made, first, second);
}

/* The checksum of zlib. */
static uint32_t checksum(const uint8_t *at, size_t len) {
    static uint32_t table[256];
    uint32_t sum = ~0u;
    for (uint32_t i = 0; i < 256 && table[255] == 0; i++) {
        table[i] = i;
        for (int bit = 0; bit < 8; bit++) table[i] = table[i] >> 1 ^ (table[i] & 1 ? 0xEDB88320u : 0);
    }
    for (size_t i = 0; i < len; i++) sum = sum >> 8 ^ table[(sum ^ at[i]) & 255];
    return ~sum;
}

/* What fitting says of a changed tree; nothing is printed of one that is none. */
static void run_tree_edit(const struct form *tree, const struct form *held, const uint8_t edit[4]) {
    static uint8_t query[QUERY];
    int32_t number = fit_call(whole(tree), whole(held), QUERY, query);
    if (number == -34) return;
    printf(" %u:%u %d", place_of(edit), edit[2], number);
    if (number == 0) printf(" %08x", checksum(query, QUERY));
}

void run_edits(const struct record *r) {
    static struct form query, held;
    unpack(r->part[0], &query);
    unpack(r->part[2], &held);
    for (const uint8_t *edit = r->part[3].at, *end = edit + r->part[3].len; edit < end; edit += 4) {
        uint8_t *at = &held.at[place_of(edit)], before = *at;
        *at = edit[2];
        run_edit(&query, r->part[1], &held, edit);
        *at = before;
    }
}

void run_tree_edits(const struct record *r) {
    static struct form tree, held;
    unpack(r->part[0], &tree);
    unpack(r->part[1], &held);
    for (const uint8_t *edit = r->part[2].at, *end = edit + r->part[2].len; edit < end; edit += 4) {
        uint8_t *at = &tree.at[place_of(edit)], before = *at;
        *at = edit[2];
        run_tree_edit(&tree, &held, edit);
        *at = before;
    }
}
