/* A register text as it is read: its lines, names composed and values as they are written, every text numbered once. */
#ifndef PLAIN_TEXT_H
#define PLAIN_TEXT_H

#include "plain_form.h"

/* A register text has no more bytes, and so no more lines and forms than these: the limits are judged last. */
enum { TEXT_BYTES = 32768, TEXT_PROPS = 2200, TEXT_PAGES = 2600, TEXT_FORMS = 3700, TEXT_NAMES = 2600, BUCKETS = 8192 };

struct prop_line {
    struct span name;
    enum kind kind;
    uint16_t text;
};

struct page_line {
    struct span space, name;
    uint16_t text, first, count; /* its forms */
};

/* A cat form, its prop being -1, or a val form. */
struct inner_form {
    struct span name, value; /* name: the category or the property; of a link later its namespace, and the value its name */
    int prop;
    uint64_t code; /* of a number or boolean */
};

/* Each text once, in the order first met. Open addressing; a bucket holds a number plus 1. */
struct names {
    unsigned count;
    uint16_t bucket[BUCKETS];
    struct text text[TEXT_NAMES];
    uint16_t prop[TEXT_NAMES], page[TEXT_NAMES]; /* the property or page of that name plus 1, or 0 */
};

struct lines {
    unsigned props, pages, forms;
    struct prop_line prop[TEXT_PROPS];
    struct page_line page[TEXT_PAGES];
    struct inner_form form[TEXT_FORMS];
    struct names names;
    uint8_t room[TEXT_BYTES]; /* for names that were typed with marks */
};

/* Returns 0 or a refusal from 1 to 7. */
int read_lines(struct span text, struct lines *l);

/* The number of a text, which is given one where it has none. */
unsigned number_text(struct names *n, struct span space, struct span name);
/* The number of a text plus 1, or 0. */
unsigned find_text(const struct names *n, struct span space, struct span name);

#endif
