/* The held register, which lies as docs/LAYOUT.md says: read through a view, written from a draft. */
#ifndef PLAIN_FORM_H
#define PLAIN_FORM_H

#include "plain.h"
#include "plain_parts.h"

enum { MOST_PROPS = 64, MOST_PAGES = 256, MOST_FORMS = 2048, MOST_TERMS = 2048, MOST_TEXTS = 2368, MOST_HEAP = 35136, MOST_BYTES = 32768 };
enum { PROP_ROW = 3, TERM_ROW = 9 };
enum {
    PROPS = 8,
    PAGES = PROPS + PROP_ROW * MOST_PROPS,
    STARTS = PAGES + 2 * MOST_PAGES,
    FORMS = STARTS + 2 * (MOST_PAGES + 1),
    TERMS = FORMS + 2 * MOST_FORMS,
    TEXTS = TERMS + TERM_ROW * MOST_TERMS,
    HEAP = TEXTS + 2 * (MOST_TEXTS + 1)
};
_Static_assert(HEAP + MOST_HEAP == PLAIN_REGISTER_BYTES, "the regions fill the form");

/* What is sorted: by nine bytes, the first eight as one number with the high byte first. */
struct item {
    uint64_t key;
    uint8_t ninth;
    unsigned index;
};
static inline int order_items(const struct item *a, const struct item *b) {
    return a->key != b->key ? (a->key < b->key ? -1 : 1) : a->ninth - b->ninth;
}

/* Where the bytes are equal it is by a function of the indexes, if there is one. */
typedef int (*tie_order)(const void *context, unsigned a, unsigned b);
void sort_items(struct item *items, size_t count, tie_order order, const void *context);

/* Terms ascend by their nine bytes as they lie. */
static inline struct item term_item(unsigned group, uint64_t code, unsigned index) {
    return (struct item){(uint64_t)group << 56 | __builtin_bswap64(code) >> 8, (uint8_t)(code >> 56), index};
}
static inline unsigned item_group(const struct item *term) { return (unsigned)(term->key >> 56); }
static inline uint64_t item_code(const struct item *term) { return (uint64_t)term->ninth << 56 | __builtin_bswap64(term->key << 8); }

/* A held register that was found to be one. */
struct view {
    const uint8_t *held;
    unsigned props, pages, terms, texts;
    uint16_t group_end[MOST_PROPS + 1]; /* where the terms of a group end */
    uint16_t place_of[MOST_TEXTS];      /* the page plus 1 that a text identifies, or 0 */
    uint8_t shown[MOST_TERMS];          /* the length of a term at its shortest */
};

bool open_register(const uint8_t *held, size_t len, struct view *v);

static inline enum kind kind_at(const struct view *v, unsigned prop) { return (enum kind)v->held[PROPS + PROP_ROW * prop]; }
static inline unsigned prop_text(const struct view *v, unsigned prop) { return two(v->held + PROPS + PROP_ROW * prop + 1); }
static inline unsigned page_text(const struct view *v, unsigned page) { return two(v->held + PAGES + 2 * page); }
static inline unsigned form_start(const struct view *v, unsigned page) { return two(v->held + STARTS + 2 * page); }
static inline unsigned form_at(const struct view *v, unsigned form) { return two(v->held + FORMS + 2 * form); }
static inline const uint8_t *term_at(const struct view *v, unsigned term) { return v->held + TERMS + TERM_ROW * term; }
static inline uint64_t code_at(const struct view *v, unsigned term) { return eight(term_at(v, term) + 1); }
static inline unsigned group_start(const struct view *v, unsigned group) { return group == 0 ? 0 : v->group_end[group - 1]; }

/* The bytes of a text: the length of a namespace, the namespace, the name. */
static inline struct span text_at(const struct view *v, unsigned text) {
    const uint8_t *row = v->held + TEXTS + 2 * text;
    return span_of(v->held + HEAP + two(row), two(row + 2) - two(row));
}
static inline struct span space_in(struct span text) { return span_of(text.at + 1, text.at[0]); }
static inline struct span name_in(struct span text) { return span_of(text.at + 1 + text.at[0], text.len - 1 - text.at[0]); }

/* The property's number, or -1. */
int find_prop(const struct view *v, struct span name);

/* A text in two parts, wherever they lie. */
struct text {
    struct span space, name;
};

/* A register by numbers: all that is written. Texts and terms stand in their order. */
struct draft {
    unsigned props, pages, forms, terms, texts;
    uint8_t kind[MOST_PROPS];
    uint16_t prop_text[MOST_PROPS], page_text[MOST_PAGES], start[MOST_PAGES + 1], form[MOST_FORMS];
    struct item term[MOST_TERMS];
    struct text text[MOST_TEXTS];
};

void write_register(const struct draft *d, uint8_t *held);

#endif
