/* Whether bytes are a held register. Short loops with one purpose each, all linear, and no hash. */
#include "plain_form.h"

enum { NO_SPACE = 8 }; /* beside the rules of a text: its namespace is empty */

struct check {
    struct view *v;
    unsigned bytes; /* of all names and values, as they are limited */
    uint8_t rules[MOST_TEXTS];
    bool used[MOST_TEXTS]; /* by a property or a term */
    uint16_t last[MOST_TERMS]; /* the last page plus 1 that has a term */
};

/* A text with a namespace is good for pages and links only. */
static uint8_t text_rules(struct span text) {
    uint8_t rules = rules_of(name_in(text));
    if (text.at[0] == 0) return rules | NO_SPACE;
    return is_name(space_in(text)) ? rules & IS_NAME : 0;
}

/* Texts lie one behind the other, have both parts, and ascend. */
static bool check_texts(struct check *c) {
    const uint8_t *row = c->v->held + TEXTS, *heap = c->v->held + HEAP;
    struct span last, text = span_of(heap, 0);
    if (two(row) != 0) return false;
    for (unsigned x = 0; x < c->v->texts; x++, row += 2) {
        unsigned at = two(row), end = two(row + 2);
        if (end <= at || end > MOST_HEAP || heap[at] >= end - at) return false;
        last = text, text = span_of(heap + at, end - at);
        if (order_spans(last, text) >= 0) return false;
        c->rules[x] = text_rules(text);
        c->used[x] = false;
        c->v->place_of[x] = 0;
    }
    return true;
}

static bool keeps(const struct check *c, uint64_t text, uint8_t rules) {
    return text < c->v->texts && (c->rules[text] & rules) == rules;
}

static bool check_props(struct check *c) {
    for (unsigned p = 0; p < c->v->props; p++) {
        unsigned x = prop_text(c->v, p);
        if (kind_at(c->v, p) > STRING || !keeps(c, x, IS_PROPERTY) || c->used[x]) return false;
        c->used[x] = true;
        c->bytes += (unsigned)text_at(c->v, x).len - 1;
    }
    return true;
}

/* Minus, whole digits, and where there are thousandths left a point and their digits up to the last that is not 0. */
static unsigned length_of_number(uint64_t code) {
    static const uint64_t powers[] = {10u, 100u, 1000u, 10000u, 100000u, 1000000u, 10000000u, 100000000u, 1000000000u, 10000000000u,
                                      100000000000u, 1000000000000u, 10000000000000u, 100000000000000u, 1000000000000000u};
    uint64_t n = code < BIAS ? BIAS - code : code - BIAS, whole = n / 1000;
    unsigned left = (unsigned)(n % 1000), digits = 1;
    while (whole >= powers[digits - 1]) digits++;
    return digits + (code < BIAS) + (left == 0 ? 0 : left % 100 == 0 ? 2 : left % 10 == 0 ? 3 : 4);
}

/* The length of a term's text, which is marked as used, or 0 where it breaks its rule. */
static unsigned length_of_text(struct check *c, uint64_t code, uint8_t rules) {
    if (!keeps(c, code, rules)) return 0;
    struct span text = text_at(c->v, (unsigned)code);
    unsigned len = (unsigned)text.len - 1 + (text.at[0] > 0);
    c->used[code] = true;
    return len <= 64 ? len : 0;
}

/* The length of a term at its shortest, or 0 where it breaks its rule. */
static unsigned length_of_term(struct check *c, unsigned group, uint64_t code) {
    if (group == 0) return length_of_text(c, code, IS_NAME | NO_SPACE);
    if (group > c->v->props) return 0;
    switch (kind_at(c->v, group - 1)) {
    case PAGE: return length_of_text(c, code, IS_NAME);
    case STRING: return length_of_text(c, code, IS_VALUE);
    case BOOLEAN: return code == 0 ? 5 : code == 1 ? 4 : 0;
    default: return 0 < code && code < 2 * BIAS ? length_of_number(code) : 0;
    }
}

static bool check_terms(struct check *c) {
    struct view *v = c->v;
    struct item last = {0}, item;
    unsigned groups = 0;
    for (unsigned t = 0; t < v->terms; t++, last = item) {
        unsigned group = term_at(v, t)[0], len = length_of_term(c, group, code_at(v, t));
        item = term_item(group, code_at(v, t), t);
        if (len == 0 || (t > 0 && order_items(&item, &last) <= 0)) return false;
        while (groups < group) v->group_end[groups++] = (uint16_t)t;
        v->shown[t] = (uint8_t)len;
        c->last[t] = 0;
    }
    while (groups <= v->props) v->group_end[groups++] = (uint16_t)v->terms;
    return true;
}

/* A page's forms are terms, none twice, and categories before values. */
static bool check_forms(struct check *c, unsigned page, unsigned start, unsigned end) {
    unsigned categories = c->v->group_end[0], terms = c->v->terms;
    bool values = false;
    for (unsigned f = start; f < end; f++) {
        unsigned t = form_at(c->v, f);
        if (t >= terms || c->last[t] == page + 1 || (values && t < categories)) return false;
        values = t >= categories;
        c->last[t] = (uint16_t)(page + 1);
        c->bytes += c->v->shown[t];
    }
    return true;
}

static bool check_pages(struct check *c) {
    struct view *v = c->v;
    if (form_start(v, 0) != 0) return false;
    for (unsigned g = 0; g < v->pages; g++) {
        unsigned x = page_text(v, g), start = form_start(v, g), end = form_start(v, g + 1);
        if (!keeps(c, x, IS_NAME) || v->place_of[x] != 0 || end < start || end > MOST_FORMS) return false;
        v->place_of[x] = (uint16_t)(g + 1);
        c->bytes += (unsigned)text_at(v, x).len - 1;
        if (!check_forms(c, g, start, end)) return false;
    }
    return true;
}

static bool all_used(const struct check *c) {
    bool used = true;
    for (unsigned x = 0; x < c->v->texts; x++) used &= c->used[x] | (c->v->place_of[x] != 0);
    for (unsigned t = 0; t < c->v->terms; t++) used &= c->last[t] != 0;
    return used;
}

static bool is_zero(const uint8_t *held, size_t from, size_t to) { return are_zero(held + from, to - from); }

static bool zeros_behind(const struct view *v) {
    const uint8_t *h = v->held;
    return is_zero(h, PROPS + PROP_ROW * v->props, PAGES) && is_zero(h, PAGES + 2 * v->pages, STARTS) &&
           is_zero(h, STARTS + 2 * v->pages + 2, FORMS) && is_zero(h, FORMS + 2 * form_start(v, v->pages), TERMS) &&
           is_zero(h, TERMS + TERM_ROW * v->terms, TEXTS) && is_zero(h, TEXTS + 2 * v->texts + 2, HEAP) &&
           is_zero(h, HEAP + two(h + TEXTS + 2 * v->texts), PLAIN_REGISTER_BYTES);
}

bool open_register(const uint8_t *held, size_t len, struct view *v) {
    struct check c;
    if (len < PLAIN_REGISTER_BYTES) return false;
    v->held = held, v->props = two(held), v->pages = two(held + 2), v->terms = two(held + 4), v->texts = two(held + 6);
    if (v->props > MOST_PROPS || v->pages > MOST_PAGES || v->terms > MOST_TERMS || v->texts > MOST_TEXTS) return false;
    c.v = v, c.bytes = 0;
    return check_texts(&c) && check_props(&c) && check_terms(&c) && check_pages(&c) && all_used(&c) && c.bytes <= MOST_BYTES &&
           zeros_behind(v);
}

int32_t plain_is_register(const uint8_t *held, size_t held_len) {
    struct view v;
    return open_register(held, held_len, &v);
}

int find_prop(const struct view *v, struct span name) {
    for (unsigned p = 0; p < v->props; p++)
        if (same(name_in(text_at(v, prop_text(v, p))), name)) return (int)p;
    return -1;
}
