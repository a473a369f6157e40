/* The join call: the texts and terms of two registers are merged, then the pages are put together by their new numbers. */
#include "plain_form.h"

/* One of the two, with the numbers that its texts, groups and terms get. */
struct side {
    struct view v;
    uint16_t text[MOST_TEXTS], term[MOST_TERMS];
    uint8_t group[MOST_PROPS + 1];
};

struct joining {
    struct side side[2];
    unsigned texts, bytes; /* bytes: of all names and values, as they are limited */
    uint16_t prop_of[2 * MOST_TEXTS], page_of[2 * MOST_TEXTS]; /* the property or page of a text plus 1, or 0 */
    uint16_t page[2][MOST_PAGES];                              /* each page's place in both plus 1, or 0 */
    uint16_t last[MOST_TERMS];                                 /* the last page plus 1 that has a term */
    uint8_t shown[MOST_TERMS];
    struct draft d;
};

/* Texts ascend in both, so that one walk numbers them. */
static void merge_texts(struct joining *j) {
    struct side *a = &j->side[0], *b = &j->side[1];
    unsigned x = 0, y = 0, n = 0;
    for (; x < a->v.texts || y < b->v.texts; n++) {
        int order = x == a->v.texts ? 1 : y == b->v.texts ? -1 : order_spans(text_at(&a->v, x), text_at(&b->v, y));
        if (order <= 0) a->text[x++] = (uint16_t)n;
        if (order >= 0) b->text[y++] = (uint16_t)n;
    }
    j->texts = n;
    memset(j->prop_of, 0, n * sizeof *j->prop_of);
    memset(j->page_of, 0, n * sizeof *j->page_of);
}

static unsigned new_prop_text(const struct side *s, unsigned prop) { return s->text[prop_text(&s->v, prop)]; }

/* 32 where a property has two kinds, 7 where they are too many, or 0. */
static int join_props(struct joining *j) {
    struct side *a = &j->side[0], *b = &j->side[1];
    unsigned count = a->v.props;
    for (unsigned p = 0; p < a->v.props; p++) j->prop_of[new_prop_text(a, p)] = (uint16_t)(p + 1);
    for (unsigned p = 0; p < b->v.props; p++) {
        uint16_t *prop = &j->prop_of[new_prop_text(b, p)];
        if (*prop == 0) *prop = (uint16_t)++count;
        else if (kind_at(&a->v, *prop - 1u) != kind_at(&b->v, p)) return 32;
    }
    j->d.props = count;
    return count > MOST_PROPS ? 7 : 0;
}

static void put_props(struct joining *j, struct side *s) {
    s->group[0] = 0;
    for (unsigned p = 0; p < s->v.props; p++) {
        unsigned x = new_prop_text(s, p), prop = j->prop_of[x] - 1u;
        s->group[p + 1] = (uint8_t)(prop + 1);
        j->d.kind[prop] = (uint8_t)kind_at(&s->v, p);
        j->d.prop_text[prop] = (uint16_t)x;
    }
}

/* False where the pages are too many. */
static bool join_pages(struct joining *j) {
    j->d.pages = 0;
    for (int i = 0; i < 2; i++) {
        const struct side *s = &j->side[i];
        for (unsigned g = 0; g < s->v.pages; g++) {
            unsigned x = s->text[page_text(&s->v, g)], place;
            if (j->page_of[x] == 0) {
                if (j->d.pages == MOST_PAGES) return false;
                place = j->d.pages++;
                j->page_of[x] = (uint16_t)(place + 1);
                j->d.page_text[place] = (uint16_t)x;
                j->page[0][place] = j->page[1][place] = 0;
                j->bytes += (unsigned)text_at(&s->v, page_text(&s->v, g)).len - 1;
            }
            j->page[i][j->page_of[x] - 1] = (uint16_t)(g + 1);
        }
    }
    return true;
}

static struct item new_term(const struct side *s, unsigned term, unsigned index) {
    unsigned group = term_at(&s->v, term)[0];
    uint64_t code = code_at(&s->v, term);
    bool by_text = group == 0 || kind_at(&s->v, group - 1) == PAGE || kind_at(&s->v, group - 1) == STRING;
    return term_item(s->group[group], by_text ? s->text[code] : code, index);
}

/* False where the terms are too many, and so the forms. */
static bool join_terms(struct joining *j) {
    struct item items[2 * MOST_TERMS];
    unsigned first = j->side[0].v.terms, all = first + j->side[1].v.terms, n = 0;
    for (unsigned t = 0; t < all; t++) items[t] = t < first ? new_term(&j->side[0], t, t) : new_term(&j->side[1], t - first, t);
    sort_items(items, all, NULL, NULL);
    for (unsigned i = 0; i < all; i++) {
        struct side *s = &j->side[items[i].index >= first];
        unsigned t = items[i].index - (items[i].index >= first ? first : 0);
        if (i == 0 || order_items(&items[i], &items[i - 1]) != 0) {
            if (n == MOST_TERMS) return false;
            j->d.term[n] = items[i];
            j->last[n] = 0;
            j->shown[n++] = s->v.shown[t];
        }
        s->term[t] = (uint16_t)(n - 1);
    }
    j->d.terms = n;
    return true;
}

/* The categories or the values that one of the two has on a page. False where the forms are too many. */
static bool add_forms(struct joining *j, int i, unsigned place, bool values) {
    const struct side *s = &j->side[i];
    if (j->page[i][place] == 0) return true;
    unsigned page = j->page[i][place] - 1u, categories = s->v.group_end[0];
    for (unsigned f = form_start(&s->v, page), end = form_start(&s->v, page + 1); f < end; f++) {
        unsigned old = form_at(&s->v, f), t = s->term[old];
        if ((old >= categories) != values || j->last[t] == place + 1) continue;
        if (j->d.forms == MOST_FORMS) return false;
        j->last[t] = (uint16_t)(place + 1);
        j->bytes += j->shown[t];
        j->d.form[j->d.forms++] = (uint16_t)t;
    }
    return true;
}

static bool join_forms(struct joining *j) {
    j->d.forms = 0;
    for (unsigned g = 0; g < j->d.pages; g++) {
        j->d.start[g] = (uint16_t)j->d.forms;
        for (int values = 0; values < 2; values++)
            if (!add_forms(j, 0, g, values) || !add_forms(j, 1, g, values)) return false;
    }
    j->d.start[j->d.pages] = (uint16_t)j->d.forms;
    return true;
}

static void put_texts(struct joining *j, const struct side *s) {
    for (unsigned x = 0; x < s->v.texts; x++) {
        struct span text = text_at(&s->v, x);
        j->d.text[s->text[x]] = (struct text){space_in(text), name_in(text)};
    }
}

static unsigned name_bytes(const struct joining *j, int i) {
    unsigned bytes = 0;
    for (unsigned p = 0; p < j->side[i].v.props; p++)
        if (i == 0 || j->side[1].group[p + 1] > j->side[0].v.props) bytes += (unsigned)text_at(&j->side[i].v, prop_text(&j->side[i].v, p)).len - 1;
    return bytes;
}

/* 0, or 32 or 7. Within the limits there are no more texts than the form has room for. */
static int join(struct joining *j) {
    merge_texts(j);
    int number = join_props(j);
    if (number != 0) return number;
    put_props(j, &j->side[0]);
    put_props(j, &j->side[1]);
    j->bytes = name_bytes(j, 0) + name_bytes(j, 1);
    if (!join_pages(j) || !join_terms(j) || !join_forms(j) || j->bytes > MOST_BYTES) return 7;
    put_texts(j, &j->side[0]);
    put_texts(j, &j->side[1]);
    j->d.texts = j->texts;
    return 0;
}

int32_t plain_join(const uint8_t *first, size_t first_len, const uint8_t *second, size_t second_len, uint8_t *held, size_t held_len) {
    struct joining j;
    if (!open_register(first, first_len, &j.side[0].v) || !open_register(second, second_len, &j.side[1].v)) return -22;
    int number = join(&j);
    if (number != 0) return -number;
    if (held_len < PLAIN_REGISTER_BYTES) return -8;
    write_register(&j.d, held);
    return 0;
}
