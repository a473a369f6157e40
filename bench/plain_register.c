/* The register call: what was read from a text is numbered and written. */
#include "plain_text.h"

/* The first eight bytes of a text, so that most texts are ordered by one comparison. No name has a byte 0. */
static uint64_t text_key(const struct text *text) {
    uint64_t key = text->space.len;
    size_t spaces = text->space.len, all = spaces + text->name.len;
    for (size_t i = 0; i < 7; i++) key = key << 8 | (i < spaces ? text->space.at[i] : i < all ? text->name.at[i - spaces] : 0);
    return key;
}

/* Texts of one key have namespaces of one length. */
static int order_texts(const void *context, unsigned a, unsigned b) {
    const struct text *text = context;
    int order = order_spans(text[a].space, text[b].space);
    return order != 0 ? order : order_spans(text[a].name, text[b].name);
}

/* Puts the texts in order; a text's rank is its number then. */
static void sort_texts(const struct names *n, struct draft *d, uint16_t *rank) {
    struct item items[MOST_TEXTS];
    for (unsigned x = 0; x < n->count; x++) items[x] = (struct item){text_key(&n->text[x]), 0, x};
    sort_items(items, n->count, order_texts, n->text);
    d->texts = n->count;
    for (unsigned i = 0; i < n->count; i++) {
        rank[items[i].index] = (uint16_t)i;
        d->text[i] = n->text[items[i].index];
    }
}

/* The text that a form is by: its number, or -1 where it is a number or a boolean. */
static int form_text(struct lines *l, const struct inner_form *form) {
    const uint8_t *none = form->name.at;
    if (form->prop < 0) return (int)number_text(&l->names, span_of(none, 0), form->name);
    switch (l->prop[form->prop].kind) {
    case PAGE: return (int)number_text(&l->names, form->name, form->value);
    case STRING: return (int)number_text(&l->names, span_of(none, 0), form->value);
    default: return -1;
    }
}

/* Puts the terms in order; term_of gets the number of each form's term. */
static void sort_terms(const struct lines *l, const int *text_of, const uint16_t *rank, struct draft *d, uint16_t *term_of) {
    struct item items[MOST_FORMS];
    for (unsigned f = 0; f < l->forms; f++) {
        uint64_t code = text_of[f] < 0 ? l->form[f].code : rank[text_of[f]];
        items[f] = term_item((unsigned)(l->form[f].prop + 1), code, f);
    }
    sort_items(items, l->forms, NULL, NULL);
    d->terms = 0;
    for (unsigned f = 0; f < l->forms; f++) {
        if (f == 0 || order_items(&items[f], &items[f - 1]) != 0) d->term[d->terms++] = items[f];
        term_of[items[f].index] = (uint16_t)(d->terms - 1);
    }
}

/* The forms of the pages, categories before values and none twice on a page. */
static void put_forms(const struct lines *l, const uint16_t *term_of, struct draft *d) {
    uint16_t last[MOST_TERMS] = {0};
    d->forms = 0;
    for (unsigned g = 0; g < l->pages; g++) {
        unsigned start = l->page[g].first, end = start + l->page[g].count;
        d->start[g] = (uint16_t)d->forms;
        for (int values = 0; values < 2; values++)
            for (unsigned f = start; f < end; f++) {
                unsigned t = term_of[f];
                if ((l->form[f].prop >= 0) != values || last[t] == g + 1) continue;
                last[t] = (uint16_t)(g + 1);
                d->form[d->forms++] = (uint16_t)t;
            }
    }
    d->start[l->pages] = (uint16_t)d->forms;
}

static void make_draft(struct lines *l, struct draft *d) {
    int text_of[MOST_FORMS];
    uint16_t rank[MOST_TEXTS], term_of[MOST_FORMS];
    for (unsigned f = 0; f < l->forms; f++) text_of[f] = form_text(l, &l->form[f]);
    sort_texts(&l->names, d, rank);
    d->props = l->props, d->pages = l->pages;
    for (unsigned p = 0; p < l->props; p++) d->kind[p] = (uint8_t)l->prop[p].kind, d->prop_text[p] = rank[l->prop[p].text];
    for (unsigned g = 0; g < l->pages; g++) d->page_text[g] = rank[l->page[g].text];
    sort_terms(l, text_of, rank, d, term_of);
    put_forms(l, term_of, d);
}

int32_t plain_register(const uint8_t *text, size_t text_len, uint8_t *held, size_t held_len) {
    struct lines l;
    struct draft d;
    int number = read_lines(span_of(text, text_len), &l);
    if (number != 0) return -number;
    if (held_len < PLAIN_REGISTER_BYTES) return -8;
    make_draft(&l, &d);
    write_register(&d, held);
    return 0;
}
