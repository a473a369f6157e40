/* The register text, read and judged from 1 to 7. */
#include "plain_text.h"

/* The text that is left to read. */
struct cursor {
    const uint8_t *at, *end;
};

static inline bool take(struct cursor *c, const char *word) {
    size_t len = strlen(word);
    if ((size_t)(c->end - c->at) < len || !same_bytes(c->at, (const uint8_t *)word, len)) return false;
    c->at += len;
    return true;
}

static bool take_quoted(struct cursor *c, struct span *out) {
    if (!take(c, "\"")) return false;
    const uint8_t *start = c->at;
    while (c->at < c->end && *c->at != '"' && *c->at != '\n') c->at++;
    *out = span_of(start, (size_t)(c->at - start));
    return take(c, "\"");
}

static bool take_kind(struct cursor *c, enum kind *out) {
    static const char *const words[] = {[PAGE] = "page", [NUMBER] = "number", [BOOLEAN] = "boolean", [STRING] = "string"};
    for (int kind = PAGE; kind <= STRING; kind++)
        if (take(c, words[kind])) return *out = (enum kind)kind, true;
    return false;
}

static bool take_prop(struct cursor *c, struct lines *l) {
    struct prop_line *prop = &l->prop[l->props++];
    return take_quoted(c, &prop->name) && take(c, " ") && take_kind(c, &prop->kind) && take(c, ")\n");
}

static bool take_form(struct cursor *c, struct lines *l) {
    struct inner_form *form = &l->form[l->forms++];
    if (take(c, "cat ")) {
        form->prop = -1;
        return take_quoted(c, &form->name) && take(c, ")");
    }
    form->prop = 0;
    return take(c, "val ") && take_quoted(c, &form->name) && take(c, " ") && take_quoted(c, &form->value) && take(c, ")");
}

static bool take_page(struct cursor *c, struct lines *l) {
    struct page_line *page = &l->page[l->pages++];
    page->first = (uint16_t)l->forms;
    if (!take_quoted(c, &page->space) || !take(c, " ") || !take_quoted(c, &page->name)) return false;
    while (take(c, " ("))
        if (!take_form(c, l)) return false;
    page->count = (uint16_t)(l->forms - page->first);
    return take(c, ")\n");
}

static bool take_lines(struct span text, struct lines *l) {
    struct cursor c = {text.at, text.at + text.len};
    l->props = l->pages = l->forms = 0;
    while (c.at < c.end) {
        bool taken = take(&c, "(prop ") ? take_prop(&c, l) : take(&c, "(page ") && take_page(&c, l);
        if (!taken) return false;
    }
    return true;
}

/* Judges names and values, and composes the names. */
static bool compose_names(struct lines *l, struct room *room) {
    for (unsigned i = 0; i < l->props; i++)
        if (!compose_property_name(&l->prop[i].name, room)) return false;
    for (unsigned i = 0; i < l->pages; i++)
        if (!compose_namespace(&l->page[i].space, room) || !compose_name(&l->page[i].name, room)) return false;
    for (unsigned i = 0; i < l->forms; i++) {
        struct inner_form *form = &l->form[i];
        bool kept = form->prop < 0 ? compose_name(&form->name, room) : compose_property_name(&form->name, room) && is_value(form->value);
        if (!kept) return false;
    }
    return true;
}

static inline uint64_t mixed(uint64_t h, uint64_t word) {
    h = (h ^ word) * 0x9E3779B97F4A7C15u;
    return h ^ h >> 29;
}

static uint64_t hash(uint64_t h, struct span s) {
    size_t i = 0;
    h = mixed(h, s.len);
#ifndef BYTELOOP
    for (; i + 8 <= s.len; i += 8) h = mixed(h, eight(s.at + i));
#endif
    for (; i < s.len; i++) h = mixed(h, s.at[i]);
    return h;
}

/* The bucket where the text stands or would stand. */
static unsigned bucket_of(const struct names *n, struct span space, struct span name) {
    unsigned b = (unsigned)(hash(hash(0, space), name) >> 32) % BUCKETS;
    for (; n->bucket[b] != 0; b = (b + 1) % BUCKETS) {
        const struct text *text = &n->text[n->bucket[b] - 1];
        if (same(text->name, name) && same(text->space, space)) break;
    }
    return b;
}

unsigned find_text(const struct names *n, struct span space, struct span name) { return n->bucket[bucket_of(n, space, name)]; }

unsigned number_text(struct names *n, struct span space, struct span name) {
    uint16_t *bucket = &n->bucket[bucket_of(n, space, name)];
    if (*bucket != 0) return *bucket - 1u;
    n->text[n->count] = (struct text){space, name};
    n->prop[n->count] = n->page[n->count] = 0;
    *bucket = (uint16_t)++n->count;
    return n->count - 1;
}

/* False where something is declared twice. */
static bool number_lines(struct lines *l) {
    struct names *n = &l->names;
    n->count = 0;
    memset(n->bucket, 0, sizeof n->bucket);
    for (unsigned i = 0; i < l->props; i++) {
        unsigned x = l->prop[i].text = (uint16_t)number_text(n, span_of(l->prop[i].name.at, 0), l->prop[i].name);
        if (n->prop[x] != 0) return false;
        n->prop[x] = (uint16_t)(i + 1);
    }
    for (unsigned i = 0; i < l->pages; i++) {
        unsigned x = l->page[i].text = (uint16_t)number_text(n, l->page[i].space, l->page[i].name);
        if (n->page[x] != 0) return false;
        n->page[x] = (uint16_t)(i + 1);
    }
    return true;
}

static bool find_props(struct lines *l) {
    for (unsigned i = 0; i < l->forms; i++) {
        struct inner_form *form = &l->form[i];
        if (form->prop < 0) continue;
        unsigned x = find_text(&l->names, span_of(form->name.at, 0), form->name);
        form->prop = x == 0 ? -1 : l->names.prop[x - 1] - 1;
        if (form->prop < 0) return false;
    }
    return true;
}

static bool read_values(struct lines *l, struct room *room) {
    for (unsigned i = 0; i < l->forms; i++) {
        struct inner_form *form = &l->form[i];
        struct value value;
        if (form->prop < 0) continue;
        enum kind kind = l->prop[form->prop].kind;
        if (kind == STRING) continue;
        if (!read_value(kind, form->value, room, &value)) return false;
        if (kind == PAGE) form->name = value.page.namespace, form->value = value.page.name;
        else form->code = value.code;
    }
    return true;
}

int read_lines(struct span text, struct lines *l) {
    struct room room = {l->room};
    if (text.len > TEXT_BYTES) return 1;
    if (!take_lines(text, l)) return 2;
    if (!compose_names(l, &room)) return 3;
    if (!number_lines(l)) return 4;
    if (!find_props(l)) return 5;
    if (!read_values(l, &room)) return 6;
    return l->props > MOST_PROPS || l->pages > MOST_PAGES || l->forms > MOST_FORMS ? 7 : 0;
}
