/* The ask call: the core query run by a stack of page sets. */
#include "plain_form.h"

struct set {
    uint64_t word[MOST_PAGES / 64];
};

static bool has(const struct set *s, unsigned page) { return s->word[page / 64] >> page % 64 & 1; }
static void add(struct set *s, unsigned page) { s->word[page / 64] |= (uint64_t)1 << page % 64; }

static bool has_mismatch(const struct core *core, const struct view *v) {
    for (size_t i = 0; i < core->count; i++) {
        const struct node *node = &core->node[i];
        if (node->tag != VALUE && node->tag != SUBQUERY && node->tag != LINK) continue;
        int p = find_prop(v, node->name);
        enum kind wanted = node->tag == VALUE ? node->constant.kind : PAGE;
        if (p >= 0 && group_start(v, (unsigned)p + 1) < v->group_end[p + 1] && kind_at(v, (unsigned)p) != wanted) return true;
    }
    return false;
}

/* The number of the text that is this name without a namespace, or that of no text. */
static unsigned search_text(const struct view *v, struct span name) {
    unsigned low = 0, high = v->texts;
    while (low < high) {
        unsigned middle = (low + high) / 2;
        struct span text = text_at(v, middle);
        int order = text.at[0] > 0 ? 1 : order_spans(span_of(text.at + 1, text.len - 1), name);
        if (order == 0) return middle;
        if (order < 0) low = middle + 1;
        else high = middle;
    }
    return v->texts;
}

/* The terms that a node asks for, from low up to high: those of a category or of a property. */
static void find_terms(const struct node *node, const struct view *v, unsigned *low, unsigned *high) {
    *low = *high = 0;
    if (node->tag == CATEGORY) {
        unsigned x = search_text(v, node->name);
        for (unsigned t = 0; t < v->group_end[0] && x < v->texts; t++)
            if (code_at(v, t) == x) *low = t, *high = t + 1;
    } else {
        int p = find_prop(v, node->name);
        if (p >= 0) *low = group_start(v, (unsigned)p + 1), *high = v->group_end[p + 1];
    }
}

static int order_codes(uint64_t a, uint64_t b) { return (a > b) - (a < b); }

/* Whether a link's text is what a link node names, be there a page or not. */
static inline bool refers(const struct node *node, struct span text) {
    const struct reference *to = &node->constant.page;
    if (!stands_as_written(order_spans(name_in(text), to->name), node->as_written)) return false;
    return !asks_namespace(node->as_written, to->written) || same(space_in(text), to->namespace);
}

/* Whether a term is what the node wants. */
static inline bool is_wanted(const struct node *node, const struct view *v, unsigned term, const struct set *inner) {
    uint64_t code = code_at(v, term);
    switch (node->tag) {
    case CATEGORY: case EXISTENCE: return true;
    case LINK: return refers(node, text_at(v, (unsigned)code));
    case SUBQUERY: return v->place_of[code] > 0 && has(inner, v->place_of[code] - 1u);
    default:
        if (node->constant.kind == STRING)
            return stands(order_spans(name_in(text_at(v, (unsigned)code)), node->constant.string), node->comparator);
        return stands(order_codes(code, node->constant.code), node->comparator);
    }
}

/* Each term is judged once, then the pages that have one that is wanted are found. */
static struct set select_by_terms(const struct node *node, const struct view *v, const struct set *inner) {
    struct set found = {{0}};
    bool wanted[MOST_TERMS], some = false;
    unsigned low, high;
    find_terms(node, v, &low, &high);
    for (unsigned t = low; t < high; t++) some |= wanted[t - low] = is_wanted(node, v, t, inner);
    for (unsigned g = 0, f = 0, end; some && g < v->pages; g++, f = end) {
        end = form_start(v, g + 1);
        bool one = false;
        for (; f < end && !one; f++) {
            unsigned t = form_at(v, f) - low;
            one = t < high - low && wanted[t];
        }
        if (one) add(&found, g);
    }
    return found;
}

static struct set select_by_name(const struct node *node, const struct view *v) {
    struct set found = {{0}};
    for (unsigned g = 0; g < v->pages; g++) {
        struct span text = text_at(v, page_text(v, g));
        bool wanted = node->tag == NAMESPACE ? same(space_in(text), node->name)
                                             : stands(order_spans(name_in(text), node->name), node->comparator);
        if (wanted) add(&found, g);
    }
    return found;
}

static struct set select_pages(const struct node *node, const struct view *v, const struct set *inner) {
    return node->tag == NAMESPACE || node->tag == ARTICLE ? select_by_name(node, v) : select_by_terms(node, v, inner);
}

static void combine(enum node_tag tag, struct set *a, const struct set *b) {
    for (int i = 0; i < MOST_PAGES / 64; i++) a->word[i] = tag == AND ? a->word[i] & b->word[i] : a->word[i] | b->word[i];
}

static struct set run(const struct core *core, const struct view *v) {
    struct set stack[MOST_NODES];
    size_t height = 0;
    for (size_t i = 0; i < core->count; i++) {
        const struct node *node = &core->node[i];
        if (node->tag <= OR) {
            height--;
            combine(node->tag, &stack[height - 1], &stack[height]);
        } else if (node->tag == SUBQUERY) {
            stack[height - 1] = select_pages(node, v, &stack[height - 1]);
        } else {
            stack[height++] = select_pages(node, v, NULL);
        }
    }
    return stack[0];
}

int32_t plain_ask(const uint8_t *held_query, size_t held_query_len, const uint8_t *held_register, size_t held_register_len,
                  uint8_t *marks, size_t marks_len) {
    struct view v;
    struct core core;
    int32_t count = 0;
    if (!open_query(held_query, held_query_len, &core)) return -21;
    if (!open_register(held_register, held_register_len, &v)) return -22;
    if (has_mismatch(&core, &v)) return -23;
    if (marks_len < v.pages) return -24;
    struct set found = run(&core, &v);
    for (unsigned g = 0; g < v.pages; g++) {
        marks[g] = has(&found, g);
        count += marks[g];
    }
    return count;
}
