/* The query text, read to a tree. Reading goes on past what 14, 15 and 16 refuse, since 13 is lower. */
#include "plain_parts.h"

struct reader {
    struct span text;
    size_t at;
    int fault; /* the lowest of 14 to 16 so far, or 0 */
    struct tree *out;
    struct room room;
};

struct piece {
    enum written comparator;
    struct span text;
};

static bool read_group(struct reader *r, int depth);

static void want(struct reader *r, bool kept, int number) {
    if (!kept && (r->fault == 0 || number < r->fault)) r->fault = number;
}

/* Only a text with a fault has more nodes than there is room for. */
static void put(struct reader *r, struct tree_node node) {
    if (r->out->count < MOST_TREE) r->out->node[r->out->count++] = node;
}

/* Joins what was put since the count was `start` to what stands before it. */
static void put_join(struct reader *r, enum tree_tag tag, size_t start) {
    put(r, (struct tree_node){.tag = tag, .size = (unsigned)(r->out->count - start)});
}

static bool stands_at(const struct reader *r, size_t at, const char *word) {
    size_t len = strlen(word);
    return r->text.len - at >= len && same_bytes(r->text.at + at, (const uint8_t *)word, len);
}

static bool take(struct reader *r, const char *word) {
    if (!stands_at(r, r->at, word)) return false;
    r->at += strlen(word);
    return true;
}

static void skip_blanks(struct reader *r) {
    while (take(r, " ") || take(r, "\n")) continue;
}

static bool is_barred(uint8_t b) { return b == '[' || b == ']' || b == '|' || b == '<' || b == '>'; }

static bool read_subquery(struct reader *r, int depth) { return read_group(r, depth + 1) && take(r, "</q>"); }

static bool is_bare(const struct piece *p) { return p->comparator == SAME; }

static struct piece read_piece(struct reader *r) {
    struct piece p = {SAME, {0}};
    skip_blanks(r);
    if (take(r, "!")) p.comparator = OTHER;
    else if (take(r, ">>")) p.comparator = ABOVE;
    else if (take(r, "<<")) p.comparator = BELOW;
    else if (take(r, ">")) p.comparator = AT_LEAST;
    else if (take(r, "<")) p.comparator = AT_MOST;
    size_t start = r->at;
    while (r->at < r->text.len && !is_barred(r->text.at[r->at])) r->at++;
    p.text = trimmed(span_of(r->text.at + start, r->at - start));
    return p;
}

/* Where the `::` of a property body stands, or the text's length. */
static size_t find_split(const struct reader *r) {
    for (size_t i = r->at; i < r->text.len; i++) {
        if (stands_at(r, i, "::")) return i;
        if (stands_at(r, i, "|") || stands_at(r, i, "<q>") || stands_at(r, i, "]]")) break;
    }
    return r->text.len;
}

/* The head's names; those past the eighth are judged and not kept. */
static bool read_head(struct reader *r, size_t end, struct span names[MOST_CHAIN], size_t *count) {
    size_t start = r->at;
    *count = 0;
    for (size_t i = r->at; i <= end; i++) {
        if (i < end && is_barred(r->text.at[i])) return false;
        if (i < end && r->text.at[i] != '.') continue;
        struct span name = trimmed(span_of(r->text.at + start, i - start));
        want(r, compose_property_name(&name, &r->room), 15);
        if (*count < MOST_CHAIN) names[*count] = name;
        ++*count;
        start = i + 1;
    }
    want(r, *count <= MOST_CHAIN, 14);
    if (*count > MOST_CHAIN) *count = MOST_CHAIN;
    r->at = end + 2;
    return true;
}

static bool read_alternative(struct reader *r, int depth) {
    skip_blanks(r);
    if (take(r, "<q>")) {
        if (!read_subquery(r, depth)) return false;
        skip_blanks(r);
        put(r, (struct tree_node){.tag = INNER});
        return true;
    }
    struct piece p = read_piece(r);
    bool exists = is_bare(&p) && is_word(p.text, "+");
    want(r, exists || is_value(p.text), 16);
    put(r, exists ? (struct tree_node){.tag = EXISTS} : (struct tree_node){.tag = PIECE, .comparator = p.comparator, .name = p.text});
    return true;
}

static bool read_property(struct reader *r, size_t split, int depth) {
    struct span names[MOST_CHAIN];
    size_t count;
    if (!read_head(r, split, names, &count) || !read_alternative(r, depth)) return false;
    while (take(r, "||")) {
        size_t start = r->out->count;
        if (!read_alternative(r, depth)) return false;
        put_join(r, BAR, start);
    }
    put(r, (struct tree_node){.tag = PROPERTY, .name = names[count - 1]});
    while (--count > 0) put(r, (struct tree_node){.tag = THROUGH, .name = names[count - 1]});
    return take(r, "]]");
}

static void put_category(struct reader *r, struct span name, bool bare) {
    want(r, bare && compose_name(&name, &r->room), 15);
    put(r, (struct tree_node){.tag = CATEGORY_IS, .name = name});
}

static void put_identifier(struct reader *r, const struct piece *p) {
    struct span before, after;
    struct reference to;
    if (is_bare(p) && split_at_colon(p->text, &before, &after) && is_word(after, "+")) {
        want(r, compose_namespace(&before, &r->room), 15);
        put(r, (struct tree_node){.tag = NAMESPACE_IS, .space = before});
        return;
    }
    want(r, read_reference(p->text, &r->room, &to), 15);
    put(r, (struct tree_node){.tag = to.written ? QUALIFIED : BARE, .comparator = p->comparator, .space = to.namespace, .name = to.name});
}

/* A body without `::`: categories or identifiers. */
static bool read_plain(struct reader *r) {
    struct piece p = read_piece(r);
    struct span before, after;
    bool categories = is_bare(&p) && split_at_colon(p.text, &before, &after) && is_word(before, "Category");
    if (categories) put_category(r, after, true);
    else put_identifier(r, &p);
    while (take(r, "||")) {
        p = read_piece(r);
        if (categories) put_category(r, p.text, is_bare(&p));
        else put_identifier(r, &p);
        put(r, (struct tree_node){.tag = BAR, .size = 1});
    }
    return take(r, "]]");
}

static bool read_term(struct reader *r, int depth) {
    skip_blanks(r);
    if (take(r, "<q>")) return read_subquery(r, depth);
    if (!take(r, "[[")) return false;
    size_t split = find_split(r);
    return split < r->text.len ? read_property(r, split, depth) : read_plain(r);
}

static bool read_conjunction(struct reader *r, int depth) {
    if (!read_term(r, depth)) return false;
    for (;;) {
        skip_blanks(r);
        if (!take(r, "AND") && !stands_at(r, r->at, "[[") && !stands_at(r, r->at, "<q>")) return true;
        size_t start = r->out->count;
        if (!read_term(r, depth)) return false;
        put_join(r, BOTH, start);
    }
}

static bool read_group(struct reader *r, int depth) {
    want(r, depth <= MOST_DEPTH, 14);
    if (!read_conjunction(r, depth)) return false;
    while (take(r, "OR")) {
        size_t start = r->out->count;
        if (!read_conjunction(r, depth)) return false;
        put_join(r, EITHER, start);
    }
    return true;
}

int read_query(struct span text, struct tree *out) {
    struct reader r = {text, 0, 0, out, {out->room}};
    out->count = 0;
    if (text.len > MOST_TEXT) return 12;
    if (!read_group(&r, 0) || r.at < text.len) return 13;
    return r.fault;
}
