/* The held tree, which lies as docs/LAYOUT.md says: written, and tested in one pass over its nodes. */
#include "plain.h"
#include "plain_parts.h"

enum { NODES = 2, NODE_ROW = 6, NODES_END = NODES + NODE_ROW * MOST_TREE, HEAP_BYTES = PLAIN_TREE_BYTES - NODES_END };

static bool has_string(enum tree_tag tag) { return tag > BAR && tag != EXISTS && tag != INNER; }

static size_t put_span(uint8_t *heap, size_t at, struct span part) {
    copy_bytes(heap + at, part.at, part.len);
    return at + part.len;
}

void write_tree(const struct tree *tree, uint8_t *held) {
    uint8_t *row = held + NODES, *heap = held + NODES_END;
    size_t at = 0;
    put_two(held, (unsigned)tree->count);
    for (size_t i = 0; i < tree->count; i++, row += NODE_ROW) {
        const struct tree_node *n = &tree->node[i];
        row[0] = (uint8_t)n->tag;
        row[1] = (uint8_t)n->comparator;
        put_two(row + 2, has_string(n->tag) ? (unsigned)at : n->size);
        row[4] = (uint8_t)n->space.len;
        row[5] = (uint8_t)n->name.len;
        at = put_span(heap, put_span(heap, at, n->space), n->name);
    }
    memset(row, 0, (size_t)(heap - row));
    memset(heap + at, 0, HEAP_BYTES - at);
}

int32_t plain_read(const uint8_t *text, size_t text_len, uint8_t *tree, size_t tree_len) {
    struct tree nodes;
    int number = read_query(span_of(text, text_len), &nodes);
    if (number == 0 && tree_len < PLAIN_TREE_BYTES) number = 33;
    if (number == 0) write_tree(&nodes, tree);
    return -number;
}

/* The rows as they lie: a node's strings begin where those before it end, and what it does not use is 0. */
static bool read_rows(const uint8_t *held, struct tree *out) {
    const uint8_t *row = held + NODES, *heap = held + NODES_END;
    size_t at = 0;
    for (size_t i = 0; i < out->count; i++, row += NODE_ROW) {
        unsigned tag = row[0], number = two(row + 2), space = row[4], name = row[5];
        bool compares = tag == BARE || tag == QUALIFIED || tag == PIECE;
        if (tag > THROUGH || row[1] > (compares ? AT_MOST : 0) || at + space + name > HEAP_BYTES) return false;
        if (tag > BAR && number != (has_string((enum tree_tag)tag) ? at : 0)) return false;
        if (space > 0 && tag != NAMESPACE_IS && tag != QUALIFIED) return false;
        if (name > 0 && (tag == NAMESPACE_IS || !has_string((enum tree_tag)tag))) return false;
        out->node[i] = (struct tree_node){(enum tree_tag)tag, (enum written)row[1], number, span_of(heap + at, space), span_of(heap + at + space, name)};
        at += space + name;
    }
    return are_zero(row, (size_t)(heap - row)) && are_zero(heap + at, HEAP_BYTES - at);
}

/* What nodes spell. A bracket of categories or of identifiers may still grow by `||`; alternatives wait for their property. */
enum shape { CATEGORIES, IDENTIFIERS, ALTERNATIVES, CHAIN, CONJUNCTION, DISJUNCTION };

struct part {
    enum shape shape;
    unsigned size, cost, depth; /* in nodes, and the bytes and the depth of the shortest text */
    unsigned names;             /* of a chain */
    bool many;                  /* alternatives, not one */
};

enum { GROUP = 7, CATEGORY_BRACKET = 13, BRACKET = 4, PROPERTY_BRACKET = 6 };

static unsigned word_length(enum written c) { return c == SAME ? 0 : c == ABOVE || c == BELOW ? 2 : 1; }

static struct part leaf(enum shape shape, size_t cost) { return (struct part){.shape = shape, .size = 1, .cost = (unsigned)cost}; }

static bool keeps_reference(const struct tree_node *n) { return is_namespace(n->space) && is_name(n->name); }

static bool keeps_piece(const struct tree_node *n) {
    return is_value(n->name) && !(n->comparator == SAME && (n->name.at[0] == '!' || is_word(n->name, "+")));
}

static bool put_leaf(const struct tree_node *n, struct part *out) {
    size_t word = word_length(n->comparator);
    switch (n->tag) {
    case CATEGORY_IS: return *out = leaf(CATEGORIES, CATEGORY_BRACKET + n->name.len), is_name(n->name);
    case NAMESPACE_IS: return *out = leaf(IDENTIFIERS, BRACKET + n->space.len + 2), is_namespace(n->space);
    case BARE: return *out = leaf(IDENTIFIERS, BRACKET + word + n->name.len), is_name(n->name);
    case QUALIFIED: return *out = leaf(IDENTIFIERS, BRACKET + word + n->space.len + 1 + n->name.len), keeps_reference(n);
    case EXISTS: return *out = leaf(ALTERNATIVES, 1), true;
    default: return *out = leaf(ALTERNATIVES, word + n->name.len), keeps_piece(n);
    }
}

/* Below a subquery, a property or one name more of its chain. */
static bool put_over(const struct tree_node *n, struct part *p) {
    p->size++;
    p->many = false;
    if (n->tag == INNER) {
        if (p->shape == ALTERNATIVES) return false;
        p->shape = ALTERNATIVES, p->cost += GROUP, p->depth++;
        return true;
    }
    if (p->shape != (n->tag == PROPERTY ? ALTERNATIVES : CHAIN)) return false;
    p->cost += (unsigned)n->name.len + (n->tag == PROPERTY ? PROPERTY_BRACKET : 1);
    p->names = n->tag == PROPERTY ? 1 : p->names + 1;
    p->shape = CHAIN;
    return p->names <= MOST_CHAIN && is_property_name(n->name);
}

static void group(struct part *p) { p->cost += GROUP, p->depth++; }

static bool put_two_parts(const struct tree_node *n, struct part *a, struct part b) {
    static const unsigned brackets[] = {[CATEGORIES] = CATEGORY_BRACKET, [IDENTIFIERS] = BRACKET, [ALTERNATIVES] = 0};
    if (n->size != b.size) return false;
    if (n->tag == BAR) {
        if (a->shape != b.shape || b.shape > ALTERNATIVES || b.many) return false;
        a->cost += 2, b.cost -= brackets[b.shape];
    } else {
        if (a->shape == ALTERNATIVES || b.shape == ALTERNATIVES) return false;
        if (n->tag == BOTH && a->shape == DISJUNCTION) group(a);
        if (b.shape == DISJUNCTION || (n->tag == BOTH && b.shape == CONJUNCTION)) group(&b);
        if (n->tag == EITHER) a->cost += 2;
        a->shape = n->tag == BOTH ? CONJUNCTION : DISJUNCTION;
    }
    a->many = true;
    a->cost += b.cost, a->size += b.size + 1;
    if (a->depth < b.depth) a->depth = b.depth;
    return true;
}

/* A first piece that would be read as a category: it is followed by nothing or by the `||` that joins it to what comes behind it. */
static bool says_category(const struct tree_node *n) {
    return n->comparator == SAME && (n->tag == NAMESPACE_IS || n->tag == QUALIFIED) && is_word(n->space, "Category");
}

static bool is_second(const struct tree *tree, size_t i) { return i + 1 < tree->count && tree->node[i + 1].tag == BAR; }

static bool put_node(const struct tree *tree, size_t i, struct part *stack, size_t *height) {
    const struct tree_node *n = &tree->node[i];
    if (n->tag <= BAR) return *height >= 2 && (--*height, put_two_parts(n, &stack[*height - 1], stack[*height]));
    if (n->tag >= INNER) return *height >= 1 && put_over(n, &stack[*height - 1]);
    if (says_category(n) && !is_second(tree, i)) return false;
    return put_leaf(n, &stack[(*height)++]);
}

bool open_held_tree(const uint8_t *held, size_t len, struct tree *out) {
    struct part stack[MOST_TREE];
    size_t height = 0;
    if (len < PLAIN_TREE_BYTES || two(held) > MOST_TREE) return false;
    out->count = two(held);
    if (!read_rows(held, out)) return false;
    for (size_t i = 0; i < out->count; i++)
        if (!put_node(out, i, stack, &height)) return false;
    return height == 1 && stack[0].shape != ALTERNATIVES && stack[0].cost <= MOST_TEXT && stack[0].depth <= MOST_DEPTH;
}
