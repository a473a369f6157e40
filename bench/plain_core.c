/* The held query, which lies as docs/LAYOUT.md says: the nodes of a core query, then their names and strings. */
#include "plain_form.h"

enum { NODES = 2, NODES_END = NODES + NODE_BYTES * MOST_NODES, HEAP_BYTES = PLAIN_QUERY_BYTES - NODES_END };

/* Where the next string goes. */
struct heap {
    uint8_t *at;
    size_t len;
};

static void put_bytes(struct span part, struct heap *heap) {
    copy_bytes(heap->at + heap->len, part.at, part.len);
    heap->len += part.len;
}

static void put_string(uint8_t *at, struct span part, struct heap *heap) {
    put_two(at, (unsigned)heap->len);
    put_two(at + 2, (unsigned)part.len);
    put_bytes(part, heap);
}

/* A span's bytes, as far as the heap has them. */
static struct span span_at(const uint8_t *at, struct span heap) {
    size_t start = two(at), len = two(at + 2);
    if (start > heap.len) start = heap.len;
    return span_of(heap.at + start, len < heap.len - start ? len : heap.len - start);
}

/* Behind the property's name, which is put: one span over that and the namespace, another over the article name. */
static void write_link(const struct node *node, uint8_t *at, struct heap *heap) {
    const struct reference *to = &node->constant.page;
    at[1] = (uint8_t)node->as_written;
    at[2] = to->written ? (uint8_t)(to->namespace.len + 1) : 0;
    put_bytes(to->namespace, heap);
    put_two(at + 6, (unsigned)(node->name.len + to->namespace.len));
    put_string(at + 8, to->name, heap);
}

static void write_node(const struct node *node, uint8_t *at, struct heap *heap) {
    memset(at, 0, NODE_BYTES);
    at[0] = (uint8_t)node->tag;
    at[1] = (uint8_t)node->comparator;
    if (node->tag > OR) put_string(at + (node->tag == ARTICLE ? 8 : 4), node->name, heap);
    if (node->tag == LINK) write_link(node, at, heap);
    if (node->tag != VALUE) return;
    at[2] = (uint8_t)node->constant.kind;
    if (node->constant.kind == STRING) put_string(at + 8, node->constant.string, heap);
    else put_eight(at + 12, node->constant.code);
}

/* Names and strings have at most 64 bytes each, so that the heap has room for those of 256 nodes. */
void write_query(const struct core *core, uint8_t *held) {
    struct heap heap = {held + NODES_END, 0};
    uint8_t *at = held + NODES;
    put_two(held, (unsigned)core->count);
    for (size_t i = 0; i < core->count; i++, at += NODE_BYTES) write_node(&core->node[i], at, &heap);
    memset(at, 0, (size_t)(held + NODES_END - at));
    memset(heap.at + heap.len, 0, HEAP_BYTES - heap.len);
}

static bool read_constant(const uint8_t *at, struct span heap, struct value *out) {
    out->kind = (enum kind)at[2];
    out->code = eight(at + 12);
    out->string = span_at(at + 8, heap);
    switch (at[2]) {
    case NUMBER: return 0 < out->code && out->code < 2 * BIAS;
    case BOOLEAN: return out->code <= 1;
    case STRING: return is_value(out->string);
    default: return false;
    }
}

/* A namespace is what the first span ends with, by one byte fewer than byte 2 says. */
static bool read_link(const uint8_t *at, struct span heap, struct node *out) {
    struct reference *to = &out->constant.page;
    struct span both = out->name;
    size_t len = two(at + 6), space = at[2] == 0 ? 0 : at[2] - 1u, end = len < space ? 0 : len - space;
    if (end > both.len) end = both.len;
    out->as_written = (enum written)at[1];
    out->name = span_of(both.at, end);
    *to = (struct reference){span_of(both.at + end, both.len - end), span_at(at + 8, heap), at[2] > 0};
    return at[1] <= AT_MOST && is_property_name(out->name) && is_namespace(to->namespace) && is_name(to->name);
}

static bool read_node(const uint8_t *at, struct span heap, struct node *out) {
    if (at[0] > LINK) return false;
    out->tag = (enum node_tag)at[0];
    out->comparator = (enum comparator)at[1];
    out->name = span_at(at + (out->tag == ARTICLE ? 8 : 4), heap);
    bool compares = at[1] <= LESS;
    switch (out->tag) {
    case AND: case OR: return true;
    case CATEGORY: return is_name(out->name);
    case NAMESPACE: return is_namespace(out->name);
    case EXISTENCE: case SUBQUERY: return is_property_name(out->name);
    case ARTICLE: return compares && is_name(out->name);
    case LINK: return read_link(at, heap, out);
    default: return compares && is_property_name(out->name) && read_constant(at, heap, &out->constant);
    }
}

bool open_query(const uint8_t *held, size_t len, struct core *out) {
    if (len < PLAIN_QUERY_BYTES) return false;
    size_t height = 0;
    struct span heap = span_of(held + NODES_END, HEAP_BYTES);
    out->count = two(held);
    if (out->count < 1 || out->count > MOST_NODES) return false;
    for (size_t i = 0; i < out->count; i++) {
        struct node *node = &out->node[i];
        if (!read_node(held + NODES + NODE_BYTES * i, heap, node)) return false;
        size_t taken = node->tag <= OR ? 2 : node->tag == SUBQUERY;
        if (height < taken) return false;
        height += 1 - taken;
    }
    return height == 1;
}
