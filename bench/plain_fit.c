/* A tree fitted to a register's kinds: the core query, and the calls that make its form. */
#include "plain_form.h"

struct fitter {
    const struct tree *tree;
    const struct view *v;
    uint8_t prop[MOST_TREE]; /* the number of the property that a node names */
    bool unfit;
    struct core *out;
    struct room room;
};

static void emit(struct fitter *f, struct node node) {
    if (f->out->count < MOST_NODES) f->out->node[f->out->count] = node;
    f->out->count++;
}

static void emit_join(struct fitter *f, enum node_tag tag) { emit(f, (struct node){.tag = tag}); }

/* The node with the comparator as it is written: one node, or strict OR equal. */
static void emit_compared(struct fitter *f, enum written c, struct node node) {
    static const enum comparator strict[] = {EQUAL, UNEQUAL, GREATER, LESS, GREATER, LESS};
    node.comparator = strict[c];
    emit(f, node);
    if (c < AT_LEAST) return;
    node.comparator = EQUAL;
    emit(f, node);
    emit_join(f, OR);
}

static void emit_reference(struct fitter *f, enum written c, bool written, struct span space, struct span name) {
    bool in_namespace = asks_namespace(c, written);
    if (in_namespace) emit(f, (struct node){.tag = NAMESPACE, .name = space});
    emit_compared(f, c, (struct node){.tag = ARTICLE, .name = name});
    if (in_namespace) emit_join(f, AND);
}

static struct span prop_name(const struct fitter *f, unsigned prop) { return name_in(text_at(f->v, prop_text(f->v, prop))); }

static void emit_subquery(struct fitter *f, unsigned prop) {
    f->unfit |= kind_at(f->v, prop) != PAGE;
    emit(f, (struct node){.tag = SUBQUERY, .name = prop_name(f, prop)});
}

static void emit_piece(struct fitter *f, const struct tree_node *n, unsigned prop) {
    struct node node = {.tag = VALUE, .name = prop_name(f, prop)};
    if (!read_value(kind_at(f->v, prop), n->name, &f->room, &node.constant)) {
        f->unfit = true;
    } else if (node.constant.kind == PAGE) {
        node.tag = LINK, node.as_written = n->comparator;
        emit(f, node);
    } else {
        emit_compared(f, n->comparator, node);
    }
}

static void emit_node(struct fitter *f, const struct tree_node *n, unsigned prop) {
    switch (n->tag) {
    case BOTH: emit_join(f, AND); break;
    case EITHER: case BAR: emit_join(f, OR); break;
    case CATEGORY_IS: emit(f, (struct node){.tag = CATEGORY, .name = n->name}); break;
    case NAMESPACE_IS: emit(f, (struct node){.tag = NAMESPACE, .name = n->space}); break;
    case BARE: case QUALIFIED: emit_reference(f, n->comparator, n->tag == QUALIFIED, n->space, n->name); break;
    case EXISTS: emit(f, (struct node){.tag = EXISTENCE, .name = prop_name(f, prop)}); break;
    case PIECE: emit_piece(f, n, prop); break;
    case INNER: case THROUGH: emit_subquery(f, prop); break;
    case PROPERTY: break;
    }
}

/* What ends at node i, for the property whose alternative it is. Only from the left do queries nest deeper than a text does. */
static void emit_tree(struct fitter *f, size_t i, unsigned prop) {
    const struct tree_node *n = &f->tree->node[i];
    if (n->tag <= BAR) emit_tree(f, i - 1 - n->size, prop);
    if (n->tag <= BAR || n->tag == INNER) emit_tree(f, i - 1, prop);
    if (n->tag == PROPERTY || n->tag == THROUGH) emit_tree(f, i - 1, prop = f->prop[i]);
    emit_node(f, n, prop);
}

static bool find_props(struct fitter *f) {
    for (size_t i = 0; i < f->tree->count; i++) {
        const struct tree_node *n = &f->tree->node[i];
        if (n->tag < PROPERTY) continue;
        int prop = find_prop(f->v, n->name);
        if (prop < 0) return false;
        f->prop[i] = (uint8_t)prop;
    }
    return true;
}

/* Returns 0 or a refusal from 17 to 20. */
static int fit(const struct tree *tree, const struct view *v, uint8_t *held, size_t len) {
    struct core core;
    uint8_t room[MOST_TEXT];
    struct fitter f = {.tree = tree, .v = v, .out = &core, .room = {room}};
    core.count = 0;
    if (!find_props(&f)) return 17;
    emit_tree(&f, tree->count - 1, 0);
    if (f.unfit) return 18;
    if (core.count > MOST_NODES) return 19;
    if (len < PLAIN_QUERY_BYTES) return 20;
    write_query(&core, held);
    return 0;
}

int32_t plain_query(const uint8_t *held_register, size_t held_register_len, const uint8_t *text, size_t text_len,
                    uint8_t *held_query, size_t held_query_len) {
    struct view v;
    struct tree tree;
    if (!open_register(held_register, held_register_len, &v)) return -11;
    int number = read_query(span_of(text, text_len), &tree);
    return -(number != 0 ? number : fit(&tree, &v, held_query, held_query_len));
}

int32_t plain_fit(const uint8_t *tree, size_t tree_len, const uint8_t *held_register, size_t held_register_len, uint8_t *held_query,
                  size_t held_query_len) {
    struct view v;
    struct tree nodes;
    if (!open_register(held_register, held_register_len, &v)) return -11;
    return -(open_held_tree(tree, tree_len, &nodes) ? fit(&nodes, &v, held_query, held_query_len) : 34);
}
