/* What the files of the plain implementation share: names, values, and queries. */
#ifndef PLAIN_PARTS_H
#define PLAIN_PARTS_H

#include "plain_bytes.h"

/* Bytes of a text that is lent. */
struct span {
    const uint8_t *at;
    size_t len;
};

static inline struct span span_of(const uint8_t *at, size_t len) { return (struct span){at, len}; }
static inline bool same(struct span a, struct span b) { return a.len == b.len && same_bytes(a.at, b.at, a.len); }
static inline int order_spans(struct span a, struct span b) { return order_bytes(a.at, a.len, b.at, b.len); }

enum kind { PAGE, NUMBER, BOOLEAN, STRING };
enum comparator { EQUAL, UNEQUAL, GREATER, LESS };

struct reference {
    struct span namespace, name;
    bool written; /* has a colon */
};

/* A value by its kind: a number as thousandths with BIAS added, a boolean as 0 or 1, a string, a page. */
struct value {
    enum kind kind;
    uint64_t code;
    struct span string;
    struct reference page;
};

#define BIAS 1000000000000000000u

/* Which rules a text keeps: that for names, for values, for property names. These are names as forms hold them, composed. */
enum { IS_NAME = 1, IS_VALUE = 2, IS_PROPERTY = 4 };
uint8_t rules_of(struct span s);
bool is_name(struct span s);
bool is_namespace(struct span s);
bool is_property_name(struct span s);
bool is_value(struct span s);

/* Where the composed forms go of names that are typed with marks. They are shorter, so that a text's length is room for all of its names. */
struct room {
    uint8_t *at;
};

/* A name as it is typed: false where it breaks its rule, else it is composed. */
bool compose_name(struct span *s, struct room *room);
bool compose_namespace(struct span *s, struct room *room);
bool compose_property_name(struct span *s, struct room *room);

struct span trimmed(struct span s);
bool is_word(struct span s, const char *word);
bool split_at_colon(struct span s, struct span *before, struct span *after);
/* The names of a page are composed. */
bool read_reference(struct span s, struct room *room, struct reference *out);
bool read_value(enum kind kind, struct span s, struct room *room, struct value *out);

/* Whether what is ordered so against a constant stands to it as the comparator says. */
static inline bool stands(int order, enum comparator c) {
    switch (c) {
    case EQUAL: return order == 0;
    case UNEQUAL: return order != 0;
    case GREATER: return order > 0;
    default: return order < 0;
    }
}

/* Surface queries: what a text says before a register is known, in postfix order, each node behind what it is made of. */
enum tree_tag { BOTH, EITHER, BAR, CATEGORY_IS, NAMESPACE_IS, BARE, QUALIFIED, EXISTS, PIECE, INNER, PROPERTY, THROUGH };
/* As it is written: `>` is AT_LEAST, `>>` is ABOVE. The first four are those of a core query. */
enum written { SAME, OTHER, ABOVE, BELOW, AT_LEAST, AT_MOST };

static inline bool stands_as_written(int order, enum written c) {
    return c < AT_LEAST ? stands(order, (enum comparator)c) : c == AT_LEAST ? order >= 0 : order <= 0;
}

/* Whether a reference asks for a namespace: its own, or main where none is written. */
static inline bool asks_namespace(enum written c, bool written) { return written ? c != OTHER : c == SAME; }

struct tree_node {
    enum tree_tag tag;
    enum written comparator;
    unsigned size;           /* of the second of two: how many nodes it takes up */
    struct span space, name; /* name: of a category, article or property, composed, or a piece as it is typed */
};

enum { MOST_TREE = 681, MOST_NODES = 256, MOST_DEPTH = 8, MOST_CHAIN = 8, MOST_TEXT = 1024, NODE_BYTES = 20 };

struct tree {
    size_t count;
    struct tree_node node[MOST_TREE];
    uint8_t room[MOST_TEXT]; /* for names that were typed with marks */
};

/* Returns 0 or a refusal from 12 to 16. */
int read_query(struct span text, struct tree *out);
void write_tree(const struct tree *tree, uint8_t *held);
/* Whether bytes are the tree of some text that is read. */
bool open_held_tree(const uint8_t *held, size_t len, struct tree *out);

/* Core queries: nodes in postfix order. */
enum node_tag { AND, OR, CATEGORY, NAMESPACE, EXISTENCE, SUBQUERY, ARTICLE, VALUE, LINK };

struct node {
    enum node_tag tag;
    enum comparator comparator;
    enum written as_written; /* the comparator of a link */
    struct span name;        /* category, namespace, property or article */
    struct value constant;   /* of a link its reference, as a page */
};

struct core {
    size_t count; /* may be over MOST_NODES; the nodes past it are not kept */
    struct node node[MOST_NODES];
};

void write_query(const struct core *core, uint8_t *held);
bool open_query(const uint8_t *held, size_t len, struct core *out);

#endif
