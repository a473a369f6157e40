/* One run of each call, which is what is timed. */
#include "bench.h"

void make_register(const struct work *w) {
    static uint8_t held[HELD_BYTES];
    if (w->calls == NULL) base_free(base_load(w->text, w->len));
    else if (w->calls->reg(w->text, w->len, held, w->calls->held) != 0) stop("a register is refused");
}

void make_query(const struct work *w) {
    static uint8_t query[QUERY_BYTES];
    if (w->calls == NULL) statement_free(base_prepare(w->base, w->question->sql));
    else if (w->calls->query(w->held, w->calls->held, w->text, w->len, query, sizeof query) != 0) stop("a query is refused");
}

void make_tree(const struct work *w) {
    static uint8_t tree[TREE_BYTES];
    if (w->calls->read(w->text, w->len, tree, sizeof tree) != 0) stop("a text is refused");
}

void fit_tree(const struct work *w) {
    static uint8_t query[QUERY_BYTES];
    if (w->calls->fit(w->tree, TREE_BYTES, w->held, w->calls->held, query, sizeof query) != 0) stop("a tree is refused");
}

void make_and_fit(const struct work *w) {
    static uint8_t tree[TREE_BYTES];
    struct work made = *w;
    if (w->calls->read(w->text, w->len, tree, sizeof tree) != 0) stop("a text is refused");
    made.tree = tree;
    fit_tree(&made);
}

int32_t ask_marks(const struct work *w, uint8_t marks[MARK_BYTES]) {
    if (w->calls == NULL) return statement_run(w->statement, marks);
    return w->calls->ask(w->query, QUERY_BYTES, w->held, w->calls->held, marks, MARK_BYTES);
}

void run_query(const struct work *w) {
    static uint8_t marks[MARK_BYTES];
    if (ask_marks(w, marks) < 0) stop("an ask is refused");
}

void make_join(const struct work *w) {
    static uint8_t held[HELD_BYTES];
    if (w->calls->join(w->held, w->calls->held, w->second, w->calls->held, held, w->calls->held) != 0) stop("a join is refused");
}

void test_form(const struct work *w) {
    if (!w->calls->test(w->held, w->calls->held)) stop("a form is refused");
}
