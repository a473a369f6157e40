/* The calls that make a form, each with what else holds of it: its bytes, buffers that are too short, and inputs that are. */
#include <string.h>

#include "calls.h"

unsigned long records;

size_t longer(size_t size) { return records % 3 == 0 ? size + 1 + records % 61 : size; }

/* A register is lent so in every fifth record, a query in every seventh, a tree in every eighth. */
struct bytes lent(const struct form *form) {
    unsigned long every = form->len == HELD ? 5 : form->len == QUERY ? 7 : form->len == TREE ? 8 : 0;
    return (struct bytes){form->at, every > 0 && records % every == 0 ? form->len + 1 + records % (BEHIND - 1) : form->len};
}

struct bytes cut(const struct form *form) { return (struct bytes){form->at, form->len - 1}; }

struct bytes whole(const struct form *form) { return (struct bytes){form->at, form->len}; }

static uint8_t behind(void) { return (uint8_t)(records % 255 + 1); }

void expect(const char *what, int32_t number, int32_t wanted) {
    if (number != wanted) fault(what, number);
}

static void check_same(const char *what, const uint8_t *made, const uint8_t *wanted, size_t size) {
    if (memcmp(made, wanted, size) == 0) return;
    size_t at = 0;
    while (made[at] == wanted[at]) at++;
    fault(what, (long)at);
}

/* A form that was made has some bytes behind it that do not count. */
static void end_form(struct form *made, size_t size) {
    made->len = size;
    memset(made->at + size, behind(), BEHIND);
}

void check_form(const char *what, int32_t number, struct form *made, size_t size, struct bytes wanted) {
    static struct form form;
    end_form(made, size);
    if (number == 0 && wanted.len == 0) fault(what, 0);
    if (number != 0 || wanted.len == 0) return;
    unpack(wanted, &form);
    check_same(what, made->at, form.at, size);
}

/* Lends too little first: the number for that comes only where no lower one holds. */
int32_t make_register(struct bytes text, struct bytes wanted, struct form *form) {
    int32_t number = register_call(text, longer(HELD), form->at);
    expect("register, one byte short", register_call(text, HELD - 1, NULL), number == 0 ? -8 : number);
    if (records % 4 == 0) expect("register, no buffer", register_call(text, 0, NULL), number == 0 ? -8 : number);
    check_form("another form of a text", number, form, HELD, wanted);
    return number;
}

int32_t make_join(const struct form *first, const struct form *second, struct bytes wanted, struct form *form) {
    struct bytes a = lent(first), b = lent(second);
    int32_t number = join_call(a, b, longer(HELD), form->at);
    expect("join, one byte short", join_call(a, b, HELD - 1, NULL), number == 0 ? -8 : number);
    if (records % 4 == 0) {
        expect("join, no buffer", join_call(a, b, 0, NULL), number == 0 ? -8 : number);
        expect("join, short first", join_call(cut(first), b, HELD, NULL), -22);
        expect("join, short second", join_call(a, cut(second), HELD - 1, NULL), -22);
    }
    check_form("another form of a join", number, form, HELD, wanted);
    return number;
}

void make_tree(struct bytes text, struct bytes wanted, struct reading *out) {
    int32_t number = out->number = read_call(text, longer(TREE), out->tree.at);
    expect("read, one byte short", read_call(text, TREE - 1, NULL), number == 0 ? -33 : number);
    if (records % 4 == 0) expect("read, no buffer", read_call(text, 0, NULL), number == 0 ? -33 : number);
    check_form("another tree of a text", number, &out->tree, TREE, wanted);
}

/* The tree fitted: the query call's number, and its bytes where that is 0. */
static void fit_again(const struct form *held, const struct form *tree, int32_t number, const struct form *made) {
    static struct form again;
    struct bytes t = lent(tree), h = lent(held);
    expect("fit, and not the query's number", fit_call(t, h, longer(QUERY), again.at), number);
    if (number == 0) check_same("fit, and not the query's bytes", again.at, made->at, QUERY);
    expect("fit, one byte short", fit_call(t, h, QUERY - 1, NULL), number == 0 ? -20 : number);
    if (records % 4 != 0) return;
    expect("fit, no buffer", fit_call(t, h, 0, NULL), number == 0 ? -20 : number);
    expect("fit, short tree", fit_call(cut(tree), h, QUERY, NULL), -34);
    expect("fit, short held register", fit_call(t, cut(held), QUERY, NULL), -11);
    expect("fit, no held forms", fit_call((struct bytes){t.at, 0}, (struct bytes){h.at, 0}, 0, NULL), -11);
}

int32_t make_query(const struct form *held, struct bytes text, const struct reading *reading, struct form *made) {
    struct bytes h = lent(held);
    int32_t number = query_call(h, text, longer(QUERY), made->at);
    end_form(made, QUERY);
    expect("query, one byte short", query_call(h, text, QUERY - 1, NULL), number == 0 ? -20 : number);
    if (records % 4 == 0) {
        expect("query, short held register", query_call(cut(held), text, QUERY, NULL), -11);
        expect("query, no buffer", query_call(h, text, 0, NULL), number == 0 ? -20 : number);
    }
    if (reading->number == 0) fit_again(held, &reading->tree, number, made);
    else expect("query, and not reading's number", number, reading->number);
    return number;
}
