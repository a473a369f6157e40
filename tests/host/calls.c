/* Makes the calls on each record of a file and prints a line of what they answer; tests/host/calls.py writes the file and knows the
 * answers. A record's letter, and its parts:
 *
 *   C  register text, query text, second register text, the forms of both and of their join, the pages of each, the tree and the held query
 *      of the query text, number of forgeries: the calls one after the other
 *   R  register text, buffer length
 *   T  query text, buffer length, its tree
 *   F  held tree, held register, buffer length, the held query of both
 *   Q  held register, query text, buffer length
 *   A  held query, held register, buffer length, pages
 *   J  two held registers, buffer length, the form of both
 *   D  held query, query text, held register, edits: each changes one byte of the held register
 *   E  held tree, held register, edits: each changes one byte of the tree
 *
 * A form that is made is empty where the call refuses. */
#include <stdio.h>
#include <stdlib.h>
#include <string.h>

#include "calls.h"

static void ask_short(struct bytes q, const struct form *held, size_t pages, int32_t number) {
    struct bytes h = lent(held);
    if (pages > 0) expect("ask, one byte short", ask_call(q, h, pages - 1, -1, NULL), number >= 0 ? -24 : number);
    if (records % 4 != 0) return;
    expect("ask, short held query", ask_call((struct bytes){q.at, QUERY - 1}, h, pages, -1, NULL), -21);
    expect("ask, short held register", ask_call(q, cut(held), pages, -1, NULL), -22);
    expect("ask, no held forms", ask_call((struct bytes){q.at, 0}, (struct bytes){h.at, 0}, 0, -1, NULL), -21);
}

void print_marks(int32_t number, const uint8_t *marks, size_t pages) {
    printf(" %d ", number);
    for (size_t i = 0; number >= 0 && i < pages; i++) putchar('0' + marks[i]);
    if (number < 0 || pages == 0) putchar('-');
}

static void run_query(const struct form *query, const struct form *held, struct bytes pages) {
    uint8_t marks[MOST_PAGES] = {0};
    struct bytes q = lent(query);
    size_t count = number_in(pages);
    int32_t number = ask_call(q, lent(held), longer(count), (long)count, marks);
    ask_short(q, held, count, number);
    print_marks(number, marks, count);
}

/* A join with what the register has already is the register. */
static void join_again(const struct form *one, const struct form *with) {
    static struct form again;
    expect("join, again", join_call(lent(one), lent(with), longer(HELD), again.at), 0);
    if (memcmp(again.at, one->at, HELD) != 0) fault("a join with what is there changes the form", 0);
}

/* Both registers as one. The query made for it is asked of it and of each of the two, and the query of the first, if it was made, of both. */
static void run_both(const struct record *r, const struct form *first, const struct form *second, const struct reading *reading,
                     const struct form *of_first) {
    static struct form both, query;
    int32_t number = make_join(first, second, r->part[5], &both);
    printf(" join %d", number);
    if (number != 0) return;
    if (records % 4 == 1) join_again(&both, first), join_again(&both, second), join_again(first, first), join_again(&both, &both);
    printf(" %d", number = make_query(&both, r->part[1], reading, &query));
    if (number == 0) run_query(&query, &both, r->part[8]);
    if (of_first != NULL) run_query(of_first, &both, r->part[8]);
    if (number == 0) run_query(&query, first, r->part[6]), run_query(&query, second, r->part[7]);
}

static void run_case(const struct record *r) {
    static struct form first, second, query;
    static struct reading reading;
    int32_t one = make_register(r->part[0], r->part[3], &first), two = make_register(r->part[2], r->part[4], &second), made = -1;
    printf("%d %d", one, two);
    make_tree(r->part[1], r->part[9], &reading);
    if (one == 0) printf(" %d", made = make_query(&first, r->part[1], &reading, &query));
    if (made == 0) {
        check_form("another form of a query", made, &query, QUERY, r->part[10]);
        run_query(&query, &first, r->part[6]);
    }
    if (made == 0 && two == 0) run_query(&query, &second, r->part[7]);
    if (one == 0 && two == 0) run_both(r, &first, &second, &reading, made == 0 ? &query : NULL);
    printf(" read %d", reading.number);
    struct accepted all = {&first, &reading.tree, &query, r->part[1]};
    if (made == 0) run_forgeries(&all, number_in(r->part[11]));
}

static void run_ask(const struct record *r) {
    static struct form query, held;
    uint8_t marks[MOST_PAGES + 1] = {0};
    uint32_t pages = number_in(r->part[3]);
    unpack(r->part[0], &query);
    unpack(r->part[1], &held);
    int32_t number = ask_call(whole(&query), whole(&held), number_in(r->part[2]), (long)pages, marks);
    print_marks(number, marks, pages);
}

static void run_join(const struct record *r) {
    static struct form first, second, both;
    unpack(r->part[0], &first);
    unpack(r->part[1], &second);
    int32_t number = join_call(whole(&first), whole(&second), number_in(r->part[2]), both.at);
    check_form("another form of a join", number, &both, HELD, r->part[3]);
    printf("%d", number);
}

static int32_t run_query_call(const struct record *r) {
    static struct form held;
    unpack(r->part[0], &held);
    return query_call(whole(&held), r->part[1], number_in(r->part[2]), NULL);
}

static int32_t run_read(const struct record *r) {
    static struct form tree;
    int32_t number = read_call(r->part[0], number_in(r->part[1]), tree.at);
    check_form("another tree of a text", number, &tree, TREE, r->part[2]);
    return number;
}

static int32_t run_fit(const struct record *r) {
    static struct form tree, held, query;
    unpack(r->part[0], &tree);
    unpack(r->part[1], &held);
    int32_t number = fit_call(whole(&tree), whole(&held), number_in(r->part[2]), query.at);
    check_form("another form of a fitted tree", number, &query, QUERY, r->part[3]);
    return number;
}

static void run_record(const struct record *r) {
    fence = records % FENCES;
    if (r->letter == 'C') run_case(r);
    if (r->letter == 'R') printf("%d", register_call(r->part[0], number_in(r->part[1]), NULL));
    if (r->letter == 'Q') printf("%d", run_query_call(r));
    if (r->letter == 'A') run_ask(r);
    if (r->letter == 'J') run_join(r);
    if (r->letter == 'T') printf("%d", run_read(r));
    if (r->letter == 'F') printf("%d", run_fit(r));
    if (r->letter == 'D') run_edits(r);
    if (r->letter == 'E') run_tree_edits(r);
    putchar('\n');
    records++;
}

static void print_seen(void) {
    static const char *const names[CALLS] = {"register", "read", "fit", "query", "ask", "join"};
    for (int call = 0; call < CALLS; call++) {
        printf("numbers %s", names[call]);
        for (int i = 0; i <= MOST_NUMBER; i++)
            if (seen[call][i] > 0) printf(" %d:%lu", i, seen[call][i]);
        putchar('\n');
    }
}

int main(int argc, char **argv) {
    FILE *in = argc == 2 ? fopen(argv[1], "rb") : NULL;
    struct record r;
    if (in == NULL || fseek(in, 0, SEEK_END) != 0) stop("no file");
    size_t size = (size_t)ftell(in);
    uint8_t *all = malloc(size + 1);
    rewind(in);
    if (all == NULL || fread(all, 1, size, in) != size) stop("bad file");
    fclose(in);
    for (struct bytes file = {all, size}; read_record(&file, &r);) run_record(&r);
    free(all);
    print_seen();
    printf("faults %lu\n", faults);
    return faults > 0;
}
