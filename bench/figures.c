/* The figures that the proved library is to keep: what was found, what is wanted, and whether it is met. */
#include <stdio.h>
#include <string.h>

#include "bench.h"

static int missed;

void print_figure(const char *what, const char *where, double found, int most, double wanted) {
    int met = most ? found <= wanted : found >= wanted;
    missed += !met;
    printf("| %s | %s | %.*f | %s %g | %s |\n", what, where, wanted < 100 ? 2 : 0, found, most ? "at most" : "at least", wanted, met ? "met" : "missed");
}

static const struct row *row_at(const char *subject, enum call call, const char *label) {
    for (size_t i = 0; i < row_count; i++) {
        const struct row *row = &rows[i];
        if (strcmp(row->subject, subject) == 0 && row->call == call && (label == NULL || strcmp(row->label, label) == 0)) return row;
    }
    stop("no such row");
}

/* The largest ratio to the plain implementation, over the rows of a call on one register, or on all. */
static void figure_beside_plain(enum call call, const char *subject, const char *what) {
    const struct row *worst = NULL;
    char name[160];
    for (size_t i = 0; i < row_count; i++) {
        const struct row *row = &rows[i];
        if (subject != NULL && strcmp(row->subject, subject) != 0) continue;
        if (row->call == call && (worst == NULL || row->us[PROVED] / best_plain(row) > worst->us[PROVED] / best_plain(worst))) worst = row;
    }
    if (worst != NULL) print_figure(what, row_name(worst, name), worst->us[PROVED] / best_plain(worst), 1, 2);
}

static void figures_of_asks(void) {
    static const char *const labels[] = {"category", "number comparison", "chain of 8 names"};
    char name[160];
    for (size_t i = 0; i < 3 && is_built(FIRST); i++) {
        const struct row *row = row_at("full", ASK, labels[i]);
        print_figure("times faster than the first handover", row_name(row, name), row->us[FIRST] / row->us[PROVED], 0, 5);
    }
    for (size_t i = 1; i < 3; i++) {
        const struct row *row = row_at("full", ASK, labels[i]);
        print_figure("times faster than SQLite's stepping", row_name(row, name), row->us[SQLITE] / row->us[PROVED], 0, 1);
    }
}

/* The slowest call of a kind on the inputs that must not be slow, beside one on the full register. */
static void figure_of_worst(enum call call, const char *what, const struct row *full, double wanted) {
    const struct row *worst = NULL;
    char name[160];
    for (size_t i = 0; i < row_count; i++)
        if (rows[i].worst && rows[i].call == call && (worst == NULL || rows[i].us[PROVED] > worst->us[PROVED])) worst = &rows[i];
    if (worst != NULL) print_figure(what, row_name(worst, name), worst->us[PROVED] / full->us[PROVED], 1, wanted);
}

/* The largest of the first handover's calls, measured here or else as docs/BENCHMARKS.md had it then. */
static void figure_of_stacks(const struct stacks *stacks) {
    enum call worst = REGISTER;
    size_t wanted = 659424;
    if (is_built(FIRST)) wanted = stacks->of[FIRST][ASK];
    for (enum call call = REGISTER; call <= JOIN; call++)
        if (stacks->of[PROVED][call] > stacks->of[PROVED][worst]) worst = call;
    print_figure("largest stack of any call, bytes", call_names[worst], (double)stacks->of[PROVED][worst], 1, (double)wanted);
}

void print_figures(const struct stacks *stacks) {
    puts("| figure | where | found | wanted | |\n|---|---|---|---|---|");
    static const char *const full[] = {"register call beside the plain implementation, full register", "read calls, full register", "fit calls, full register",
                                       "query calls, full register", "ask calls, full register", "join, full register"};
    static const char *const all[] = {"register calls beside the plain implementation, any register", "read calls, any register", "fit calls, any register",
                                      "query calls, any register", "ask calls, any register", "joins, any register"};
    for (enum call call = REGISTER; call <= JOIN; call++) figure_beside_plain(call, "full", full[call]);
    for (enum call call = REGISTER; call <= JOIN; call++) figure_beside_plain(call, NULL, all[call]);
    figures_of_asks();
    figure_of_worst(ASK, "asks of the worst inputs beside the full register's of a category", row_at("full", ASK, "category"), 6);
    figure_of_worst(REGISTER, "register calls on the worst inputs beside the full register's", row_at("full", REGISTER, NULL), 4);
    figure_of_worst(JOIN, "joins of the worst inputs beside the full register's", row_at("full", JOIN, NULL), 4);
    figure_of_links();
    figure_of_stacks(stacks);
    figures_before();
    printf("\n%d figures missed", missed);
    if (!is_built(FIRST)) printf("; the first handover is not in this run (FIRST=PATH)");
    if (!is_before_built()) printf("; the library before it composed names is not in this run (BEFORE=PATH)");
    puts(".");
}
