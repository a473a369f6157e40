/* The library as it was before it composed names, beside the library as it is. Both get the same texts. */
#include <stdio.h>
#include <string.h>

#include "bench.h"

enum { OLD, NEW, LIBRARIES, MOST_PAIRS = 64 };
static const struct calls *const library[LIBRARIES] = {&calls_before, &calls_of[PROVED]};

/* A row of the table, and the most that its ratio may be; 0 where nothing is asked of it. */
static struct pair {
    struct row row;
    double us[LIBRARIES], most;
} pairs[MOST_PAIRS];
static size_t pair_count;

static double ratio(const struct pair *pair) { return pair->us[NEW] / pair->us[OLD]; }

static void time_pair(struct row row, double most, void (*run)(const struct work *), const struct work w[LIBRARIES]) {
    static const int runs[LIBRARIES] = {1, 1};
    char name[160];
    if (pair_count == MOST_PAIRS) stop("too many rows");
    struct pair *pair = &pairs[pair_count++];
    *pair = (struct pair){.row = row, .most = most};
    time_in_turn(run, w, runs, LIBRARIES, PAIR_BATCHES, pair->us);
    printf("| %s | %.2f | %.2f | %.2f |\n", row_name(&row, name), pair->us[OLD], pair->us[NEW], ratio(pair));
    fflush(stdout);
}

static void check_same(const struct work w[LIBRARIES]) {
    uint8_t marks[LIBRARIES][MARK_BYTES] = {{0}};
    int32_t counts[LIBRARIES];
    for (int i = 0; i < LIBRARIES; i++) counts[i] = ask_marks(&w[i], marks[i]);
    if (counts[OLD] < 0 || counts[OLD] != counts[NEW] || memcmp(marks[OLD], marks[NEW], MARK_BYTES) != 0) stop("the marks differ");
}

static void time_question(struct row row, double most, const struct question *question, struct work w[LIBRARIES]) {
    static uint8_t query[LIBRARIES][QUERY_BYTES];
    for (int i = 0; i < LIBRARIES; i++) {
        w[i].text = (const uint8_t *)question->query, w[i].len = strlen(question->query), w[i].query = query[i];
        if (w[i].calls->query(w[i].held, w[i].calls->held, w[i].text, w[i].len, query[i], QUERY_BYTES) != 0) stop("a query is refused");
    }
    check_same(w);
    row.label = question->label;
    row.call = QUERY;
    time_pair(row, 0, make_query, w);
    row.call = ASK;
    time_pair(row, most, run_query, w);
}

void time_before(const char *subject, const struct register_text *text, const struct question *questions, size_t count, double most) {
    static uint8_t held[LIBRARIES][HELD_BYTES];
    struct work w[LIBRARIES];
    for (int i = 0; i < LIBRARIES; i++) {
        w[i] = (struct work){.calls = library[i], .text = text->at, .len = text->len, .held = held[i]};
        if (library[i]->reg(text->at, text->len, held[i], library[i]->held) != 0) stop("a register is refused");
    }
    time_pair((struct row){.subject = subject, .call = REGISTER}, most, make_register, w);
    for (size_t k = 0; k < count; k++) time_question((struct row){.subject = subject}, most, &questions[k], w);
}

void print_before_head(void) {
    printf("The library before it composed names, and as it is: batches of the two in turn, the fastest of %d.\n\n", PAIR_BATCHES);
    puts("| register, call | before | now | ratio |\n|---|---|---|---|");
}

static void figure_before(const struct row *of, enum call call, const char *what) {
    const struct pair *worst = NULL;
    char name[160];
    for (size_t i = 0; i < pair_count; i++) {
        const struct pair *pair = &pairs[i];
        if (strcmp(pair->row.subject, of->subject) != 0 || pair->row.call != call) continue;
        if (worst == NULL || ratio(pair) > ratio(worst)) worst = pair;
    }
    if (worst != NULL) print_figure(what, row_name(&worst->row, name), ratio(worst), 1, worst->most);
}

void figures_before(void) {
    for (size_t i = 0; i < pair_count; i++) {
        const struct row *row = &pairs[i].row;
        if (row->call != REGISTER) continue;
        figure_before(row, REGISTER, "register call beside the library before it composed names");
        figure_before(row, ASK, "asks beside the library before it composed names");
    }
}
