/* What a link costs beside a string: one text, asked of the full register and of one that has strings for its links. Both have as many
 * values, on the same pages and with the same bytes. */
#include <stdio.h>
#include <string.h>

#include "bench.h"

enum { LINK, STRING, PIECES };
static double us[COLUMNS][PIECES];

static int runs_in(int column) { return column == SQLITE || is_built(column); }
static double ratio(int column) { return us[column][LINK] / us[column][STRING]; }

/* What a column asks, its form and query made in buffers that are lent; SQLite's statement and base are to be freed. */
static struct work prepare(int column, const struct register_text *text, const struct question *question, uint8_t *held, uint8_t *query) {
    struct work w = {.held = held, .query = query, .question = question};
    if (column == SQLITE) {
        w.base = base_load(text->at, text->len);
        w.statement = base_prepare(w.base, question->sql);
        return w;
    }
    w.calls = &calls_of[column];
    if (w.calls->reg(text->at, text->len, held, w.calls->held) != 0) stop("a register is refused");
    if (w.calls->query(held, w.calls->held, (const uint8_t *)question->query, strlen(question->query), query, QUERY_BYTES) != 0) stop("a query is refused");
    return w;
}

static void check_same(const struct work w[PIECES]) {
    uint8_t marks[PIECES][MARK_BYTES] = {{0}};
    int32_t counts[PIECES];
    for (int i = 0; i < PIECES; i++) counts[i] = ask_marks(&w[i], marks[i]);
    if (counts[LINK] < 1 || counts[LINK] != counts[STRING] || memcmp(marks[LINK], marks[STRING], MARK_BYTES) != 0) stop("the marks differ");
}

static void time_column(int column, const struct register_text *const texts[PIECES], const struct question questions[PIECES]) {
    static uint8_t held[PIECES][HELD_BYTES], query[PIECES][QUERY_BYTES];
    static const int runs[PIECES] = {1, 1};
    struct work w[PIECES];
    for (int i = 0; i < PIECES; i++) w[i] = prepare(column, texts[i], &questions[i], held[i], query[i]);
    check_same(w);
    time_in_turn(run_query, w, runs, PIECES, PAIR_BATCHES, us[column]);
    for (int i = 0; i < PIECES && column == SQLITE; i++) {
        statement_free(w[i].statement);
        base_free(w[i].base);
    }
}

void time_links(const struct register_text *links, const struct register_text *strings) {
    const struct register_text *const texts[PIECES] = {links, strings};
    struct question questions[PIECES];
    write_link_and_string(questions);
    printf("A link beside a string: `%s` asked of the full register, and of the same with strings for its links. Batches of the two in turn, "
           "the fastest of %d.\n\n| implementation | a link | a string | ratio |\n|---|---|---|---|\n", questions[LINK].query, PAIR_BATCHES);
    for (int i = 0; i < COLUMNS; i++) {
        if (!runs_in(i)) continue;
        time_column(i, texts, questions);
        printf("| %s | %.2f | %.2f | %.2f |\n", i == SQLITE ? "SQLite, step" : calls_of[i].name, us[i][LINK], us[i][STRING], ratio(i));
        fflush(stdout);
    }
    putchar('\n');
}

void figure_of_links(void) { print_figure("ask of a link beside one of a string, full register", "a link beside a string", ratio(PROVED), 1, 1); }
