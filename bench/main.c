/* Times the calls of the proved library beside the plain implementation, the library of the first handover and SQLite on the same
 * questions, and prints tables. */
#include <stdio.h>
#include <string.h>

#include "bench.h"

enum { MOST_WORST_QUESTIONS = 3, ACCENT_QUESTIONS = 2 };

/* A text, or two that are joined, or both. */
struct subject {
    const char *name;
    int worst;
    struct register_text text, half[2];
    uint8_t held[IMPLEMENTATIONS][HELD_BYTES], held_half[2][IMPLEMENTATIONS][HELD_BYTES];
};

static struct row row_of(const struct subject *on, enum call call) { return (struct row){.subject = on->name, .call = call, .worst = on->worst}; }

/* All that answer give the same pages. */
static int check_same(const struct work w[COLUMNS], const int runs[COLUMNS]) {
    uint8_t marks[COLUMNS][MARK_BYTES] = {{0}};
    int32_t counts[COLUMNS] = {0};
    for (int i = 0; i < COLUMNS; i++)
        if (runs[i]) counts[i] = ask_marks(&w[i], marks[i]);
    for (int i = 0; i < COLUMNS; i++)
        if (runs[i] && (counts[i] != counts[PLAIN] || memcmp(marks[i], marks[PLAIN], MARK_BYTES) != 0)) stop("the marks differ");
    return counts[PLAIN];
}

/* The trees of all that read; what is fitted is what the query call made, and all have the same bytes. */
static void make_trees(struct work w[COLUMNS], const int reads[COLUMNS]) {
    static uint8_t tree[IMPLEMENTATIONS][TREE_BYTES];
    uint8_t query[QUERY_BYTES];
    for (int i = 0; i < IMPLEMENTATIONS; i++) {
        if (!reads[i]) continue;
        w[i].tree = tree[i];
        if (w[i].calls->read(w[i].text, w[i].len, tree[i], TREE_BYTES) != 0) stop("a text is refused");
        if (w[i].calls->fit(w[i].tree, TREE_BYTES, w[i].held, w[i].calls->held, query, QUERY_BYTES) != 0) stop("a tree is refused");
        if (memcmp(query, w[i].query, QUERY_BYTES) != 0) stop("fitting and the query call differ");
    }
    for (int i = 0; i < IMPLEMENTATIONS; i++) {
        if (!reads[i]) continue;
        if (memcmp(tree[i], tree[PLAIN], TREE_BYTES) != 0) stop("the trees differ");
        if (memcmp(w[i].query, w[PLAIN].query, QUERY_BYTES) != 0) stop("the held queries differ");
    }
}

/* Reading, fitting a tree that is ready, and both. */
static void time_fitting(struct row row, struct work w[COLUMNS], const int runs[COLUMNS]) {
    int reads[COLUMNS] = {0};
    for (int i = 0; i < IMPLEMENTATIONS; i++) reads[i] = runs[i] && calls_of[i].read != NULL;
    make_trees(w, reads);
    row.call = READ;
    time_row(row, make_tree, w, reads);
    row.call = FIT;
    time_row(row, fit_tree, w, reads);
    row.call = READ_AND_FIT;
    time_row(row, make_and_fit, w, reads);
}

/* The calls on a question's text and on the subject's form; the question may be asked of SQLite too. */
static void time_question(const struct subject *on, const struct question *question, struct base *base, const int runs[COLUMNS]) {
    static uint8_t query[IMPLEMENTATIONS][QUERY_BYTES];
    struct work w[COLUMNS] = {{0}};
    struct row row = row_of(on, QUERY);
    for (int i = 0; i < IMPLEMENTATIONS; i++) {
        w[i] = (struct work){.calls = &calls_of[i], .text = (const uint8_t *)question->query, .len = strlen(question->query),
                             .held = on->held[i], .query = query[i]};
        if (runs[i] && w[i].calls->query(w[i].held, w[i].calls->held, w[i].text, w[i].len, query[i], QUERY_BYTES) != 0) stop("a query is refused");
    }
    if (runs[SQLITE]) w[SQLITE] = (struct work){.base = base, .question = question, .statement = base_prepare(base, question->sql)};
    row.label = question->label;
    row.marked = check_same(w, runs);
    time_row(row, make_query, w, runs);
    time_fitting(row, w, runs);
    row.call = ASK;
    time_row(row, run_query, w, runs);
    if (runs[SQLITE]) statement_free(w[SQLITE].statement);
}

/* What each call does first with a form; only the plain one lends it alone. */
static void time_test(const struct subject *on) {
    struct work w[COLUMNS] = {{0}};
    int runs[COLUMNS] = {0};
    for (int i = 0; i < IMPLEMENTATIONS; i++) {
        w[i] = (struct work){.calls = &calls_of[i], .held = on->held[i]};
        runs[i] = calls_of[i].test != NULL;
    }
    time_row(row_of(on, TEST), test_form, w, runs);
}

static void make_form(int i, const struct register_text *text, uint8_t *held) {
    if (is_built(i) && calls_of[i].reg(text->at, text->len, held, calls_of[i].held) != 0) stop("a register is refused");
}

static void time_register(struct subject *on, int with_sqlite) {
    struct work w[COLUMNS] = {{0}};
    int runs[COLUMNS] = {[SQLITE] = with_sqlite};
    for (int i = 0; i < COLUMNS; i++) w[i] = (struct work){.calls = i == SQLITE ? NULL : &calls_of[i], .text = on->text.at, .len = on->text.len};
    for (int i = 0; i < IMPLEMENTATIONS; i++) runs[i] = is_built(i), make_form(i, &on->text, on->held[i]);
    if (memcmp(on->held[PROVED], on->held[PLAIN], calls_of[PLAIN].held) != 0) stop("the forms differ");
    time_row(row_of(on, REGISTER), make_register, w, runs);
}

/* The halves joined. The form is then that of both. */
static void time_join(struct subject *on) {
    struct work w[COLUMNS] = {{0}};
    int runs[COLUMNS] = {0};
    for (int i = 0; i < IMPLEMENTATIONS; i++) {
        const struct calls *calls = &calls_of[i];
        uint8_t *first = on->held_half[0][i], *second = on->held_half[1][i];
        w[i] = (struct work){.calls = calls, .held = first, .second = second};
        runs[i] = calls->join != NULL;
        for (int half = 0; half < 2; half++) make_form(i, &on->half[half], on->held_half[half][i]);
        if (runs[i] && calls->join(first, calls->held, second, calls->held, on->held[i], calls->held) != 0) stop("a join is refused");
    }
    time_row(row_of(on, JOIN), make_join, w, runs);
    if (memcmp(on->held[PROVED], on->held[PLAIN], calls_of[PLAIN].held) != 0) stop("the forms differ");
}

/* A subject whose questions SQLite answers too. */
static void time_beside_sqlite(struct subject *on, int full) {
    struct question questions[QUESTIONS];
    const int runs[COLUMNS] = {1, 1, 1, is_built(FIRST), 1};
    write_questions(full, questions);
    time_register(on, 1);
    time_test(on);
    struct base *base = base_load(on->text.at, on->text.len);
    for (int i = 0; i < QUESTIONS; i++) time_question(on, &questions[i], base, runs);
    base_free(base);
    if (on->half[0].len > 0) time_join(on);
}

/* A register call on a text, then a join of more than one text may hold, and questions to that. */
static void time_worst(struct subject *on, const struct question *questions, size_t count) {
    static const int runs[COLUMNS] = {1, 1, 1};
    time_register(on, 0);
    time_join(on);
    time_test(on);
    for (size_t i = 0; i < count && questions[i].label != NULL; i++) time_question(on, &questions[i], NULL, runs);
}

/* Names with accents: a register call on a text, and questions to it. */
static void time_accents(struct subject *on, const struct question questions[ACCENT_QUESTIONS]) {
    static const int runs[COLUMNS] = {1, 1, 1};
    time_register(on, 0);
    time_test(on);
    for (int i = 0; i < ACCENT_QUESTIONS; i++) time_question(on, &questions[i], NULL, runs);
}

static void read_text(struct register_text *out, const char *directory, const char *name, const char *end) {
    char path[4096];
    snprintf(path, sizeof path, "%s/%s%s.txt", directory, name, end);
    FILE *in = fopen(path, "rb");
    if (in == NULL) stop("no register text");
    out->len = fread(out->at, 1, sizeof out->at, in);
    fclose(in);
}

static void read_subject(struct subject *out, const char *directory, const char *file, int with_halves) {
    read_text(&out->text, directory, file, "");
    for (int half = 0; half < 2 && with_halves; half++) read_text(&out->half[half], directory, file, half == 0 ? "-1" : "-2");
}

/* A query a line. */
static void read_questions(struct question out[ACCENT_QUESTIONS], const char *directory, const char *file) {
    static const char *const labels[ACCENT_QUESTIONS] = {"category", "a link"};
    struct register_text text;
    read_text(&text, directory, file, "-queries");
    const uint8_t *at = text.at, *end = text.at + text.len, *line;
    for (int i = 0; i < ACCENT_QUESTIONS; i++, at = line + 1) {
        line = memchr(at, '\n', (size_t)(end - at));
        if (line == NULL || (size_t)(line - at) >= sizeof out[i].query) stop("no query");
        out[i] = (struct question){.label = labels[i]};
        memcpy(out[i].query, at, (size_t)(line - at));
    }
}

/* The inputs that must not be slow, and what is asked of them. The names of the last two have 64 bytes. */
#define ALIKE "all of these names are alike up to their last two bytes, these "
#define LAST ALIKE "="
_Static_assert(sizeof ALIKE == 64, "63 bytes");
static const struct {
    const char *file, *name;
    struct question questions[MOST_WORST_QUESTIONS];
} WORST[] = {
    {"values", "a page with 2,048 values",
     {{.label = "one value", .query = "[[S::value-000001024]]"}, {.label = "greater values", .query = "[[S::>value-000002000]]"},
      {.label = "a property", .query = "[[S::+]]"}}},
    {"categories", "a page with 2,048 categories",
     {{.label = "category", .query = "[[Category:category001024]]"}, {.label = "two categories", .query = "[[Category:category000000||category002047]]"}}},
    {"names", "256 names of 64 bytes",
     {{.label = "chain of 8 names", .query = "[[L.L.L.L.L.L.L.L::+]]"}, {.label = "greater names", .query = "[[>" ALIKE "a]]"},
      {.label = "a link", .query = "[[L::" ALIKE "a]]"}}},
    {"properties", "64 properties with names of 64 bytes",
     {{.label = "a property", .query = "[[" LAST "::+]]"},
      {.label = "chain of 8 names", .query = "[[" LAST "." LAST "." LAST "." LAST "." LAST "." LAST "." LAST "." LAST "::+]]"}}},
};
enum { WORST_COUNT = sizeof WORST / sizeof *WORST };

/* Registers full of accented names, each twice: as they are held, and with every letter typed as a letter and a mark. */
static const struct {
    const char *file, *name;
} ACCENTS[] = {
    {"accents-composed", "accented names"}, {"accents-typed", "accented names typed with marks"},
    {"long-accents-composed", "long accented names"}, {"long-accents-typed", "long accented names typed with marks"},
};
enum { ACCENT_COUNT = sizeof ACCENTS / sizeof *ACCENTS, TEXT_COUNT = 1 + WORST_COUNT + ACCENT_COUNT };

/* What request 4 may cost. */
static const double MOST_ON_FULL = 1.1, MOST_ON_ACCENTS = 2;

static void compare_before(const struct subject *full, const struct subject accents[ACCENT_COUNT], struct question questions[][ACCENT_QUESTIONS]) {
    struct question of_full[QUESTIONS];
    write_questions(1, of_full);
    print_before_head();
    time_before(full->name, &full->text, of_full, QUESTIONS, MOST_ON_FULL);
    for (int i = 0; i < ACCENT_COUNT; i++) time_before(accents[i].name, &accents[i].text, questions[i], ACCENT_QUESTIONS, MOST_ON_ACCENTS);
    putchar('\n');
}

int main(int argc, char **argv) {
    static struct subject sample = {.name = "sample"}, full = {.name = "full"}, worst[WORST_COUNT], accents[ACCENT_COUNT];
    static struct question accent_questions[ACCENT_COUNT][ACCENT_QUESTIONS];
    static struct register_text strings;
    const struct register_text *texts[TEXT_COUNT] = {&full.text};
    text_pair pairs[WORST_COUNT + 1] = {{&full.half[0], &full.half[1]}};
    struct stacks stacks;
    if (argc != 2) stop("give the directory of the register texts");
    read_subject(&sample, argv[1], "sample", 0);
    read_subject(&full, argv[1], "full", 1);
    read_text(&strings, argv[1], "strings", "");
    printf("The sample register has %zu bytes, the full one %zu. ", sample.text.len, full.text.len);
    print_head();
    time_beside_sqlite(&sample, 0);
    time_beside_sqlite(&full, 1);
    for (int i = 0; i < WORST_COUNT; i++) {
        worst[i].name = WORST[i].name, worst[i].worst = 1;
        read_subject(&worst[i], argv[1], WORST[i].file, 1);
        time_worst(&worst[i], WORST[i].questions, MOST_WORST_QUESTIONS);
        texts[1 + i] = &worst[i].text;
        for (int half = 0; half < 2; half++) pairs[i + 1][half] = &worst[i].half[half];
    }
    for (int i = 0; i < ACCENT_COUNT; i++) {
        accents[i].name = ACCENTS[i].name;
        read_subject(&accents[i], argv[1], ACCENTS[i].file, 0);
        read_questions(accent_questions[i], argv[1], ACCENTS[i].file);
        time_accents(&accents[i], accent_questions[i]);
        texts[1 + WORST_COUNT + i] = &accents[i].text;
    }
    putchar('\n');
    time_links(&full.text, &strings);
    if (is_before_built()) compare_before(&full, accents, accent_questions);
    measure_stacks(texts, TEXT_COUNT, pairs, WORST_COUNT + 1, &stacks);
    print_stacks(&stacks);
    putchar('\n');
    print_figures(&stacks);
    return 0;
}
