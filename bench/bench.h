/* What the files of the benchmark share. */
#ifndef BENCH_H
#define BENCH_H

#include <stddef.h>
#include <stdint.h>

/* HELD_BYTES is room for any implementation's held register, QUERY_BYTES for its held query. */
enum { QUESTIONS = 6, MARK_BYTES = 256, HELD_BYTES = 65536, TREE_BYTES = 5112, QUERY_BYTES = 29794, MOST_TEXT_BYTES = 32768 };

struct register_text {
    uint8_t at[MOST_TEXT_BYTES + 1];
    size_t len;
};

/* Where a held query has the number of its nodes, its nodes and its names. */
struct query_layout {
    size_t count, nodes, names;
};

/* The calls of one implementation, and how its held forms lie. */
struct calls {
    const char *name;
    size_t held; /* the size of a held register; 0 where it is not in this build */
    struct query_layout layout;
    int32_t (*reg)(const uint8_t *, size_t, uint8_t *, size_t);
    int32_t (*query)(const uint8_t *, size_t, const uint8_t *, size_t, uint8_t *, size_t);
    int32_t (*ask)(const uint8_t *, size_t, const uint8_t *, size_t, uint8_t *, size_t);
    /* Null where there is none. */
    int32_t (*read)(const uint8_t *, size_t, uint8_t *, size_t);
    int32_t (*fit)(const uint8_t *, size_t, const uint8_t *, size_t, uint8_t *, size_t);
    int32_t (*join)(const uint8_t *, size_t, const uint8_t *, size_t, uint8_t *, size_t);
    int32_t (*test)(const uint8_t *, size_t); /* whether bytes are a held register */
};

/* The proved library, the plain implementation, its build without memcmp and wide loads, and the library of the first handover. */
enum { PROVED, PLAIN, LOOPS, FIRST, IMPLEMENTATIONS };
extern const struct calls calls_of[IMPLEMENTATIONS];
static inline int is_built(int i) { return calls_of[i].held > 0; }
/* The library before it composed names. It has a table of its own. */
extern const struct calls calls_before;
static inline int is_before_built(void) { return calls_before.held > 0; }

/* The same question as a query text and as SQL. */
struct question {
    const char *label;
    char query[1025], sql[8192];
};

/* Of the sample register, or of the full one. */
void write_questions(int full, struct question out[QUESTIONS]);
/* The full register's link, and the same text where that property has strings. */
void write_link_and_string(struct question out[2]);

/* A database in memory with the pages of a register text. Each of these ends the program where SQLite refuses. */
struct base;
struct base *base_load(const uint8_t *text, size_t len);
void base_free(struct base *base);
struct statement;
struct statement *base_prepare(struct base *base, const char *sql);
void statement_free(struct statement *s);
/* Steps through all rows and marks their places; returns their number. */
int statement_run(struct statement *s, uint8_t *marks);

/* What one figure times: a call on these, or SQLite where there are no calls. */
struct work {
    const struct calls *calls;
    const uint8_t *text, *held, *second, *tree, *query;
    size_t len;
    struct base *base;
    const struct question *question;
    struct statement *statement;
};

/* What an ask marks, and how many. */
int32_t ask_marks(const struct work *w, uint8_t marks[MARK_BYTES]);
/* One run of a call on these. */
void make_register(const struct work *w);
void make_query(const struct work *w);
void make_tree(const struct work *w);
void fit_tree(const struct work *w);
void make_and_fit(const struct work *w);
void run_query(const struct work *w);
void make_join(const struct work *w);
void test_form(const struct work *w);

enum { COLUMNS = IMPLEMENTATIONS + 1, SQLITE = IMPLEMENTATIONS };
/* Those up to JOIN are calls; then what is timed beside them. */
enum call { REGISTER, READ, FIT, QUERY, ASK, JOIN, READ_AND_FIT, TEST, CALLS };
extern const char *const call_names[CALLS];

/* A row of the table: microseconds, 0 for a column that has nothing to run. */
struct row {
    const char *subject;
    enum call call;
    const char *label; /* of the question */
    int worst;         /* is one of the inputs that must not be slow */
    int marked;        /* the pages that an ask marks */
    double us[COLUMNS];
};

/* Where a ratio of two is wanted there are more batches than elsewhere. */
enum { PAIR_BATCHES = 63 };
/* Times those that run, batch by batch in turn: microseconds. */
void time_in_turn(void (*run)(const struct work *), const struct work *w, const int *runs, int count, int batches, double *us);
/* Times the columns that run, fills the row in and prints it. */
void time_row(struct row row, void (*run)(const struct work *), const struct work w[COLUMNS], const int runs[COLUMNS]);
void print_head(void);
/* All rows so far. */
enum { MOST_ROWS = 200 };
extern struct row rows[MOST_ROWS];
extern size_t row_count;
/* The time of the faster build of the plain implementation. */
double best_plain(const struct row *row);
/* What a row is about: `full, ask: category`. */
const char *row_name(const struct row *row, char out[160]);

/* The largest stack of each call, in bytes; 0 where there is none. Queries are made for and asked of the first text. */
struct stacks {
    size_t of[IMPLEMENTATIONS][CALLS];
};
typedef const struct register_text *text_pair[2];
void measure_stacks(const struct register_text *const *texts, size_t text_count, const text_pair *pairs, size_t pair_count, struct stacks *out);
void print_stacks(const struct stacks *stacks);

/* A register text and questions to it, before and now. The register call and the asks may take `most` times as long. */
void print_before_head(void);
void time_before(const char *subject, const struct register_text *text, const struct question *questions, size_t count, double most);
void figures_before(void);

/* A link asked of one register, and a string of the same bytes of another that has strings for its links. */
void time_links(const struct register_text *links, const struct register_text *strings);
void figure_of_links(void);

/* What is asked of the times and stacks, and whether it is met. */
void print_figures(const struct stacks *stacks);
/* `most` is whether the figure is the most that is allowed, and not the least that is wanted. */
void print_figure(const char *what, const char *where, double found, int most, double wanted);

_Noreturn void stop(const char *what);

#endif
