/* The time of a call, and the rows of the table. */
#include <stdio.h>
#include <stdlib.h>
#include <time.h>

#include "bench.h"

enum { BATCHES = 21 };
static const double BATCH_SECONDS = 0.006;

struct row rows[MOST_ROWS];
size_t row_count;

_Noreturn void stop(const char *what) {
    fprintf(stderr, "bench: %s\n", what);
    exit(1);
}

/* Time that this thread ran, not time that it waited for a core. */
static double seconds(void) {
    struct timespec now;
    clock_gettime(CLOCK_THREAD_CPUTIME_ID, &now);
    return (double)now.tv_sec + (double)now.tv_nsec * 1e-9;
}

static double batch(void (*run)(const struct work *), const struct work *w, long times) {
    double start = seconds();
    for (long i = 0; i < times; i++) run(w);
    return (seconds() - start) / (double)times;
}

static long times_for(void (*run)(const struct work *), const struct work *w) {
    double once = batch(run, w, 3);
    return once > BATCH_SECONDS ? 1 : (long)(BATCH_SECONDS / (once + 1e-9)) + 1;
}

static void print_number(double number) {
    if (number > 0) printf(" %.2f |", number);
    else printf(" - |");
}

void print_head(void) {
    printf("Times in microseconds of processor time, the fastest of %d batches; no buffer is cleared between calls. "
           "The ratio is to the faster build of the plain implementation.\n\n", BATCHES);
    printf("| register | call |");
    for (int i = 0; i < IMPLEMENTATIONS; i++)
        if (is_built(i)) printf(" %s |%s", calls_of[i].name, i == LOOPS ? " ratio |" : "");
    puts(" SQLite: load, prepare, step |");
    puts(is_built(FIRST) ? "|---|---|---|---|---|---|---|---|" : "|---|---|---|---|---|---|---|");
}

double best_plain(const struct row *row) { return row->us[PLAIN] < row->us[LOOPS] ? row->us[PLAIN] : row->us[LOOPS]; }

const char *const call_names[CALLS] = {"register", "read", "fit", "query", "ask", "join", "read then fit", "the test of a form alone"};

const char *row_name(const struct row *row, char out[160]) {
    snprintf(out, 160, "%s, %s%s%s", row->subject, call_names[row->call], row->label == NULL ? "" : ": ", row->label == NULL ? "" : row->label);
    return out;
}

static void print_row(const struct row *row) {
    printf("| %s | %s", row->subject, call_names[row->call]);
    if (row->label != NULL) printf(": %s", row->label);
    if (row->call == ASK) printf(" (%d marked)", row->marked);
    printf(" |");
    for (int i = 0; i < COLUMNS; i++) {
        if (i != SQLITE && !is_built(i)) continue;
        print_number(row->us[i]);
        if (i == LOOPS) print_number(row->us[PROVED] / best_plain(row));
    }
    putchar('\n');
    fflush(stdout);
}

/* In turn, so that what else the machine does meets all of them; the fastest batch of each, which it meets least. */
void time_in_turn(void (*run)(const struct work *), const struct work *w, const int *runs, int count, int batches, double *us) {
    long times[COLUMNS];
    for (int i = 0; i < count; i++) times[i] = runs[i] ? times_for(run, &w[i]) : 0;
    for (int k = 0; k < batches; k++)
        for (int i = 0; i < count; i++) {
            double one = runs[i] ? batch(run, &w[i], times[i]) * 1e6 : 0;
            if (k == 0 || one < us[i]) us[i] = one;
        }
}

void time_row(struct row row, void (*run)(const struct work *), const struct work w[COLUMNS], const int runs[COLUMNS]) {
    time_in_turn(run, w, runs, COLUMNS, BATCHES, row.us);
    print_row(&row);
    if (row_count == MOST_ROWS) stop("too many rows");
    rows[row_count++] = row;
}
