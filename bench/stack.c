/* How much stack a call needs: it runs in a thread whose stack was filled with a pattern. */
#include <pthread.h>
#include <stdio.h>
#include <string.h>
#include <sys/mman.h>

#include "bench.h"

enum { STACK = 32 << 20, PATTERN = 0xC7 };

struct job {
    const struct calls *calls;
    enum call call;
    const uint8_t *text, *held, *second, *tree, *query;
    size_t len;
    uint8_t *out, *top; /* top: where the caller's frame lies */
};

static void *run_job(void *given) {
    struct job *j = given;
    j->top = __builtin_frame_address(0);
    size_t size = j->calls->held;
    switch (j->call) {
    case REGISTER: j->calls->reg(j->text, j->len, j->out, size); break;
    case READ: j->calls->read(j->text, j->len, j->out, TREE_BYTES); break;
    case FIT: j->calls->fit(j->tree, TREE_BYTES, j->held, size, j->out, QUERY_BYTES); break;
    case QUERY: j->calls->query(j->held, size, j->text, j->len, j->out, QUERY_BYTES); break;
    case ASK: j->calls->ask(j->query, QUERY_BYTES, j->held, size, j->out, MARK_BYTES); break;
    default: j->calls->join(j->held, size, j->second, size, j->out, size);
    }
    return NULL;
}

/* The bytes from the deepest one that was written up to the caller's frame. */
static size_t depth_of(struct job *j) {
    static uint8_t *stack;
    pthread_attr_t attributes;
    pthread_t thread;
    size_t i = 0;
    if (stack == NULL) {
        stack = mmap(NULL, STACK, PROT_READ | PROT_WRITE, MAP_PRIVATE | MAP_ANONYMOUS | MAP_STACK, -1, 0);
        if (stack == MAP_FAILED) stop("no memory");
    }
    memset(stack, PATTERN, STACK);
    pthread_attr_init(&attributes);
    if (pthread_attr_setstack(&attributes, stack, STACK) != 0 || pthread_create(&thread, &attributes, run_job, j) != 0)
        stop("no thread");
    pthread_join(thread, NULL);
    while (i < STACK && stack[i] == PATTERN) i++;
    return (size_t)(j->top - (stack + i));
}

/* A query made by hand as docs/LAYOUT.md says: one namespace node inside 255 subqueries on L. The first handover's begins with the
 * length of its text. */
static void write_nested(const struct query_layout *at, uint8_t query[QUERY_BYTES]) {
    memset(query, 0, QUERY_BYTES);
    if (at->count > 0) query[0] = 1;
    query[at->count + 1] = 1; /* 256 nodes */
    query[at->names] = 'L';
    query[at->nodes] = 3;
    for (int i = 1; i < 256; i++) {
        query[at->nodes + 20 * i] = 5;
        query[at->nodes + 20 * i + 6] = 1;
    }
}

/* 128 selectors and 127 ANDs behind them: as many queries wait at once as can. */
static void write_waiting(const struct query_layout *at, uint8_t query[QUERY_BYTES]) {
    memset(query, 0, QUERY_BYTES);
    query[at->count] = 255;
    for (int i = 0; i < 255; i++) query[at->nodes + 20 * i] = i < 128 ? 3 : 0;
}

static void repeat(char *out, const char *word, int count) {
    for (*out = 0; count > 0; count--) strcat(out, word);
}

static size_t largest(size_t a, size_t b) { return a > b ? a : b; }

#define A_UMLAUT "a\u0308"

/* Texts of many nodes, and texts that nest as deep as a query may, or as 1,024 bytes allow. */
static const struct {
    const char *start, *part;
    int times;
    const char *last, *end;
    int ends;
} SHAPES[] = {
    {"", "<q>", 341, "", "", 0},      {"", "[[L::<q>", 128, "", "", 0},        {"", "[[::<q>", 146, "", "", 0},
    {"", "[[!a]]", 128, "", "", 0},   {"", "[[!a]]OR", 127, "[[!a]]", "", 0},  {"[[", "a||", 339, "a]]", "", 0},
    {"", "[[!a]]<q>", 8, "[[!a]]", "</q>", 8}, {"", "[[L::<q>", 8, "[[!a]]", "</q>]]", 8},
    /* The same with a name that is composed where it is deepest. */
    {"", "<q>", 339, "[[" A_UMLAUT "]]", "", 0}, {"", "[[L::<q>", 127, "[[" A_UMLAUT, "", 0}, {"", "[[::<q>", 145, "[[" A_UMLAUT "]]", "", 0},
    {"", "[[L::<q>", 8, "[[L::" A_UMLAUT "]]", "</q>]]", 8},
};
enum { TEXTS = QUESTIONS + sizeof SHAPES / sizeof *SHAPES, TEXT_ROOM = 1100 };

/* The questions are the first texts. */
static void write_text(int which, char out[TEXT_ROOM]) {
    struct question questions[QUESTIONS];
    int shape = which - QUESTIONS;
    if (shape < 0) {
        write_questions(1, questions);
        strcpy(out, questions[which].query);
        return;
    }
    strcpy(out, SHAPES[shape].start);
    repeat(out + strlen(out), SHAPES[shape].part, SHAPES[shape].times);
    strcat(out, SHAPES[shape].last);
    repeat(out + strlen(out), SHAPES[shape].end, SHAPES[shape].ends);
}

/* A call on each text: the query call, or reading it, or fitting the tree of it where it is read. */
static size_t text_depth(struct job j, enum call call) {
    static uint8_t tree[TREE_BYTES];
    size_t most = 0;
    char text[TEXT_ROOM];
    j.call = call, j.text = (const uint8_t *)text, j.tree = tree;
    for (int i = 0; i < TEXTS; i++) {
        write_text(i, text);
        j.len = strlen(text);
        if (call == FIT && j.calls->read(j.text, j.len, tree, TREE_BYTES) != 0) continue;
        most = largest(most, depth_of(&j));
    }
    return most;
}

static size_t ask_depth(struct job j) {
    static uint8_t query[QUERY_BYTES];
    struct question questions[QUESTIONS];
    size_t most = 0;
    write_questions(1, questions);
    j.call = ASK, j.query = query;
    for (int i = 0; i < QUESTIONS + 2; i++) {
        if (i == QUESTIONS) write_nested(&j.calls->layout, query);
        if (i == QUESTIONS + 1) write_waiting(&j.calls->layout, query);
        if (i < QUESTIONS)
            j.calls->query(j.held, j.calls->held, (const uint8_t *)questions[i].query, strlen(questions[i].query), query, QUERY_BYTES);
        if (j.calls->ask(query, QUERY_BYTES, j.held, j.calls->held, j.out, MARK_BYTES) < 0) stop("a question is refused");
        most = largest(most, depth_of(&j));
    }
    return most;
}

/* The form of a text. */
static void make_form(const struct calls *calls, const struct register_text *text, uint8_t *held) {
    if (calls->reg(text->at, text->len, held, calls->held) != 0) stop("a register is refused");
}

static size_t register_depth(struct job j, const struct register_text *text) {
    j.call = REGISTER, j.text = text->at, j.len = text->len;
    return depth_of(&j);
}

static size_t join_depth(struct job j, const text_pair pair) {
    static uint8_t held[2][HELD_BYTES];
    j.call = JOIN, j.held = held[0], j.second = held[1];
    for (int half = 0; half < 2; half++) make_form(j.calls, pair[half], held[half]);
    return depth_of(&j);
}

void measure_stacks(const struct register_text *const *texts, size_t text_count, const text_pair *pairs, size_t pair_count, struct stacks *out) {
    static uint8_t held[HELD_BYTES], room[HELD_BYTES];
    memset(out, 0, sizeof *out);
    for (int i = 0; i < IMPLEMENTATIONS; i++) {
        struct job j = {.calls = &calls_of[i], .held = held, .out = room};
        size_t *most = out->of[i];
        if (!is_built(i)) continue;
        for (size_t k = 0; k < text_count; k++) most[REGISTER] = largest(most[REGISTER], register_depth(j, texts[k]));
        for (size_t k = 0; k < pair_count && j.calls->join != NULL; k++) most[JOIN] = largest(most[JOIN], join_depth(j, pairs[k]));
        make_form(j.calls, texts[0], held);
        for (enum call call = READ; call <= QUERY; call++)
            if (call == QUERY || j.calls->read != NULL) most[call] = text_depth(j, call);
        most[ASK] = ask_depth(j);
    }
}

void print_stacks(const struct stacks *stacks) {
    printf("| largest stack, bytes |");
    for (enum call call = REGISTER; call <= JOIN; call++) printf(" %s |", call_names[call]);
    puts("\n|---|---|---|---|---|---|---|");
    for (int i = 0; i < IMPLEMENTATIONS; i++) {
        if (!is_built(i)) continue;
        printf("| %s |", calls_of[i].name);
        for (enum call call = REGISTER; call <= JOIN; call++) {
            if (stacks->of[i][call] > 0) printf(" %zu |", stacks->of[i][call]);
            else printf(" - |");
        }
        putchar('\n');
    }
}
