/* What the files of the host test share: the records, and the calls, each made on guarded buffers and checked. */
#ifndef CALLS_H
#define CALLS_H

#include <stddef.h>
#include <stdint.h>

#include "vetxarno.h"

enum { MOST_PAGES = 256, MOST_PARTS = 12, HELD = VETXARNO_REGISTER_BYTES, TREE = VETXARNO_TREE_BYTES, QUERY = VETXARNO_QUERY_BYTES };
/* A held form may be lent with up to 64 bytes behind it. */
enum { BEHIND = 64 };

struct bytes {
    const uint8_t *at;
    size_t len;
};

/* A held register, tree or query, or what is lent as one. */
struct form {
    uint8_t at[HELD + BEHIND];
    size_t len;
};

struct record {
    uint8_t letter;
    struct bytes part[MOST_PARTS];
};

/* The next record of a file; 0 at its end. */
int read_record(struct bytes *file, struct record *r);
uint32_t number_in(struct bytes part);
/* A part that is a held form: its length in four bytes, then runs of where, how many bytes (two bytes each) and the bytes; 0 elsewhere. */
void unpack(struct bytes part, struct form *out);

/* How an input is lent: between guard bytes, or with a page that cannot be read before it or behind it. */
enum fence { NO_FENCE, FENCE_BEFORE, FENCE_BEHIND, FENCES };
extern enum fence fence;
/* What no promise allows, counted and printed. */
extern unsigned long faults;
/* How often each call returned each number, acceptance being 0. */
enum call { REGISTER_CALL, READ_CALL, FIT_CALL, QUERY_CALL, ASK_CALL, JOIN_CALL, CALLS };
enum { MOST_NUMBER = 34 };
extern unsigned long seen[CALLS][MOST_NUMBER + 1];

void fault(const char *what, long number);
_Noreturn void stop(const char *what);

/* Each lends an output buffer of `len` bytes, makes the call and checks what the header promises of the buffers. Where
 * the call accepts and `out` is not null, the first bytes of the buffer are copied there. */
int32_t register_call(struct bytes text, size_t len, uint8_t *out);
int32_t read_call(struct bytes text, size_t len, uint8_t *out);
int32_t fit_call(struct bytes tree, struct bytes held, size_t len, uint8_t *out);
int32_t query_call(struct bytes held, struct bytes text, size_t len, uint8_t *out);
/* `pages` is the page count, or -1 where it is not known; marks behind it are the filling. */
int32_t ask_call(struct bytes query, struct bytes held, size_t len, long pages, uint8_t *out);
int32_t join_call(struct bytes first, struct bytes second, size_t len, uint8_t *out);

/* How many records were run: it varies how buffers are lent. */
extern unsigned long records;
/* A longer buffer in every third record. */
size_t longer(size_t size);
/* A form that was made, with bytes behind it that do not count in some records. */
struct bytes lent(const struct form *form);
/* One byte too few. */
struct bytes cut(const struct form *form);
/* All bytes, as they are. */
struct bytes whole(const struct form *form);

/* A surface query as it was read, and what reading returned. */
struct reading {
    struct form tree;
    int32_t number;
};

/* Each makes a form, checks it against the one that is wanted (a part with no bytes for a refused call), and tries buffers that are too
 * short. A query is made by both ways, from its text and from its tree. */
int32_t make_register(struct bytes text, struct bytes wanted, struct form *form);
int32_t make_join(const struct form *first, const struct form *second, struct bytes wanted, struct form *form);
void make_tree(struct bytes text, struct bytes wanted, struct reading *out);
int32_t make_query(const struct form *held, struct bytes text, const struct reading *reading, struct form *made);
void expect(const char *what, int32_t number, int32_t wanted);
/* A form of `size` bytes that was made. */
void check_form(const char *what, int32_t number, struct form *made, size_t size, struct bytes wanted);

/* Damaged forms of an accepted case. */
struct accepted {
    const struct form *held, *tree, *query;
    struct bytes text;
};
void run_forgeries(const struct accepted *from, uint32_t count);

/* Prints an ask's answer. */
void print_marks(int32_t number, const uint8_t *marks, size_t pages);
/* Single bytes changed, of a held register and of a held tree. */
void run_edits(const struct record *r);
void run_tree_edits(const struct record *r);

#endif
