/* The calls on guarded buffers. Every buffer has guard bytes on both sides. An input may also lie before a page that cannot be read, or
 * behind one, so that reading past it is seen even in code that the sanitizer did not build; then its guard is on the other side only. */
#include <sanitizer/asan_interface.h>
#include <stdio.h>
#include <stdlib.h>
#include <string.h>
#include <sys/mman.h>
#include <unistd.h>

#include "calls.h"

enum { GUARD = 64, FENCED_BYTES = 1 << 16 };

enum fence fence;
unsigned long faults, seen[CALLS][MOST_NUMBER + 1];

enum { INPUT_GUARD = 0x5B };
static uint8_t filling = 0xA5;

/* Blocks of the size of a held register are many; what is freed is kept for a while only. */
const char *__asan_default_options(void);
const char *__asan_default_options(void) { return "quarantine_size_mb=4"; }

void fault(const char *what, long number) {
    faults++;
    printf("fault: %s (%ld) ", what, number);
}

_Noreturn void stop(const char *what) {
    fprintf(stderr, "calls: %s\n", what);
    exit(2);
}

struct input {
    struct bytes source;
    uint8_t *block, *at;
    size_t before, behind; /* guard bytes */
};

/* Where one of a call's two fenced inputs may lie: pages that cannot be read are before it and behind it. */
static uint8_t *fenced_room(int which) {
    static uint8_t *rooms[2];
    if (rooms[which] == NULL) {
        size_t page = (size_t)sysconf(_SC_PAGESIZE);
        uint8_t *at = mmap(NULL, FENCED_BYTES + 2 * page, PROT_NONE, MAP_PRIVATE | MAP_ANONYMOUS, -1, 0);
        if (at == MAP_FAILED || mprotect(at + page, FENCED_BYTES, PROT_READ | PROT_WRITE) != 0) stop("no memory");
        rooms[which] = at + page;
    }
    return rooms[which];
}

static struct input lend(struct bytes source, int which) {
    struct input in = {.source = source, .before = GUARD, .behind = GUARD};
    if (fence != NO_FENCE && source.len > 0 && source.len + GUARD <= FENCED_BYTES) {
        uint8_t *room = fenced_room(which);
        if (fence == FENCE_BEHIND) in.at = room + FENCED_BYTES - source.len, in.behind = 0;
        else in.at = room, in.before = 0;
    } else {
        in.block = malloc(source.len + 2 * GUARD);
        if (in.block == NULL) stop("no memory");
        in.at = in.block + GUARD;
    }
    memset(in.at - in.before, INPUT_GUARD, in.before);
    if (source.len > 0) memcpy(in.at, source.at, source.len);
    memset(in.at + source.len, INPUT_GUARD, in.behind);
    ASAN_POISON_MEMORY_REGION(in.at - in.before, in.before);
    ASAN_POISON_MEMORY_REGION(in.at + source.len, in.behind);
    return in;
}

static int is_all(const uint8_t *at, size_t len, uint8_t byte) { return len == 0 || (at[0] == byte && memcmp(at, at + 1, len - 1) == 0); }

static void give_back(struct input in) {
    size_t len = in.source.len;
    ASAN_UNPOISON_MEMORY_REGION(in.at - in.before, in.before + len + in.behind);
    if (len > 0 && memcmp(in.at, in.source.at, len) != 0) fault("an input was changed", 0);
    if (!is_all(in.at - in.before, in.before, INPUT_GUARD)) fault("a byte before an input was written", 0);
    if (!is_all(in.at + len, in.behind, INPUT_GUARD)) fault("a byte behind an input was written", 0);
    free(in.block);
}

struct output {
    uint8_t *block, *at;
    size_t len;
};

static struct output lend_output(size_t len) {
    struct output out = {malloc(len + 2 * GUARD), NULL, len};
    if (out.block == NULL) stop("no memory");
    filling = (uint8_t)~filling;
    memset(out.block, filling, len + 2 * GUARD);
    out.at = out.block + GUARD;
    ASAN_POISON_MEMORY_REGION(out.block, GUARD);
    ASAN_POISON_MEMORY_REGION(out.at + len, GUARD);
    return out;
}

static int is_filling(const uint8_t *at, size_t len) { return is_all(at, len, filling); }

/* Only the first `written` bytes may have changed. */
static void check_output(struct output out, size_t written, int32_t number) {
    ASAN_UNPOISON_MEMORY_REGION(out.block, out.len + 2 * GUARD);
    if (!is_filling(out.block, GUARD)) fault("a byte before the buffer was written", number);
    if (!is_filling(out.at + out.len, GUARD)) fault("a byte behind the buffer was written", number);
    if (!is_filling(out.at + written, out.len - written))
        fault(number < 0 ? "refused, and a byte was written" : "a byte behind what is promised was written", number);
}

static int is_between(int32_t number, int32_t first, int32_t last) { return first <= number && number <= last; }

/* Whether a call may refuse with a number. */
static int is_known(enum call call, int32_t number) {
    switch (call) {
    case REGISTER_CALL: return is_between(number, 1, 8);
    case READ_CALL: return is_between(number, 12, 16) || number == 33;
    case FIT_CALL: return number == 11 || number == 34 || is_between(number, 17, 20);
    case QUERY_CALL: return is_between(number, 11, 20);
    case ASK_CALL: return is_between(number, 21, 24);
    default: return number == 22 || number == 32 || number == 7 || number == 8;
    }
}

static void check_number(enum call call, int32_t number) {
    if (number >= 0) seen[call][0]++;
    else if (is_known(call, -number)) seen[call][-number]++;
    else fault("an unknown number", number);
}

/* The end of a call that writes a form of `size` bytes. */
static int32_t end_form(struct output out, size_t size, int32_t number, uint8_t *copy) {
    if (number > 0) fault("a count where there is none", number);
    if (number == 0 && out.len < size) fault("accepted with a short buffer", (long)out.len);
    size_t written = number == 0 && out.len >= size ? size : 0;
    check_output(out, written, number);
    if (copy != NULL) memcpy(copy, out.at, written);
    free(out.block);
    return number;
}

/* A call of a text that writes a form of `size` bytes: register and read have one type. */
typedef int32_t one_input(const uint8_t *, size_t, uint8_t *, size_t);

static int32_t text_call(enum call call, one_input *make, size_t size, struct bytes text, size_t len, uint8_t *out) {
    struct input t = lend(text, 0);
    struct output held = lend_output(len);
    int32_t number = make(t.at, text.len, held.at, len);
    check_number(call, number);
    give_back(t);
    return end_form(held, size, number, out);
}

int32_t register_call(struct bytes text, size_t len, uint8_t *out) {
    return text_call(REGISTER_CALL, vetxarno_register, HELD, text, len, out);
}

int32_t read_call(struct bytes text, size_t len, uint8_t *out) { return text_call(READ_CALL, vetxarno_read, TREE, text, len, out); }

/* A call of two inputs that writes a form of `size` bytes: fit, query and join have one type. */
typedef int32_t two_inputs(const uint8_t *, size_t, const uint8_t *, size_t, uint8_t *, size_t);

static int32_t form_call(enum call call, two_inputs *make, size_t size, struct bytes first, struct bytes second, size_t len,
                         uint8_t *out) {
    struct input a = lend(first, 0), b = lend(second, 1);
    struct output held = lend_output(len);
    int32_t number = make(a.at, first.len, b.at, second.len, held.at, len);
    check_number(call, number);
    give_back(a);
    give_back(b);
    return end_form(held, size, number, out);
}

int32_t fit_call(struct bytes tree, struct bytes held, size_t len, uint8_t *out) {
    return form_call(FIT_CALL, vetxarno_fit, QUERY, tree, held, len, out);
}

int32_t query_call(struct bytes held, struct bytes text, size_t len, uint8_t *out) {
    return form_call(QUERY_CALL, vetxarno_query, QUERY, held, text, len, out);
}

int32_t join_call(struct bytes first, struct bytes second, size_t len, uint8_t *out) {
    return form_call(JOIN_CALL, vetxarno_join, HELD, first, second, len, out);
}

/* Marks are 0 and 1, one for each page, and the number returned is that of the 1s. */
static size_t check_marks(struct output marks, long pages, int32_t number) {
    size_t count = 0, ones = 0;
    for (; count < marks.len && marks.at[count] <= 1; count++) ones += marks.at[count];
    if (pages >= 0 && count != (size_t)pages) fault("not one mark for each page", (long)count);
    if (count > MOST_PAGES) fault("more marks than a register has pages", (long)count);
    if (ones != (size_t)number) fault("another number than that of the marks", number);
    return count;
}

int32_t ask_call(struct bytes query, struct bytes held, size_t len, long pages, uint8_t *out) {
    struct input q = lend(query, 0), h = lend(held, 1);
    struct output marks = lend_output(len);
    int32_t number = vetxarno_ask(q.at, query.len, h.at, held.len, marks.at, len);
    check_number(ASK_CALL, number);
    give_back(q);
    give_back(h);
    size_t written = number < 0 ? 0 : check_marks(marks, pages, number);
    check_output(marks, written, number);
    if (out != NULL) memcpy(out, marks.at, written);
    free(marks.block);
    return number;
}
