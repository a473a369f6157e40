/* The implementations that are compared. */
#include "bench.h"
#include "plain.h"
#include "vetxarno.h"

/* The plain implementation in its second build. */
int32_t loops_register(const uint8_t *, size_t, uint8_t *, size_t);
int32_t loops_read(const uint8_t *, size_t, uint8_t *, size_t);
int32_t loops_fit(const uint8_t *, size_t, const uint8_t *, size_t, uint8_t *, size_t);
int32_t loops_query(const uint8_t *, size_t, const uint8_t *, size_t, uint8_t *, size_t);
int32_t loops_ask(const uint8_t *, size_t, const uint8_t *, size_t, uint8_t *, size_t);
int32_t loops_join(const uint8_t *, size_t, const uint8_t *, size_t, uint8_t *, size_t);
int32_t loops_is_register(const uint8_t *, size_t);

/* The library of the first handover: its calls under names of their own, and the size of its held register. */
#define FIRST_REGISTER_BYTES 32770
int32_t first_register(const uint8_t *, size_t, uint8_t *, size_t);
int32_t first_query(const uint8_t *, size_t, const uint8_t *, size_t, uint8_t *, size_t);
int32_t first_ask(const uint8_t *, size_t, const uint8_t *, size_t, uint8_t *, size_t);

/* The library before it composed names; its held register is as large as now, and its held query smaller. */
int32_t before_register(const uint8_t *, size_t, uint8_t *, size_t);
int32_t before_query(const uint8_t *, size_t, const uint8_t *, size_t, uint8_t *, size_t);
int32_t before_ask(const uint8_t *, size_t, const uint8_t *, size_t, uint8_t *, size_t);

/* The calls of one prefix: those that every library has, and all of them. */
#define THREE_CALLS(prefix) .reg = prefix##_register, .query = prefix##_query, .ask = prefix##_ask
#define ALL_CALLS(prefix)                                                                                                                    \
    .held = PLAIN_REGISTER_BYTES, .layout = {0, 2, 5122}, THREE_CALLS(prefix), .read = prefix##_read, .fit = prefix##_fit, .join = prefix##_join
_Static_assert(PLAIN_REGISTER_BYTES == VETXARNO_REGISTER_BYTES && PLAIN_TREE_BYTES == VETXARNO_TREE_BYTES && PLAIN_QUERY_BYTES == VETXARNO_QUERY_BYTES &&
                   PLAIN_TREE_BYTES == TREE_BYTES && PLAIN_QUERY_BYTES == QUERY_BYTES,
               "held forms of one size");

const struct calls calls_of[IMPLEMENTATIONS] = {
#ifdef WITHOUT_LIBRARY
    [PROVED] = {.name = "plain, for the proved", ALL_CALLS(plain)},
#else
    [PROVED] = {.name = "proved", ALL_CALLS(vetxarno)},
#endif
    [PLAIN] = {.name = "plain", ALL_CALLS(plain), .test = plain_is_register},
    [LOOPS] = {.name = "plain, byte loops", ALL_CALLS(loops), .test = loops_is_register},
#ifdef WITH_FIRST
    [FIRST] = {.name = "first handover", .held = FIRST_REGISTER_BYTES, .layout = {2, 1028, 4}, THREE_CALLS(first)},
#else
    [FIRST] = {.name = "first handover"},
#endif
};

const struct calls calls_before = {
    .name = "before",
#ifdef WITH_BEFORE
    .held = PLAIN_REGISTER_BYTES, THREE_CALLS(before)
#endif
};
