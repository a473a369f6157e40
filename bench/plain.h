/* The calls of include/vetxarno.h in plain C, not proved: the same checks and numbers, held registers as one dictionary. The benchmark
 * compares the proved library with it. */
#ifndef PLAIN_H
#define PLAIN_H

#include <stddef.h>
#include <stdint.h>

#define PLAIN_REGISTER_BYTES 63628
#define PLAIN_TREE_BYTES 5112
#define PLAIN_QUERY_BYTES 29794

int32_t plain_register(const uint8_t *text, size_t text_len, uint8_t *held, size_t held_len);
int32_t plain_query(const uint8_t *held_register, size_t held_register_len, const uint8_t *text, size_t text_len,
                    uint8_t *held_query, size_t held_query_len);
int32_t plain_read(const uint8_t *text, size_t text_len, uint8_t *tree, size_t tree_len);
int32_t plain_fit(const uint8_t *tree, size_t tree_len, const uint8_t *held_register, size_t held_register_len, uint8_t *held_query,
                  size_t held_query_len);
int32_t plain_ask(const uint8_t *held_query, size_t held_query_len, const uint8_t *held_register, size_t held_register_len,
                  uint8_t *marks, size_t marks_len);
/* Two held registers as one. Returns 0, or -22 where one of the two is no held register, -32 where a property has two kinds, -7 where
 * the two together are over a limit, -8 where the buffer is shorter than a held register. */
int32_t plain_join(const uint8_t *first, size_t first_len, const uint8_t *second, size_t second_len, uint8_t *held, size_t held_len);
/* Whether bytes are a held register: what the calls above do first with each one. */
int32_t plain_is_register(const uint8_t *held, size_t held_len);

#endif
