/* Bytes compared, copied and read as numbers: by memcmp, memcpy and wide loads of a machine with the low byte first, or, with
 * BYTELOOP, byte by byte. */
#ifndef PLAIN_BYTES_H
#define PLAIN_BYTES_H

#include <stdbool.h>
#include <stddef.h>
#include <stdint.h>
#include <string.h>

static inline unsigned two(const uint8_t *at) { return at[0] | (unsigned)at[1] << 8; }

static inline void put_two(uint8_t *at, unsigned n) {
    at[0] = (uint8_t)n;
    at[1] = (uint8_t)(n >> 8);
}

#ifdef BYTELOOP

static inline uint64_t eight(const uint8_t *at) {
    uint64_t n = 0;
    for (int i = 7; i >= 0; i--) n = n << 8 | at[i];
    return n;
}

static inline void put_eight(uint8_t *at, uint64_t n) {
    for (int i = 0; i < 8; i++, n >>= 8) at[i] = (uint8_t)n;
}

static inline bool same_bytes(const uint8_t *a, const uint8_t *b, size_t n) {
    for (size_t i = 0; i < n; i++)
        if (a[i] != b[i]) return false;
    return true;
}

static inline int order_bytes(const uint8_t *a, size_t a_len, const uint8_t *b, size_t b_len) {
    for (size_t i = 0; i < a_len && i < b_len; i++)
        if (a[i] != b[i]) return a[i] < b[i] ? -1 : 1;
    return (a_len > b_len) - (a_len < b_len);
}

static inline const uint8_t *find_byte(const uint8_t *at, uint8_t wanted, size_t n) {
    for (size_t i = 0; i < n; i++)
        if (at[i] == wanted) return at + i;
    return NULL;
}

static inline void copy_bytes(uint8_t *to, const uint8_t *from, size_t n) {
    for (size_t i = 0; i < n; i++) to[i] = from[i];
}

/* Blocks of a fixed size, which compilers turn into vector code. */
static inline bool are_zero(const uint8_t *at, size_t n) {
    for (; n >= 256; at += 256, n -= 256) {
        uint8_t some = 0;
        for (int i = 0; i < 256; i++) some |= at[i];
        if (some != 0) return false;
    }
    for (size_t i = 0; i < n; i++)
        if (at[i] != 0) return false;
    return true;
}

#else

static inline uint64_t eight(const uint8_t *at) {
    uint64_t n;
    memcpy(&n, at, sizeof n);
    return n;
}

static inline void put_eight(uint8_t *at, uint64_t n) { memcpy(at, &n, sizeof n); }

static inline bool same_bytes(const uint8_t *a, const uint8_t *b, size_t n) { return n == 0 || memcmp(a, b, n) == 0; }

/* Eight bytes at a time, the last eight again where they are not a multiple: names are short, and a call costs more. */
static inline int order_bytes(const uint8_t *a, size_t a_len, const uint8_t *b, size_t b_len) {
    size_t n = a_len < b_len ? a_len : b_len, i = 0;
    if (n < 8) {
        for (; i < n; i++)
            if (a[i] != b[i]) return a[i] < b[i] ? -1 : 1;
        return (a_len > b_len) - (a_len < b_len);
    }
    for (;; i = i + 8 <= n - 8 ? i + 8 : n - 8) {
        uint64_t x = eight(a + i), y = eight(b + i);
        if (x != y) return __builtin_bswap64(x) < __builtin_bswap64(y) ? -1 : 1;
        if (i == n - 8) return (a_len > b_len) - (a_len < b_len);
    }
}

static inline const uint8_t *find_byte(const uint8_t *at, uint8_t wanted, size_t n) { return n == 0 ? NULL : memchr(at, wanted, n); }

static inline void copy_bytes(uint8_t *to, const uint8_t *from, size_t n) {
    if (n > 0) memcpy(to, from, n);
}

static inline bool are_zero(const uint8_t *at, size_t n) { return n == 0 || (at[0] == 0 && memcmp(at, at + 1, n - 1) == 0); }

#endif

#endif
