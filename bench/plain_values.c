/* How values are read. */
#include "plain_parts.h"

static bool is_blank(uint8_t b) { return b == ' ' || b == '\n'; }

struct span trimmed(struct span s) {
    while (s.len > 0 && is_blank(s.at[0])) s.at++, s.len--;
    while (s.len > 0 && is_blank(s.at[s.len - 1])) s.len--;
    return s;
}

bool is_word(struct span s, const char *word) { return same(s, span_of((const uint8_t *)word, strlen(word))); }

/* Both sides of the first colon, trimmed. */
bool split_at_colon(struct span s, struct span *before, struct span *after) {
    const uint8_t *colon = find_byte(s.at, ':', s.len);
    if (colon == NULL) return false;
    size_t at = (size_t)(colon - s.at);
    *before = trimmed(span_of(s.at, at));
    *after = trimmed(span_of(colon + 1, s.len - at - 1));
    return true;
}

bool read_reference(struct span s, struct room *room, struct reference *out) {
    out->written = split_at_colon(s, &out->namespace, &out->name);
    if (!out->written) {
        out->namespace = span_of(s.at, 0);
        out->name = s;
    }
    return compose_namespace(&out->namespace, room) && compose_name(&out->name, room);
}

/* Puts the digits from there on behind those of n, at most so many; returns where they end. */
static size_t read_digits(struct span s, size_t at, size_t most, uint64_t *n) {
    size_t end = s.len - at < most ? s.len : at + most;
    for (; at < end && s.at[at] >= '0' && s.at[at] <= '9'; at++) *n = 10 * *n + (s.at[at] - '0');
    return at;
}

/* An optional minus, 1 to 15 digits, and perhaps a point and 1 to 3 digits. */
static bool read_number(struct span s, uint64_t *out) {
    size_t minus = s.len > 0 && s.at[0] == '-', places = 0;
    uint64_t n = 0;
    size_t end = read_digits(s, minus, 15, &n);
    if (end == minus) return false;
    if (end < s.len && s.at[end] == '.') {
        size_t start = end + 1;
        end = read_digits(s, start, 3, &n);
        places = end - start;
        if (places == 0) return false;
    }
    if (end < s.len) return false;
    for (; places < 3; places++) n *= 10;
    *out = minus ? BIAS - n : BIAS + n;
    return true;
}

static bool read_boolean(struct span s, uint64_t *out) {
    static const char *const words[2][3] = {{"false", "no", "0"}, {"true", "yes", "1"}};
    uint8_t lower[5];
    if (s.len > sizeof lower) return false;
    for (size_t i = 0; i < s.len; i++) lower[i] = s.at[i] >= 'A' && s.at[i] <= 'Z' ? s.at[i] + 32 : s.at[i];
    for (unsigned truth = 0; truth < 2; truth++)
        for (int i = 0; i < 3; i++)
            if (is_word(span_of(lower, s.len), words[truth][i])) return *out = truth, true;
    return false;
}

bool read_value(enum kind kind, struct span s, struct room *room, struct value *out) {
    out->kind = kind;
    switch (kind) {
    case PAGE: return read_reference(s, room, &out->page);
    case NUMBER: return read_number(s, &out->code);
    case BOOLEAN: return read_boolean(s, &out->code);
    default: return out->string = s, true;
    }
}
