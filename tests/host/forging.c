/* Damaged forms of an accepted case: what comes back is documented and the buffers are as promised. */
#include <string.h>

#include "calls.h"

static uint32_t draw(uint32_t below) {
    static uint64_t state = 88172645463325252u;
    state ^= state << 13, state ^= state >> 7, state ^= state << 17;
    return (uint32_t)(state >> 20) % below;
}

/* A byte of a form; those at the beginnings of its regions more often. */
static uint32_t some_place(size_t size) {
    static const uint32_t in_query[] = {0, 2, 2, 5122}, in_tree[] = {0, 2, 2, 4088}, in_register[] = {0, 8, 200, 712, 1226, 5322, 23754, 28492};
    uint32_t start = size == QUERY ? in_query[draw(4)] : size == TREE ? in_tree[draw(4)] : in_register[draw(8)];
    return draw(4) == 0 ? draw((uint32_t)size) : start + draw(start == 0 ? 8 : 100);
}

/* A damaged copy of a form, some of whose bytes are lent. */
static struct bytes forge(const struct form *form, uint8_t *copy) {
    uint32_t size = (uint32_t)form->len, way = draw(16), changes = 1 + draw(3);
    memcpy(copy, form->at, size);
    if (way == 0) memset(copy, 255, size);
    if (way == 1) memset(copy, 0, size);
    if (way == 2) memset(copy + draw(size), 255, 1);
    for (uint32_t i = 0; way > 3 && i < changes; i++) {
        uint32_t at = some_place(size);
        copy[at] = draw(2) ? (uint8_t)draw(256) : draw(2) ? copy[at] ^ (uint8_t)(1u << draw(8)) : (uint8_t)draw(12);
    }
    return (struct bytes){copy, way == 3 ? draw(size) : size};
}

void run_forgeries(const struct accepted *from, uint32_t count) {
    static uint8_t query[QUERY], tree[TREE], held[HELD];
    struct bytes h = lent(from->held), t = lent(from->tree), q = lent(from->query);
    for (uint32_t i = 0; i < count; i++) {
        struct bytes fq = forge(from->query, query), ft = forge(from->tree, tree), fh = forge(from->held, held);
        ask_call(fq, h, MOST_PAGES + draw(9), -1, NULL);
        ask_call(q, fh, MOST_PAGES + draw(9), -1, NULL);
        ask_call(fq, fh, draw(MOST_PAGES), -1, NULL);
        query_call(fh, from->text, QUERY + draw(9), NULL);
        fit_call(ft, h, QUERY + draw(9), NULL);
        fit_call(draw(2) ? ft : t, fh, QUERY + draw(9), NULL);
        if (draw(2)) join_call(fh, h, HELD + draw(9), NULL);
        else join_call(h, fh, HELD + draw(9), NULL);
    }
}
