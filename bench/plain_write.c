/* Writes the form of a register. */
#include "plain_form.h"

static void put_zeros(uint8_t *held, size_t from, size_t to) { memset(held + from, 0, to - from); }

static size_t put_numbers(uint8_t *held, size_t at, const uint16_t *numbers, size_t count) {
#ifdef BYTELOOP
    for (size_t i = 0; i < count; i++) put_two(held + at + 2 * i, numbers[i]);
#else
    memcpy(held + at, numbers, 2 * count);
#endif
    return at + 2 * count;
}

static size_t put_props(const struct draft *d, uint8_t *held) {
    size_t at = PROPS;
    for (unsigned p = 0; p < d->props; p++, at += PROP_ROW) {
        held[at] = d->kind[p];
        put_two(held + at + 1, d->prop_text[p]);
    }
    return at;
}

static size_t put_terms(const struct draft *d, uint8_t *held) {
    size_t at = TERMS;
    for (unsigned t = 0; t < d->terms; t++, at += TERM_ROW) {
        held[at] = (uint8_t)item_group(&d->term[t]);
        put_eight(held + at + 1, item_code(&d->term[t]));
    }
    return at;
}

/* Writes both what the texts are and where they begin. */
static void put_texts(const struct draft *d, uint8_t *held) {
    size_t row = TEXTS, at = HEAP;
    for (unsigned x = 0; x < d->texts; x++, row += 2) {
        const struct text *text = &d->text[x];
        put_two(held + row, (unsigned)(at - HEAP));
        held[at++] = (uint8_t)text->space.len;
        copy_bytes(held + at, text->space.at, text->space.len);
        copy_bytes(held + at + text->space.len, text->name.at, text->name.len);
        at += text->space.len + text->name.len;
    }
    put_two(held + row, (unsigned)(at - HEAP));
    put_zeros(held, row + 2, HEAP);
    put_zeros(held, at, PLAIN_REGISTER_BYTES);
}

void write_register(const struct draft *d, uint8_t *held) {
    put_two(held, d->props);
    put_two(held + 2, d->pages);
    put_two(held + 4, d->terms);
    put_two(held + 6, d->texts);
    put_zeros(held, put_props(d, held), PAGES);
    put_zeros(held, put_numbers(held, PAGES, d->page_text, d->pages), STARTS);
    put_zeros(held, put_numbers(held, STARTS, d->start, d->pages + 1), FORMS);
    put_zeros(held, put_numbers(held, FORMS, d->form, d->forms), TERMS);
    put_zeros(held, put_terms(d, held), TEXTS);
    put_texts(d, held);
}
