/* The rules for the bytes of names and values, and the composed form of a name. */
#include "plain_parts.h"

/* What a byte rules out. Beyond ASCII two bytes are judged together. */
enum { NO_NAME = 1, NO_VALUE = 2, NO_PROPERTY = 4, NOTHING = NO_NAME | NO_VALUE };

static const uint8_t ruled_out[256] = {
    [0 ... 31] = NOTHING, [127] = NOTHING, ['['] = NOTHING, [']'] = NOTHING, ['|'] = NOTHING, ['<'] = NOTHING, ['>'] = NOTHING,
    ['"'] = NOTHING, [':'] = NO_NAME, ['#'] = NO_NAME, ['{'] = NO_NAME, ['}'] = NO_NAME, ['_'] = NO_NAME, ['.'] = NO_PROPERTY};

/* What each mark from U+0300 on makes of a letter, less U+00BF; 0 for nothing. All canonical compositions in U+00C0 to U+017F. */
#define C(letter, composed) [(letter) & 63] = (composed) - 0xBF
static const uint8_t compositions[41][64] = {
    [0x00] = {C('A', u'À'), C('E', u'È'), C('I', u'Ì'), C('O', u'Ò'), C('U', u'Ù'), C('a', u'à'), C('e', u'è'), C('i', u'ì'),
              C('o', u'ò'), C('u', u'ù')},
    [0x01] = {C('A', u'Á'), C('C', u'Ć'), C('E', u'É'), C('I', u'Í'), C('L', u'Ĺ'), C('N', u'Ń'), C('O', u'Ó'), C('R', u'Ŕ'),
              C('S', u'Ś'), C('U', u'Ú'), C('Y', u'Ý'), C('Z', u'Ź'), C('a', u'á'), C('c', u'ć'), C('e', u'é'), C('i', u'í'),
              C('l', u'ĺ'), C('n', u'ń'), C('o', u'ó'), C('r', u'ŕ'), C('s', u'ś'), C('u', u'ú'), C('y', u'ý'), C('z', u'ź')},
    [0x02] = {C('A', u'Â'), C('C', u'Ĉ'), C('E', u'Ê'), C('G', u'Ĝ'), C('H', u'Ĥ'), C('I', u'Î'), C('J', u'Ĵ'), C('O', u'Ô'),
              C('S', u'Ŝ'), C('U', u'Û'), C('W', u'Ŵ'), C('Y', u'Ŷ'), C('a', u'â'), C('c', u'ĉ'), C('e', u'ê'), C('g', u'ĝ'),
              C('h', u'ĥ'), C('i', u'î'), C('j', u'ĵ'), C('o', u'ô'), C('s', u'ŝ'), C('u', u'û'), C('w', u'ŵ'), C('y', u'ŷ')},
    [0x03] = {C('A', u'Ã'), C('I', u'Ĩ'), C('N', u'Ñ'), C('O', u'Õ'), C('U', u'Ũ'), C('a', u'ã'), C('i', u'ĩ'), C('n', u'ñ'),
              C('o', u'õ'), C('u', u'ũ')},
    [0x04] = {C('A', u'Ā'), C('E', u'Ē'), C('I', u'Ī'), C('O', u'Ō'), C('U', u'Ū'), C('a', u'ā'), C('e', u'ē'), C('i', u'ī'),
              C('o', u'ō'), C('u', u'ū')},
    [0x06] = {C('A', u'Ă'), C('E', u'Ĕ'), C('G', u'Ğ'), C('I', u'Ĭ'), C('O', u'Ŏ'), C('U', u'Ŭ'), C('a', u'ă'), C('e', u'ĕ'),
              C('g', u'ğ'), C('i', u'ĭ'), C('o', u'ŏ'), C('u', u'ŭ')},
    [0x07] = {C('C', u'Ċ'), C('E', u'Ė'), C('G', u'Ġ'), C('I', u'İ'), C('Z', u'Ż'), C('c', u'ċ'), C('e', u'ė'), C('g', u'ġ'),
              C('z', u'ż')},
    [0x08] = {C('A', u'Ä'), C('E', u'Ë'), C('I', u'Ï'), C('O', u'Ö'), C('U', u'Ü'), C('Y', u'Ÿ'), C('a', u'ä'), C('e', u'ë'),
              C('i', u'ï'), C('o', u'ö'), C('u', u'ü'), C('y', u'ÿ')},
    [0x0A] = {C('A', u'Å'), C('U', u'Ů'), C('a', u'å'), C('u', u'ů')},
    [0x0B] = {C('O', u'Ő'), C('U', u'Ű'), C('o', u'ő'), C('u', u'ű')},
    [0x0C] = {C('C', u'Č'), C('D', u'Ď'), C('E', u'Ě'), C('L', u'Ľ'), C('N', u'Ň'), C('R', u'Ř'), C('S', u'Š'), C('T', u'Ť'),
              C('Z', u'Ž'), C('c', u'č'), C('d', u'ď'), C('e', u'ě'), C('l', u'ľ'), C('n', u'ň'), C('r', u'ř'), C('s', u'š'),
              C('t', u'ť'), C('z', u'ž')},
    [0x27] = {C('C', u'Ç'), C('G', u'Ģ'), C('K', u'Ķ'), C('L', u'Ļ'), C('N', u'Ņ'), C('R', u'Ŗ'), C('S', u'Ş'), C('T', u'Ţ'),
              C('c', u'ç'), C('g', u'ģ'), C('k', u'ķ'), C('l', u'ļ'), C('n', u'ņ'), C('r', u'ŗ'), C('s', u'ş'), C('t', u'ţ')},
    [0x28] = {C('A', u'Ą'), C('E', u'Ę'), C('I', u'Į'), C('U', u'Ų'), C('a', u'ą'), C('e', u'ę'), C('i', u'į'), C('u', u'ų')},
};

/* The first byte of every mark. */
enum { MARK = 0xCC };

/* Whether two bytes are a letter from U+00A0 to U+017F. */
static inline bool is_letter(uint8_t a, uint8_t b) {
    unsigned both = (unsigned)a << 8 | b;
    return both >= 0xC2A0 && both <= 0xC5BF && (b & 0xC0) == 0x80;
}

/* The code point that a letter and the second byte of a mark compose to, or 0. */
static inline unsigned composition(uint8_t letter, uint8_t b) {
    unsigned row = b - 0x80u;
    if ((letter & 0xC0) != 0x40 || row >= sizeof compositions / sizeof *compositions || compositions[row][letter & 63] == 0) return 0;
    return compositions[row][letter & 63] + 0xBFu;
}

static bool has_ends(struct span s) {
    return s.len >= 1 && s.len <= 64 && s.at[0] != ' ' && s.at[0] != '~' && s.at[s.len - 1] != ' ';
}

static uint8_t ruled_out_first(uint8_t b) { return b == '!' || b == '+' ? NO_NAME : 0; }

/* From the first byte beyond ASCII on: judged, and composed to the room, which has the bytes before it. Returns what is ruled out. */
static uint8_t compose_rest(struct span *s, size_t from, struct room *room) {
    const uint8_t *at = s->at + from, *end = s->at + s->len;
    uint8_t *to = room->at + from, out = 0;
    bool marked = false;
    while (at < end) {
        uint8_t a = *at++;
        if (a < 128) {
            out |= ruled_out[a];
            *to++ = a;
            continue;
        }
        if (at == end) return NOTHING;
        uint8_t b = *at++;
        if (a == MARK) {
            unsigned code = at - s->at > 2 ? composition(at[-3], b) : 0;
            if (code == 0) return NOTHING;
            marked = true;
            to[-1] = (uint8_t)(0xC0 | code >> 6);
            *to++ = (uint8_t)(0x80 | (code & 63));
        } else {
            if (!is_letter(a, b)) return NOTHING;
            *to++ = a;
            *to++ = b;
        }
    }
    if (marked) {
        *s = span_of(room->at, (size_t)(to - room->at));
        room->at = to;
    }
    return out;
}

/* One pass that judges and composes. */
static uint8_t compose(struct span *s, struct room *room) {
    if (!has_ends(*s)) return NOTHING;
    uint8_t out = ruled_out_first(s->at[0]);
    size_t i = 0;
    for (; i < s->len && s->at[i] < 128; i++) out |= ruled_out[s->at[i]];
    if (i == s->len) return out;
    copy_bytes(room->at, s->at, i);
    return out | compose_rest(s, i, room);
}

bool compose_name(struct span *s, struct room *room) { return !(compose(s, room) & NO_NAME); }

bool compose_property_name(struct span *s, struct room *room) { return !(compose(s, room) & (NO_NAME | NO_PROPERTY)); }

bool compose_namespace(struct span *s, struct room *room) { return s->len == 0 || compose_name(s, room); }

uint8_t rules_of(struct span s) {
    if (!has_ends(s)) return 0;
    uint8_t out = ruled_out_first(s.at[0]);
    for (size_t i = 0; i < s.len; i++) {
        if (s.at[i] < 128) out |= ruled_out[s.at[i]];
        else if (i + 1 < s.len && is_letter(s.at[i], s.at[i + 1])) i++;
        else out |= NO_NAME;
    }
    return (uint8_t)((out & NO_NAME ? 0 : out & NO_PROPERTY ? IS_NAME : IS_NAME | IS_PROPERTY) | (out & NO_VALUE ? 0 : IS_VALUE));
}

bool is_name(struct span s) { return rules_of(s) & IS_NAME; }

bool is_namespace(struct span s) { return s.len == 0 || is_name(s); }

bool is_property_name(struct span s) { return rules_of(s) & IS_PROPERTY; }

bool is_value(struct span s) {
    uint8_t out = 0;
    if (!has_ends(s)) return false;
    for (size_t i = 0; i < s.len; i++) out |= ruled_out[s.at[i]];
    return !(out & NO_VALUE);
}
