/* Vetxarno: ask queries over a register of pages.
 *
 * A register text becomes a held register, two held registers become one, a query text becomes a held query for a
 * register's properties, and asking marks the pages that the query selects. A query that is put to several registers is read
 * once, to a held tree that knows no register, and the tree is fitted to each of them. Held forms are plain bytes of a fixed
 * size: they may be copied, kept in a file and lent to a later call. docs/LAYOUT.md says how they lie. A register has one
 * form: the same properties, pages, categories and values in the same orders give the same bytes, however they were written.
 * So has a query that was read, whatever groups, blanks and ANDs its text had that change nothing in it.
 *
 * Names, of pages, namespaces, categories and properties:
 * - They are UTF-8, 1 to 64 bytes as typed. They may have the code points 32 to 126 but [ ] | < > : # { } _ ", those of U+00A0
 *   to U+017F, and the combining marks U+0300 to U+0304, U+0306 to U+0308, U+030A to U+030C, U+0327 and U+0328, each directly
 *   behind a letter with which it composes to one of U+00C0 to U+017F. A name does not begin with ! ~ + or a blank and does not
 *   end with a blank (U+00A0 is none); a property's name has no full stop. Anything else breaks the rule for names: -3 and -15,
 *   and in a reference under a page property -6 and -18.
 * - They are compared by the bytes of their composed form (Unicode Standard Annex 15): a letter with a mark behind it, as a and
 *   U+0308, is the letter that they compose to, U+00E4. By this form a property or a page is declared twice (-4) and a property
 *   is declared (-5, -17).
 * - Held forms keep names composed. Bytes with a name that is not composed are no held form (-11, -21, -22, -34).
 * - Strings are no names: they are kept and compared as the bytes that were typed, UTF-8 or not. What a query writes under a
 *   property is judged as a value (-16) and stays as typed in a held tree; fitting composes its names where the property is a
 *   link.
 *
 * What holds of all six calls:
 * - A negative number is a refusal: its number in the tables below, made negative. If several conditions hold, the
 *   lowest number is returned, save by vetxarno_join and vetxarno_fit, which go by the order of their tables. A refused call
 *   has changed no byte of any buffer.
 * - Any bytes may be lent: a buffer that is no held form is refused, not trusted. A held register is the form of any register
 *   that keeps the rules of names, values and kinds and the limits of vetxarno_join, whether or not one text gives it.
 * - The buffers of one call must not overlap. A buffer of length 0 still needs a pointer that is not null.
 * - No state is kept and no memory is allocated. Calls from several threads are fine as long as they share no buffer
 *   that one of them writes.
 * - Stack: vetxarno_register needs up to 0.5 MB, vetxarno_query and vetxarno_read 0.45 MB, vetxarno_join 0.4 MB, vetxarno_fit
 *   0.25 MB, vetxarno_ask 0.15 MB, for 256 nodes nested in one another (docs/BENCHMARKS.md). */
#ifndef VETXARNO_H
#define VETXARNO_H

#include <stddef.h>
#include <stdint.h>

#ifdef __cplusplus
extern "C" {
#endif

/* The size of a held register, of a held tree and of a held query. A longer buffer may be lent; only its first bytes count. */
#define VETXARNO_REGISTER_BYTES 63628
#define VETXARNO_TREE_BYTES 5112
#define VETXARNO_QUERY_BYTES 29794

/* Reads a register text and writes the held register into the first VETXARNO_REGISTER_BYTES bytes of `held`; later bytes
 * stay as they are. Returns 0, or:
 *
 *   -1  the text is longer than 32,768 bytes
 *   -2  the text is not lines of prop and page forms, each ended by byte 10
 *   -3  a name, a namespace or a value breaks its rule
 *   -4  a property, or a page (namespace and name), is declared twice
 *   -5  a val form names a property that no prop line declares
 *   -6  a value does not fit its property's kind
 *   -7  more than 64 properties, 256 pages, or 2,048 cat and val forms together, repeats counted
 *   -8  held_len is less than VETXARNO_REGISTER_BYTES */
int32_t vetxarno_register(const uint8_t *text, size_t text_len, uint8_t *held, size_t held_len);

/* Joins two held registers and writes the held register of both into the first VETXARNO_REGISTER_BYTES bytes of `held`; later
 * bytes stay as they are. The properties are those of the first, then those that only the second has. The pages of the first
 * keep their places, and those that only the second has follow in its order. A page of both has the categories of both and the
 * values of both, each once: those of the first, then those that only the second has. Returns 0, or the first of these that
 * holds, in this order:
 *
 *   -22  first or second is no held register, or is too short for one
 *   -32  a property is declared with two kinds
 *    -7  both together have more than 64 properties, 256 pages, 2,048 categories and values, or 32,768 bytes of names and
 *        values. What both have counts once. A property's name counts once, and a page's namespace and name, its categories
 *        and its values for each page: names as composed, numbers at their shortest, booleans as true and false, links without
 *        blanks at their colon and those to the main namespace without the colon
 *    -8  held_len is less than VETXARNO_REGISTER_BYTES */
int32_t vetxarno_join(const uint8_t *first, size_t first_len, const uint8_t *second, size_t second_len, uint8_t *held,
                      size_t held_len);

/* Reads a query text and writes the held tree into the first VETXARNO_TREE_BYTES bytes of `tree`; later bytes stay as they are.
 * No register is needed. Texts that are read alike give the same bytes. Returns 0, or:
 *
 *   -12  the text is longer than 1,024 bytes
 *   -13  the text does not read as a query
 *   -14  <q> is nested deeper than 8, or a property chain has more than 8 names
 *   -15  a name or reference outside property values breaks its rule, or a category has a comparator
 *   -16  a property's piece breaks the rule for values
 *   -33  tree_len is less than VETXARNO_TREE_BYTES */
int32_t vetxarno_read(const uint8_t *text, size_t text_len, uint8_t *tree, size_t tree_len);

/* Fits a held tree to the properties of a held register, and writes the held query into the first VETXARNO_QUERY_BYTES bytes of
 * `held_query`; later bytes stay as they are. The bytes are those that vetxarno_query writes for the text. Returns 0, or the
 * first of these that holds, in this order:
 *
 *   -11  held_register is no held register, or is too short for one
 *   -34  tree is the held tree of no text that vetxarno_read accepts, or is too short for one
 *   -17  a property is not declared in the register
 *   -18  a piece does not fit its property's kind, or a subquery or chain goes through a property that is no link
 *   -19  the query has more than 256 nodes
 *   -20  held_query_len is less than VETXARNO_QUERY_BYTES */
int32_t vetxarno_fit(const uint8_t *tree, size_t tree_len, const uint8_t *held_register, size_t held_register_len,
                     uint8_t *held_query, size_t held_query_len);

/* Both in one call: reads a query text, fits it to the properties of a held register, and writes the held query into the
 * first VETXARNO_QUERY_BYTES bytes of `held_query`; later bytes stay as they are. Returns 0, or:
 *
 *   -11  held_register is no held register, or is too short for one
 *   -12  the text is longer than 1,024 bytes
 *   -13  the text does not read as a query
 *   -14  <q> is nested deeper than 8, or a property chain has more than 8 names
 *   -15  a name or reference outside property values breaks its rule, or a category has a comparator
 *   -16  a property's piece breaks the rule for values
 *   -17  a property is not declared in the register
 *   -18  a piece does not fit its property's kind, or a subquery or chain goes through a property that is no link
 *   -19  the query has more than 256 nodes
 *   -20  held_query_len is less than VETXARNO_QUERY_BYTES */
int32_t vetxarno_query(const uint8_t *held_register, size_t held_register_len, const uint8_t *text, size_t text_len,
                       uint8_t *held_query, size_t held_query_len);

/* Runs a held query on a held register, which need not be the one that the query was made with. Writes one byte for each
 * page of the register, in place order: 1 for a page that the query selects, 0 for any other. Later bytes
 * stay as they are. 256 bytes are enough for any register. Returns the number of pages marked 1, or:
 *
 *   -21  held_query is no held query, or is too short for one
 *   -22  held_register is no held register, or is too short for one
 *   -23  the query compares values of two kinds: a property has values of another kind in this register
 *   -24  marks_len is less than the number of pages */
int32_t vetxarno_ask(const uint8_t *held_query, size_t held_query_len, const uint8_t *held_register,
                     size_t held_register_len, uint8_t *marks, size_t marks_len);

#ifdef __cplusplus
}
#endif

#endif
