/* The questions: a category, a number comparison, a chain of eight names, 256 nodes, a link, and a string. SQL has
 * numbers as thousandths. */
#include <stdio.h>
#include <string.h>

#include "bench.h"

static void put(struct question *q, const char *label, const char *query, const char *sql) {
    q->label = label;
    snprintf(q->query, sizeof q->query, "%s", query);
    snprintf(q->sql, sizeof q->sql, "%s", sql);
}

static void add(char *to, size_t size, const char *more) {
    size_t len = strlen(to);
    if (len + strlen(more) >= size) stop("a question is too long");
    strcpy(to + len, more);
}

/* A chain of `count` links, the first under one property and the later ones under another. The caller ends both texts. */
static void add_links(struct question *q, int count, const char *first, const char *later) {
    char line[160];
    add(q->sql, sizeof q->sql, "SELECT DISTINCT l1.place FROM links l1");
    for (int i = 2; i <= count; i++) {
        snprintf(line, sizeof line, " JOIN links l%d ON l%d.place = l%d.target AND l%d.prop = '%s'", i, i, i - 1, i, later);
        add(q->sql, sizeof q->sql, line);
    }
    add(q->query, sizeof q->query, "[[");
    add(q->query, sizeof q->query, first);
    for (int i = 2; i <= count; i++) {
        add(q->query, sizeof q->query, ".");
        add(q->query, sizeof q->query, later);
    }
}

/* 63 article comparisons that every page meets, of four nodes each with their AND, and a subquery of four: 256. A library from before
 * links were nodes of their own makes as many of it. */
static void add_comparisons(struct question *q, const char *first, const char *prop, const char *page) {
    char line[240];
    add(q->sql, sizeof q->sql, "SELECT p.place FROM pages p WHERE ");
    for (int i = 0; i < 63; i++) {
        snprintf(line, sizeof line, "[[>%s]]", first);
        add(q->query, sizeof q->query, line);
        snprintf(line, sizeof line, "p.name >= '%s' AND ", first);
        add(q->sql, sizeof q->sql, line);
    }
    snprintf(line, sizeof line, "[[%s::<q>[[%s]]</q>]]", prop, page);
    add(q->query, sizeof q->query, line);
    snprintf(line, sizeof line,
             "EXISTS (SELECT 1 FROM links l JOIN pages t ON t.place = l.target WHERE l.place = p.place"
             " AND l.prop = '%s' AND t.namespace = '' AND t.name = '%s')", prop, page);
    add(q->sql, sizeof q->sql, line);
}

/* A name or a string under a property, and where the tables have it. */
#define LINK_IS "links WHERE namespace = '' AND name"
#define STRING_IS "vals WHERE string"
static void put_piece(struct question *q, const char *label, const char *prop, const char *piece, const char *from) {
    q->label = label;
    snprintf(q->query, sizeof q->query, "[[%s::%s]]", prop, piece);
    snprintf(q->sql, sizeof q->sql, "SELECT DISTINCT place FROM %s = '%s' AND prop = '%s'", from, piece, prop);
}

static void write_sample(struct question out[QUESTIONS]) {
    put(&out[0], "category", "[[Category:Delivery]]", "SELECT DISTINCT place FROM categories WHERE name = 'Delivery'");
    put(&out[1], "number comparison", "[[Crates::>12]]",
        "SELECT DISTINCT place FROM vals WHERE prop = 'Crates' AND number >= 12000");
    put(&out[2], "chain of 8 names", "", "");
    add_links(&out[2], 8, "Brought by", "In region");
    add(out[2].query, sizeof out[2].query, "::North]]");
    add(out[2].sql, sizeof out[2].sql, " WHERE l1.prop = 'Brought by' AND l8.namespace = '' AND l8.name = 'North'");
    put(&out[3], "256 nodes", "", "");
    add_comparisons(&out[3], "B", "Brought by", "Bakery Noor");
    put_piece(&out[4], "a link", "Brought by", "Bakery Noor", LINK_IS);
    put_piece(&out[5], "a string", "Lot", "A7", STRING_IS);
}

static void write_full(struct question out[QUESTIONS]) {
    put(&out[0], "category", "[[Category:c5]]", "SELECT DISTINCT place FROM categories WHERE name = 'c5'");
    put(&out[1], "number comparison", "[[N::>128]]", "SELECT DISTINCT place FROM vals WHERE prop = 'N' AND number >= 128000");
    put(&out[2], "chain of 8 names", "", "");
    add_links(&out[2], 7, "L", "L");
    add(out[2].query, sizeof out[2].query, ".N::>128]]");
    add(out[2].sql, sizeof out[2].sql,
        " JOIN vals v ON v.place = l7.target AND v.prop = 'N' AND v.number >= 128000 WHERE l1.prop = 'L'");
    put(&out[3], "256 nodes", "", "");
    add_comparisons(&out[3], "p", "L", "p5");
    put_piece(&out[4], "a link", "L", "p5", LINK_IS);
    put_piece(&out[5], "a string", "S", "5", STRING_IS);
}

void write_questions(int full, struct question out[QUESTIONS]) {
    if (full) write_full(out);
    else write_sample(out);
}

void write_link_and_string(struct question out[2]) {
    put_piece(&out[0], "a link", "L", "p5", LINK_IS);
    put_piece(&out[1], "a string", "L", "p5", STRING_IS);
}
