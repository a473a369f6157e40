/* The same registers in SQLite, in memory. The text is read by the plain implementation, then inserted in one transaction, numbers as
 * thousandths. */
#include <sqlite3.h>
#include <stdio.h>
#include <stdlib.h>
#include <string.h>

#include "bench.h"
#include "plain_text.h"

struct base {
    sqlite3 *db;
};

struct statement {
    sqlite3_stmt *at;
};

static const char SCHEMA[] =
    "CREATE TABLE pages (place INTEGER PRIMARY KEY, namespace TEXT, name TEXT);"
    "CREATE TABLE categories (place INTEGER, name TEXT);"
    "CREATE TABLE vals (place INTEGER, prop TEXT, number INTEGER, string TEXT);"
    "CREATE TABLE links (place INTEGER, prop TEXT, target INTEGER, namespace TEXT, name TEXT);"
    "CREATE INDEX pages_name ON pages (name, namespace);"
    "CREATE INDEX categories_name ON categories (name, place);"
    "CREATE INDEX vals_prop ON vals (prop, number);"
    "CREATE INDEX vals_string ON vals (prop, string, place);"
    "CREATE INDEX vals_place ON vals (place, prop, number);"
    "CREATE INDEX links_name ON links (prop, name, namespace, place);"
    "CREATE INDEX links_place ON links (place, prop, target);";

static const char *const INSERTS[] = {
    "INSERT INTO pages VALUES (?, ?, ?)", "INSERT INTO categories VALUES (?, ?)", "INSERT INTO vals VALUES (?, ?, ?, ?)",
    "INSERT INTO links VALUES (?, ?, ?, ?, ?)"};
enum { PAGES_TABLE, CATEGORIES, VALS, LINKS, TABLES };

static void need(struct base *base, int got, int wanted) {
    if (got != wanted) stop(sqlite3_errmsg(base->db));
}

static void run_sql(struct base *base, const char *sql) { need(base, sqlite3_exec(base->db, sql, NULL, NULL, NULL), SQLITE_OK); }

static void bind_text(sqlite3_stmt *s, int at, struct span text) {
    sqlite3_bind_text(s, at, (const char *)text.at, (int)text.len, SQLITE_STATIC);
}

static void insert(struct base *base, sqlite3_stmt *s, int place) {
    sqlite3_bind_int(s, 1, place);
    need(base, sqlite3_step(s), SQLITE_DONE);
    sqlite3_reset(s);
}

/* The place of the page that a link names, or null, and what it names. */
static void bind_link(sqlite3_stmt *s, const struct lines *l, const struct inner_form *link) {
    unsigned x = find_text(&l->names, link->name, link->value);
    int target = x == 0 ? -1 : l->names.page[x - 1] - 1;
    if (target < 0) sqlite3_bind_null(s, 3);
    else sqlite3_bind_int(s, 3, target);
    bind_text(s, 4, link->name);
    bind_text(s, 5, link->value);
}

static void bind_value(sqlite3_stmt *s, enum kind kind, const struct inner_form *form) {
    sqlite3_bind_int64(s, 3, kind == STRING ? 0 : kind == BOOLEAN ? (int64_t)form->code : (int64_t)(form->code - BIAS));
    bind_text(s, 4, form->value);
}

static void insert_form(struct base *base, sqlite3_stmt *const into[TABLES], const struct lines *l, const struct inner_form *form, int place) {
    if (form->prop < 0) {
        bind_text(into[CATEGORIES], 2, form->name);
        insert(base, into[CATEGORIES], place);
        return;
    }
    enum kind kind = l->prop[form->prop].kind;
    sqlite3_stmt *s = into[kind == PAGE ? LINKS : VALS];
    bind_text(s, 2, l->prop[form->prop].name);
    if (kind == PAGE) bind_link(s, l, form);
    else bind_value(s, kind, form);
    insert(base, s, place);
}

static void insert_page(struct base *base, sqlite3_stmt *const into[TABLES], const struct lines *l, int place) {
    const struct page_line *page = &l->page[place];
    bind_text(into[PAGES_TABLE], 2, page->space);
    bind_text(into[PAGES_TABLE], 3, page->name);
    insert(base, into[PAGES_TABLE], place);
    for (unsigned i = 0; i < page->count; i++) insert_form(base, into, l, &l->form[page->first + i], place);
}

struct base *base_load(const uint8_t *text, size_t len) {
    static struct lines l;
    sqlite3_stmt *into[TABLES];
    struct base *base = malloc(sizeof *base);
    if (base == NULL || sqlite3_open(":memory:", &base->db) != SQLITE_OK) stop("no database");
    if (read_lines(span_of(text, len), &l) != 0) stop("no register");
    run_sql(base, SCHEMA);
    run_sql(base, "BEGIN");
    for (int i = 0; i < TABLES; i++) need(base, sqlite3_prepare_v2(base->db, INSERTS[i], -1, &into[i], NULL), SQLITE_OK);
    for (unsigned i = 0; i < l.pages; i++) insert_page(base, into, &l, (int)i);
    for (int i = 0; i < TABLES; i++) sqlite3_finalize(into[i]);
    run_sql(base, "COMMIT");
    run_sql(base, "ANALYZE");
    return base;
}

void base_free(struct base *base) {
    sqlite3_close(base->db);
    free(base);
}

struct statement *base_prepare(struct base *base, const char *sql) {
    struct statement *s = malloc(sizeof *s);
    if (s == NULL) stop("no memory");
    need(base, sqlite3_prepare_v2(base->db, sql, -1, &s->at, NULL), SQLITE_OK);
    return s;
}

void statement_free(struct statement *s) {
    sqlite3_finalize(s->at);
    free(s);
}

int statement_run(struct statement *s, uint8_t *marks) {
    int count = 0, got;
    for (; (got = sqlite3_step(s->at)) == SQLITE_ROW; count++) marks[sqlite3_column_int(s->at, 0)] = 1;
    if (got != SQLITE_DONE) stop("a statement fails");
    sqlite3_reset(s->at);
    return count;
}
