/* Rows many at a time, the kinds of statements, and lines of JSON; see README.md beside this file. The program ends with the number
   of the first line that isn't as it should be. */
#include "sqlkeep.h"

#include <string.h>

#define WANT(condition) do { if (!(condition)) return __LINE__ % 251 + 1; } while (0)

static bool done(sqlkeep *session, const char *text) {
    sqlkeep_script script;
    sqlkeep_outcome outcome;
    if (sqlkeep_read(session, (const uint8_t *)text, strlen(text), &script) != SQLKEEP_OK || script.has_fault) return false;
    for (size_t at = 0; at < script.statements; at++) {
        if (sqlkeep_execute(session, at, &outcome) != SQLKEEP_OK || outcome.kind == SQLKEEP_REFUSED) return false;
    }
    return true;
}

static bool is_null(sqlkeep_cell cell) {
    return cell.kind == SQLKEEP_NULL && cell.integer == 0 && cell.length == 0;
}

static bool is_integer(sqlkeep_cell cell, int64_t integer) {
    return cell.kind == SQLKEEP_INTEGER && cell.integer == integer && cell.length == 0;
}

static bool is_text(sqlkeep_cell cell, uint64_t length) {
    return cell.kind == SQLKEEP_TEXT && cell.integer == 0 && cell.length == length;
}

/* Three rows of two columns: (1, 'ab'), (-2, NULL), (NULL, 'cde'). */
static int all_rows(sqlkeep *session) {
    sqlkeep_cell cells[7] = {{9, 9, 9}, {9, 9, 9}, {9, 9, 9}, {9, 9, 9}, {9, 9, 9}, {9, 9, 9}, {9, 9, 9}};
    uint8_t texts[8] = "--------";
    sqlkeep_taken taken = {9, 9};
    WANT(sqlkeep_rows(session, 0, cells, 7, texts, 8, &taken) == SQLKEEP_OK && taken.rows == 3 && taken.bytes == 5);
    WANT(is_integer(cells[0], 1) && is_text(cells[1], 2) && is_integer(cells[2], -2) && is_null(cells[3]));
    WANT(is_null(cells[4]) && is_text(cells[5], 3) && cells[6].kind == 9 && cells[6].integer == 9 && cells[6].length == 9);
    WANT(memcmp(texts, "abcde---", 8) == 0);
    WANT(sqlkeep_rows(session, 1, cells, 7, texts, 8, &taken) == SQLKEEP_OK && taken.rows == 2 && taken.bytes == 3);
    WANT(is_integer(cells[0], -2) && is_text(cells[3], 3) && memcmp(texts, "cdede---", 8) == 0);
    return 0;
}

/* Buffers with room for some of the rows, and for none. */
static int some_rows(sqlkeep *session) {
    sqlkeep_cell cells[6];
    uint8_t texts[4];
    sqlkeep_taken taken;
    WANT(sqlkeep_rows(session, 0, cells, 5, texts, 4, &taken) == SQLKEEP_OK && taken.rows == 2 && taken.bytes == 2);
    WANT(sqlkeep_rows(session, 0, cells, 6, texts, 4, &taken) == SQLKEEP_OK && taken.rows == 2 && taken.bytes == 2);
    WANT(sqlkeep_rows(session, 2, cells, 6, texts, 2, &taken) == SQLKEEP_OK && taken.rows == 0 && taken.bytes == 0);
    WANT(sqlkeep_rows(session, 0, cells, 1, texts, 4, &taken) == SQLKEEP_OK && taken.rows == 0 && taken.bytes == 0);
    WANT(sqlkeep_rows(session, 3, cells, 6, texts, 4, &taken) == SQLKEEP_OK && taken.rows == 0 && taken.bytes == 0);
    WANT(sqlkeep_rows(session, SIZE_MAX, cells, 6, texts, 4, &taken) == SQLKEEP_OK && taken.rows == 0 && taken.bytes == 0);
    return 0;
}

/* Of an outcome without rows none is copied. */
static int no_rows(sqlkeep *session) {
    sqlkeep_cell cell = {9, 9, 9};
    uint8_t texts[1] = "-";
    sqlkeep_taken taken = {9, 9};
    WANT(done(session, "COMMIT;"));
    WANT(sqlkeep_rows(session, 0, &cell, 1, texts, 1, &taken) == SQLKEEP_OK && taken.rows == 0 && taken.bytes == 0);
    WANT(cell.kind == 9 && texts[0] == '-');
    return 0;
}

static int kinds(sqlkeep *session) {
    static const char TEXT[] =
        "CREATE TABLE u (a INT); ALTER TABLE u ADD CHECK (a > 0); CREATE TRIGGER r AFTER DELETE ON u SIGNAL 'no'; DROP TRIGGER r;"
        "INSERT INTO u VALUES (1); UPDATE u SET a = 2; DELETE FROM u; SELECT * FROM u; START TRANSACTION; SAVEPOINT s;"
        "ROLLBACK TO SAVEPOINT s; RELEASE SAVEPOINT s; SET CONSTRAINTS ALL DEFERRED; ROLLBACK; COMMIT;";
    static const uint32_t KINDS[] = {0, 0, 0, 0, 1, 1, 1, 2, 3, 3, 3, 3, 3, 3, 3};
    sqlkeep_script script;
    uint32_t kind = 9;
    WANT(sqlkeep_read(session, (const uint8_t *)TEXT, sizeof TEXT - 1, &script) == SQLKEEP_OK && script.statements == 15);
    for (size_t at = 0; at < 15; at++) WANT(sqlkeep_statement_kind(session, at, &kind) == SQLKEEP_OK && kind == KINDS[at]);
    WANT(sqlkeep_statement_kind(session, 15, &kind) == SQLKEEP_NOTHING && kind == KINDS[14]);
    return 0;
}

static bool has_line(sqlkeep *session, const char *want) {
    uint8_t bytes[400];
    size_t copied = 0;
    if (sqlkeep_lines_json(session, 7) != SQLKEEP_OK) return false;
    if (sqlkeep_transcript(session, 0, bytes, sizeof bytes, &copied) != SQLKEEP_OK) return false;
    return copied == strlen(want) && memcmp(bytes, want, copied) == 0;
}

static int json(sqlkeep *session) {
    sqlkeep_script script;
    sqlkeep_outcome outcome;
    static const char TEXT[] = "INSERT INTO t VALUES (1, 'again'); SELECT * FROM nowhere;";
    WANT(done(session, "SELECT b FROM t WHERE a = 1;") && has_line(session, "{\"number\":7,\"kind\":\"rows\",\"rows\":[[\"ab\"]]}\n"));
    WANT(sqlkeep_read(session, (const uint8_t *)TEXT, sizeof TEXT - 1, &script) == SQLKEEP_OK);
    WANT(sqlkeep_execute(session, 0, &outcome) == SQLKEEP_OK);
    WANT(has_line(session, "{\"number\":7,\"kind\":\"refused\",\"cause\":13,\"name\":\"Violation\",\"constraint\":\"T_C1\",\"row\":1}\n"));
    WANT(sqlkeep_explain(session, 1) == SQLKEEP_OK && sqlkeep_execute(session, 1, &outcome) == SQLKEEP_OK);
    WANT(has_line(session, "{\"number\":7,\"kind\":\"refused\",\"cause\":1,\"name\":\"Unknown\","
                           "\"about\":{\"fault\":\"unknown\",\"item\":\"table\",\"name\":\"NOWHERE\"},\"account\":[]}\n"));
    WANT(sqlkeep_explain(session, 0) == SQLKEEP_OK && done(session, "ROLLBACK;") && has_line(session, "{\"number\":7,\"kind\":\"done\"}\n"));
    return 0;
}

/* Rows by their numbers: 1 is (1, 'ab'), 2 is (-2, NULL), 3 is (NULL, 'cde'), all of the first table. */
static int stored(sqlkeep *session) {
    sqlkeep_stored_row row = {9, 9};
    sqlkeep_cell cell = {9, 9, 9};
    uint8_t text[4] = "----";
    size_t copied = 9;
    WANT(sqlkeep_row(session, 3, &row) == SQLKEEP_OK && row.table == 0 && row.columns == 2);
    WANT(sqlkeep_row_value(session, 2, 0, &cell) == SQLKEEP_OK && is_integer(cell, -2));
    WANT(sqlkeep_row_value(session, 2, 1, &cell) == SQLKEEP_OK && is_null(cell));
    WANT(sqlkeep_row_value(session, 3, 1, &cell) == SQLKEEP_OK && is_text(cell, 3));
    WANT(sqlkeep_row_text(session, 3, 1, 1, text, 4, &copied) == SQLKEEP_OK && copied == 2 && memcmp(text, "de--", 4) == 0);
    WANT(sqlkeep_row_text(session, 3, 0, 0, text, 4, &copied) == SQLKEEP_OK && copied == 0);
    WANT(sqlkeep_row_value(session, 1, 2, &cell) == SQLKEEP_NOTHING && is_text(cell, 3));
    WANT(sqlkeep_row_text(session, 4, 0, 0, text, 4, &copied) == SQLKEEP_NOTHING && copied == 0 && memcmp(text, "de--", 4) == 0);
    row.table = 9;
    WANT(sqlkeep_row(session, 0, &row) == SQLKEEP_NOTHING && sqlkeep_row(session, UINT64_MAX, &row) == SQLKEEP_NOTHING && row.table == 9);
    WANT(done(session, "DELETE FROM t WHERE a = 1;") && sqlkeep_row(session, 1, &row) == SQLKEEP_NOTHING);
    WANT(done(session, "ROLLBACK;") && sqlkeep_row(session, 1, &row) == SQLKEEP_OK && row.table == 0);
    return 0;
}

/* The modes of constraints as they are now: T_C1 can't be deferred, LATE is deferred at first. */
static int modes(sqlkeep *session) {
    uint32_t mode = 9;
    WANT(done(session, "CREATE TABLE late (a INT, CONSTRAINT late CHECK (a > 0) INITIALLY DEFERRED);"));
    WANT(sqlkeep_constraint_mode(session, 0, &mode) == SQLKEEP_OK && mode == SQLKEEP_IMMEDIATE);
    WANT(sqlkeep_constraint_mode(session, 1, &mode) == SQLKEEP_OK && mode == SQLKEEP_DEFERRED);
    WANT(done(session, "START TRANSACTION; SET CONSTRAINTS late IMMEDIATE;"));
    WANT(sqlkeep_constraint_mode(session, 1, &mode) == SQLKEEP_OK && mode == SQLKEEP_IMMEDIATE);
    WANT(done(session, "COMMIT;") && sqlkeep_constraint_mode(session, 1, &mode) == SQLKEEP_OK && mode == SQLKEEP_DEFERRED);
    WANT(sqlkeep_constraint_mode(session, 2, &mode) == SQLKEEP_NOTHING && mode == SQLKEEP_DEFERRED);
    return 0;
}

/* Each of the calls over an empty handle leaves what it was given. */
static int closed(sqlkeep *session) {
    sqlkeep_cell cell = {9, 9, 9};
    sqlkeep_taken taken = {9, 9};
    uint8_t texts[1] = "-";
    uint32_t kind = 9;
    WANT(sqlkeep_rows(session, 0, &cell, 1, texts, 1, &taken) == SQLKEEP_CLOSED && cell.kind == 9 && taken.rows == 9 && texts[0] == '-');
    WANT(sqlkeep_statement_kind(session, 0, &kind) == SQLKEEP_CLOSED && kind == 9 && sqlkeep_lines_json(session, 1) == SQLKEEP_CLOSED);
    WANT(sqlkeep_rows(NULL, 0, &cell, 1, texts, 1, &taken) == SQLKEEP_NO_HANDLE && sqlkeep_statement_kind(NULL, 0, &kind) == SQLKEEP_NO_HANDLE);
    WANT(sqlkeep_lines_json(NULL, 1) == SQLKEEP_NO_HANDLE);
    sqlkeep_stored_row row = {9, 9};
    size_t copied = 9;
    WANT(sqlkeep_row(session, 1, &row) == SQLKEEP_CLOSED && row.table == 9 && sqlkeep_row_value(session, 1, 0, &cell) == SQLKEEP_CLOSED && cell.kind == 9);
    WANT(sqlkeep_row_text(session, 1, 0, 0, texts, 1, &copied) == SQLKEEP_CLOSED && copied == 9 && texts[0] == '-');
    WANT(sqlkeep_constraint_mode(session, 0, &kind) == SQLKEEP_CLOSED && kind == 9);
    WANT(sqlkeep_row(NULL, 1, &row) == SQLKEEP_NO_HANDLE && sqlkeep_row_value(NULL, 1, 0, &cell) == SQLKEEP_NO_HANDLE);
    WANT(sqlkeep_row_text(NULL, 1, 0, 0, texts, 1, &copied) == SQLKEEP_NO_HANDLE && sqlkeep_constraint_mode(NULL, 0, &kind) == SQLKEEP_NO_HANDLE);
    return 0;
}

int main(void) {
    static int (*const PARTS[])(sqlkeep *) = {all_rows, some_rows, no_rows, kinds, json, stored, modes};
    sqlkeep session = SQLKEEP_EMPTY;
    int line = closed(&session);
    if (line != 0) return line;
    WANT(sqlkeep_open(&session, 16, 65536) == SQLKEEP_OK);
    WANT(done(&session, "CREATE TABLE t (a INT UNIQUE, b VARCHAR(9)); INSERT INTO t VALUES (1, 'ab'), (-2, NULL), (NULL, 'cde'); COMMIT; SELECT * FROM t;"));
    for (size_t part = 0; part < sizeof PARTS / sizeof *PARTS; part++) {
        line = PARTS[part](&session);
        if (line != 0) return line;
    }
    WANT(sqlkeep_close(&session) == SQLKEEP_OK);
    return 0;
}
