/* Where statements are in their texts, faults in bytes of templates, messages, results that stay, and what violations are about; see
   README.md beside this file. The program ends with the number of the first line that isn't as it should be. */
#include "sqlkeep.h"

#include <stdio.h>
#include <string.h>

#define WANT(condition) do { if (!(condition)) return __LINE__ % 251 + 1; } while (0)

static uint32_t read_text(sqlkeep *session, const char *text, sqlkeep_script *script) {
    return sqlkeep_read(session, (const uint8_t *)text, strlen(text), script);
}

/* Reads and executes the statements of a text; the outcome is that of the last. */
static bool run(sqlkeep *session, const char *text, sqlkeep_outcome *outcome) {
    sqlkeep_script script;
    if (read_text(session, text, &script) != SQLKEEP_OK || script.has_fault) return false;
    for (size_t at = 0; at < script.statements; at++) {
        if (sqlkeep_execute(session, at, outcome) != SQLKEEP_OK) return false;
    }
    return true;
}

static bool says(sqlkeep *session, const char *want) {
    uint8_t bytes[300];
    size_t copied = 0;
    return sqlkeep_message(session, 0, bytes, sizeof bytes, &copied) == SQLKEEP_OK && copied == strlen(want) && memcmp(bytes, want, copied) == 0;
}

/* ---- where statements are */

/* Whether the statement at this place of a text is this part of it. */
static bool is_part(sqlkeep *session, size_t at, const char *text, const char *part) {
    sqlkeep_span span = {9, 9};
    const char *found = strstr(text, part);
    return sqlkeep_statement_place(session, at, &span) == SQLKEEP_OK && found != NULL && span.begin == (uint64_t)(found - text)
        && span.end == span.begin + strlen(part);
}

static const char TEXT[] =
    "  -- a comment; with a semicolon\n"
    "CREATE TABLE t (a INT, b VARCHAR(9) DEFAULT ';');\n"
    "CREATE TRIGGER r AFTER INSERT ON t FOR EACH ROW BEGIN ATOMIC DELETE FROM t; INSERT INTO t VALUES (1, 'END;'); END;"
    "SELECT a FROM t ; COMMIT;  SELECT FROM; COMMIT;";

static int places(sqlkeep *session) {
    sqlkeep_script script;
    sqlkeep_span span = {9, 9};
    WANT(sqlkeep_statement_place(session, 0, &span) == SQLKEEP_NOTHING && span.begin == 9 && span.end == 9);
    WANT(read_text(session, TEXT, &script) == SQLKEEP_OK && script.statements == 4 && script.has_fault);
    for (int again = 0; again < 2; again++) {
        WANT(is_part(session, 3, TEXT, "COMMIT;"));
        WANT(is_part(session, 0, TEXT, "CREATE TABLE t (a INT, b VARCHAR(9) DEFAULT ';');"));
        WANT(is_part(session, 1, TEXT, "CREATE TRIGGER r AFTER INSERT ON t FOR EACH ROW BEGIN ATOMIC DELETE FROM t; INSERT INTO t VALUES (1, 'END;'); END;"));
        WANT(is_part(session, 2, TEXT, "SELECT a FROM t ;"));
        span.begin = 9;
        WANT(sqlkeep_statement_place(session, 4, &span) == SQLKEEP_NOTHING && span.begin == 9);
    }
    WANT(read_text(session, "COMMIT;", &script) == SQLKEEP_OK && is_part(session, 0, "COMMIT;", "COMMIT;"));
    WANT(sqlkeep_statement_place(session, 1, &span) == SQLKEEP_NOTHING);
    return 0;
}

/* ---- templates */

static const sqlkeep_parameter VALUES[] = {
    {SQLKEEP_INTEGER, -12345, NULL, 0},
    {SQLKEEP_TEXT, 0, (const uint8_t *)"it's; a '", 9},
    {SQLKEEP_NULL, 0, NULL, 0},
};

static uint32_t fill(sqlkeep *session, const char *template, size_t count, sqlkeep_script *script) {
    return sqlkeep_read_filled(session, (const uint8_t *)template, strlen(template), VALUES, count, script);
}

static bool has_fault(sqlkeep *session, uint64_t at, uint64_t word, uint64_t end, uint64_t is_cut) {
    sqlkeep_place place;
    return sqlkeep_fault(session, &place) == SQLKEEP_OK && place.at == at && place.word == word && place.end == end && place.is_cut == is_cut;
}

static int templates(sqlkeep *session) {
    static const char TWO[] = "INSERT INTO t VALUES (?, ?); SELECT '?' FROM t WHERE a = ?;";
    sqlkeep_script script;
    WANT(fill(session, TWO, 3, &script) == SQLKEEP_OK && script.statements == 2 && script.has_fault == 0);
    WANT(is_part(session, 0, TWO, "INSERT INTO t VALUES (?, ?);"));
    WANT(is_part(session, 1, TWO, "SELECT '?' FROM t WHERE a = ?;"));
    /* a wrong word behind two values, the end of the text, and values that are wrong words themselves */
    WANT(fill(session, "INSERT INTO t VALUES (?, ?) x;", 2, &script) == SQLKEEP_OK && script.has_fault && script.fault_at == 0);
    WANT(has_fault(session, 0, 28, 29, 0));
    WANT(fill(session, "COMMIT; INSERT INTO t VALUES (?, ?)", 2, &script) == SQLKEEP_OK && script.statements == 1 && script.fault_at == 8);
    WANT(has_fault(session, 8, 35, 35, 1));
    WANT(fill(session, "DELETE FROM ? WHERE a = ?;", 2, &script) == SQLKEEP_OK && has_fault(session, 0, 12, 13, 0));
    WANT(fill(session, "DELETE FROM t WHERE a = ? ?;", 2, &script) == SQLKEEP_OK && has_fault(session, 0, 26, 27, 0));
    WANT(fill(session, "?? COMMIT;", 2, &script) == SQLKEEP_OK && script.fault_at == 0 && has_fault(session, 0, 0, 1, 0));
    return 0;
}

/* ---- messages */

static int messages(sqlkeep *session) {
    sqlkeep_outcome outcome;
    uint8_t bytes[9];
    size_t copied = 9;
    WANT(says(session, "done"));
    WANT(run(session, "CREATE TABLE u (a INT CONSTRAINT u_key PRIMARY KEY, CONSTRAINT small CHECK (a < 9));", &outcome) && says(session, "done"));
    WANT(run(session, "INSERT INTO u VALUES (1), (2);", &outcome) && says(session, "rows changed: 2"));
    WANT(run(session, "SELECT a FROM u;", &outcome) && says(session, "rows: 2"));
    WANT(run(session, "INSERT INTO u VALUES (1);", &outcome) && says(session, "refused: Violation, constraint U_KEY, row 1"));
    WANT(run(session, "SELECT a FROM v;", &outcome) && says(session, "refused: Unknown: table V isn't there"));
    WANT(run(session, "COMMIT; CREATE TABLE u (b INT);", &outcome) && says(session, "refused: Duplicate: table U is there already"));
    WANT(run(session, "CREATE TRIGGER no_one BEFORE DELETE ON u FOR EACH ROW SIGNAL 'it''s so';", &outcome) && says(session, "done"));
    WANT(run(session, "DELETE FROM u;", &outcome) && says(session, "refused: Signal, trigger NO_ONE: it's so"));
    WANT(sqlkeep_message(session, 9, bytes, sizeof bytes, &copied) == SQLKEEP_OK && copied == 9 && memcmp(bytes, "Signal, t", 9) == 0);
    WANT(sqlkeep_message(session, 999, bytes, sizeof bytes, &copied) == SQLKEEP_OK && copied == 0);
    WANT(run(session, "START TRANSACTION; ROLLBACK TO SAVEPOINT s;", &outcome) && says(session, "refused: UnknownSavepoint: savepoint S isn't there"));
    WANT(run(session, "ROLLBACK;", &outcome));
    WANT(strcmp(sqlkeep_status_text(SQLKEEP_NO_MEMORY), "out of memory") == 0 && strcmp(sqlkeep_status_text(77), "unknown status") == 0);
    return 0;
}

/* ---- results */

static bool has_column(sqlkeep_result *result, size_t column, const char *want) {
    uint8_t bytes[20];
    size_t copied = 0;
    return sqlkeep_result_column(result, column, 0, bytes, sizeof bytes, &copied) == SQLKEEP_OK && copied == strlen(want) && memcmp(bytes, want, copied) == 0;
}

static bool has_two_rows(sqlkeep_result *result) {
    sqlkeep_cell cells[4];
    uint8_t texts[8] = "--------";
    sqlkeep_taken taken = {9, 9};
    sqlkeep_result_sizes sizes = {9, 9};
    return sqlkeep_result_size(result, &sizes) == SQLKEEP_OK && sizes.rows == 2 && sizes.columns == 2
        && sqlkeep_result_rows(result, 0, cells, 4, texts, 8, &taken) == SQLKEEP_OK && taken.rows == 2 && taken.bytes == 5
        && cells[0].integer == 1 && cells[1].length == 2 && cells[2].integer == 2 && cells[3].length == 3 && memcmp(texts, "abcde---", 8) == 0
        && sqlkeep_result_rows(result, 1, cells, 4, texts, 2, &taken) == SQLKEEP_OK && taken.rows == 0;
}

static int results(sqlkeep *session, sqlkeep_result *kept) {
    sqlkeep_result other = SQLKEEP_NO_RESULT;
    sqlkeep_result_sizes sizes = {9, 9};
    sqlkeep_outcome outcome;
    sqlkeep_cell cell = {9, 9, 9};
    uint8_t byte = 9;
    size_t copied = 9;
    sqlkeep_taken taken = {9, 9};
    WANT(run(session, "CREATE TABLE r (n INT, word VARCHAR(5)); INSERT INTO r VALUES (1, 'ab'), (2, 'cde');", &outcome));
    WANT(sqlkeep_result_take(session, kept) == SQLKEEP_NOTHING && !kept->is_open);
    WANT(run(session, "SELECT n, word FROM r;", &outcome) && sqlkeep_result_take(session, kept) == SQLKEEP_OK && has_two_rows(kept));
    WANT(has_column(kept, 0, "N") && has_column(kept, 1, "WORD"));
    WANT(sqlkeep_result_column(kept, 2, 0, &byte, 1, &copied) == SQLKEEP_NOTHING && copied == 9 && byte == 9);
    /* the outcome has no rows any more, and no further statement takes them away */
    WANT(says(session, "rows: 0") && sqlkeep_value(session, 0, 0, &cell) == SQLKEEP_NOTHING && cell.kind == 9);
    WANT(sqlkeep_result_take(session, kept) == SQLKEEP_OPEN && has_two_rows(kept));
    WANT(run(session, "DELETE FROM r; COMMIT; SELECT COUNT(*) FROM r;", &outcome) && has_two_rows(kept));
    WANT(sqlkeep_result_take(session, &other) == SQLKEEP_OK && has_column(&other, 0, "COUNT") && has_two_rows(kept));
    WANT(sqlkeep_result_size(&other, &sizes) == SQLKEEP_OK && sizes.rows == 1 && sizes.columns == 1);
    WANT(sqlkeep_result_free(&other) == SQLKEEP_OK && sqlkeep_result_free(&other) == SQLKEEP_CLOSED);
    /* a query that gave no row has columns; without the text of the query there are none */
    WANT(run(session, "SELECT * FROM r WHERE n = 7;", &outcome) && sqlkeep_result_take(session, &other) == SQLKEEP_OK);
    WANT(sqlkeep_result_size(&other, &sizes) == SQLKEEP_OK && sizes.rows == 0 && sizes.columns == 2 && has_column(&other, 1, "WORD"));
    WANT(sqlkeep_result_free(&other) == SQLKEEP_OK);
    sqlkeep_script script;
    WANT(run(session, "SELECT n FROM r;", &outcome) && read_text(session, "COMMIT;", &script) == SQLKEEP_OK);
    WANT(sqlkeep_result_take(session, &other) == SQLKEEP_OK && sqlkeep_result_size(&other, &sizes) == SQLKEEP_OK && sizes.columns == 0);
    WANT(sqlkeep_result_free(&other) == SQLKEEP_OK);
    /* an empty result */
    sizes.rows = 9;
    WANT(sqlkeep_result_size(&other, &sizes) == SQLKEEP_CLOSED && sizes.rows == 9);
    WANT(sqlkeep_result_column(&other, 0, 0, &byte, 1, &copied) == SQLKEEP_CLOSED && byte == 9);
    WANT(sqlkeep_result_rows(&other, 0, &cell, 1, &byte, 1, &taken) == SQLKEEP_CLOSED && taken.rows == 9 && cell.kind == 9);
    return 0;
}

/* ---- violations */

static const char PENDING[] =
    "CREATE TABLE p (a INT, b VARCHAR(4), CONSTRAINT p_key UNIQUE (a, b) DEFERRABLE INITIALLY DEFERRED);"
    "CREATE TABLE c (x INT, y VARCHAR(4), CONSTRAINT of_p FOREIGN KEY (y, x) REFERENCES q (b, a) INITIALLY DEFERRED);";

static bool is_about(sqlkeep *session, size_t at, uint32_t constraint, uint32_t table, uint64_t columns, uint64_t row, uint64_t other) {
    sqlkeep_violation_shown shown;
    return sqlkeep_violation_about(session, at, &shown) == SQLKEEP_OK && shown.constraint == constraint && shown.table == table
        && shown.columns == columns && shown.row == row && shown.other == other;
}

static bool has_integer(sqlkeep *session, size_t at, size_t place, int64_t integer) {
    sqlkeep_cell cell;
    return sqlkeep_violation_value(session, at, place, &cell) == SQLKEEP_OK && cell.kind == SQLKEEP_INTEGER && cell.integer == integer;
}

static bool has_text(sqlkeep *session, size_t at, size_t place, const char *want) {
    uint8_t bytes[9];
    size_t copied = 0;
    return sqlkeep_violation_text(session, at, place, 0, bytes, sizeof bytes, &copied) == SQLKEEP_OK && copied == strlen(want) && memcmp(bytes, want, copied) == 0;
}

static int violations(void) {
    sqlkeep session = SQLKEEP_EMPTY;
    sqlkeep_violation_shown shown = {9, 9, 9, 9, 9};
    sqlkeep_outcome outcome;
    sqlkeep_cell cell = {9, 9, 9};
    uint8_t byte = 9;
    size_t count = 9;
    WANT(sqlkeep_open(&session, 16, 65536) == SQLKEEP_OK);
    WANT(run(&session, "CREATE TABLE q (a INT, b VARCHAR(4), PRIMARY KEY (b, a));", &outcome) && run(&session, PENDING, &outcome) && outcome.kind == SQLKEEP_DONE);
    /* rows 1 to 4 of P, of which 1 and 3 have one key and 4 has a null; row 5 of C refers to no row of Q, 6 and 7 have a null or a row */
    WANT(run(&session, "INSERT INTO p VALUES (1, 'one'), (2, 'two'), (1, 'one'), (1, NULL);", &outcome) && outcome.count == 4);
    WANT(run(&session, "INSERT INTO c VALUES (7, 'b'), (NULL, 'b'); INSERT INTO q VALUES (3, 'q'); INSERT INTO c VALUES (3, 'q');", &outcome));
    WANT(sqlkeep_violation_about(&session, 0, &shown) == SQLKEEP_NOTHING && shown.row == 9);
    WANT(sqlkeep_pending(&session, &count) == SQLKEEP_OK && count == 3);
    WANT(is_about(&session, 0, 1, 1, 2, 1, 3) && has_integer(&session, 0, 0, 1) && has_text(&session, 0, 1, "one"));
    WANT(is_about(&session, 1, 1, 1, 2, 3, 1) && has_integer(&session, 1, 0, 1));
    WANT(is_about(&session, 2, 2, 2, 2, 5, 0) && has_text(&session, 2, 0, "b") && has_integer(&session, 2, 1, 7));
    WANT(sqlkeep_violation_value(&session, 2, 2, &cell) == SQLKEEP_NOTHING && cell.kind == 9);
    WANT(sqlkeep_violation_value(&session, 3, 0, &cell) == SQLKEEP_NOTHING && cell.kind == 9);
    WANT(sqlkeep_violation_text(&session, 3, 0, 0, &byte, 1, &count) == SQLKEEP_NOTHING && byte == 9);
    WANT(sqlkeep_close(&session) == SQLKEEP_OK);
    WANT(sqlkeep_violation_about(&session, 0, &shown) == SQLKEEP_CLOSED && sqlkeep_violation_value(&session, 0, 0, &cell) == SQLKEEP_CLOSED);
    return 0;
}

/* Calls with a handle or a result that is empty or null. */
static int empty(void) {
    sqlkeep session = SQLKEEP_EMPTY;
    sqlkeep_result result = SQLKEEP_NO_RESULT;
    sqlkeep_span span;
    size_t count;
    uint8_t byte;
    WANT(sqlkeep_statement_place(&session, 0, &span) == SQLKEEP_CLOSED && sqlkeep_message(&session, 0, &byte, 1, &count) == SQLKEEP_CLOSED);
    WANT(sqlkeep_result_take(&session, &result) == SQLKEEP_CLOSED && sqlkeep_result_free(&result) == SQLKEEP_CLOSED);
    WANT(sqlkeep_result_take(NULL, &result) == SQLKEEP_NO_HANDLE && sqlkeep_result_take(&session, NULL) == SQLKEEP_NO_HANDLE);
    WANT(sqlkeep_result_free(NULL) == SQLKEEP_NO_HANDLE && sqlkeep_statement_place(NULL, 0, &span) == SQLKEEP_NO_HANDLE);
    return 0;
}

int main(void) {
    sqlkeep session = SQLKEEP_EMPTY;
    sqlkeep_result kept = SQLKEEP_NO_RESULT;
    WANT(sqlkeep_open(&session, 16, 65536) == SQLKEEP_OK);
    int failed = places(&session);
    failed = failed ? failed : templates(&session);
    failed = failed ? failed : messages(&session);
    failed = failed ? failed : results(&session, &kept);
    WANT(sqlkeep_close(&session) == SQLKEEP_OK);
    if (failed) return failed;
    /* the rows stay when their session is closed */
    WANT(has_two_rows(&kept) && sqlkeep_result_free(&kept) == SQLKEEP_OK);
    failed = violations();
    return failed ? failed : empty();
}
