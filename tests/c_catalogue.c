/* Templates with values, the columns of queries, and the catalogue; see README.md beside this file. The program ends with the
   number of the first line that isn't as it should be. */
#include "sqlkeep.h"

#include <limits.h>
#include <string.h>

#define WANT(condition) do { if (!(condition)) return __LINE__ % 251 + 1; } while (0)
#define TEXT(characters) {SQLKEEP_TEXT, 0, (const uint8_t *)(characters), sizeof(characters) - 1}
#define NUMBER(number) {SQLKEEP_INTEGER, (number), NULL, 0}

static const sqlkeep_parameter NOTHING_AT_ALL = {SQLKEEP_NULL, 0, NULL, 0};

static uint32_t filled(sqlkeep *session, const char *text, const sqlkeep_parameter *values, size_t count, sqlkeep_script *script) {
    return sqlkeep_read_filled(session, (const uint8_t *)text, strlen(text), values, count, script);
}

/* Reads a text, and executes its statements; whether all were accepted. */
static bool done(sqlkeep *session, const char *text, const sqlkeep_parameter *values, size_t count) {
    sqlkeep_script script;
    sqlkeep_outcome outcome;
    if (filled(session, text, values, count, &script) != SQLKEEP_OK || script.has_fault) return false;
    for (size_t at = 0; at < script.statements; at++) {
        if (sqlkeep_execute(session, at, &outcome) != SQLKEEP_OK || outcome.kind == SQLKEEP_REFUSED) return false;
    }
    return true;
}

static bool has_text(const uint8_t *bytes, size_t length, const char *want) {
    return length == strlen(want) && memcmp(bytes, want, length) == 0;
}

static bool has_value_text(sqlkeep *session, size_t row, size_t column, const char *want) {
    uint8_t bytes[200];
    size_t copied = 0;
    return sqlkeep_value_text(session, row, column, 0, bytes, sizeof bytes, &copied) == SQLKEEP_OK && has_text(bytes, copied, want);
}

/* Each of these values comes back by SELECT as it was. */
static int injections(sqlkeep *session) {
    static const sqlkeep_parameter TEXTS[] = {
        TEXT("'; DROP TABLE t; --"), TEXT("' OR '1' = '1"), TEXT("''"), TEXT(""), TEXT("?"), TEXT("a -- b"), TEXT("\\'"), TEXT("x'); INSERT INTO t VALUES (9, 'y"),
        TEXT("\xc3\xa9\xe2\x82\xac"), TEXT("line\nline"),
    };
    sqlkeep_outcome outcome;
    sqlkeep_script script;
    WANT(done(session, "CREATE TABLE t (k INT PRIMARY KEY, b VARCHAR(100));", NULL, 0));
    for (size_t at = 0; at < sizeof TEXTS / sizeof *TEXTS; at++) {
        const sqlkeep_parameter row[] = {NUMBER((int64_t)at), TEXTS[at]};
        WANT(done(session, "INSERT INTO t VALUES (?, ?);", row, 2));
    }
    for (size_t at = 0; at < sizeof TEXTS / sizeof *TEXTS; at++) {
        WANT(filled(session, "SELECT b FROM t WHERE b = ?;", &TEXTS[at], 1, &script) == SQLKEEP_OK && script.statements == 1);
        WANT(sqlkeep_execute(session, 0, &outcome) == SQLKEEP_OK && outcome.kind == SQLKEEP_ROWS && outcome.count == 1);
        WANT(has_value_text(session, 0, 0, (const char *)TEXTS[at].text));
    }
    return 0;
}

/* Integers at both ends, after a minus, and NULL. */
static int numbers(sqlkeep *session) {
    static const sqlkeep_parameter ENDS[] = {NUMBER(INT64_MIN), NUMBER(INT64_MAX), NUMBER(-1), NUMBER(0)};
    sqlkeep_cell cell;
    WANT(done(session, "COMMIT; CREATE TABLE n (a INT, b INT, c INT, d INT); INSERT INTO n VALUES (?, ?, 5 -?, ?); SELECT a, b, c, d FROM n;", ENDS, 4));
    WANT(sqlkeep_value(session, 0, 0, &cell) == SQLKEEP_OK && cell.kind == SQLKEEP_INTEGER && cell.integer == INT64_MIN);
    WANT(sqlkeep_value(session, 0, 1, &cell) == SQLKEEP_OK && cell.integer == INT64_MAX);
    WANT(sqlkeep_value(session, 0, 2, &cell) == SQLKEEP_OK && cell.integer == 6);
    WANT(done(session, "DELETE FROM n; INSERT INTO n (a) VALUES (?); SELECT a FROM n;", &NOTHING_AT_ALL, 1));
    WANT(sqlkeep_value(session, 0, 0, &cell) == SQLKEEP_OK && cell.kind == SQLKEEP_NULL);
    return 0;
}

/* What keeps a template from being read; the statements that were read stay. */
static int no_templates(sqlkeep *session) {
    static const sqlkeep_parameter TWO[] = {NUMBER(1), TEXT("\xff")};
    static const sqlkeep_parameter STRANGE = {7, 0, NULL, 0};
    sqlkeep_script script = {77, 77, 77};
    sqlkeep_place place;
    sqlkeep_outcome outcome;
    WANT(filled(session, "SELECT a FROM n;", NULL, 0, &script) == SQLKEEP_OK && script.statements == 1);
    WANT(filled(session, "SELECT a FROM n WHERE a = ?;", NULL, 0, &script) == SQLKEEP_WRONG_COUNT && script.statements == 1);
    WANT(filled(session, "SELECT a FROM n WHERE b = '?';", TWO, 1, &script) == SQLKEEP_WRONG_COUNT);
    WANT(filled(session, "SELECT a -- ?\n FROM n;", TWO, 1, &script) == SQLKEEP_WRONG_COUNT);
    WANT(filled(session, "SELECT a FROM n WHERE a = ? AND b = #;", TWO, 1, &script) == SQLKEEP_NO_TEMPLATE);
    WANT(filled(session, "SELECT ? 'open", TWO, 1, &script) == SQLKEEP_NO_TEMPLATE);
    WANT(filled(session, "SELECT ?, ? FROM n;", TWO, 2, &script) == SQLKEEP_NOT_UTF8);
    WANT(filled(session, "SELECT \xff FROM n;", NULL, 0, &script) == SQLKEEP_NOT_UTF8);
    WANT(filled(session, "SELECT ? FROM n;", &STRANGE, 1, &script) == SQLKEEP_NOTHING);
    WANT(sqlkeep_execute(session, 0, &outcome) == SQLKEEP_OK && outcome.kind == SQLKEEP_ROWS);
    /* The values of a call that failed are gone. */
    WANT(sqlkeep_read_bound(session, (const uint8_t *)"COMMIT;", 7, &script) == SQLKEEP_OK);
    WANT(sqlkeep_bind_integer(session, 5) == SQLKEEP_OK && sqlkeep_bind_null(session) == SQLKEEP_OK);
    WANT(sqlkeep_read_bound(session, (const uint8_t *)"SELECT ? FROM n;", 16, &script) == SQLKEEP_WRONG_COUNT);
    WANT(sqlkeep_read_bound(session, (const uint8_t *)"SELECT ?, ? FROM n;", 19, &script) == SQLKEEP_OK && script.statements == 1);
    WANT(sqlkeep_read_bound(session, (const uint8_t *)"SELECT ?, ? FROM n;", 19, &script) == SQLKEEP_WRONG_COUNT);
    /* Where a statement is faulty, the place is one of the template, however long the values are. */
    WANT(filled(session, "COMMIT; SELEC ? FROM n;", TWO, 1, &script) == SQLKEEP_OK && script.statements == 1 && script.has_fault == 1 && script.fault_at == 8);
    WANT(sqlkeep_fault(session, &place) == SQLKEEP_OK && place.at == 8 && place.word == 8 && place.end == 13 && place.is_cut == 0);
    WANT(filled(session, "SELECT ? FORM n;", TWO, 1, &script) == SQLKEEP_OK && script.has_fault == 1 && script.fault_at == 0);
    WANT(sqlkeep_fault(session, &place) == SQLKEEP_OK && place.at == 0 && place.word == 9 && place.end == 13 && place.is_cut == 0);
    WANT(filled(session, "SELECT ? FROM n", TWO, 1, &script) == SQLKEEP_OK && sqlkeep_fault(session, &place) == SQLKEEP_OK && place.word == 15 && place.is_cut == 1);
    WANT(filled(session, "SELECT ? FROM n;", TWO, 1, &script) == SQLKEEP_OK && sqlkeep_fault(session, &place) == SQLKEEP_NOTHING && place.word == 15);
    return 0;
}

static bool has_column(sqlkeep *session, size_t column, const char *want) {
    uint8_t bytes[100];
    size_t copied = 0;
    return sqlkeep_query_column(session, column, 0, bytes, sizeof bytes, &copied) == SQLKEEP_OK && has_text(bytes, copied, want);
}

/* The columns of queries, also where no row comes. */
static int columns(sqlkeep *session) {
    size_t count = 77;
    uint8_t bytes[1];
    WANT(done(session, "COMMIT; CREATE TABLE q (one INT, two VARCHAR(2)); COMMIT;", NULL, 0));
    WANT(sqlkeep_query(session, &count) == SQLKEEP_NOTHING && count == 77);
    WANT(done(session, "SELECT * FROM q;", NULL, 0));
    WANT(sqlkeep_query(session, &count) == SQLKEEP_OK && count == 2);
    WANT(has_column(session, 0, "ONE") && has_column(session, 1, "TWO"));
    WANT(sqlkeep_query_column(session, 2, 0, bytes, 1, &count) == SQLKEEP_NOTHING && count == 2);
    WANT(sqlkeep_query_column(session, 1, 1, bytes, 1, &count) == SQLKEEP_OK && count == 1 && bytes[0] == 'W');
    WANT(done(session, "SELECT two, x.one, one + 1 FROM q AS x;", NULL, 0));
    WANT(sqlkeep_query(session, &count) == SQLKEEP_OK && count == 3);
    WANT(has_column(session, 0, "TWO") && has_column(session, 1, "ONE") && has_column(session, 2, ""));
    WANT(done(session, "SELECT COUNT(*) FROM q;", NULL, 0));
    WANT(sqlkeep_query(session, &count) == SQLKEEP_OK && count == 1 && has_column(session, 0, "COUNT"));
    WANT(sqlkeep_query_column(session, 1, 0, bytes, 1, &count) == SQLKEEP_NOTHING);
    return 0;
}

static const char SCHEMA[] =
    "CREATE TABLE author (id INT PRIMARY KEY, name VARCHAR(40) DEFAULT 'no one', CONSTRAINT known UNIQUE NULLS NOT DISTINCT (name, id));"
    "CREATE TABLE book (author INT DEFAULT 5, title VARCHAR(40) NOT NULL, part INT CHECK (part > 0),"
    " CONSTRAINT by_whom FOREIGN KEY (title, author) REFERENCES author (name, id) MATCH FULL ON DELETE CASCADE ON UPDATE SET NULL INITIALLY DEFERRED,"
    " CONSTRAINT once UNIQUE (part) DEFERRABLE);"
    "CREATE TRIGGER first BEFORE INSERT ON book FOR EACH ROW SIGNAL 'x';"
    "CREATE TRIGGER second AFTER UPDATE OF title, author ON book BEGIN ATOMIC SIGNAL 'x'; SIGNAL 'y'; END;"
    "CREATE TRIGGER third AFTER DELETE ON author FOR EACH ROW SIGNAL 'x'; DROP TRIGGER first;";

typedef uint32_t (*copies)(sqlkeep *, size_t, size_t, uint8_t *, size_t, size_t *);

static uint32_t table_name(sqlkeep *s, size_t at, size_t from, uint8_t *buffer, size_t size, size_t *copied) {
    return sqlkeep_table_name(s, at, from, buffer, size, copied);
}
static uint32_t constraint_name(sqlkeep *s, size_t at, size_t from, uint8_t *buffer, size_t size, size_t *copied) {
    return sqlkeep_constraint_name(s, at, from, buffer, size, copied);
}
static uint32_t constraint_condition(sqlkeep *s, size_t at, size_t from, uint8_t *buffer, size_t size, size_t *copied) {
    return sqlkeep_constraint_condition(s, at, from, buffer, size, copied);
}
static uint32_t trigger_name(sqlkeep *s, size_t at, size_t from, uint8_t *buffer, size_t size, size_t *copied) {
    return sqlkeep_trigger_name(s, at, from, buffer, size, copied);
}

static bool is_named(sqlkeep *session, copies of, size_t at, const char *want) {
    uint8_t bytes[100];
    size_t copied = 0;
    return of(session, at, 0, bytes, sizeof bytes, &copied) == SQLKEEP_OK && has_text(bytes, copied, want);
}

static int tables(sqlkeep *session) {
    sqlkeep_column_type type = {77, 77};
    sqlkeep_cell cell;
    uint8_t bytes[100];
    size_t count = 77;
    WANT(sqlkeep_table(session, 1, &count) == SQLKEEP_OK && count == 3);
    WANT(sqlkeep_table(session, 2, &count) == SQLKEEP_NOTHING && count == 3);
    WANT(is_named(session, table_name, 0, "AUTHOR") && is_named(session, table_name, 1, "BOOK"));
    WANT(sqlkeep_table_name(session, 2, 0, bytes, 1, &count) == SQLKEEP_NOTHING);
    WANT(sqlkeep_column(session, 0, 1, &type) == SQLKEEP_OK && type.kind == SQLKEEP_COLUMN_VARCHAR && type.longest == 40);
    WANT(sqlkeep_column(session, 1, 0, &type) == SQLKEEP_OK && type.kind == SQLKEEP_COLUMN_INTEGER && type.longest == 0);
    WANT(sqlkeep_column(session, 1, 3, &type) == SQLKEEP_NOTHING && sqlkeep_column(session, 2, 0, &type) == SQLKEEP_NOTHING);
    WANT(sqlkeep_column_name(session, 1, 2, 0, bytes, sizeof bytes, &count) == SQLKEEP_OK && has_text(bytes, count, "PART"));
    WANT(sqlkeep_column_name(session, 0, 2, 0, bytes, sizeof bytes, &count) == SQLKEEP_NOTHING);
    WANT(sqlkeep_default(session, 0, 0, &cell) == SQLKEEP_OK && cell.kind == SQLKEEP_NULL);
    WANT(sqlkeep_default(session, 1, 0, &cell) == SQLKEEP_OK && cell.kind == SQLKEEP_INTEGER && cell.integer == 5);
    WANT(sqlkeep_default(session, 0, 1, &cell) == SQLKEEP_OK && cell.kind == SQLKEEP_TEXT && cell.length == 6);
    WANT(sqlkeep_default_text(session, 0, 1, 3, bytes, sizeof bytes, &count) == SQLKEEP_OK && has_text(bytes, count, "one"));
    WANT(sqlkeep_default(session, 0, 2, &cell) == SQLKEEP_NOTHING && sqlkeep_default_text(session, 5, 0, 0, bytes, 1, &count) == SQLKEEP_NOTHING);
    return 0;
}

/* The constraints in their order: primary key, KNOWN; NOT NULL, CHECK, BY_WHOM, ONCE. */
static int constraints(sqlkeep *session) {
    static const uint32_t KINDS[] = {SQLKEEP_PRIMARY_KEY, SQLKEEP_UNIQUE, SQLKEEP_NOT_NULL, SQLKEEP_CHECK, SQLKEEP_FOREIGN_KEY, SQLKEEP_UNIQUE};
    static const uint64_t COLUMNS[] = {1, 2, 1, 0, 2, 1};
    static const char *const NAMES[] = {"AUTHOR_C1", "KNOWN", "BOOK_C1", "BOOK_C2", "BY_WHOM", "ONCE"};
    sqlkeep_constraint_definition it;
    uint32_t column = 77;
    size_t count = 0;
    uint8_t bytes[1];
    for (size_t at = 0; at < 6; at++) {
        WANT(sqlkeep_constraint_at(session, at, &it) == SQLKEEP_OK && it.kind == KINDS[at] && it.columns == COLUMNS[at] && it.table == (at > 1));
        WANT(is_named(session, constraint_name, at, NAMES[at]));
    }
    WANT(it.deferrable == 1 && it.initially_deferred == 0 && it.nulls_not_distinct == 0);
    WANT(sqlkeep_constraint_at(session, 4, &it) == SQLKEEP_OK && it.deferrable == 1 && it.initially_deferred == 1 && it.referenced == 0 && it.match_full == 1);
    WANT(it.on_delete == SQLKEEP_CASCADE && it.on_update == SQLKEEP_SET_NULL && it.nulls_not_distinct == 0);
    WANT(sqlkeep_constraint_at(session, 1, &it) == SQLKEEP_OK && it.nulls_not_distinct == 1 && it.deferrable == 0 && it.initially_deferred == 0);
    WANT(it.referenced == 0 && it.match_full == 0 && it.on_delete == 0 && it.on_update == 0);
    WANT(sqlkeep_constraint_at(session, 0, &it) == SQLKEEP_OK && it.deferrable == 0);
    WANT(sqlkeep_constraint_column(session, 4, 0, &column) == SQLKEEP_OK && column == 1);
    WANT(sqlkeep_constraint_column(session, 4, 1, &column) == SQLKEEP_OK && column == 0);
    WANT(sqlkeep_referenced_column(session, 4, 0, &column) == SQLKEEP_OK && column == 1);
    WANT(sqlkeep_referenced_column(session, 4, 1, &column) == SQLKEEP_OK && column == 0);
    WANT(sqlkeep_constraint_column(session, 2, 0, &column) == SQLKEEP_OK && column == 1);
    column = 77;
    WANT(sqlkeep_constraint_column(session, 2, 1, &column) == SQLKEEP_NOTHING && sqlkeep_constraint_column(session, 3, 0, &column) == SQLKEEP_NOTHING);
    WANT(sqlkeep_referenced_column(session, 1, 0, &column) == SQLKEEP_NOTHING && sqlkeep_referenced_column(session, 4, 2, &column) == SQLKEEP_NOTHING);
    WANT(sqlkeep_constraint_column(session, 6, 0, &column) == SQLKEEP_NOTHING && column == 77);
    WANT(sqlkeep_constraint_at(session, 6, &it) == SQLKEEP_NOTHING && sqlkeep_constraint_name(session, 6, 0, bytes, 1, &count) == SQLKEEP_NOTHING);
    return 0;
}

static int triggers(sqlkeep *session) {
    sqlkeep_trigger_definition it;
    uint32_t column = 77;
    size_t count = 0;
    uint8_t bytes[1];
    WANT(is_named(session, trigger_name, 0, "SECOND") && is_named(session, trigger_name, 1, "THIRD"));
    WANT(sqlkeep_trigger_at(session, 0, &it) == SQLKEEP_OK && it.table == 1 && it.time == SQLKEEP_AFTER && it.event == SQLKEEP_UPDATE);
    WANT(it.granularity == SQLKEEP_FOR_EACH_STATEMENT && it.columns == 2 && it.statements == 2);
    WANT(sqlkeep_trigger_column(session, 0, 0, &column) == SQLKEEP_OK && column == 1);
    WANT(sqlkeep_trigger_column(session, 0, 2, &column) == SQLKEEP_NOTHING && column == 1);
    WANT(sqlkeep_trigger_at(session, 1, &it) == SQLKEEP_OK && it.table == 0 && it.event == SQLKEEP_DELETE && it.granularity == SQLKEEP_FOR_EACH_ROW);
    WANT(it.columns == 0 && it.statements == 1 && sqlkeep_trigger_column(session, 1, 0, &column) == SQLKEEP_NOTHING);
    WANT(sqlkeep_trigger_at(session, 2, &it) == SQLKEEP_NOTHING && sqlkeep_trigger_name(session, 2, 0, bytes, 1, &count) == SQLKEEP_NOTHING);
    return 0;
}

/* The conditions of CHECKs as texts, and of nothing else. */
static int conditions(void) {
    sqlkeep session = SQLKEEP_EMPTY;
    uint8_t bytes[100] = {77};
    size_t count = 77;
    WANT(sqlkeep_open(&session, 16, 65536) == SQLKEEP_OK);
    WANT(sqlkeep_constraint_condition(&session, 0, 0, bytes, sizeof bytes, &count) == SQLKEEP_NOTHING && count == 77 && bytes[0] == 77);
    WANT(done(&session, "CREATE TABLE t (a INT NOT NULL CHECK (a > 0), b VARCHAR(9), CHECK ((a) <> 7 AND (NOT ((b = 'it''s') OR b IS NULL))), UNIQUE (a));", NULL, 0));
    WANT(is_named(&session, constraint_condition, 1, "A > 0") && is_named(&session, constraint_condition, 2, "A <> 7 AND NOT (B = 'it''s' OR B IS NULL)"));
    WANT(sqlkeep_constraint_condition(&session, 1, 2, bytes, 2, &count) == SQLKEEP_OK && has_text(bytes, count, "> "));
    WANT(sqlkeep_constraint_condition(&session, 1, 9, bytes, 2, &count) == SQLKEEP_OK && count == 0);
    for (size_t at = 0; at < 5; at++) {
        count = 77;
        WANT(at == 1 || at == 2 || (sqlkeep_constraint_condition(&session, at, 0, bytes, sizeof bytes, &count) == SQLKEEP_NOTHING && count == 77));
    }
    WANT(sqlkeep_close(&session) == SQLKEEP_OK);
    return 0;
}

static int catalogue(void) {
    sqlkeep session = SQLKEEP_EMPTY;
    sqlkeep_sizes sizes = {77, 77, 77};
    WANT(sqlkeep_catalogue(&session, &sizes) == SQLKEEP_CLOSED && sizes.tables == 77);
    WANT(sqlkeep_open(&session, 16, 65536) == SQLKEEP_OK);
    WANT(sqlkeep_catalogue(&session, &sizes) == SQLKEEP_OK && sizes.tables == 0 && sizes.constraints == 0 && sizes.triggers == 0);
    WANT(done(&session, SCHEMA, NULL, 0));
    WANT(sqlkeep_catalogue(&session, &sizes) == SQLKEEP_OK && sizes.tables == 2 && sizes.constraints == 6 && sizes.triggers == 2);
    int failed = tables(&session);
    failed = failed ? failed : constraints(&session);
    failed = failed ? failed : triggers(&session);
    WANT(sqlkeep_close(&session) == SQLKEEP_OK);
    return failed;
}

/* Each function with an empty handle, and with none. */
static int closed(void) {
    sqlkeep empty = SQLKEEP_EMPTY;
    sqlkeep *handles[] = {&empty, NULL};
    for (size_t i = 0; i < 2; i++) {
        const uint32_t want = i == 0 ? SQLKEEP_CLOSED : SQLKEEP_NO_HANDLE;
        sqlkeep *it = handles[i];
        sqlkeep_script script;
        sqlkeep_sizes sizes;
        sqlkeep_column_type type;
        sqlkeep_cell cell;
        sqlkeep_constraint_definition constraint;
        sqlkeep_trigger_definition trigger;
        uint8_t bytes[1];
        size_t count;
        uint32_t column;
        WANT(sqlkeep_unbind(it) == want && sqlkeep_bind_null(it) == want && sqlkeep_bind_integer(it, 1) == want);
        WANT(sqlkeep_bind_text(it, bytes, 0) == want && sqlkeep_read_bound(it, bytes, 0, &script) == want);
        WANT(sqlkeep_read_filled(it, bytes, 0, NULL, 0, &script) == want);
        WANT(sqlkeep_query(it, &count) == want && sqlkeep_query_column(it, 0, 0, bytes, 1, &count) == want);
        WANT(sqlkeep_catalogue(it, &sizes) == want && sqlkeep_table(it, 0, &count) == want);
        WANT(sqlkeep_table_name(it, 0, 0, bytes, 1, &count) == want && sqlkeep_column(it, 0, 0, &type) == want);
        WANT(sqlkeep_column_name(it, 0, 0, 0, bytes, 1, &count) == want && sqlkeep_default(it, 0, 0, &cell) == want);
        WANT(sqlkeep_default_text(it, 0, 0, 0, bytes, 1, &count) == want && sqlkeep_constraint_at(it, 0, &constraint) == want);
        WANT(sqlkeep_constraint_name(it, 0, 0, bytes, 1, &count) == want && sqlkeep_constraint_column(it, 0, 0, &column) == want);
        WANT(sqlkeep_constraint_condition(it, 0, 0, bytes, 1, &count) == want && sqlkeep_dump(it, &count) == want);
        WANT(sqlkeep_dump_script(it, 0, 0, bytes, 1, &count) == want);
        WANT(sqlkeep_referenced_column(it, 0, 0, &column) == want && sqlkeep_trigger_at(it, 0, &trigger) == want);
        WANT(sqlkeep_trigger_name(it, 0, 0, bytes, 1, &count) == want && sqlkeep_trigger_column(it, 0, 0, &column) == want);
    }
    return 0;
}

int main(void) {
    sqlkeep session = SQLKEEP_EMPTY;
    WANT(sqlkeep_open(&session, 16, 65536) == SQLKEEP_OK);
    int failed = injections(&session);
    failed = failed ? failed : numbers(&session);
    failed = failed ? failed : no_templates(&session);
    failed = failed ? failed : columns(&session);
    WANT(sqlkeep_close(&session) == SQLKEEP_OK);
    failed = failed ? failed : conditions();
    failed = failed ? failed : catalogue();
    return failed ? failed : closed();
}
