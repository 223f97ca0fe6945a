/* Two sessions side by side, and calls that are answered by a status; see README.md beside this file. The program ends with
   the number of the first line that isn't as it should be. */
#include "sqlkeep.h"

#include <string.h>

#define WANT(condition) do { if (!(condition)) return __LINE__ % 251 + 1; } while (0)

static const char FIRST[] = "CREATE TABLE t (a INT PRIMARY KEY); INSERT INTO t VALUES (1), (2); COMMIT; SELECT a FROM t;";
static const char SECOND[] = "CREATE TABLE t (b VARCHAR(3)); INSERT INTO t VALUES ('x'); SELECT b FROM t;";

static uint32_t run_text(sqlkeep *session, const char *text, sqlkeep_summary *summary) {
    return sqlkeep_run(session, (const uint8_t *)text, strlen(text), summary);
}

static bool has_transcript(sqlkeep *session, const char *want) {
    uint8_t bytes[500];
    size_t copied = 0;
    return sqlkeep_transcript(session, 0, bytes, sizeof bytes, &copied) == SQLKEEP_OK
        && copied == strlen(want) && memcmp(bytes, want, copied) == 0;
}

/* Two sessions keep what each of them ran. */
static int side_by_side(void) {
    sqlkeep one = SQLKEEP_EMPTY, two = SQLKEEP_EMPTY;
    sqlkeep_summary summary;
    WANT(sqlkeep_open(&one, 16, 65536) == SQLKEEP_OK);
    WANT(sqlkeep_open(&two, 1, 2) == SQLKEEP_OK);
    WANT(run_text(&one, FIRST, &summary) == SQLKEEP_OK && summary.accepted == 4 && summary.refused == 0);
    WANT(run_text(&two, SECOND, &summary) == SQLKEEP_OK && summary.accepted == 3 && summary.has_fault == 0);
    WANT(has_transcript(&one, "1 ok\n2 ok 2\n3 ok\n4 rows 2\n| 1\n| 2\n"));
    WANT(has_transcript(&two, "1 ok\n2 ok 1\n3 rows 1\n| 'x'\nend rolled back\n"));
    WANT(run_text(&two, FIRST, &summary) == SQLKEEP_OK && summary.accepted == 3 && summary.refused == 1);
    WANT(has_transcript(&one, "1 ok\n2 ok 2\n3 ok\n4 rows 2\n| 1\n| 2\n"));
    WANT(sqlkeep_close(&one) == SQLKEEP_OK);
    WANT(has_transcript(&two, "1 ok\n2 refused 17 TooManyChanges\n3 ok\n4 rows 0\n"));
    WANT(sqlkeep_close(&two) == SQLKEEP_OK);
    return 0;
}

static uint32_t read_text(sqlkeep *session, const char *text, sqlkeep_script *script) {
    return sqlkeep_read(session, (const uint8_t *)text, strlen(text), script);
}

static bool has_text(const uint8_t *bytes, size_t length, const char *want) {
    return length == strlen(want) && memcmp(bytes, want, length) == 0;
}

static const char KEYS[] =
    "CREATE TABLE p (k INT PRIMARY KEY);"
    "CREATE TABLE c (a INT, b VARCHAR(5), CONSTRAINT of_p FOREIGN KEY (a) REFERENCES p INITIALLY DEFERRED);"
    "INSERT INTO p VALUES (1); COMMIT; INSERT INTO c VALUES (1, 'one'), (2, NULL); SAVEPOINT s;"
    "INSERT INTO c VALUES (3, 'x'); SELECT a, b FROM c; INSERT INTO p VALUES (1);";

/* What each statement answers, and the rows of a query. */
static int values(sqlkeep *session) {
    sqlkeep_script script;
    sqlkeep_outcome outcome;
    sqlkeep_cell cell;
    uint8_t text[100];
    size_t count = 0;
    WANT(read_text(session, KEYS, &script) == SQLKEEP_OK && script.statements == 9 && script.has_fault == 0);
    for (size_t place = 0; place < 8; place++) {
        WANT(sqlkeep_execute(session, place, &outcome) == SQLKEEP_OK && outcome.kind != SQLKEEP_REFUSED && outcome.cause == 0);
    }
    WANT(outcome.kind == SQLKEEP_ROWS && outcome.count == 3);
    WANT(sqlkeep_columns(session, 2, &count) == SQLKEEP_OK && count == 2);
    WANT(sqlkeep_columns(session, 3, &count) == SQLKEEP_NOTHING && count == 2);
    WANT(sqlkeep_value(session, 1, 0, &cell) == SQLKEEP_OK && cell.kind == SQLKEEP_INTEGER && cell.integer == 2);
    WANT(sqlkeep_value(session, 1, 1, &cell) == SQLKEEP_OK && cell.kind == SQLKEEP_NULL);
    WANT(sqlkeep_value(session, 0, 1, &cell) == SQLKEEP_OK && cell.kind == SQLKEEP_TEXT && cell.length == 3);
    WANT(sqlkeep_value(session, 0, 2, &cell) == SQLKEEP_NOTHING);
    WANT(sqlkeep_value_text(session, 0, 1, 1, text, sizeof text, &count) == SQLKEEP_OK && has_text(text, count, "ne"));
    WANT(sqlkeep_cause(session, 0, text, sizeof text, &count) == SQLKEEP_NOTHING);
    WANT(sqlkeep_lines(session, 8) == SQLKEEP_OK);
    WANT(has_transcript(session, "8 rows 3\n| 1, 'one'\n| 2, NULL\n| 3, 'x'\n"));
    return 0;
}

/* A refusal, and a refused COMMIT. */
static int refusals(sqlkeep *session) {
    sqlkeep_outcome outcome;
    sqlkeep_done work;
    uint8_t text[100];
    size_t count = 0;
    uint64_t row = 0;
    bool is_open = false;
    WANT(sqlkeep_execute(session, 8, &outcome) == SQLKEEP_OK && outcome.kind == SQLKEEP_REFUSED && outcome.cause == 13);
    WANT(sqlkeep_cause(session, 0, text, sizeof text, &count) == SQLKEEP_OK && has_text(text, count, "13 Violation"));
    WANT(sqlkeep_constraint(session, 0, text, sizeof text, &count) == SQLKEEP_OK && has_text(text, count, "P_C1"));
    WANT(sqlkeep_trigger(session, 0, text, sizeof text, &count) == SQLKEEP_OK && count == 0);
    WANT(sqlkeep_execute(session, 9, &outcome) == SQLKEEP_NOTHING);
    WANT(sqlkeep_pending(session, &count) == SQLKEEP_OK && count == 2);
    WANT(sqlkeep_violation(session, 1, &row, text, sizeof text, &count) == SQLKEEP_OK && row == 4 && has_text(text, count, "OF_P"));
    WANT(sqlkeep_violation(session, 2, &row, text, sizeof text, &count) == SQLKEEP_NOTHING);
    WANT(sqlkeep_rollback_to(session, (const uint8_t *)"S", 1, &outcome) == SQLKEEP_OK && outcome.kind == SQLKEEP_DONE);
    WANT(sqlkeep_work(session, &work) == SQLKEEP_OK && work.undone == 1);
    WANT(sqlkeep_rollback_to(session, (const uint8_t *)"T", 1, &outcome) == SQLKEEP_OK && outcome.cause == 7);
    WANT(sqlkeep_rollback_to(session, (const uint8_t *)"\xff", 1, &outcome) == SQLKEEP_NOT_UTF8 && outcome.cause == 7);
    WANT(sqlkeep_in_transaction(session, &is_open) == SQLKEEP_OK && is_open);
    WANT(sqlkeep_commit(session, &outcome) == SQLKEEP_OK && outcome.cause == 19 && outcome.row == 3);
    WANT(sqlkeep_constraint(session, 0, text, sizeof text, &count) == SQLKEEP_OK && has_text(text, count, "OF_P"));
    WANT(sqlkeep_in_transaction(session, &is_open) == SQLKEEP_OK && !is_open);
    WANT(sqlkeep_rollback(session) == SQLKEEP_OK);
    WANT(sqlkeep_pending(session, &count) == SQLKEEP_OK && count == 0);
    return 0;
}

static int statements(void) {
    sqlkeep session = SQLKEEP_EMPTY;
    WANT(sqlkeep_open(&session, 16, 65536) == SQLKEEP_OK);
    int failed = values(&session);
    failed = failed ? failed : refusals(&session);
    WANT(sqlkeep_close(&session) == SQLKEEP_OK);
    return failed;
}

/* Every function with an empty handle. */
static int empty(void) {
    sqlkeep session = SQLKEEP_EMPTY;
    sqlkeep_script script;
    sqlkeep_outcome outcome;
    sqlkeep_cell cell;
    sqlkeep_done work;
    uint8_t text[1];
    size_t count = 0;
    uint64_t row = 0;
    bool is_open = false;
    WANT(read_text(&session, KEYS, &script) == SQLKEEP_CLOSED);
    WANT(sqlkeep_execute(&session, 0, &outcome) == SQLKEEP_CLOSED);
    WANT(sqlkeep_explain(&session, 1) == SQLKEEP_CLOSED);
    WANT(sqlkeep_lines(&session, 1) == SQLKEEP_CLOSED);
    WANT(sqlkeep_columns(&session, 0, &count) == SQLKEEP_CLOSED);
    WANT(sqlkeep_value(&session, 0, 0, &cell) == SQLKEEP_CLOSED);
    WANT(sqlkeep_value_text(&session, 0, 0, 0, text, 1, &count) == SQLKEEP_CLOSED);
    WANT(sqlkeep_cause(&session, 0, text, 1, &count) == SQLKEEP_CLOSED);
    WANT(sqlkeep_constraint(&session, 0, text, 1, &count) == SQLKEEP_CLOSED);
    WANT(sqlkeep_trigger(&session, 0, text, 1, &count) == SQLKEEP_CLOSED);
    WANT(sqlkeep_signal(&session, 0, text, 1, &count) == SQLKEEP_CLOSED);
    WANT(sqlkeep_commit(&session, &outcome) == SQLKEEP_CLOSED);
    WANT(sqlkeep_rollback(&session) == SQLKEEP_CLOSED);
    WANT(sqlkeep_rollback_to(&session, text, 0, &outcome) == SQLKEEP_CLOSED);
    WANT(sqlkeep_in_transaction(&session, &is_open) == SQLKEEP_CLOSED);
    WANT(sqlkeep_work(&session, &work) == SQLKEEP_CLOSED);
    WANT(sqlkeep_pending(&session, &count) == SQLKEEP_CLOSED);
    WANT(sqlkeep_violation(&session, 0, &row, text, 1, &count) == SQLKEEP_CLOSED);
    return 0;
}

/* Every function with no handle. */
static int absent(void) {
    sqlkeep_summary summary;
    sqlkeep_script script;
    sqlkeep_outcome outcome;
    sqlkeep_cell cell;
    sqlkeep_done work;
    uint8_t text[1];
    size_t count = 0;
    uint64_t row = 0;
    bool is_open = false;
    WANT(sqlkeep_open(NULL, 16, 65536) == SQLKEEP_NO_HANDLE);
    WANT(sqlkeep_close(NULL) == SQLKEEP_NO_HANDLE);
    WANT(run_text(NULL, KEYS, &summary) == SQLKEEP_NO_HANDLE);
    WANT(sqlkeep_transcript(NULL, 0, text, 1, &count) == SQLKEEP_NO_HANDLE);
    WANT(read_text(NULL, KEYS, &script) == SQLKEEP_NO_HANDLE);
    WANT(sqlkeep_execute(NULL, 0, &outcome) == SQLKEEP_NO_HANDLE);
    WANT(sqlkeep_explain(NULL, 1) == SQLKEEP_NO_HANDLE);
    WANT(sqlkeep_lines(NULL, 1) == SQLKEEP_NO_HANDLE);
    WANT(sqlkeep_columns(NULL, 0, &count) == SQLKEEP_NO_HANDLE);
    WANT(sqlkeep_value(NULL, 0, 0, &cell) == SQLKEEP_NO_HANDLE);
    WANT(sqlkeep_value_text(NULL, 0, 0, 0, text, 1, &count) == SQLKEEP_NO_HANDLE);
    WANT(sqlkeep_cause(NULL, 0, text, 1, &count) == SQLKEEP_NO_HANDLE);
    WANT(sqlkeep_constraint(NULL, 0, text, 1, &count) == SQLKEEP_NO_HANDLE);
    WANT(sqlkeep_trigger(NULL, 0, text, 1, &count) == SQLKEEP_NO_HANDLE);
    WANT(sqlkeep_signal(NULL, 0, text, 1, &count) == SQLKEEP_NO_HANDLE);
    WANT(sqlkeep_commit(NULL, &outcome) == SQLKEEP_NO_HANDLE);
    WANT(sqlkeep_rollback(NULL) == SQLKEEP_NO_HANDLE);
    WANT(sqlkeep_rollback_to(NULL, text, 0, &outcome) == SQLKEEP_NO_HANDLE);
    WANT(sqlkeep_in_transaction(NULL, &is_open) == SQLKEEP_NO_HANDLE);
    WANT(sqlkeep_work(NULL, &work) == SQLKEEP_NO_HANDLE);
    WANT(sqlkeep_pending(NULL, &count) == SQLKEEP_NO_HANDLE);
    WANT(sqlkeep_violation(NULL, 0, &row, text, 1, &count) == SQLKEEP_NO_HANDLE);
    return 0;
}

static const char LOGGED[] =
    "CREATE TABLE t (a INT CONSTRAINT known CHECK (a > 0)); CREATE TABLE log (a INT);"
    "CREATE TRIGGER note AFTER INSERT ON t REFERENCING NEW AS n FOR EACH ROW INSERT INTO log VALUES (n.a);"
    "INSERT INTO t VALUES (7); INSERT INTO t VALUES (0);";

/* The accounts of statements, by a script and one after the other. */
static int accounts(void) {
    sqlkeep session = SQLKEEP_EMPTY;
    sqlkeep_summary summary;
    sqlkeep_script script;
    sqlkeep_outcome outcome;
    size_t at;
    WANT(sqlkeep_open(&session, 16, 65536) == SQLKEEP_OK);
    WANT(sqlkeep_explain(&session, 1) == SQLKEEP_OK);
    WANT(run_text(&session, LOGGED, &summary) == SQLKEEP_OK && summary.accepted == 4 && summary.refused == 1);
    WANT(has_transcript(&session,
        "1 ok\n2 ok\n3 ok\n4 ok 1\n  insert T row 1 (7)\n  trigger NOTE NEW (7)\n  statement 1\n    insert LOG row 2 (7)\n"
        "5 refused 13 Violation KNOWN row 3\n  insert T row 3 (0)\n  KNOWN: T row 3 (0) makes A > 0 false (0 > 0)\nend rolled back\n"));
    WANT(read_text(&session, LOGGED, &script) == SQLKEEP_OK && script.statements == 5);
    for (at = 0; at < 4; at++) {
        WANT(sqlkeep_execute(&session, at, &outcome) == SQLKEEP_OK && outcome.kind != SQLKEEP_REFUSED);
    }
    WANT(sqlkeep_lines(&session, 9) == SQLKEEP_OK);
    WANT(has_transcript(&session, "9 ok 1\n  insert T row 1 (7)\n  trigger NOTE NEW (7)\n  statement 1\n    insert LOG row 2 (7)\n"));
    WANT(sqlkeep_explain(&session, 0) == SQLKEEP_OK);
    WANT(sqlkeep_execute(&session, 4, &outcome) == SQLKEEP_OK && outcome.kind == SQLKEEP_REFUSED && outcome.row == 3);
    WANT(sqlkeep_lines(&session, 5) == SQLKEEP_OK);
    WANT(has_transcript(&session, "5 refused 13 Violation KNOWN row 3\n"));
    WANT(sqlkeep_explain(&session, 1) == SQLKEEP_OK);
    WANT(sqlkeep_execute(&session, 4, &outcome) == SQLKEEP_OK);
    WANT(sqlkeep_rollback(&session) == SQLKEEP_OK);
    WANT(sqlkeep_lines(&session, 5) == SQLKEEP_OK);
    WANT(has_transcript(&session, "5 refused 13 Violation KNOWN row 3\n"));
    WANT(sqlkeep_close(&session) == SQLKEEP_OK);
    return 0;
}

/* A table with a trigger before each row, and one whose rows are doubled and then updated. */
static const char LARGE[] =
    "CREATE TABLE t (a INT); CREATE TRIGGER before_t BEFORE INSERT ON t REFERENCING NEW AS n FOR EACH ROW SET n.a = n.a + 1;"
    "CREATE TABLE many (a INT); INSERT INTO many VALUES (0); COMMIT;"
    "INSERT INTO many SELECT a FROM many; UPDATE many SET a = a + 1; INSERT INTO t VALUES (5); ROLLBACK;";

/* At 1,048,576 changes of a transaction an INSERT is refused before its triggers are asked, so only the limit is told. */
static int a_full_transaction(void) {
    sqlkeep session = SQLKEEP_EMPTY;
    sqlkeep_script script;
    sqlkeep_outcome outcome;
    WANT(sqlkeep_open(&session, 16, 65536) == SQLKEEP_OK);
    WANT(read_text(&session, LARGE, &script) == SQLKEEP_OK && script.statements == 9);
    for (size_t at = 0; at < 5; at++) {
        WANT(sqlkeep_execute(&session, at, &outcome) == SQLKEEP_OK && outcome.kind != SQLKEEP_REFUSED);
    }
    for (size_t doubled = 0; doubled < 15; doubled++) {
        WANT(sqlkeep_execute(&session, 5, &outcome) == SQLKEEP_OK && outcome.count == (uint64_t)1 << doubled);
    }
    for (size_t updated = 0; updated < 31; updated++) {
        WANT(sqlkeep_execute(&session, 6, &outcome) == SQLKEEP_OK && outcome.count == 32768);
    }
    /* 32,767 and 31 times 32,768 changes: one is left. */
    WANT(sqlkeep_explain(&session, 1) == SQLKEEP_OK);
    WANT(sqlkeep_execute(&session, 7, &outcome) == SQLKEEP_OK && sqlkeep_lines(&session, 1) == SQLKEEP_OK);
    WANT(has_transcript(&session, "1 ok 1\n  trigger BEFORE_T NEW (5)\n  insert T row 32769 (6)\n"));
    WANT(sqlkeep_execute(&session, 7, &outcome) == SQLKEEP_OK && outcome.cause == SQLKEEP_CAUSE_TRANSACTION_TOO_LARGE);
    WANT(sqlkeep_lines(&session, 2) == SQLKEEP_OK && has_transcript(&session, "2 refused 18 TransactionTooLarge\n  a transaction has at most 1048576 row changes\n"));
    WANT(sqlkeep_execute(&session, 8, &outcome) == SQLKEEP_OK && outcome.kind == SQLKEEP_DONE);
    WANT(sqlkeep_close(&session) == SQLKEEP_OK);
    return 0;
}

static const char NAMES[] = "CREATE TABLE t (a INT); INSERT INTO t (b) VALUES (1); CREATE TABLE t (a INT); COMMIT;";

/* The name that a refusal is about, and the place of a fault. */
static int names(void) {
    sqlkeep session = SQLKEEP_EMPTY;
    sqlkeep_summary summary;
    sqlkeep_script script;
    sqlkeep_outcome outcome;
    WANT(sqlkeep_open(&session, 16, 65536) == SQLKEEP_OK);
    WANT(sqlkeep_explain(&session, 1) == SQLKEEP_OK);
    WANT(run_text(&session, "COMMIT;\n COMIT;", &summary) == SQLKEEP_OK && summary.fault_at == 9);
    WANT(has_transcript(&session, "1 ok\n2 fault 9\n  line 2, column 2: COMIT; wanted INSERT or UPDATE or DELETE or SELECT or CREATE or ALTER or DROP or COMMIT or "
                                  "ROLLBACK or START or SAVEPOINT or RELEASE or SET\n     COMIT;\n     ^\n"));
    WANT(read_text(&session, NAMES, &script) == SQLKEEP_OK && script.statements == 4);
    WANT(sqlkeep_execute(&session, 0, &outcome) == SQLKEEP_OK);
    WANT(sqlkeep_execute(&session, 1, &outcome) == SQLKEEP_OK && outcome.cause == 1);
    WANT(sqlkeep_lines(&session, 7) == SQLKEEP_OK);
    WANT(has_transcript(&session, "7 refused 1 Unknown\n  column B isn't there\n"));
    WANT(sqlkeep_execute(&session, 2, &outcome) == SQLKEEP_OK && outcome.cause == 2);
    WANT(sqlkeep_lines(&session, 8) == SQLKEEP_OK);
    WANT(has_transcript(&session, "8 refused 2 Duplicate\n  table T is there already\n"));
    WANT(read_text(&session, NAMES, &script) == SQLKEEP_OK);
    WANT(sqlkeep_lines(&session, 8) == SQLKEEP_OK);
    WANT(has_transcript(&session, "8 refused 2 Duplicate\n"));
    WANT(sqlkeep_execute(&session, 1, &outcome) == SQLKEEP_OK && outcome.cause == 1);
    WANT(sqlkeep_execute(&session, 3, &outcome) == SQLKEEP_OK && outcome.cause == 0);
    WANT(sqlkeep_lines(&session, 9) == SQLKEEP_OK);
    WANT(has_transcript(&session, "9 ok\n"));
    WANT(sqlkeep_close(&session) == SQLKEEP_OK);
    return 0;
}

static bool has_fault(sqlkeep *session, const char *text, uint64_t at, uint64_t word, uint64_t end, uint64_t is_cut) {
    sqlkeep_script script;
    sqlkeep_place place;
    return read_text(session, text, &script) == SQLKEEP_OK && script.has_fault == 1 && script.fault_at == at && sqlkeep_fault(session, &place) == SQLKEEP_OK
        && place.at == at && place.word == word && place.end == end && place.is_cut == is_cut;
}

/* Where the wrong word of a text is. */
static int faults(void) {
    sqlkeep session = SQLKEEP_EMPTY;
    sqlkeep_script script;
    sqlkeep_place place = {7, 7, 7, 7};
    WANT(sqlkeep_fault(&session, &place) == SQLKEEP_CLOSED && place.at == 7);
    WANT(sqlkeep_fault(NULL, &place) == SQLKEEP_NO_HANDLE && place.word == 7);
    WANT(sqlkeep_open(&session, 16, 65536) == SQLKEEP_OK);
    WANT(sqlkeep_fault(&session, &place) == SQLKEEP_NOTHING && place.at == 7);
    WANT(has_fault(&session, "COMMIT; SELECT a FORM t;", 8, 17, 21, 0));
    WANT(has_fault(&session, "SELECT a FROM t", 0, 15, 15, 1));
    WANT(has_fault(&session, "SELECT a FROM t \n -- the end\n", 0, 29, 29, 1));
    WANT(has_fault(&session, "SELECT a FROM t WHERE b = 'x", 0, 26, 26, 0));
    WANT(has_fault(&session, " )", 1, 1, 2, 0));
    WANT(read_text(&session, "COMMIT;", &script) == SQLKEEP_OK && sqlkeep_fault(&session, &place) == SQLKEEP_NOTHING && place.is_cut == 7);
    WANT(sqlkeep_close(&session) == SQLKEEP_OK);
    return 0;
}

/* Each status but that for want of memory. */
static int statuses(void) {
    sqlkeep session = SQLKEEP_EMPTY;
    sqlkeep_summary summary = {7, 7, 7, 7, 7, 7};
    uint8_t byte = 0;
    size_t copied = 7;
    WANT(sqlkeep_close(&session) == SQLKEEP_CLOSED);
    WANT(run_text(&session, FIRST, &summary) == SQLKEEP_CLOSED && summary.accepted == 7);
    WANT(sqlkeep_transcript(&session, 0, &byte, 1, &copied) == SQLKEEP_CLOSED && copied == 7);
    WANT(sqlkeep_open(&session, 0, 1) == SQLKEEP_LIMITS);
    WANT(sqlkeep_open(&session, 65, 1) == SQLKEEP_LIMITS);
    WANT(sqlkeep_open(&session, 1, 0) == SQLKEEP_LIMITS);
    WANT(sqlkeep_open(&session, 1, 65537) == SQLKEEP_LIMITS);
    WANT(sqlkeep_open(&session, 32, 65536) == SQLKEEP_OK);
    WANT(sqlkeep_open(&session, 32, 65536) == SQLKEEP_OPEN);
    WANT(run_text(&session, "COMMIT; \xff", &summary) == SQLKEEP_NOT_UTF8 && summary.accepted == 7);
    WANT(run_text(&session, "COMMIT; COMIT;", &summary) == SQLKEEP_OK);
    WANT(summary.accepted == 1 && summary.has_fault == 1 && summary.fault_at == 8);
    WANT(sqlkeep_transcript(&session, 2, &byte, 1, &copied) == SQLKEEP_OK && copied == 1 && byte == 'o');
    WANT(sqlkeep_transcript(&session, 1000, &byte, 1, &copied) == SQLKEEP_OK && copied == 0);
    WANT(sqlkeep_transcript(&session, SIZE_MAX, &byte, 0, &copied) == SQLKEEP_OK && copied == 0);
    WANT(sqlkeep_close(&session) == SQLKEEP_OK);
    WANT(sqlkeep_close(&session) == SQLKEEP_CLOSED);
    return 0;
}

int main(void) {
    int failed = side_by_side();
    failed = failed ? failed : statuses();
    failed = failed ? failed : statements();
    failed = failed ? failed : accounts();
    failed = failed ? failed : names();
    failed = failed ? failed : faults();
    failed = failed ? failed : a_full_transaction();
    failed = failed ? failed : absent();
    return failed ? failed : empty();
}
