/* The account of a statement, entry by entry; see README.md beside this file. The program ends with the number of the first line
   that isn't as it should be. */
#include "sqlkeep.h"

#include <string.h>

#define WANT(condition) do { if (!(condition)) return __LINE__ % 251 + 1; } while (0)

/* The places of tables: customer 0, orders 1, note 2, log 3. Of constraints: the keys 0 and 1, ORDERED_BY 2, ABOUT 3. */
static const char SCHEMA[] =
    "CREATE TABLE customer (id INT PRIMARY KEY, name VARCHAR(20));"
    "CREATE TABLE orders (id INT PRIMARY KEY, customer INT CONSTRAINT ordered_by REFERENCES customer ON DELETE CASCADE);"
    "CREATE TABLE note (customer INT CONSTRAINT about REFERENCES customer ON DELETE SET NULL, words VARCHAR(20));"
    "CREATE TABLE log (words VARCHAR(20), id INT);"
    "CREATE TRIGGER cancelled AFTER DELETE ON orders REFERENCING OLD AS o FOR EACH ROW INSERT INTO log VALUES ('cancelled', o.id);"
    "CREATE TRIGGER counted AFTER DELETE ON note SIGNAL 'notes stay';"
    "INSERT INTO customer VALUES (1, 'Ann'); INSERT INTO orders VALUES (10, 1); INSERT INTO note VALUES (1, 'pays late'); COMMIT;";

/* Reads a statement and executes it; the kind of its outcome. */
static uint32_t executed(sqlkeep *session, const char *text, sqlkeep_outcome *outcome) {
    sqlkeep_script script;
    if (sqlkeep_read(session, (const uint8_t *)text, strlen(text), &script) != SQLKEEP_OK || script.statements == 0) return 77;
    for (size_t at = 0; at < script.statements; at++) {
        if (sqlkeep_execute(session, at, outcome) != SQLKEEP_OK) return 77;
    }
    return outcome->kind;
}

static bool is_entry(sqlkeep *session, size_t at, uint32_t kind, uint64_t items) {
    sqlkeep_entry_shown entry;
    return sqlkeep_entry(session, at, &entry) == SQLKEEP_OK && entry.kind == kind && entry.items == items;
}

static bool is_integer(sqlkeep *session, size_t at, size_t item, uint32_t side, size_t column, int64_t want) {
    sqlkeep_cell cell;
    return sqlkeep_entry_value(session, at, item, side, column, &cell) == SQLKEEP_OK && cell.kind == SQLKEEP_INTEGER && cell.integer == want;
}

static bool is_text(sqlkeep *session, size_t at, size_t item, uint32_t side, size_t column, const char *want) {
    uint8_t bytes[50];
    size_t copied = 0;
    return sqlkeep_entry_text(session, at, item, side, column, 0, bytes, sizeof bytes, &copied) == SQLKEEP_OK
        && copied == strlen(want) && memcmp(bytes, want, copied) == 0;
}

/* delete CUSTOMER 1; ORDERED_BY CASCADE on ORDERS 2, ABOUT SET NULL on NOTE 3; delete ORDERS 2, update NOTE 3; trigger CANCELLED OLD (10,
   1); statement 1: insert LOG 4. */
static int cascade(sqlkeep *session) {
    sqlkeep_outcome outcome;
    sqlkeep_entry_shown entry;
    sqlkeep_item item;
    sqlkeep_cell cell;
    uint8_t bytes[20];
    size_t count = 77;
    WANT(executed(session, "DELETE FROM customer WHERE id = 1;", &outcome) == SQLKEEP_CHANGED);
    WANT(sqlkeep_entries(session, &count) == SQLKEEP_OK && count == 7);
    WANT(is_entry(session, 0, SQLKEEP_ENTRY_CHANGES, 1) && sqlkeep_entry_item(session, 0, 0, &item) == SQLKEEP_OK);
    WANT(item.table == 0 && item.row == 1 && item.has_old == 1 && item.has_new == 0);
    WANT(is_integer(session, 0, 0, SQLKEEP_OLD, 0, 1) && is_text(session, 0, 0, SQLKEEP_OLD, 1, "Ann"));
    WANT(sqlkeep_entry_value(session, 0, 0, SQLKEEP_NEW, 0, &cell) == SQLKEEP_NOTHING);
    WANT(is_entry(session, 1, SQLKEEP_ENTRY_ACTIONS, 2) && sqlkeep_entry_item(session, 1, 0, &item) == SQLKEEP_OK);
    WANT(item.constraint == 2 && item.action == SQLKEEP_CASCADE && item.table == 1 && item.row == 2 && item.has_old == 0 && item.has_new == 0);
    WANT(sqlkeep_entry_item(session, 1, 1, &item) == SQLKEEP_OK && item.constraint == 3 && item.action == SQLKEEP_SET_NULL && item.table == 2 && item.row == 3);
    WANT(sqlkeep_entry_value(session, 1, 0, SQLKEEP_OLD, 0, &cell) == SQLKEEP_NOTHING);
    WANT(is_entry(session, 2, SQLKEEP_ENTRY_CHANGES, 2) && sqlkeep_entry_item(session, 2, 1, &item) == SQLKEEP_OK && item.has_old == 1 && item.has_new == 1);
    WANT(is_text(session, 2, 1, SQLKEEP_NEW, 1, "pays late") && sqlkeep_entry_value(session, 2, 1, SQLKEEP_NEW, 0, &cell) == SQLKEEP_OK && cell.kind == SQLKEEP_NULL);
    WANT(sqlkeep_entry_value(session, 2, 1, 2, 0, &cell) == SQLKEEP_NOTHING && sqlkeep_entry_value(session, 2, 1, SQLKEEP_NEW, 2, &cell) == SQLKEEP_NOTHING);
    WANT(is_entry(session, 3, SQLKEEP_ENTRY_TRIGGER, 0) && sqlkeep_entry(session, 3, &entry) == SQLKEEP_OK && entry.has_old == 1 && entry.has_new == 0);
    WANT(sqlkeep_entry_trigger(session, 3, 0, bytes, sizeof bytes, &count) == SQLKEEP_OK && count == 9 && memcmp(bytes, "CANCELLED", 9) == 0);
    WANT(sqlkeep_entry_trigger(session, 2, 0, bytes, sizeof bytes, &count) == SQLKEEP_NOTHING);
    WANT(sqlkeep_seen_value(session, 3, SQLKEEP_OLD, 0, &cell) == SQLKEEP_OK && cell.integer == 10);
    WANT(sqlkeep_seen_value(session, 3, SQLKEEP_NEW, 0, &cell) == SQLKEEP_NOTHING && sqlkeep_seen_value(session, 2, SQLKEEP_OLD, 0, &cell) == SQLKEEP_NOTHING);
    WANT(is_entry(session, 4, SQLKEEP_ENTRY_STATEMENT, 0) && sqlkeep_entry(session, 4, &entry) == SQLKEEP_OK && entry.statement == 1);
    WANT(is_entry(session, 5, SQLKEEP_ENTRY_CHANGES, 1) && is_text(session, 5, 0, SQLKEEP_NEW, 0, "cancelled") && is_integer(session, 5, 0, SQLKEEP_NEW, 1, 10));
    WANT(is_entry(session, 6, SQLKEEP_ENTRY_STATEMENT_END, 0));
    WANT(sqlkeep_entry(session, 7, &entry) == SQLKEEP_NOTHING && sqlkeep_entry_item(session, 6, 0, &item) == SQLKEEP_NOTHING);
    WANT(sqlkeep_entry_item(session, 0, 1, &item) == SQLKEEP_NOTHING);
    WANT(sqlkeep_rollback(session) == SQLKEEP_OK);
    return 0;
}

/* insert CUSTOMER 4 (1, NULL); the first row with its key is row 1. */
static int violation(sqlkeep *session) {
    sqlkeep_outcome outcome;
    sqlkeep_entry_shown entry;
    sqlkeep_item item;
    sqlkeep_cell cell;
    size_t count = 0;
    WANT(executed(session, "INSERT INTO customer (id) VALUES (1);", &outcome) == SQLKEEP_REFUSED && outcome.row == 1);
    WANT(sqlkeep_entries(session, &count) == SQLKEEP_OK && count == 2);
    WANT(sqlkeep_entry(session, 1, &entry) == SQLKEEP_OK && entry.kind == SQLKEEP_ENTRY_VIOLATION && entry.constraint == 0 && entry.row == 1 && entry.items == 2);
    WANT(sqlkeep_entry_item(session, 1, 0, &item) == SQLKEEP_OK && item.table == 0 && item.row == 1 && item.has_old == 0 && item.has_new == 1);
    WANT(sqlkeep_entry_item(session, 1, 1, &item) == SQLKEEP_OK && item.row == 4);
    WANT(is_text(session, 1, 0, SQLKEEP_NEW, 1, "Ann") && sqlkeep_entry_value(session, 1, 1, SQLKEEP_NEW, 1, &cell) == SQLKEEP_OK && cell.kind == SQLKEEP_NULL);
    WANT(sqlkeep_entry_value(session, 1, 0, SQLKEEP_OLD, 0, &cell) == SQLKEEP_NOTHING);
    WANT(sqlkeep_rollback(session) == SQLKEEP_OK);
    return 0;
}

/* A trigger for the whole statement has the changes of its transition tables. */
static int transition(sqlkeep *session) {
    sqlkeep_outcome outcome;
    sqlkeep_item item;
    size_t count = 0;
    WANT(executed(session, "DELETE FROM note;", &outcome) == SQLKEEP_REFUSED && outcome.cause == SQLKEEP_CAUSE_SIGNAL);
    WANT(sqlkeep_entries(session, &count) == SQLKEEP_OK && count == 2);
    WANT(is_entry(session, 1, SQLKEEP_ENTRY_TRIGGER, 1) && sqlkeep_entry_item(session, 1, 0, &item) == SQLKEEP_OK && item.table == 2 && item.row == 3 && item.has_old == 1);
    WANT(is_text(session, 1, 0, SQLKEEP_OLD, 1, "pays late"));
    WANT(sqlkeep_explain(session, 0) == SQLKEEP_OK);
    WANT(executed(session, "DELETE FROM note;", &outcome) == SQLKEEP_REFUSED);
    WANT(sqlkeep_entries(session, &count) == SQLKEEP_OK && count == 0);
    return 0;
}

/* update P; G: C row (1, 'a') refers to P ('a'), and F sets X to 'none', where G sets it to 'cd'. P is the table 4, and C 5; F is the constraint 6, and G 7. */
static int disagreement(sqlkeep *session) {
    sqlkeep_outcome outcome;
    sqlkeep_entry_shown entry;
    sqlkeep_item item;
    sqlkeep_disagreement_shown how;
    uint8_t bytes[20];
    size_t count = 0;
    WANT(executed(session,
        "CREATE TABLE p (k VARCHAR(9) UNIQUE, l VARCHAR(9) UNIQUE);"
        "CREATE TABLE c (n INT, x VARCHAR(9) DEFAULT 'none' CONSTRAINT f REFERENCES p (k) ON UPDATE SET DEFAULT ON DELETE SET NULL"
        " CONSTRAINT g REFERENCES p (l) ON UPDATE CASCADE ON DELETE SET DEFAULT);"
        "INSERT INTO p VALUES ('a', 'a'); INSERT INTO c VALUES (1, 'a'); COMMIT;", &outcome) == SQLKEEP_DONE);
    WANT(executed(session, "UPDATE p SET k = 'b', l = 'cd';", &outcome) == SQLKEEP_REFUSED && outcome.cause == SQLKEEP_CAUSE_ACTION_CONFLICT);
    WANT(sqlkeep_entries(session, &count) == SQLKEEP_OK && count == 2);
    WANT(sqlkeep_entry(session, 1, &entry) == SQLKEEP_OK && entry.kind == SQLKEEP_ENTRY_DISAGREEMENT && entry.items == 1 && entry.is_unknown == 0);
    WANT(entry.constraint == 7 && entry.row == outcome.row);
    WANT(sqlkeep_entry_item(session, 1, 0, &item) == SQLKEEP_OK && item.table == 5 && item.row == entry.row && item.has_new == 1);
    WANT(is_integer(session, 1, 0, SQLKEEP_NEW, 0, 1) && is_text(session, 1, 0, SQLKEEP_NEW, 1, "a"));
    WANT(sqlkeep_disagreement(session, 1, &how) == SQLKEEP_OK && how.earlier == 6 && how.column == 1);
    WANT(how.earlier_value.kind == SQLKEEP_TEXT && how.earlier_value.length == 4 && how.value.kind == SQLKEEP_TEXT && how.value.length == 2);
    WANT(sqlkeep_disagreement_text(session, 1, SQLKEEP_OLD, 0, bytes, sizeof bytes, &count) == SQLKEEP_OK && count == 4 && memcmp(bytes, "none", 4) == 0);
    WANT(sqlkeep_disagreement_text(session, 1, SQLKEEP_NEW, 1, bytes, sizeof bytes, &count) == SQLKEEP_OK && count == 1 && bytes[0] == 'd');
    WANT(sqlkeep_disagreement_text(session, 1, 2, 0, bytes, sizeof bytes, &count) == SQLKEEP_NOTHING);
    WANT(sqlkeep_disagreement(session, 0, &how) == SQLKEEP_NOTHING && sqlkeep_disagreement(session, 2, &how) == SQLKEEP_NOTHING);
    WANT(executed(session, "DELETE FROM p;", &outcome) == SQLKEEP_REFUSED && sqlkeep_disagreement(session, 1, &how) == SQLKEEP_OK);
    WANT(how.earlier_value.kind == SQLKEEP_NULL && how.value.kind == SQLKEEP_TEXT && how.value.length == 4);
    return 0;
}

/* trigger HOLD skipped: WHEN is unknown; insert T; trigger TAKE NEW (1, 'x') skipped: WHEN is false. */
static int skipped(sqlkeep *session) {
    sqlkeep_outcome outcome;
    sqlkeep_entry_shown entry;
    sqlkeep_item item;
    sqlkeep_cell cell;
    uint8_t bytes[20];
    size_t count = 0;
    WANT(executed(session,
        "CREATE TABLE t (a INT, b VARCHAR(9)); CREATE TRIGGER hold BEFORE INSERT ON t WHEN (NULL > 0) SIGNAL 'no';"
        "CREATE TRIGGER take AFTER INSERT ON t REFERENCING NEW AS n FOR EACH ROW WHEN (n.a > 1) SIGNAL 'no';", &outcome) == SQLKEEP_DONE);
    WANT(executed(session, "INSERT INTO t VALUES (1, 'x');", &outcome) == SQLKEEP_CHANGED);
    WANT(sqlkeep_entries(session, &count) == SQLKEEP_OK && count == 3);
    WANT(sqlkeep_entry(session, 0, &entry) == SQLKEEP_OK && entry.kind == SQLKEEP_ENTRY_SKIPPED && entry.is_unknown == 1);
    WANT(entry.has_old == 0 && entry.has_new == 0 && entry.items == 0);
    WANT(sqlkeep_entry_trigger(session, 0, 0, bytes, sizeof bytes, &count) == SQLKEEP_OK && count == 4 && memcmp(bytes, "HOLD", 4) == 0);
    WANT(sqlkeep_entry(session, 2, &entry) == SQLKEEP_OK && entry.kind == SQLKEEP_ENTRY_SKIPPED && entry.is_unknown == 0);
    WANT(entry.has_old == 0 && entry.has_new == 1 && entry.items == 0 && sqlkeep_entry_item(session, 2, 0, &item) == SQLKEEP_NOTHING);
    WANT(sqlkeep_seen_value(session, 2, SQLKEEP_NEW, 0, &cell) == SQLKEEP_OK && cell.kind == SQLKEEP_INTEGER && cell.integer == 1);
    WANT(sqlkeep_seen_text(session, 2, SQLKEEP_NEW, 1, 0, bytes, sizeof bytes, &count) == SQLKEEP_OK && count == 1 && bytes[0] == 'x');
    WANT(sqlkeep_seen_value(session, 2, SQLKEEP_OLD, 0, &cell) == SQLKEEP_NOTHING && sqlkeep_seen_value(session, 0, SQLKEEP_NEW, 0, &cell) == SQLKEEP_NOTHING);
    WANT(sqlkeep_rollback(session) == SQLKEEP_OK);
    return 0;
}

/* Each function with an empty handle, and with none. */
static int closed(void) {
    sqlkeep empty = SQLKEEP_EMPTY;
    sqlkeep *handles[] = {&empty, NULL};
    for (size_t i = 0; i < 2; i++) {
        const uint32_t want = i == 0 ? SQLKEEP_CLOSED : SQLKEEP_NO_HANDLE;
        sqlkeep *it = handles[i];
        sqlkeep_entry_shown entry;
        sqlkeep_item item;
        sqlkeep_cell cell;
        sqlkeep_disagreement_shown how;
        uint8_t bytes[1];
        size_t count;
        WANT(sqlkeep_entries(it, &count) == want && sqlkeep_entry(it, 0, &entry) == want && sqlkeep_entry_item(it, 0, 0, &item) == want);
        WANT(sqlkeep_entry_trigger(it, 0, 0, bytes, 1, &count) == want && sqlkeep_entry_value(it, 0, 0, 0, 0, &cell) == want);
        WANT(sqlkeep_entry_name(it, 0, 0, 0, bytes, 1, &count) == want);
        WANT(sqlkeep_entry_text(it, 0, 0, 0, 0, 0, bytes, 1, &count) == want && sqlkeep_seen_value(it, 0, 0, 0, &cell) == want);
        WANT(sqlkeep_seen_text(it, 0, 0, 0, 0, bytes, 1, &count) == want);
        WANT(sqlkeep_disagreement(it, 0, &how) == want && sqlkeep_disagreement_text(it, 0, 0, 0, bytes, 1, &count) == want);
    }
    return 0;
}

/* A number out of range at a row, which is the item; in VALUES, with neither row; and in the WHEN of a trigger, with its new row. */
static int failure(sqlkeep *session) {
    sqlkeep_outcome outcome;
    sqlkeep_entry_shown entry;
    sqlkeep_item item;
    uint8_t bytes[20];
    size_t count = 0;
    WANT(executed(session,
        "CREATE TABLE sums (a INT, b VARCHAR(3)); INSERT INTO sums VALUES (5, 'x'); COMMIT;"
        "CREATE TRIGGER far AFTER INSERT ON sums REFERENCING NEW AS n FOR EACH ROW WHEN (n.a + 9223372036854775807 > 0) SIGNAL 'far';", &outcome) == SQLKEEP_DONE);
    WANT(executed(session, "UPDATE sums SET a = a + 9223372036854775807;", &outcome) == SQLKEEP_REFUSED && outcome.cause == SQLKEEP_CAUSE_NUMBER_OUT_OF_RANGE);
    WANT(sqlkeep_entries(session, &count) == SQLKEEP_OK && count == 1);
    WANT(sqlkeep_entry(session, 0, &entry) == SQLKEEP_OK && entry.kind == SQLKEEP_ENTRY_FAILURE && entry.items == 1 && entry.has_old == 0 && entry.has_new == 0);
    WANT(sqlkeep_entry_item(session, 0, 0, &item) == SQLKEEP_OK && item.has_old == 0 && item.has_new == 1);
    WANT(is_integer(session, 0, 0, SQLKEEP_NEW, 0, 5) && is_text(session, 0, 0, SQLKEEP_NEW, 1, "x"));
    WANT(sqlkeep_entry_item(session, 0, 1, &item) == SQLKEEP_NOTHING);
    WANT(executed(session, "INSERT INTO sums VALUES (1, 'four');", &outcome) == SQLKEEP_REFUSED && outcome.cause == SQLKEEP_CAUSE_TEXT_TOO_LONG);
    WANT(sqlkeep_entries(session, &count) == SQLKEEP_OK && count == 1 && is_entry(session, 0, SQLKEEP_ENTRY_FAILURE, 0));
    WANT(executed(session, "INSERT INTO sums VALUES (1, 'y');", &outcome) == SQLKEEP_REFUSED && outcome.cause == SQLKEEP_CAUSE_NUMBER_OUT_OF_RANGE);
    WANT(sqlkeep_entries(session, &count) == SQLKEEP_OK && count == 2 && is_entry(session, 1, SQLKEEP_ENTRY_FAILURE, 0));
    WANT(sqlkeep_entry(session, 1, &entry) == SQLKEEP_OK && entry.has_old == 0 && entry.has_new == 1);
    WANT(sqlkeep_entry_trigger(session, 1, 0, bytes, sizeof bytes, &count) == SQLKEEP_OK && count == 3 && memcmp(bytes, "FAR", 3) == 0);
    return 0;
}

static bool has_lines(sqlkeep *session, const char *words, const char *json) {
    uint8_t bytes[300];
    size_t copied = 0;
    if (sqlkeep_lines(session, 4) != SQLKEEP_OK || sqlkeep_transcript(session, 0, bytes, sizeof bytes, &copied) != SQLKEEP_OK) return false;
    if (copied != strlen(words) || memcmp(bytes, words, copied) != 0) return false;
    if (sqlkeep_lines_json(session, 4) != SQLKEEP_OK || sqlkeep_transcript(session, 0, bytes, sizeof bytes, &copied) != SQLKEEP_OK) return false;
    return copied == strlen(json) && memcmp(bytes, json, copied) == 0;
}

/* The line of a limit is told where the account is: where one was asked for when the statement ran, up to the call that clears it. */
static int limits(void) {
    static const char SAID[] = "4 refused 16 DepthLimit R\n", SAID_IN_JSON[] = "{\"number\":4,\"kind\":\"refused\",\"cause\":16,\"name\":\"DepthLimit\",\"trigger\":\"R\"}\n";
    static const char INSERT[] = "INSERT INTO t VALUES (1);";
    sqlkeep session = SQLKEEP_EMPTY;
    sqlkeep_outcome outcome;
    size_t scripts = 0;
    WANT(sqlkeep_open(&session, 1, 65536) == SQLKEEP_OK);
    WANT(executed(&session, "CREATE TABLE t (a INT); CREATE TRIGGER r AFTER INSERT ON t INSERT INTO t VALUES (2); COMMIT;", &outcome) == SQLKEEP_DONE);
    WANT(executed(&session, INSERT, &outcome) == SQLKEEP_REFUSED && outcome.cause == SQLKEEP_CAUSE_DEPTH_LIMIT && has_lines(&session, SAID, SAID_IN_JSON));
    WANT(sqlkeep_explain(&session, 1) == SQLKEEP_OK && has_lines(&session, SAID, SAID_IN_JSON));
    WANT(executed(&session, INSERT, &outcome) == SQLKEEP_REFUSED && sqlkeep_lines(&session, 4) == SQLKEEP_OK && !has_lines(&session, SAID, SAID_IN_JSON));
    WANT(sqlkeep_explain(&session, 1) == SQLKEEP_OK && has_lines(&session, SAID, SAID_IN_JSON));
    WANT(executed(&session, INSERT, &outcome) == SQLKEEP_REFUSED && !has_lines(&session, SAID, SAID_IN_JSON));
    WANT(sqlkeep_rollback(&session) == SQLKEEP_OK && has_lines(&session, SAID, SAID_IN_JSON));
    WANT(sqlkeep_commit(&session, &outcome) == SQLKEEP_OK && has_lines(&session, "4 ok\n", "{\"number\":4,\"kind\":\"done\",\"account\":[]}\n"));
    WANT(sqlkeep_dump(&session, &scripts) == SQLKEEP_OK && has_lines(&session, "4 ok\n", "{\"number\":4,\"kind\":\"done\",\"account\":[]}\n"));
    WANT(sqlkeep_close(&session) == SQLKEEP_OK);
    return 0;
}

static bool is_name(sqlkeep *session, size_t at, size_t item, const char *want) {
    uint8_t bytes[20];
    size_t count = 0;
    return sqlkeep_entry_name(session, at, item, 0, bytes, sizeof bytes, &count) == SQLKEEP_OK && count == strlen(want) && memcmp(bytes, want, count) == 0;
}

/* Savepoints that stand where one isn't there: the earliest is first; and none. A ROLLBACK TO of one that is there is told nothing. */
static int savepoints(sqlkeep *session) {
    sqlkeep_outcome outcome;
    sqlkeep_entry_shown entry;
    sqlkeep_item item;
    sqlkeep_cell cell;
    uint8_t bytes[20];
    size_t count = 0;
    WANT(sqlkeep_rollback(session) == SQLKEEP_OK && sqlkeep_explain(session, 1) == SQLKEEP_OK);
    WANT(executed(session, "START TRANSACTION; RELEASE SAVEPOINT early;", &outcome) == SQLKEEP_REFUSED && outcome.cause == SQLKEEP_CAUSE_UNKNOWN_SAVEPOINT);
    WANT(sqlkeep_entries(session, &count) == SQLKEEP_OK && count == 1 && is_entry(session, 0, SQLKEEP_ENTRY_SAVEPOINTS, 0));
    WANT(sqlkeep_entry_name(session, 0, 0, 0, bytes, sizeof bytes, &count) == SQLKEEP_NOTHING);
    WANT(executed(session, "SAVEPOINT early; SAVEPOINT middle; ROLLBACK TO SAVEPOINT absent;", &outcome) == SQLKEEP_REFUSED);
    WANT(sqlkeep_entries(session, &count) == SQLKEEP_OK && count == 1 && is_entry(session, 0, SQLKEEP_ENTRY_SAVEPOINTS, 2));
    WANT(sqlkeep_entry(session, 0, &entry) == SQLKEEP_OK && entry.constraint == 0 && entry.row == 0 && entry.has_old == 0 && entry.has_new == 0);
    WANT(is_name(session, 0, 0, "EARLY") && is_name(session, 0, 1, "MIDDLE"));
    WANT(sqlkeep_entry_name(session, 0, 1, 3, bytes, sizeof bytes, &count) == SQLKEEP_OK && count == 3 && memcmp(bytes, "DLE", 3) == 0);
    WANT(sqlkeep_entry_name(session, 0, 2, 0, bytes, sizeof bytes, &count) == SQLKEEP_NOTHING && sqlkeep_entry_name(session, 1, 0, 0, bytes, sizeof bytes, &count) == SQLKEEP_NOTHING);
    WANT(sqlkeep_entry_item(session, 0, 0, &item) == SQLKEEP_NOTHING && sqlkeep_entry_value(session, 0, 0, SQLKEEP_NEW, 0, &cell) == SQLKEEP_NOTHING);
    WANT(executed(session, "ROLLBACK TO SAVEPOINT middle;", &outcome) == SQLKEEP_DONE && sqlkeep_entries(session, &count) == SQLKEEP_OK && count == 0);
    WANT(sqlkeep_rollback(session) == SQLKEEP_OK);
    return 0;
}

/* A constraint that isn't added: its name, the row that violates it, and the row with the same key. */
static int not_added(sqlkeep *session) {
    sqlkeep_outcome outcome;
    sqlkeep_entry_shown entry;
    sqlkeep_item item, other;
    uint8_t bytes[20];
    size_t count = 0;
    WANT(executed(session, "CREATE TABLE pile (a INT, b VARCHAR(3)); INSERT INTO pile VALUES (5, 'x'), (6, 'y'), (5, 'z'); COMMIT;", &outcome) == SQLKEEP_DONE);
    WANT(executed(session, "ALTER TABLE pile ADD CONSTRAINT one UNIQUE (a);", &outcome) == SQLKEEP_REFUSED && outcome.cause == SQLKEEP_CAUSE_ADD_REFUSED);
    WANT(sqlkeep_entries(session, &count) == SQLKEEP_OK && count == 1 && is_entry(session, 0, SQLKEEP_ENTRY_NOT_ADDED, 2));
    WANT(sqlkeep_entry(session, 0, &entry) == SQLKEEP_OK && entry.constraint == 0 && entry.row == 0);
    WANT(is_name(session, 0, 0, "ONE") && sqlkeep_entry_name(session, 0, 1, 0, bytes, sizeof bytes, &count) == SQLKEEP_NOTHING);
    WANT(sqlkeep_entry_item(session, 0, 0, &item) == SQLKEEP_OK && item.row == outcome.row && item.has_old == 0 && item.has_new == 1);
    WANT(sqlkeep_entry_item(session, 0, 1, &other) == SQLKEEP_OK && other.row == item.row + 2 && other.table == item.table);
    WANT(is_integer(session, 0, 0, SQLKEEP_NEW, 0, 5) && is_text(session, 0, 0, SQLKEEP_NEW, 1, "x") && is_text(session, 0, 1, SQLKEEP_NEW, 1, "z"));
    WANT(executed(session, "ALTER TABLE pile ADD CHECK (a < 6);", &outcome) == SQLKEEP_REFUSED && is_entry(session, 0, SQLKEEP_ENTRY_NOT_ADDED, 1));
    WANT(is_name(session, 0, 0, "PILE_C1") && is_integer(session, 0, 0, SQLKEEP_NEW, 0, 6));
    WANT(executed(session, "ALTER TABLE pile ADD CHECK (a < 7);", &outcome) == SQLKEEP_DONE && sqlkeep_entries(session, &count) == SQLKEEP_OK && count == 0);
    return 0;
}

int main(void) {
    sqlkeep session = SQLKEEP_EMPTY;
    sqlkeep_outcome outcome;
    WANT(sqlkeep_open(&session, 16, 65536) == SQLKEEP_OK);
    WANT(executed(&session, SCHEMA, &outcome) == SQLKEEP_DONE && sqlkeep_explain(&session, 1) == SQLKEEP_OK);
    int failed = cascade(&session);
    failed = failed ? failed : violation(&session);
    failed = failed ? failed : disagreement(&session);
    failed = failed ? failed : failure(&session);
    failed = failed ? failed : skipped(&session);
    failed = failed ? failed : transition(&session);
    failed = failed ? failed : limits();
    failed = failed ? failed : savepoints(&session);
    failed = failed ? failed : not_added(&session);
    WANT(sqlkeep_close(&session) == SQLKEEP_OK);
    return failed ? failed : closed();
}
