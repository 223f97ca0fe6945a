/* The first script of the README, statement by statement, and what a program reads of its refused COMMIT.

       cc -I ../../include first.c ../../out/libsqlkeep.a -o first && ./first */
#include "sqlkeep.h"

#include <inttypes.h>
#include <stdio.h>
#include <string.h>

static const char SCRIPT[] =
    "CREATE TABLE author (name VARCHAR(20) PRIMARY KEY);"
    "CREATE TABLE book ("
    "    title VARCHAR(30) PRIMARY KEY,"
    "    author VARCHAR(20) CONSTRAINT written_by REFERENCES author ON DELETE CASCADE INITIALLY DEFERRED"
    ");"
    "CREATE TABLE removed (title VARCHAR(30));"
    "CREATE TRIGGER log_removed AFTER DELETE ON book REFERENCING OLD AS o FOR EACH ROW"
    "    INSERT INTO removed VALUES (o.title);"
    "INSERT INTO book VALUES ('Emma', 'Austen'), ('Persuasion', 'Austen');"
    "INSERT INTO author VALUES ('Austen');"
    "COMMIT;"
    "DELETE FROM author WHERE name = 'Austen';"
    "SELECT title FROM removed;"
    "INSERT INTO book VALUES ('Dracula', 'Stoker');";

/* Shows a text of one row and column. */
static void show_text(sqlkeep *session, size_t row, size_t column) {
    uint8_t text[200];
    size_t copied = 0;
    if (sqlkeep_value_text(session, row, column, 0, text, sizeof text, &copied) == SQLKEEP_OK) {
        printf("  %.*s\n", (int)copied, (const char *)text);
    }
}

/* Shows what a statement answered. */
static void show(sqlkeep *session, const sqlkeep_outcome *outcome) {
    if (outcome->kind == SQLKEEP_DONE) {
        printf("done\n");
    } else if (outcome->kind == SQLKEEP_CHANGED) {
        printf("%" PRIu64 " rows\n", outcome->count);
    } else if (outcome->kind == SQLKEEP_ROWS) {
        printf("%" PRIu64 " rows:\n", outcome->count);
        for (size_t row = 0; row < outcome->count; row++) {
            show_text(session, row, 0);
        }
    }
}

/* Shows why the last statement was refused. */
static void show_refusal(sqlkeep *session, const sqlkeep_outcome *outcome) {
    uint8_t cause[40], constraint[200];
    size_t cause_length = 0, constraint_length = 0;
    sqlkeep_cause(session, 0, cause, sizeof cause, &cause_length);
    sqlkeep_constraint(session, 0, constraint, sizeof constraint, &constraint_length);
    printf("refused: %.*s, constraint %.*s, row %" PRIu64 "\n", (int)cause_length, (const char *)cause,
        (int)constraint_length, (const char *)constraint, outcome->row);
}

/* Executes all statements of the script. */
static uint32_t run_script(sqlkeep *session) {
    sqlkeep_script script;
    sqlkeep_outcome outcome;
    uint32_t status = sqlkeep_read(session, (const uint8_t *)SCRIPT, strlen(SCRIPT), &script);
    for (size_t place = 0; status == SQLKEEP_OK && place < script.statements; place++) {
        status = sqlkeep_execute(session, place, &outcome);
        if (status == SQLKEEP_OK) {
            show(session, &outcome);
        }
    }
    return status;
}

/* Shows what COMMIT would find, and commits. */
static uint32_t commit(sqlkeep *session) {
    uint8_t constraint[200];
    size_t pending = 0, length = 0;
    uint64_t row = 0;
    sqlkeep_outcome outcome;
    uint32_t status = sqlkeep_pending(session, &pending);
    for (size_t place = 0; status == SQLKEEP_OK && place < pending; place++) {
        status = sqlkeep_violation(session, place, &row, constraint, sizeof constraint, &length);
        printf("pending: row %" PRIu64 " violates %.*s\n", row, (int)length, (const char *)constraint);
    }
    if (status == SQLKEEP_OK) {
        status = sqlkeep_commit(session, &outcome);
    }
    if (status == SQLKEEP_OK && outcome.kind == SQLKEEP_REFUSED) {
        show_refusal(session, &outcome);
    }
    return status;
}

int main(void) {
    sqlkeep session = SQLKEEP_EMPTY;
    uint32_t status = sqlkeep_open(&session, 16, 65536);
    if (status == SQLKEEP_OK) {
        status = run_script(&session);
    }
    if (status == SQLKEEP_OK) {
        status = commit(&session);
    }
    sqlkeep_close(&session);
    if (status != SQLKEEP_OK) {
        fprintf(stderr, "sqlkeep: status %" PRIu32 "\n", status);
    }
    return status == SQLKEEP_OK ? 0 : 2;
}
