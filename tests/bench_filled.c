/* Executes an INSERT with two values so many times in one transaction, each time from its text, and prints how many rows there are.
   With -DSQLITE it does so in SQLite: prepare, bind, step and finalize.

       cc -O1 -I ../out bench_filled.c ../out/libsqlkeep.a -o filled && ./filled 300000
       cc -O1 -DSQLITE bench_filled.c -lsqlite3 -o filled && ./filled 300000 */
#include <inttypes.h>
#include <stdint.h>
#include <stdio.h>
#include <stdlib.h>
#include <string.h>

static const char TABLE[] = "CREATE TABLE t (k INT PRIMARY KEY, v VARCHAR(20));";
static const char INSERT[] = "INSERT INTO t VALUES (?, ?);";
static const char COUNT[] = "SELECT COUNT(*) FROM t;";
static const char BEGIN[] =
#ifdef SQLITE
    "BEGIN;";
#else
    "START TRANSACTION;";
#endif

#ifdef SQLITE
#include <sqlite3.h>

/* Executes a statement, with values where there is a text; whether it was done. The first value of its row is kept. */
static int run(sqlite3 *database, const char *statement, int64_t key, const char *text, int64_t *last) {
    sqlite3_stmt *prepared = NULL;
    int status = sqlite3_prepare_v2(database, statement, -1, &prepared, NULL);
    if (status == SQLITE_OK && text != NULL) {
        sqlite3_bind_int64(prepared, 1, key);
        sqlite3_bind_text(prepared, 2, text, -1, SQLITE_TRANSIENT);
    }
    if (status == SQLITE_OK) status = sqlite3_step(prepared);
    if (status == SQLITE_ROW) *last = sqlite3_column_int64(prepared, 0);
    sqlite3_finalize(prepared);
    return status == SQLITE_DONE || status == SQLITE_ROW;
}

typedef sqlite3 *engine;
#define OPEN(database) (sqlite3_open(":memory:", &(database)) == SQLITE_OK)
#define CLOSE(database) sqlite3_close(database)
#else
#include "sqlkeep.h"

static int run(sqlkeep *session, const char *statement, int64_t key, const char *text, int64_t *last) {
    const sqlkeep_parameter values[] = {{SQLKEEP_INTEGER, key, NULL, 0}, {SQLKEEP_TEXT, 0, (const uint8_t *)text, text == NULL ? 0 : strlen(text)}};
    sqlkeep_script script;
    sqlkeep_outcome outcome;
    sqlkeep_cell cell;
    if (sqlkeep_read_filled(session, (const uint8_t *)statement, strlen(statement), values, text == NULL ? 0 : 2, &script) != SQLKEEP_OK) return 0;
    if (sqlkeep_execute(session, 0, &outcome) != SQLKEEP_OK || outcome.kind == SQLKEEP_REFUSED) return 0;
    if (outcome.kind == SQLKEEP_ROWS && sqlkeep_value(session, 0, 0, &cell) == SQLKEEP_OK) *last = cell.integer;
    return 1;
}

typedef sqlkeep engine;
#define OPEN(session) (sqlkeep_open(&(session), 16, 65536) == SQLKEEP_OK)
#define CLOSE(session) sqlkeep_close(&(session))
#endif

int main(int count, char **words) {
    int64_t last = 0, times = count > 1 ? strtoll(words[1], NULL, 10) : 300000;
    char text[32];
#ifdef SQLITE
    engine own = NULL;
    engine database;
    int good = OPEN(own);
    database = own;
#else
    engine own = SQLKEEP_EMPTY;
    engine *database = &own;
    int good = OPEN(own);
#endif
    good = good && run(database, TABLE, 0, NULL, &last) && run(database, BEGIN, 0, NULL, &last);
    for (int64_t key = 0; good && key < times; key++) {
        snprintf(text, sizeof text, "it's %" PRId64, key % 1000);
        good = run(database, INSERT, key, text, &last);
    }
    good = good && run(database, "COMMIT;", 0, NULL, &last) && run(database, COUNT, 0, NULL, &last);
    CLOSE(own);
    printf("%" PRId64 "\n", last);
    return good ? 0 : 2;
}
