/* Whether the dump of the database that a script leaves makes it again: each script of it is accepted throughout in a new session, the second
   dump is the first, and the condition of each CHECK is the same when it is added again. The script comes from standard input; see README.md
   beside this file. The program ends with the number of the first line that isn't as it should be. */
#include "sqlkeep.h"

#include <stdio.h>
#include <string.h>

#define WANT(condition) do { if (!(condition)) return __LINE__ % 251 + 1; } while (0)

static uint8_t text[1 << 21], script[1 << 21], again[1 << 21];

/* Executes the statements of a text; how many were refused, or -1 where the text has a fault. */
static long refused(sqlkeep *session, const uint8_t *bytes, size_t length) {
    sqlkeep_script read;
    sqlkeep_outcome outcome;
    long count = 0;
    if (sqlkeep_read(session, bytes, length, &read) != SQLKEEP_OK) return -1;
    for (size_t at = 0; at < read.statements; at++) {
        if (sqlkeep_execute(session, at, &outcome) != SQLKEEP_OK) return -1;
        count += outcome.kind == SQLKEEP_REFUSED;
    }
    return read.has_fault ? -1 : count;
}

/* Runs the dump of one session in the other, and compares the dumps of both. */
static int copied(sqlkeep *from, sqlkeep *to) {
    size_t count = 0, other = 0, length = 0, copy = 0;
    WANT(sqlkeep_dump(from, &count) == SQLKEEP_OK && count > 0);
    for (size_t at = 0; at < count; at++) {
        WANT(sqlkeep_dump_script(from, at, 0, script, sizeof script, &length) == SQLKEEP_OK && length <= 1048576);
        WANT(refused(to, script, length) == 0);
    }
    WANT(sqlkeep_dump_script(from, count, 0, script, sizeof script, &length) == SQLKEEP_NOTHING);
    WANT(sqlkeep_dump(to, &other) == SQLKEEP_OK && other == count);
    for (size_t at = 0; at < count; at++) {
        WANT(sqlkeep_dump_script(from, at, 0, script, sizeof script, &length) == SQLKEEP_OK);
        WANT(sqlkeep_dump_script(to, at, 0, again, sizeof again, &copy) == SQLKEEP_OK && copy == length && memcmp(script, again, length) == 0);
    }
    return 0;
}

/* Inside a transaction there is no dump, and the last one stays. */
static int refused_inside(sqlkeep *session) {
    size_t count = 77, length = 0, kept = 0;
    WANT(sqlkeep_dump_script(session, 0, 0, script, sizeof script, &length) == SQLKEEP_OK);
    WANT(refused(session, (const uint8_t *)"START TRANSACTION;", 18) == 0);
    WANT(sqlkeep_dump(session, &count) == SQLKEEP_IN_TRANSACTION && count == 77);
    WANT(sqlkeep_dump_script(session, 0, 0, again, sizeof again, &kept) == SQLKEEP_OK && kept == length && memcmp(script, again, length) == 0);
    WANT(sqlkeep_rollback(session) == SQLKEEP_OK);
    return 0;
}

/* Adds the condition of each CHECK again to its table, where one constraint more fits. */
static int conditions(sqlkeep *session) {
    sqlkeep_sizes sizes, now;
    sqlkeep_constraint_definition it;
    uint8_t name[200];
    size_t length = 0, named = 0, other = 0;
    WANT(sqlkeep_catalogue(session, &sizes) == SQLKEEP_OK);
    for (size_t at = 0; at < sizes.constraints; at++) {
        WANT(sqlkeep_constraint_at(session, at, &it) == SQLKEEP_OK);
        uint32_t status = sqlkeep_constraint_condition(session, at, 0, script, sizeof script, &length);
        WANT(status == (it.kind == SQLKEEP_CHECK ? SQLKEEP_OK : SQLKEEP_NOTHING));
        if (status != SQLKEEP_OK) continue;
        WANT(sqlkeep_table_name(session, it.table, 0, name, sizeof name, &named) == SQLKEEP_OK);
        int words = snprintf((char *)text, sizeof text, "ALTER TABLE %.*s ADD CHECK (%.*s);", (int)named, (const char *)name, (int)length, (const char *)script);
        if (refused(session, text, (size_t)words) != 0) {
            sqlkeep_outcome outcome;
            WANT(sqlkeep_execute(session, 0, &outcome) == SQLKEEP_OK && outcome.cause == SQLKEEP_CAUSE_LIMIT);
            continue;
        }
        WANT(sqlkeep_catalogue(session, &now) == SQLKEEP_OK);
        WANT(sqlkeep_constraint_condition(session, (size_t)now.constraints - 1, 0, again, sizeof again, &other) == SQLKEEP_OK);
        WANT(other == length && memcmp(script, again, length) == 0);
    }
    return 0;
}

int main(void) {
    sqlkeep one = SQLKEEP_EMPTY, other = SQLKEEP_EMPTY;
    size_t length = fread(text, 1, sizeof text, stdin);
    WANT(sqlkeep_open(&one, 16, 65536) == SQLKEEP_OK && sqlkeep_open(&other, 16, 65536) == SQLKEEP_OK);
    refused(&one, text, length);
    WANT(sqlkeep_rollback(&one) == SQLKEEP_OK);
    int failed = copied(&one, &other);
    failed = failed ? failed : refused_inside(&other);
    failed = failed ? failed : conditions(&other);
    WANT(sqlkeep_close(&one) == SQLKEEP_OK && sqlkeep_close(&other) == SQLKEEP_OK);
    return failed;
}
