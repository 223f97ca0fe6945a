/* Executes the script on standard input statement by statement, and writes after each which violations of deferred constraints
   are pending: a line with the statement's number, and then each constraint with the row.

       cc -I ../out c_pending.c ../out/libsqlkeep.a -o c_pending
       ./c_pending [DEPTH CHANGES] < script.sql */
#include "sqlkeep.h"

#include <inttypes.h>
#include <stdio.h>
#include <stdlib.h>

static uint8_t text[1048577];

/* Writes the line of a statement. */
static uint32_t write_pending(sqlkeep *session, size_t place) {
    uint8_t name[200];
    size_t count = 0, copied = 0;
    uint64_t row = 0;
    uint32_t status = sqlkeep_pending(session, &count);
    printf("%zu", place + 1);
    for (size_t at = 0; status == SQLKEEP_OK && at < count; at++) {
        status = sqlkeep_violation(session, at, &row, name, sizeof name, &copied);
        printf(" %.*s %" PRIu64, (int)copied, (const char *)name, row);
    }
    printf("\n");
    return status;
}

int main(int count, char **words) {
    unsigned long depth = count == 3 ? strtoul(words[1], NULL, 10) : 16, changes = count == 3 ? strtoul(words[2], NULL, 10) : 65536;
    size_t length = fread(text, 1, sizeof text, stdin);
    sqlkeep session = SQLKEEP_EMPTY;
    sqlkeep_outcome outcome;
    sqlkeep_script script;
    uint32_t status = sqlkeep_open(&session, (uint8_t)depth, (uint32_t)changes);
    if (status == SQLKEEP_OK) status = sqlkeep_read(&session, text, length, &script);
    for (size_t place = 0; status == SQLKEEP_OK && place < script.statements; place++) {
        status = sqlkeep_execute(&session, place, &outcome);
        if (status == SQLKEEP_OK) status = write_pending(&session, place);
    }
    sqlkeep_close(&session);
    return status == SQLKEEP_OK ? 0 : 1;
}
