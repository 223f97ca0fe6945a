/* Runs the script on standard input, as the program does: its transcript goes to standard output. The status is 0 where
   every statement was accepted, 1 where one was refused or the script has a fault, and 2 where nothing ran.

       cc -I ../../include script.c ../../out/libsqlkeep.a -o script
       ./script [--depth N] [--changes N] [--explain] [--statements] < ../authors.sql

   With --statements the script is read into statements, which are executed one after the other in the session. */
#include "sqlkeep.h"

#include <stdio.h>
#include <stdlib.h>
#include <string.h>

/* One byte more than a script may have, so that a longer one is seen. */
static uint8_t text[1048577];

/* A failed call in words. */
static const char *words_of(uint32_t status) {
    switch (status) {
    case SQLKEEP_LIMITS: return "the limits are out of range";
    case SQLKEEP_NOT_UTF8: return "the script is not UTF-8";
    case SQLKEEP_TOO_LONG: return "the script is longer than 1048576 bytes";
    case SQLKEEP_NO_MEMORY: return "out of memory";
    default: return "the call failed";
    }
}

/* Writes the transcript, piece by piece. */
static void write_transcript(sqlkeep *session) {
    uint8_t piece[4096];
    size_t from = 0, copied = 0;
    while (sqlkeep_transcript(session, from, piece, sizeof piece, &copied) == SQLKEEP_OK && copied > 0) {
        fwrite(piece, 1, copied, stdout);
        from += copied;
    }
}

/* Runs the script in one call. */
static uint32_t run_whole(sqlkeep *session, size_t length, bool *refused) {
    sqlkeep_summary summary;
    uint32_t status = sqlkeep_run(session, text, length, &summary);
    if (status == SQLKEEP_OK) {
        *refused = summary.refused > 0 || summary.has_fault;
        write_transcript(session);
    }
    return status;
}

/* Executes a statement and writes its lines. Where there is no memory for the lines, they are asked for once more. */
static uint32_t run_one(sqlkeep *session, size_t place, bool *refused) {
    sqlkeep_outcome outcome;
    uint32_t status = sqlkeep_execute(session, place, &outcome);
    if (status != SQLKEEP_OK) {
        return status;
    }
    *refused = *refused || outcome.kind == SQLKEEP_REFUSED;
    status = sqlkeep_lines(session, place + 1);
    if (status == SQLKEEP_NO_MEMORY) {
        status = sqlkeep_lines(session, place + 1);
    }
    if (status == SQLKEEP_OK) {
        write_transcript(session);
    }
    return status;
}

/* Writes what the program writes at the end of a script. */
static uint32_t write_end(sqlkeep *session, const sqlkeep_script *script, bool *refused) {
    bool is_open = false;
    uint32_t status = sqlkeep_in_transaction(session, &is_open);
    if (script->has_fault) {
        *refused = true;
        printf("%llu fault %llu\n", (unsigned long long)script->statements + 1, (unsigned long long)script->fault_at);
    }
    if (is_open) {
        printf("end rolled back\n");
    }
    return status;
}

/* Runs the script statement by statement. */
static uint32_t run_statements(sqlkeep *session, size_t length, bool *refused) {
    sqlkeep_script script;
    uint32_t status = sqlkeep_read(session, text, length, &script);
    for (size_t place = 0; status == SQLKEEP_OK && place < script.statements; place++) {
        status = run_one(session, place, refused);
    }
    return status == SQLKEEP_OK ? write_end(session, &script, refused) : status;
}

/* Whether this word is on the command line; then `number` is the one after it, where there is one. */
static bool is_given(int count, char **words, const char *word, unsigned long *number) {
    for (int place = 1; place < count; place++) {
        if (strcmp(words[place], word) == 0) {
            *number = place + 1 < count ? strtoul(words[place + 1], NULL, 10) : 0;
            return true;
        }
    }
    return false;
}

int main(int count, char **words) {
    unsigned long depth = 16, changes = 65536, unused;
    is_given(count, words, "--depth", &depth);
    is_given(count, words, "--changes", &changes);
    size_t length = fread(text, 1, sizeof text, stdin);
    bool refused = false;
    sqlkeep session = SQLKEEP_EMPTY;
    uint32_t status = SQLKEEP_LIMITS;
    if (depth <= UINT8_MAX && changes <= UINT32_MAX) {
        status = sqlkeep_open(&session, (uint8_t)depth, (uint32_t)changes);
    }
    if (status == SQLKEEP_OK && is_given(count, words, "--explain", &unused)) {
        status = sqlkeep_explain(&session, 1);
    }
    if (status == SQLKEEP_OK) {
        status = is_given(count, words, "--statements", &unused) ? run_statements(&session, length, &refused) : run_whole(&session, length, &refused);
    }
    sqlkeep_close(&session);
    if (status != SQLKEEP_OK) {
        fprintf(stderr, "sqlkeep: %s\n", words_of(status));
        return 2;
    }
    return refused ? 1 : 0;
}
