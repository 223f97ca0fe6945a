/* Runs the script on standard input through the library, and gives a statement once more where memory was refused to it; see
   README.md beside this file. The words are the names of the tables to look at. A refused statement is told on standard error,
   with the word `changed` where the session then shows something else than before it. */
#define _POSIX_C_SOURCE 200809L
#include "sqlkeep.h"

#include <inttypes.h>
#include <stdio.h>
#include <string.h>
#include <unistd.h>

enum { OUT_OF_MEMORY = 22 };

/* What a session shows, as a text. None of this is taken from the heap, whose requests are counted. */
typedef struct shown {
    size_t length;
    uint8_t bytes[1 << 22];
} shown;

static uint8_t text[1 << 21];
static shown before, after, lines;

/* Calls that are made once more where memory was refused to them: a run has one request refused. */
static uint32_t lines_of(sqlkeep *session, uint64_t number) {
    uint32_t status = sqlkeep_lines(session, number);
    return status == SQLKEEP_NO_MEMORY ? sqlkeep_lines(session, number) : status;
}

static uint32_t pending(sqlkeep *session, size_t *count) {
    uint32_t status = sqlkeep_pending(session, count);
    return status == SQLKEEP_NO_MEMORY ? sqlkeep_pending(session, count) : status;
}

static uint32_t violation(sqlkeep *session, size_t at, uint64_t *row, uint8_t *name, size_t size, size_t *copied) {
    uint32_t status = sqlkeep_violation(session, at, row, name, size, copied);
    return status == SQLKEEP_NO_MEMORY ? sqlkeep_violation(session, at, row, name, size, copied) : status;
}

static void add(shown *to, const char *word) {
    size_t length = strlen(word);
    if (to->length + length <= sizeof to->bytes) {
        memcpy(to->bytes + to->length, word, length);
        to->length += length;
    }
}

static void add_number(shown *to, uint64_t number) {
    char word[24];
    snprintf(word, sizeof word, "%" PRIu64 " ", number);
    add(to, word);
}

/* The lines of the last outcome, with this number in front. */
static bool add_lines(sqlkeep *session, uint64_t number, shown *to) {
    size_t copied = 0;
    if (lines_of(session, number) != SQLKEEP_OK)
        return false;
    sqlkeep_transcript(session, 0, to->bytes + to->length, sizeof to->bytes - to->length, &copied);
    to->length += copied;
    return true;
}

/* What a query answers, which is given once more where memory is refused to it. */
static bool add_query(sqlkeep *session, size_t place, shown *to) {
    sqlkeep_outcome outcome = {0, 0, 0, 0};
    sqlkeep_execute(session, place, &outcome);
    if (outcome.cause == OUT_OF_MEMORY)
        sqlkeep_execute(session, place, &outcome);
    return outcome.cause != OUT_OF_MEMORY && add_lines(session, place + 1, to);
}

/* The violations that are pending: the row of each, and its constraint. */
static bool add_pending(sqlkeep *session, shown *to) {
    uint8_t name[200];
    size_t count = 0, copied = 0;
    uint64_t row = 0;
    if (pending(session, &count) != SQLKEEP_OK)
        return false;
    add_number(to, count);
    for (size_t at = 0; at < count; at++) {
        if (violation(session, at, &row, name, sizeof name - 1, &copied) != SQLKEEP_OK)
            return false;
        name[copied] = 0;
        add_number(to, row);
        add(to, (const char *)name);
    }
    return true;
}

/* All that the session shows: whether a transaction is open, what is pending, and what each query answers. */
static bool look(sqlkeep *session, size_t queries, shown *to) {
    bool is_open = false;
    to->length = 0;
    if (sqlkeep_in_transaction(session, &is_open) != SQLKEEP_OK)
        return false;
    add(to, is_open ? "open " : "closed ");
    if (!add_pending(session, to))
        return false;
    for (size_t place = 0; place < queries; place++)
        if (!add_query(session, place, to))
            return false;
    return true;
}

static bool is_as_before(void) {
    return before.length == after.length && memcmp(before.bytes, after.bytes, after.length) == 0;
}

/* Executes a statement, and once more where memory was refused to it, and writes what it answers. */
static bool execute(sqlkeep *session, size_t queries, size_t place) {
    sqlkeep_outcome outcome;
    size_t number = place - queries + 1;
    if (!look(session, queries, &before) || sqlkeep_execute(session, place, &outcome) != SQLKEEP_OK)
        return false;
    if (outcome.kind == SQLKEEP_REFUSED && outcome.cause == OUT_OF_MEMORY) {
        if (!look(session, queries, &after))
            return false;
        fprintf(stderr, is_as_before() ? "refused %zu\n" : "refused %zu changed\n", number);
        sqlkeep_execute(session, place, &outcome);
    }
    lines.length = 0;
    return add_lines(session, number, &lines) && write(STDOUT_FILENO, lines.bytes, lines.length) == (ssize_t)lines.length;
}

static bool execute_all(sqlkeep *session, size_t queries, size_t statements) {
    for (size_t place = queries; place < statements; place++)
        if (!execute(session, queries, place))
            return false;
    return true;
}

/* The queries, then the script on standard input; how many bytes they are. */
static size_t read_all(char **tables) {
    size_t length = 0;
    for (; *tables != NULL; tables++)
        length += (size_t)snprintf((char *)text + length, sizeof text - length, "SELECT * FROM %s;", *tables);
    for (ssize_t got = 1; got > 0; length += (size_t)(got > 0 ? got : 0))
        got = read(STDIN_FILENO, text + length, sizeof text - length);
    return length;
}

int main(int count, char **words) {
    sqlkeep session = SQLKEEP_EMPTY;
    sqlkeep_script script;
    size_t length = read_all(words + 1);
    if (sqlkeep_open(&session, 16, 65536) != SQLKEEP_OK)
        return 1;
    bool is_done = sqlkeep_read(&session, text, length, &script) == SQLKEEP_OK
        && execute_all(&session, (size_t)count - 1, (size_t)script.statements);
    sqlkeep_close(&session);
    return is_done ? 0 : 1;
}
