/* Whether each statement of a script is where sqlkeep_statement_place says: read by itself it is one statement of the same kind, and what is
   between statements is none. The script comes from standard input; see README.md beside this file. The program ends with the number of the
   first line that isn't as it should be. */
#include "sqlkeep.h"

#include <stdio.h>

#define WANT(condition) do { if (!(condition)) return __LINE__ % 251 + 1; } while (0)

static uint8_t text[1 << 21];

/* Whether these bytes are so many statements and nothing else. */
static bool has(sqlkeep *session, uint64_t begin, uint64_t end, uint64_t statements) {
    sqlkeep_script script;
    return sqlkeep_read(session, text + begin, (size_t)(end - begin), &script) == SQLKEEP_OK && script.statements == statements && !script.has_fault;
}

static int each(sqlkeep *whole, sqlkeep *part, uint64_t statements, uint64_t length) {
    sqlkeep_span span = {0, 0};
    uint32_t kind = 9, own = 9;
    uint64_t before = 0;
    for (size_t at = 0; at < statements; at++) {
        WANT(sqlkeep_statement_place(whole, at, &span) == SQLKEEP_OK);
        WANT(before <= span.begin && span.begin < span.end && span.end <= length && text[span.end - 1] == ';');
        WANT(has(part, before, span.begin, 0) && has(part, span.begin, span.end, 1));
        WANT(sqlkeep_statement_kind(whole, at, &kind) == SQLKEEP_OK && sqlkeep_statement_kind(part, 0, &own) == SQLKEEP_OK && kind == own);
        sqlkeep_span alone;
        WANT(sqlkeep_statement_place(part, 0, &alone) == SQLKEEP_OK && alone.begin == 0 && alone.end == span.end - span.begin);
        before = span.end;
    }
    WANT(sqlkeep_statement_place(whole, (size_t)statements, &span) == SQLKEEP_NOTHING);
    return 0;
}

int main(void) {
    sqlkeep whole = SQLKEEP_EMPTY, part = SQLKEEP_EMPTY;
    sqlkeep_script script;
    size_t length = fread(text, 1, sizeof text, stdin);
    WANT(sqlkeep_open(&whole, 16, 65536) == SQLKEEP_OK && sqlkeep_open(&part, 16, 65536) == SQLKEEP_OK);
    uint32_t status = sqlkeep_read(&whole, text, length, &script);
    int failed = status == SQLKEEP_OK ? each(&whole, &part, script.statements, length) : status == SQLKEEP_NOT_UTF8 ? 0 : 1;
    WANT(sqlkeep_close(&whole) == SQLKEEP_OK && sqlkeep_close(&part) == SQLKEEP_OK);
    return failed;
}
