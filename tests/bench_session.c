/* Runs the scripts of the files that are named, one after the other in one session, and prints the integer that the last query gave.

       cc -I ../out bench_session.c ../out/libsqlkeep.a -o bench_session && ./bench_session a.sql b.sql */
#include "sqlkeep.h"

#include <inttypes.h>
#include <stdio.h>
#include <stdlib.h>

/* Reads a whole file; its bytes are the caller's, none where it can't be read. */
static uint8_t *read_file(const char *path, size_t *length) {
    FILE *file = fopen(path, "rb");
    uint8_t *bytes = NULL;
    long size;
    if (file == NULL) {
        return NULL;
    }
    if (fseek(file, 0, SEEK_END) == 0 && (size = ftell(file)) >= 0 && fseek(file, 0, SEEK_SET) == 0) {
        bytes = malloc((size_t)size + 1);
        *length = bytes == NULL ? 0 : fread(bytes, 1, (size_t)size, file);
    }
    fclose(file);
    return bytes;
}

/* Executes all statements of a text; the first value of the last query is kept. */
static uint32_t run_text(sqlkeep *session, const uint8_t *text, size_t length, int64_t *last) {
    sqlkeep_script script;
    sqlkeep_outcome outcome;
    sqlkeep_cell cell;
    uint32_t status = sqlkeep_read(session, text, length, &script);
    for (size_t place = 0; status == SQLKEEP_OK && place < script.statements; place++) {
        status = sqlkeep_execute(session, place, &outcome);
        if (status == SQLKEEP_OK && outcome.kind == SQLKEEP_REFUSED) {
            fprintf(stderr, "statement %zu is refused: cause %" PRIu32 "\n", place + 1, outcome.cause);
            return SQLKEEP_NOTHING;
        }
        if (status == SQLKEEP_OK && outcome.kind == SQLKEEP_ROWS && sqlkeep_value(session, 0, 0, &cell) == SQLKEEP_OK) {
            *last = cell.integer;
        }
    }
    return status;
}

int main(int count, char **files) {
    sqlkeep session = SQLKEEP_EMPTY;
    int64_t last = 0;
    uint32_t status = sqlkeep_open(&session, 16, 65536);
    for (int place = 1; status == SQLKEEP_OK && place < count; place++) {
        size_t length = 0;
        uint8_t *text = read_file(files[place], &length);
        status = text == NULL ? (uint32_t)SQLKEEP_NOTHING : run_text(&session, text, length, &last);
        free(text);
    }
    sqlkeep_close(&session);
    printf("%" PRId64 "\n", last);
    return status == SQLKEEP_OK ? 0 : 2;
}
