/* Values as parameters, and the catalogue: a text that would end the statement stays a text.

       cc -I ../../include parameters.c ../../out/libsqlkeep.a -o parameters && ./parameters */
#include "sqlkeep.h"

#include <inttypes.h>
#include <stdio.h>
#include <string.h>

#define COUNT(array) (sizeof(array) / sizeof *(array))

static const char SCHEMA[] =
    "CREATE TABLE author (id INT PRIMARY KEY, name VARCHAR(40) NOT NULL);"
    "CREATE TABLE book (title VARCHAR(40) PRIMARY KEY, author INT CONSTRAINT written_by REFERENCES author);";

static sqlkeep_parameter integer(int64_t value) {
    return (sqlkeep_parameter){.kind = SQLKEEP_INTEGER, .integer = value};
}

static sqlkeep_parameter text(const char *value) {
    return (sqlkeep_parameter){.kind = SQLKEEP_TEXT, .text = (const uint8_t *)value, .length = strlen(value)};
}

/* Executes the statements of a template with these values; the last outcome is left in `outcome`. */
static uint32_t execute(sqlkeep *session, const char *template, const sqlkeep_parameter *values, size_t count, sqlkeep_outcome *outcome) {
    sqlkeep_script script;
    uint32_t status = sqlkeep_read_filled(session, (const uint8_t *)template, strlen(template), values, count, &script);
    for (size_t place = 0; status == SQLKEEP_OK && place < script.statements; place++) {
        status = sqlkeep_execute(session, place, outcome);
    }
    return status;
}

static uint32_t show_table(sqlkeep *session, size_t table) {
    uint8_t name[200];
    size_t length = 0, columns = 0;
    uint32_t status = sqlkeep_table_name(session, table, 0, name, sizeof name, &length);
    if (status == SQLKEEP_OK) {
        printf("%.*s:", (int)length, (const char *)name);
        status = sqlkeep_table(session, table, &columns);
    }
    for (size_t column = 0; status == SQLKEEP_OK && column < columns; column++) {
        sqlkeep_column_type type = {0};
        status = sqlkeep_column(session, table, column, &type);
        if (status == SQLKEEP_OK) {
            status = sqlkeep_column_name(session, table, column, 0, name, sizeof name, &length);
        }
        if (status == SQLKEEP_OK && type.kind == SQLKEEP_COLUMN_VARCHAR) {
            printf(" %.*s VARCHAR(%" PRIu64 ")", (int)length, (const char *)name, type.longest);
        } else if (status == SQLKEEP_OK) {
            printf(" %.*s INTEGER", (int)length, (const char *)name);
        }
    }
    printf("\n");
    return status;
}

/* Shows each table with its columns. */
static uint32_t show_catalogue(sqlkeep *session) {
    sqlkeep_sizes sizes = {0};
    uint32_t status = sqlkeep_catalogue(session, &sizes);
    for (size_t table = 0; status == SQLKEEP_OK && table < sizes.tables; table++) {
        status = show_table(session, table);
    }
    return status;
}

/* Inserts a text that looks like the end of the statement, and selects it by its author. */
static uint32_t insert_and_select(sqlkeep *session) {
    const sqlkeep_parameter author[] = {integer(1), text("Austen")};
    const sqlkeep_parameter book[] = {text("x'); DELETE FROM author; --"), integer(1)};
    const sqlkeep_parameter sought[] = {text("Austen")};
    const char query[] = "SELECT title FROM book b WHERE EXISTS (SELECT * FROM author a WHERE a.id = b.author AND a.name = ?);";
    uint8_t title[200];
    size_t length = 0;
    sqlkeep_outcome outcome = {0};
    uint32_t status = execute(session, "INSERT INTO author VALUES (?, ?);", author, COUNT(author), &outcome);
    if (status == SQLKEEP_OK) {
        status = execute(session, "INSERT INTO book VALUES (?, ?);", book, COUNT(book), &outcome);
    }
    if (status == SQLKEEP_OK) {
        status = execute(session, query, sought, COUNT(sought), &outcome);
    }
    for (size_t row = 0; status == SQLKEEP_OK && row < outcome.count; row++) {
        status = sqlkeep_value_text(session, row, 0, 0, title, sizeof title, &length);
        printf("title: %.*s\n", (int)length, (const char *)title);
    }
    return status;
}

int main(void) {
    sqlkeep session = SQLKEEP_EMPTY;
    sqlkeep_outcome outcome;
    uint32_t status = sqlkeep_open(&session, 16, 65536);
    if (status == SQLKEEP_OK) {
        status = execute(&session, SCHEMA, NULL, 0, &outcome);
    }
    if (status == SQLKEEP_OK) {
        status = show_catalogue(&session);
    }
    if (status == SQLKEEP_OK) {
        status = insert_and_select(&session);
    }
    sqlkeep_close(&session);
    return status == SQLKEEP_OK ? 0 : 1;
}
