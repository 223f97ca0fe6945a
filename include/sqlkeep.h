/* sqlkeep: an in-memory SQL engine for integrity constraints, for C11, C++17 and later.

   A session is a database in memory with its transaction. A caller holds it by a handle, a struct sqlkeep that the
   caller owns, and that is empty until sqlkeep_open opens it:

       sqlkeep session = SQLKEEP_EMPTY;
       if (sqlkeep_open(&session, 16, 65536) == SQLKEEP_OK) {
           ...
           sqlkeep_close(&session);
       }

   Every function answers a status, one of enum sqlkeep_status. If it isn't SQLKEEP_OK, nothing was changed, and no result
   was written. If it is, the function did what its comment says, and left all else as it was. The comment of a
   function names each status that it may answer besides SQLKEEP_OK, and says when. SQLKEEP_CLOSED always means that the
   handle or the result is empty, and SQLKEEP_NO_MEMORY that memory was refused; a function whose comment doesn't name this one takes no
   memory, or can do without it, as its comment says. A statement that the database refuses is no failed call: the call
   answers SQLKEEP_OK, and the outcome says why the statement was refused.

   The library is proved for callers that keep these rules. Nothing checks that a C program keeps them.

   - No pointer is null, also where a length or a size is 0, but for one to a handle: that is answered by
     SQLKEEP_NO_HANDLE, by this header, so in C and C++ alone. A pointer to a handle or to a result leads to an object of
     its type that holds a valid value, also where the function only writes it: a `bool` is true or false before the
     call. (All bytes are a valid value of the other types of this header.) `text` and `name` lead to `length` bytes that can be read, `buffer` to `size` bytes that can be written. A length or
     a size is less than 2 to the power of 63.
   - A handle is SQLKEEP_EMPTY, or what the functions of this library left in it. It may be moved to another place in
     memory, but it isn't copied and used twice, and its members are neither read nor written. The same holds of a result,
     which is SQLKEEP_NO_RESULT at first.
   - The handle, the results and the buffer of one call don't overlap. The library reads and writes them during the
     call alone, and keeps no pointer to them: all that a caller passes stays the caller's own.
   - All memory that the library takes belongs to an open handle or to a result with rows. sqlkeep_close and
     sqlkeep_result_free free it, in any order; what is dropped without that leaks it.
   - All calls for one handle, and for the results that were taken out of it, are made on the thread that opened it. Different threads may use different handles at the same
     time, and no call for one handle changes another.
   - No function is called from a signal handler, nor in a child that was forked from a process with threads.
   - The library takes memory by malloc and realloc, and frees it by free. These three belong together, and the memory
     is aligned as the C standard says.

   No function ends the process, and none writes to a file. */
#ifndef SQLKEEP_H
#define SQLKEEP_H

#include <stdbool.h>
#include <stddef.h>
#include <stdint.h>

#ifdef __cplusplus
extern "C" {
#endif

/* The version of this header and of the library that belongs to it. */
#define SQLKEEP_VERSION "0.1.0"

/* What a call answers. */
enum sqlkeep_status {
    SQLKEEP_OK = 0,
    /* The handle is empty. */
    SQLKEEP_CLOSED = 1,
    /* The handle is open already. */
    SQLKEEP_OPEN = 2,
    /* A limit of the session isn't in its range. */
    SQLKEEP_LIMITS = 3,
    /* The text or the name isn't UTF-8. */
    SQLKEEP_NOT_UTF8 = 4,
    /* The script is longer than 1,048,576 bytes. */
    SQLKEEP_TOO_LONG = 5,
    /* The library wanted memory and got none. */
    SQLKEEP_NO_MEMORY = 6,
    /* There is nothing at this place. */
    SQLKEEP_NOTHING = 7,
    /* The pointer to the handle is null. */
    SQLKEEP_NO_HANDLE = 8,
    /* The template has another number of question marks than there are values. */
    SQLKEEP_WRONG_COUNT = 9,
    /* At some place of the template there is neither a token nor a question mark. */
    SQLKEEP_NO_TEMPLATE = 10,
    /* A transaction is open. */
    SQLKEEP_IN_TRANSACTION = 11,
    /* What was written of the database, as a dump, doesn't make the same again. */
    SQLKEEP_NOT_RESTORED = 12
};

/* A handle of a session. */
typedef struct sqlkeep {
    bool is_open;
    void *inside;
} sqlkeep;

/* An empty handle. */
#define SQLKEEP_EMPTY {false, NULL}

/* What a script did. */
typedef struct sqlkeep_summary {
    /* How many statements were accepted, and how many were refused. */
    uint64_t accepted;
    uint64_t refused;
    /* How many of the refused had cause 22: memory was refused. */
    uint64_t memory_refused;
    /* 1 where something is left of the text that is no statement, else 0; and the byte, from 0, where that begins. */
    uint64_t has_fault;
    uint64_t fault_at;
    /* How many refused COMMITs and ROLLBACK TOs have an empty account, or statements no lines of what is pending, since memory was
       refused for it; 0 where no accounts are asked for. */
    uint64_t untold;
} sqlkeep_summary;

/* What was read of a text. */
typedef struct sqlkeep_script {
    /* How many statements there are. */
    uint64_t statements;
    /* 1 where something is left of the text that is no statement, else 0; and the byte, from 0, where that begins. */
    uint64_t has_fault;
    uint64_t fault_at;
} sqlkeep_script;

/* Where a statement is in its text: bytes of it, from 0. */
typedef struct sqlkeep_span {
    /* The first byte of its first word, and the byte behind its semicolon. */
    uint64_t begin;
    uint64_t end;
} sqlkeep_span;

/* Where the text that was read last has its fault: bytes of it, from 0; of the template, if it was one. */
typedef struct sqlkeep_place {
    /* Where the statement begins that isn't one. */
    uint64_t at;
    /* Where the first word begins that can't stand where it does, whatever follows it; the text's end where more should follow. */
    uint64_t word;
    /* Where that word ends; where it begins, if no token begins there. */
    uint64_t end;
    /* 1 where the text ends within the statement, so that it may go on; else 0. */
    uint64_t is_cut;
} sqlkeep_place;

/* What a statement answered. */
enum sqlkeep_kind {
    SQLKEEP_DONE = 0,
    /* It inserted, updated or deleted rows. */
    SQLKEEP_CHANGED = 1,
    /* It was a query, and gave rows. */
    SQLKEEP_ROWS = 2,
    SQLKEEP_REFUSED = 3
};

/* Why a statement was refused, as docs/language/refusals.md has it. */
enum sqlkeep_cause_number {
    SQLKEEP_CAUSE_UNKNOWN = 1,
    SQLKEEP_CAUSE_DUPLICATE = 2,
    SQLKEEP_CAUSE_SCHEMA_FAULT = 3,
    SQLKEEP_CAUSE_IN_TRANSACTION = 4,
    SQLKEEP_CAUSE_NO_TRANSACTION = 5,
    SQLKEEP_CAUSE_ACTIVE_TRANSACTION = 6,
    SQLKEEP_CAUSE_UNKNOWN_SAVEPOINT = 7,
    SQLKEEP_CAUSE_NOT_DEFERRABLE = 8,
    SQLKEEP_CAUSE_WRONG_SHAPE = 9,
    SQLKEEP_CAUSE_NUMBER_OUT_OF_RANGE = 10,
    SQLKEEP_CAUSE_TEXT_TOO_LONG = 11,
    SQLKEEP_CAUSE_RESTRICT = 12,
    SQLKEEP_CAUSE_VIOLATION = 13,
    SQLKEEP_CAUSE_ACTION_CONFLICT = 14,
    SQLKEEP_CAUSE_SIGNAL = 15,
    SQLKEEP_CAUSE_DEPTH_LIMIT = 16,
    SQLKEEP_CAUSE_TOO_MANY_CHANGES = 17,
    SQLKEEP_CAUSE_TRANSACTION_TOO_LARGE = 18,
    SQLKEEP_CAUSE_COMMIT_REFUSED = 19,
    SQLKEEP_CAUSE_ADD_REFUSED = 20,
    SQLKEEP_CAUSE_LIMIT = 21,
    SQLKEEP_CAUSE_OUT_OF_MEMORY = 22
};

/* The outcome of a statement. */
typedef struct sqlkeep_outcome {
    /* One of enum sqlkeep_kind. */
    uint32_t kind;
    /* One of enum sqlkeep_cause_number where the statement was refused; otherwise 0. */
    uint32_t cause;
    /* How many rows were changed, or how many a query gave; otherwise 0. */
    uint64_t count;
    /* The row that the cause of a refusal speaks of; 0 where it speaks of none. */
    uint64_t row;
} sqlkeep_outcome;

/* The kind of a value. */
enum sqlkeep_value_kind {
    SQLKEEP_NULL = 0,
    SQLKEEP_INTEGER = 1,
    SQLKEEP_TEXT = 2
};

/* A value for a question mark of a template. */
typedef struct sqlkeep_parameter {
    /* One of enum sqlkeep_value_kind. */
    uint64_t kind;
    /* The integer; not looked at where the value is none. */
    int64_t integer;
    /* The bytes of the text, which are UTF-8, and their number; not looked at where the value is none. */
    const uint8_t *text;
    size_t length;
} sqlkeep_parameter;

/* A value of a row. */
typedef struct sqlkeep_cell {
    /* One of enum sqlkeep_value_kind. */
    uint64_t kind;
    /* The integer; 0 where it is none. */
    int64_t integer;
    /* How many bytes the text has; 0 where it is none. */
    uint64_t length;
} sqlkeep_cell;

/* The rows of a query, apart from the session that gave them. */
typedef struct sqlkeep_result {
    bool is_open;
    void *inside;
} sqlkeep_result;

/* A result without rows. */
#define SQLKEEP_NO_RESULT {false, NULL}

/* How many rows and columns a result has. */
typedef struct sqlkeep_result_sizes {
    uint64_t rows;
    uint64_t columns;
} sqlkeep_result_sizes;

/* How many rows were copied, and how many bytes their texts have. */
typedef struct sqlkeep_taken {
    uint64_t rows;
    uint64_t bytes;
} sqlkeep_taken;

/* The kind of a statement. */
enum sqlkeep_statement_kinds {
    /* CREATE, ALTER, DROP */
    SQLKEEP_SCHEMA = 0,
    /* INSERT, UPDATE, DELETE */
    SQLKEEP_DATA = 1,
    /* SELECT */
    SQLKEEP_QUERY = 2,
    /* START TRANSACTION, COMMIT, ROLLBACK, SAVEPOINT, RELEASE, SET CONSTRAINTS */
    SQLKEEP_TRANSACTION = 3
};

/* A row of the database. */
typedef struct sqlkeep_stored_row {
    /* The place of its table. */
    uint64_t table;
    /* How many values it has. */
    uint64_t columns;
} sqlkeep_stored_row;

/* How many tables, constraints and triggers there are. */
typedef struct sqlkeep_sizes {
    uint64_t tables;
    uint64_t constraints;
    uint64_t triggers;
} sqlkeep_sizes;

/* The type of a column. */
enum sqlkeep_column_kind {
    SQLKEEP_COLUMN_INTEGER = 1,
    SQLKEEP_COLUMN_VARCHAR = 2
};

typedef struct sqlkeep_column_type {
    /* One of enum sqlkeep_column_kind. */
    uint64_t kind;
    /* The most characters that a value of a VARCHAR column may have; otherwise 0. */
    uint64_t longest;
} sqlkeep_column_type;

/* The kind of a constraint. */
enum sqlkeep_constraint_kind {
    SQLKEEP_NOT_NULL = 0,
    SQLKEEP_CHECK = 1,
    SQLKEEP_UNIQUE = 2,
    SQLKEEP_PRIMARY_KEY = 3,
    SQLKEEP_FOREIGN_KEY = 4
};

/* When a constraint is checked: at the end of each statement, or at COMMIT. */
enum sqlkeep_mode { SQLKEEP_IMMEDIATE = 0, SQLKEEP_DEFERRED = 1 };

/* What a foreign key does where the row that it refers to is deleted, or its key is updated. */
enum sqlkeep_action {
    SQLKEEP_NO_ACTION = 0,
    SQLKEEP_RESTRICT = 1,
    SQLKEEP_CASCADE = 2,
    SQLKEEP_SET_NULL = 3,
    SQLKEEP_SET_DEFAULT = 4
};

/* A constraint. */
typedef struct sqlkeep_constraint_definition {
    /* One of enum sqlkeep_constraint_kind. */
    uint32_t kind;
    /* The place of its table. */
    uint32_t table;
    /* How many columns it is of; 0 for a CHECK. */
    uint64_t columns;
    /* 1 if SET CONSTRAINTS may set its mode, otherwise 0; and 1 if its mode is deferred at the start of a transaction, otherwise 0. */
    uint32_t deferrable;
    uint32_t initially_deferred;
    /* 1 for UNIQUE NULLS NOT DISTINCT, otherwise 0. */
    uint32_t nulls_not_distinct;
    /* Of a foreign key: the place of the table that it refers to; 1 for MATCH FULL, otherwise 0; and its actions, each one of
       enum sqlkeep_action. Otherwise 0. */
    uint32_t referenced;
    uint32_t match_full;
    uint32_t on_delete;
    uint32_t on_update;
} sqlkeep_constraint_definition;

enum sqlkeep_time { SQLKEEP_BEFORE = 0, SQLKEEP_AFTER = 1 };
enum sqlkeep_event { SQLKEEP_INSERT = 0, SQLKEEP_UPDATE = 1, SQLKEEP_DELETE = 2 };
enum sqlkeep_granularity { SQLKEEP_FOR_EACH_ROW = 0, SQLKEEP_FOR_EACH_STATEMENT = 1 };

/* A trigger. */
typedef struct sqlkeep_trigger_definition {
    /* The place of its table. */
    uint32_t table;
    /* One of enum sqlkeep_time, of enum sqlkeep_event and of enum sqlkeep_granularity. */
    uint32_t time;
    uint32_t event;
    uint32_t granularity;
    /* How many columns UPDATE OF lists; and how many statements its body has. */
    uint64_t columns;
    uint64_t statements;
} sqlkeep_trigger_definition;

/* What an entry of an account tells. */
enum sqlkeep_entry_kind {
    /* A wave: its items are row changes that were made together, by rising row number. */
    SQLKEEP_ENTRY_CHANGES = 0,
    /* After the wave before it foreign keys act on rows: its items are the constraints, the rows and the actions. */
    SQLKEEP_ENTRY_ACTIONS = 1,
    /* A trigger runs. Its items are the row changes of its transition tables. */
    SQLKEEP_ENTRY_TRIGGER = 2,
    /* A data statement of the trigger's body begins: the entries up to its end are its own. A refused one has no end. */
    SQLKEEP_ENTRY_STATEMENT = 3,
    SQLKEEP_ENTRY_STATEMENT_END = 4,
    /* A constraint and a row that the refusal is about. Its items are that row, and of a key the other row with the same one. */
    SQLKEEP_ENTRY_VIOLATION = 5,
    /* A trigger is skipped, since its WHEN is false or unknown. It has no items. */
    SQLKEEP_ENTRY_SKIPPED = 6,
    /* Two foreign keys set a column of a row to different values: the constraint is the later of them, the item is the row.
       sqlkeep_disagreement tells the earlier one, the column and both values. */
    SQLKEEP_ENTRY_DISAGREEMENT = 7,
    /* A number out of range, or a text that is too long. Its item, if it has one, is the row at hand; otherwise it may have an old and
       a new row of a trigger. sqlkeep_entry_trigger names the trigger whose WHEN it is. sqlkeep_lines tells the rest in words. */
    SQLKEEP_ENTRY_FAILURE = 8,
    /* RELEASE or ROLLBACK TO names a savepoint that isn't there. Its items are the savepoints that stand, the earliest first, of which
       only the names are told: sqlkeep_entry_name. */
    SQLKEEP_ENTRY_SAVEPOINTS = 9,
    /* A constraint that ALTER TABLE doesn't add, and the row that violates it. Its items are as those of a violation. The catalogue
       doesn't have the constraint: its name is that of item 0. */
    SQLKEEP_ENTRY_NOT_ADDED = 10
};

/* An entry of an account. What its kind doesn't have is 0. */
typedef struct sqlkeep_entry_shown {
    /* One of enum sqlkeep_entry_kind. */
    uint32_t kind;
    /* The place of the statement in the trigger's body, from 1. */
    uint32_t statement;
    /* The place of the constraint that is violated. */
    uint32_t constraint;
    /* 1 where the trigger runs, or is skipped, for a row that was there before, and after the change; otherwise 0. */
    uint32_t has_old;
    uint32_t has_new;
    /* 1 where the WHEN of a trigger that is skipped is unknown, 0 where it is false. */
    uint32_t is_unknown;
    /* How many items it has. */
    uint64_t items;
    /* The number of the row that violates the constraint. */
    uint64_t row;
} sqlkeep_entry_shown;

/* An item of an entry. What it doesn't have is 0. */
typedef struct sqlkeep_item {
    /* The place of the table. */
    uint32_t table;
    /* Of an action: the place of the foreign key, and one of enum sqlkeep_action. */
    uint32_t constraint;
    uint32_t action;
    /* 1 where there are values before, and values after it; otherwise 0. */
    uint32_t has_old;
    uint32_t has_new;
    /* The number of the row. */
    uint64_t row;
} sqlkeep_item;

/* How two foreign keys disagree about a row. */
typedef struct sqlkeep_disagreement_shown {
    /* The place of the foreign key that was created first; and the place of the column in the table of the row. */
    uint32_t earlier;
    uint32_t column;
    /* What that foreign key sets the column to, and what the constraint of the entry sets it to. */
    sqlkeep_cell earlier_value;
    sqlkeep_cell value;
} sqlkeep_disagreement_shown;

/* The side of a change: the row before it, and after it. */
enum sqlkeep_side { SQLKEEP_OLD = 0, SQLKEEP_NEW = 1 };

/* What a violation is about. */
typedef struct sqlkeep_violation_shown {
    /* The place of the constraint and of its table in the catalogue, and how many columns the constraint is of. */
    uint32_t constraint;
    uint32_t table;
    uint64_t columns;
    /* The number of the row that violates it. */
    uint64_t row;
    /* The number of the other row with the same key; 0 if the violation is about none. */
    uint64_t other;
} sqlkeep_violation_shown;

/* What the last statement or call did. */
typedef struct sqlkeep_done {
    /* How many row changes it made, those of triggers and actions too, and how many it undid. */
    uint64_t changes;
    uint64_t undone;
    /* How many keys it looked up for constraints. What conditions look at is not counted. */
    uint64_t lookups;
} sqlkeep_done;

/* Opens a session over a database without tables. Triggers may nest `depth` deep, 1 to 64, and a statement may make
   `changes` row changes, 1 to 65,536; the program has 16 and 65,536.
   SQLKEEP_OPEN: the handle is open. SQLKEEP_LIMITS: a limit isn't in its range. SQLKEEP_NO_MEMORY. */
uint32_t sqlkeep_open(sqlkeep *handle, uint8_t depth, uint32_t changes);

/* Closes the session, frees all that it holds, and leaves the handle empty. An open transaction is lost with the
   database. SQLKEEP_CLOSED: the handle was empty. */
uint32_t sqlkeep_close(sqlkeep *handle);

/* From now on an account of each statement is asked for, or isn't: 0 is no, all else is yes. The last account is cleared. An account says what happened
   in a statement, line by line: rows that changed, foreign keys that acted, triggers that ran, and the rows that a refusal is
   about (docs/language/accounts.md). sqlkeep_run and sqlkeep_lines write it. Where memory for it is refused, the statement is
   refused with cause 22; a COMMIT or a ROLLBACK TO SAVEPOINT is as without one then, and its account is empty. SQLKEEP_CLOSED. */
uint32_t sqlkeep_explain(sqlkeep *handle, uint32_t asked);

/* Runs a whole script as the program does: in a new database of its own, with the limits of this session, and with
   accounts where they are asked for. The transcript is kept in the handle for sqlkeep_transcript, in place of the last
   one. The database of the session is neither read nor changed. A statement for which there is no memory is refused with
   cause 22.
   SQLKEEP_CLOSED, SQLKEEP_NOT_UTF8, SQLKEEP_TOO_LONG, SQLKEEP_NO_MEMORY: the last transcript stays. Where memory was
   refused for a statement alone, the status is SQLKEEP_OK, and `summary` counts it. */
uint32_t sqlkeep_run(sqlkeep *handle, const uint8_t *text, size_t length, sqlkeep_summary *summary);

/* Copies bytes of the transcript to the buffer, from byte `from` on: as many as there are and as fit. Their number is
   written to `copied`, 0 at the end. The bytes are UTF-8, and no zero byte is added. SQLKEEP_CLOSED. */
uint32_t sqlkeep_transcript(sqlkeep *handle, size_t from, uint8_t *buffer, size_t size, size_t *copied);

/* ---- statements, one after the other in the session

   A text is read into statements first, and then each of them is executed by its place, as often as is wanted. The
   statements stay until the next text is read. The outcome of a statement stays until the next statement, COMMIT or
   ROLLBACK TO SAVEPOINT. */

/* Reads the statements of a text and keeps them, in place of those before. Nothing is executed, and the last outcome stays;
   sqlkeep_lines then no longer tells the name or the reason that it is about, since its statement is gone.
   SQLKEEP_CLOSED, SQLKEEP_NOT_UTF8, SQLKEEP_NO_MEMORY. */
uint32_t sqlkeep_read(sqlkeep *handle, const uint8_t *text, size_t length, sqlkeep_script *script);

/* Tells the fault of the text that was read last. After sqlkeep_read_bound and sqlkeep_read_filled its places are bytes of the
   template: a word of a value that was filled in is the question mark.
   SQLKEEP_CLOSED; SQLKEEP_NOTHING: that text has no fault. */
uint32_t sqlkeep_fault(sqlkeep *handle, sqlkeep_place *place);

/* Tells where a statement of those that were read is in the text, or in the template, that they were read from. The first call after
   a text was read looks for the places of all its statements, and keeps them.
   SQLKEEP_CLOSED, SQLKEEP_NO_MEMORY; SQLKEEP_NOTHING: there are fewer statements. */
uint32_t sqlkeep_statement_place(sqlkeep *handle, size_t at, sqlkeep_span *place);

/* ---- templates

   A template is a text in which a question mark stands where a literal may stand; one in a text or in a comment is no such
   mark. It is read with values in place of its question marks, and no value can end a statement, add one, or become a name:
   NULL is NULL, an integer its digits, in parentheses where it is negative, and a text stands between quotes, with each
   quote in it doubled. sqlkeep_read_filled below takes the values as an array. */

/* Forgets the values that are bound. SQLKEEP_CLOSED. */
uint32_t sqlkeep_unbind(sqlkeep *handle);

/* Binds a value after those that are bound. SQLKEEP_CLOSED, SQLKEEP_NO_MEMORY; SQLKEEP_NOT_UTF8 of a text. */
uint32_t sqlkeep_bind_null(sqlkeep *handle);
uint32_t sqlkeep_bind_integer(sqlkeep *handle, int64_t integer);
uint32_t sqlkeep_bind_text(sqlkeep *handle, const uint8_t *text, size_t length);

/* Reads the statements of a template with the values that are bound, keeps them as sqlkeep_read does, and forgets the values.
   `script->fault_at` is a byte of the template.
   SQLKEEP_CLOSED, SQLKEEP_NOT_UTF8, SQLKEEP_NO_MEMORY; SQLKEEP_WRONG_COUNT: the template has another number of question marks
   than values are bound; SQLKEEP_NO_TEMPLATE: at some place of it there is neither a token nor a question mark. */
uint32_t sqlkeep_read_bound(sqlkeep *handle, const uint8_t *text, size_t length, sqlkeep_script *script);

/* Executes the statement at this place, from 0, of those that were read. SQLKEEP_OK says that it was executed, also where it
   was refused: then `outcome->kind` is SQLKEEP_REFUSED. Where memory was refused, the cause is 22, the database is as
   before, and the statement may be executed again.
   SQLKEEP_CLOSED; SQLKEEP_NOTHING: there are fewer statements. */
uint32_t sqlkeep_execute(sqlkeep *handle, size_t at, sqlkeep_outcome *outcome);

/* The kind of a statement of those that were read: one of enum sqlkeep_statement_kinds.
   SQLKEEP_CLOSED; SQLKEEP_NOTHING: there are fewer statements. */
uint32_t sqlkeep_statement_kind(sqlkeep *handle, size_t at, uint32_t *kind);

/* Writes the lines of the last outcome as the program does, with this number in front, then those of its account and the name
   that a refusal is about where accounts are asked for, and keeps them for sqlkeep_transcript. It is to be called before the next
   statement is executed; the name is told up to the next sqlkeep_read. The account is told where one was asked for when the
   outcome was answered, up to the next sqlkeep_explain or sqlkeep_rollback, which clear it. Before any statement was
   executed the outcome is `ok`. SQLKEEP_CLOSED, SQLKEEP_NO_MEMORY. */
uint32_t sqlkeep_lines(sqlkeep *handle, uint64_t number);

/* The same as one line of JSON, as `sqlkeep --json` writes it (docs/json). SQLKEEP_CLOSED, SQLKEEP_NO_MEMORY. */
uint32_t sqlkeep_lines_json(sqlkeep *handle, uint64_t number);

/* ---- the rows of a query

   These read the last outcome, as long as it is there. Rows and columns count from 0. */

/* How many values a row has. SQLKEEP_CLOSED; SQLKEEP_NOTHING: there is no such row. */
uint32_t sqlkeep_columns(sqlkeep *handle, size_t row, size_t *count);

/* The value in a row and a column. SQLKEEP_CLOSED; SQLKEEP_NOTHING: there is no such value. */
uint32_t sqlkeep_value(sqlkeep *handle, size_t row, size_t column, sqlkeep_cell *value);

/* Copies bytes of a text to the buffer, from byte `from` on, as sqlkeep_transcript does.
   SQLKEEP_CLOSED; SQLKEEP_NOTHING: there is no such value. */
uint32_t sqlkeep_value_text(sqlkeep *handle, size_t row, size_t column, size_t from, uint8_t *buffer, size_t size, size_t *copied);

/* Copies rows from this one on, as many as have room: a cell for each value, row by row, and the bytes of the texts, one
   after the other with nothing between them. `count` is how many cells the one buffer has, `size` how many bytes the other.
   What of them isn't written stays as it was. If no row is copied though there is one, a buffer is too small for it.
   SQLKEEP_CLOSED. */
uint32_t sqlkeep_rows(sqlkeep *handle, size_t from, sqlkeep_cell *cells, size_t count, uint8_t *texts, size_t size, sqlkeep_taken *taken);

/* ---- rows that stay

   sqlkeep_result_take takes the rows of the last outcome out of the session. They stay until the result is freed: no further
   statement changes them, nor does sqlkeep_close. A result is freed once; then it may take rows again. */

/* Takes the rows of the last outcome, without a copy, and with the names of the columns if no other text was read since the query was
   executed. The outcome then has no rows.
   SQLKEEP_CLOSED: the handle is empty. SQLKEEP_OPEN: the result has rows already. SQLKEEP_NOTHING: the last outcome is none of a
   query. SQLKEEP_NO_MEMORY. */
uint32_t sqlkeep_result_take(sqlkeep *handle, sqlkeep_result *result);

/* Frees the rows, and leaves the result empty. SQLKEEP_CLOSED: the result was empty. */
uint32_t sqlkeep_result_free(sqlkeep_result *result);

/* How many rows there are, and how many columns the query has; 0 columns if their names weren't there. SQLKEEP_CLOSED. */
uint32_t sqlkeep_result_size(sqlkeep_result *result, sqlkeep_result_sizes *sizes);

/* Copies bytes of a column's name to the buffer, as sqlkeep_query_column does. SQLKEEP_CLOSED; SQLKEEP_NOTHING: there is no such
   column. */
uint32_t sqlkeep_result_column(sqlkeep_result *result, size_t column, size_t from, uint8_t *buffer, size_t size, size_t *copied);

/* Copies rows from this one on, as sqlkeep_rows does. SQLKEEP_CLOSED. */
uint32_t sqlkeep_result_rows(sqlkeep_result *result, size_t from, sqlkeep_cell *cells, size_t count, uint8_t *texts, size_t size, sqlkeep_taken *taken);

/* ---- a row by its number

   An outcome, a violation and an account tell rows by their numbers. These read the row of a number as it is now.
   SQLKEEP_CLOSED; SQLKEEP_NOTHING: there is no such row now, or it has no such column. */

/* Its table, and how many values it has. */
uint32_t sqlkeep_row(sqlkeep *handle, uint64_t number, sqlkeep_stored_row *row);

/* A value of it, and the bytes of a text from byte `from` on, copied as sqlkeep_transcript does. */
uint32_t sqlkeep_row_value(sqlkeep *handle, uint64_t number, size_t column, sqlkeep_cell *value);
uint32_t sqlkeep_row_text(sqlkeep *handle, uint64_t number, size_t column, size_t from, uint8_t *buffer, size_t size, size_t *copied);

/* ---- the columns of a query

   These are about the statement that was executed last, where it is among those that were read last and is a query, also
   where it gave no row. SQLKEEP_NOTHING: it is none, or its table isn't there. */

/* How many columns it has. SQLKEEP_CLOSED, SQLKEEP_NOTHING. */
uint32_t sqlkeep_query(sqlkeep *handle, size_t *columns);

/* Copies bytes of a column's name to the buffer, from byte `from` on, as sqlkeep_transcript does. It is COUNT for COUNT(*), and
   empty for an expression that is no column. SQLKEEP_CLOSED; SQLKEEP_NOTHING: there is no such column. */
uint32_t sqlkeep_query_column(sqlkeep *handle, size_t column, size_t from, uint8_t *buffer, size_t size, size_t *copied);

/* ---- the catalogue

   Tables, constraints and triggers stand in the order of their creation and columns in that of their text, each from 0. A
   dropped trigger leaves no gap. Names are copied to the buffer, from byte `from` on, as sqlkeep_transcript does.
   SQLKEEP_CLOSED; SQLKEEP_NOTHING: there is none at this place. */

/* How many tables, constraints and triggers there are. SQLKEEP_CLOSED. */
uint32_t sqlkeep_catalogue(sqlkeep *handle, sqlkeep_sizes *sizes);

/* How many columns a table has, and its name. */
uint32_t sqlkeep_table(sqlkeep *handle, size_t table, size_t *columns);
uint32_t sqlkeep_table_name(sqlkeep *handle, size_t table, size_t from, uint8_t *buffer, size_t size, size_t *copied);

/* The type and the name of a column. */
uint32_t sqlkeep_column(sqlkeep *handle, size_t table, size_t column, sqlkeep_column_type *type);
uint32_t sqlkeep_column_name(sqlkeep *handle, size_t table, size_t column, size_t from, uint8_t *buffer, size_t size, size_t *copied);

/* The value of DEFAULT of a column, NULL where it has none; and the bytes of a text. */
uint32_t sqlkeep_default(sqlkeep *handle, size_t table, size_t column, sqlkeep_cell *value);
uint32_t sqlkeep_default_text(sqlkeep *handle, size_t table, size_t column, size_t from, uint8_t *buffer, size_t size, size_t *copied);

/* A constraint, its name, a column that it is of, and the column that a foreign key refers to from there, as their places in
   their tables. */
uint32_t sqlkeep_constraint_at(sqlkeep *handle, size_t at, sqlkeep_constraint_definition *constraint);
uint32_t sqlkeep_constraint_name(sqlkeep *handle, size_t at, size_t from, uint8_t *buffer, size_t size, size_t *copied);
uint32_t sqlkeep_constraint_column(sqlkeep *handle, size_t at, size_t place, uint32_t *column);
uint32_t sqlkeep_referenced_column(sqlkeep *handle, size_t at, size_t place, uint32_t *column);

/* The condition of a CHECK as SQL text, with the names of columns folded to upper case and with no parentheses that the grammar doesn't
   need. Read as a CHECK of its table, the text means just this constraint. It was read again, as the WHERE of a SELECT of the table.
   SQLKEEP_CLOSED, SQLKEEP_NO_MEMORY; SQLKEEP_NOTHING: there is no constraint at this place, or it is none of CHECK;
   SQLKEEP_NOT_RESTORED: the text isn't read as this condition. */
uint32_t sqlkeep_constraint_condition(sqlkeep *handle, size_t at, size_t from, uint8_t *buffer, size_t size, size_t *copied);

/* The mode of a constraint now: one of enum sqlkeep_mode. SET CONSTRAINTS sets it; at the end of the transaction it is the initial
   one again. */
uint32_t sqlkeep_constraint_mode(sqlkeep *handle, size_t at, uint32_t *mode);

/* A trigger, its name, and a column that UPDATE OF lists, as its place in the table. */
uint32_t sqlkeep_trigger_at(sqlkeep *handle, size_t at, sqlkeep_trigger_definition *trigger);
uint32_t sqlkeep_trigger_name(sqlkeep *handle, size_t at, size_t from, uint8_t *buffer, size_t size, size_t *copied);
uint32_t sqlkeep_trigger_column(sqlkeep *handle, size_t at, size_t place, uint32_t *column);

/* ---- a dump

   A dump is the whole database as scripts that make it again, to be run one after another in a new session: each table with its
   constraints and then its rows, in creation order, then the triggers. Rows get new numbers. */

/* Writes a dump and keeps it in the handle for sqlkeep_dump_script, in place of the last one. Its scripts were run in a database of their
   own, which was compared with this one. Their number, at least 1, is written to `scripts`; each has at most 1,048,576 bytes, so that
   sqlkeep_run can run it. Nothing else changes. It takes the time that the scripts take to run, and memory for a second database.
   SQLKEEP_CLOSED; SQLKEEP_IN_TRANSACTION: a transaction is open. SQLKEEP_TOO_LONG: a row would need a longer script;
   SQLKEEP_NOT_RESTORED: the scripts don't make the same database again; SQLKEEP_NO_MEMORY. */
uint32_t sqlkeep_dump(sqlkeep *handle, size_t *scripts);

/* Copies bytes of a script of the last dump, from 0, to the buffer, from byte `from` on, as sqlkeep_transcript does.
   SQLKEEP_CLOSED; SQLKEEP_NOTHING: there is no such script. */
uint32_t sqlkeep_dump_script(sqlkeep *handle, size_t at, size_t from, uint8_t *buffer, size_t size, size_t *copied);

/* ---- why the last statement was refused

   Each copies bytes of a text to the buffer, from byte `from` on, as sqlkeep_transcript does. Where the cause speaks of no
   constraint, no trigger or no SIGNAL, the text is empty.
   SQLKEEP_CLOSED; SQLKEEP_NOTHING: the last outcome is no refusal. */

/* The number of the cause and its name, as "13 Violation". */
uint32_t sqlkeep_cause(sqlkeep *handle, size_t from, uint8_t *buffer, size_t size, size_t *copied);

/* The name of the constraint. */
uint32_t sqlkeep_constraint(sqlkeep *handle, size_t from, uint8_t *buffer, size_t size, size_t *copied);

/* The name of the trigger that the cause speaks of, or else of the innermost one that was running. */
uint32_t sqlkeep_trigger(sqlkeep *handle, size_t from, uint8_t *buffer, size_t size, size_t *copied);

/* The text of the SIGNAL. */
uint32_t sqlkeep_signal(sqlkeep *handle, size_t from, uint8_t *buffer, size_t size, size_t *copied);

/* Copies bytes of a message on the last outcome, from byte `from` on, as sqlkeep_transcript does: one line of words without its end, as
   "refused: Violation, constraint BOOK_KEY, row 7, trigger LOG_IT" or "refused: Unknown: table BOKO isn't there". It names what the
   cause speaks of: the constraint, the row, the trigger, the text of the SIGNAL as it is, and the name that isn't there, is there
   already or comes twice. Of an accepted statement it is "done", "rows changed: 2" or "rows: 2". It is to be called before the next
   statement is executed; the name at fault or the reason is told up to the next sqlkeep_read. SQLKEEP_CLOSED, SQLKEEP_NO_MEMORY. */
uint32_t sqlkeep_message(sqlkeep *handle, size_t from, uint8_t *buffer, size_t size, size_t *copied);

/* ---- the account of the last statement

   These read it entry by entry, from 0, where one was asked for by sqlkeep_explain; otherwise there is no entry. Places of tables and
   constraints are those of the catalogue. SQLKEEP_CLOSED; SQLKEEP_NOTHING: there is no such entry, item or value. */

/* How many entries there are. SQLKEEP_CLOSED. */
uint32_t sqlkeep_entries(sqlkeep *handle, size_t *count);

/* An entry; and the name of the trigger that runs or is skipped by it, copied as sqlkeep_transcript does. */
uint32_t sqlkeep_entry(sqlkeep *handle, size_t at, sqlkeep_entry_shown *entry);
uint32_t sqlkeep_entry_trigger(sqlkeep *handle, size_t at, size_t from, uint8_t *buffer, size_t size, size_t *copied);

/* A name that an entry tells and the catalogue doesn't have, copied as sqlkeep_transcript does: of an item of
   SQLKEEP_ENTRY_SAVEPOINTS, or of the constraint of SQLKEEP_ENTRY_NOT_ADDED, with item 0. */
uint32_t sqlkeep_entry_name(sqlkeep *handle, size_t at, size_t item, size_t from, uint8_t *buffer, size_t size, size_t *copied);

/* An item of an entry; a value of its row on one side, SQLKEEP_NEW for a row that a violation is about; and the bytes of a text. */
uint32_t sqlkeep_entry_item(sqlkeep *handle, size_t at, size_t item, sqlkeep_item *shown);
uint32_t sqlkeep_entry_value(sqlkeep *handle, size_t at, size_t item, uint32_t side, size_t column, sqlkeep_cell *value);
uint32_t sqlkeep_entry_text(sqlkeep *handle, size_t at, size_t item, uint32_t side, size_t column, size_t from, uint8_t *buffer, size_t size, size_t *copied);

/* A value of OLD or NEW of the trigger that runs or is skipped by an entry; and the bytes of a text. */
uint32_t sqlkeep_seen_value(sqlkeep *handle, size_t at, uint32_t side, size_t column, sqlkeep_cell *value);
uint32_t sqlkeep_seen_text(sqlkeep *handle, size_t at, uint32_t side, size_t column, size_t from, uint8_t *buffer, size_t size, size_t *copied);

/* How two foreign keys disagree by an entry; and the bytes of a text to which the earlier one sets the column, on side 0, or the
   later one, on side 1. */
uint32_t sqlkeep_disagreement(sqlkeep *handle, size_t at, sqlkeep_disagreement_shown *shown);
uint32_t sqlkeep_disagreement_text(sqlkeep *handle, size_t at, uint32_t side, size_t from, uint8_t *buffer, size_t size, size_t *copied);

/* ---- transactions */

/* COMMIT, with the outcome of the statement. It can't be refused memory: it may ask for smaller blocks than it gives back, and
   keeps the larger ones where they are refused. The account of one that is refused, where accounts are asked for, is empty if
   memory is refused for it; the outcome is the same. SQLKEEP_CLOSED. */
uint32_t sqlkeep_commit(sqlkeep *handle, sqlkeep_outcome *outcome);

/* ROLLBACK. The last outcome stays, and its account is cleared. It can't be refused memory, as COMMIT can't. SQLKEEP_CLOSED. */
uint32_t sqlkeep_rollback(sqlkeep *handle);

/* ROLLBACK TO SAVEPOINT, with the outcome of the statement; the name as it is folded, in upper case. It takes no memory.
   SQLKEEP_CLOSED, SQLKEEP_NOT_UTF8. */
uint32_t sqlkeep_rollback_to(sqlkeep *handle, const uint8_t *name, size_t length, sqlkeep_outcome *outcome);

/* Whether a transaction is open. SQLKEEP_CLOSED. */
uint32_t sqlkeep_in_transaction(sqlkeep *handle, bool *is_open);

/* What the last statement or call did. SQLKEEP_CLOSED. */
uint32_t sqlkeep_work(sqlkeep *handle, sqlkeep_done *work);

/* Looks for the rows that violate deferred constraints, what COMMIT would find first at place 0, and keeps them until the
   next look. Their number is written to `count`. SQLKEEP_CLOSED, SQLKEEP_NO_MEMORY. */
uint32_t sqlkeep_pending(sqlkeep *handle, size_t *count);

/* The number of the row of a violation that was found, and the name of its constraint as far as it fits; sqlkeep_violation_about and
   sqlkeep_constraint_name give a name of any length. It is to be called before the next statement. SQLKEEP_CLOSED; SQLKEEP_NOTHING: there is no violation at this place. */
uint32_t sqlkeep_violation(sqlkeep *handle, size_t at, uint64_t *row, uint8_t *buffer, size_t size, size_t *copied);

/* What a violation that was found is about. For a key it looks for the other row among the violations that were found. It is to be
   called before the next statement. SQLKEEP_CLOSED; SQLKEEP_NOTHING: there is no violation at this place. */
uint32_t sqlkeep_violation_about(sqlkeep *handle, size_t at, sqlkeep_violation_shown *violation);

/* The value that the row of a violation has in a column of the constraint, by the column's place there: of a foreign key the key that
   isn't there, of UNIQUE and PRIMARY KEY the key that two rows have. And the bytes of a text from byte `from` on, copied as
   sqlkeep_transcript does. They are to be called before the next statement.
   SQLKEEP_CLOSED; SQLKEEP_NOTHING: there is no such violation, or its constraint has no such column. */
uint32_t sqlkeep_violation_value(sqlkeep *handle, size_t at, size_t place, sqlkeep_cell *value);
uint32_t sqlkeep_violation_text(sqlkeep *handle, size_t at, size_t place, size_t from, uint8_t *buffer, size_t size, size_t *copied);

/* ---- a handle that is null

   From here on each name above is a function of this header, which answers SQLKEEP_NO_HANDLE where the pointer to the handle, or to
   the result, is null, and otherwise calls the function of the library. */

static inline uint32_t sqlkeep_tested_open(sqlkeep *handle, uint8_t depth, uint32_t changes) {
    return handle == NULL ? (uint32_t)SQLKEEP_NO_HANDLE : sqlkeep_open(handle, depth, changes);
}
static inline uint32_t sqlkeep_tested_close(sqlkeep *handle) {
    return handle == NULL ? (uint32_t)SQLKEEP_NO_HANDLE : sqlkeep_close(handle);
}
static inline uint32_t sqlkeep_tested_explain(sqlkeep *handle, uint32_t asked) {
    return handle == NULL ? (uint32_t)SQLKEEP_NO_HANDLE : sqlkeep_explain(handle, asked);
}
static inline uint32_t sqlkeep_tested_run(sqlkeep *handle, const uint8_t *text, size_t length, sqlkeep_summary *summary) {
    return handle == NULL ? (uint32_t)SQLKEEP_NO_HANDLE : sqlkeep_run(handle, text, length, summary);
}
static inline uint32_t sqlkeep_tested_transcript(sqlkeep *handle, size_t from, uint8_t *buffer, size_t size, size_t *copied) {
    return handle == NULL ? (uint32_t)SQLKEEP_NO_HANDLE : sqlkeep_transcript(handle, from, buffer, size, copied);
}
static inline uint32_t sqlkeep_tested_read(sqlkeep *handle, const uint8_t *text, size_t length, sqlkeep_script *script) {
    return handle == NULL ? (uint32_t)SQLKEEP_NO_HANDLE : sqlkeep_read(handle, text, length, script);
}
static inline uint32_t sqlkeep_tested_fault(sqlkeep *handle, sqlkeep_place *place) {
    return handle == NULL ? (uint32_t)SQLKEEP_NO_HANDLE : sqlkeep_fault(handle, place);
}
static inline uint32_t sqlkeep_tested_execute(sqlkeep *handle, size_t at, sqlkeep_outcome *outcome) {
    return handle == NULL ? (uint32_t)SQLKEEP_NO_HANDLE : sqlkeep_execute(handle, at, outcome);
}
static inline uint32_t sqlkeep_tested_lines(sqlkeep *handle, uint64_t number) {
    return handle == NULL ? (uint32_t)SQLKEEP_NO_HANDLE : sqlkeep_lines(handle, number);
}
static inline uint32_t sqlkeep_tested_statement_kind(sqlkeep *handle, size_t at, uint32_t *kind) {
    return handle == NULL ? (uint32_t)SQLKEEP_NO_HANDLE : sqlkeep_statement_kind(handle, at, kind);
}
static inline uint32_t sqlkeep_tested_lines_json(sqlkeep *handle, uint64_t number) {
    return handle == NULL ? (uint32_t)SQLKEEP_NO_HANDLE : sqlkeep_lines_json(handle, number);
}
static inline uint32_t sqlkeep_tested_rows(sqlkeep *handle, size_t from, sqlkeep_cell *cells, size_t count, uint8_t *texts, size_t size, sqlkeep_taken *taken) {
    return handle == NULL ? (uint32_t)SQLKEEP_NO_HANDLE : sqlkeep_rows(handle, from, cells, count, texts, size, taken);
}
static inline uint32_t sqlkeep_tested_columns(sqlkeep *handle, size_t row, size_t *count) {
    return handle == NULL ? (uint32_t)SQLKEEP_NO_HANDLE : sqlkeep_columns(handle, row, count);
}
static inline uint32_t sqlkeep_tested_value(sqlkeep *handle, size_t row, size_t column, sqlkeep_cell *value) {
    return handle == NULL ? (uint32_t)SQLKEEP_NO_HANDLE : sqlkeep_value(handle, row, column, value);
}
static inline uint32_t sqlkeep_tested_value_text(sqlkeep *handle, size_t row, size_t column, size_t from, uint8_t *buffer, size_t size, size_t *copied) {
    return handle == NULL ? (uint32_t)SQLKEEP_NO_HANDLE : sqlkeep_value_text(handle, row, column, from, buffer, size, copied);
}
static inline uint32_t sqlkeep_tested_cause(sqlkeep *handle, size_t from, uint8_t *buffer, size_t size, size_t *copied) {
    return handle == NULL ? (uint32_t)SQLKEEP_NO_HANDLE : sqlkeep_cause(handle, from, buffer, size, copied);
}
static inline uint32_t sqlkeep_tested_constraint(sqlkeep *handle, size_t from, uint8_t *buffer, size_t size, size_t *copied) {
    return handle == NULL ? (uint32_t)SQLKEEP_NO_HANDLE : sqlkeep_constraint(handle, from, buffer, size, copied);
}
static inline uint32_t sqlkeep_tested_trigger(sqlkeep *handle, size_t from, uint8_t *buffer, size_t size, size_t *copied) {
    return handle == NULL ? (uint32_t)SQLKEEP_NO_HANDLE : sqlkeep_trigger(handle, from, buffer, size, copied);
}
static inline uint32_t sqlkeep_tested_signal(sqlkeep *handle, size_t from, uint8_t *buffer, size_t size, size_t *copied) {
    return handle == NULL ? (uint32_t)SQLKEEP_NO_HANDLE : sqlkeep_signal(handle, from, buffer, size, copied);
}
static inline uint32_t sqlkeep_tested_commit(sqlkeep *handle, sqlkeep_outcome *outcome) {
    return handle == NULL ? (uint32_t)SQLKEEP_NO_HANDLE : sqlkeep_commit(handle, outcome);
}
static inline uint32_t sqlkeep_tested_rollback(sqlkeep *handle) {
    return handle == NULL ? (uint32_t)SQLKEEP_NO_HANDLE : sqlkeep_rollback(handle);
}
static inline uint32_t sqlkeep_tested_rollback_to(sqlkeep *handle, const uint8_t *name, size_t length, sqlkeep_outcome *outcome) {
    return handle == NULL ? (uint32_t)SQLKEEP_NO_HANDLE : sqlkeep_rollback_to(handle, name, length, outcome);
}
static inline uint32_t sqlkeep_tested_in_transaction(sqlkeep *handle, bool *is_open) {
    return handle == NULL ? (uint32_t)SQLKEEP_NO_HANDLE : sqlkeep_in_transaction(handle, is_open);
}
static inline uint32_t sqlkeep_tested_work(sqlkeep *handle, sqlkeep_done *work) {
    return handle == NULL ? (uint32_t)SQLKEEP_NO_HANDLE : sqlkeep_work(handle, work);
}
static inline uint32_t sqlkeep_tested_pending(sqlkeep *handle, size_t *count) {
    return handle == NULL ? (uint32_t)SQLKEEP_NO_HANDLE : sqlkeep_pending(handle, count);
}
static inline uint32_t sqlkeep_tested_violation(sqlkeep *handle, size_t at, uint64_t *row, uint8_t *buffer, size_t size, size_t *copied) {
    return handle == NULL ? (uint32_t)SQLKEEP_NO_HANDLE : sqlkeep_violation(handle, at, row, buffer, size, copied);
}
static inline uint32_t sqlkeep_tested_unbind(sqlkeep *handle) {
    return handle == NULL ? (uint32_t)SQLKEEP_NO_HANDLE : sqlkeep_unbind(handle);
}
static inline uint32_t sqlkeep_tested_bind_null(sqlkeep *handle) {
    return handle == NULL ? (uint32_t)SQLKEEP_NO_HANDLE : sqlkeep_bind_null(handle);
}
static inline uint32_t sqlkeep_tested_bind_integer(sqlkeep *handle, int64_t integer) {
    return handle == NULL ? (uint32_t)SQLKEEP_NO_HANDLE : sqlkeep_bind_integer(handle, integer);
}
static inline uint32_t sqlkeep_tested_bind_text(sqlkeep *handle, const uint8_t *text, size_t length) {
    return handle == NULL ? (uint32_t)SQLKEEP_NO_HANDLE : sqlkeep_bind_text(handle, text, length);
}
static inline uint32_t sqlkeep_tested_read_bound(sqlkeep *handle, const uint8_t *text, size_t length, sqlkeep_script *script) {
    return handle == NULL ? (uint32_t)SQLKEEP_NO_HANDLE : sqlkeep_read_bound(handle, text, length, script);
}
static inline uint32_t sqlkeep_tested_query(sqlkeep *handle, size_t *columns) {
    return handle == NULL ? (uint32_t)SQLKEEP_NO_HANDLE : sqlkeep_query(handle, columns);
}
static inline uint32_t sqlkeep_tested_query_column(sqlkeep *handle, size_t column, size_t from, uint8_t *buffer, size_t size, size_t *copied) {
    return handle == NULL ? (uint32_t)SQLKEEP_NO_HANDLE : sqlkeep_query_column(handle, column, from, buffer, size, copied);
}
static inline uint32_t sqlkeep_tested_catalogue(sqlkeep *handle, sqlkeep_sizes *sizes) {
    return handle == NULL ? (uint32_t)SQLKEEP_NO_HANDLE : sqlkeep_catalogue(handle, sizes);
}
static inline uint32_t sqlkeep_tested_table(sqlkeep *handle, size_t table, size_t *columns) {
    return handle == NULL ? (uint32_t)SQLKEEP_NO_HANDLE : sqlkeep_table(handle, table, columns);
}
static inline uint32_t sqlkeep_tested_table_name(sqlkeep *handle, size_t table, size_t from, uint8_t *buffer, size_t size, size_t *copied) {
    return handle == NULL ? (uint32_t)SQLKEEP_NO_HANDLE : sqlkeep_table_name(handle, table, from, buffer, size, copied);
}
static inline uint32_t sqlkeep_tested_column(sqlkeep *handle, size_t table, size_t column, sqlkeep_column_type *type) {
    return handle == NULL ? (uint32_t)SQLKEEP_NO_HANDLE : sqlkeep_column(handle, table, column, type);
}
static inline uint32_t sqlkeep_tested_column_name(sqlkeep *handle, size_t table, size_t column, size_t from, uint8_t *buffer, size_t size, size_t *copied) {
    return handle == NULL ? (uint32_t)SQLKEEP_NO_HANDLE : sqlkeep_column_name(handle, table, column, from, buffer, size, copied);
}
static inline uint32_t sqlkeep_tested_default(sqlkeep *handle, size_t table, size_t column, sqlkeep_cell *value) {
    return handle == NULL ? (uint32_t)SQLKEEP_NO_HANDLE : sqlkeep_default(handle, table, column, value);
}
static inline uint32_t sqlkeep_tested_default_text(sqlkeep *handle, size_t table, size_t column, size_t from, uint8_t *buffer, size_t size, size_t *copied) {
    return handle == NULL ? (uint32_t)SQLKEEP_NO_HANDLE : sqlkeep_default_text(handle, table, column, from, buffer, size, copied);
}
static inline uint32_t sqlkeep_tested_constraint_at(sqlkeep *handle, size_t at, sqlkeep_constraint_definition *constraint) {
    return handle == NULL ? (uint32_t)SQLKEEP_NO_HANDLE : sqlkeep_constraint_at(handle, at, constraint);
}
static inline uint32_t sqlkeep_tested_constraint_name(sqlkeep *handle, size_t at, size_t from, uint8_t *buffer, size_t size, size_t *copied) {
    return handle == NULL ? (uint32_t)SQLKEEP_NO_HANDLE : sqlkeep_constraint_name(handle, at, from, buffer, size, copied);
}
static inline uint32_t sqlkeep_tested_constraint_column(sqlkeep *handle, size_t at, size_t place, uint32_t *column) {
    return handle == NULL ? (uint32_t)SQLKEEP_NO_HANDLE : sqlkeep_constraint_column(handle, at, place, column);
}
static inline uint32_t sqlkeep_tested_referenced_column(sqlkeep *handle, size_t at, size_t place, uint32_t *column) {
    return handle == NULL ? (uint32_t)SQLKEEP_NO_HANDLE : sqlkeep_referenced_column(handle, at, place, column);
}
static inline uint32_t sqlkeep_tested_trigger_at(sqlkeep *handle, size_t at, sqlkeep_trigger_definition *trigger) {
    return handle == NULL ? (uint32_t)SQLKEEP_NO_HANDLE : sqlkeep_trigger_at(handle, at, trigger);
}
static inline uint32_t sqlkeep_tested_trigger_name(sqlkeep *handle, size_t at, size_t from, uint8_t *buffer, size_t size, size_t *copied) {
    return handle == NULL ? (uint32_t)SQLKEEP_NO_HANDLE : sqlkeep_trigger_name(handle, at, from, buffer, size, copied);
}
static inline uint32_t sqlkeep_tested_trigger_column(sqlkeep *handle, size_t at, size_t place, uint32_t *column) {
    return handle == NULL ? (uint32_t)SQLKEEP_NO_HANDLE : sqlkeep_trigger_column(handle, at, place, column);
}
static inline uint32_t sqlkeep_tested_entries(sqlkeep *handle, size_t *count) {
    return handle == NULL ? (uint32_t)SQLKEEP_NO_HANDLE : sqlkeep_entries(handle, count);
}
static inline uint32_t sqlkeep_tested_entry(sqlkeep *handle, size_t at, sqlkeep_entry_shown *entry) {
    return handle == NULL ? (uint32_t)SQLKEEP_NO_HANDLE : sqlkeep_entry(handle, at, entry);
}
static inline uint32_t sqlkeep_tested_entry_trigger(sqlkeep *handle, size_t at, size_t from, uint8_t *buffer, size_t size, size_t *copied) {
    return handle == NULL ? (uint32_t)SQLKEEP_NO_HANDLE : sqlkeep_entry_trigger(handle, at, from, buffer, size, copied);
}
static inline uint32_t sqlkeep_tested_entry_name(sqlkeep *handle, size_t at, size_t item, size_t from, uint8_t *buffer, size_t size, size_t *copied) {
    return handle == NULL ? (uint32_t)SQLKEEP_NO_HANDLE : sqlkeep_entry_name(handle, at, item, from, buffer, size, copied);
}
static inline uint32_t sqlkeep_tested_entry_item(sqlkeep *handle, size_t at, size_t item, sqlkeep_item *shown) {
    return handle == NULL ? (uint32_t)SQLKEEP_NO_HANDLE : sqlkeep_entry_item(handle, at, item, shown);
}
static inline uint32_t sqlkeep_tested_entry_value(sqlkeep *handle, size_t at, size_t item, uint32_t side, size_t column, sqlkeep_cell *value) {
    return handle == NULL ? (uint32_t)SQLKEEP_NO_HANDLE : sqlkeep_entry_value(handle, at, item, side, column, value);
}
static inline uint32_t sqlkeep_tested_entry_text(sqlkeep *handle, size_t at, size_t item, uint32_t side, size_t column, size_t from, uint8_t *buffer, size_t size, size_t *copied) {
    return handle == NULL ? (uint32_t)SQLKEEP_NO_HANDLE : sqlkeep_entry_text(handle, at, item, side, column, from, buffer, size, copied);
}
static inline uint32_t sqlkeep_tested_seen_value(sqlkeep *handle, size_t at, uint32_t side, size_t column, sqlkeep_cell *value) {
    return handle == NULL ? (uint32_t)SQLKEEP_NO_HANDLE : sqlkeep_seen_value(handle, at, side, column, value);
}
static inline uint32_t sqlkeep_tested_seen_text(sqlkeep *handle, size_t at, uint32_t side, size_t column, size_t from, uint8_t *buffer, size_t size, size_t *copied) {
    return handle == NULL ? (uint32_t)SQLKEEP_NO_HANDLE : sqlkeep_seen_text(handle, at, side, column, from, buffer, size, copied);
}
static inline uint32_t sqlkeep_tested_disagreement(sqlkeep *handle, size_t at, sqlkeep_disagreement_shown *shown) {
    return handle == NULL ? (uint32_t)SQLKEEP_NO_HANDLE : sqlkeep_disagreement(handle, at, shown);
}
static inline uint32_t sqlkeep_tested_disagreement_text(sqlkeep *handle, size_t at, uint32_t side, size_t from, uint8_t *buffer, size_t size, size_t *copied) {
    return handle == NULL ? (uint32_t)SQLKEEP_NO_HANDLE : sqlkeep_disagreement_text(handle, at, side, from, buffer, size, copied);
}
static inline uint32_t sqlkeep_tested_row(sqlkeep *handle, uint64_t number, sqlkeep_stored_row *row) {
    return handle == NULL ? (uint32_t)SQLKEEP_NO_HANDLE : sqlkeep_row(handle, number, row);
}
static inline uint32_t sqlkeep_tested_row_value(sqlkeep *handle, uint64_t number, size_t column, sqlkeep_cell *value) {
    return handle == NULL ? (uint32_t)SQLKEEP_NO_HANDLE : sqlkeep_row_value(handle, number, column, value);
}
static inline uint32_t sqlkeep_tested_row_text(sqlkeep *handle, uint64_t number, size_t column, size_t from, uint8_t *buffer, size_t size, size_t *copied) {
    return handle == NULL ? (uint32_t)SQLKEEP_NO_HANDLE : sqlkeep_row_text(handle, number, column, from, buffer, size, copied);
}
static inline uint32_t sqlkeep_tested_constraint_mode(sqlkeep *handle, size_t at, uint32_t *mode) {
    return handle == NULL ? (uint32_t)SQLKEEP_NO_HANDLE : sqlkeep_constraint_mode(handle, at, mode);
}
static inline uint32_t sqlkeep_tested_constraint_condition(sqlkeep *handle, size_t at, size_t from, uint8_t *buffer, size_t size, size_t *copied) {
    return handle == NULL ? (uint32_t)SQLKEEP_NO_HANDLE : sqlkeep_constraint_condition(handle, at, from, buffer, size, copied);
}
static inline uint32_t sqlkeep_tested_dump(sqlkeep *handle, size_t *scripts) {
    return handle == NULL ? (uint32_t)SQLKEEP_NO_HANDLE : sqlkeep_dump(handle, scripts);
}
static inline uint32_t sqlkeep_tested_dump_script(sqlkeep *handle, size_t at, size_t from, uint8_t *buffer, size_t size, size_t *copied) {
    return handle == NULL ? (uint32_t)SQLKEEP_NO_HANDLE : sqlkeep_dump_script(handle, at, from, buffer, size, copied);
}
static inline uint32_t sqlkeep_tested_statement_place(sqlkeep *handle, size_t at, sqlkeep_span *place) {
    return handle == NULL ? (uint32_t)SQLKEEP_NO_HANDLE : sqlkeep_statement_place(handle, at, place);
}
static inline uint32_t sqlkeep_tested_message(sqlkeep *handle, size_t from, uint8_t *buffer, size_t size, size_t *copied) {
    return handle == NULL ? (uint32_t)SQLKEEP_NO_HANDLE : sqlkeep_message(handle, from, buffer, size, copied);
}
static inline uint32_t sqlkeep_tested_result_take(sqlkeep *handle, sqlkeep_result *result) {
    return handle == NULL || result == NULL ? (uint32_t)SQLKEEP_NO_HANDLE : sqlkeep_result_take(handle, result);
}
static inline uint32_t sqlkeep_tested_result_free(sqlkeep_result *result) {
    return result == NULL ? (uint32_t)SQLKEEP_NO_HANDLE : sqlkeep_result_free(result);
}
static inline uint32_t sqlkeep_tested_result_size(sqlkeep_result *result, sqlkeep_result_sizes *sizes) {
    return result == NULL ? (uint32_t)SQLKEEP_NO_HANDLE : sqlkeep_result_size(result, sizes);
}
static inline uint32_t sqlkeep_tested_result_column(sqlkeep_result *result, size_t column, size_t from, uint8_t *buffer, size_t size, size_t *copied) {
    return result == NULL ? (uint32_t)SQLKEEP_NO_HANDLE : sqlkeep_result_column(result, column, from, buffer, size, copied);
}
static inline uint32_t sqlkeep_tested_result_rows(sqlkeep_result *result, size_t from, sqlkeep_cell *cells, size_t count, uint8_t *texts, size_t size, sqlkeep_taken *taken) {
    return result == NULL ? (uint32_t)SQLKEEP_NO_HANDLE : sqlkeep_result_rows(result, from, cells, count, texts, size, taken);
}
static inline uint32_t sqlkeep_tested_violation_about(sqlkeep *handle, size_t at, sqlkeep_violation_shown *violation) {
    return handle == NULL ? (uint32_t)SQLKEEP_NO_HANDLE : sqlkeep_violation_about(handle, at, violation);
}
static inline uint32_t sqlkeep_tested_violation_value(sqlkeep *handle, size_t at, size_t place, sqlkeep_cell *value) {
    return handle == NULL ? (uint32_t)SQLKEEP_NO_HANDLE : sqlkeep_violation_value(handle, at, place, value);
}
static inline uint32_t sqlkeep_tested_violation_text(sqlkeep *handle, size_t at, size_t place, size_t from, uint8_t *buffer, size_t size, size_t *copied) {
    return handle == NULL ? (uint32_t)SQLKEEP_NO_HANDLE : sqlkeep_violation_text(handle, at, place, from, buffer, size, copied);
}

#define sqlkeep_open sqlkeep_tested_open
#define sqlkeep_close sqlkeep_tested_close
#define sqlkeep_explain sqlkeep_tested_explain
#define sqlkeep_run sqlkeep_tested_run
#define sqlkeep_transcript sqlkeep_tested_transcript
#define sqlkeep_read sqlkeep_tested_read
#define sqlkeep_fault sqlkeep_tested_fault
#define sqlkeep_execute sqlkeep_tested_execute
#define sqlkeep_lines sqlkeep_tested_lines
#define sqlkeep_statement_kind sqlkeep_tested_statement_kind
#define sqlkeep_lines_json sqlkeep_tested_lines_json
#define sqlkeep_rows sqlkeep_tested_rows
#define sqlkeep_columns sqlkeep_tested_columns
#define sqlkeep_value sqlkeep_tested_value
#define sqlkeep_value_text sqlkeep_tested_value_text
#define sqlkeep_cause sqlkeep_tested_cause
#define sqlkeep_constraint sqlkeep_tested_constraint
#define sqlkeep_trigger sqlkeep_tested_trigger
#define sqlkeep_signal sqlkeep_tested_signal
#define sqlkeep_commit sqlkeep_tested_commit
#define sqlkeep_rollback sqlkeep_tested_rollback
#define sqlkeep_rollback_to sqlkeep_tested_rollback_to
#define sqlkeep_in_transaction sqlkeep_tested_in_transaction
#define sqlkeep_work sqlkeep_tested_work
#define sqlkeep_pending sqlkeep_tested_pending
#define sqlkeep_violation sqlkeep_tested_violation
#define sqlkeep_unbind sqlkeep_tested_unbind
#define sqlkeep_bind_null sqlkeep_tested_bind_null
#define sqlkeep_bind_integer sqlkeep_tested_bind_integer
#define sqlkeep_bind_text sqlkeep_tested_bind_text
#define sqlkeep_read_bound sqlkeep_tested_read_bound
#define sqlkeep_query sqlkeep_tested_query
#define sqlkeep_query_column sqlkeep_tested_query_column
#define sqlkeep_catalogue sqlkeep_tested_catalogue
#define sqlkeep_table sqlkeep_tested_table
#define sqlkeep_table_name sqlkeep_tested_table_name
#define sqlkeep_column sqlkeep_tested_column
#define sqlkeep_column_name sqlkeep_tested_column_name
#define sqlkeep_default sqlkeep_tested_default
#define sqlkeep_default_text sqlkeep_tested_default_text
#define sqlkeep_constraint_at sqlkeep_tested_constraint_at
#define sqlkeep_constraint_name sqlkeep_tested_constraint_name
#define sqlkeep_constraint_column sqlkeep_tested_constraint_column
#define sqlkeep_referenced_column sqlkeep_tested_referenced_column
#define sqlkeep_trigger_at sqlkeep_tested_trigger_at
#define sqlkeep_trigger_name sqlkeep_tested_trigger_name
#define sqlkeep_trigger_column sqlkeep_tested_trigger_column
#define sqlkeep_entries sqlkeep_tested_entries
#define sqlkeep_entry sqlkeep_tested_entry
#define sqlkeep_entry_trigger sqlkeep_tested_entry_trigger
#define sqlkeep_entry_name sqlkeep_tested_entry_name
#define sqlkeep_entry_item sqlkeep_tested_entry_item
#define sqlkeep_entry_value sqlkeep_tested_entry_value
#define sqlkeep_entry_text sqlkeep_tested_entry_text
#define sqlkeep_seen_value sqlkeep_tested_seen_value
#define sqlkeep_seen_text sqlkeep_tested_seen_text
#define sqlkeep_disagreement sqlkeep_tested_disagreement
#define sqlkeep_disagreement_text sqlkeep_tested_disagreement_text
#define sqlkeep_row sqlkeep_tested_row
#define sqlkeep_row_value sqlkeep_tested_row_value
#define sqlkeep_row_text sqlkeep_tested_row_text
#define sqlkeep_constraint_mode sqlkeep_tested_constraint_mode
#define sqlkeep_constraint_condition sqlkeep_tested_constraint_condition
#define sqlkeep_dump sqlkeep_tested_dump
#define sqlkeep_dump_script sqlkeep_tested_dump_script
#define sqlkeep_statement_place sqlkeep_tested_statement_place
#define sqlkeep_message sqlkeep_tested_message
#define sqlkeep_result_take sqlkeep_tested_result_take
#define sqlkeep_result_free sqlkeep_tested_result_free
#define sqlkeep_result_size sqlkeep_tested_result_size
#define sqlkeep_result_column sqlkeep_tested_result_column
#define sqlkeep_result_rows sqlkeep_tested_result_rows
#define sqlkeep_violation_about sqlkeep_tested_violation_about
#define sqlkeep_violation_value sqlkeep_tested_violation_value
#define sqlkeep_violation_text sqlkeep_tested_violation_text

/* ---- a status in words

   What a status says, as a text that ends with a zero byte and stays; of a number that is no status "unknown status". */
static inline const char *sqlkeep_status_text(uint32_t status) {
    switch (status) {
    case SQLKEEP_OK:
        return "done";
    case SQLKEEP_CLOSED:
        return "the handle or the result is empty";
    case SQLKEEP_OPEN:
        return "the handle is open already, or the result has rows";
    case SQLKEEP_LIMITS:
        return "a limit isn't in its range";
    case SQLKEEP_NOT_UTF8:
        return "the text isn't UTF-8";
    case SQLKEEP_TOO_LONG:
        return "the script is longer than 1,048,576 bytes";
    case SQLKEEP_NO_MEMORY:
        return "out of memory";
    case SQLKEEP_NOTHING:
        return "there is nothing at this place";
    case SQLKEEP_NO_HANDLE:
        return "the pointer to the handle is null";
    case SQLKEEP_WRONG_COUNT:
        return "the template has another number of question marks than there are values";
    case SQLKEEP_NO_TEMPLATE:
        return "the template has a place with neither a token nor a question mark";
    case SQLKEEP_IN_TRANSACTION:
        return "a transaction is open";
    case SQLKEEP_NOT_RESTORED:
        return "what was written doesn't make the same again";
    default:
        return "unknown status";
    }
}

/* ---- a template with its values */

/* Binds a value after those that are bound, by the call for its kind.
   SQLKEEP_CLOSED, SQLKEEP_NOT_UTF8, SQLKEEP_NO_MEMORY, SQLKEEP_NO_HANDLE;
   SQLKEEP_NOTHING: the kind of the value is none of enum sqlkeep_value_kind. */
static inline uint32_t sqlkeep_bind(sqlkeep *handle, const sqlkeep_parameter *value) {
    switch (value->kind) {
    case SQLKEEP_NULL:
        return sqlkeep_bind_null(handle);
    case SQLKEEP_INTEGER:
        return sqlkeep_bind_integer(handle, value->integer);
    case SQLKEEP_TEXT:
        return sqlkeep_bind_text(handle, value->text, value->length);
    default:
        return SQLKEEP_NOTHING;
    }
}

/* Reads the statements of a template with these values in place of its question marks, the first for the first, and keeps them
   as sqlkeep_read does. Values that were bound before are forgotten, and those that are bound here too, whatever the status.
   SQLKEEP_CLOSED, SQLKEEP_NOT_UTF8, SQLKEEP_NO_MEMORY, SQLKEEP_NO_HANDLE, SQLKEEP_WRONG_COUNT, SQLKEEP_NO_TEMPLATE;
   SQLKEEP_NOTHING: the kind of a value is none of enum sqlkeep_value_kind. */
static inline uint32_t sqlkeep_read_filled(sqlkeep *handle, const uint8_t *text, size_t length, const sqlkeep_parameter *values, size_t count, sqlkeep_script *script) {
    uint32_t status = sqlkeep_unbind(handle);
    for (size_t at = 0; status == SQLKEEP_OK && at < count; at++) {
        status = sqlkeep_bind(handle, &values[at]);
    }
    if (status == SQLKEEP_OK) {
        status = sqlkeep_read_bound(handle, text, length, script);
    }
    if (status != SQLKEEP_OK) {
        sqlkeep_unbind(handle);
    }
    return status;
}

#ifdef __cplusplus
}
#endif

#endif
