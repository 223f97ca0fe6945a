/* A session of the library as an object of Python. */
#ifndef SQLKEEP_ENGINE_H
#define SQLKEEP_ENGINE_H

#ifndef Py_LIMITED_API
#define Py_LIMITED_API 0x03090000
#endif
#define PY_SSIZE_T_CLEAN
#include <Python.h>
#include <stdbool.h>
#include <stddef.h>
#include <stdint.h>
#include "sqlkeep.h"

/* What each interpreter has of its own. */
typedef struct module_state {
    /* The classes of exceptions that Python gave: three that are raised here, and a tuple with that of each cause. */
    PyObject *programming, *data, *operational, *by_cause;
    /* The names of the attributes of an error that are set here. */
    PyObject *cause, *row, *lines, *engine;
    PyTypeObject *engine_type, *rows_type, *guard_type;
    /* The main thread. */
    unsigned long main_thread;
} module_state;

/* What belongs to a thread: a session, or the rows that were taken out of one. */
typedef struct owned {
    sqlkeep handle;
    sqlkeep_result result;
    struct thread *thread;
    struct owned *next, **at;
} owned;

/* What `execute` answers: one of enum sqlkeep_kind, and where nothing was executed why. */
enum answer { ANSWER_FAULT = 4, ANSWER_COUNT = 5, ANSWER_MANY = 6, ANSWER_EMPTY = 7 };

/* ---- bytes in memory that grows */

typedef struct bytes {
    uint8_t *at;
    size_t length, room;
} bytes;

/* Appends bytes. 0 where there is memory, otherwise -1 with an exception. */
int bytes_push(bytes *to, const void *from, size_t length);
void bytes_free(bytes *of);

typedef struct engine {
    PyObject_HEAD
    const module_state *module;
    owned *own;
    /* Whether a call is running. Code of the caller may run within it, as the end of an object, and must not use the session then. */
    bool is_busy;
    /* Whether accounts are asked for by the caller. */
    bool explains;
    /* Whether a statement that is refused for a row is executed once more for its account. */
    bool accounts;
    /* A weak reference to the error of the last refusal, where it is still to be told; the refusal, and the place of its statement. */
    PyObject *untold;
    sqlkeep_outcome refused;
    size_t refused_place;
    /* What the last statement did, where it was executed once more after that. */
    bool has_work;
    sqlkeep_done work;
    /* How many statements the last `execute_many` went through. */
    Py_ssize_t progress;
    /* A text that is to be read, kept for the next one. */
    bytes text;
    /* The text whose statement the library holds, where it was read without values. */
    PyObject *held;
} engine;

/* 0 where the call may go on; -1 with an exception where the session is closed, of another thread, or busy. What follows runs no code of the
   caller's until it is done with the library. */
int engine_ready(engine *self);

/* The same, and the session is busy from now on until `engine_end`, which gives the result. */
int engine_begin(engine *self);
PyObject *engine_end(engine *self, PyObject *result);

/* An exception for a status that isn't SQLKEEP_OK; NULL. */
PyObject *failed(const module_state *module, uint32_t status);

/* Lets handlers of signals run, which may use the session. 0, or -1 with an exception. */
int engine_let_signals(engine *self);

/* The lines of the last outcome as bytes, with this number. NULL with an exception where memory is refused. */
PyObject *engine_lines(engine *self, uint64_t number);

/* Tells the error of the last refusal, if it is still there. */
void engine_tell(engine *self);

/* The answer to an outcome: (kind, count) or (kind, rows, names), where the rows are a list or an iterator with a length. NULL with the error of a refusal, or another exception. */
PyObject *engine_answer(engine *self, size_t place, const sqlkeep_outcome *outcome, bool is_told);

/* Methods of statements. */
PyObject *engine_execute(engine *self, PyObject *arguments);
PyObject *engine_execute_many(engine *self, PyObject *arguments);

/* ---- threads and what belongs to them */

/* Makes the type of objects that end with their thread. NULL with an exception. */
PyTypeObject *guard_type(PyObject *module);

/* Something that belongs to this thread, and is neither open yet. NULL with an exception. */
owned *own_begin(const module_state *module);

/* Whether this thread is the one that it belongs to. */
bool own_is_here(const owned *own);

/* Frees it, or leaves it to its thread. */
void own_end(owned *own);

/* ---- rows that are copied as they are asked for */

/* Makes the type of such rows. NULL with an exception. */
PyTypeObject *rows_type(PyObject *module);

/* The rows of the last outcome as an iterator with a length, which takes them out of the session. NULL with an exception. */
PyObject *rows_taken(engine *self);

/* ---- values */

/* Binds the values of a tuple, in place of those that are bound. 0, or -1 with an exception and nothing bound. */
int bind_values(engine *self, PyObject *values);

/* A list of `count` tuples: the rows of the last outcome. NULL with an exception where memory is refused. */
PyObject *rows_of(engine *self, size_t count);

/* Buffers for rows: cells, and the bytes of texts. */
struct room {
    sqlkeep_cell *cells;
    uint8_t *texts;
    size_t count;
    size_t size;
};

/* Makes buffers with room for one row at least, but for its texts. 0, or -1 with an exception. */
int room_make(struct room *room, size_t columns);
void room_free(struct room *room);

/* A list of tuples: the rows of a result from this one on, one at least, and as many as there is room for. NULL with an exception. */
PyObject *some_rows(sqlkeep_result *result, size_t from, size_t columns, struct room *room);

/* The value of a cell, where `read` copies the bytes of a text. */
typedef uint32_t read_text(sqlkeep *handle, size_t row, size_t column, size_t from, uint8_t *buffer, size_t size, size_t *copied);
PyObject *value_of(engine *self, const sqlkeep_cell *cell, size_t row, size_t column, read_text *read);

/* ---- the catalogue */

/* (tables, constraints, triggers), each a list of tuples; docs in _engine.pyi. NULL with an exception. */
PyObject *catalogue_of(engine *self);

/* The scripts of a dump, a list of strings. NULL with an exception. */
PyObject *dump_of(engine *self);

/* The row of this number as (table, list of values), or None where there is none. */
PyObject *stored_row(engine *self, size_t number);

/* The names of the columns of the last query, as a tuple; an expression's is empty. NULL with an exception. */
PyObject *query_columns(engine *self);

#endif
