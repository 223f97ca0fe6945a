/* Statements: a text is read with its values and executed, and its outcome is told.

   An account of a statement costs time that those that are accepted needn't pay. So a statement is executed without one, and a
   refused one is executed once more with it, when its error is asked for the reason, or else before the next call for the session
   if the error is still there. That is sound: a refusal leaves everything as it was, row numbers too, and a statement answers by what there is alone,
   so the second run is refused as the first. Two causes are never executed again: 19, where COMMIT has rolled back, so COMMIT is
   executed with its account asked for at once; and 22, where memory was refused. */
#include "engine.h"

#include <string.h>

/* Restrict, Violation, ActionConflict, Signal and AddRefused: their accounts tell the rows. NumberOutOfRange and TextTooLong: what
   failed. UnknownSavepoint: the savepoints that stand. And the limits: the way that led there. */
#define TOLD_BY_ACCOUNT \
    ((1UL << SQLKEEP_CAUSE_RESTRICT) | (1UL << SQLKEEP_CAUSE_VIOLATION) | (1UL << SQLKEEP_CAUSE_ACTION_CONFLICT) | (1UL << SQLKEEP_CAUSE_SIGNAL) \
     | (1UL << SQLKEEP_CAUSE_NUMBER_OUT_OF_RANGE) | (1UL << SQLKEEP_CAUSE_TEXT_TOO_LONG) | (1UL << SQLKEEP_CAUSE_DEPTH_LIMIT) \
     | (1UL << SQLKEEP_CAUSE_TOO_MANY_CHANGES) | (1UL << SQLKEEP_CAUSE_TRANSACTION_TOO_LARGE) | (1UL << SQLKEEP_CAUSE_ADD_REFUSED) \
     | (1UL << SQLKEEP_CAUSE_UNKNOWN_SAVEPOINT))

/* How many rows of a query are copied at once. */
enum { MOST_COPIED = 1000 };

/* How many statements are read at once for `executemany`, and how long their text may get. */
enum { MOST_AT_ONCE = 64, LONGEST_AT_ONCE = 65536 };

/* What stands behind a text: a line feed, which ends a comment, with or without a semicolon. */
typedef enum ending { AS_IT_IS = 1, WITH_SEMICOLON = 2 } ending;

static const char end_of_text[] = "\n;";

static uint32_t run_at(engine *self, size_t place, sqlkeep_outcome *outcome) {
    uint32_t status;
    Py_BEGIN_ALLOW_THREADS
    status = sqlkeep_execute(&self->own->handle, place, outcome);
    Py_END_ALLOW_THREADS
    return status;
}

/* Executes a refused statement once more with its account. Where that is answered otherwise, which only refused memory can
   do, it is executed without one, so that the last outcome is the first again. */
static void run_again(engine *self, size_t place, const sqlkeep_outcome *first) {
    sqlkeep_outcome again = {SQLKEEP_DONE, 0, 0, 0};
    self->has_work = sqlkeep_work(&self->own->handle, &self->work) == SQLKEEP_OK;
    sqlkeep_explain(&self->own->handle, 1);
    run_at(self, place, &again);
    if (again.kind != SQLKEEP_REFUSED || again.cause != first->cause || again.row != first->row) {
        sqlkeep_explain(&self->own->handle, 0);
        run_at(self, place, &again);
    }
}

/* Sets an attribute of an error to a new reference, which is taken. */
static int set_and_take(PyObject *error, PyObject *name, PyObject *value) {
    int failed = value == NULL ? -1 : PyObject_SetAttr(error, name, value);
    Py_XDECREF(value);
    return failed;
}

/* Puts the lines of the last outcome into the error. Where memory is refused for them, it has none. */
static void put_lines(engine *self, PyObject *error) {
    PyObject *lines = engine_lines(self, 1);
    if (lines == NULL || PyObject_SetAttr(error, self->module->lines, lines) != 0 || PyObject_SetAttr(error, self->module->engine, Py_None) != 0) {
        PyErr_Clear();
    }
    Py_XDECREF(lines);
}

void engine_tell(engine *self) {
    PyObject *reference = self->untold;
    bool was_busy = self->is_busy;
    self->untold = NULL;
    self->is_busy = true;
    PyObject *error = PyWeakref_GetObject(reference);
    if (error != NULL && error != Py_None) {
        Py_INCREF(error);
        bool is_again = self->accounts && (TOLD_BY_ACCOUNT & (1UL << self->refused.cause)) != 0;
        if (is_again) {
            run_again(self, self->refused_place, &self->refused);
        } else {
            sqlkeep_explain(&self->own->handle, 1);
        }
        put_lines(self, error);
        sqlkeep_explain(&self->own->handle, self->explains);
        Py_DECREF(error);
    }
    Py_DECREF(reference);
    self->is_busy = was_busy;
}

/* Notes that the error of the last outcome is still to be told. */
static int tell_later(engine *self, PyObject *error, size_t place, const sqlkeep_outcome *outcome) {
    self->untold = PyWeakref_NewRef(error, NULL);
    self->refused = *outcome;
    self->refused_place = place;
    return self->untold == NULL ? -1 : PyObject_SetAttr(error, self->module->engine, (PyObject *)self);
}

/* Raises the error of a refusal; NULL. It is told later, where that can be: an error of another thread than the main one may be
   read on yet another, where the session can't be asked. */
static PyObject *refusal(engine *self, size_t place, const sqlkeep_outcome *outcome, bool is_told) {
    PyObject *error = PyObject_CallObject(PyTuple_GetItem(self->module->by_cause, (Py_ssize_t)outcome->cause), NULL);
    bool is_made = error != NULL && set_and_take(error, self->module->cause, PyLong_FromUnsignedLong(outcome->cause)) == 0;
    is_made = is_made && (outcome->row == 0 || set_and_take(error, self->module->row, PyLong_FromUnsignedLongLong(outcome->row)) == 0);
    bool is_last = outcome->cause == SQLKEEP_CAUSE_COMMIT_REFUSED || outcome->cause == SQLKEEP_CAUSE_OUT_OF_MEMORY;
    if (is_made && (is_told || is_last || self->explains)) {
        put_lines(self, error);
    } else if (is_made) {
        is_made = tell_later(self, error, place, outcome) == 0;
        if (is_made && PyThread_get_thread_ident() != self->module->main_thread) {
            engine_tell(self);
        }
    }
    if (is_made) {
        PyErr_SetObject((PyObject *)Py_TYPE(error), error);
    }
    Py_XDECREF(error);
    return NULL;
}

/* The rows of a query: few are copied at once, and many as they are asked for, unless the lines of the outcome are wanted too. */
static PyObject *query(engine *self, const sqlkeep_outcome *outcome, bool is_told) {
    bool is_copied = outcome->count <= MOST_COPIED || is_told || self->explains;
    PyObject *rows = is_copied ? rows_of(self, (size_t)outcome->count) : rows_taken(self);
    PyObject *names = rows == NULL ? NULL : query_columns(self);
    if (names == NULL) {
        Py_XDECREF(rows);
        return NULL;
    }
    return Py_BuildValue("INN", outcome->kind, rows, names);
}

PyObject *engine_answer(engine *self, size_t place, const sqlkeep_outcome *outcome, bool is_told) {
    switch (outcome->kind) {
    case SQLKEEP_REFUSED:
        return refusal(self, place, outcome, is_told);
    case SQLKEEP_ROWS:
        return query(self, outcome, is_told);
    default:
        return Py_BuildValue("IK", outcome->kind, (unsigned long long)outcome->count);
    }
}

/* ---- reading */

/* A text, with the values for its question marks or NULL. */
typedef struct template {
    const char *text;
    size_t length;
    PyObject *values;
} template;

/* Whether the last character that isn't white space is a semicolon. */
static bool ends_statement(const char *text, size_t length) {
    while (length > 0 && (text[length - 1] == ' ' || text[length - 1] == '\t' || text[length - 1] == '\r' || text[length - 1] == '\n')) {
        length--;
    }
    return length > 0 && text[length - 1] == ';';
}

/* Why a text couldn't be read with its values. */
static PyObject *not_read(const engine *self, uint32_t status) {
    if (status == SQLKEEP_WRONG_COUNT) {
        return Py_BuildValue("IK", ANSWER_COUNT, 0ULL);
    }
    if (status == SQLKEEP_NO_TEMPLATE) {
        return Py_BuildValue("IK", ANSWER_FAULT, 0ULL);
    }
    return failed(self->module, status);
}

/* Reads a text with the values that are bound. */
static uint32_t read_bound(engine *self, const uint8_t *text, size_t length, sqlkeep_script *script) {
    Py_CLEAR(self->held);
    uint32_t status = sqlkeep_read_bound(&self->own->handle, text, length, script);
    if (status != SQLKEEP_OK) {
        sqlkeep_unbind(&self->own->handle);
    }
    return status;
}

/* Reads a text with its values and this ending. NULL where it was read, or with an exception, and otherwise why it wasn't. */
static PyObject *read_with(engine *self, const template *given, ending with, sqlkeep_script *script) {
    self->text.length = 0;
    if (bytes_push(&self->text, given->text, given->length) != 0 || bytes_push(&self->text, end_of_text, (size_t)with) != 0) {
        return NULL;
    }
    if (given->values != NULL && bind_values(self, given->values) != 0) {
        return NULL;
    }
    uint32_t status = read_bound(self, self->text.at, self->text.length, script);
    return status == SQLKEEP_OK ? NULL : not_read(self, status);
}

static bool is_one(const sqlkeep_script *script) {
    return script->statements == 1 && script->has_fault == 0;
}

/* Why the text isn't one statement: with the number of its whole statements. */
static PyObject *not_one(const sqlkeep_script *script) {
    enum answer why = script->has_fault != 0 ? ANSWER_FAULT : script->statements == 0 ? ANSWER_EMPTY : ANSWER_MANY;
    return Py_BuildValue("IK", why, (unsigned long long)script->statements);
}

/* Whether the text that was read last, of which no statement is whole, is a semicolon without a statement. */
static bool is_semicolon(engine *self, const template *given) {
    sqlkeep_place place = {0, 0, 0, 0};
    sqlkeep_script rest = {0, 0, 0};
    if (sqlkeep_fault(&self->own->handle, &place) != SQLKEEP_OK || place.word != place.at || place.end > given->length || given->text[place.at] != ';') {
        return false;
    }
    uint32_t status = sqlkeep_read(&self->own->handle, (const uint8_t *)given->text + place.end, given->length - (size_t)place.end, &rest);
    return status == SQLKEEP_OK && rest.statements == 0 && rest.has_fault == 0;
}

/* Reads one statement of a text, which may lack its semicolon, and says which ending it was read with. NULL where there is one,
   or with an exception, and otherwise why it isn't one. */
static PyObject *read_one(engine *self, const template *given, ending *with) {
    sqlkeep_script first = {0, 0, 0}, second = {0, 0, 0};
    *with = ends_statement(given->text, given->length) ? AS_IT_IS : WITH_SEMICOLON;
    PyObject *why = read_with(self, given, *with, &first);
    if (why != NULL || PyErr_Occurred() || is_one(&first)) {
        return why;
    }
    if (first.has_fault == 0) {
        return not_one(&first);
    }
    *with = *with == AS_IT_IS ? WITH_SEMICOLON : AS_IT_IS;
    why = read_with(self, given, *with, &second);
    if (why != NULL || PyErr_Occurred() || is_one(&second)) {
        return why;
    }
    if (first.statements == 0 && second.has_fault != 0 && is_semicolon(self, given)) {
        return Py_BuildValue("IK", ANSWER_EMPTY, 0ULL);
    }
    /* A semicolon that was put behind a text is no fault of its own. */
    return not_one(second.has_fault == 0 ? &second : &first);
}

/* ---- one statement */

/* Executes the statement that was read, with its account at once if `is_told`. */
static PyObject *execute_read(engine *self, bool is_told) {
    sqlkeep_outcome outcome = {SQLKEEP_DONE, 0, 0, 0};
    self->has_work = false;
    if (is_told) {
        sqlkeep_explain(&self->own->handle, 1);
    }
    uint32_t status = run_at(self, 0, &outcome);
    PyObject *answer = status == SQLKEEP_OK ? engine_answer(self, 0, &outcome, is_told) : failed(self->module, status);
    if (is_told) {
        sqlkeep_explain(&self->own->handle, self->explains);
    }
    return answer;
}

/* Reads and executes one statement. */
static PyObject *execute_template(engine *self, const template *given, bool is_told, ending *with) {
    PyObject *why = read_one(self, given, with);
    return why != NULL || PyErr_Occurred() ? why : execute_read(self, is_told);
}

/* The bytes of a text: a new reference to them, and where they are. */
static PyObject *encoded(const engine *self, PyObject *text, template *given) {
    char *at;
    Py_ssize_t length;
    PyObject *held = PyUnicode_AsUTF8String(text);
    if (held == NULL && PyErr_ExceptionMatches(PyExc_UnicodeEncodeError)) {
        PyErr_SetString(self->module->programming, "the text has a surrogate, which UTF-8 can't hold");
    }
    if (held == NULL) {
        return NULL;
    }
    if (PyBytes_AsStringAndSize(held, &at, &length) != 0) {
        Py_DECREF(held);
        return NULL;
    }
    given->text = at;
    given->length = (size_t)length;
    return held;
}

/* Keeps a text whose statement was read without values and accepted, so that it needn't be read again. */
static void hold(engine *self, PyObject *text, PyObject *answer) {
    if (PyLong_AsUnsignedLong(PyTuple_GetItem(answer, 0)) < SQLKEEP_REFUSED) {
        Py_INCREF(text);
        self->held = text;
    }
}

/* Executes a text that isn't held. */
static PyObject *execute_new(engine *self, PyObject *text, PyObject *values, bool is_told) {
    ending with;
    template given = {NULL, 0, values};
    PyObject *bytes_of_text = encoded(self, text, &given);
    if (bytes_of_text == NULL) {
        return NULL;
    }
    PyObject *answer = execute_template(self, &given, is_told, &with);
    Py_DECREF(bytes_of_text);
    if (answer != NULL && PyTuple_Size(values) == 0) {
        hold(self, text, answer);
    }
    return answer;
}

/* execute(text, values, is_told): values is a tuple. */
PyObject *engine_execute(engine *self, PyObject *arguments) {
    PyObject *text, *values;
    int is_told;
    if (!PyArg_ParseTuple(arguments, "UO!p:execute", &text, &PyTuple_Type, &values, &is_told) || engine_begin(self) != 0) {
        return NULL;
    }
    bool is_held = self->held == text && PyTuple_Size(values) == 0;
    return engine_end(self, is_held ? execute_read(self, is_told) : execute_new(self, text, values, is_told));
}

/* ---- many statements of one template */

/* What `executemany` goes through. */
typedef struct many {
    template given;
    ending with;
    /* A list whose items are tuples or lists. */
    PyObject *list;
    Py_ssize_t at, size;
    unsigned long long changed;
    /* Copies of the template, each with its ending, and how many they are. The buffer of the session isn't used for them: a signal
       that comes in between may run a handler that executes something else. */
    bytes text;
    size_t copies;
    /* Where the template's row of values begins and ends, if its rows may be inserted by one statement; otherwise 0. */
    size_t row_from, row_to;
    /* One statement with so many rows. */
    bytes grouped;
    size_t rows;
} many;

/* Item `at` of the list as a tuple; a new reference. */
static PyObject *values_at(const engine *self, const many *work, Py_ssize_t at) {
    PyObject *item = PyList_GetItem(work->list, at);
    if (item == NULL) {
        return NULL;
    }
    if (PyTuple_Check(item)) {
        Py_INCREF(item);
        return item;
    }
    if (PyList_Check(item)) {
        return PyList_AsTuple(item);
    }
    PyErr_SetString(self->module->programming, "a set of parameters is a tuple or a list");
    return NULL;
}

static size_t length_of_copy(const many *work) {
    return work->given.length + (size_t)work->with;
}

/* Makes as many copies of the template as are read at once. */
static int copy_template(many *work) {
    size_t most = LONGEST_AT_ONCE / length_of_copy(work);
    work->text.length = 0;
    for (work->copies = 0; work->copies < MOST_AT_ONCE && work->copies < most; work->copies++) {
        if (bytes_push(&work->text, work->given.text, work->given.length) != 0 || bytes_push(&work->text, end_of_text, (size_t)work->with) != 0) {
            return -1;
        }
    }
    return 0;
}

/* Binds the values of as many statements; how many, or 0 where some can't be bound: they are then executed one by one, and the
   one says why. */
static size_t bind_many(engine *self, const many *work, size_t most, Py_ssize_t wanted) {
    size_t count = 0;
    while (count < most && work->at + (Py_ssize_t)count < work->size) {
        PyObject *values = values_at(self, work, work->at + (Py_ssize_t)count);
        bool is_bound = values != NULL && PyTuple_Size(values) == wanted && bind_values(self, values) == 0;
        Py_XDECREF(values);
        if (!is_bound) {
            PyErr_Clear();
            sqlkeep_unbind(&self->own->handle);
            return 0;
        }
        count++;
    }
    return count;
}

/* Executes the statements that were read until one isn't accepted; how many were. */
static size_t execute_read_many(engine *self, size_t count, sqlkeep_outcome *last, unsigned long long *changed) {
    size_t place = 0;
    Py_BEGIN_ALLOW_THREADS
    while (place < count && sqlkeep_execute(&self->own->handle, place, last) == SQLKEEP_OK && last->kind == SQLKEEP_CHANGED) {
        *changed += last->count;
        place++;
    }
    Py_END_ALLOW_THREADS
    return place;
}

/* Executes some statements at once. NULL where they were accepted, otherwise the answer of the last; `was_read` says whether they
   could be read at once. */
static PyObject *execute_some(engine *self, many *work, Py_ssize_t wanted, bool *was_read) {
    sqlkeep_script script = {0, 0, 0};
    sqlkeep_outcome last = {SQLKEEP_DONE, 0, 0, 0};
    size_t count = bind_many(self, work, work->copies, wanted);
    *was_read = count > 0 && read_bound(self, work->text.at, count * length_of_copy(work), &script) == SQLKEEP_OK;
    *was_read = *was_read && script.statements == count && script.has_fault == 0;
    if (!*was_read) {
        sqlkeep_unbind(&self->own->handle);
        return NULL;
    }
    self->has_work = false;
    size_t done = execute_read_many(self, count, &last, &work->changed);
    work->at += (Py_ssize_t)done;
    return done == count ? NULL : engine_answer(self, done, &last, false);
}

/* Makes one statement with so many rows of values. */
static int group_template(many *work, size_t rows) {
    const char *row = work->given.text + work->row_from;
    size_t length = work->row_to - work->row_from;
    work->grouped.length = 0;
    work->rows = 0;
    if (bytes_push(&work->grouped, work->given.text, work->row_to) != 0) {
        return -1;
    }
    for (size_t more = 1; more < rows; more++) {
        if (bytes_push(&work->grouped, ",", 1) != 0 || bytes_push(&work->grouped, row, length) != 0) {
            return -1;
        }
    }
    work->rows = rows;
    return bytes_push(&work->grouped, end_of_text, WITH_SEMICOLON);
}

/* Inserts the rows of several statements by one. The caller has looked that this comes to the same: no trigger runs, and no row can
   need a later one, so that each statement by itself would be accepted too. Where the one isn't, nothing was changed, and the
   statements are executed one after the other. Whether it was accepted. */
static bool execute_group(engine *self, many *work, Py_ssize_t wanted) {
    sqlkeep_script script = {0, 0, 0};
    sqlkeep_outcome outcome = {SQLKEEP_DONE, 0, 0, 0};
    size_t left = (size_t)(work->size - work->at) - 1, rows = left < MOST_AT_ONCE ? left : MOST_AT_ONCE;
    if (rows < 2 || (work->rows != rows && group_template(work, rows) != 0) || bind_many(self, work, rows, wanted) != rows) {
        return false;
    }
    if (read_bound(self, work->grouped.at, work->grouped.length, &script) != SQLKEEP_OK || !is_one(&script)) {
        return false;
    }
    self->has_work = false;
    if (run_at(self, 0, &outcome) != SQLKEEP_OK || outcome.kind != SQLKEEP_CHANGED) {
        return false;
    }
    work->at += (Py_ssize_t)rows;
    work->changed += outcome.count;
    return true;
}

/* Executes one statement. NULL where it was accepted or with an exception, otherwise its answer. */
static PyObject *execute_next(engine *self, many *work) {
    PyObject *values = values_at(self, work, work->at);
    if (values == NULL) {
        return NULL;
    }
    work->given.values = values;
    PyObject *answer = execute_template(self, &work->given, false, &work->with);
    Py_DECREF(values);
    work->copies = 0;
    if (answer != NULL && PyLong_AsUnsignedLong(PyTuple_GetItem(answer, 0)) == SQLKEEP_CHANGED) {
        work->changed += PyLong_AsUnsignedLongLong(PyTuple_GetItem(answer, 1));
        work->at++;
        Py_CLEAR(answer);
    }
    return answer;
}

/* How many values the first statement had. */
static Py_ssize_t count_of_values(const engine *self, const many *work) {
    PyObject *first = values_at(self, work, 0);
    Py_ssize_t count = first == NULL ? -1 : PyTuple_Size(first);
    Py_XDECREF(first);
    PyErr_Clear();
    return count;
}

/* Executes the next statements: several at once where that can be, otherwise one. */
static PyObject *execute_step(engine *self, many *work) {
    bool was_read = false;
    if (work->at == 0 || self->explains || work->size - work->at == 1) {
        return execute_next(self, work);
    }
    Py_ssize_t wanted = count_of_values(self, work);
    if (work->row_to > 0 && execute_group(self, work, wanted)) {
        return NULL;
    }
    work->row_to = 0;
    if (PyErr_Occurred() || (work->copies == 0 && copy_template(work) != 0)) {
        return NULL;
    }
    PyObject *answer = execute_some(self, work, wanted, &was_read);
    if (was_read || answer != NULL || PyErr_Occurred()) {
        return answer;
    }
    return execute_next(self, work);
}

/* Goes through the list: NULL where all were accepted or with an exception, otherwise the answer of the one that wasn't. */
static PyObject *execute_list(engine *self, many *work) {
    PyObject *answer = NULL;
    while (work->at < work->size && answer == NULL && !PyErr_Occurred() && engine_let_signals(self) == 0) {
        answer = execute_step(self, work);
    }
    return answer;
}

/* Executes a text once for each item of a list. */
static PyObject *execute_all(engine *self, PyObject *text, many *work) {
    PyObject *bytes_of_text = encoded(self, text, &work->given);
    if (bytes_of_text == NULL) {
        return NULL;
    }
    bool is_row = 0 < work->row_from && work->row_from < work->row_to && work->row_to <= work->given.length;
    work->row_to = is_row ? work->row_to : 0;
    PyObject *answer = execute_list(self, work);
    bytes_free(&work->text);
    bytes_free(&work->grouped);
    Py_DECREF(bytes_of_text);
    self->progress = work->at;
    if (answer == NULL && PyErr_Occurred()) {
        return NULL;
    }
    if (answer == NULL) {
        Py_INCREF(Py_None);
        answer = Py_None;
    }
    return Py_BuildValue("nKN", work->at, work->changed, answer);
}

/* execute_many(text, list, row_from, row_to): (how many were accepted, how many rows they changed, None or the answer of the next). */
PyObject *engine_execute_many(engine *self, PyObject *arguments) {
    PyObject *text;
    Py_ssize_t row_from, row_to;
    many work = {.with = AS_IT_IS};
    if (!PyArg_ParseTuple(arguments, "UO!nn:execute_many", &text, &PyList_Type, &work.list, &row_from, &row_to) || engine_begin(self) != 0) {
        return NULL;
    }
    work.row_from = row_from < 0 ? 0 : (size_t)row_from;
    work.row_to = row_to < 0 ? 0 : (size_t)row_to;
    work.size = PyList_Size(work.list);
    return engine_end(self, execute_all(self, text, &work));
}
