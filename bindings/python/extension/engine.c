/* sqlkeep._engine: a session of the library as an object of Python, over the library for C that is linked into it. Each interpreter has the
   module with a state of its own. */
#include "engine.h"

#include <stdlib.h>
#include <string.h>

int bytes_push(bytes *to, const void *from, size_t length) {
    size_t room = to->room < 256 ? 256 : to->room;
    while (room - to->length < length) {
        room *= 2;
    }
    uint8_t *at = room == to->room ? to->at : realloc(to->at, room);
    if (at == NULL) {
        PyErr_NoMemory();
        return -1;
    }
    to->at = at;
    to->room = room;
    memcpy(to->at + to->length, from, length);
    to->length += length;
    return 0;
}

void bytes_free(bytes *of) {
    free(of->at);
    memset(of, 0, sizeof *of);
}

PyObject *failed(const module_state *module, uint32_t status) {
    switch (status) {
    case SQLKEEP_CLOSED:
        PyErr_SetString(module->programming, "the connection is closed");
        break;
    case SQLKEEP_LIMITS:
        PyErr_SetString(module->programming, "depth is 1 to 64, and changes 1 to 65536");
        break;
    case SQLKEEP_NOT_UTF8:
        PyErr_SetString(module->programming, "the text isn't UTF-8");
        break;
    case SQLKEEP_TOO_LONG:
        PyErr_SetString(module->operational, "the script is longer than 1048576 bytes");
        break;
    case SQLKEEP_NO_MEMORY:
        PyErr_SetString(module->operational, "OutOfMemory: memory was refused");
        break;
    case SQLKEEP_IN_TRANSACTION:
        PyErr_SetString(module->programming, "a transaction is open: commit it or roll it back");
        break;
    case SQLKEEP_NOTHING:
        PyErr_SetString(PyExc_IndexError, "there is nothing at this place");
        break;
    default:
        PyErr_SetString(module->operational, sqlkeep_status_text(status));
    }
    return NULL;
}

int engine_ready(engine *self) {
    if (!own_is_here(self->own)) {
        PyErr_SetString(self->module->programming, "the connection was opened on another thread; each thread opens its own");
        return -1;
    }
    if (!self->own->handle.is_open) {
        failed(self->module, SQLKEEP_CLOSED);
        return -1;
    }
    if (self->is_busy) {
        PyErr_SetString(self->module->programming, "the connection is executing a statement");
        return -1;
    }
    if (self->untold != NULL) {
        engine_tell(self);
    }
    return 0;
}

int engine_begin(engine *self) {
    if (engine_ready(self) != 0) {
        return -1;
    }
    self->is_busy = true;
    return 0;
}

PyObject *engine_end(engine *self, PyObject *result) {
    self->is_busy = false;
    return result;
}

int engine_let_signals(engine *self) {
    self->is_busy = false;
    int status = PyErr_CheckSignals();
    if (status == 0) {
        status = engine_ready(self);
    }
    self->is_busy = true;
    return status;
}

static PyObject *nothing(void) {
    Py_INCREF(Py_None);
    return Py_None;
}

static PyObject *done_or_failed(const engine *self, uint32_t status) {
    return status == SQLKEEP_OK ? nothing() : failed(self->module, status);
}

/* ---- the object */

static PyObject *engine_new(PyTypeObject *type, PyObject *arguments, PyObject *keywords) {
    long long depth, changes;
    const module_state *module = PyType_GetModuleState(type);
    (void)keywords;
    if (!PyArg_ParseTuple(arguments, "LL:Engine", &depth, &changes)) {
        return NULL;
    }
    if (module->by_cause == NULL) {
        PyErr_SetString(PyExc_ImportError, "import sqlkeep, and not its engine alone");
        return NULL;
    }
    allocfunc allocate = (allocfunc)PyType_GetSlot(type, Py_tp_alloc);
    engine *self = (engine *)allocate(type, 0);
    if (self == NULL) {
        return NULL;
    }
    self->module = module;
    self->own = own_begin(module);
    self->accounts = true;
    bool fits = depth >= 0 && depth <= UINT8_MAX && changes >= 0 && changes <= UINT32_MAX;
    uint32_t status = self->own == NULL ? SQLKEEP_OK : fits ? sqlkeep_open(&self->own->handle, (uint8_t)depth, (uint32_t)changes) : SQLKEEP_LIMITS;
    if (self->own == NULL || status != SQLKEEP_OK) {
        Py_DECREF(self);
        return status == SQLKEEP_OK ? NULL : failed(module, status);
    }
    return (PyObject *)self;
}

static void engine_dealloc(PyObject *object) {
    engine *self = (engine *)object;
    PyTypeObject *type = Py_TYPE(object);
    freefunc release = (freefunc)PyType_GetSlot(type, Py_tp_free);
    if (self->own != NULL) {
        own_end(self->own);
    }
    bytes_free(&self->text);
    Py_CLEAR(self->held);
    Py_CLEAR(self->untold);
    release(object);
    Py_DECREF(type);
}

static PyObject *engine_close(engine *self, PyObject *unused) {
    (void)unused;
    if (self->own->handle.is_open && engine_ready(self) != 0) {
        return NULL;
    }
    sqlkeep_close(&self->own->handle);
    Py_CLEAR(self->held);
    return nothing();
}

static PyObject *engine_is_open(engine *self, PyObject *unused) {
    (void)unused;
    return PyBool_FromLong(self->own->handle.is_open);
}

/* Raises where the session is closed, or of another thread. */
static PyObject *engine_check(engine *self, PyObject *unused) {
    (void)unused;
    return engine_ready(self) != 0 ? NULL : nothing();
}

/* ---- texts of the library */

/* The transcript that the library keeps, as bytes. */
static PyObject *transcript_of(engine *self) {
    bytes whole = {NULL, 0, 0};
    uint8_t piece[4096];
    size_t copied = sizeof piece;
    while (copied == sizeof piece) {
        uint32_t status = sqlkeep_transcript(&self->own->handle, whole.length, piece, sizeof piece, &copied);
        if (status != SQLKEEP_OK || bytes_push(&whole, piece, copied) != 0) {
            free(whole.at);
            return status != SQLKEEP_OK ? failed(self->module, status) : NULL;
        }
    }
    PyObject *text = PyBytes_FromStringAndSize((const char *)whole.at, (Py_ssize_t)whole.length);
    free(whole.at);
    return text;
}

PyObject *engine_lines(engine *self, uint64_t number) {
    uint32_t status = sqlkeep_lines(&self->own->handle, number);
    return status == SQLKEEP_OK ? transcript_of(self) : failed(self->module, status);
}

static PyObject *engine_told_lines(engine *self, PyObject *arguments) {
    unsigned long long number;
    if (!PyArg_ParseTuple(arguments, "K:lines", &number) || engine_begin(self) != 0) {
        return NULL;
    }
    return engine_end(self, engine_lines(self, number));
}

static PyObject *run_text(engine *self, const char *text, Py_ssize_t length) {
    sqlkeep_summary summary = {0, 0, 0, 0, 0, 0};
    uint32_t status;
    Py_BEGIN_ALLOW_THREADS
    status = sqlkeep_run(&self->own->handle, (const uint8_t *)text, (size_t)length, &summary);
    Py_END_ALLOW_THREADS
    PyObject *lines = status == SQLKEEP_OK ? transcript_of(self) : failed(self->module, status);
    PyObject *fault = lines == NULL ? NULL : summary.has_fault ? PyLong_FromUnsignedLongLong(summary.fault_at) : nothing();
    if (fault == NULL) {
        Py_XDECREF(lines);
        return NULL;
    }
    return Py_BuildValue("NKKKNK", lines, (unsigned long long)summary.accepted, (unsigned long long)summary.refused,
                         (unsigned long long)summary.memory_refused, fault, (unsigned long long)summary.untold);
}

/* run(bytes): the transcript, how many were accepted, refused, and refused memory, the byte of the fault or None, and how many COMMITs
   have no account for lack of memory. */
static PyObject *engine_run(engine *self, PyObject *arguments) {
    const char *text;
    Py_ssize_t length;
    if (!PyArg_ParseTuple(arguments, "y#:run", &text, &length) || engine_begin(self) != 0) {
        return NULL;
    }
    return engine_end(self, run_text(self, text, length));
}

/* ---- scripts */

/* Reads a text; the statements that were read before are gone. 0, or -1 with an exception. */
static int read_text_of(engine *self, const char *text, Py_ssize_t length, sqlkeep_script *script) {
    Py_CLEAR(self->held);
    uint32_t status = sqlkeep_read(&self->own->handle, (const uint8_t *)text, (size_t)length, script);
    return status == SQLKEEP_OK ? 0 : (failed(self->module, status), -1);
}

/* A list with the bytes where each statement that was read begins and ends. */
static PyObject *places(engine *self, size_t count) {
    PyObject *list = PyList_New((Py_ssize_t)count);
    for (size_t at = 0; list != NULL && at < count; at++) {
        sqlkeep_span span = {0, 0};
        uint32_t status = sqlkeep_statement_place(&self->own->handle, at, &span);
        PyObject *place = status != SQLKEEP_OK ? failed(self->module, status) : Py_BuildValue("KK", (unsigned long long)span.begin, (unsigned long long)span.end);
        if (place == NULL || PyList_SetItem(list, (Py_ssize_t)at, place) != 0) {
            Py_DECREF(list);
            return NULL;
        }
    }
    return list;
}

/* read(bytes): the bytes where each statement begins and ends, and whether something is left that is no statement. */
static PyObject *engine_read(engine *self, PyObject *arguments) {
    const char *text;
    Py_ssize_t length;
    sqlkeep_script script = {0, 0, 0};
    if (!PyArg_ParseTuple(arguments, "y#:read", &text, &length) || engine_begin(self) != 0) {
        return NULL;
    }
    PyObject *found = read_text_of(self, text, length, &script) == 0 ? places(self, (size_t)script.statements) : NULL;
    return engine_end(self, found == NULL ? NULL : Py_BuildValue("NN", found, PyBool_FromLong(script.has_fault != 0)));
}

/* word(bytes): where the first word of a text begins and ends that can't stand where it does, and whether the text ends there; or None. The
   statements that were read before are gone. */
static PyObject *engine_word(engine *self, PyObject *arguments) {
    const char *text;
    Py_ssize_t length;
    sqlkeep_script script = {0, 0, 0};
    sqlkeep_place place = {0, 0, 0, 0};
    if (!PyArg_ParseTuple(arguments, "y#:word", &text, &length) || engine_begin(self) != 0) {
        return NULL;
    }
    if (read_text_of(self, text, length, &script) != 0) {
        return engine_end(self, NULL);
    }
    if (sqlkeep_fault(&self->own->handle, &place) != SQLKEEP_OK) {
        return engine_end(self, nothing());
    }
    return engine_end(self, Py_BuildValue("KKN", (unsigned long long)place.word, (unsigned long long)place.end, PyBool_FromLong(place.is_cut != 0)));
}

/* ---- transactions, and what the library tells */

/* commit(): the answer of COMMIT. A refused one rolls back, so its account is asked for at once. */
static PyObject *engine_commit(engine *self, PyObject *unused) {
    sqlkeep_outcome outcome = {SQLKEEP_DONE, 0, 0, 0};
    (void)unused;
    if (engine_begin(self) != 0) {
        return NULL;
    }
    self->has_work = false;
    sqlkeep_explain(&self->own->handle, 1);
    uint32_t status = sqlkeep_commit(&self->own->handle, &outcome);
    PyObject *answer = status == SQLKEEP_OK ? engine_answer(self, 0, &outcome, true) : failed(self->module, status);
    sqlkeep_explain(&self->own->handle, self->explains);
    return engine_end(self, answer);
}

static PyObject *engine_rollback(engine *self, PyObject *unused) {
    (void)unused;
    self->has_work = false;
    return engine_ready(self) != 0 ? NULL : done_or_failed(self, sqlkeep_rollback(&self->own->handle));
}

static PyObject *engine_rollback_to(engine *self, PyObject *arguments) {
    const char *name;
    Py_ssize_t length;
    sqlkeep_outcome outcome = {SQLKEEP_DONE, 0, 0, 0};
    if (!PyArg_ParseTuple(arguments, "y#:rollback_to", &name, &length) || engine_begin(self) != 0) {
        return NULL;
    }
    self->has_work = false;
    uint32_t status = sqlkeep_rollback_to(&self->own->handle, (const uint8_t *)name, (size_t)length, &outcome);
    return engine_end(self, status == SQLKEEP_OK ? engine_answer(self, 0, &outcome, true) : failed(self->module, status));
}

static PyObject *engine_in_transaction(engine *self, PyObject *unused) {
    bool is_open = false;
    (void)unused;
    if (engine_ready(self) != 0) {
        return NULL;
    }
    uint32_t status = sqlkeep_in_transaction(&self->own->handle, &is_open);
    return status == SQLKEEP_OK ? PyBool_FromLong(is_open) : failed(self->module, status);
}

static PyObject *engine_work(engine *self, PyObject *unused) {
    sqlkeep_done work = {0, 0, 0};
    (void)unused;
    if (engine_ready(self) != 0) {
        return NULL;
    }
    uint32_t status = sqlkeep_work(&self->own->handle, &work);
    /* That of a statement that was executed once more is the one of the first time. */
    work = self->has_work ? self->work : work;
    if (status != SQLKEEP_OK) {
        return failed(self->module, status);
    }
    return Py_BuildValue("KKK", (unsigned long long)work.changes, (unsigned long long)work.undone, (unsigned long long)work.lookups);
}

/* The violation at this place, as (constraint, row). */
static PyObject *violation_at(engine *self, size_t place) {
    /* A name has 128 characters at most; that of a constraint without one is made of its table's, and longer. */
    char name[1024];
    uint64_t row = 0;
    size_t copied = 0;
    uint32_t status = sqlkeep_violation(&self->own->handle, place, &row, (uint8_t *)name, sizeof name, &copied);
    if (status != SQLKEEP_OK) {
        return failed(self->module, status);
    }
    return Py_BuildValue("s#K", name, (Py_ssize_t)copied, (unsigned long long)row);
}

static PyObject *violations(engine *self) {
    size_t count = 0;
    uint32_t status = sqlkeep_pending(&self->own->handle, &count);
    PyObject *list = status == SQLKEEP_OK ? PyList_New((Py_ssize_t)count) : failed(self->module, status);
    for (size_t place = 0; list != NULL && place < count; place++) {
        PyObject *violation = violation_at(self, place);
        if (violation == NULL || PyList_SetItem(list, (Py_ssize_t)place, violation) != 0) {
            Py_DECREF(list);
            return NULL;
        }
    }
    return list;
}

static PyObject *engine_pending(engine *self, PyObject *unused) {
    (void)unused;
    return engine_begin(self) != 0 ? NULL : engine_end(self, violations(self));
}

/* progress(): how many statements the last `execute_many` went through. */
static PyObject *engine_progress(engine *self, PyObject *unused) {
    (void)unused;
    return PyLong_FromSsize_t(self->progress);
}

static PyObject *engine_catalogue(engine *self, PyObject *unused) {
    (void)unused;
    return engine_begin(self) != 0 ? NULL : engine_end(self, catalogue_of(self));
}

/* dump(): the scripts that make the database again. */
static PyObject *engine_dump(engine *self, PyObject *unused) {
    (void)unused;
    return engine_begin(self) != 0 ? NULL : engine_end(self, dump_of(self));
}

/* row(number): the row of this number as (table, values), or None. */
static PyObject *engine_row(engine *self, PyObject *arguments) {
    unsigned long long number;
    if (!PyArg_ParseTuple(arguments, "K:row", &number) || engine_begin(self) != 0) {
        return NULL;
    }
    return engine_end(self, stored_row(self, (size_t)number));
}

static PyObject *engine_explain(engine *self, PyObject *arguments) {
    int asked;
    if (!PyArg_ParseTuple(arguments, "p:explain", &asked) || engine_ready(self) != 0) {
        return NULL;
    }
    self->explains = asked != 0;
    return done_or_failed(self, sqlkeep_explain(&self->own->handle, self->explains));
}

/* account(is_wanted): whether a statement that is refused for a row is executed once more for its account. */
static PyObject *engine_account(engine *self, PyObject *arguments) {
    int is_wanted;
    if (!PyArg_ParseTuple(arguments, "p:account", &is_wanted) || engine_ready(self) != 0) {
        return NULL;
    }
    self->accounts = is_wanted != 0;
    return nothing();
}

/* ---- the module */

static PyMethodDef methods[] = {
    {"close", (PyCFunction)engine_close, METH_NOARGS, NULL},
    {"is_open", (PyCFunction)engine_is_open, METH_NOARGS, NULL},
    {"check", (PyCFunction)engine_check, METH_NOARGS, NULL},
    {"execute", (PyCFunction)engine_execute, METH_VARARGS, NULL},
    {"execute_many", (PyCFunction)engine_execute_many, METH_VARARGS, NULL},
    {"read", (PyCFunction)engine_read, METH_VARARGS, NULL},
    {"word", (PyCFunction)engine_word, METH_VARARGS, NULL},
    {"lines", (PyCFunction)engine_told_lines, METH_VARARGS, NULL},
    {"run", (PyCFunction)engine_run, METH_VARARGS, NULL},
    {"commit", (PyCFunction)engine_commit, METH_NOARGS, NULL},
    {"rollback", (PyCFunction)engine_rollback, METH_NOARGS, NULL},
    {"rollback_to", (PyCFunction)engine_rollback_to, METH_VARARGS, NULL},
    {"in_transaction", (PyCFunction)engine_in_transaction, METH_NOARGS, NULL},
    {"work", (PyCFunction)engine_work, METH_NOARGS, NULL},
    {"pending", (PyCFunction)engine_pending, METH_NOARGS, NULL},
    {"catalogue", (PyCFunction)engine_catalogue, METH_NOARGS, NULL},
    {"dump", (PyCFunction)engine_dump, METH_NOARGS, NULL},
    {"row", (PyCFunction)engine_row, METH_VARARGS, NULL},
    {"progress", (PyCFunction)engine_progress, METH_NOARGS, NULL},
    {"explain", (PyCFunction)engine_explain, METH_VARARGS, NULL},
    {"account", (PyCFunction)engine_account, METH_VARARGS, NULL},
    {NULL, NULL, 0, NULL},
};

static PyType_Slot slots[] = {
    {Py_tp_new, engine_new},
    {Py_tp_dealloc, engine_dealloc},
    {Py_tp_methods, methods},
    {Py_tp_doc, "A session of the library: Engine(depth, changes)."},
    {0, NULL},
};

static PyType_Spec spec = {"sqlkeep._engine.Engine", sizeof(engine), 0, Py_TPFLAGS_DEFAULT, slots};

static int module_traverse(PyObject *module, visitproc visit, void *arg) {
    const module_state *state = PyModule_GetState(module);
    Py_VISIT(state->programming);
    Py_VISIT(state->data);
    Py_VISIT(state->operational);
    Py_VISIT(state->by_cause);
    Py_VISIT(state->engine_type);
    Py_VISIT(state->rows_type);
    Py_VISIT(state->guard_type);
    return 0;
}

static void clear_errors(module_state *state) {
    Py_CLEAR(state->programming);
    Py_CLEAR(state->data);
    Py_CLEAR(state->operational);
    Py_CLEAR(state->by_cause);
    Py_CLEAR(state->cause);
    Py_CLEAR(state->row);
    Py_CLEAR(state->lines);
    Py_CLEAR(state->engine);
}

static int module_clear(PyObject *module) {
    module_state *state = PyModule_GetState(module);
    clear_errors(state);
    Py_CLEAR(state->engine_type);
    Py_CLEAR(state->rows_type);
    Py_CLEAR(state->guard_type);
    return 0;
}

static void module_free(void *module) {
    module_clear(module);
}

/* set_errors(programming, data, operational, by_cause, main_thread): the classes of the exceptions, and the main thread. */
static PyObject *set_errors(PyObject *module, PyObject *arguments) {
    module_state *state = PyModule_GetState(module);
    PyObject *programming, *data, *operational, *by_cause;
    unsigned long main_thread;
    if (!PyArg_ParseTuple(arguments, "OOOO!k:set_errors", &programming, &data, &operational, &PyTuple_Type, &by_cause, &main_thread)) {
        return NULL;
    }
    clear_errors(state);
    Py_INCREF(programming);
    Py_INCREF(data);
    Py_INCREF(operational);
    Py_INCREF(by_cause);
    state->programming = programming;
    state->data = data;
    state->operational = operational;
    state->by_cause = by_cause;
    state->cause = PyUnicode_InternFromString("cause");
    state->row = PyUnicode_InternFromString("_row");
    state->lines = PyUnicode_InternFromString("_lines");
    state->engine = PyUnicode_InternFromString("_engine");
    state->main_thread = main_thread;
    return PyErr_Occurred() ? NULL : nothing();
}

static PyMethodDef functions[] = {
    {"set_errors", set_errors, METH_VARARGS, NULL},
    {NULL, NULL, 0, NULL},
};

/* Makes the types of a module. */
static int module_exec(PyObject *module) {
    module_state *state = PyModule_GetState(module);
    state->guard_type = guard_type(module);
    state->rows_type = state->guard_type == NULL ? NULL : rows_type(module);
    state->engine_type = state->rows_type == NULL ? NULL : (PyTypeObject *)PyType_FromModuleAndSpec(module, &spec, NULL);
    return state->engine_type == NULL ? -1 : PyModule_AddType(module, state->engine_type);
}

static PyModuleDef_Slot module_slots[] = {
    {Py_mod_exec, module_exec},
    {0, NULL},
};

static struct PyModuleDef definition = {
    PyModuleDef_HEAD_INIT, "sqlkeep._engine", "The engine that the package is made over.", sizeof(module_state), functions, module_slots,
    module_traverse, module_clear, module_free,
};

PyMODINIT_FUNC PyInit__engine(void) {
    return PyModuleDef_Init(&definition);
}
