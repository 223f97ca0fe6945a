/* The rows of a query as an object of Python, which copies them as they are asked for, some at a time. They are apart from the session:
   statements that follow leave them as they are. */
#include "engine.h"

typedef struct rows {
    PyObject_HEAD
    const module_state *module;
    owned *own;
    /* Whether rows are being copied. Code of the caller may run within it, as the end of an object, and must not ask for rows then. */
    bool is_busy;
    size_t count, columns;
    /* How many rows were copied; the list of those that were copied last, and how many of it were given. */
    size_t copied;
    PyObject *list;
    Py_ssize_t given;
    struct room room;
} rows;

static void end_rows(rows *self) {
    if (self->own != NULL) {
        own_end(self->own);
        self->own = NULL;
    }
    room_free(&self->room);
}

static void rows_dealloc(PyObject *object) {
    rows *self = (rows *)object;
    PyTypeObject *type = Py_TYPE(object);
    freefunc release = (freefunc)PyType_GetSlot(type, Py_tp_free);
    end_rows(self);
    Py_CLEAR(self->list);
    release(object);
    Py_DECREF(type);
}

/* Copies the next rows. 0, or -1 with an exception. */
static int copy_next(rows *self) {
    Py_CLEAR(self->list);
    self->given = 0;
    if (self->room.cells == NULL && room_make(&self->room, self->columns) != 0) {
        return -1;
    }
    self->list = some_rows(&self->own->result, self->copied, self->columns, &self->room);
    if (self->list == NULL) {
        return -1;
    }
    self->copied += (size_t)PyList_Size(self->list);
    if (self->copied == self->count) {
        end_rows(self);
    }
    return 0;
}

/* 0 where rows may be copied, otherwise -1 with an exception. */
static int rows_ready(const rows *self) {
    if (!own_is_here(self->own)) {
        PyErr_SetString(self->module->programming, "the rows are used on another thread than that of their connection");
        return -1;
    }
    if (self->is_busy) {
        PyErr_SetString(self->module->programming, "the rows are being copied");
        return -1;
    }
    return 0;
}

static PyObject *rows_next(PyObject *object) {
    rows *self = (rows *)object;
    bool is_at_end = self->list == NULL || self->given == PyList_Size(self->list);
    if (is_at_end && (self->copied == self->count || rows_ready(self) != 0)) {
        return NULL;
    }
    if (is_at_end) {
        self->is_busy = true;
        int failure = copy_next(self);
        self->is_busy = false;
        if (failure != 0) {
            return NULL;
        }
    }
    PyObject *row = PyList_GetItem(self->list, self->given++);
    Py_XINCREF(row);
    return row;
}

static Py_ssize_t rows_length(PyObject *object) {
    return (Py_ssize_t)((rows *)object)->count;
}

static PyType_Slot slots[] = {
    {Py_tp_dealloc, rows_dealloc},
    {Py_tp_iter, PyObject_SelfIter},
    {Py_tp_iternext, rows_next},
    {Py_sq_length, rows_length},
    {Py_tp_doc, "The rows of a query, copied as they are asked for."},
    {0, NULL},
};

static PyType_Spec spec = {"sqlkeep._engine.Rows", sizeof(rows), 0, Py_TPFLAGS_DEFAULT, slots};

PyTypeObject *rows_type(PyObject *module) {
    return (PyTypeObject *)PyType_FromModuleAndSpec(module, &spec, NULL);
}

PyObject *rows_taken(engine *self) {
    sqlkeep_result_sizes sizes = {0, 0};
    PyTypeObject *type = self->module->rows_type;
    allocfunc allocate = (allocfunc)PyType_GetSlot(type, Py_tp_alloc);
    rows *taken = (rows *)allocate(type, 0);
    if (taken == NULL) {
        return NULL;
    }
    taken->module = self->module;
    taken->own = own_begin(self->module);
    uint32_t status = taken->own == NULL ? SQLKEEP_OK : sqlkeep_result_take(&self->own->handle, &taken->own->result);
    if (taken->own == NULL || status != SQLKEEP_OK) {
        Py_DECREF(taken);
        return status == SQLKEEP_OK ? NULL : failed(self->module, status);
    }
    sqlkeep_result_size(&taken->own->result, &sizes);
    taken->count = (size_t)sizes.rows;
    taken->columns = (size_t)sizes.columns;
    return (PyObject *)taken;
}
