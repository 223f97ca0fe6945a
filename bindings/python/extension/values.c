/* Values: those that are bound to a template, and those of rows. */
#include "engine.h"

#include <string.h>

static int bind_text(engine *self, PyObject *value, size_t number) {
    char *text;
    Py_ssize_t length;
    PyObject *encoded = PyUnicode_AsUTF8String(value);
    if (encoded == NULL && PyErr_ExceptionMatches(PyExc_UnicodeEncodeError)) {
        PyErr_Format(self->module->data, "parameter %zu is a text with a surrogate, which UTF-8 can't hold", number);
    }
    if (encoded == NULL) {
        return -1;
    }
    uint32_t status = SQLKEEP_NO_MEMORY;
    if (PyBytes_AsStringAndSize(encoded, &text, &length) == 0) {
        status = sqlkeep_bind_text(&self->own->handle, (const uint8_t *)text, (size_t)length);
    }
    Py_DECREF(encoded);
    if (status != SQLKEEP_OK && !PyErr_Occurred()) {
        failed(self->module, status);
    }
    return status == SQLKEEP_OK ? 0 : -1;
}

static int bind_integer(engine *self, PyObject *value, size_t number) {
    int beyond;
    long long integer = PyLong_AsLongLongAndOverflow(value, &beyond);
    if (beyond != 0) {
        PyErr_Format(self->module->data, "parameter %zu is an integer of more than 64 bits", number);
        return -1;
    }
    if (integer == -1 && PyErr_Occurred()) {
        return -1;
    }
    uint32_t status = sqlkeep_bind_integer(&self->own->handle, integer);
    return status == SQLKEEP_OK ? 0 : (failed(self->module, status), -1);
}

/* Binds a value; `number` counts the parameters from 1. */
static int bind_value(engine *self, PyObject *value, size_t number) {
    if (PyLong_Check(value)) {
        return bind_integer(self, value, number);
    }
    if (PyUnicode_Check(value)) {
        return bind_text(self, value, number);
    }
    if (value == Py_None) {
        uint32_t status = sqlkeep_bind_null(&self->own->handle);
        return status == SQLKEEP_OK ? 0 : (failed(self->module, status), -1);
    }
    PyObject *name = PyObject_GetAttrString((PyObject *)Py_TYPE(value), "__name__");
    if (name != NULL) {
        PyErr_Format(self->module->programming, "parameter %zu is of type %S; a value is an int, a str or None", number, name);
        Py_DECREF(name);
    }
    return -1;
}

int bind_values(engine *self, PyObject *values) {
    Py_ssize_t count = PyTuple_Size(values);
    for (Py_ssize_t at = 0; at < count; at++) {
        if (bind_value(self, PyTuple_GetItem(values, at), (size_t)at + 1) != 0) {
            sqlkeep_unbind(&self->own->handle);
            return -1;
        }
    }
    return 0;
}

static PyObject *long_text(engine *self, size_t row, size_t column, size_t length, read_text *read) {
    size_t copied = 0;
    PyObject *held = PyBytes_FromStringAndSize(NULL, (Py_ssize_t)length);
    if (held == NULL) {
        return NULL;
    }
    char *to = PyBytes_AsString(held);
    read(&self->own->handle, row, column, 0, (uint8_t *)to, length, &copied);
    PyObject *text = PyUnicode_DecodeUTF8(to, (Py_ssize_t)copied, "strict");
    Py_DECREF(held);
    return text;
}

PyObject *value_of(engine *self, const sqlkeep_cell *cell, size_t row, size_t column, read_text *read) {
    char to[256];
    size_t copied = 0;
    if (cell->kind == SQLKEEP_INTEGER) {
        return PyLong_FromLongLong(cell->integer);
    }
    if (cell->kind != SQLKEEP_TEXT) {
        Py_INCREF(Py_None);
        return Py_None;
    }
    if (cell->length > sizeof to) {
        return long_text(self, row, column, (size_t)cell->length, read);
    }
    read(&self->own->handle, row, column, 0, (uint8_t *)to, sizeof to, &copied);
    return PyUnicode_DecodeUTF8(to, (Py_ssize_t)copied, "strict");
}

/* Twice as many bytes for texts; what is in the buffer goes. */
static int enlarge(struct room *room) {
    PyMem_Free(room->texts);
    room->size *= 2;
    room->texts = PyMem_Malloc(room->size);
    if (room->texts == NULL) {
        PyErr_NoMemory();
        return -1;
    }
    return 0;
}

/* The value of a cell, whose text begins here; the text of the next one begins behind it. */
static PyObject *cell_value(const sqlkeep_cell *cell, const uint8_t **text) {
    if (cell->kind == SQLKEEP_INTEGER) {
        return PyLong_FromLongLong(cell->integer);
    }
    if (cell->kind != SQLKEEP_TEXT) {
        Py_INCREF(Py_None);
        return Py_None;
    }
    const char *from = (const char *)*text;
    *text += cell->length;
    return PyUnicode_DecodeUTF8(from, (Py_ssize_t)cell->length, "strict");
}

static PyObject *row_of(const sqlkeep_cell *cells, size_t columns, const uint8_t **text) {
    PyObject *tuple = PyTuple_New((Py_ssize_t)columns);
    for (size_t column = 0; tuple != NULL && column < columns; column++) {
        PyObject *value = cell_value(&cells[column], text);
        if (value == NULL || PyTuple_SetItem(tuple, (Py_ssize_t)column, value) != 0) {
            Py_DECREF(tuple);
            return NULL;
        }
    }
    return tuple;
}

/* Puts rows that were copied into the list, from this place on. */
static int put_rows(PyObject *list, size_t from, size_t rows, size_t columns, const struct room *room) {
    const uint8_t *text = room->texts;
    for (size_t row = 0; row < rows; row++) {
        PyObject *tuple = row_of(room->cells + row * columns, columns, &text);
        if (tuple == NULL || PyList_SetItem(list, (Py_ssize_t)(from + row), tuple) != 0) {
            return -1;
        }
    }
    return 0;
}

/* Copies all rows, as many at a time as there is room for. */
static int copy_rows(engine *self, PyObject *list, size_t count, size_t columns, struct room *room) {
    sqlkeep_taken taken = {0, 0};
    for (size_t from = 0; from < count; from += (size_t)taken.rows) {
        sqlkeep_rows(&self->own->handle, from, room->cells, room->count, room->texts, room->size, &taken);
        if (taken.rows == 0 && enlarge(room) != 0) {
            return -1;
        }
        if (put_rows(list, from, (size_t)taken.rows, columns, room) != 0) {
            return -1;
        }
    }
    return 0;
}

int room_make(struct room *room, size_t columns) {
    room->count = columns > 2048 ? columns : 2048;
    room->size = 32768;
    room->cells = PyMem_Malloc(room->count * sizeof *room->cells);
    room->texts = PyMem_Malloc(room->size);
    if (room->cells == NULL || room->texts == NULL) {
        room_free(room);
        PyErr_NoMemory();
        return -1;
    }
    return 0;
}

void room_free(struct room *room) {
    PyMem_Free(room->cells);
    PyMem_Free(room->texts);
    memset(room, 0, sizeof *room);
}

/* So with buffers of its own. */
static int copy_all(engine *self, PyObject *list, size_t count, size_t columns) {
    struct room room = {NULL, NULL, 0, 0};
    int failed = room_make(&room, columns);
    if (failed == 0) {
        failed = copy_rows(self, list, count, columns, &room);
    }
    room_free(&room);
    return failed;
}

PyObject *some_rows(sqlkeep_result *result, size_t from, size_t columns, struct room *room) {
    sqlkeep_taken taken = {0, 0};
    while (taken.rows == 0) {
        sqlkeep_result_rows(result, from, room->cells, room->count, room->texts, room->size, &taken);
        if (taken.rows == 0 && enlarge(room) != 0) {
            return NULL;
        }
    }
    PyObject *list = PyList_New((Py_ssize_t)taken.rows);
    if (list != NULL && put_rows(list, 0, (size_t)taken.rows, columns, room) != 0) {
        Py_DECREF(list);
        return NULL;
    }
    return list;
}

PyObject *rows_of(engine *self, size_t count) {
    size_t columns = 0;
    PyObject *list = PyList_New((Py_ssize_t)count);
    if (list == NULL || count == 0) {
        return list;
    }
    sqlkeep_columns(&self->own->handle, 0, &columns);
    if (copy_all(self, list, count, columns) != 0) {
        Py_DECREF(list);
        return NULL;
    }
    return list;
}
