/* The catalogue of a session, and the columns of a query, as tuples and lists. */
#include "engine.h"

/* What reads a name: of a table, a constraint or a trigger, or of a column. */
typedef uint32_t read_name(sqlkeep *handle, size_t at, size_t from, uint8_t *buffer, size_t size, size_t *copied);

/* A name. The longest is one that was made for a constraint: its table's, of 128 characters, and a number. */
static PyObject *name_of(engine *self, size_t at, read_name *read) {
    char name[512];
    size_t copied = 0;
    uint32_t status = read(&self->own->handle, at, 0, (uint8_t *)name, sizeof name, &copied);
    return status == SQLKEEP_OK ? PyUnicode_DecodeUTF8(name, (Py_ssize_t)copied, "strict") : failed(self->module, status);
}

/* A whole text, part by part. */
static PyObject *whole_text(engine *self, size_t at, read_name *read) {
    bytes whole = {NULL, 0, 0};
    uint8_t piece[4096];
    size_t copied = sizeof piece;
    while (copied == sizeof piece) {
        uint32_t status = read(&self->own->handle, at, whole.length, piece, sizeof piece, &copied);
        if (status != SQLKEEP_OK || bytes_push(&whole, piece, copied) != 0) {
            bytes_free(&whole);
            return status != SQLKEEP_OK ? failed(self->module, status) : NULL;
        }
    }
    PyObject *text = PyUnicode_DecodeUTF8((const char *)whole.at, (Py_ssize_t)whole.length, "strict");
    bytes_free(&whole);
    return text;
}

/* A list of `count` items, each made by `item`. */
typedef PyObject *make_item(engine *self, size_t outer, size_t at);

static PyObject *list_of(engine *self, size_t outer, size_t count, make_item *item) {
    PyObject *list = PyList_New((Py_ssize_t)count);
    for (size_t at = 0; list != NULL && at < count; at++) {
        PyObject *made = item(self, outer, at);
        if (made == NULL || PyList_SetItem(list, (Py_ssize_t)at, made) != 0) {
            Py_DECREF(list);
            return NULL;
        }
    }
    return list;
}

static uint32_t default_text(sqlkeep *handle, size_t table, size_t column, size_t from, uint8_t *buffer, size_t size, size_t *copied) {
    return sqlkeep_default_text(handle, table, column, from, buffer, size, copied);
}

/* (name, kind, longest, default) */
static PyObject *column_at(engine *self, size_t table, size_t at) {
    char name[512];
    size_t copied = 0;
    sqlkeep_column_type type = {0, 0};
    sqlkeep_cell cell = {SQLKEEP_NULL, 0, 0};
    uint32_t status = sqlkeep_column(&self->own->handle, table, at, &type);
    status = status != SQLKEEP_OK ? status : sqlkeep_column_name(&self->own->handle, table, at, 0, (uint8_t *)name, sizeof name, &copied);
    status = status != SQLKEEP_OK ? status : sqlkeep_default(&self->own->handle, table, at, &cell);
    if (status != SQLKEEP_OK) {
        return failed(self->module, status);
    }
    PyObject *given = value_of(self, &cell, table, at, default_text);
    return given == NULL ? NULL : Py_BuildValue("s#KKN", name, (Py_ssize_t)copied, (unsigned long long)type.kind, (unsigned long long)type.longest, given);
}

/* (name, columns) */
static PyObject *table_at(engine *self, size_t unused, size_t at) {
    size_t columns = 0;
    (void)unused;
    uint32_t status = sqlkeep_table(&self->own->handle, at, &columns);
    if (status != SQLKEEP_OK) {
        return failed(self->module, status);
    }
    PyObject *name = name_of(self, at, sqlkeep_table_name);
    PyObject *list = name == NULL ? NULL : list_of(self, at, columns, column_at);
    if (list == NULL) {
        Py_XDECREF(name);
        return NULL;
    }
    return Py_BuildValue("NN", name, list);
}

static PyObject *constraint_column(engine *self, size_t constraint, size_t at) {
    uint32_t column = 0;
    uint32_t status = sqlkeep_constraint_column(&self->own->handle, constraint, at, &column);
    return status == SQLKEEP_OK ? PyLong_FromUnsignedLong(column) : failed(self->module, status);
}

static PyObject *referenced_column(engine *self, size_t constraint, size_t at) {
    uint32_t column = 0;
    uint32_t status = sqlkeep_referenced_column(&self->own->handle, constraint, at, &column);
    return status == SQLKEEP_OK ? PyLong_FromUnsignedLong(column) : failed(self->module, status);
}

/* The condition of a CHECK, and None of another constraint. */
static PyObject *condition_of(engine *self, size_t at, uint32_t kind) {
    if (kind == SQLKEEP_CHECK) {
        return whole_text(self, at, sqlkeep_constraint_condition);
    }
    Py_INCREF(Py_None);
    return Py_None;
}

/* (name, kind, table, columns, deferrable, initially deferred, nulls not distinct, referenced, its columns, match full, on delete,
   on update, deferred now, condition) */
static PyObject *constraint_at(engine *self, size_t unused, size_t at) {
    sqlkeep_constraint_definition found = {0};
    uint32_t mode = SQLKEEP_IMMEDIATE;
    (void)unused;
    uint32_t status = sqlkeep_constraint_at(&self->own->handle, at, &found);
    status = status != SQLKEEP_OK ? status : sqlkeep_constraint_mode(&self->own->handle, at, &mode);
    if (status != SQLKEEP_OK) {
        return failed(self->module, status);
    }
    PyObject *name = name_of(self, at, sqlkeep_constraint_name);
    PyObject *columns = name == NULL ? NULL : list_of(self, at, (size_t)found.columns, constraint_column);
    size_t count = found.kind == SQLKEEP_FOREIGN_KEY ? (size_t)found.columns : 0;
    PyObject *referenced = columns == NULL ? NULL : list_of(self, at, count, referenced_column);
    PyObject *condition = referenced == NULL ? NULL : condition_of(self, at, found.kind);
    if (condition == NULL) {
        Py_XDECREF(name);
        Py_XDECREF(columns);
        Py_XDECREF(referenced);
        return NULL;
    }
    return Py_BuildValue("NIINIIIINIIIIN", name, found.kind, found.table, columns, found.deferrable, found.initially_deferred, found.nulls_not_distinct,
                         found.referenced, referenced, found.match_full, found.on_delete, found.on_update, mode, condition);
}

static PyObject *trigger_column(engine *self, size_t trigger, size_t at) {
    uint32_t column = 0;
    uint32_t status = sqlkeep_trigger_column(&self->own->handle, trigger, at, &column);
    return status == SQLKEEP_OK ? PyLong_FromUnsignedLong(column) : failed(self->module, status);
}

/* (name, table, time, event, granularity, columns, statements) */
static PyObject *trigger_at(engine *self, size_t unused, size_t at) {
    sqlkeep_trigger_definition found = {0};
    (void)unused;
    uint32_t status = sqlkeep_trigger_at(&self->own->handle, at, &found);
    if (status != SQLKEEP_OK) {
        return failed(self->module, status);
    }
    PyObject *name = name_of(self, at, sqlkeep_trigger_name);
    PyObject *columns = name == NULL ? NULL : list_of(self, at, (size_t)found.columns, trigger_column);
    if (columns == NULL) {
        Py_XDECREF(name);
        return NULL;
    }
    return Py_BuildValue("NIIIINK", name, found.table, found.time, found.event, found.granularity, columns, (unsigned long long)found.statements);
}

PyObject *catalogue_of(engine *self) {
    sqlkeep_sizes sizes = {0, 0, 0};
    uint32_t status = sqlkeep_catalogue(&self->own->handle, &sizes);
    if (status != SQLKEEP_OK) {
        return failed(self->module, status);
    }
    PyObject *tables = list_of(self, 0, (size_t)sizes.tables, table_at);
    PyObject *constraints = tables == NULL ? NULL : list_of(self, 0, (size_t)sizes.constraints, constraint_at);
    PyObject *triggers = constraints == NULL ? NULL : list_of(self, 0, (size_t)sizes.triggers, trigger_at);
    if (triggers == NULL) {
        Py_XDECREF(tables);
        Py_XDECREF(constraints);
        return NULL;
    }
    return Py_BuildValue("NNN", tables, constraints, triggers);
}

static PyObject *query_column(engine *self, size_t unused, size_t at) {
    (void)unused;
    return name_of(self, at, sqlkeep_query_column);
}

PyObject *query_columns(engine *self) {
    size_t count = 0;
    uint32_t status = sqlkeep_query(&self->own->handle, &count);
    return status == SQLKEEP_OK ? list_of(self, 0, count, query_column) : failed(self->module, status);
}

static uint32_t row_text(sqlkeep *handle, size_t row, size_t column, size_t from, uint8_t *buffer, size_t size, size_t *copied) {
    return sqlkeep_row_text(handle, row, column, from, buffer, size, copied);
}

static PyObject *value_of_row(engine *self, size_t number, size_t column) {
    sqlkeep_cell cell = {SQLKEEP_NULL, 0, 0};
    uint32_t status = sqlkeep_row_value(&self->own->handle, number, column, &cell);
    return status == SQLKEEP_OK ? value_of(self, &cell, number, column, row_text) : failed(self->module, status);
}

PyObject *stored_row(engine *self, size_t number) {
    sqlkeep_stored_row row = {0, 0};
    uint32_t status = sqlkeep_row(&self->own->handle, number, &row);
    if (status == SQLKEEP_NOTHING) {
        Py_INCREF(Py_None);
        return Py_None;
    }
    if (status != SQLKEEP_OK) {
        return failed(self->module, status);
    }
    PyObject *name = name_of(self, (size_t)row.table, sqlkeep_table_name);
    PyObject *values = name == NULL ? NULL : list_of(self, number, (size_t)row.columns, value_of_row);
    if (values == NULL) {
        Py_XDECREF(name);
        return NULL;
    }
    return Py_BuildValue("NN", name, values);
}

static PyObject *dump_script(engine *self, size_t unused, size_t at) {
    (void)unused;
    return whole_text(self, at, sqlkeep_dump_script);
}

PyObject *dump_of(engine *self) {
    size_t scripts = 0;
    uint32_t status = sqlkeep_dump(&self->own->handle, &scripts);
    return status == SQLKEEP_OK ? list_of(self, 0, scripts, dump_script) : failed(self->module, status);
}
