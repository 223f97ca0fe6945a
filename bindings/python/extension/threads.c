/* Threads, and what belongs to them.

   All calls for a session, and for the rows that were taken out of it, are made on the thread that opened it. One whose object ends on
   another thread is left to its own, which frees it when it next opens a session. When a thread ends, all that belongs to it is freed:
   nobody could use it any more.

   A thread is known by an object in its dictionary, which ends with it, since another thread may later get the number that it had. */
#include "engine.h"

#include <stdlib.h>

typedef struct thread {
    unsigned long number;
    bool has_ended;
    /* How many there are who know of it: its guard, and what belongs to it. */
    size_t uses;
    /* What belongs to it and has an object; and what was left to it. */
    owned *first, *left;
} thread;

typedef struct guard {
    PyObject_HEAD
    thread *thread;
} guard;

static void release(thread *of) {
    if (--of->uses == 0) {
        free(of);
    }
}

static void link_in(owned *own, owned **list) {
    own->next = *list;
    own->at = list;
    if (own->next != NULL) {
        own->next->at = &own->next;
    }
    *list = own;
}

static void link_out(owned *own) {
    *own->at = own->next;
    if (own->next != NULL) {
        own->next->at = own->at;
    }
}

static void close_own(owned *own) {
    sqlkeep_result_free(&own->result);
    sqlkeep_close(&own->handle);
}

static void drop(owned *own) {
    link_out(own);
    release(own->thread);
    free(own);
}

static void drop_left(thread *of) {
    while (of->left != NULL) {
        close_own(of->left);
        drop(of->left);
    }
}

bool own_is_here(const owned *own) {
    return !own->thread->has_ended && own->thread->number == PyThread_get_thread_ident();
}

void own_end(owned *own) {
    bool is_open = own->handle.is_open || own->result.is_open;
    if (is_open && !own_is_here(own)) {
        link_out(own);
        link_in(own, &own->thread->left);
        return;
    }
    close_own(own);
    drop(own);
}

/* A thread ends. In a child of a fork, and at the end of the interpreter, another one may find it ended, which frees nothing. */
static void guard_dealloc(PyObject *object) {
    thread *ended = ((guard *)object)->thread;
    PyTypeObject *type = Py_TYPE(object);
    freefunc free_object = (freefunc)PyType_GetSlot(type, Py_tp_free);
    if (ended != NULL && ended->number == PyThread_get_thread_ident()) {
        drop_left(ended);
        for (owned *each = ended->first; each != NULL; each = each->next) {
            close_own(each);
        }
    }
    if (ended != NULL) {
        ended->has_ended = true;
        release(ended);
    }
    free_object(object);
    Py_DECREF(type);
}

/* Keeps a new thread in the dictionary of this one. NULL with an exception. */
static thread *thread_begin(const module_state *module, PyObject *kept) {
    thread *begun = calloc(1, sizeof *begun);
    allocfunc allocate = (allocfunc)PyType_GetSlot(module->guard_type, Py_tp_alloc);
    if (begun == NULL) {
        PyErr_NoMemory();
        return NULL;
    }
    guard *its = (guard *)allocate(module->guard_type, 0);
    if (its == NULL) {
        free(begun);
        return NULL;
    }
    begun->number = PyThread_get_thread_ident();
    begun->uses = 1;
    its->thread = begun;
    int failure = PyDict_SetItem(kept, (PyObject *)module->guard_type, (PyObject *)its);
    Py_DECREF(its);
    return failure == 0 ? begun : NULL;
}

/* This thread. No code of the caller's runs within, since nothing that is made here is of the collector's. NULL with an exception. */
static thread *this_thread(const module_state *module) {
    PyObject *kept = PyThreadState_GetDict();
    if (kept == NULL) {
        PyErr_NoMemory();
        return NULL;
    }
    guard *found = (guard *)PyDict_GetItemWithError(kept, (PyObject *)module->guard_type);
    if (found != NULL) {
        return found->thread;
    }
    return PyErr_Occurred() ? NULL : thread_begin(module, kept);
}

owned *own_begin(const module_state *module) {
    thread *here = this_thread(module);
    owned *own = here == NULL ? NULL : calloc(1, sizeof *own);
    if (own == NULL) {
        return here == NULL ? NULL : (owned *)PyErr_NoMemory();
    }
    drop_left(here);
    own->thread = here;
    here->uses++;
    link_in(own, &here->first);
    return own;
}

static PyType_Slot slots[] = {
    {Py_tp_dealloc, guard_dealloc},
    {Py_tp_doc, "What ends with a thread."},
    {0, NULL},
};

static PyType_Spec spec = {"sqlkeep._engine.Guard", sizeof(guard), 0, Py_TPFLAGS_DEFAULT, slots};

PyTypeObject *guard_type(PyObject *module) {
    return (PyTypeObject *)PyType_FromModuleAndSpec(module, &spec, NULL);
}
