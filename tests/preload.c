/* Loaded into a built program before the C library, for refused_memory.py and devices.py. It counts what the program itself asks of the C library, and
   refuses or shortens some of it, as environment variables say; places are counted from 1:

     REFUSE_MEMORY=N      the N-th request for memory is refused
     REFUSE_LATER=1       so are all that come after it
     FAIL_READ=N          the N-th read fails (EIO)
     INTERRUPT_READ=N     the N-th read is interrupted (EINTR)
     SHORT_READS=1        a read gives one byte at most
     FAIL_WRITE=N         the N-th write fails (ENOSPC)
     INTERRUPT_WRITE=N    the N-th write is interrupted (EINTR)
     EMPTY_WRITE=N        the N-th write takes nothing, and doesn't fail
     SHORT_WRITES=N       a write takes N bytes at most
     TELL=FILE            at the end the numbers of requests, reads and writes are written to FILE

   A call that the C library or the loader makes is neither counted nor refused: only calls from the program's own code are. */
#define _GNU_SOURCE
#include <dlfcn.h>
#include <errno.h>
#include <fcntl.h>
#include <link.h>
#include <stdint.h>
#include <stdio.h>
#include <stdlib.h>
#include <unistd.h>

static uintptr_t first, last;
static unsigned long requests, reads, writes;
static unsigned long refuse_memory, refuse_later, fail_read, interrupt_read, short_reads, fail_write, interrupt_write, empty_write, short_writes;
static ssize_t (*next_read)(int, void *, size_t);
static ssize_t (*next_write)(int, const void *, size_t);

/* The C library's own names for its heap, so that nothing has to be looked up while memory is asked for. */
extern void *__libc_malloc(size_t);
extern void *__libc_calloc(size_t, size_t);
extern void *__libc_realloc(void *, size_t);
extern void *__libc_memalign(size_t, size_t);

/* The program is the first object that the loader names. */
static int note_program(struct dl_phdr_info *object, size_t size, void *unused) {
    for (int part = 0; part < object->dlpi_phnum; part++) {
        if (object->dlpi_phdr[part].p_type == PT_LOAD) {
            uintptr_t start = object->dlpi_addr + object->dlpi_phdr[part].p_vaddr, end = start + object->dlpi_phdr[part].p_memsz;
            first = first == 0 || start < first ? start : first;
            last = end > last ? end : last;
        }
    }
    return 1;
}

static unsigned long number(const char *name) {
    const char *text = getenv(name);
    return text ? strtoul(text, NULL, 10) : 0;
}

__attribute__((constructor)) static void begin(void) {
    next_read = (ssize_t (*)(int, void *, size_t))dlsym(RTLD_NEXT, "read");
    next_write = (ssize_t (*)(int, const void *, size_t))dlsym(RTLD_NEXT, "write");
    refuse_memory = number("REFUSE_MEMORY");
    refuse_later = number("REFUSE_LATER");
    fail_read = number("FAIL_READ");
    interrupt_read = number("INTERRUPT_READ");
    short_reads = number("SHORT_READS");
    fail_write = number("FAIL_WRITE");
    interrupt_write = number("INTERRUPT_WRITE");
    empty_write = number("EMPTY_WRITE");
    short_writes = number("SHORT_WRITES");
    dl_iterate_phdr(note_program, NULL);
}

__attribute__((destructor)) static void end(void) {
    const char *name = getenv("TELL");
    if (name) {
        char text[80];
        int length = snprintf(text, sizeof text, "%lu %lu %lu\n", requests, reads, writes);
        int file = open(name, O_WRONLY | O_CREAT | O_TRUNC, 0600);
        if (file < 0 || next_write(file, text, length) != length) {
            _exit(99);
        }
        close(file);
    }
}

/* Whether the call comes from the program's own code. */
static int is_own(void *caller) {
    return first <= (uintptr_t)caller && (uintptr_t)caller < last;
}

/* Whether a request for memory that comes from here is to be refused. */
static int is_refused(void *caller) {
    if (!is_own(caller)) {
        return 0;
    }
    requests++;
    if (refuse_memory == 0 || requests < refuse_memory || (requests > refuse_memory && !refuse_later)) {
        return 0;
    }
    errno = ENOMEM;
    return 1;
}

void *malloc(size_t size) {
    return is_refused(__builtin_return_address(0)) ? NULL : __libc_malloc(size);
}

void *calloc(size_t count, size_t size) {
    return is_refused(__builtin_return_address(0)) ? NULL : __libc_calloc(count, size);
}

void *realloc(void *block, size_t size) {
    return is_refused(__builtin_return_address(0)) ? NULL : __libc_realloc(block, size);
}

void *memalign(size_t align, size_t size) {
    return is_refused(__builtin_return_address(0)) ? NULL : __libc_memalign(align, size);
}

void *aligned_alloc(size_t align, size_t size) {
    return is_refused(__builtin_return_address(0)) ? NULL : __libc_memalign(align, size);
}

int posix_memalign(void **block, size_t align, size_t size) {
    *block = is_refused(__builtin_return_address(0)) ? NULL : __libc_memalign(align, size);
    return *block ? 0 : ENOMEM;
}

ssize_t read(int file, void *bytes, size_t count) {
    if (!is_own(__builtin_return_address(0))) {
        return next_read(file, bytes, count);
    }
    reads++;
    if (reads == fail_read || reads == interrupt_read) {
        errno = reads == fail_read ? EIO : EINTR;
        return -1;
    }
    return next_read(file, bytes, short_reads && count > 1 ? 1 : count);
}

ssize_t write(int file, const void *bytes, size_t count) {
    if (!is_own(__builtin_return_address(0))) {
        return next_write(file, bytes, count);
    }
    writes++;
    if (writes == fail_write || writes == interrupt_write) {
        errno = writes == fail_write ? ENOSPC : EINTR;
        return -1;
    }
    if (writes == empty_write) {
        return 0;
    }
    return next_write(file, bytes, short_writes && count > short_writes ? short_writes : count);
}
