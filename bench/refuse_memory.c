/* An allocator before that of the system, which refuses one request: the one whose number the environment variable
   REFUSE_REQUEST has, counted from 1. With REFUSE_THREAD it refuses the thread of that number in the same way. The file that
   COUNTS names, of forty bytes, gets five numbers: how many requests there were; the number of the first request after a
   thread was asked for, and of the first after a byte was written to standard output or standard error, whether it came or
   not, and 0 without such a moment; how many threads were asked for; and how often it refused. Built and used by
   refuse_memory.py. */
#define _GNU_SOURCE
#include <dlfcn.h>
#include <errno.h>
#include <fcntl.h>
#include <pthread.h>
#include <stdatomic.h>
#include <stddef.h>
#include <stdlib.h>
#include <sys/mman.h>
#include <sys/syscall.h>
#include <unistd.h>

extern void *__libc_malloc(size_t size);
extern void *__libc_calloc(size_t count, size_t size);
extern void *__libc_realloc(void *old, size_t size);
extern void *__libc_memalign(size_t align, size_t size);

struct counts {
    atomic_long requests, after_thread, after_write, threads, refusals;
};

/* Shared with the file, so that it has the counts however the process ends. */
static struct counts none, *counts = &none;

__attribute__((constructor)) static void share(void) {
    const char *name = getenv("COUNTS");
    int file = name == NULL ? -1 : open(name, O_RDWR);
    void *shared = file < 0 ? MAP_FAILED : mmap(NULL, sizeof none, PROT_READ | PROT_WRITE, MAP_SHARED, file, 0);
    if (file >= 0)
        close(file);
    if (shared != MAP_FAILED)
        counts = shared;
}

static int is_wanted(const char *variable, long number) {
    const char *wanted = getenv(variable);
    if (wanted == NULL || number != atol(wanted))
        return 0;
    ++counts->refusals;
    return 1;
}

static int refuses(void) {
    if (!is_wanted("REFUSE_REQUEST", ++counts->requests))
        return 0;
    errno = ENOMEM;
    return 1;
}

/* Keeps the number of the request that comes next, the first time that this happens. */
static void mark(atomic_long *moment) {
    long unset = 0;
    atomic_compare_exchange_strong(moment, &unset, counts->requests + 1);
}

void *malloc(size_t size) {
    return refuses() ? NULL : __libc_malloc(size);
}

void *calloc(size_t count, size_t size) {
    return refuses() ? NULL : __libc_calloc(count, size);
}

void *realloc(void *old, size_t size) {
    return refuses() ? NULL : __libc_realloc(old, size);
}

void *aligned_alloc(size_t align, size_t size) {
    return refuses() ? NULL : __libc_memalign(align, size);
}

int posix_memalign(void **made, size_t align, size_t size) {
    if (refuses())
        return ENOMEM;
    *made = __libc_memalign(align, size);
    return *made == NULL ? ENOMEM : 0;
}

ssize_t write(int file, const void *bytes, size_t count) {
    if (file == STDOUT_FILENO || file == STDERR_FILENO)
        mark(&counts->after_write);
    return syscall(SYS_write, file, bytes, count);
}

int pthread_create(pthread_t *thread, const pthread_attr_t *how, void *(*call)(void *), void *with) {
    static int (*next)(pthread_t *, const pthread_attr_t *, void *(*)(void *), void *);
    if (next == NULL)
        next = dlsym(RTLD_NEXT, "pthread_create");
    mark(&counts->after_thread);
    if (is_wanted("REFUSE_THREAD", ++counts->threads))
        return EAGAIN;
    return next(thread, how, call, with);
}
