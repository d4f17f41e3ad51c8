/* Tells where the time of a run goes: writes the clock of four moments into the file that the environment variable PHASES
   names, in nanoseconds: when the program began, when its workers began, when the last of them had ended, and when the
   program ended. With several workers these are the first thread that is made and the last that is waited for. One worker
   makes no thread; but a run takes no memory and gives none back, so its time is the last long one without a request for
   memory: at least half as long as any other, since reading a circuit is such a time too. Built by phases.py, and used by
   samples.py too. */
#define _GNU_SOURCE
#include <dlfcn.h>
#include <errno.h>
#include <pthread.h>
#include <stddef.h>
#include <stdio.h>
#include <stdlib.h>
#include <sys/syscall.h>
#include <time.h>
#include <unistd.h>

extern void *__libc_malloc(size_t size);
extern void *__libc_realloc(void *old, size_t size);
extern void *__libc_memalign(size_t align, size_t size);
extern void __libc_free(void *old);

static long began, first_made, last_joined, last_request, longest, gap_began, gap_ended;

static long now(void) {
    struct timespec t;
    clock_gettime(CLOCK_MONOTONIC, &t);
    return t.tv_sec * 1000000000L + t.tv_nsec;
}

/* Until the first thread is made there is but one, so this needs no lock; afterwards nothing is kept. */
static void request(void) {
    if (first_made)
        return;
    long time = now();
    if (last_request && 2 * (time - last_request) > longest) {
        if (time - last_request > longest)
            longest = time - last_request;
        gap_began = last_request;
        gap_ended = time;
    }
    last_request = time;
}

void *malloc(size_t size) {
    request();
    return __libc_malloc(size);
}

void *realloc(void *old, size_t size) {
    request();
    return __libc_realloc(old, size);
}

void *aligned_alloc(size_t align, size_t size) {
    request();
    return __libc_memalign(align, size);
}

int posix_memalign(void **made, size_t align, size_t size) {
    request();
    *made = __libc_memalign(align, size);
    return *made == NULL ? ENOMEM : 0;
}

void free(void *old) {
    request();
    __libc_free(old);
}

int pthread_create(pthread_t *thread, const pthread_attr_t *how, void *(*call)(void *), void *with) {
    static int (*next)(pthread_t *, const pthread_attr_t *, void *(*)(void *), void *);
    if (next == NULL)
        next = dlsym(RTLD_NEXT, "pthread_create");
    if (!first_made)
        first_made = now();
    return next(thread, how, call, with);
}

int pthread_join(pthread_t thread, void **result) {
    static int (*next)(pthread_t, void **);
    if (next == NULL)
        next = dlsym(RTLD_NEXT, "pthread_join");
    int status = next(thread, result);
    last_joined = now();
    return status;
}

__attribute__((constructor)) static void start(void) {
    began = now();
}

static void tell(void) {
    static int told;
    const char *name = getenv("PHASES");
    long ended = now();
    FILE *file = name && !told ? fopen(name, "w") : NULL;
    told = 1;
    if (file == NULL)
        return;
    fprintf(file, "%ld %ld %ld %ld\n", began, first_made ? first_made : gap_began, first_made ? last_joined : gap_ended, ended);
    fclose(file);
}

__attribute__((destructor)) static void end(void) {
    tell();
}

void _exit(int status) {
    tell();
    syscall(SYS_exit_group, status);
    __builtin_unreachable();
}
