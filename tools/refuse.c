// Refuses one request of the program that it is preloaded into: for memory, or for a thread.
//
//   cc -shared -fPIC -O2 -o refuse.so refuse.c
//   REFUSE=N REFUSE_NOTE=FD LD_PRELOAD=./refuse.so PROGRAM
//
// Requests are the calls of malloc, calloc and realloc, numbered from 1. The N-th answers NULL; 0
// refuses none. With REFUSE_WHAT=threads requests are the calls of pthread_create, and the N-th answers
// EAGAIN. The descriptor FD is a file of 16 bytes: two numbers of this machine, how many requests there
// were and how many were refused, which are true at each moment, however the program ends.

#define _GNU_SOURCE
#include <dlfcn.h>
#include <errno.h>
#include <pthread.h>
#include <stddef.h>
#include <stdlib.h>
#include <string.h>
#include <sys/mman.h>

void *__libc_malloc(size_t);
void *__libc_calloc(size_t, size_t);
void *__libc_realloc(void *, size_t);

static struct note { unsigned long asked, refused; } before_start, *note = &before_start;
static unsigned long number;
static int of_threads;

typedef int create(pthread_t *, const pthread_attr_t *, void *(*)(void *), void *);

// What the loader asks for before this is neither counted nor refused.
__attribute__((constructor)) static void start(void) {
    const char *n = getenv("REFUSE"), *fd = getenv("REFUSE_NOTE"), *what = getenv("REFUSE_WHAT");
    if (!n || !fd) return;
    void *page = mmap(NULL, sizeof *note, PROT_READ | PROT_WRITE, MAP_SHARED, atoi(fd), 0);
    if (page == MAP_FAILED) abort();
    note = page;
    number = strtoul(n, NULL, 10);
    of_threads = what && !strcmp(what, "threads");
}

static int is_refused(int for_thread) {
    if (for_thread != of_threads) return 0;
    if (__atomic_add_fetch(&note->asked, 1, __ATOMIC_SEQ_CST) != number) return 0;
    note->refused = 1;
    errno = ENOMEM;
    return 1;
}

void *malloc(size_t size) { return is_refused(0) ? NULL : __libc_malloc(size); }
void *calloc(size_t count, size_t size) { return is_refused(0) ? NULL : __libc_calloc(count, size); }
void *realloc(void *at, size_t size) { return is_refused(0) ? NULL : __libc_realloc(at, size); }

int pthread_create(pthread_t *made, const pthread_attr_t *how, void *(*begin)(void *), void *with) {
    return is_refused(1) ? EAGAIN : ((create *)dlsym(RTLD_NEXT, "pthread_create"))(made, how, begin, with);
}
