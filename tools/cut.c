// Kills the program that it is preloaded into before one call that changes a file or makes sure of it.
//
//   cc -shared -fPIC -O2 -o cut.so cut.c
//   CUT=N LD_PRELOAD=./cut.so PROGRAM
//
// Calls are those of pwrite, fsync and fdatasync, numbered from 1. The program ends with SIGKILL before the
// N-th. 0 kills none. With CUT_SYNCS=lie the calls of fsync and fdatasync do nothing and return success.

#define _GNU_SOURCE
#include <dlfcn.h>
#include <signal.h>
#include <stdlib.h>
#include <string.h>
#include <sys/types.h>
#include <unistd.h>

typedef ssize_t writing(int, const void *, size_t, off64_t);
typedef int syncing(int);

// Whether a call of a sync is to be made.
static int meets_cut(void) {
    static unsigned long made;
    const char *cut = getenv("CUT"), *syncs = getenv("CUT_SYNCS");
    if (cut && __atomic_add_fetch(&made, 1, __ATOMIC_SEQ_CST) == strtoul(cut, NULL, 10)) {
        kill(getpid(), SIGKILL);
        pause();
    }
    return !(syncs && !strcmp(syncs, "lie"));
}

ssize_t pwrite64(int file, const void *bytes, size_t count, off64_t at) {
    meets_cut();
    return ((writing *)dlsym(RTLD_NEXT, "pwrite64"))(file, bytes, count, at);
}

ssize_t pwrite(int file, const void *bytes, size_t count, off_t at) {
    meets_cut();
    return ((writing *)dlsym(RTLD_NEXT, "pwrite64"))(file, bytes, count, at);
}

int fsync(int file) { return meets_cut() ? ((syncing *)dlsym(RTLD_NEXT, "fsync"))(file) : 0; }

int fdatasync(int file) { return meets_cut() ? ((syncing *)dlsym(RTLD_NEXT, "fdatasync"))(file) : 0; }
