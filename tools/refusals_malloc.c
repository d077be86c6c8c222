// Refuses memory and threads to the program for which this library is preloaded (by tools/refusals, and by a case of tools/serving). It
// counts the calls of malloc and realloc that stand in the program itself, not in its libraries, from 1 and over all threads. REFUSE is
// CALL:TIMES:THREAD. From that call on, so many calls return NULL; and that thread, counted from 1, isn't started. With :WRITES behind it,
// a thread whose write has failed is refused its next call, as long as so many haven't been. The file REFUSE_COUNTS is mapped, so it has
// three numbers of 64 bits however the program ends: the calls, how much was refused, and the threads that the program asked for.
#define _GNU_SOURCE
#include <dlfcn.h>
#include <errno.h>
#include <fcntl.h>
#include <pthread.h>
#include <stdint.h>
#include <stdio.h>
#include <stdlib.h>
#include <sys/auxv.h>
#include <sys/mman.h>
#include <unistd.h>

// The function of this name that this library's own stands before.
#define REAL(name) \
    static __typeof__(&name) real; \
    if (!real) \
        real = dlsym(RTLD_NEXT, #name)

enum { CALLS, REFUSED, THREADS };

static _Atomic uint64_t *counts;
static unsigned long refused_call, times, refused_thread, writes;
// Whether the next call of this thread is refused.
static _Thread_local int has_failed;
static Dl_info program;

__attribute__((constructor)) static void begin(void) {
    sscanf(getenv("REFUSE"), "%lu:%lu:%lu:%lu", &refused_call, &times, &refused_thread, &writes);
    int file = open(getenv("REFUSE_COUNTS"), O_RDWR);
    counts = mmap(NULL, 3 * sizeof *counts, PROT_READ | PROT_WRITE, MAP_SHARED, file, 0);
    close(file);
    dladdr((void *)getauxval(AT_ENTRY), &program);
}

static int is_refused(void *caller) {
    Dl_info object;
    if (!program.dli_fbase || !dladdr(caller, &object) || object.dli_fbase != program.dli_fbase)
        return 0;
    uint64_t call = ++counts[CALLS];
    if (!has_failed && (call < refused_call || call - refused_call >= times))
        return 0;
    has_failed = 0;
    counts[REFUSED]++;
    errno = ENOMEM;
    return 1;
}

void *malloc(size_t size) {
    REAL(malloc);
    return is_refused(__builtin_return_address(0)) ? NULL : real(size);
}

void *realloc(void *old, size_t size) {
    REAL(realloc);
    return is_refused(__builtin_return_address(0)) ? NULL : real(old, size);
}

int pthread_create(pthread_t *thread, const pthread_attr_t *attributes, void *(*begin)(void *), void *given) {
    REAL(pthread_create);
    if (++counts[THREADS] != refused_thread)
        return real(thread, attributes, begin, given);
    counts[REFUSED]++;
    return EAGAIN;
}

ssize_t write(int file, const void *bytes, size_t size) {
    REAL(write);
    ssize_t written = real(file, bytes, size);
    if (written < 0 && counts && counts[REFUSED] < writes)
        has_failed = 1;
    return written;
}
