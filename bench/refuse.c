/* Refuses one allocation of a program: with REFUSE=n in its environment the n-th call of malloc or realloc gives none.
   At its end it writes to standard error how many calls there were. To be loaded by LD_PRELOAD. */
#include <errno.h>
#include <stdio.h>
#include <stdlib.h>
#include <sys/syscall.h>
#include <unistd.h>

extern void *__libc_malloc(size_t);
extern void *__libc_realloc(void *, size_t);

static unsigned long calls, refused;

__attribute__((constructor)) static void begin(void) {
    const char *text = getenv("REFUSE");
    calls = 0;
    refused = text ? strtoul(text, NULL, 10) : 0;
}

__attribute__((destructor)) static void end(void) {
    fprintf(stderr, "allocations %lu\n", calls);
}

/* A program that may start threads ends by this call, which passes over destructors. */
void _exit(int status) {
    end();
    syscall(SYS_exit_group, status);
    __builtin_unreachable();
}

static int is_refused(void) {
    if (__atomic_add_fetch(&calls, 1, __ATOMIC_RELAXED) != refused) return 0;
    errno = ENOMEM;
    return 1;
}

void *malloc(size_t size) {
    return is_refused() ? NULL : __libc_malloc(size);
}

void *realloc(void *old, size_t size) {
    return is_refused() ? NULL : __libc_realloc(old, size);
}
