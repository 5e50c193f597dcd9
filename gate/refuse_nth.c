/* A library that stands before a program and refuses it one allocation: the one whose number is in REFUSE_NTH, counted
 * from the program's start. Where it refuses one it writes to file descriptor 3.
 *
 *     cc -O2 -shared -fPIC -o refuse_nth.so refuse_nth.c
 *     REFUSE_NTH=7 LD_PRELOAD=./refuse_nth.so PROGRAM 3> refused
 */
#include <stdatomic.h>
#include <stdlib.h>
#include <unistd.h>

extern void *__libc_malloc(size_t size);
extern void *__libc_realloc(void *old, size_t size);

static atomic_long left = -1;

__attribute__((constructor)) static void begin(void) {
    const char *number = getenv("REFUSE_NTH");
    left = number ? atol(number) : -1;
}

static int is_refused(void) {
    if (atomic_fetch_sub(&left, 1) != 1) {
        return 0;
    }
    return write(3, "refused\n", 8) != 0;
}

void *malloc(size_t size) {
    return is_refused() ? NULL : __libc_malloc(size);
}

void *realloc(void *old, size_t size) {
    return is_refused() ? NULL : __libc_realloc(old, size);
}
