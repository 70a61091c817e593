// Counts calls of malloc, calloc and realloc and calls of free, and tells on standard error how many there were, and how many
// of them between the second reading of the clock and the third, the fourth and the fifth and so on: the first one begins a timed run,
// and each pair behind it stands around a period of the lock. What comes behind the last pair counts as none. One thread alone.
// The last number is the most memory that the process had at once, in kilobytes.
#define _GNU_SOURCE
#include <stdatomic.h>
#include <stdbool.h>
#include <stdio.h>
#include <stdlib.h>
#include <sys/resource.h>
#include <sys/syscall.h>
#include <time.h>
#include <unistd.h>

extern void *__libc_malloc(size_t);
extern void *__libc_calloc(size_t, size_t);
extern void *__libc_realloc(void *, size_t);
extern void *__libc_memalign(size_t, size_t);
extern void __libc_free(void *);
static atomic_ulong count, count_held, frees_held, count_now, frees_now;
static atomic_bool began, held;

static void grow(void) { count++; if (held) count_now++; }

void *malloc(size_t n) { grow(); return __libc_malloc(n); }
void *calloc(size_t n, size_t m) { grow(); return __libc_calloc(n, m); }
void *realloc(void *p, size_t n) { grow(); return __libc_realloc(p, n); }
void *aligned_alloc(size_t a, size_t n) { grow(); return __libc_memalign(a, n); }
int posix_memalign(void **p, size_t a, size_t n) { grow(); *p = __libc_memalign(a, n); return *p ? 0 : 12; }
void free(void *p) { if (p && held) frees_now++; __libc_free(p); }

int clock_gettime(clockid_t clock, struct timespec *time)
{
    if (held) { count_held += count_now; frees_held += frees_now; }
    count_now = frees_now = 0;
    if (began) held = !held;
    began = true;
    return (int)syscall(SYS_clock_gettime, clock, time);
}

void _exit(int status)
{
    struct rusage used;
    getrusage(RUSAGE_SELF, &used);
    fprintf(stderr, "%lu %lu %lu %ld\n", (unsigned long)count, (unsigned long)count_held, (unsigned long)frees_held, used.ru_maxrss);
    syscall(SYS_exit_group, status);
    __builtin_unreachable();
}
