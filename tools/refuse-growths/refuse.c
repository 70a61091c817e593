// Refuses one growth of the program that loads it by LD_PRELOAD, or all of one thread from one growth on.
//
//   REFUSED_GROWTH  a file that begins with one `struct order`, which the tool maps too
//
// Growths are calls of malloc, calloc, realloc, aligned_alloc and posix_memalign. All others pass as they are.
#define _GNU_SOURCE
#include <errno.h>
#include <fcntl.h>
#include <stdint.h>
#include <stdlib.h>
#include <sys/mman.h>
#include <sys/syscall.h>
#include <unistd.h>

extern void *__libc_malloc(size_t);
extern void *__libc_calloc(size_t, size_t);
extern void *__libc_realloc(void *, size_t);
extern void *__libc_memalign(size_t, size_t);

struct order {
    int64_t at;      // the growth that is refused, counted from when the tool set it; 0: none
    int64_t counted; // so many came since
    int64_t refused; // so many were refused
    int32_t holds;   // the thread of that growth is refused all others too, until this is 0
    int32_t thread;  // that thread
};

static struct order *order;

__attribute__((constructor)) static void begin(void) {
    const char *path = getenv("REFUSED_GROWTH");
    if (!path) return;
    int file = (int)syscall(SYS_openat, AT_FDCWD, path, O_RDWR | O_CLOEXEC, 0);
    if (file < 0) return;
    void *mapped = mmap(0, sizeof(struct order), PROT_READ | PROT_WRITE, MAP_SHARED, file, 0);
    if (mapped != MAP_FAILED) order = mapped;
    syscall(SYS_close, file);
}

static int is_refused(void) {
    if (!order) return 0;
    int64_t at = __atomic_load_n(&order->at, __ATOMIC_SEQ_CST);
    if (!at) return 0;
    int is_it = __atomic_add_fetch(&order->counted, 1, __ATOMIC_SEQ_CST) == at;
    int holds = __atomic_load_n(&order->holds, __ATOMIC_SEQ_CST);
    if (is_it && holds) __atomic_store_n(&order->thread, (int32_t)syscall(SYS_gettid), __ATOMIC_SEQ_CST);
    if (!is_it && !(holds && __atomic_load_n(&order->thread, __ATOMIC_SEQ_CST) == (int32_t)syscall(SYS_gettid))) return 0;
    __atomic_add_fetch(&order->refused, 1, __ATOMIC_SEQ_CST);
    errno = ENOMEM;
    return 1;
}

void *malloc(size_t n) { return is_refused() ? 0 : __libc_malloc(n); }
void *calloc(size_t n, size_t m) { return is_refused() ? 0 : __libc_calloc(n, m); }
void *realloc(void *p, size_t n) { return is_refused() ? 0 : __libc_realloc(p, n); }
void *aligned_alloc(size_t a, size_t n) { return is_refused() ? 0 : __libc_memalign(a, n); }
int posix_memalign(void **p, size_t a, size_t n) {
    if (is_refused()) return ENOMEM;
    *p = __libc_memalign(a, n);
    return *p ? 0 : ENOMEM;
}
