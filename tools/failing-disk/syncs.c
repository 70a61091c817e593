// Holds or fails one sync of some files of the program that loads it by LD_PRELOAD.
//
//   FAILING_FILES  what the paths of these files begin with, as DIR/wal-00 for all three files of worker 0's log
//   FAILING_ORDER  a file that begins with one `struct order`, which the test maps too
//
// All other calls pass as they are.
#define _GNU_SOURCE
#include <errno.h>
#include <fcntl.h>
#include <stdint.h>
#include <stdio.h>
#include <stdlib.h>
#include <string.h>
#include <sys/mman.h>
#include <sys/syscall.h>
#include <time.h>
#include <unistd.h>

enum { HOLD_GATE = 1, FAIL = 2 };

struct order {
    int32_t what;    // 0: nothing
    int32_t skip;    // so many of the syncs that it means pass first
    int32_t seen;    // so many came
    int32_t reached; // 1 from the moment when the one sync is held, or has failed
    int32_t go;      // the test sets it, and the sync that is held goes on
};

#define FILES 4096
static struct order *order;
static const char *begin_of_paths;
static size_t last_write[FILES]; // the bytes of the last write to each descriptor

__attribute__((constructor)) static void begin(void) {
    const char *path = getenv("FAILING_ORDER");
    begin_of_paths = getenv("FAILING_FILES");
    if (!path || !begin_of_paths) return;
    int file = (int)syscall(SYS_openat, AT_FDCWD, path, O_RDWR | O_CLOEXEC, 0);
    if (file < 0) return;
    void *mapped = mmap(0, sizeof(struct order), PROT_READ | PROT_WRITE, MAP_SHARED, file, 0);
    if (mapped != MAP_FAILED) order = mapped;
    syscall(SYS_close, file);
}

static int is_one_of_them(int file) {
    char link[64], path[4096];
    snprintf(link, sizeof link, "/proc/self/fd/%d", file);
    ssize_t length = readlink(link, path, sizeof path - 1);
    if (length < 0) return 0;
    path[length] = 0;
    return !strncmp(path, begin_of_paths, strlen(begin_of_paths));
}

// Whether this sync is the one that the order means.
static int is_meant(int file) {
    if (!order || file < 0 || file >= FILES) return 0;
    int32_t what = __atomic_load_n(&order->what, __ATOMIC_ACQUIRE);
    if (!what || !is_one_of_them(file)) return 0;
    if (what == HOLD_GATE && last_write[file] != 1) return 0; // a gate is one byte
    return __atomic_fetch_add(&order->seen, 1, __ATOMIC_SEQ_CST) == order->skip;
}

static int synced(int file, long call) {
    if (!is_meant(file)) return (int)syscall(call, file);
    __atomic_store_n(&order->reached, 1, __ATOMIC_SEQ_CST);
    if (order->what == FAIL) {
        errno = EIO;
        return -1;
    }
    struct timespec moment = {0, 1000000};
    for (int i = 0; i < 10000 && !__atomic_load_n(&order->go, __ATOMIC_SEQ_CST); i++) nanosleep(&moment, 0);
    return (int)syscall(call, file);
}

int fsync(int file) { return synced(file, SYS_fsync); }
int fdatasync(int file) { return synced(file, SYS_fdatasync); }

static ssize_t written(int file, size_t count, ssize_t done) {
    if (file >= 0 && file < FILES) last_write[file] = count;
    return done;
}

ssize_t write(int file, const void *bytes, size_t count) { return written(file, count, syscall(SYS_write, file, bytes, count)); }
ssize_t pwrite(int file, const void *bytes, size_t count, off_t at) {
    return written(file, count, syscall(SYS_pwrite64, file, bytes, count, at));
}
ssize_t pwrite64(int file, const void *bytes, size_t count, off64_t at) { return pwrite(file, bytes, count, at); }
