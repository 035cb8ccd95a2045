/* Loaded before the program. It syncs nothing; SYNC_LOG names a file where syncs and prints are written down, and
   SYNC_FAILS is the sync that fails, from 1. INPUT says how standard input is read: 'slow' a byte at a time, with an
   interruption before each, 'broken' so and failing at the tenth byte, 'endless' as spaces that never end. SLOW and
   SLOW_READS are how many microseconds each write and each read at a place of a file takes by the program's clock,
   which begins at zero and stands still otherwise: nobody waits for it. WRITE_FAILS is the first of these writes that
   fails, as all behind it do. At the write of the number STOP_WRITE the program stops until it is told to go on, and at
   that of KILL_WRITE it is killed with half of the bytes written. WRITE_ROOM is how many bytes are written until one
   write fails for want of room; those behind it go well. Of the write of the number SPOIL_WRITE the last byte is another
   one. ALLOC_FAILS is the allocation that fails, from 1, and
   ALLOC_LOG names a file that is made when it does. */
#define _GNU_SOURCE
#include <dlfcn.h>
#include <errno.h>
#include <fcntl.h>
#include <signal.h>
#include <stdio.h>
#include <stdlib.h>
#include <string.h>
#include <sys/syscall.h>
#include <time.h>
#include <unistd.h>

static ssize_t real_write(int fd, const void *bytes, size_t count) {
    static ssize_t (*next)(int, const void *, size_t);
    if (!next) next = (ssize_t (*)(int, const void *, size_t))dlsym(RTLD_NEXT, "write");
    return next(fd, bytes, count);
}

static ssize_t real_read(int fd, void *bytes, size_t count) {
    static ssize_t (*next)(int, void *, size_t);
    if (!next) next = (ssize_t (*)(int, void *, size_t))dlsym(RTLD_NEXT, "read");
    return next(fd, bytes, count);
}

static ssize_t failed(int error) {
    errno = error;
    return -1;
}

static void note(const char *what, const char *name) {
    const char *log = getenv("SYNC_LOG");
    char line[4200];
    if (!log) return;
    int fd = open(log, O_WRONLY | O_APPEND | O_CREAT, 0644);
    int length = snprintf(line, sizeof line, "%s %s\n", what, name);
    if (fd >= 0) {
        real_write(fd, line, (size_t)length);
        close(fd);
    }
}

static int synced(int fd) {
    static int count;
    char link[64], path[4096];
    snprintf(link, sizeof link, "/proc/self/fd/%d", fd);
    ssize_t length = readlink(link, path, sizeof path - 1);
    path[length < 0 ? 0 : length] = 0;
    const char *slash = strrchr(path, '/');
    note("sync", slash ? slash + 1 : path);
    const char *fails = getenv("SYNC_FAILS");
    return fails && ++count == atoi(fails) ? (int)failed(EIO) : 0;
}

int fsync(int fd) { return synced(fd); }

int fdatasync(int fd) { return synced(fd); }

ssize_t write(int fd, const void *bytes, size_t count) {
    if (fd == 1 || fd == 2) note("print", fd == 1 ? "out" : "err");
    return real_write(fd, bytes, count);
}

ssize_t read(int fd, void *bytes, size_t count) {
    static int calls;
    const char *input = getenv("INPUT");
    if (fd != 0 || !input || count == 0) return real_read(fd, bytes, count);
    if (!strcmp(input, "endless")) {
        *(char *)bytes = ' ';
        return 1;
    }
    if (++calls % 2) return failed(EINTR);
    return !strcmp(input, "broken") && calls == 20 ? failed(EIO) : real_read(fd, bytes, 1);
}

static long long microseconds;

static void take(const char *slow) {
    if (slow) microseconds += atoll(slow);
}

int clock_gettime(clockid_t clock, struct timespec *time) {
    if (!getenv("SLOW") && !getenv("SLOW_READS")) return (int)syscall(SYS_clock_gettime, clock, time);
    time->tv_sec = microseconds / 1000000;
    time->tv_nsec = microseconds % 1000000 * 1000;
    return 0;
}

/* How many of the bytes there is room for; none where there is none, once. */
static size_t roomy(size_t count) {
    static int is_known, has_failed;
    static size_t left;
    const char *room = getenv("WRITE_ROOM");
    if (!room || has_failed) return count;
    if (!is_known) left = (size_t)atoll(room);
    is_known = 1;
    if (count > left) count = left;
    left -= count;
    has_failed = count == 0;
    return count;
}

static int is_numbered(const char *name, int number) {
    const char *text = getenv(name);
    return text && atoi(text) == number;
}

ssize_t pwrite(int fd, const void *bytes, size_t count, off_t place) {
    static ssize_t (*next)(int, const void *, size_t, off_t);
    static int writes;
    const char *fails = getenv("WRITE_FAILS");
    if (!next) next = (ssize_t (*)(int, const void *, size_t, off_t))dlsym(RTLD_NEXT, "pwrite");
    take(getenv("SLOW"));
    ++writes;
    if (is_numbered("STOP_WRITE", writes)) raise(SIGSTOP);
    if (is_numbered("KILL_WRITE", writes)) {
        next(fd, bytes, count / 2, place);
        raise(SIGKILL);
    }
    if (fails && writes >= atoi(fails)) return failed(EIO);
    size_t size = roomy(count);
    if (size == 0 && count > 0) return failed(ENOSPC);
    ssize_t done = next(fd, bytes, size, place);
    if (done > 0 && is_numbered("SPOIL_WRITE", writes)) {
        char last = ((const char *)bytes)[done - 1] ^ 1;
        next(fd, &last, 1, place + done - 1);
    }
    return done;
}

ssize_t pread(int fd, void *bytes, size_t count, off_t place) {
    static ssize_t (*next)(int, void *, size_t, off_t);
    if (!next) next = (ssize_t (*)(int, void *, size_t, off_t))dlsym(RTLD_NEXT, "pread");
    take(getenv("SLOW_READS"));
    return next(fd, bytes, count, place);
}

ssize_t pread64(int fd, void *bytes, size_t count, off64_t place) { return pread(fd, bytes, count, place); }

ssize_t pwrite64(int fd, const void *bytes, size_t count, off64_t place) { return pwrite(fd, bytes, count, place); }

extern void *__libc_malloc(size_t), *__libc_calloc(size_t, size_t), *__libc_realloc(void *, size_t);

static int allocations_left;

__attribute__((constructor)) static void count_allocations(void) {
    const char *fails = getenv("ALLOC_FAILS");
    allocations_left = fails ? atoi(fails) : 0;
}

static int is_refused(void) {
    if (allocations_left == 0 || --allocations_left > 0) return 0;
    const char *log = getenv("ALLOC_LOG");
    int fd = log ? open(log, O_WRONLY | O_CREAT, 0644) : -1;
    if (fd >= 0) close(fd);
    errno = ENOMEM;
    return 1;
}

void *malloc(size_t size) { return is_refused() ? NULL : __libc_malloc(size); }

void *calloc(size_t count, size_t size) { return is_refused() ? NULL : __libc_calloc(count, size); }

void *realloc(void *block, size_t size) { return is_refused() ? NULL : __libc_realloc(block, size); }
