// A device below one file, for tests/edge.py: what was synced, and what only memory has. It is loaded before the C library
// (LD_PRELOAD), so that a program's calls on the file come here first.
//
// The file itself is what memory has. EDGE_STATE is a folder with `device`, what the device has, and `dirty`, a byte for each page that
// was written since. A sync copies the dirty pages to the device. One that fails copies none, and the pages count as written all the
// same, as Linux has it: a later sync leaves them out.
//
// EDGE_FILE names the file. EDGE_FAIL is the number of the sync, from 1, from which on each fails; EDGE_DIE that of one that fails, and
// inside of which the process is killed; EDGE_STOP that of the sync behind which it is killed. EDGE_FOLDER is the error of each sync of a
// folder. EDGE_INTERRUPT is a call that fails once as interrupted, and EDGE_MOST how many bytes each write to the standard output takes.
// EDGE_BLOCK makes the file a block device, of which the system tells no length. `log` in the folder has a line for each sync.
#define _GNU_SOURCE
#include <dlfcn.h>
#include <errno.h>
#include <fcntl.h>
#include <signal.h>
#include <stdio.h>
#include <stdlib.h>
#include <string.h>
#include <sys/stat.h>
#include <unistd.h>

#define PAGE 4096

static int syncs;

static long number(const char *name) {
    const char *text = getenv(name);
    return text ? atol(text) : 0;
}

static int in_state(const char *name, int flags) {
    char path[4096];
    snprintf(path, sizeof path, "%s/%s", getenv("EDGE_STATE"), name);
    return open(path, flags | O_CREAT | O_CLOEXEC, 0600);
}

static int is_file(int fd) {
    struct stat one, other;
    return fstat(fd, &one) == 0 && stat(getenv("EDGE_FILE"), &other) == 0 && one.st_dev == other.st_dev && one.st_ino == other.st_ino;
}

static ssize_t real_pwrite(int fd, const void *bytes, size_t n, off64_t at) {
    static ssize_t (*real)(int, const void *, size_t, off64_t);
    if (!real)
        real = dlsym(RTLD_NEXT, "pwrite64");
    return real(fd, bytes, n, at);
}

static int interrupts(const char *call) {
    static int done;
    const char *named = getenv("EDGE_INTERRUPT");
    if (done || !named || strcmp(named, call))
        return 0;
    done = 1;
    errno = EINTR;
    return 1;
}

static void say(const char *what, int fd) {
    char path[4096], link[64];
    snprintf(link, sizeof link, "/proc/self/fd/%d", fd);
    ssize_t n = readlink(link, path, sizeof path - 1);
    path[n < 0 ? 0 : n] = 0;
    int log = in_state("log", O_WRONLY | O_APPEND);
    dprintf(log, "%s %s\n", what, path);
    close(log);
}

ssize_t pwrite64(int fd, const void *bytes, size_t n, off64_t at) {
    ssize_t put = real_pwrite(fd, bytes, n, at);
    if (put > 0 && is_file(fd)) {
        int dirty = in_state("dirty", O_WRONLY);
        for (off64_t page = at / PAGE; page * PAGE < at + put; page++)
            real_pwrite(dirty, "\1", 1, page);
        close(dirty);
    }
    return put;
}

ssize_t pwrite(int fd, const void *bytes, size_t n, off_t at) { return pwrite64(fd, bytes, n, at); }

// Takes the dirty pages as written, and copies them to the device where it does not fail. Answers whether there was one.
static int settle(int fd, int fails) {
    int dirty = in_state("dirty", O_RDWR), device = in_state("device", O_WRONLY), some = 0;
    char mark, bytes[PAGE];
    for (off64_t page = 0; pread64(dirty, &mark, 1, page) == 1; page++) {
        if (!mark)
            continue;
        some = 1;
        real_pwrite(dirty, "\0", 1, page);
        ssize_t n = pread64(fd, bytes, PAGE, page * PAGE);
        if (!fails && n > 0)
            real_pwrite(device, bytes, n, page * PAGE);
    }
    close(dirty);
    close(device);
    return some;
}

int fdatasync(int fd) {
    if (!is_file(fd))
        return 0;
    syncs++;
    say("fdatasync", fd);
    int dies = syncs == number("EDGE_DIE"), fails = dies || (number("EDGE_FAIL") && syncs >= number("EDGE_FAIL"));
    int failed = settle(fd, fails) && fails;
    if (dies)
        raise(SIGKILL);
    if (failed) {
        errno = EIO;
        return -1;
    }
    if (syncs == number("EDGE_STOP"))
        raise(SIGKILL);
    return 0;
}

int fsync(int fd) {
    say("fsync", fd);
    errno = number("EDGE_FOLDER");
    return errno ? -1 : 0;
}

int statx(int folder, const char *path, int flags, unsigned mask, struct statx *found) {
    static int (*real)(int, const char *, int, unsigned, struct statx *);
    if (!real)
        real = dlsym(RTLD_NEXT, "statx");
    if (interrupts("statx"))
        return -1;
    int status = real(folder, path, flags, mask, found);
    if (status == 0 && number("EDGE_BLOCK") && *path == 0) {
        found->stx_mode = (found->stx_mode & ~S_IFMT) | S_IFBLK;
        found->stx_size = 0;
    }
    return status;
}

ssize_t read(int fd, void *bytes, size_t n) {
    static ssize_t (*real)(int, void *, size_t);
    if (!real)
        real = dlsym(RTLD_NEXT, "read");
    return fd == 0 && interrupts("read") ? -1 : real(fd, bytes, n);
}

ssize_t write(int fd, const void *bytes, size_t n) {
    static ssize_t (*real)(int, const void *, size_t);
    if (!real)
        real = dlsym(RTLD_NEXT, "write");
    if (fd == 1 && interrupts("write"))
        return -1;
    if (fd == 1 && getenv("EDGE_MOST")) {
        size_t most = number("EDGE_MOST");
        n = n < most ? n : most;
        return n ? real(fd, bytes, n) : 0;
    }
    return real(fd, bytes, n);
}
