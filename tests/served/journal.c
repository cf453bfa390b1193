/* Loaded into a program, this tells in the file JOURNAL of each change of a file, and of each sync. With JOURNAL_ENDS=N
 * the program is killed once it has told of so many. Several programs may share a journal: see journal.py. */
#define _GNU_SOURCE
#include <fcntl.h>
#include <pthread.h>
#include <signal.h>
#include <stdarg.h>
#include <stdint.h>
#include <stdlib.h>
#include <string.h>
#include <sys/file.h>
#include <sys/stat.h>
#include <sys/syscall.h>
#include <sys/uio.h>
#include <unistd.h>

enum kind { NAMED, WRITTEN, CUT, SYNCED, RENAMED, REMOVED };

static pthread_mutex_t mutex = PTHREAD_MUTEX_INITIALIZER;
static int journal = -1;
static long left = -1;

__attribute__((constructor)) static void open_journal(void) {
    journal = (int)syscall(SYS_openat, AT_FDCWD, getenv("JOURNAL"), O_WRONLY | O_APPEND | O_CREAT | O_CLOEXEC, 0600);
    if (journal < 0) abort();
    if (getenv("JOURNAL_ENDS")) left = atol(getenv("JOURNAL_ENDS"));
}

/* The changes of all programs stand in the order in which they were made. */
static void begin(void) {
    pthread_mutex_lock(&mutex);
    flock(journal, LOCK_EX);
}

static void end(void) {
    flock(journal, LOCK_UN);
    pthread_mutex_unlock(&mutex);
}

static void note(enum kind kind, ino_t file, off_t at, const void *data, size_t size) {
    int64_t row[4] = {kind, (int64_t)file, at, (int64_t)size};
    struct iovec parts[2] = {{row, sizeof row}, {(void *)data, size}};
    if (syscall(SYS_writev, journal, parts, 2) != (long)(sizeof row + size)) abort();
    if (left > 0 && --left == 0) kill(getpid(), SIGKILL);
}

static int is_kept(int file, struct stat *found) {
    return fstat(file, found) == 0 && (S_ISREG(found->st_mode) || S_ISDIR(found->st_mode));
}

int open(const char *path, int flags, ...) {
    va_list rest;
    va_start(rest, flags);
    int mode = flags & O_CREAT ? va_arg(rest, int) : 0;
    va_end(rest);
    if (!(flags & (O_CREAT | O_TRUNC))) return (int)syscall(SYS_openat, AT_FDCWD, path, flags, mode);
    struct stat found;
    begin();
    int was_there = access(path, F_OK) == 0;
    int file = (int)syscall(SYS_openat, AT_FDCWD, path, flags, mode);
    if (file >= 0 && is_kept(file, &found)) {
        if (!was_there) note(NAMED, found.st_ino, 0, path, strlen(path));
        if (was_there && flags & O_TRUNC) note(CUT, found.st_ino, 0, NULL, 0);
    }
    end();
    return file;
}

ssize_t write(int file, const void *data, size_t size) {
    struct stat found;
    if (!is_kept(file, &found)) return syscall(SYS_write, file, data, size);
    begin();
    ssize_t done = syscall(SYS_write, file, data, size);
    if (done > 0) note(WRITTEN, found.st_ino, lseek(file, 0, SEEK_CUR) - done, data, (size_t)done);
    end();
    return done;
}

int ftruncate(int file, off_t size) {
    struct stat found;
    begin();
    int done = (int)syscall(SYS_ftruncate, file, size);
    if (done == 0 && is_kept(file, &found)) note(CUT, found.st_ino, size, NULL, 0);
    end();
    return done;
}

static int sync_by(long call, int file) {
    struct stat found;
    begin();
    int done = (int)syscall(call, file);
    if (done == 0 && is_kept(file, &found)) note(SYNCED, found.st_ino, 0, NULL, 0);
    end();
    return done;
}

int fdatasync(int file) { return sync_by(SYS_fdatasync, file); }
int fsync(int file) { return sync_by(SYS_fsync, file); }

/* Of the two names the first one is told as the data, and the other one behind it. */
int rename(const char *from, const char *to) {
    begin();
    int done = (int)syscall(SYS_renameat2, AT_FDCWD, from, AT_FDCWD, to, 0);
    if (done == 0) {
        char names[2 * 4096 + 2];
        size_t first = strlen(from) + 1, second = strlen(to);
        if (first + second > sizeof names) abort();
        memcpy(names, from, first);
        memcpy(names + first, to, second);
        note(RENAMED, 0, 0, names, first + second);
    }
    end();
    return done;
}

int unlink(const char *path) {
    begin();
    int done = (int)syscall(SYS_unlinkat, AT_FDCWD, path, 0);
    if (done == 0) note(REMOVED, 0, 0, path, strlen(path));
    end();
    return done;
}
