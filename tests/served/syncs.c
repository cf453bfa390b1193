/* Loaded into a program, this tells of its calls of fdatasync and fsync, and can hold them or let them fail. The file
 * SYNCS is shared: see syncs.py. */
#define _GNU_SOURCE
#include <errno.h>
#include <fcntl.h>
#include <stdint.h>
#include <stdlib.h>
#include <sys/mman.h>
#include <sys/stat.h>
#include <sys/syscall.h>
#include <unistd.h>

#define ROWS 64

static volatile struct {
    int64_t begun, done;       /* how many calls have begun, and how many have ended well */
    int64_t hold;              /* while this isn't 0 calls wait */
    int64_t fail;              /* while this isn't 0 calls fail, and nothing is synced */
    struct { int64_t file, size, last; } rows[ROWS];  /* which bytes of a file, by its inode, are kept, and by which call */
} *shared;

__attribute__((constructor)) static void find_shared(void) {
    int file = open(getenv("SYNCS"), O_RDWR);
    void *found = file < 0 ? MAP_FAILED : mmap(0, sizeof *shared, PROT_READ | PROT_WRITE, MAP_SHARED, file, 0);
    if (found == MAP_FAILED) abort();
    shared = found;
    close(file);
}

static void note(const struct stat *kept) {
    for (int place = 0; place < ROWS; place++) {
        if (shared->rows[place].file == 0) shared->rows[place].file = (int64_t)kept->st_ino;
        if (shared->rows[place].file != (int64_t)kept->st_ino) continue;
        shared->rows[place].size = kept->st_size;
        shared->rows[place].last = __atomic_add_fetch(&shared->done, 1, __ATOMIC_SEQ_CST);
        return;
    }
    abort();
}

static int sync_by(long call, int file) {
    struct stat before;
    /* what is written while the call lasts need not be kept by it */
    int found = fstat(file, &before);
    __atomic_add_fetch(&shared->begun, 1, __ATOMIC_SEQ_CST);
    while (shared->hold) usleep(1000);
    if (shared->fail) {
        errno = EIO;
        return -1;
    }
    int done = (int)syscall(call, file);
    if (done == 0 && found == 0) note(&before);
    return done;
}

int fdatasync(int file) { return sync_by(SYS_fdatasync, file); }
int fsync(int file) { return sync_by(SYS_fsync, file); }
