/* Loaded into a program, this lets each greater read of a file take 60 milliseconds. */
#define _GNU_SOURCE
#include <sys/stat.h>
#include <sys/syscall.h>
#include <unistd.h>

ssize_t read(int file, void *into, size_t count) {
    struct stat found;
    if (count >= 4096 && fstat(file, &found) == 0 && S_ISREG(found.st_mode)) usleep(60000);
    return syscall(SYS_read, file, into, count);
}
