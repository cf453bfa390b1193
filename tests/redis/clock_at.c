/* Loaded into a program, this has its wall clock stand still at the milliseconds since 1970 that are in the file
 * CLOCK_AT, as a number of 64 bits, at that moment. Other clocks stay as they are. */
#define _GNU_SOURCE
#include <fcntl.h>
#include <stdint.h>
#include <stdlib.h>
#include <sys/mman.h>
#include <sys/syscall.h>
#include <sys/time.h>
#include <time.h>
#include <unistd.h>

static volatile int64_t none = 0;
static volatile int64_t *moment = &none;

__attribute__((constructor)) static void find_moment(void) {
    int file = open(getenv("CLOCK_AT"), O_RDONLY);
    void *found = file < 0 ? MAP_FAILED : mmap(0, sizeof *moment, PROT_READ, MAP_SHARED, file, 0);
    if (found == MAP_FAILED) abort();
    moment = found;
    close(file);
}

int clock_gettime(clockid_t clock, struct timespec *now) {
    if (clock != CLOCK_REALTIME) return syscall(SYS_clock_gettime, clock, now);
    int64_t at = *moment;
    *now = (struct timespec){at / 1000, at % 1000 * 1000000};
    return 0;
}

int gettimeofday(struct timeval *restrict now, void *restrict zone) {
    (void)zone;
    int64_t at = *moment;
    *now = (struct timeval){at / 1000, at % 1000 * 1000};
    return 0;
}
