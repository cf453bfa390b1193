/* Loaded into a program, this adds seconds to its wall clock: those that stand in the file CLOCK_STEP, as a number of 64
 * bits, at that moment. Other clocks stay as they are. */
#define _GNU_SOURCE
#include <fcntl.h>
#include <stdint.h>
#include <stdlib.h>
#include <sys/mman.h>
#include <sys/syscall.h>
#include <time.h>
#include <unistd.h>

static volatile int64_t none = 0;
static volatile int64_t *step = &none;

__attribute__((constructor)) static void find_step(void) {
    int file = open(getenv("CLOCK_STEP"), O_RDONLY);
    void *found = file < 0 ? MAP_FAILED : mmap(0, sizeof *step, PROT_READ, MAP_SHARED, file, 0);
    if (found == MAP_FAILED) abort();
    step = found;
    close(file);
}

int clock_gettime(clockid_t clock, struct timespec *now) {
    int done = syscall(SYS_clock_gettime, clock, now);
    if (done == 0 && clock == CLOCK_REALTIME) now->tv_sec += *step;
    return done;
}
