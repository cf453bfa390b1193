/* Loaded into a program, this lets it take 100 microseconds longer to make a socket non-blocking, and in threads that
   never do that up to 250 to move a few bytes. */
#define _GNU_SOURCE
#include <stdarg.h>
#include <stddef.h>
#include <stdlib.h>
#include <sys/ioctl.h>
#include <sys/syscall.h>
#include <time.h>
#include <unistd.h>

static __thread int looks;
static __thread unsigned seed;

static long now(void) {
    struct timespec moment;
    clock_gettime(CLOCK_MONOTONIC, &moment);
    return moment.tv_sec * 1000000000L + moment.tv_nsec;
}

static void spin(long nanoseconds) {
    for (long end = now() + nanoseconds; now() < end;) {}
}

void *memmove(void *into, const void *from, size_t count) {
    unsigned char *to = into;
    const unsigned char *of = from;
    if (!looks && count <= 8) spin((rand_r(&seed) % 64) * 4000L);
    if (to < of)
        for (size_t i = 0; i < count; i++) { to[i] = of[i]; __asm__ volatile(""); }
    else
        for (size_t i = count; i > 0; i--) { to[i - 1] = of[i - 1]; __asm__ volatile(""); }
    return into;
}

int ioctl(int file, unsigned long request, ...) {
    va_list more;
    va_start(more, request);
    int *flag = va_arg(more, int *);
    va_end(more);
    int done = syscall(SYS_ioctl, file, request, flag);
    if (request == FIONBIO) looks = 1;
    if (request == FIONBIO && *flag) spin(100000);
    return done;
}
