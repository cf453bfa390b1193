/* Loaded into a program, this refuses some of its allocations: those from REFUSE_FROM to REFUSE_TO, counted from 1.
 * At the end it writes to the file REFUSE_TOLD how many allocations there were. A program with threads ends by _exit,
 * which runs no destructor; so that is taken over too. If the file REFUSE_SHARED is named, the count and the two numbers
 * stand there while the program runs, 64 bits each: see guards/refused_logs.py. */
#define _GNU_SOURCE
#include <fcntl.h>
#include <stddef.h>
#include <stdint.h>
#include <stdio.h>
#include <stdlib.h>
#include <sys/mman.h>
#include <sys/syscall.h>
#include <unistd.h>

void *__libc_malloc(size_t size);
void *__libc_realloc(void *block, size_t size);

struct numbers {
    int64_t asked, from, to;
};

static struct numbers own;
static volatile struct numbers *numbers = &own;

__attribute__((constructor)) static void begin(void)
{
    const char *first = getenv("REFUSE_FROM"), *last = getenv("REFUSE_TO"), *path = getenv("REFUSE_SHARED");
    own.from = first ? atol(first) : 0;
    own.to = last ? atol(last) : 0;
    own.asked = 0;
    if (path) {
        int file = open(path, O_RDWR);
        void *found = file < 0 ? MAP_FAILED : mmap(0, sizeof own, PROT_READ | PROT_WRITE, MAP_SHARED, file, 0);
        if (found == MAP_FAILED)
            abort();
        numbers = found;
        numbers->asked = 0;
        close(file);
    }
}

static int is_refused(void)
{
    int64_t number = __atomic_add_fetch(&numbers->asked, 1, __ATOMIC_SEQ_CST);
    return numbers->from <= number && number <= numbers->to;
}

void *malloc(size_t size)
{
    return is_refused() ? NULL : __libc_malloc(size);
}

void *realloc(void *block, size_t size)
{
    return is_refused() ? NULL : __libc_realloc(block, size);
}

/* Tells the count, and gives the status, or 3 where it couldn't be told. */
static int tell(int status)
{
    char text[32];
    const char *path = getenv("REFUSE_TOLD");
    int file = path ? open(path, O_WRONLY | O_CREAT | O_TRUNC, 0600) : -1;
    if (file >= 0) {
        int size = snprintf(text, sizeof text, "%lld\n", (long long)numbers->asked);
        if (write(file, text, size) != size)
            status = 3;
        close(file);
    }
    return status;
}

__attribute__((destructor)) static void end(void)
{
    if (tell(0) != 0)
        syscall(SYS_exit_group, 3);
}

void _exit(int status)
{
    status = tell(status);
    for (;;)
        syscall(SYS_exit_group, status);
}
