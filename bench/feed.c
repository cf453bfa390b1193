/* Feeds a file of requests to a Redis server on a Unix socket, as fast as it takes them, and reads the replies.
 *
 *     feed SOCKET FILE COUNT
 *
 * At most 1,000 requests or so are sent ahead of their replies. It ends once COUNT replies came. A reply is passed
 * over by its counts, so that large ones cost little here.
 * On standard output it writes how many of the replies were errors. */
#include <errno.h>
#include <fcntl.h>
#include <poll.h>
#include <stdio.h>
#include <stdlib.h>
#include <string.h>
#include <sys/mman.h>
#include <sys/socket.h>
#include <sys/stat.h>
#include <sys/un.h>
#include <unistd.h>

/* How many requests may be sent whose replies haven't come: a server holds what isn't read yet. */
enum { DEPTH = 1000 };

/* Where a list of counted parts stands, be it replies or requests. */
struct replies {
    long whole;     /* those that came whole */
    long errors;    /* how many of them were errors */
    long parts;     /* parts of this one that are still to come */
    long skip;      /* bytes of a bulk string that are still to come */
    char line[64];  /* a header that isn't whole; longer lines are cut */
    size_t held;
};

static void fail(const char *what)
{
    perror(what);
    exit(1);
}

/* A line came whole: it is a part, and says what follows it. */
static void take_line(struct replies *r)
{
    long count = strtol(r->line + 1, NULL, 10);
    if (r->parts == 0)
        r->parts = 1;
    r->parts--;
    if (r->line[0] == '$' && count >= 0)
        r->skip = count + 2;
    if (r->line[0] == '*' && count > 0)
        r->parts += count;
    if (r->line[0] == '-')
        r->errors++;
}

static void take(struct replies *r, const char *bytes, size_t count)
{
    size_t at = 0;
    while (at < count) {
        if (r->skip > 0) {
            size_t left = count - at, some = (size_t)r->skip < left ? (size_t)r->skip : left;
            r->skip -= some;
            at += some;
        } else {
            char byte = bytes[at++];
            if (byte != '\n') {
                if (r->held < sizeof r->line - 1)
                    r->line[r->held++] = byte;
                continue;
            }
            r->line[r->held] = 0;
            r->held = 0;
            take_line(r);
        }
        if (r->parts == 0 && r->skip == 0)
            r->whole++;
    }
}

static int connect_to(const char *path)
{
    struct sockaddr_un place = {.sun_family = AF_UNIX};
    int made = socket(AF_UNIX, SOCK_STREAM, 0);
    strncpy(place.sun_path, path, sizeof place.sun_path - 1);
    if (made < 0 || connect(made, (struct sockaddr *)&place, sizeof place) != 0)
        fail(path);
    fcntl(made, F_SETFL, O_NONBLOCK);
    return made;
}

static const char *read_file(const char *path, size_t *size)
{
    struct stat about;
    int file = open(path, O_RDONLY);
    if (file < 0 || fstat(file, &about) != 0)
        fail(path);
    *size = about.st_size;
    const char *bytes = mmap(NULL, *size, PROT_READ, MAP_PRIVATE, file, 0);
    if (bytes == MAP_FAILED)
        fail(path);
    return bytes;
}

/* Takes what has come. */
static void take_all(int server, struct replies *replies)
{
    static char buffer[1 << 20];
    ssize_t came;
    while ((came = read(server, buffer, sizeof buffer)) > 0)
        take(replies, buffer, came);
    if (came == 0 || errno != EAGAIN)
        fail("read");
}

/* Sends some bytes of requests, and counts them. */
static size_t send_some(int server, struct replies *asked, const char *bytes, size_t left)
{
    ssize_t took = write(server, bytes, left < 4096 ? left : 4096);
    if (took < 0 && errno != EAGAIN)
        fail("write");
    if (took > 0)
        take(asked, bytes, took);
    return took < 0 ? 0 : took;
}

int main(int argc, char **argv)
{
    struct replies replies = {0}, asked = {0};
    size_t size, sent = 0;
    if (argc != 4)
        return 2;
    const char *requests = read_file(argv[2], &size);
    long wanted = atol(argv[3]);
    int server = connect_to(argv[1]);
    while (replies.whole < wanted) {
        int sends = sent < size && asked.whole - replies.whole < DEPTH;
        struct pollfd ready = {.fd = server, .events = POLLIN | (sends ? POLLOUT : 0)};
        if (poll(&ready, 1, -1) < 0)
            fail("poll");
        if (ready.revents & (POLLIN | POLLHUP))
            take_all(server, &replies);
        else if (ready.revents & POLLOUT)
            sent += send_some(server, &asked, requests + sent, size - sent);
    }
    printf("%ld\n", replies.errors);
    return 0;
}
