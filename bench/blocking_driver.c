/* Consumers that wait and producers, over connections to a port of 127.0.0.1, for some seconds.

       blocking_driver PORT CONSUMERS PRODUCERS DEEP SECONDS

   A consumer reads at most 10 entries of the group g of the key s with BLOCK 5000, and sends the acknowledgement of what
   it got together with its next read. A producer adds DEEP entries of one field of 60 bytes, waits for all of their
   replies, and adds the next. All consumers are one thread, all producers another. The line that it prints is the number
   of entries that were acknowledged, the number of those that were added, the seconds, and which part of that time the
   busier thread had the processor. An error as a reply ends the program with status 1. */
#include <arpa/inet.h>
#include <errno.h>
#include <netinet/tcp.h>
#include <pthread.h>
#include <stdio.h>
#include <stdlib.h>
#include <string.h>
#include <sys/epoll.h>
#include <sys/socket.h>
#include <time.h>
#include <unistd.h>

#define MOST_IDS 10
#define ID_ROOM 48
#define ROOM 65536
#define VALUE "vvvvvvvvvvvvvvvvvvvvvvvvvvvvvvvvvvvvvvvvvvvvvvvvvvvvvvvvvvvv"

static const char addition[] = "*5\r\n$4\r\nXADD\r\n$1\r\ns\r\n$1\r\n*\r\n$1\r\nf\r\n$60\r\n" VALUE "\r\n";
static double deadline;
static long deep;

struct connection {
    int stream, consumer;      /* the consumer's number, or -1 for a producer */
    char in[ROOM];
    size_t held;
    long waited;               /* replies that have not come yet */
    int acknowledges;          /* the first of them is that of an acknowledgement */
    int many_ids;
    char ids[MOST_IDS][ID_ROOM];
};

struct share {
    pthread_t thread;
    struct connection *connections;
    int many;
    long counted;              /* entries that were acknowledged, or added */
    double used;
};

static void give_up(const char *why)
{
    fprintf(stderr, "blocking_driver: %.60s\n", why);
    exit(1);
}

static double at(clockid_t which)
{
    struct timespec moment;
    clock_gettime(which, &moment);
    return (double)moment.tv_sec + (double)moment.tv_nsec / 1e9;
}

static void put(struct connection *one, const char *bytes, size_t length)
{
    while (length > 0) {
        ssize_t some = send(one->stream, bytes, length, MSG_NOSIGNAL);
        if (some <= 0)
            give_up("sending failed");
        bytes += some;
        length -= (size_t)some;
    }
}

/* Adds the next entries. */
static void add(struct connection *one)
{
    static char many[64 * sizeof addition];
    size_t length = sizeof addition - 1;
    if (many[0] == 0)
        for (long place = 0; place < deep; place++)
            memcpy(many + (size_t)place * length, addition, length);
    one->waited = deep;
    put(one, many, length * (size_t)deep);
}

/* Acknowledges what was read last, and reads again. */
static void read_next(struct connection *one)
{
    char out[4096], name[16];
    size_t length = 0;
    one->acknowledges = one->many_ids > 0;
    one->waited = 1 + one->acknowledges;
    if (one->acknowledges)
        length += (size_t)sprintf(out, "*%d\r\n$4\r\nXACK\r\n$1\r\ns\r\n$1\r\ng\r\n", 3 + one->many_ids);
    for (int place = 0; place < one->many_ids; place++)
        length += (size_t)sprintf(out + length, "$%zu\r\n%s\r\n", strlen(one->ids[place]), one->ids[place]);
    sprintf(name, "c%d", one->consumer);
    length += (size_t)sprintf(out + length, "*11\r\n$10\r\nXREADGROUP\r\n$5\r\nGROUP\r\n$1\r\ng\r\n$%zu\r\n%s\r\n"
                              "$5\r\nCOUNT\r\n$2\r\n10\r\n$5\r\nBLOCK\r\n$4\r\n5000\r\n$7\r\nSTREAMS\r\n$1\r\ns\r\n"
                              "$1\r\n>\r\n", strlen(name), name);
    one->many_ids = 0;
    put(one, out, length);
}

static void take_id(struct connection *one, const char *id, size_t length)
{
    if (length >= ID_ROOM || one->many_ids == MOST_IDS)
        give_up("an id is too long, or one too many");
    memcpy(one->ids[one->many_ids], id, length);
    one->ids[one->many_ids++][length] = 0;
}

/* The place behind the reply that begins here, or NULL if it isn't whole. `first` says that it is the first of an array,
   which is in so many others; ids are the first of the arrays in three others. */
static const char *behind_reply(struct connection *one, const char *from, const char *end, int depth, int first)
{
    const char *line = memchr(from, '\n', (size_t)(end - from));
    if (line == NULL)
        return NULL;
    long number = atol(from + 1);
    line++;
    if (*from == '-')
        give_up(from);
    if (*from == '$' && number >= 0) {
        if (end - line < number + 2)
            return NULL;
        if (one->consumer >= 0 && depth == 4 && first)
            take_id(one, line, (size_t)number);
        return line + number + 2;
    }
    for (long place = 0; *from == '*' && place < number && line != NULL; place++)
        line = behind_reply(one, line, end, depth + 1, place == 0);
    return line;
}

/* Takes the replies that are whole, and gives how many entries they acknowledge, or tell as added. */
static long take_replies(struct connection *one)
{
    const char *from = one->in, *end = one->in + one->held;
    long counted = 0;
    while (one->waited > 0 && from < end) {
        one->many_ids = 0;
        const char *behind = behind_reply(one, from, end, 0, 0);
        if (behind == NULL)
            break;
        if (one->consumer < 0)
            counted++;
        else if (one->acknowledges)
            counted += atol(from + 1);
        one->acknowledges = 0;
        one->waited--;
        from = behind;
    }
    one->held = (size_t)(end - from);
    memmove(one->in, from, one->held);
    return counted;
}

static void receive(struct share *share, struct connection *one)
{
    ssize_t some = recv(one->stream, one->in + one->held, ROOM - one->held, MSG_DONTWAIT);
    if (some < 0 && (errno == EAGAIN || errno == EINTR))
        return;
    if (some <= 0)
        give_up("the connection has ended");
    one->held += (size_t)some;
    share->counted += take_replies(one);
    if (one->waited == 0 && one->consumer < 0)
        add(one);
    else if (one->waited == 0)
        read_next(one);
}

static void *run(void *given)
{
    struct share *share = given;
    int poll = epoll_create1(0);
    for (int place = 0; place < share->many; place++) {
        struct connection *one = &share->connections[place];
        struct epoll_event event = {.events = EPOLLIN, .data.ptr = one};
        if (epoll_ctl(poll, EPOLL_CTL_ADD, one->stream, &event) != 0)
            give_up("epoll_ctl");
        if (one->consumer < 0)
            add(one);
        else
            read_next(one);
    }
    while (at(CLOCK_MONOTONIC) < deadline) {
        struct epoll_event events[64];
        int many = epoll_wait(poll, events, 64, 100);
        for (int place = 0; place < many; place++)
            receive(share, events[place].data.ptr);
    }
    share->used = at(CLOCK_THREAD_CPUTIME_ID);
    return NULL;
}

static void open_all(struct share *share, int many, int port, int consumes)
{
    struct sockaddr_in where = {.sin_family = AF_INET, .sin_port = htons((unsigned short)port)};
    int on = 1;
    inet_pton(AF_INET, "127.0.0.1", &where.sin_addr);
    share->many = many;
    share->connections = calloc((size_t)many, sizeof *share->connections);
    if (share->connections == NULL)
        give_up("out of memory");
    for (int place = 0; place < many; place++) {
        struct connection *one = &share->connections[place];
        one->consumer = consumes ? place : -1;
        one->stream = socket(AF_INET, SOCK_STREAM, 0);
        if (one->stream < 0 || connect(one->stream, (struct sockaddr *)&where, sizeof where) != 0)
            give_up("no connection");
        setsockopt(one->stream, IPPROTO_TCP, TCP_NODELAY, &on, sizeof on);
    }
}

int main(int many, char **words)
{
    if (many != 6)
        give_up("PORT CONSUMERS PRODUCERS DEEP SECONDS");
    struct share share[2] = {0};
    deep = atol(words[4]);
    if (deep < 1 || deep > 64)
        give_up("DEEP is 1 to 64");
    open_all(&share[0], atoi(words[2]), atoi(words[1]), 1);
    open_all(&share[1], atoi(words[3]), atoi(words[1]), 0);
    double began = at(CLOCK_MONOTONIC);
    deadline = began + atof(words[5]);
    for (int place = 0; place < 2; place++)
        if (pthread_create(&share[place].thread, NULL, run, &share[place]) != 0)
            give_up("no thread");
    for (int place = 0; place < 2; place++)
        pthread_join(share[place].thread, NULL);
    double took = at(CLOCK_MONOTONIC) - began;
    double busier = share[0].used > share[1].used ? share[0].used : share[1].used;
    printf("%ld %ld %.6f %.3f\n", share[0].counted, share[1].counted, took, busier / took);
    return 0;
}
