/* Asks a server on a port of 127.0.0.1 at a pace, and tells of each request when it was due, and when it was answered.

       paced_driver PORT CONNECTIONS RATE SECONDS KEY GROUP VALUE

   So many requests a second are sent over the connections in turn, each at its moment, whether or not those before it
   are answered. Every second connection adds an entry each time; the others read one as new. A line stands for each
   request in the order of the replies: a or r, the moment at which it was due, and how long after that its reply had
   come, both in microseconds of the monotonic clock. SIGTERM ends it early. An error as a reply ends it with status
   1. */
#define _GNU_SOURCE
#include <arpa/inet.h>
#include <netinet/tcp.h>
#include <poll.h>
#include <signal.h>
#include <stdio.h>
#include <stdlib.h>
#include <string.h>
#include <sys/prctl.h>
#include <sys/socket.h>
#include <time.h>
#include <unistd.h>

#define MOST_CONNECTIONS 64
#define MOST_WAITED 65536
#define PATIENCE 20e6

struct connection {
    char request[1024];
    size_t length;
    double due[MOST_WAITED];   /* of the requests that were sent, by their numbers */
    unsigned sent, answered;
    long items;                /* items that are missing from the reply that is being read */
    size_t skip;               /* bytes of a bulk string that are missing, with its CR LF */
    char line[64];
    size_t held;
};

struct answer {
    char kind;
    double due, late;
};

static struct connection connections[MOST_CONNECTIONS];
static struct pollfd streams[MOST_CONNECTIONS];
static struct answer *answers;
static long count, answered;
static volatile sig_atomic_t over;

static void give_up(const char *why)
{
    fprintf(stderr, "paced_driver: %s\n", why);
    exit(1);
}

static void end_early(int signal)
{
    (void)signal;
    over = 1;
}

static double now(void)
{
    struct timespec moment;
    clock_gettime(CLOCK_MONOTONIC, &moment);
    return (double)moment.tv_sec * 1e6 + (double)moment.tv_nsec / 1e3;
}

static size_t put_words(char *into, size_t room, int many, const char **words)
{
    size_t length = (size_t)snprintf(into, room, "*%d\r\n", many);
    for (int place = 0; place < many && length < room; place++)
        length += (size_t)snprintf(into + length, room - length, "$%zu\r\n%s\r\n", strlen(words[place]), words[place]);
    if (length >= room)
        give_up("a request is too long");
    return length;
}

static void open_connection(int place, int port, const char *key, const char *group, const char *value)
{
    const char *add[] = {"XADD", key, "*", "f", value};
    const char *read[] = {"XREADGROUP", "GROUP", group, "c", "COUNT", "1", "STREAMS", key, ">"};
    struct connection *one = &connections[place];
    struct sockaddr_in where = {.sin_family = AF_INET, .sin_port = htons((unsigned short)port)};
    int on = 1;
    inet_pton(AF_INET, "127.0.0.1", &where.sin_addr);
    streams[place] = (struct pollfd){.fd = socket(AF_INET, SOCK_STREAM, 0), .events = POLLIN};
    if (streams[place].fd < 0 || connect(streams[place].fd, (struct sockaddr *)&where, sizeof where) != 0)
        give_up("no connection");
    setsockopt(streams[place].fd, IPPROTO_TCP, TCP_NODELAY, &on, sizeof on);
    one->items = 1;
    one->length = place % 2 ? put_words(one->request, sizeof one->request, 9, read)
                            : put_words(one->request, sizeof one->request, 5, add);
}

static void send_request(int place, double due)
{
    struct connection *one = &connections[place];
    if (one->sent - one->answered == MOST_WAITED)
        give_up("too many requests wait");
    one->due[one->sent++ % MOST_WAITED] = due;
    if (send(streams[place].fd, one->request, one->length, MSG_NOSIGNAL) != (ssize_t)one->length)
        give_up("sending failed");
}

/* Takes a line of a reply, which begins an item. */
static void take_line(struct connection *one)
{
    one->line[one->held] = 0;
    long number = atol(one->line + 1);
    if (one->line[0] == '-')
        give_up(one->line);
    one->items--;
    if (one->line[0] == '*' && number > 0)
        one->items += number;
    if (one->line[0] == '$' && number >= 0)
        one->skip = (size_t)number + 2;
    one->held = 0;
}

/* Takes what came, and notes each reply that is whole. */
static void take(int place, const char *data, size_t size)
{
    struct connection *one = &connections[place];
    for (size_t at = 0; at < size;) {
        if (one->skip > 0) {
            size_t some = size - at < one->skip ? size - at : one->skip;
            at += some;
            one->skip -= some;
        } else {
            if (one->held + 1 < sizeof one->line)
                one->line[one->held++] = data[at];
            if (data[at++] == '\n')
                take_line(one);
        }
        if (one->items == 0 && one->skip == 0) {
            double due = one->due[one->answered++ % MOST_WAITED];
            answers[answered++] = (struct answer){place % 2 ? 'r' : 'a', due, now() - due};
            one->items = 1;
        }
    }
}

static void receive(int many, double until)
{
    static char data[65536];
    double left = until - now();
    struct timespec most = {0, 0};
    if (left > 0)
        most = (struct timespec){(time_t)(left / 1e6), (long)(left * 1e3) % 1000000000};
    if (ppoll(streams, (nfds_t)many, &most, NULL) <= 0)
        return;
    for (int place = 0; place < many; place++) {
        if (!streams[place].revents)
            continue;
        ssize_t some = recv(streams[place].fd, data, sizeof data, MSG_DONTWAIT);
        if (some <= 0)
            give_up("the connection has ended");
        take(place, data, (size_t)some);
    }
}

int main(int many, char **words)
{
    if (many != 8)
        give_up("PORT CONNECTIONS RATE SECONDS KEY GROUP VALUE");
    int open = atoi(words[2]);
    double step = 1e6 / atof(words[3]), last = atof(words[4]) * 1e6 / step;
    if (open < 2 || open > MOST_CONNECTIONS || (answers = calloc((size_t)last + 1, sizeof *answers)) == NULL)
        give_up("a number is out of range");
    signal(SIGTERM, end_early);
    prctl(PR_SET_TIMERSLACK, 1UL);
    for (int place = 0; place < open; place++)
        open_connection(place, atoi(words[1]), words[5], words[6], words[7]);
    double began = now(), due = began;
    while (!over && count < (long)last) {
        for (; due <= now() && count < (long)last; due += step)
            send_request((int)(count++ % open), due);
        receive(open, due);
    }
    for (double end = now() + PATIENCE; answered < count;) {
        if (now() > end)
            give_up("no reply came");
        receive(open, end);
    }
    for (long place = 0; place < answered; place++)
        printf("%c %.0f %.0f\n", answers[place].kind, answers[place].due, answers[place].late);
    return 0;
}
