/* Asks a server on a port of 127.0.0.1 over many connections at once, and tells how long it took.

       tcp_driver PORT CONNECTIONS DEEP COUNT same WORD ..            the same request COUNT times
       tcp_driver PORT CONNECTIONS DEEP COUNT queue KEY GROUP         XREADGROUP COUNT 1, then XACK of what it gave

   A connection sends DEEP requests, waits for all of their replies, and sends the next. So does queue: DEEP reads, and
   then DEEP acknowledgements. The connections are spread over at most two threads. The line that it prints is the
   number of requests, the seconds they took, and the latency in microseconds in the middle, at 99 % and at 99.9 %: from
   the moment at which a request was ready to be sent, with those that are sent with it, to the end of its reply. An
   error as a reply ends the program with status 1. */
#include <arpa/inet.h>
#include <errno.h>
#include <netinet/tcp.h>
#include <pthread.h>
#include <stdatomic.h>
#include <stdio.h>
#include <stdlib.h>
#include <string.h>
#include <sys/epoll.h>
#include <sys/socket.h>
#include <time.h>
#include <unistd.h>

#define MOST_DEEP 64
#define MOST_THREADS 2
#define ID_ROOM 48
#define PIECE 65536

/* What is asked: the bytes of one request, or the parts of the two of a queue. */
static char *request;
static size_t request_length;
static const char *queue_key, *queue_group;
static long deep, count;
static atomic_long left;

struct connection {
    int stream;
    char *out;
    size_t length, sent;
    int watches_room;          /* it is told when there is room to send */
    char *in;
    size_t held, room;
    long waited;               /* replies that have not come yet */
    long asked;                /* requests of this batch */
    double began;
    long items;                /* items that are missing from the reply that is being read */
    size_t skip;               /* bytes of a bulk string that are missing, with its CR LF */
    int bulks;                 /* bulk strings that the reply has had */
    int acknowledges;          /* the batch is one of acknowledgements */
    char ids[MOST_DEEP][ID_ROOM];
};

struct share {
    pthread_t thread;
    struct connection *connections;
    int many, poll;
    float *latencies;
    long answered;
};

static void give_up(const char *why)
{
    fprintf(stderr, "tcp_driver: %s\n", why);
    exit(1);
}

static double now(void)
{
    struct timespec moment;
    clock_gettime(CLOCK_MONOTONIC, &moment);
    return (double)moment.tv_sec * 1e6 + (double)moment.tv_nsec / 1e3;
}

static size_t put_words(char *into, int many, const char **words)
{
    size_t length = (size_t)sprintf(into, "*%d\r\n", many);
    for (int place = 0; place < many; place++)
        length += (size_t)sprintf(into + length, "$%zu\r\n%s\r\n", strlen(words[place]), words[place]);
    return length;
}

static void put_queue(struct connection *one)
{
    one->length = 0;
    for (long place = 0; place < one->asked; place++) {
        const char *read[] = {"XREADGROUP", "GROUP", queue_group, "c", "COUNT", "1", "STREAMS", queue_key, ">"};
        const char *acknowledge[] = {"XACK", queue_key, queue_group, one->ids[place]};
        one->length += one->acknowledges ? put_words(one->out + one->length, 4, acknowledge)
                                         : put_words(one->out + one->length, 9, read);
    }
}

static void watch(struct share *share, struct connection *one, int operation, unsigned events)
{
    struct epoll_event event = {.events = events, .data.ptr = one};
    if (epoll_ctl(share->poll, operation, one->stream, &event) != 0)
        give_up("epoll_ctl");
}

static void send_more(struct share *share, struct connection *one)
{
    while (one->sent < one->length) {
        ssize_t some = send(one->stream, one->out + one->sent, one->length - one->sent, MSG_NOSIGNAL | MSG_DONTWAIT);
        if (some < 0 && (errno == EAGAIN || errno == EINTR)) {
            watch(share, one, EPOLL_CTL_MOD, EPOLLIN | EPOLLOUT);
            one->watches_room = 1;
            return;
        }
        if (some <= 0)
            give_up("sending failed");
        one->sent += (size_t)some;
    }
    if (one->watches_room)
        watch(share, one, EPOLL_CTL_MOD, EPOLLIN);
    one->watches_room = 0;
}

/* Begins the next batch, or says that there is none. An acknowledgement is owed for each read. */
static int begin(struct share *share, struct connection *one)
{
    if (queue_key != NULL && one->asked > 0 && !one->acknowledges) {
        one->acknowledges = 1;
    } else {
        long per = queue_key != NULL ? 2 * deep : deep;
        long had = atomic_fetch_sub(&left, per);
        if (had <= 0)
            return 0;
        one->acknowledges = 0;
        one->asked = had < per ? had * deep / per : deep;
        if (one->asked == 0)
            return 0;
    }
    if (queue_key != NULL)
        put_queue(one);
    else
        one->length = request_length * (size_t)one->asked;
    one->waited = one->asked;
    one->sent = 0;
    one->began = now();
    send_more(share, one);
    return 1;
}

static void take_bulk(struct connection *one, const char *data, size_t length)
{
    if (queue_key == NULL || one->acknowledges || one->bulks++ != 1)
        return;
    if (length >= ID_ROOM)
        give_up("an id is too long");
    char *id = one->ids[one->asked - one->waited];
    memcpy(id, data, length);
    id[length] = 0;
}

/* Reads a header, and says how many bytes it took, or 0 where it isn't whole. */
static size_t take_header(struct connection *one, const char *data, size_t length)
{
    const char *end = memchr(data, '\n', length);
    if (end == NULL)
        return 0;
    size_t took = (size_t)(end - data) + 1;
    long number = atol(data + 1);
    if (*data == '-')
        give_up(data);
    if (*data == '$' && number >= 0) {
        /* The second bulk string of a read is the id, which has to be there whole. */
        int is_id = queue_key != NULL && !one->acknowledges && one->bulks == 1;
        if (is_id && length - took < (size_t)number)
            return 0;
        take_bulk(one, data + took, (size_t)number);
        one->skip = (size_t)number + 2;
    }
    if (*data == '*' && number < 0 && queue_key != NULL)
        give_up("nothing is left to read");
    if (*data == '*' && number > 0)
        one->items += number;
    one->items--;
    return took;
}

/* Takes what came, and tells the latency of each reply that is whole. */
static void take_replies(struct share *share, struct connection *one)
{
    size_t at = 0;
    while (one->waited > 0) {
        if (one->skip > 0) {
            size_t some = one->held - at < one->skip ? one->held - at : one->skip;
            at += some;
            one->skip -= some;
            if (one->skip > 0)
                break;
        } else if (one->items > 0) {
            size_t took = take_header(one, one->in + at, one->held - at);
            if (took == 0)
                break;
            at += took;
        }
        if (one->items == 0 && one->skip == 0) {
            share->latencies[share->answered++] = (float)(now() - one->began);
            one->waited--;
            one->items = 1;
            one->bulks = 0;
        }
    }
    memmove(one->in, one->in + at, one->held - at);
    one->held -= at;
}

static void receive(struct share *share, struct connection *one)
{
    if (one->room - one->held < PIECE) {
        one->room += PIECE;
        one->in = realloc(one->in, one->room);
        if (one->in == NULL)
            give_up("out of memory");
    }
    ssize_t some = recv(one->stream, one->in + one->held, one->room - one->held, MSG_DONTWAIT);
    if (some < 0 && (errno == EAGAIN || errno == EINTR))
        return;
    if (some <= 0)
        give_up("the connection has ended");
    one->held += (size_t)some;
    take_replies(share, one);
}

static void *run(void *given)
{
    struct share *share = given;
    int busy = 0;
    for (int place = 0; place < share->many; place++) {
        watch(share, &share->connections[place], EPOLL_CTL_ADD, EPOLLIN);
        busy += begin(share, &share->connections[place]);
    }
    while (busy > 0) {
        struct epoll_event events[64];
        int many = epoll_wait(share->poll, events, 64, 10000);
        if (many <= 0)
            give_up("no reply came");
        for (int place = 0; place < many; place++) {
            struct connection *one = events[place].data.ptr;
            if (events[place].events & EPOLLOUT)
                send_more(share, one);
            if (events[place].events & ~(unsigned)EPOLLOUT)
                receive(share, one);
            if (one->waited == 0 && one->asked > 0 && !begin(share, one)) {
                one->asked = 0;
                busy--;
            }
        }
    }
    return NULL;
}

static void open_connection(struct connection *one, int port, size_t room)
{
    struct sockaddr_in where = {.sin_family = AF_INET, .sin_port = htons((unsigned short)port)};
    int on = 1;
    inet_pton(AF_INET, "127.0.0.1", &where.sin_addr);
    one->stream = socket(AF_INET, SOCK_STREAM, 0);
    if (one->stream < 0 || connect(one->stream, (struct sockaddr *)&where, sizeof where) != 0)
        give_up("no connection");
    setsockopt(one->stream, IPPROTO_TCP, TCP_NODELAY, &on, sizeof on);
    one->items = 1;
    one->out = queue_key != NULL ? malloc(room) : request;
    if (one->out == NULL)
        give_up("out of memory");
}

static void make_request(int many, const char **words)
{
    size_t room = 64;
    for (int place = 0; place < many; place++)
        room += strlen(words[place]) + 64;
    request = malloc(room * (size_t)deep);
    if (request == NULL)
        give_up("out of memory");
    request_length = put_words(request, many, words);
    for (long place = 1; place < deep; place++)
        memcpy(request + request_length * (size_t)place, request, request_length);
}

static int by_size(const void *one, const void *other)
{
    float difference = *(const float *)one - *(const float *)other;
    return (difference > 0) - (difference < 0);
}

static void start(struct share *share, int threads, int connections, int port)
{
    for (int place = 0; place < threads; place++) {
        struct share *one = &share[place];
        one->many = connections / threads + (place < connections % threads);
        one->connections = calloc((size_t)one->many, sizeof *one->connections);
        one->latencies = malloc(sizeof(float) * (size_t)(count + 2 * deep));
        one->poll = epoll_create1(0);
        if (one->connections == NULL || one->latencies == NULL || one->poll < 0)
            give_up("out of memory");
        for (int other = 0; other < one->many; other++)
            open_connection(&one->connections[other], port, (size_t)deep * 512);
    }
}

static void tell(struct share *share, int threads, double took)
{
    long answered = 0;
    for (int place = 0; place < threads; place++)
        answered += share[place].answered;
    float *all = malloc(sizeof(float) * (size_t)answered);
    if (all == NULL)
        give_up("out of memory");
    long at = 0;
    for (int place = 0; place < threads; place++) {
        memcpy(all + at, share[place].latencies, sizeof(float) * (size_t)share[place].answered);
        at += share[place].answered;
    }
    qsort(all, (size_t)answered, sizeof(float), by_size);
    printf("%ld %.6f %.1f %.1f %.1f\n", answered, took / 1e6, all[answered / 2], all[answered * 99 / 100],
           all[answered * 999 / 1000]);
}

int main(int many, char **words)
{
    if (many < 7)
        give_up("PORT CONNECTIONS DEEP COUNT same WORD .. | PORT CONNECTIONS DEEP COUNT queue KEY GROUP");
    int connections = atoi(words[2]), threads = connections < MOST_THREADS ? connections : MOST_THREADS;
    deep = atol(words[3]);
    count = atol(words[4]);
    atomic_store(&left, count);
    if (connections < 1 || deep < 1 || deep > MOST_DEEP || count < 2 * deep)
        give_up("a number is out of range");
    if (strcmp(words[5], "queue") == 0 && many == 8) {
        queue_key = words[6];
        queue_group = words[7];
    } else {
        make_request(many - 6, (const char **)words + 6);
    }
    struct share share[MOST_THREADS] = {0};
    start(share, threads, connections, atoi(words[1]));
    double began = now();
    for (int place = 0; place < threads; place++)
        if (pthread_create(&share[place].thread, NULL, run, &share[place]) != 0)
            give_up("no thread");
    for (int place = 0; place < threads; place++)
        pthread_join(share[place].thread, NULL);
    tell(share, threads, now() - began);
    return 0;
}
