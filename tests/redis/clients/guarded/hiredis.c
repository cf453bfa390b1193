/* A queue by hiredis, behind a name, a database, a password and transactions: hiredis PORT */
#include <hiredis/hiredis.h>
#include <stdio.h>
#include <stdlib.h>
#include <string.h>

#define JOBS 1000

static redisContext *queue;

static void give_up(const char *why)
{
    fprintf(stderr, "%s\n", why);
    exit(1);
}

/* What the next request was answered: no error. */
static redisReply *next_reply(void)
{
    void *reply;
    if (redisGetReply(queue, &reply) != REDIS_OK)
        give_up(queue->errstr);
    if (((redisReply *)reply)->type == REDIS_REPLY_ERROR)
        give_up(((redisReply *)reply)->str);
    return reply;
}

static redisReply *ask(const char *request)
{
    redisAppendCommand(queue, request);
    return next_reply();
}

static redisReply *item(const redisReply *reply, size_t place)
{
    if (reply->type != REDIS_REPLY_ARRAY || place >= reply->elements)
        give_up("an array is too short, or none");
    return reply->element[place];
}

/* Takes the replies to a transaction of so many requests, and gives the last one. */
static redisReply *executed(int requests)
{
    redisAppendCommand(queue, "EXEC");
    for (int place = 0; place <= requests; place++)
        freeReplyObject(next_reply());
    return next_reply();
}

int main(int argc, char **argv)
{
    static char done[JOBS];
    int count = 0;
    if (argc != 2)
        give_up("hiredis PORT");
    queue = redisConnect("127.0.0.1", atoi(argv[1]));
    if (queue == NULL || queue->err)
        give_up("no connection");
    ask("AUTH secret");
    ask("SELECT 0");
    ask("CLIENT SETNAME app");
    printf("name: %s\n", ask("CLIENT GETNAME")->str);
    redisAppendCommand(queue, "MULTI");
    redisAppendCommand(queue, "XADD t 1-0 f v");
    redisAppendCommand(queue, "XLEN t");
    redisReply *told = executed(2);
    printf("transaction: %s %lld\n", item(told, 0)->str, item(told, 1)->integer);
    ask("XGROUP CREATE jobs workers 0 MKSTREAM");
    redisAppendCommand(queue, "MULTI");
    for (int number = 0; number < JOBS; number++)
        redisAppendCommand(queue, "XADD jobs * number %d", number);
    freeReplyObject(executed(JOBS));
    for (;;) {
        redisReply *found = ask("XREADGROUP GROUP workers one COUNT 100 BLOCK 100 STREAMS jobs >");
        if (found->type == REDIS_REPLY_NIL)
            break;
        const redisReply *entries = item(item(found, 0), 1);
        redisAppendCommand(queue, "MULTI");
        for (size_t place = 0; place < entries->elements; place++) {
            const char *id = item(entries->element[place], 0)->str;
            int number = atoi(item(item(entries->element[place], 1), 1)->str);
            if (number < 0 || number >= JOBS)
                give_up("another job");
            count += !done[number];
            done[number] = 1;
            redisAppendCommand(queue, "XACK jobs workers %s", id);
            redisAppendCommand(queue, "XDEL jobs %s", id);
        }
        freeReplyObject(executed(2 * (int)entries->elements));
    }
    printf("done: %d, left: %lld, pending: %lld\n", count, ask("XLEN jobs")->integer,
           item(ask("XPENDING jobs workers"), 0)->integer);
    return 0;
}
