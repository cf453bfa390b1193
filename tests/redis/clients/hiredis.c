/* The work of a queue by hiredis: hiredis PORT STEPS, where STEPS is clients/steps.txt. Lines that stand together and
   have one name are sent together. */
#include <hiredis/hiredis.h>
#include <ctype.h>
#include <stdio.h>
#include <stdlib.h>
#include <string.h>

#define MOST_WORDS 32
#define MOST_TOGETHER 16

static char all_bytes[256];

static void give_up(const char *why)
{
    fprintf(stderr, "%s\n", why);
    exit(1);
}

static redisReply *item(const redisReply *reply, size_t place)
{
    if (reply->type != REDIS_REPLY_ARRAY || place >= reply->elements)
        give_up("an array is too short, or none");
    return reply->element[place];
}

static void put_text(const redisReply *reply)
{
    if (reply->type == REDIS_REPLY_INTEGER) {
        printf("%lld", reply->integer);
        return;
    }
    if (reply->type != REDIS_REPLY_STRING && reply->type != REDIS_REPLY_STATUS)
        give_up("no text");
    int plain = reply->len > 0;
    for (size_t place = 0; place < reply->len; place++)
        plain = plain && (isalnum((unsigned char)reply->str[place]) || reply->str[place] == '-');
    if (plain) {
        fwrite(reply->str, 1, reply->len, stdout);
        return;
    }
    printf("hex:");
    for (size_t place = 0; place < reply->len; place++)
        printf("%02x", (unsigned char)reply->str[place]);
}

static void put_entry(const redisReply *entry)
{
    const redisReply *fields = item(entry, 1);
    put_text(item(entry, 0));
    if (fields->type == REDIS_REPLY_NIL) {
        printf("none");
        return;
    }
    for (size_t place = 0; place + 1 < fields->elements; place += 2) {
        printf(place == 0 ? "{" : " ");
        put_text(item(fields, place));
        printf("=");
        put_text(item(fields, place + 1));
    }
    printf("}");
}

static void put_pair(const redisReply *pair)
{
    put_text(item(pair, 0));
    printf("=");
    put_text(item(pair, 1));
}

static void put_row(const redisReply *row)
{
    put_text(item(row, 0));
    printf("/");
    put_text(item(row, 1));
    printf("/%lld", item(row, 3)->integer);
}

static void put_each(const redisReply *list, void (*put)(const redisReply *))
{
    if (list->type != REDIS_REPLY_ARRAY)
        give_up("no array");
    if (list->elements == 0)
        printf("nothing");
    for (size_t place = 0; place < list->elements; place++) {
        if (place > 0)
            printf(" ");
        put(list->element[place]);
    }
}

static void put_reply(const char *shape, const redisReply *reply)
{
    if (reply->type == REDIS_REPLY_ERROR) {
        printf("error %.*s", (int)strcspn(reply->str, " "), reply->str);
    } else if (strcmp(shape, "value") == 0) {
        put_text(reply);
    } else if (strcmp(shape, "values") == 0) {
        put_each(reply, put_text);
    } else if (strcmp(shape, "entries") == 0) {
        put_each(reply, put_entry);
    } else if (strcmp(shape, "rows") == 0) {
        put_each(reply, put_row);
    } else if (strcmp(shape, "streams") == 0) {
        if (reply->type == REDIS_REPLY_NIL)
            printf("nothing");
        else
            put_each(item(item(reply, 0), 1), put_entry);
    } else if (strcmp(shape, "pending") == 0) {
        for (size_t place = 0; place < 3; place++) {
            put_text(item(reply, place));
            printf(" ");
        }
        put_each(item(reply, 3), put_pair);
    } else if (strcmp(shape, "scan") == 0) {
        put_text(item(reply, 0));
        printf(" ");
        put_each(item(reply, 1), put_entry);
    } else {
        give_up("no such shape");
    }
}

/* Cuts the words of a line, and appends the request to what is sent. */
static void append(redisContext *context, char *words)
{
    const char *cut[MOST_WORDS];
    size_t lengths[MOST_WORDS];
    int count = 0;
    for (char *word = strtok(words, " \n"); word != NULL && count < MOST_WORDS; word = strtok(NULL, " \n")) {
        int is_all = strcmp(word, "@bytes") == 0;
        cut[count] = is_all ? all_bytes : word;
        lengths[count++] = is_all ? sizeof all_bytes : strlen(word);
    }
    if (redisAppendCommandArgv(context, count, cut, lengths) != REDIS_OK)
        give_up(context->errstr);
}

static void answer(redisContext *context, char shapes[][16], int count)
{
    for (int place = 0; place < count; place++) {
        void *reply;
        if (redisGetReply(context, &reply) != REDIS_OK)
            give_up(context->errstr);
        printf(place == 0 ? ": " : " ");
        put_reply(shapes[place], reply);
        freeReplyObject(reply);
    }
    if (count > 0)
        printf("\n");
}

static redisContext *connected(int port)
{
    redisContext *context = redisConnect("127.0.0.1", port);
    if (context == NULL || context->err)
        give_up("no connection");
    return context;
}

int main(int count, char **words)
{
    if (count != 3)
        give_up("hiredis PORT STEPS");
    for (int byte = 0; byte < 256; byte++)
        all_bytes[byte] = (char)byte;
    redisContext *one = connected(atoi(words[1])), *two = connected(atoi(words[1])), *context = one;
    FILE *steps = fopen(words[2], "r");
    char line[1024], last[64] = "", shapes[MOST_TOGETHER][16];
    int together = 0;
    while (steps != NULL && fgets(line, sizeof line, steps) != NULL) {
        char who[8], step[64];
        int behind = 0;
        char shape[16];
        if (sscanf(line, "%7[^|]|%63[^|]|%15[^|]|%n", who, step, shape, &behind) != 3 || behind == 0)
            give_up("no step");
        if (strcmp(step, last) != 0 || together == MOST_TOGETHER) {
            answer(context, shapes, together);
            together = 0;
            printf("%s", step);
            strcpy(last, step);
        }
        context = strcmp(who, "one") == 0 ? one : two;
        strcpy(shapes[together++], shape);
        append(context, line + behind);
    }
    answer(context, shapes, together);
    redisFree(one);
    redisFree(two);
    return 0;
}
