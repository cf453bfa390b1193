/* Reads requests from memory as replies, in pieces of one size, and tells how many there were. */
#include <hiredis/hiredis.h>
#include <stdio.h>
#include <stdlib.h>
#include <string.h>

enum { IN_BLOCK = 1000, BLOCKS = 1000 };

static const char request[] = "*5\r\n$4\r\nXADD\r\n$1\r\ns\r\n$1\r\n*\r\n$1\r\nf\r\n$60\r\n"
                              "vvvvvvvvvvvvvvvvvvvvvvvvvvvvvvvvvvvvvvvvvvvvvvvvvvvvvvvvvvvv\r\n";

int main(int argc, char **argv)
{
    size_t one = sizeof request - 1, all = one * IN_BLOCK, size = argc > 1 ? strtoul(argv[1], NULL, 10) : 0;
    char *bytes = malloc(all);
    unsigned long requests = 0, words = 0;
    redisReader *reader = redisReaderCreate();
    for (size_t k = 0; k < IN_BLOCK; k++)
        memcpy(bytes + k * one, request, one);
    for (int block = 0; block < BLOCKS; block++) {
        for (size_t at = 0; at < all; at += size) {
            redisReply *reply = NULL;
            if (size == 0 || redisReaderFeed(reader, bytes + at, all - at < size ? all - at : size) != REDIS_OK)
                return 1;
            while (redisReaderGetReply(reader, (void **)&reply) == REDIS_OK && reply != NULL) {
                requests++;
                words += reply->elements;
                freeReplyObject(reply);
                reply = NULL;
            }
        }
    }
    printf("%lu requests, %lu words\n", requests, words);
    return 0;
}
