// Asks a service by hiredis: `client PORT`, with lines of words on standard input, of which those after an empty line are sent together.
// It prints each reply.
#include <hiredis/hiredis.h>
#include <stdio.h>
#include <stdlib.h>
#include <string.h>

enum { MOST_WORDS = 32, MOST_LINE = 1024, MOST_LINES = 128 };

static void print_reply(const redisReply *reply) {
    switch (reply->type) {
    case REDIS_REPLY_INTEGER:
        printf("integer %lld\n", reply->integer);
        break;
    case REDIS_REPLY_STATUS:
        printf("status %s\n", reply->str);
        break;
    case REDIS_REPLY_ERROR:
        printf("error %s\n", reply->str);
        break;
    case REDIS_REPLY_STRING:
        printf("string of %zu: %s\n", reply->len, reply->str);
        break;
    case REDIS_REPLY_NIL:
        printf("nil\n");
        break;
    case REDIS_REPLY_ARRAY:
        printf("array of %zu\n", reply->elements);
        for (size_t i = 0; i < reply->elements; i++) {
            print_reply(reply->element[i]);
        }
        break;
    default:
        printf("a reply of type %d\n", reply->type);
    }
}

// Takes the next reply, or ends where the connection did.
static void take(redisContext *service) {
    void *reply = NULL;
    if (redisGetReply(service, &reply) != REDIS_OK) {
        printf("failed: %s\n", service->errstr);
        exit(1);
    }
    print_reply(reply);
    freeReplyObject(reply);
}

static int split(char *line, const char **words) {
    int count = 0;
    for (char *word = strtok(line, " \n"); word != NULL && count < MOST_WORDS; word = strtok(NULL, " \n")) {
        words[count++] = word;
    }
    return count;
}

int main(int count, char **arguments) {
    char line[MOST_LINE];
    const char *words[MOST_WORDS];
    int together = 0, waits = 0;
    redisContext *service = count == 2 ? redisConnect("127.0.0.1", atoi(arguments[1])) : NULL;
    if (service == NULL || service->err) {
        return 1;
    }
    while (fgets(line, sizeof line, stdin) != NULL) {
        int length = split(line, words);
        if (length == 0) {
            together = 1;
            continue;
        }
        redisAppendCommandArgv(service, length, words, NULL);
        if (together) {
            waits++;
        } else {
            take(service);
        }
    }
    for (; waits > 0; waits--) {
        take(service);
    }
    // By the calls that programs make.
    redisAppendCommand(service, "SADD %d %lld %lld", 7, 40LL, 999999999999999999LL);
    redisAppendCommand(service, "SISMEMBER 7 %s", "40");
    redisAppendCommand(service, "ECHO %b", "a\r\nb", (size_t)4);
    redisAppendCommand(service, "QUIT");
    for (int i = 0; i < 4; i++) {
        take(service);
    }
    redisFree(service);
    return 0;
}
