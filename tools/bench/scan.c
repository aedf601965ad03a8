// Scans the set 0 of a service that speaks Redis's protocol, page by page from cursor 0 to the end and again, over one connection.
//
//     scan PORT COUNT
//
// COUNT is what each SSCAN names. On SIGTERM it takes the page that is under way, and prints how many pages and keys were told, and the seconds
// that it took.
#include <arpa/inet.h>
#include <netinet/tcp.h>
#include <signal.h>
#include <stdio.h>
#include <stdlib.h>
#include <string.h>
#include <time.h>
#include <unistd.h>

enum { LINE = 96 };

static volatile sig_atomic_t is_over;

static void end(int number) {
    (void)number;
    is_over = 1;
}

static double now(void) {
    struct timespec time;
    clock_gettime(CLOCK_MONOTONIC, &time);
    return (double)time.tv_sec + 1e-9 * (double)time.tv_nsec;
}

static FILE *connect_to(int port) {
    struct sockaddr_in address = {.sin_family = AF_INET, .sin_port = htons((unsigned short)port)};
    address.sin_addr.s_addr = htonl(INADDR_LOOPBACK);
    int handle = socket(AF_INET, SOCK_STREAM, 0), on = 1;
    if (handle < 0 || connect(handle, (struct sockaddr *)&address, sizeof address) != 0) {
        perror("connect");
        exit(1);
    }
    setsockopt(handle, IPPROTO_TCP, TCP_NODELAY, &on, sizeof on);
    return fdopen(handle, "r");
}

// Reads a line that begins so, and gives the number on it.
static unsigned long number_after(FILE *replies, const char *start) {
    char line[LINE];
    if (fgets(line, LINE, replies) == NULL || strncmp(line, start, strlen(start)) != 0) {
        fputs("scan: no page was told\n", stderr);
        exit(1);
    }
    return strtoul(line + strlen(start), NULL, 10);
}

// Reads a page up to its end: its cursor; it adds the number of its keys.
static unsigned long take_page(FILE *replies, unsigned long *keys) {
    number_after(replies, "*2");
    number_after(replies, "$");
    unsigned long cursor = number_after(replies, ""), count = number_after(replies, "*");
    for (unsigned long i = 0; i < 2 * count; i++) {
        number_after(replies, i % 2 ? "" : "$");
    }
    *keys += count;
    return cursor;
}

int main(int count, char **words) {
    unsigned long pages = 0, keys = 0, cursor = 0;
    if (count != 3) {
        fputs("scan PORT COUNT\n", stderr);
        return 2;
    }
    signal(SIGTERM, end);
    FILE *replies = connect_to(atoi(words[1]));
    double began = now();
    for (; !is_over; pages++) {
        static const char page[] = "*5\r\n$5\r\nSSCAN\r\n$1\r\n0\r\n$%d\r\n%s\r\n$5\r\nCOUNT\r\n$%zu\r\n%s\r\n";
        char number[24];
        int length = sprintf(number, "%lu", cursor);
        dprintf(fileno(replies), page, length, number, strlen(words[2]), words[2]);
        cursor = take_page(replies, &keys);
    }
    printf("%lu %lu %.6f\n", pages, keys, now() - began);
    return 0;
}
