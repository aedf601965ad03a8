// Loads a set service, or Redis, over TCP, and tells how many commands a second were answered.
//
//     load WHAT PORT CONNECTIONS DEPTH VERB FIRST COUNT SECONDS [once|ordered]
//
// WHAT is lazyset, whose lines it speaks, or redis, for Redis and for a service that speaks its protocol; the set's name is 0. On each
// connection DEPTH commands are sent at once, and the next ones when all of them are answered. There are up to 16 threads, each with a share
// of the connections: with fewer of them a service of many threads leaves too little processor to the load, with more the load leaves too
// little to a service of one.
// VERB is add, remove or has; the COUNT keys from FIRST on (a power of two), in a scattered order, or ascending (ordered), are dealt to the
// connections in turn.
// An add or a remove takes each key once, has goes round, but for `once`. It ends after SECONDS, or when the keys are used up, and prints how many
// commands were answered, how many of them changed or found something, the seconds that it took, and for how many milliseconds a connection waited until
// all that it had sent at once was answered: half of the times no longer than the first figure, 99 of 100 times no longer than the second.
#include <arpa/inet.h>
#include <math.h>
#include <netinet/tcp.h>
#include <pthread.h>
#include <stdio.h>
#include <stdlib.h>
#include <string.h>
#include <sys/epoll.h>
#include <sys/resource.h>
#include <time.h>
#include <unistd.h>

enum { MOST_CONNECTIONS = 10000, MOST_THREADS = 16, MOST_DEPTH = 1024, LINE = 96, PIECE = 4096, MOST_READY = 256, SPARE = 64, STEPS = 16, WAITS = 40 * STEPS };

enum verb { ADD, REMOVE, HAS };

struct options {
    int is_redis;
    int port;
    int connections;
    int depth;
    enum verb verb;
    unsigned long first;
    unsigned long count;
    double seconds;
    int goes_round;
    int is_ordered;
    int threads;
};

// A connection: where it is in the order of keys, for how many replies it waits, and the beginning of a reply.
struct connection {
    int index;
    int socket;
    unsigned long place;
    int wanted;
    double sent_at;
    size_t kept;
    char rest[LINE];
};

// A thread, how many of its connections go on, and how often one waited for so many microseconds, by sixteenths of a doubling.
struct worker {
    pthread_t thread;
    int index;
    int ready;
    int running;
    unsigned long answered;
    unsigned long yes;
    unsigned long waits[WAITS];
    int failed;
};

static struct options options;
static struct connection *connections;
static double ends_at;
static pthread_barrier_t begin;

static double now(void) {
    struct timespec time;
    clock_gettime(CLOCK_MONOTONIC, &time);
    return (double)time.tv_sec + 1e-9 * (double)time.tv_nsec;
}

static int connect_to(int port) {
    struct sockaddr_in address = {.sin_family = AF_INET, .sin_port = htons((unsigned short)port)};
    address.sin_addr.s_addr = htonl(INADDR_LOOPBACK);
    int handle = socket(AF_INET, SOCK_STREAM, 0);
    int on = 1;
    if (handle < 0 || connect(handle, (struct sockaddr *)&address, sizeof address) != 0) {
        perror("connect");
        exit(1);
    }
    setsockopt(handle, IPPROTO_TCP, TCP_NODELAY, &on, sizeof on);
    return handle;
}

static int write_command(char *at, unsigned long key) {
    static const char *const lazyset[] = {"add", "remove", "has"};
    static const char *const redis[] = {"SADD", "SREM", "SISMEMBER"};
    if (!options.is_redis) {
        return sprintf(at, "%s %lu\n", lazyset[options.verb], key);
    }
    char number[24];
    const char *word = redis[options.verb];
    int length = sprintf(number, "%lu", key);
    return sprintf(at, "*3\r\n$%zu\r\n%s\r\n$1\r\n0\r\n$%d\r\n%s\r\n", strlen(word), word, length, number);
}

// Whether a reply begins as one that changed or found something does.
static int is_yes(char first, char second) {
    return options.is_redis ? first == ':' && second == '1' : first == 'y';
}

static int is_reply(char first) {
    return options.is_redis ? first == ':' : first == 'y' || first == 'n';
}

static int send_all(int handle, const char *bytes, size_t length) {
    while (length > 0) {
        ssize_t sent = write(handle, bytes, length);
        if (sent <= 0) {
            return -1;
        }
        bytes += sent;
        length -= (size_t)sent;
    }
    return 0;
}

// Reads what has come on a connection: replies, each of which is one line.
static int take_replies(struct worker *worker, struct connection *it) {
    char buffer[LINE + PIECE];
    memcpy(buffer, it->rest, it->kept);
    ssize_t count = read(it->socket, buffer + it->kept, PIECE);
    if (count <= 0) {
        return -1;
    }
    size_t end = it->kept + (size_t)count, start = 0;
    for (char *feed; (feed = memchr(buffer + start, '\n', end - start)); start = (size_t)(feed - buffer) + 1) {
        if (!is_reply(buffer[start])) {
            return -1;
        }
        worker->yes += (unsigned long)is_yes(buffer[start], buffer[start + 1]);
        worker->answered++;
        it->wanted--;
    }
    it->kept = end - start;
    if (it->kept > LINE || it->wanted < 0) {
        return -1;
    }
    memcpy(it->rest, buffer + start, it->kept);
    return 0;
}

// The key at a place of the order.
static unsigned long key_at(unsigned long place) {
    static const unsigned long stride = 40503;
    return options.first + (options.is_ordered ? place : place * stride % options.count);
}

// Sends the next commands of a connection: none where the time is over, or the keys are used up.
static int send_next(struct connection *it) {
    char lines[MOST_DEPTH * LINE];
    size_t length = 0;
    if (now() >= ends_at) {
        return 0;
    }
    for (; it->wanted < options.depth; it->wanted++) {
        if (it->place >= options.count) {
            if (!options.goes_round) {
                break;
            }
            it->place = (unsigned long)it->index;
        }
        length += (size_t)write_command(lines + length, key_at(it->place));
        it->place += (unsigned long)options.connections;
    }
    it->sent_at = now();
    return send_all(it->socket, lines, length);
}

static void note_wait(struct worker *worker, double seconds) {
    int step = (int)(STEPS * log2(1 + 1e6 * seconds));
    worker->waits[step < WAITS ? step : WAITS - 1]++;
}

// The milliseconds that were not exceeded in this part of all waits.
static double wait_of(const struct worker *workers, double part) {
    unsigned long sums[WAITS] = {0}, all = 0, sum = 0;
    int step = 0;
    for (int i = 0; i < options.threads; i++) {
        for (int j = 0; j < WAITS; j++) {
            sums[j] += workers[i].waits[j];
            all += workers[i].waits[j];
        }
    }
    for (; step < WAITS - 1 && (double)(sum += sums[step]) < part * (double)all; step++) {
    }
    return 1e-3 * (exp2((double)(step + 1) / STEPS) - 1);
}

// Takes what has come on a connection, and goes on with it where all is answered.
static void go_on(struct worker *worker, struct connection *it) {
    int failed = take_replies(worker, it) != 0;
    if (!failed && it->wanted == 0) {
        note_wait(worker, now() - it->sent_at);
        failed = send_next(it) != 0;
    }
    if (failed || it->wanted == 0) {
        worker->failed |= failed;
        worker->running--;
        epoll_ctl(worker->ready, EPOLL_CTL_DEL, it->socket, NULL);
    }
}

// Begins with each connection of a thread's share.
static void start(struct worker *worker) {
    for (int i = worker->index; i < options.connections; i += options.threads) {
        struct epoll_event event = {.events = EPOLLIN, .data.ptr = &connections[i]};
        worker->failed |= epoll_ctl(worker->ready, EPOLL_CTL_ADD, connections[i].socket, &event) != 0 || send_next(&connections[i]) != 0;
        worker->running += connections[i].wanted > 0;
    }
}

static void *work(void *given) {
    struct worker *worker = given;
    struct epoll_event events[MOST_READY];
    pthread_barrier_wait(&begin);
    start(worker);
    if (worker->running == 1) {
        // A read that waits takes one call for a reply, where waiting for one of many takes two.
        while (worker->running && !worker->failed) {
            go_on(worker, &connections[worker->index]);
        }
        return NULL;
    }
    while (worker->running && !worker->failed) {
        int count = epoll_wait(worker->ready, events, MOST_READY, -1);
        for (int i = 0; i < count; i++) {
            go_on(worker, events[i].data.ptr);
        }
    }
    return NULL;
}

static int read_options(char **words) {
    options.is_redis = strcmp(words[1], "redis") == 0;
    options.port = atoi(words[2]);
    options.connections = atoi(words[3]);
    options.depth = atoi(words[4]);
    options.verb = strcmp(words[5], "add") == 0 ? ADD : strcmp(words[5], "remove") == 0 ? REMOVE : HAS;
    options.first = strtoul(words[6], NULL, 10);
    options.count = strtoul(words[7], NULL, 10);
    options.seconds = atof(words[8]);
    options.goes_round = options.verb == HAS && words[9] == NULL;
    options.is_ordered = words[9] != NULL && strcmp(words[9], "ordered") == 0;
    options.threads = options.connections < MOST_THREADS ? options.connections : MOST_THREADS;
    return options.connections >= 1 && options.connections <= MOST_CONNECTIONS && options.depth >= 1 &&
           options.depth <= MOST_DEPTH && options.count >= (unsigned long)options.connections;
}

// Opens all connections, where the system lets one process have as many.
static void connect_all(void) {
    struct rlimit limit;
    if (getrlimit(RLIMIT_NOFILE, &limit) == 0 && limit.rlim_cur < MOST_CONNECTIONS + SPARE) {
        limit.rlim_cur = limit.rlim_max < MOST_CONNECTIONS + SPARE ? limit.rlim_max : MOST_CONNECTIONS + SPARE;
        setrlimit(RLIMIT_NOFILE, &limit);
    }
    connections = calloc((size_t)options.connections, sizeof *connections);
    if (connections == NULL) {
        perror("memory");
        exit(1);
    }
    for (int i = 0; i < options.connections; i++) {
        connections[i].index = i;
        connections[i].place = (unsigned long)i;
        connections[i].socket = connect_to(options.port);
    }
}

int main(int count, char **words) {
    static struct worker workers[MOST_THREADS];
    unsigned long answered = 0, yes = 0;
    int failed = 0;
    if (count < 9 || count > 10 || !read_options(words)) {
        fprintf(stderr, "load WHAT PORT CONNECTIONS DEPTH VERB FIRST COUNT SECONDS [once]\n");
        return 2;
    }
    pthread_barrier_init(&begin, NULL, (unsigned)options.threads + 1);
    connect_all();
    for (int i = 0; i < options.threads; i++) {
        workers[i].index = i;
        workers[i].ready = epoll_create1(0);
        pthread_create(&workers[i].thread, NULL, work, &workers[i]);
    }
    double began = now();
    ends_at = began + options.seconds;
    pthread_barrier_wait(&begin);
    for (int i = 0; i < options.threads; i++) {
        pthread_join(workers[i].thread, NULL);
        answered += workers[i].answered;
        yes += workers[i].yes;
        failed += workers[i].failed;
    }
    printf("%lu %lu %.6f %.3f %.3f\n", answered, yes, now() - began, wait_of(workers, 0.5), wait_of(workers, 0.99));
    return failed != 0;
}
