// Claims ids of a service that forgets (`serve .. --text --forget SECONDS`), and judges each answer by the times of this process alone.
//
//     claims PORT CONNECTIONS DEPTH RATE MINUTES AGAIN SECONDS EPOCHS TOLD SLACK KEPT
//
// On each connection DEPTH claims are sent at once, and the next ones when all of them are answered, so that all of them come to RATE a second; as fast
// as they are answered where that is 0. AGAIN of 100 claims are of an id whose first claim was told OK within the last two lives, a life being
// SECONDS * EPOCHS / (EPOCHS - 1). The judge goes by TOLD in place of SECONDS, and lets a life last for SLACK seconds more. KEPT ids are kept at most.
// An id belongs to one connection, and isn't claimed again before it has its answer: so no two claims of it are under way at once, and what may be told
// of it follows from the times.
// Each 10 seconds it prints `at` and the seconds; the claims that were answered, those told OK and those told nil; the faults: OK too early, nil too
// late, nil of an id that nobody had claimed; the replies FULL, and other ones; all of them since the start; and the milliseconds within which half of
// the claims of these 10 seconds were answered, 99 of 100 and all. Last it prints `all` and these milliseconds of all claims. The status is 1 where a
// connection was lost, or had no reply for 30 seconds, whatever the faults are.
#define _GNU_SOURCE
#include <arpa/inet.h>
#include <errno.h>
#include <fcntl.h>
#include <math.h>
#include <netinet/tcp.h>
#include <poll.h>
#include <stdint.h>
#include <stdio.h>
#include <stdlib.h>
#include <string.h>
#include <time.h>
#include <unistd.h>

enum { MOST_CONNECTIONS = 1000, MOST_DEPTH = 1024, FRAME = 128, LINE = 256, PIECE = 16384, STEPS = 16, WAITS = 40 * STEPS };
// How often an id is drawn until one may be claimed, how many faults are shown, and the seconds from line to line and for which a reply is waited.
enum { TRIES = 8, SHOWN = 20, EVERY = 10, LONGEST = 30 };

// An id that isn't known as claimed is no id to claim again: its first claim wasn't told OK, or a reply leaves open whether it was added.
enum state { UNDER_WAY, CLAIMED, DROPPED };
enum reply { NEW, KNOWN, FULL, OTHER };

// When the last claim that was told OK was sent and answered, 0 where there is none, and when the first claim was sent.
struct id {
    double sent;
    double answered;
    float first;
    enum state state;
};

// A connection: a ring with the ids from the oldest one to the next one; the ids that are under way, and how many of them are answered; when these were
// sent, and when the next ones are due; what is sent, and how much of it; and the beginning of a reply.
struct connection {
    int index;
    int socket;
    struct id *ids;
    unsigned long oldest, next, *asked;
    int wanted;
    int answered;
    double sent_at;
    double due;
    char *frames;
    size_t length;
    size_t written;
    size_t kept;
    char rest[LINE];
};

struct options {
    int port;
    int connections;
    int depth;
    double rate;
    double ends_at;
    double again;
    int seconds;
    double life;
    double told;
    double told_life;
    double slack;
    unsigned long kept;
};

struct counts {
    unsigned long answered, told_new, told_known, too_early, too_late, unclaimed, full, other;
};

// How often an answer took so many microseconds, by sixteenths of a doubling, and the longest one.
struct waits {
    unsigned long counts[WAITS];
    double longest;
};

static struct options options;
static struct connection *connections;
static struct counts counts;
static struct waits lately, always;
static double began;

// Seconds since the load began, which a float tells well enough.
static double now(void) {
    struct timespec time;
    clock_gettime(CLOCK_MONOTONIC, &time);
    return (double)time.tv_sec + 1e-9 * (double)time.tv_nsec - began;
}

static unsigned long drawn_below(unsigned long limit) {
    static uint64_t state = 88172645463325252u;
    state ^= state << 13;
    state ^= state >> 7;
    state ^= state << 17;
    return (unsigned long)(state % limit);
}

static void fail(const struct connection *it, const char *why) {
    fprintf(stderr, "claims: connection %d: %s\n", it->index, why);
    exit(1);
}

static int connect_to(int port) {
    struct sockaddr_in address = {.sin_family = AF_INET, .sin_port = htons((unsigned short)port)};
    address.sin_addr.s_addr = htonl(INADDR_LOOPBACK);
    int handle = socket(AF_INET, SOCK_STREAM, 0), on = 1;
    if (handle < 0 || connect(handle, (struct sockaddr *)&address, sizeof address) != 0) {
        perror("connect");
        exit(1);
    }
    setsockopt(handle, IPPROTO_TCP, TCP_NODELAY, &on, sizeof on);
    fcntl(handle, F_SETFL, fcntl(handle, F_GETFL) | O_NONBLOCK);
    return handle;
}

static struct id *id_of(const struct connection *it, unsigned long number) {
    return &it->ids[number % options.kept];
}

// Drops the ids that are too old to be drawn, and as many more as the next ones need: none is under way then.
static void drop_ids(struct connection *it, double time) {
    unsigned long most = options.kept - (unsigned long)options.depth;
    while (it->oldest < it->next && (id_of(it, it->oldest)->first < time - 2 * options.life || it->next - it->oldest > most)) {
        it->oldest++;
    }
}

// An id of this connection that may be claimed again, or the next one, where none is found or a new one is wanted.
static unsigned long draw(struct connection *it, double time) {
    int is_again = (double)drawn_below(1000000) < 1e4 * options.again && it->oldest < it->next;
    for (int i = 0; is_again && i < TRIES; i++) {
        unsigned long number = it->oldest + drawn_below(it->next - it->oldest);
        if (id_of(it, number)->state == CLAIMED) {
            return number;
        }
    }
    *id_of(it, it->next) = (struct id){.first = (float)time};
    return it->next++;
}

static int write_claim(char *at, const struct connection *it, unsigned long number) {
    char text[48], seconds[16];
    int length = sprintf(text, "evt_%d_%lu", it->index, number), digits = sprintf(seconds, "%d", options.seconds);
    return sprintf(at, "*6\r\n$3\r\nSET\r\n$%d\r\n%s\r\n$1\r\n1\r\n$2\r\nNX\r\n$2\r\nEX\r\n$%d\r\n%s\r\n", length, text, digits, seconds);
}

// Writes what isn't written yet of the claims that are under way, as far as the socket takes it.
static void write_on(struct connection *it) {
    while (it->written < it->length) {
        ssize_t count = write(it->socket, it->frames + it->written, it->length - it->written);
        if (count < 0 && (errno == EAGAIN || errno == EINTR)) {
            return;
        }
        if (count <= 0) {
            fail(it, "it can't be written to");
        }
        it->written += (size_t)count;
    }
}

// Sends the next claims of a connection. They count as sent before the first byte is, so that none was carried out earlier than that.
static void send_next(struct connection *it, double time) {
    double step = options.rate > 0 ? options.depth * options.connections / options.rate : 0;
    drop_ids(it, time);
    it->length = it->written = 0, it->answered = 0;
    for (it->wanted = 0; it->wanted < options.depth; it->wanted++) {
        unsigned long number = draw(it, time);
        id_of(it, number)->state = UNDER_WAY;
        it->asked[it->wanted] = number;
        it->length += (size_t)write_claim(it->frames + it->length, it, number);
    }
    // Up to a second that was lost is made up for.
    it->due = fmax(it->due + step, time - 1);
    it->sent_at = now();
    write_on(it);
}

static void note_wait(struct waits *waits, double seconds) {
    int step = (int)(STEPS * log2(1 + 1e6 * seconds));
    waits->counts[step < WAITS ? step : WAITS - 1]++;
    waits->longest = fmax(waits->longest, seconds);
}

// The milliseconds that were not exceeded in this part of the answers.
static double wait_of(const struct waits *waits, double part) {
    unsigned long all = 0, sum = 0;
    int step = 0;
    for (int i = 0; i < WAITS; i++) {
        all += waits->counts[i];
    }
    for (; step < WAITS - 1 && (double)(sum += waits->counts[step]) < part * (double)all; step++) {
    }
    return fmin(1e-3 * (exp2((double)(step + 1) / STEPS) - 1), 1e3 * waits->longest);
}

// Counts a fault, and shows the first ones.
static void fault(unsigned long *count, const char *what, const struct connection *it, unsigned long number, double time) {
    const struct id *id = id_of(it, number);
    static int shown;
    ++*count;
    if (shown++ >= SHOWN) {
        return;
    }
    fprintf(stderr, "fault: %s: evt_%d_%lu, claimed at %.6f, answered at %.6f", what, it->index, number, it->sent_at, time);
    if (id->answered > 0) {
        fprintf(stderr, "; OK before that: claimed at %.6f, answered at %.6f", id->sent, id->answered);
    }
    fputc('\n', stderr);
}

// Judges the reply to a claim of an id. What was added was added between the times of its claim, so OK says too early what no such times allow, and
// nil too late.
static void judge(struct connection *it, unsigned long number, enum reply reply, double time) {
    struct id *id = id_of(it, number);
    if (reply == NEW) {
        if (id->answered > 0 && time - id->sent < options.told) {
            fault(&counts.too_early, "OK too early", it, number, time);
        }
        id->sent = it->sent_at;
        id->answered = time;
        counts.told_new++;
    } else if (reply == KNOWN) {
        if (id->answered <= 0) {
            fault(&counts.unclaimed, "nil of what nobody had claimed", it, number, time);
        } else if (it->sent_at - id->answered > options.told_life + options.slack) {
            fault(&counts.too_late, "nil too late", it, number, time);
        }
        counts.told_known++;
    } else {
        *(reply == FULL ? &counts.full : &counts.other) += 1;
    }
    id->state = reply != OTHER && id->answered > 0 ? CLAIMED : DROPPED;
}

static enum reply reply_of(const char *line, size_t length) {
    static int shown;
    if (length == 4 && memcmp(line, "+OK\r", 4) == 0) {
        return NEW;
    }
    if (length == 4 && memcmp(line, "$-1\r", 4) == 0) {
        return KNOWN;
    }
    if (shown++ < SHOWN) {
        fprintf(stderr, "reply: %.*s\n", (int)length - 1, line);
    }
    return length > 5 && memcmp(line, "-FULL", 5) == 0 ? FULL : OTHER;
}

// Takes the replies that have come on a connection, each of which is one line. They count as answered after they were read.
static void take_replies(struct connection *it) {
    char buffer[LINE + PIECE];
    memcpy(buffer, it->rest, it->kept);
    ssize_t count = read(it->socket, buffer + it->kept, PIECE);
    double time = now();
    if (count < 0 && (errno == EAGAIN || errno == EINTR)) {
        return;
    }
    if (count <= 0) {
        fail(it, "it has ended");
    }
    size_t end = it->kept + (size_t)count, start = 0;
    for (char *feed; (feed = memchr(buffer + start, '\n', end - start)); start = (size_t)(feed - buffer) + 1) {
        if (it->answered >= it->wanted) {
            fail(it, "there is a reply to nothing");
        }
        judge(it, it->asked[it->answered++], reply_of(buffer + start, (size_t)(feed - buffer) - start), time);
        note_wait(&lately, time - it->sent_at);
        note_wait(&always, time - it->sent_at);
        counts.answered++;
    }
    it->kept = end - start;
    if (it->kept > LINE) {
        fail(it, "a reply is too long");
    }
    memcpy(it->rest, buffer + start, it->kept);
}

static int waits_for_replies(const struct connection *it) {
    return it->answered < it->wanted;
}

// Sends what is due, waits until something else is or a reply has come, and takes the replies. Says whether anything is still to be done.
static int turn(void) {
    static struct pollfd polls[MOST_CONNECTIONS];
    double time = now(), until = time + 0.1;
    int is_over = time >= options.ends_at, is_waiting = 0;
    for (int i = 0; i < options.connections; i++) {
        struct connection *it = &connections[i];
        if (!waits_for_replies(it) && it->due <= time && !is_over) {
            send_next(it, time);
        }
        if (waits_for_replies(it)) {
            is_waiting = 1;
            if (time - it->sent_at > LONGEST) {
                fail(it, "it had no reply for too long");
            }
        } else if (!is_over) {
            until = fmin(until, it->due);
        }
        polls[i] = (struct pollfd){.fd = it->socket, .events = (short)(POLLIN | (it->written < it->length ? POLLOUT : 0))};
    }
    struct timespec limit = {.tv_nsec = (long)(1e9 * fmax(until - now(), 0))};
    if (is_over && !is_waiting) {
        return 0;
    }
    ppoll(polls, (nfds_t)options.connections, &limit, NULL);
    for (int i = 0; i < options.connections; i++) {
        if (polls[i].revents & POLLOUT) {
            write_on(&connections[i]);
        }
        if (polls[i].revents & ~POLLOUT) {
            take_replies(&connections[i]);
        }
    }
    return 1;
}

// A line of what happened since the last one.
static void report(void) {
    printf("at %.3f %lu %lu %lu ", now(), counts.answered, counts.told_new, counts.told_known);
    printf("%lu %lu %lu %lu %lu ", counts.too_early, counts.too_late, counts.unclaimed, counts.full, counts.other);
    printf("%.3f %.3f %.3f\n", wait_of(&lately, 0.5), wait_of(&lately, 0.99), 1e3 * lately.longest);
    fflush(stdout);
    lately = (struct waits){0};
}

// The last lines, also where a connection is lost.
static void report_all(void) {
    report();
    printf("all %.3f %.3f %.3f\n", wait_of(&always, 0.5), wait_of(&always, 0.99), 1e3 * always.longest);
}

static int read_options(char **words) {
    int epochs = atoi(words[8]);
    options.port = atoi(words[1]);
    options.connections = atoi(words[2]);
    options.depth = atoi(words[3]);
    options.rate = atof(words[4]);
    options.ends_at = 60 * atof(words[5]);
    options.again = atof(words[6]);
    options.seconds = atoi(words[7]);
    if (options.connections < 1 || options.connections > MOST_CONNECTIONS || options.depth < 1 || options.depth > MOST_DEPTH || epochs < 2) {
        return 0;
    }
    double longer = (double)epochs / (epochs - 1);
    options.told = atof(words[9]);
    options.life = options.seconds * longer;
    options.told_life = options.told * longer;
    options.slack = atof(words[10]);
    options.kept = strtoul(words[11], NULL, 10) / (unsigned long)options.connections + 2 * (unsigned long)options.depth;
    return 1;
}

static void *allocated(size_t count, size_t size) {
    void *found = calloc(count, size);
    if (found == NULL) {
        perror("memory");
        exit(1);
    }
    return found;
}

int main(int count, char **words) {
    if (count != 12 || !read_options(words)) {
        fputs("claims PORT CONNECTIONS DEPTH RATE MINUTES AGAIN SECONDS EPOCHS TOLD SLACK KEPT\n", stderr);
        return 2;
    }
    connections = allocated((size_t)options.connections, sizeof *connections);
    for (int i = 0; i < options.connections; i++) {
        struct connection *it = &connections[i];
        it->index = i;
        it->socket = connect_to(options.port);
        it->ids = allocated(options.kept, sizeof *it->ids);
        it->asked = allocated((size_t)options.depth, sizeof *it->asked);
        it->frames = allocated((size_t)options.depth, FRAME);
        // So that they aren't all due at once.
        it->due = options.rate > 0 ? options.depth * i / options.rate : 0;
    }
    began = now();
    atexit(report_all);
    for (double report_at = EVERY; turn();) {
        if (now() >= report_at && report_at + 1 < options.ends_at) {
            report();
            report_at += EVERY;
        }
    }
    return 0;
}
