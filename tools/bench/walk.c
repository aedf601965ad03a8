// Looks for keys in sorted lists of plain nodes, which one thread has for itself: what a glance at a set is compared with.
//
//     walk MEMBERS BUCKETS MILLISECONDS
//
// The members are the even numbers below 2 * MEMBERS, and each number below that is looked for in turn, as `alloc_drills` does.
// Prints how many looks found a member: half of them.
#include <stdint.h>
#include <stdio.h>
#include <stdlib.h>
#include <time.h>

struct node {
    uint64_t key;
    const struct node *next;
};

static double now(void) {
    struct timespec time;
    clock_gettime(CLOCK_MONOTONIC, &time);
    return (double)time.tv_sec + 1e-9 * (double)time.tv_nsec;
}

static int has(const struct node *node, uint64_t key) {
    while (node && node->key < key) node = node->next;
    return node && node->key == key;
}

int main(int count, char **words) {
    uint64_t members = count == 4 ? strtoull(words[1], NULL, 10) : 0, buckets = members ? strtoull(words[2], NULL, 10) : 0;
    struct node *nodes = calloc(members, sizeof *nodes);
    const struct node **heads = calloc(buckets, sizeof *heads);
    if (!members || !buckets || !nodes || !heads) {
        fprintf(stderr, "walk MEMBERS BUCKETS MILLISECONDS\n");
        return 2;
    }
    // Neighbours in a list lie far from one another.
    uint64_t *places = calloc(members, sizeof *places);
    if (!places) return 1;
    for (uint64_t place = 0; place < members; place++) places[place * 389 % members] = place;
    for (uint64_t member = members; member-- > 0;) {
        struct node *node = &nodes[places[member]];
        uint64_t key = 2 * member;
        *node = (struct node){key, heads[key % buckets]};
        heads[key % buckets] = node;
    }
    uint64_t found = 0;
    double ends_at = now() + 1e-3 * atof(words[3]);
    for (uint64_t look = 0; look % 2000 != 0 || now() < ends_at; look++) {
        uint64_t key = look * 1201 % (2 * members);
        found += has(heads[key % buckets], key);
    }
    printf("%llu\n", (unsigned long long)found);
    return 0;
}
