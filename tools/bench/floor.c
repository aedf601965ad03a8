// The floor of the device: writes slots of 16 bytes into a file of this folder and syncs them, again and again, from one thread.
//
//     floor FILE SECONDS [SLOTS [together]]
//
// Before each sync it writes SLOTS slots (1), scattered and by a write each; with `together` side by side and by one write. Prints how many slots
// were written, and the seconds that it took.
#include <fcntl.h>
#include <stdio.h>
#include <stdlib.h>
#include <time.h>
#include <unistd.h>

enum { SLOT = 16, ALL = 65536 };

static double now(void) {
    struct timespec time;
    clock_gettime(CLOCK_MONOTONIC, &time);
    return (double)time.tv_sec + 1e-9 * (double)time.tv_nsec;
}

// Writes so many slots, the first of which is slot number `first` in an order that scatters them.
static int write_slots(int file, unsigned long first, unsigned long slots, int together) {
    static const char bytes[SLOT * ALL];
    if (together) {
        size_t length = SLOT * slots;
        return pwrite(file, bytes, length, SLOT * (off_t)(first % (ALL - slots + 1))) == (ssize_t)length;
    }
    for (unsigned long done = first; done < first + slots; done++)
        if (pwrite(file, bytes, SLOT, SLOT * (off_t)(done * 7919 % ALL)) != SLOT)
            return 0;
    return 1;
}

int main(int count, char **words) {
    static const char all[SLOT * ALL];
    unsigned long done = 0, slots = count > 3 ? strtoul(words[3], NULL, 10) : 1;
    if (count < 3 || count > 5 || slots < 1 || slots > ALL) {
        fprintf(stderr, "floor FILE SECONDS [SLOTS [together]]\n");
        return 2;
    }
    int file = open(words[1], O_RDWR | O_CREAT, 0600);
    // All bytes are written first, as a making does, so that no write has to find room.
    if (file < 0 || pwrite(file, all, sizeof all, 0) != (ssize_t)sizeof all || fsync(file) != 0) {
        perror(words[1]);
        return 1;
    }
    double began = now(), ends_at = began + atof(words[2]);
    while (now() < ends_at) {
        if (!write_slots(file, done, slots, count > 4) || fdatasync(file) != 0) {
            perror("sync");
            return 1;
        }
        done += slots;
    }
    printf("%lu %.6f\n", done, now() - began);
    return 0;
}
