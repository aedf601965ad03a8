// What an embedded store does with the batches of one consumer: keys that are added or looked up, so many in a transaction.
//
//     batch FILE VERB BATCH COUNT SECONDS
//
// VERB is add or has; the COUNT keys (a power of two) come in a scattered order. A transaction that adds is synced before the next one begins. With has
// half of the keys are members, put there before. It ends after SECONDS, or when the keys of an add are used up, and prints how many keys were taken,
// how many of them were added or found, and the seconds that it took. Built with -DSQLITE it is SQLite (a write-ahead log, synchronous=FULL), else LMDB.
#include <stdio.h>
#include <stdlib.h>
#include <string.h>
#include <time.h>
#ifdef SQLITE
#include <sqlite3.h>
#else
#include <lmdb.h>
#endif

static unsigned long count;

static double now(void) {
    struct timespec time;
    clock_gettime(CLOCK_MONOTONIC, &time);
    return (double)time.tv_sec + 1e-9 * (double)time.tv_nsec;
}

static unsigned long key_at(unsigned long place) {
    static const unsigned long stride = 40503;
    return place * stride % count;
}

static void check(int failed, const char *what) {
    if (failed) {
        fprintf(stderr, "batch: %s failed\n", what);
        exit(1);
    }
}

#ifdef SQLITE
static sqlite3 *base;
static sqlite3_stmt *adds, *looks;

static void run(const char *text) { check(sqlite3_exec(base, text, NULL, NULL, NULL) != SQLITE_OK, text); }

static void open_store(const char *file) {
    check(sqlite3_open(file, &base) != SQLITE_OK, "open");
    run("PRAGMA journal_mode=WAL; PRAGMA synchronous=FULL; CREATE TABLE keys (key INTEGER PRIMARY KEY) WITHOUT ROWID");
    check(sqlite3_prepare_v2(base, "INSERT OR IGNORE INTO keys VALUES (?)", -1, &adds, NULL) != SQLITE_OK, "prepare");
    check(sqlite3_prepare_v2(base, "SELECT 1 FROM keys WHERE key = ?", -1, &looks, NULL) != SQLITE_OK, "prepare");
}

static void begin(int writes) { run(writes ? "BEGIN IMMEDIATE" : "BEGIN"); }

static int take(int writes, unsigned long key) {
    sqlite3_stmt *it = writes ? adds : looks;
    sqlite3_bind_int64(it, 1, (sqlite3_int64)key);
    int told = sqlite3_step(it);
    check(told != SQLITE_DONE && told != SQLITE_ROW, "step");
    sqlite3_reset(it);
    return writes ? sqlite3_changes(base) == 1 : told == SQLITE_ROW;
}

static void end(int writes) {
    (void)writes;
    run("COMMIT");
}
#else
static MDB_env *environment;
static MDB_dbi keys;
static MDB_txn *transaction;

static void begin(int writes) { check(mdb_txn_begin(environment, NULL, writes ? 0 : MDB_RDONLY, &transaction), "begin"); }

static void end(int writes) {
    if (writes) {
        check(mdb_txn_commit(transaction), "commit");
    } else {
        mdb_txn_abort(transaction);
    }
}

static void open_store(const char *file) {
    check(mdb_env_create(&environment), "create");
    check(mdb_env_set_mapsize(environment, 1ul << 30), "size");
    check(mdb_env_open(environment, file, MDB_NOSUBDIR, 0600), "open");
    begin(1);
    check(mdb_dbi_open(transaction, NULL, MDB_INTEGERKEY, &keys), "open");
    end(1);
}

static int take(int writes, unsigned long key) {
    MDB_val name = {sizeof key, &key}, nothing = {0, ""};
    if (!writes) {
        return mdb_get(transaction, keys, &name, &nothing) == 0;
    }
    int told = mdb_put(transaction, keys, &name, &nothing, MDB_NOOVERWRITE);
    check(told != 0 && told != MDB_KEYEXIST, "put");
    return told == 0;
}
#endif

int main(int words, char **word) {
    if (words != 6) {
        fputs("usage: batch FILE VERB BATCH COUNT SECONDS\n", stderr);
        return 2;
    }
    int writes = strcmp(word[2], "add") == 0;
    unsigned long batch = strtoul(word[3], NULL, 10), taken = 0, yes = 0;
    count = strtoul(word[4], NULL, 10);
    open_store(word[1]);
    if (!writes) {
        begin(1);
        for (unsigned long key = 0; key < count / 2; key++) {
            take(1, key);
        }
        end(1);
    }
    double began = now(), ends = began + strtod(word[5], NULL);
    while (now() < ends && !(writes && taken >= count)) {
        begin(writes);
        for (unsigned long i = 0; i < batch; i++, taken++) {
            yes += (unsigned long)take(writes, key_at(taken % count));
        }
        end(writes);
    }
    printf("%lu %lu %.6f\n", taken, yes, now() - began);
    return 0;
}
