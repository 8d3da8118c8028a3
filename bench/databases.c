/* A sale, three values of 8 bytes changed in one transaction, by the purse store, SQLite and LMDB: in memory, and on disk with every
 * transaction durable. databases [FOLDER]: the folder for the files, /tmp if none is named. */
#define _POSIX_C_SOURCE 200809L
#include "purse.h"

#include <fcntl.h>
#include <stdio.h>
#include <stdlib.h>
#include <string.h>
#include <sys/stat.h>
#include <time.h>
#include <unistd.h>

#ifdef WITH_SQLITE
#include <sqlite3.h>
#endif
#ifdef WITH_LMDB
#include <lmdb.h>
#endif

enum { FILES = 64, BLOCKS = 512, ROUNDS = 5 };

static char path[4096];

static const char *in_folder(const char *folder, const char *file) {
    snprintf(path, sizeof path, "%s/%s.%ld", folder, file, (long)getpid());
    return path;
}

static void must(int ok, const char *what) {
    if (!ok) {
        fprintf(stderr, "databases: %s\n", what);
        exit(1);
    }
}

static double now(void) {
    struct timespec t;
    clock_gettime(CLOCK_MONOTONIC, &t);
    return (double)t.tv_sec * 1e6 + (double)t.tv_nsec / 1e3;
}

static void name_of(unsigned i, uint8_t name[8]) {
    memset(name, 0, 8);
    name[0] = 4;
    name[6] = (uint8_t)(i / 256);
    name[7] = (uint8_t)(i % 256 + 1);
}

/* Microseconds for one sale: the smallest of some rounds of n sales. */
static double timed(unsigned n, void (*sale)(void *, unsigned), void *state) {
    double best = 0;
    unsigned k = 0;
    for (int round = 0; round < ROUNDS; round++) {
        double start = now();
        for (unsigned i = 0; i < n; i++)
            sale(state, k++);
        double each = (now() - start) / n;
        if (round == 0 || each < best)
            best = each;
    }
    return best;
}

/* ---- the purse store */

struct box {
    uint8_t device[BLOCKS * PURSE_BLOCK];
    uint8_t work[PURSE_WORK];
    purse_session session;
    int file; /* -1: in memory */
};

static void store_all(struct box *b) {
    purse_store s;
    do {
        must(purse_advance(b->device, sizeof b->device, b->work, sizeof b->work, &b->session, &s) == 0, "advance");
        if (b->file >= 0) {
            must(pwrite(b->file, b->device + s.block * PURSE_BLOCK, PURSE_BLOCK, (off_t)(s.block * PURSE_BLOCK)) == PURSE_BLOCK, "pwrite");
            must(fdatasync(b->file) == 0, "fdatasync");
        }
    } while (!s.last);
}

static void purse_sale(void *state, unsigned k) {
    struct box *b = state;
    uint8_t name[8], value[8];
    uint64_t stores;
    for (unsigned j = 0; j < 3; j++) {
        name_of((k + j) % FILES, name);
        memcpy(value, &k, sizeof k);
        memset(value + sizeof k, 0, 8 - sizeof k);
        must(purse_write(b->device, sizeof b->device, b->work, sizeof b->work, &b->session, name, 8, 0, value, 8) == 0, "write");
    }
    must(purse_commit(b->device, sizeof b->device, b->work, sizeof b->work, &b->session, &stores) == 0 && stores == 8, "commit");
    store_all(b);
}

static void make_box(struct box *b, int file) {
    static const purse_session never = PURSE_NEVER_OPENED;
    uint8_t name[8], zeros[8] = {0};
    uint64_t record, stores;
    b->session = never;
    b->file = -1;
    must(purse_format(b->device, sizeof b->device, &b->session) == 0, "format");
    must(purse_open(b->device, sizeof b->device, &b->session, &record) == 0, "open");
    for (unsigned i = 0; i < FILES; i++) {
        name_of(i, name);
        must(purse_create(b->device, sizeof b->device, b->work, sizeof b->work, &b->session, name, 8) == 0, "create");
        must(purse_write(b->device, sizeof b->device, b->work, sizeof b->work, &b->session, name, 8, 0, zeros, 8) == 0, "first write");
        must(purse_commit(b->device, sizeof b->device, b->work, sizeof b->work, &b->session, &stores) == 0, "first commit");
        store_all(b);
    }
    b->file = file;
    if (file >= 0)
        must(pwrite(file, b->device, sizeof b->device, 0) == (ssize_t)sizeof b->device && fsync(file) == 0, "image");
}

static double with_purse(const char *folder, unsigned n) {
    static struct box b;
    int file = -1;
    if (folder)
        must((file = open(in_folder(folder, "purse"), O_RDWR | O_CREAT | O_TRUNC, 0600)) >= 0, "open of the image");
    make_box(&b, file);
    double each = timed(n, purse_sale, &b);
    if (folder) {
        close(file);
        unlink(in_folder(folder, "purse"));
    }
    return each;
}

/* ---- SQLite */

#ifdef WITH_SQLITE
struct table {
    sqlite3 *db;
    sqlite3_stmt *begin, *put, *commit;
};

static void run(sqlite3 *db, const char *sql) { must(sqlite3_exec(db, sql, 0, 0, 0) == SQLITE_OK, sql); }

static sqlite3_stmt *made(sqlite3 *db, const char *sql) {
    sqlite3_stmt *s;
    must(sqlite3_prepare_v2(db, sql, -1, &s, 0) == SQLITE_OK, sql);
    return s;
}

static void step(sqlite3_stmt *s) {
    must(sqlite3_step(s) == SQLITE_DONE, "step");
    sqlite3_reset(s);
}

static void sqlite_sale(void *state, unsigned k) {
    struct table *t = state;
    uint8_t name[8], value[8] = {0};
    step(t->begin);
    for (unsigned j = 0; j < 3; j++) {
        name_of((k + j) % FILES, name);
        memcpy(value, &k, sizeof k);
        sqlite3_bind_blob(t->put, 1, value, 8, SQLITE_STATIC);
        sqlite3_bind_blob(t->put, 2, name, 8, SQLITE_STATIC);
        step(t->put);
    }
    step(t->commit);
}

static double with_sqlite(const char *folder, const char *mode, unsigned n) {
    struct table t;
    char pragma[64], tail[4200];
    uint8_t name[8];
    must(sqlite3_open(folder ? in_folder(folder, "sqlite") : ":memory:", &t.db) == SQLITE_OK, "sqlite3_open");
    snprintf(pragma, sizeof pragma, "PRAGMA journal_mode=%s", mode);
    run(t.db, pragma);
    run(t.db, "PRAGMA synchronous=FULL");
    run(t.db, "CREATE TABLE purse(name BLOB PRIMARY KEY, content BLOB) WITHOUT ROWID");
    sqlite3_stmt *insert = made(t.db, "INSERT INTO purse VALUES(?, zeroblob(8))");
    for (unsigned i = 0; i < FILES; i++) {
        name_of(i, name);
        sqlite3_bind_blob(insert, 1, name, 8, SQLITE_STATIC);
        step(insert);
    }
    t.begin = made(t.db, "BEGIN IMMEDIATE");
    t.put = made(t.db, "UPDATE purse SET content=? WHERE name=?");
    t.commit = made(t.db, "COMMIT");
    double each = timed(n, sqlite_sale, &t);
    sqlite3_finalize(insert);
    sqlite3_finalize(t.begin);
    sqlite3_finalize(t.put);
    sqlite3_finalize(t.commit);
    sqlite3_close(t.db);
    if (folder) {
        unlink(in_folder(folder, "sqlite"));
        snprintf(tail, sizeof tail, "%s-wal", path);
        unlink(tail);
        snprintf(tail, sizeof tail, "%s-shm", path);
        unlink(tail);
    }
    return each;
}
#endif

/* ---- LMDB */

#ifdef WITH_LMDB
struct tree {
    MDB_env *env;
    MDB_dbi dbi;
};

static void lmdb_sale(void *state, unsigned k) {
    struct tree *t = state;
    MDB_txn *txn;
    uint8_t name[8], value[8] = {0};
    must(mdb_txn_begin(t->env, NULL, 0, &txn) == 0, "mdb_txn_begin");
    for (unsigned j = 0; j < 3; j++) {
        name_of((k + j) % FILES, name);
        memcpy(value, &k, sizeof k);
        MDB_val key = {8, name}, content = {8, value};
        must(mdb_put(txn, t->dbi, &key, &content, 0) == 0, "mdb_put");
    }
    must(mdb_txn_commit(txn) == 0, "mdb_txn_commit");
}

static double with_lmdb(const char *folder, unsigned flags, unsigned n) {
    struct tree t;
    MDB_txn *txn;
    char tail[4200];
    must(mdb_env_create(&t.env) == 0 && mdb_env_set_mapsize(t.env, 16u << 20) == 0, "mdb_env_create");
    must(mdb_env_open(t.env, in_folder(folder, "lmdb"), MDB_NOSUBDIR | flags, 0600) == 0, "mdb_env_open");
    must(mdb_txn_begin(t.env, NULL, 0, &txn) == 0 && mdb_dbi_open(txn, NULL, 0, &t.dbi) == 0 && mdb_txn_commit(txn) == 0, "mdb_dbi_open");
    for (unsigned i = 0; i < FILES; i += 3)
        lmdb_sale(&t, i);
    double each = timed(n, lmdb_sale, &t);
    mdb_env_close(t.env);
    unlink(in_folder(folder, "lmdb"));
    snprintf(tail, sizeof tail, "%s-lock", path);
    unlink(tail);
    return each;
}
#endif

static void line(const char *what, double each, double purse) { printf("%-52s%12.2f%12.2f\n", what, each, each / purse); }

int main(int argc, char **argv) {
    const char *disk = argc > 1 ? argv[1] : "/tmp";
    double memory = with_purse(NULL, 20000), durable = with_purse(disk, 100);
    printf("\na sale of three values, microseconds\n%-52s%12s%12s\n", "", "each", "times purse");
    line("purse, in memory", memory, memory);
#ifdef WITH_SQLITE
    line("SQLite, :memory:", with_sqlite(NULL, "MEMORY", 20000), memory);
#endif
#ifdef WITH_LMDB
    line("LMDB, /dev/shm, without sync", with_lmdb("/dev/shm", MDB_NOSYNC | MDB_WRITEMAP, 20000), memory);
#endif
    line("purse, on disk, fdatasync after each of 8 stores", durable, durable);
#ifdef WITH_SQLITE
    line("SQLite, on disk, rollback journal, synchronous FULL", with_sqlite(disk, "DELETE", 100), durable);
    line("SQLite, on disk, write-ahead log, synchronous FULL", with_sqlite(disk, "WAL", 100), durable);
#endif
#ifdef WITH_LMDB
    line("LMDB, on disk, sync at each commit", with_lmdb(disk, 0, 100), durable);
#endif
    return 0;
}
