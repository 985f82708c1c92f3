/* One key-value store, filled and then asked at random: peers.py builds it once a store and runs it.
 *
 *   peers DIR RECORDS BYTES GETS THREADS AT_ONCE [PROGRAM SETTING..]
 *
 * Built with one of -DFOYERPIPE, -DLEVELDB, -DROCKSDB, -DLMDB. Keys are eight bytes in random order. Nothing is compressed and nothing synced.
 * AT_ONCE above 1 asks for so many keys at once, of foyerpipe alone. It prints the seconds of the fill and of the gets. Each value is compared. */
#define _POSIX_C_SOURCE 200809L
#include <pthread.h>
#include <stdint.h>
#include <stdio.h>
#include <stdlib.h>
#include <string.h>
#include <sys/stat.h>
#include <time.h>

enum { POOL = 1 << 20, MOST_AT_ONCE = 1024, MOST_THREADS = 64 };

static const char *directory;
static size_t size;
static uint64_t records, gets, at_once;
static char pool[POOL];

static void fail(const char *why) {
    fprintf(stderr, "%s\n", why);
    exit(3);
}

static double seconds(void) {
    struct timespec now;
    clock_gettime(CLOCK_MONOTONIC, &now);
    return (double)now.tv_sec + 1e-9 * (double)now.tv_nsec;
}

static uint64_t mixed(uint64_t n) {
    n += 0x9E3779B97F4A7C15u;
    n = (n ^ n >> 30) * 0xBF58476D1CE4E5B9u;
    n = (n ^ n >> 27) * 0x94D049BB133111EBu;
    return n ^ n >> 31;
}

static uint64_t key_of(uint64_t n) { return mixed(n); }
static const char *value_of(uint64_t n) { return pool + mixed(n ^ 0x7777) % (POOL - size); }

#if defined(FOYERPIPE)
#include "foyer_client.h"
static foyer_cache *cache;
static const char *program, *const *settings;
static uint64_t ahead;
static void store_open(void) {
    cache = foyer_open(program, directory, "2147483648", "16777216", settings);
    if (cache == NULL) fail("foyerpipe isn't opened");
}
static void store_put(uint64_t n) {
    uint64_t key = key_of(n);
    if (foyer_put(cache, &key, 8, value_of(n), size) != FOYER_DONE) fail("a put isn't taken");
    ahead += size + 64;
    if (ahead > 8u << 20) {
        if (foyer_wait(cache) != FOYER_DONE) fail("a wait failed");
        ahead = 0;
    }
}
static void store_filled(void) { if (foyer_wait(cache) != FOYER_DONE) fail("a wait failed"); }
static int store_get(uint64_t n) {
    uint64_t key = key_of(n);
    foyer_value value;
    if (foyer_get(cache, &key, 8, &value) != FOYER_ENTRY) return 0;
    int is_right = value.len == size && !memcmp(value.bytes, value_of(n), size);
    free(value.bytes);
    return is_right;
}
static uint64_t store_get_many(const uint64_t *ns, uint64_t count) {
    uint64_t keys[MOST_AT_ONCE];
    const void *at[MOST_AT_ONCE];
    size_t lens[MOST_AT_ONCE];
    int codes[MOST_AT_ONCE];
    foyer_value values[MOST_AT_ONCE];
    uint64_t right = 0;
    for (uint64_t i = 0; i < count; i++) keys[i] = key_of(ns[i]), at[i] = &keys[i], lens[i] = 8;
    if (foyer_get_many(cache, count, at, lens, codes, values) != FOYER_DONE) fail("gets failed");
    for (uint64_t i = 0; i < count; i++)
        if (codes[i] == FOYER_ENTRY) {
            right += values[i].len == size && !memcmp(values[i].bytes, value_of(ns[i]), size);
            free(values[i].bytes);
        }
    return right;
}
static void store_close(void) { if (foyer_close(cache)) fail("foyerpipe ended badly"); }

#elif defined(LEVELDB)
#include <leveldb/c.h>
static leveldb_t *db;
static leveldb_writeoptions_t *writing;
static leveldb_readoptions_t *reading;
static void store_open(void) {
    char *error = NULL;
    leveldb_options_t *options = leveldb_options_create();
    leveldb_options_set_create_if_missing(options, 1);
    leveldb_options_set_compression(options, leveldb_no_compression);
    leveldb_options_set_filter_policy(options, leveldb_filterpolicy_create_bloom(10));
    leveldb_options_set_cache(options, leveldb_cache_create_lru((size_t)64 << 20));
    leveldb_options_set_write_buffer_size(options, (size_t)16 << 20);
    db = leveldb_open(options, directory, &error);
    if (error) fail(error);
    writing = leveldb_writeoptions_create();
    reading = leveldb_readoptions_create();
    leveldb_readoptions_set_verify_checksums(reading, 1);
}
static void store_put(uint64_t n) {
    char *error = NULL;
    uint64_t key = key_of(n);
    leveldb_put(db, writing, (char *)&key, 8, value_of(n), size, &error);
    if (error) fail(error);
}
static void store_filled(void) {}
static int store_get(uint64_t n) {
    char *error = NULL;
    uint64_t key = key_of(n);
    size_t len = 0;
    char *value = leveldb_get(db, reading, (char *)&key, 8, &len, &error);
    if (error) fail(error);
    int is_right = value != NULL && len == size && !memcmp(value, value_of(n), size);
    leveldb_free(value);
    return is_right;
}
static void store_close(void) { leveldb_close(db); }

#elif defined(ROCKSDB)
#include <rocksdb/c.h>
static rocksdb_t *db;
static rocksdb_writeoptions_t *writing;
static rocksdb_readoptions_t *reading;
static void store_open(void) {
    char *error = NULL;
    rocksdb_options_t *options = rocksdb_options_create();
    rocksdb_block_based_table_options_t *blocks = rocksdb_block_based_options_create();
    rocksdb_block_based_options_set_filter_policy(blocks, rocksdb_filterpolicy_create_bloom_full(10));
    rocksdb_block_based_options_set_block_cache(blocks, rocksdb_cache_create_lru((size_t)64 << 20));
    rocksdb_options_set_block_based_table_factory(options, blocks);
    rocksdb_options_set_create_if_missing(options, 1);
    rocksdb_options_set_compression(options, rocksdb_no_compression);
    rocksdb_options_set_max_background_jobs(options, 2);
    db = rocksdb_open(options, directory, &error);
    if (error) fail(error);
    writing = rocksdb_writeoptions_create();
    reading = rocksdb_readoptions_create();
}
static void store_put(uint64_t n) {
    char *error = NULL;
    uint64_t key = key_of(n);
    rocksdb_put(db, writing, (char *)&key, 8, value_of(n), size, &error);
    if (error) fail(error);
}
static void store_filled(void) {
    char *error = NULL;
    rocksdb_flush(db, rocksdb_flushoptions_create(), &error);
    if (error) fail(error);
}
static int store_get(uint64_t n) {
    char *error = NULL;
    uint64_t key = key_of(n);
    rocksdb_pinnableslice_t *value = rocksdb_get_pinned(db, reading, (char *)&key, 8, &error);
    if (error) fail(error);
    if (value == NULL) return 0;
    size_t len;
    const char *bytes = rocksdb_pinnableslice_value(value, &len);
    int is_right = len == size && !memcmp(bytes, value_of(n), size);
    rocksdb_pinnableslice_destroy(value);
    return is_right;
}
static void store_close(void) { rocksdb_close(db); }

#elif defined(LMDB)
#include <lmdb.h>
enum { BATCH = 100 };
static MDB_env *env;
static MDB_txn *txn;
static MDB_dbi table;
static uint64_t pending;
static void check(int code) { if (code) fail(mdb_strerror(code)); }
static void store_open(void) {
    mkdir(directory, 0777);
    check(mdb_env_create(&env));
    check(mdb_env_set_mapsize(env, (size_t)16 << 30));
    check(mdb_env_open(env, directory, MDB_NOSYNC | MDB_NOMETASYNC, 0666));
    check(mdb_txn_begin(env, NULL, 0, &txn));
    check(mdb_dbi_open(txn, NULL, 0, &table));
}
static void store_put(uint64_t n) {
    uint64_t key = key_of(n);
    MDB_val k = {8, &key}, v = {size, (void *)(uintptr_t)value_of(n)};
    if (txn == NULL) check(mdb_txn_begin(env, NULL, 0, &txn));
    check(mdb_put(txn, table, &k, &v, 0));
    if (++pending % BATCH == 0) check(mdb_txn_commit(txn)), txn = NULL;
}
static void store_filled(void) {
    if (txn != NULL) check(mdb_txn_commit(txn)), txn = NULL;
}
static int store_get(uint64_t n) {
    uint64_t key = key_of(n);
    MDB_val k = {8, &key}, v;
    MDB_txn *reader;
    check(mdb_txn_begin(env, NULL, MDB_RDONLY, &reader));
    int is_right = mdb_get(reader, table, &k, &v) == 0 && v.mv_size == size && !memcmp(v.mv_data, value_of(n), size);
    mdb_txn_abort(reader);
    return is_right;
}
static void store_close(void) { mdb_env_close(env); }
#else
#error "name a store, as -DLEVELDB"
#endif

static uint64_t chosen(uint64_t thread, uint64_t n) { return mixed(n ^ (thread + 1) << 40) % records; }

static void *ask(void *number) {
    uint64_t thread = (uint64_t)(uintptr_t)number, right = 0, done = 0;
#if defined(FOYERPIPE)
    uint64_t asked[MOST_AT_ONCE];
    for (; at_once > 1 && done + at_once <= gets; done += at_once) {
        for (uint64_t i = 0; i < at_once; i++) asked[i] = chosen(thread, done + i);
        right += store_get_many(asked, at_once);
    }
#endif
    for (; done < gets; done++) right += (uint64_t)store_get(chosen(thread, done));
    return right == gets ? NULL : number;
}

int main(int argc, char **argv) {
    if (argc < 7) return 2;
    directory = argv[1];
    records = strtoull(argv[2], NULL, 10);
    size = strtoull(argv[3], NULL, 10);
    gets = strtoull(argv[4], NULL, 10);
    uint64_t threads = strtoull(argv[5], NULL, 10);
    at_once = strtoull(argv[6], NULL, 10);
    if (threads < 1 || threads > MOST_THREADS || at_once < 1 || at_once > MOST_AT_ONCE || size >= POOL) return 2;
#if defined(FOYERPIPE)
    if (argc < 8) return 2;
    program = argv[7];
    settings = (const char *const *)argv + 8;
#endif
    for (size_t i = 0; i < POOL; i++) pool[i] = (char)(mixed(i ^ 0x5555) % 95 + 32);
    store_open();
    double begin = seconds();
    for (uint64_t n = 0; n < records; n++) store_put(n);
    store_filled();
    double filled = seconds();
    pthread_t others[MOST_THREADS];
    for (uint64_t t = 1; t < threads; t++)
        if (pthread_create(&others[t], NULL, ask, (void *)(uintptr_t)t)) fail("no thread");
    uint64_t wrong = 0;
    if (ask((void *)(uintptr_t)threads) != NULL) wrong++;
    for (uint64_t t = 1; t < threads; t++) {
        void *was_wrong;
        pthread_join(others[t], &was_wrong);
        if (was_wrong != NULL) wrong++;
    }
    double asked = seconds();
    store_close();
    if (wrong) fail("a get gave another value, or none");
    printf("%.6f %.6f\n", filled - begin, asked - filled);
    return 0;
}
