/* A client of foyerpipe: a disk cache of byte strings that runs as a program beside this one. Needs C11, Linux and threads.
 *
 *     foyer_cache *cache = foyer_open("./foyerpipe", "/var/tmp/cache", "1073741824", "16777216", NULL);
 *     foyer_put(cache, "key", 3, "value", 5);
 *     foyer_value value;
 *     if (foyer_get(cache, "key", 3, &value) == FOYER_ENTRY) { fwrite(value.bytes, 1, value.len, stdout); free(value.bytes); }
 *     foyer_close(cache);
 *
 * Threads may share a cache: each call waits for its own reply, and others go on meanwhile. docs/PIPE.md has the frames and the codes.
 *
 * The program has a session of its own, so a Ctrl-C doesn't reach it: close the cache before you end. If your process is killed, the program
 * writes what is queued, and ends.
 *
 * A forked child must not use a cache of its parent: its calls give FOYER_ENDED, and it may only close the cache. This gives up the child's
 * copies of the pipes. As long as a child has copies, its parent's foyer_close waits. A child that begins another program has none. */
#ifndef FOYER_CLIENT_H
#define FOYER_CLIENT_H

#include <stddef.h>
#include <stdint.h>

#ifdef __cplusplus
extern "C" {
#endif

typedef struct foyer_cache foyer_cache;

/* The codes that calls give: those of foyerpipe, of which 65 to 77 are errors, and two of this client. */
enum {
    FOYER_DONE = 0,
    FOYER_ENTRY = 1,
    FOYER_MISS = 2,
    FOYER_IGNORED = 3,
    FOYER_DELETED = 4,   /* a put that isn't taken, since it found no room in time, or its value or key is too long: its key is deleted */
    FOYER_THROTTLED = 5, /* a limit of reads holds the get back */
    FOYER_YES = 6,
    FOYER_NO = 7,
    FOYER_IO = 65,
    FOYER_MEMORY = 66,
    FOYER_CONFIG = 67,
    FOYER_PARSE = 68,
    FOYER_MAGIC_MISMATCH = 69,
    FOYER_CHECKSUM_MISMATCH = 70,
    FOYER_OUT_OF_RANGE = 71,
    FOYER_BUFFER_SIZE_LIMIT = 72,
    FOYER_NO_SPACE = 73,
    FOYER_RECOVER = 74,
    FOYER_CLOSED = 75,
    FOYER_UNSUPPORTED = 76,
    FOYER_SEQUENCE_END = 77,
    FOYER_ENDED = 256,    /* the program ended or sent no valid reply, and every later call gives this, too; or the caller is a forked child */
    FOYER_NO_MEMORY = 257 /* this process has no memory for the value: get it again */
};

/* A value that a call gives. The caller frees `bytes`, which isn't NULL even if `len` is 0. A zero byte follows the value. */
typedef struct {
    char *bytes;
    size_t len;
} foyer_value;

/* Starts the program over a directory, or over memory for ":memory:". The sizes are bytes in decimal digits. Settings are words such as
 * "flushers=2", at most 32, with NULL after the last, or NULL for none. The cache is open when this returns. Before anything else is believed,
 * the program has 60 seconds to say that it is foyerpipe. Gives NULL, and errno says why:
 *     EPROTO     what answers isn't foyerpipe, or an older one
 *     ETIMEDOUT  nothing answers in time
 *     EPIPE      the program ended; if it couldn't open the cache, it has said why on standard error
 *     E2BIG      there are more than 32 settings
 *     others     the error of the call that failed, such as ENOENT if there is no such program
 * The program doesn't run any more then. */
foyer_cache *foyer_open(const char *program, const char *directory, const char *capacity, const char *block, const char *const *settings);

/* The same, if the program has so many milliseconds to say that it is foyerpipe, or as long as it takes if they are less than 0. */
foyer_cache *foyer_open_within(const char *program, const char *directory, const char *capacity, const char *block, const char *const *settings,
                               int milliseconds);

/* A key longer than the setting key=N is never in the cache, and a value longer than value=N never taken: such frames aren't sent. */
int foyer_put(foyer_cache *cache, const void *key, size_t key_len, const void *value, size_t value_len);
int foyer_get(foyer_cache *cache, const void *key, size_t key_len, foyer_value *value);
int foyer_delete(foyer_cache *cache, const void *key, size_t key_len);
int foyer_contains(foyer_cache *cache, const void *key, size_t key_len);

/* Waits until all that was put before is written or abandoned. Gives FOYER_IO if puts since the last wait were answered FOYER_DONE and then
 * abandoned, since a write failed, memory was refused or they fit nowhere. */
int foyer_wait(foyer_cache *cache);
int foyer_destroy(foyer_cache *cache);

/* What the cache did, a line "name number" each. */
int foyer_counters(foyer_cache *cache, foyer_value *lines);

/* Gets many keys without waiting between them. Sets codes[i] and, if it is FOYER_ENTRY, values[i]. Gives FOYER_DONE, or FOYER_ENDED if that
 * is the code of a key. */
int foyer_get_many(foyer_cache *cache, size_t count, const void *const *keys, const size_t *key_lens, int *codes, foyer_value *values);

/* Ends the program, which first writes what is queued, and frees the cache. No other call may be under way or follow. Gives the exit
 * status, 0 if all went well, or -1 if there is none. It is 1 if puts since the last wait were abandoned. In a forked child it only frees what
 * the child has, and gives -1. */
int foyer_close(foyer_cache *cache);

#ifdef __cplusplus
}
#endif

#endif
