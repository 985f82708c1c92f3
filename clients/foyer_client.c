/* A client of foyerpipe: foyer_client.h says what each call does. */
#define _GNU_SOURCE /* pipe2, F_GETPIPE_SZ, syscall */
#include "foyer_client.h"

#include <errno.h>
#include <fcntl.h>
#include <poll.h>
#include <pthread.h>
#include <signal.h>
#include <stdlib.h>
#include <string.h>
#include <sys/resource.h>
#include <sys/syscall.h>
#include <sys/types.h>
#include <sys/wait.h>
#include <time.h>
#include <unistd.h>

enum { HEAD_LEN = 13, REPLY_LEN = 9, MOST_SETTINGS = 32, MOST_AT_ONCE = 256 };

/* How long a program may take to say that it is foyerpipe, and how long one that is ended may take to end its jobs. */
enum { START_MILLISECONDS = 60 * 1000, END_MILLISECONDS = 5 * 1000 };

/* What the reply to a first request `v` begins with, and its bytes: the version of the frames stands behind the name. The most bytes of a key
 * and of a value follow, and then a text. */
static const unsigned char GREETS[5] = {1, 0, 0, 0, FOYER_DONE};
static const unsigned char NAME[14] = "foyerpipe\n\1\0\0";
enum { GREETING_LEN = 22, MOST_GREETING = 1024 };

/* The most bytes that one call asks for before a reply is read. */
static const size_t MOST_AHEAD = 32 * 1024;

/* A request whose reply is awaited, in the memory of the thread that asked. */
struct asked {
    uint32_t number;
    enum { AWAITED, TAKEN, DONE } state;
    int code;
    foyer_value *value; /* where a value goes, or NULL */
    struct asked *next;
    pthread_cond_t *changed; /* what its thread waits for, or NULL if it doesn't wait */
};

/* A thread that waits while another one reads replies. Each has a condition of its own, so that a reply wakes only the thread that asked. */
struct waiter {
    pthread_cond_t changed;
    struct waiter *next, **place;
};

/* Threads send under one lock, and one of those that wait reads replies, for itself and for the others. Who has a reply to come never waits for
 * the lock of sending without reading, so that a program that waits for its replies to be read goes on. */
struct foyer_cache {
    pthread_mutex_t sending, known;
    struct asked *awaited; /* this and what follows is looked at under `known` */
    struct waiter *waiting;
    int is_reading, has_ended;
    uint32_t number;
    size_t key_limit, value_limit; /* what the program takes in a frame: it ends after a longer one */
    pid_t program, owner;
    int to, from;
};

static void put_number(unsigned char *at, uint32_t number) {
    for (int i = 0; i < 4; i++) at[i] = (unsigned char)(number >> (8 * i));
}

static uint32_t number_at(const unsigned char *at) {
    return (uint32_t)at[0] | (uint32_t)at[1] << 8 | (uint32_t)at[2] << 16 | (uint32_t)at[3] << 24;
}

/* Writes all. Its caller holds the signal of a broken pipe back. */
static int send_all(foyer_cache *cache, const void *bytes, size_t len) {
    const char *at = bytes;
    while (len > 0) {
        ssize_t count = write(cache->to, at, len);
        if (count < 0 && errno == EINTR) continue;
        if (count <= 0) return -1;
        at += count;
        len -= (size_t)count;
    }
    return 0;
}

static int take_all(foyer_cache *cache, void *bytes, size_t len) {
    char *at = bytes;
    while (len > 0) {
        ssize_t count = read(cache->from, at, len);
        if (count < 0 && errno == EINTR) continue;
        if (count <= 0) return -1;
        at += count;
        len -= (size_t)count;
    }
    return 0;
}

/* Reads bytes and forgets them. */
static int skip(foyer_cache *cache, size_t len) {
    char room[4096];
    while (len > 0) {
        size_t part = len < sizeof room ? len : sizeof room;
        if (take_all(cache, room, part)) return -1;
        len -= part;
    }
    return 0;
}

/* Blocks the signal of a broken pipe in this thread; `before` is what was blocked, and whether the signal was pending. */
typedef struct {
    sigset_t mask;
    int was_pending;
} held_signal;

static void hold_signal(held_signal *held) {
    sigset_t pipe, pending;
    sigemptyset(&pipe);
    sigaddset(&pipe, SIGPIPE);
    sigpending(&pending);
    held->was_pending = sigismember(&pending, SIGPIPE);
    pthread_sigmask(SIG_BLOCK, &pipe, &held->mask);
}

static void release_signal(const held_signal *held) {
    if (!held->was_pending) {
        sigset_t pipe;
        struct timespec now = {0, 0};
        sigemptyset(&pipe);
        sigaddset(&pipe, SIGPIPE);
        while (sigtimedwait(&pipe, NULL, &now) < 0 && errno == EINTR) {
        }
    }
    pthread_sigmask(SIG_SETMASK, &held->mask, NULL);
}

/* The cache has ended: all who wait must know. */
static void note_end(foyer_cache *cache) {
    cache->has_ended = 1;
    for (struct waiter *it = cache->waiting; it != NULL; it = it->next) pthread_cond_signal(&it->changed);
}

static void put_head(unsigned char head[HEAD_LEN], char kind, uint32_t number, size_t key_len, size_t value_len) {
    head[0] = (unsigned char)kind;
    put_number(head + 1, number);
    put_number(head + 5, (uint32_t)key_len);
    put_number(head + 9, (uint32_t)value_len);
}

/* The code of a request whose key is longer than any that the program takes, so that the cache can't have it. */
static int code_of_long_key(char kind) {
    switch (kind) {
    case 'p': return FOYER_DELETED;
    case 'g': return FOYER_MISS;
    case 'h': return FOYER_NO;
    default: return FOYER_DONE;
    }
}

/* Sends a request, and awaits its reply in `own`. Its caller has the lock of sending. A request with a key that is too long isn't sent. */
static void send_request(foyer_cache *cache, struct asked *own, char kind, const void *key, size_t key_len, const void *value, size_t value_len) {
    unsigned char head[HEAD_LEN];
    held_signal held;
    pthread_mutex_lock(&cache->known);
    int failed = cache->has_ended, is_sent = !failed && key_len <= cache->key_limit;
    own->number = ++cache->number;
    own->state = is_sent ? AWAITED : DONE;
    own->code = failed || is_sent ? FOYER_ENDED : code_of_long_key(kind);
    own->next = cache->awaited;
    own->changed = NULL;
    if (is_sent) cache->awaited = own;
    pthread_mutex_unlock(&cache->known);
    if (!is_sent) return;
    put_head(head, kind, own->number, key_len, value_len);
    hold_signal(&held);
    failed = send_all(cache, head, sizeof head) || send_all(cache, key, key_len) || send_all(cache, value, value_len);
    release_signal(&held);
    if (!failed) return;
    pthread_mutex_lock(&cache->known);
    note_end(cache);
    pthread_mutex_unlock(&cache->known);
}

/* Takes a request out of those that are awaited; NULL if it isn't there. */
static struct asked *take_awaited(foyer_cache *cache, uint32_t number) {
    for (struct asked **at = &cache->awaited; *at != NULL; at = &(*at)->next) {
        struct asked *found = *at;
        if (found->number != number) continue;
        *at = found->next;
        return found;
    }
    return NULL;
}

/* Reads the bytes of a reply for who awaits it: its code. */
static int read_value(foyer_cache *cache, struct asked *whose, int code, size_t len) {
    if (whose->value == NULL || (code != FOYER_ENTRY && code != FOYER_DONE)) return skip(cache, len) ? FOYER_ENDED : code;
    char *bytes = malloc(len + 1);
    if (bytes == NULL) return skip(cache, len) ? FOYER_ENDED : FOYER_NO_MEMORY;
    if (take_all(cache, bytes, len)) {
        free(bytes);
        return FOYER_ENDED;
    }
    bytes[len] = 0;
    whose->value->bytes = bytes;
    whose->value->len = len;
    return code;
}

/* Reads one reply, for whoever awaits it. No lock is held while it reads. */
static void read_reply(foyer_cache *cache) {
    unsigned char head[REPLY_LEN];
    struct asked *whose = NULL;
    int has_come = take_all(cache, head, sizeof head) == 0, code = FOYER_ENDED;
    if (has_come && head[4] < 128) {
        pthread_mutex_lock(&cache->known);
        whose = take_awaited(cache, number_at(head));
        if (whose != NULL) whose->state = TAKEN;
        pthread_mutex_unlock(&cache->known);
    }
    if (whose != NULL) code = read_value(cache, whose, head[4], number_at(head + 5));
    pthread_mutex_lock(&cache->known);
    if (whose != NULL) {
        whose->code = code;
        whose->state = DONE;
        if (whose->changed != NULL) pthread_cond_signal(whose->changed);
    }
    if (code == FOYER_ENDED) note_end(cache);
}

/* Waits until its own reply has come, or this thread is to read. Its caller has the lock of what is known. */
static void wait_for_change(foyer_cache *cache, struct asked *own) {
    struct waiter self = {.next = cache->waiting, .place = &cache->waiting};
    pthread_cond_init(&self.changed, NULL);
    if (self.next != NULL) self.next->place = &self.next;
    cache->waiting = &self;
    own->changed = &self.changed;
    pthread_cond_wait(&self.changed, &cache->known);
    own->changed = NULL;
    *self.place = self.next;
    if (self.next != NULL) self.next->place = self.place;
    pthread_cond_destroy(&self.changed);
}

/* Waits for the reply to a request: its code. */
static int take_reply(foyer_cache *cache, struct asked *own) {
    pthread_mutex_lock(&cache->known);
    while (own->state != DONE && !(own->state == AWAITED && cache->has_ended)) {
        if (cache->is_reading) {
            wait_for_change(cache, own);
            continue;
        }
        cache->is_reading = 1;
        do {
            pthread_mutex_unlock(&cache->known);
            read_reply(cache); /* has the lock again */
        } while (own->state != DONE && !cache->has_ended);
        cache->is_reading = 0;
    }
    /* One of those that wait reads now. If that one was woken for a reply of its own, it comes here, too. */
    if (!cache->is_reading && cache->waiting != NULL) pthread_cond_signal(&cache->waiting->changed);
    if (own->state == AWAITED) take_awaited(cache, own->number);
    pthread_mutex_unlock(&cache->known);
    return own->code;
}

/* Whether this process is a forked one. Its requests and replies would mix with those of the process that opened the cache, and a thread of that
 * process may have had the locks. */
static int is_forked(const foyer_cache *cache) { return getpid() != cache->owner; }

static int call(foyer_cache *cache, char kind, const void *key, size_t key_len, const void *value, size_t value_len, foyer_value *found) {
    struct asked own = {0};
    if (is_forked(cache)) return FOYER_ENDED;
    own.value = found;
    pthread_mutex_lock(&cache->sending);
    send_request(cache, &own, kind, key, key_len, value, value_len);
    pthread_mutex_unlock(&cache->sending);
    return take_reply(cache, &own);
}

int foyer_put(foyer_cache *cache, const void *key, size_t key_len, const void *value, size_t value_len) {
    if (value_len > cache->value_limit) {
        int code = foyer_delete(cache, key, key_len);
        return code == FOYER_DONE ? FOYER_DELETED : code;
    }
    return call(cache, 'p', key, key_len, value, value_len, NULL);
}

int foyer_get(foyer_cache *cache, const void *key, size_t key_len, foyer_value *value) {
    return call(cache, 'g', key, key_len, NULL, 0, value);
}

int foyer_delete(foyer_cache *cache, const void *key, size_t key_len) {
    return call(cache, 'd', key, key_len, NULL, 0, NULL);
}

int foyer_contains(foyer_cache *cache, const void *key, size_t key_len) {
    return call(cache, 'h', key, key_len, NULL, 0, NULL);
}

int foyer_wait(foyer_cache *cache) {
    return call(cache, 'w', NULL, 0, NULL, 0, NULL);
}

int foyer_destroy(foyer_cache *cache) {
    return call(cache, 'x', NULL, 0, NULL, 0, NULL);
}

int foyer_counters(foyer_cache *cache, foyer_value *lines) {
    return call(cache, 'c', NULL, 0, NULL, 0, lines);
}

/* How many bytes one call may ask for before a reply is read, so that neither side waits for the other for ever: half of what the pipe holds, as
 * half of each page may stay empty. For a user who has many pipes, the system makes pipes of a page or two. If it doesn't say how much a pipe
 * holds, one request at a time is sent. */
static size_t ahead_of(const foyer_cache *cache) {
    int size = fcntl(cache->to, F_GETPIPE_SZ);
    size_t half = size < 0 ? 0 : (size_t)size / 2;
    return half < MOST_AHEAD ? half : MOST_AHEAD;
}

int foyer_get_many(foyer_cache *cache, size_t count, const void *const *keys, const size_t *key_lens, int *codes, foyer_value *values) {
    struct asked asked[MOST_AT_ONCE];
    size_t sent = 0, taken = 0, ahead = 0, most_ahead = ahead_of(cache);
    int has_ended = 0;
    if (is_forked(cache)) {
        for (size_t i = 0; i < count; i++) codes[i] = FOYER_ENDED;
        return FOYER_ENDED;
    }
    while (taken < count) {
        int is_room = sent < count && (sent == taken || (sent - taken < MOST_AT_ONCE && ahead + HEAD_LEN + key_lens[sent] <= most_ahead));
        if (is_room && sent == taken) pthread_mutex_lock(&cache->sending);
        else if (is_room && pthread_mutex_trylock(&cache->sending)) is_room = 0;
        if (is_room) {
            struct asked *own = &asked[sent % MOST_AT_ONCE];
            own->value = &values[sent];
            send_request(cache, own, 'g', keys[sent], key_lens[sent], NULL, 0);
            pthread_mutex_unlock(&cache->sending);
            ahead += HEAD_LEN + key_lens[sent++];
            continue;
        }
        codes[taken] = take_reply(cache, &asked[taken % MOST_AT_ONCE]);
        ahead -= HEAD_LEN + key_lens[taken];
        has_ended |= codes[taken++] == FOYER_ENDED;
    }
    return has_ended ? FOYER_ENDED : FOYER_DONE;
}

static void close_ends(const int ends[2]) {
    if (ends[0] >= 0) close(ends[0]);
    if (ends[1] >= 0) close(ends[1]);
}

/* A pipe whose ends no other program gets, at any moment, and that are none of the three standard ones. */
static int make_pipe(int ends[2]) {
    int made[2];
    if (pipe2(made, O_CLOEXEC)) return -1;
    for (int i = 0; i < 2; i++) {
        ends[i] = fcntl(made[i], F_DUPFD_CLOEXEC, 3);
        close(made[i]);
    }
    if (ends[0] >= 0 && ends[1] >= 0) return 0;
    close_ends(ends);
    return -1;
}

/* What this process has open, such as its sockets, isn't the program's. Between a fork and an exec only calls of the system are safe. */
static void close_others_on_exec(void) {
    struct rlimit most = {0, 0};
#ifdef SYS_close_range
    if (syscall(SYS_close_range, 3U, ~0U, 1U << 2 /* CLOSE_RANGE_CLOEXEC */) == 0) return;
#endif
    getrlimit(RLIMIT_NOFILE, &most);
    for (int i = 3; i < 65536 && (rlim_t)i < most.rlim_cur; i++) fcntl(i, F_SETFD, FD_CLOEXEC);
}

/* Becomes the program, in a session of its own: a Ctrl-C, or another signal to the process group, would end it before it is closed. Signals
 * that are blocked here reach it. If it can't be started, says why. */
static void become(const char *const *words, int input, int output, int failure) {
    sigset_t none;
    int why;
    setsid();
    close_others_on_exec();
    sigemptyset(&none);
    if (dup2(input, 0) == 0 && dup2(output, 1) == 1 && sigprocmask(SIG_SETMASK, &none, NULL) == 0) execvp(words[0], (char *const *)words);
    why = errno;
    while (write(failure, &why, sizeof why) < 0 && errno == EINTR) {
    }
    _exit(127);
}

/* Makes the pipes of a program: its input, its output, and one that says why it couldn't be started. */
static int make_pipes(int pipes[3][2]) {
    for (int i = 0; i < 3; i++) {
        if (make_pipe(pipes[i]) == 0) continue;
        while (i-- > 0) close_ends(pipes[i]);
        return -1;
    }
    return 0;
}

static void reap(const foyer_cache *cache, int *status) {
    while (waitpid(cache->program, status, 0) < 0 && errno == EINTR) {
    }
}

/* Starts the program with pipes at its standard input and output. */
static int start(foyer_cache *cache, const char *const *words) {
    int pipes[3][2], why = 0, status;
    if (make_pipes(pipes)) return -1;
    cache->owner = getpid();
    cache->program = fork();
    if (cache->program == 0) become(words, pipes[0][0], pipes[1][1], pipes[2][1]);
    if (cache->program < 0) why = errno;
    close(pipes[0][0]);
    close(pipes[1][1]);
    close(pipes[2][1]);
    cache->to = pipes[0][1];
    cache->from = pipes[1][0];
    /* it ends when the program has begun */
    while (read(pipes[2][0], &why, sizeof why) < 0 && errno == EINTR) {
    }
    close(pipes[2][0]);
    if (why == 0) return 0;
    if (cache->program > 0) reap(cache, &status);
    close(cache->to);
    close(cache->from);
    errno = why;
    return -1;
}

static int64_t milliseconds_now(void) {
    struct timespec now;
    clock_gettime(CLOCK_MONOTONIC, &now);
    return (int64_t)now.tv_sec * 1000 + now.tv_nsec / 1000000;
}

/* Waits until the program has written something, until a moment, or for ever if that is less than 0. */
static int await_output(const foyer_cache *cache, int64_t until) {
    for (;;) {
        struct pollfd output = {.fd = cache->from, .events = POLLIN};
        int64_t left = until < 0 ? -1 : until - milliseconds_now();
        int ready = poll(&output, 1, until >= 0 && left < 0 ? 0 : (int)left);
        if (ready > 0) return 0;
        if (ready < 0 && errno == EINTR) continue;
        if (ready == 0) errno = ETIMEDOUT;
        return -1;
    }
}

/* Reads the program's first bytes, no more than these, as long as they begin as those that are known. */
static int take_first(const foyer_cache *cache, unsigned char *bytes, size_t len, const unsigned char *known, size_t known_len, int64_t until) {
    for (size_t have = 0; have < len;) {
        if (await_output(cache, until)) return -1;
        ssize_t count = read(cache->from, bytes + have, len - have);
        if (count < 0 && errno == EINTR) continue;
        if (count == 0) errno = EPIPE;
        if (count <= 0) return -1;
        have += (size_t)count;
        if (memcmp(bytes, known, have < known_len ? have : known_len) != 0) {
            errno = EPROTO;
            return -1;
        }
    }
    return 0;
}

/* Asks which program this is, before anything that it writes is believed. */
static int greet(foyer_cache *cache, int milliseconds) {
    unsigned char head[HEAD_LEN], reply[REPLY_LEN], greeting[MOST_GREETING];
    int64_t until = milliseconds < 0 ? -1 : milliseconds_now() + milliseconds;
    held_signal held;
    put_head(head, 'v', ++cache->number, 0, 0);
    hold_signal(&held);
    (void)send_all(cache, head, sizeof head); /* if the program has ended, its output has, too */
    release_signal(&held);
    if (take_first(cache, reply, sizeof reply, GREETS, sizeof GREETS, until)) return -1;
    size_t len = number_at(reply + 5);
    if (len < GREETING_LEN || len > sizeof greeting) {
        errno = EPROTO;
        return -1;
    }
    if (take_first(cache, greeting, len, NAME, sizeof NAME, until)) return -1;
    cache->key_limit = number_at(greeting + sizeof NAME);
    cache->value_limit = number_at(greeting + sizeof NAME + 4);
    return 0;
}

/* Ends the program, or the script that still builds it, with its jobs. */
static void end_program(const foyer_cache *cache) {
    const struct timespec moment = {0, 10 * 1000 * 1000};
    int64_t until = milliseconds_now() + END_MILLISECONDS;
    int status;
    kill(-cache->program, SIGTERM);
    while (waitpid(cache->program, &status, WNOHANG) == 0) {
        if (milliseconds_now() >= until) {
            kill(-cache->program, SIGKILL);
            reap(cache, &status);
            return;
        }
        nanosleep(&moment, NULL);
    }
}

foyer_cache *foyer_open(const char *program, const char *directory, const char *capacity, const char *block, const char *const *settings) {
    return foyer_open_within(program, directory, capacity, block, settings, START_MILLISECONDS);
}

foyer_cache *foyer_open_within(const char *program, const char *directory, const char *capacity, const char *block, const char *const *settings,
                               int milliseconds) {
    const char *words[5 + MOST_SETTINGS] = {program, directory, capacity, block};
    int count = 4;
    for (const char *const *setting = settings; setting != NULL && *setting != NULL; setting++) {
        if (count == 4 + MOST_SETTINGS) {
            errno = E2BIG;
            return NULL;
        }
        words[count++] = *setting;
    }
    foyer_cache *cache = calloc(1, sizeof *cache);
    if (cache == NULL) return NULL;
    if (start(cache, words)) {
        free(cache);
        return NULL;
    }
    if (greet(cache, milliseconds)) {
        int why = errno;
        end_program(cache);
        close(cache->to);
        close(cache->from);
        free(cache);
        errno = why;
        return NULL;
    }
    pthread_mutex_init(&cache->sending, NULL);
    pthread_mutex_init(&cache->known, NULL);
    if (foyer_contains(cache, NULL, 0) == FOYER_ENDED) {
        foyer_close(cache);
        errno = EPIPE;
        return NULL;
    }
    return cache;
}

int foyer_close(foyer_cache *cache) {
    int status = -1;
    close(cache->to);
    if (is_forked(cache)) {
        close(cache->from);
        free(cache);
        return -1;
    }
    /* what is still on its way */
    if (!cache->has_ended) {
        char room[4096];
        while (read(cache->from, room, sizeof room) > 0) {
        }
    }
    close(cache->from);
    reap(cache, &status);
    status = WIFEXITED(status) ? WEXITSTATUS(status) : -1;
    pthread_mutex_destroy(&cache->sending);
    pthread_mutex_destroy(&cache->known);
    free(cache);
    return status;
}
