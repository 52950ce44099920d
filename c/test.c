/* The library and the second program side by side. Scripts stand on standard input, one after the other. After each setup and each
 * step the numbers are compared, and every word of the room with the second program's state written out by docs/ROOM.md. Between the
 * steps come setups that are spoilt, rooms of wrong length, rooms with one word changed and rooms with a place decided that no
 * transaction has. */
#include "../second/store.h"
#include "cranktimber.h"

#include <inttypes.h>
#include <stdio.h>
#include <stdlib.h>
#include <string.h>

enum { WORDS = CRANKTIMBER_WORDS };

static struct Store store;
static u64 room[WORDS + 1]; /* the library's; the last word is past the room, for a room one too long */
static u64 due[WORDS + 1];  /* what must stand there */
static size_t runs, steps, differences;

/* ---- Random draws: xorshift ---- */

static u64 draw(void) {
    static u64 x = 88172645463325252;
    x ^= x << 13;
    x ^= x >> 7;
    x ^= x << 17;
    return x;
}

static u64 below(u64 n) { return draw() % n; }

/* ---- The layout: docs/ROOM.md. Words that a state says nothing of stay as they are. ---- */

/* Block by block: the word of each kind of cell in its block, and the words of the block. */
enum { W_HALLS, W_PARTITIONS, W_SESSIONS, W_TRANSACTIONS, W_MASK, SETUP_WORDS = W_MASK + HALLS };
enum { W_READING, W_HYBRID, W_STABLE, W_ENTRY, W_HELD = W_ENTRY + HALLS, SERVER_WORDS = W_HELD + REQUESTS };
enum {
    W_HOME_HALL, W_HOME_PARTITION, W_STATUS, W_SNAPSHOT, W_LAST_COMMIT, W_WRITE_SET, W_READ_SET, W_WRITE_VALUE,
    W_READ_VALUE = W_WRITE_VALUE + KEYS, W_CACHE_VALUE = W_READ_VALUE + KEYS, W_CACHE_TIME = W_CACHE_VALUE + KEYS,
    SESSION_WORDS = W_CACHE_TIME + KEYS
};
enum {
    W_BY, W_FROM, W_COMMIT_TIME, W_KEY_SET, W_VALUE, W_STATE = W_VALUE + KEYS, W_PROPOSED = W_STATE + PARTITIONS,
    TRANSACTION_WORDS = W_PROPOSED + PARTITIONS
};
enum { W_FIRST, W_WAITING, W_CLOCK_SENT, W_CARRIES = W_CLOCK_SENT + PLACES, CHANNEL_WORDS = W_CARRIES + PLACES };
enum { W_NOTE, W_SHARED = W_NOTE + HALLS * PARTITIONS };

/* The first word of the servers, the sessions, the transactions, the channels and the notes. */
enum {
    SERVERS_AT = SETUP_WORDS,
    SESSIONS_AT = SERVERS_AT + HALLS * PARTITIONS * SERVER_WORDS,
    TRANSACTIONS_AT = SESSIONS_AT + SESSIONS * SESSION_WORDS,
    CHANNELS_AT = TRANSACTIONS_AT + REQUESTS * TRANSACTION_WORDS,
    NOTES_AT = CHANNELS_AT + HALLS * PARTITIONS * HALLS * CHANNEL_WORDS
};

static void lay_server(u64 *w, const struct Server *server) {
    w[W_READING] = server->reading;
    w[W_HYBRID] = server->hybrid;
    w[W_STABLE] = server->stable;
    memcpy(&w[W_ENTRY], server->vector, sizeof server->vector);
    for (size_t i = 0; i < server->held; i++)
        w[W_HELD + server->versions[i].stamp.number - 1] = 1;
}

static void lay_entries(u64 *set, u64 *values, const struct Entries *entries) {
    *set = 0;
    for (size_t i = 0; i < entries->count; i++) {
        *set |= UINT64_C(1) << entries->list[i].key;
        values[entries->list[i].key] = entries->list[i].value;
    }
}

static void lay_session(u64 *w, const struct Session *session) {
    w[W_HOME_HALL] = session->home.hall;
    w[W_HOME_PARTITION] = session->home.partition;
    w[W_STATUS] = session->phase; /* both number the phases alike, and the states below */
    w[W_SNAPSHOT] = session->snapshot;
    w[W_LAST_COMMIT] = session->last_commit;
    lay_entries(&w[W_WRITE_SET], &w[W_WRITE_VALUE], &session->write_set);
    lay_entries(&w[W_READ_SET], &w[W_READ_VALUE], &session->read_set);
    memset(&w[W_CACHE_TIME], 0, KEYS * sizeof *w);
    for (size_t i = 0; i < session->cache.count; i++) {
        const struct Entry *entry = &session->cache.list[i];
        w[W_CACHE_VALUE + entry->key] = entry->value;
        w[W_CACHE_TIME + entry->key] = entry->time;
    }
}

static void lay_transaction(u64 *w, const struct Transaction *transaction) {
    w[W_BY] = transaction->session;
    w[W_FROM] = transaction->hall;
    w[W_COMMIT_TIME] = transaction->commit_time;
    lay_entries(&w[W_KEY_SET], &w[W_VALUE], &transaction->writes);
    for (size_t p = 0; p < PARTITIONS; p++) {
        w[W_STATE + p] = transaction->pairs[p].state;
        w[W_PROPOSED + p] = transaction->pairs[p].proposed;
    }
}

/* There was one step since the channel was last laid out: if fewer wait now, the oldest was taken. */
static void lay_channel(u64 *w, const struct Channel *channel) {
    if (channel->count < w[W_WAITING])
        w[W_FIRST] = (w[W_FIRST] + 1) % PLACES;
    w[W_WAITING] = channel->count;
    for (size_t i = 0; i < channel->count; i++) {
        const struct Message *message = &channel->list[i];
        size_t slot = (w[W_FIRST] + i) % PLACES;
        u64 set = 0;
        for (size_t n = 0; n < message->count; n++)
            set |= UINT64_C(1) << (message->numbers[n] - 1);
        w[W_CLOCK_SENT + slot] = message->clock;
        w[W_CARRIES + slot] = set;
    }
}

static void lay_setup(u64 *w) {
    w[W_HALLS] = store.halls;
    w[W_PARTITIONS] = store.partitions;
    w[W_SESSIONS] = store.sessions;
    w[W_TRANSACTIONS] = store.requests;
    for (size_t h = 0; h < HALLS; h++)
        w[W_MASK + h] = store.hall[h].mask;
}

static void lay_notes(u64 *w) {
    for (size_t h = 0; h < HALLS; h++) {
        memcpy(&w[W_NOTE + PARTITIONS * h], store.hall[h].reported, sizeof store.hall[h].reported);
        memcpy(&w[W_SHARED + HALLS * h], store.hall[h].shared, sizeof store.hall[h].shared);
    }
}

static void lay(void) {
    u64 laid = due[W_TRANSACTIONS]; /* transactions before the step */
    lay_setup(due);
    for (size_t s = 0; s < SESSIONS; s++)
        lay_session(&due[SESSIONS_AT + SESSION_WORDS * s], &store.session[s]);
    for (size_t h = 0; h < HALLS; h++)
        for (size_t p = 0; p < PARTITIONS; p++) {
            lay_server(&due[SERVERS_AT + SERVER_WORDS * (PARTITIONS * h + p)], &store.server[h][p]);
            for (size_t f = 0; f < HALLS; f++)
                lay_channel(&due[CHANNELS_AT + CHANNEL_WORDS * ((PARTITIONS * h + p) * HALLS + f)], &store.channel[p][f][h]);
        }
    for (size_t t = 0; t < store.requests; t++) {
        u64 *w = &due[TRANSACTIONS_AT + TRANSACTION_WORDS * t];
        if (t >= laid) /* "End copies all 32 words" */
            memcpy(&w[W_VALUE], &due[SESSIONS_AT + SESSION_WORDS * store.transaction[t].session + W_WRITE_VALUE], KEYS * sizeof *w);
        lay_transaction(w, &store.transaction[t]);
    }
    lay_notes(&due[NOTES_AT]);
}

/* ---- Well formed: docs/ROOM.md. The largest number that keeps the room so in a word, the others as they are. ---- */

/* Values may be any number, too: the ceiling is the write step's, and not the room's. */
static const u64 any = UINT64_MAX;

static u64 last_holder(u64 partition) {
    u64 last = 0;
    for (u64 h = 0; h < store.halls; h++)
        last = holds(&store, h, partition) ? h : last;
    return last;
}

static u64 last_held(u64 hall) {
    u64 last = 0;
    for (u64 p = 0; p < store.partitions; p++)
        last = holds(&store, hall, p) ? p : last;
    return last;
}

static u64 time_bound(void) {
    u64 bound = LAST_READING;
    for (size_t t = 0; t < store.requests; t++)
        for (size_t p = 0; p < PARTITIONS; p++)
            bound += store.transaction[t].pairs[p].state >= PREPARED;
    return bound;
}

static u64 most_of_setup(size_t i) {
    switch (i) {
    case W_HALLS: return store.halls; /* the next has no mask */
    case W_PARTITIONS: return store.partitions; /* "one more than the highest partition held" */
    case W_SESSIONS: return holds(&store, 0, 0) ? SESSIONS : store.sessions; /* the home of the next ones is (0, 0) */
    case W_TRANSACTIONS: return REQUESTS;
    default: return i - W_MASK < store.halls ? (UINT64_C(1) << store.partitions) - 1 : any;
    }
}

static u64 most_of_session(size_t s, size_t i) {
    const struct Home *home = &store.session[s].home;
    if (i <= W_HOME_PARTITION && s >= store.sessions)
        return any;
    switch (i) {
    case W_HOME_HALL: return last_holder(home->partition);
    case W_HOME_PARTITION: return last_held(home->hall);
    case W_STATUS: return COMMITTING;
    case W_SNAPSHOT: case W_LAST_COMMIT: return time_bound();
    case W_WRITE_SET: case W_READ_SET: return (UINT64_C(1) << KEYS) - 1;
    default: return i < W_CACHE_TIME ? any : time_bound();
    }
}

static u64 most_of_transaction(size_t t, size_t i) {
    switch (i) {
    case W_BY: return store.sessions - 1;
    case W_FROM: return store.halls - 1;
    case W_COMMIT_TIME: return t < store.requests ? time_bound() : 0;
    case W_KEY_SET: return (UINT64_C(1) << KEYS) - 1;
    default: break;
    }
    if (i < W_STATE)
        return any;
    if (i < W_PROPOSED)
        return t < store.requests ? INSTALLED : 0;
    return time_bound();
}

static u64 most(size_t word) {
    if (word < SERVERS_AT)
        return most_of_setup(word);
    if (word < SESSIONS_AT) {
        size_t i = (word - SERVERS_AT) % SERVER_WORDS;
        return i == W_READING ? LAST_READING : i < W_HELD ? time_bound() : any;
    }
    if (word < TRANSACTIONS_AT)
        return most_of_session((word - SESSIONS_AT) / SESSION_WORDS, (word - SESSIONS_AT) % SESSION_WORDS);
    if (word < CHANNELS_AT)
        return most_of_transaction((word - TRANSACTIONS_AT) / TRANSACTION_WORDS, (word - TRANSACTIONS_AT) % TRANSACTION_WORDS);
    if (word < NOTES_AT) {
        size_t i = (word - CHANNELS_AT) % CHANNEL_WORDS;
        return i == W_FIRST ? PLACES - 1 : i == W_WAITING ? PLACES : i < W_CARRIES ? time_bound() : any;
    }
    return time_bound();
}

/* ---- Both side by side ---- */

static void compare(const char *call, struct cranktimber_numbers got, struct Answer want) {
    size_t word = 0;
    while (word <= WORDS && room[word] == due[word])
        word++;
    if (word > WORDS && got.refusal == want.refusal && got.first == want.first && got.second == want.second)
        return;
    if (differences++ > 0)
        return;
    printf("run %zu, step %zu, %s: %" PRIu64 " %" PRIu64 " %" PRIu64 ", not %u %" PRIu64 " %" PRIu64 "\n", runs, steps, call, got.refusal,
           got.first, got.second, want.refusal, want.first, want.second);
    if (word <= WORDS)
        printf("word %zu: %" PRIu64 ", not %" PRIu64 "\n", word, room[word], due[word]);
}

static struct Answer turned_away(unsigned number) {
    return (struct Answer){number, 0, 0};
}

/* The numbers of a setup, with a place more than there may be halls and sessions. */
struct Numbers {
    u64 masks[HALLS + 1], halls;
    struct Home homes[SESSIONS + 1];
    u64 sessions;
};

static struct cranktimber_numbers library_setup(size_t words, const struct Numbers *n, size_t extra) {
    u64 homes[2 * (SESSIONS + 1) + 1] = {0};
    for (size_t s = 0; s <= SESSIONS; s++) {
        homes[2 * s] = n->homes[s].hall;
        homes[2 * s + 1] = n->homes[s].partition;
    }
    return cranktimber_setup(room, words, n->masks, n->halls, homes, 2 * n->sessions + extra);
}

/* A good setup writes every word, whatever was there. */
static void both_set_up(const struct Numbers *n) {
    struct Answer want = setup(&store, n->masks, n->halls, n->homes, n->sessions);
    if (want.refusal == 0) {
        for (size_t word = 0; word < WORDS; word++)
            room[word] = draw();
        memset(due, 0, WORDS * sizeof *due);
        lay();
    }
    compare("setup", library_setup(WORDS, n, 0), want);
}

/* One number is changed, and perhaps a length. */
static void spoilt_setup(struct Numbers n) {
    static const u64 numbers[] = {0, 1, 2, 3, 4, 8, 15, 16, 17, UINT64_MAX};
    u64 number = numbers[below(sizeof numbers / sizeof numbers[0])];
    switch (below(5)) {
    case 0: n.masks[below(n.halls)] = number; break;
    case 1: n.homes[below(n.sessions)].hall = number; break;
    case 2: n.homes[below(n.sessions)].partition = number; break;
    case 3: n.halls = below(HALLS + 2); break;
    default: n.sessions = below(SESSIONS + 2); break;
    }
    switch (below(6)) {
    case 0: compare("setup, a word too few", library_setup(WORDS - 1, &n, 0), turned_away(1)); break;
    case 1: compare("setup, a word too many", library_setup(WORDS + 1, &n, 0), turned_away(1)); break;
    case 2: compare("setup, half a home more", library_setup(WORDS, &n, 1), turned_away(2)); break;
    default: both_set_up(&n); break;
    }
}

static struct cranktimber_numbers library_step(size_t words, const u64 *n) {
    return cranktimber_step(room, words, n[0], n[1], n[2], n[3]);
}

static void both_step(const u64 *n) {
    struct Answer want = step(&store, n[0], n[1], n[2], n[3]);
    steps++;
    lay();
    compare("step", library_step(WORDS, n), want);
}

static void other_length(const u64 *n) {
    static const size_t lengths[] = {0, 1, WORDS - 1, WORDS + 1};
    compare("step, a room of wrong length", library_step(lengths[below(4)], n), turned_away(1));
}

static const u64 no_step[4] = {0}; /* code 0 gets 3, in a room that is well formed */

/* One word at its limit is well formed; past it any step gets 1. */
static void changed_room(const u64 *n) {
    size_t word = below(4) > 0 ? below(WORDS) : below(SERVERS_AT);
    u64 kept = due[word], limit = most(word);
    room[word] = due[word] = limit;
    compare("a word at its limit", library_step(WORDS, no_step), turned_away(3));
    if (limit != any) {
        room[word] = due[word] = below(2) == 0 ? limit + 1 : UINT64_MAX;
        compare("a word past its limit", library_step(WORDS, n), turned_away(1));
    }
    room[word] = due[word] = kept;
}

/* A place that no transaction has yet is undecided: with a commit time there, within the bound or not, any step gets 1. */
static void decided_place(const u64 *n) {
    if (store.requests == REQUESTS)
        return;
    size_t t = store.requests + below(REQUESTS - store.requests);
    size_t word = TRANSACTIONS_AT + TRANSACTION_WORDS * t + W_COMMIT_TIME;
    room[word] = due[word] = 1 + below(below(2) == 0 ? 8 : UINT64_MAX);
    compare("a place decided that no transaction has", library_step(WORDS, n), turned_away(1));
    room[word] = due[word] = 0;
}

/* ---- Scripts ---- */

/* A number within these bounds, and the byte that closes it. */
static u64 number(u64 least, u64 largest) {
    u64 n = 0;
    int byte = getchar();
    bool digits = false;
    for (; byte >= '0' && byte <= '9'; byte = getchar()) {
        n = n * 10 + (u64)(byte - '0');
        digits = true;
    }
    if (!digits || n < least || n > largest) {
        puts("c: a script that is not taken here");
        exit(1);
    }
    return n;
}

static void run(void) {
    struct Numbers numbers = {0};
    numbers.halls = number(1, HALLS);
    for (u64 h = 0; h < numbers.halls; h++)
        numbers.masks[h] = number(0, any);
    numbers.sessions = number(1, SESSIONS);
    for (u64 s = 0; s < numbers.sessions; s++) {
        numbers.homes[s].hall = number(0, any);
        numbers.homes[s].partition = number(0, any);
    }
    runs++;
    for (int times = 0; times < 20; times++)
        spoilt_setup(numbers);
    both_set_up(&numbers);
    for (u64 count = number(0, any); count > 0; count--) {
        u64 n[4];
        for (int i = 0; i < 4; i++)
            n[i] = number(0, any);
        both_step(n);
        other_length(n);
        changed_room(n);
        decided_place(n);
    }
}

int main(void) {
    for (size_t word = 0; word <= WORDS; word++)
        room[word] = due[word] = draw();
    compare("random words", library_step(WORDS, no_step), turned_away(1));
    /* From here on both have a store: where a script's setup is refused, its steps go on with the one before. */
    both_set_up(&(struct Numbers){.masks = {1}, .halls = 1, .sessions = 1});
    for (int byte = getchar(); byte != EOF; byte = getchar()) {
        ungetc(byte, stdin);
        run();
    }
    printf("c: %zu runs, %zu steps, %zu differences\n", runs, steps, differences);
    return differences == 0 && runs > 0 ? 0 : 1;
}
