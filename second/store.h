/* The recipe store of document 01 and of requests a to d of document 02, kept in plain structs and
 * lists. */
#ifndef STORE_H
#define STORE_H

#include <stdbool.h>
#include <stddef.h>
#include <stdint.h>

typedef uint64_t u64; /* "Decimal numbers up to 2^64 - 1" */

/* "Sizes: 1 to 4 halls; 1 to 4 partitions; 1 to 16 sessions; keys 0 to 31 [...] 64 commit
 * requests with writes per run; 8 messages per channel" */
enum { HALLS = 4, PARTITIONS = 4, SESSIONS = 16, KEYS = 32, REQUESTS = 64, PLACES = 8 };

/* "clock readings 0 to 2^48 - 1" */
#define LAST_READING ((UINT64_C(1) << 48) - 1)

/* "Values to 100,000 are taken." */
enum { CEILING = 100000 };

/* "The thirteen steps", "New step 14" */
enum Code {
    TICK = 1, START, READ, WRITE, END, PREPARE, DECIDE, COMMIT,
    INSTALL, DELIVER, REPORT, SHARE, LEARN, MOVE,
    LAST_CODE = MOVE
};

/* "its stamp: commit time, coordinator's hall, transaction number" */
struct Stamp { u64 time, hall, number; };

/* "A view of a key is nothing, or a value with its stamp" */
struct View {
    bool something;
    u64 value;
    struct Stamp stamp;
};

/* One write of a decided transaction, as a server holds it. */
struct Version {
    u64 key, value;
    struct Stamp stamp;
};

/* "A server has a clock reading, a hybrid clock, a stable time, and a version vector with one
 * entry per hall holding its partition; its own entry is its version clock." Entries of halls
 * without the partition are never looked at. */
struct Server {
    u64 reading, hybrid, stable;
    u64 vector[HALLS];
    size_t held;
    struct Version versions[REQUESTS * KEYS];
};

/* "Each hall has a mask, bit n set if it holds partition n." It notes what each of its servers
 * reports and what each hall, itself too, shares with it. */
struct Hall {
    u64 mask;
    u64 reported[PARTITIONS], shared[HALLS];
};

/* An entry of a write set, a read set or a cache; only a cache has times. */
struct Entry { u64 key, value, time; };

/* A list with at most one entry for each key. */
struct Entries {
    size_t count;
    struct Entry list[KEYS];
};

/* "Each session has a home server, its coordinator." */
struct Home { u64 hall, partition; };

/* "A session is idle, running or committing." */
enum Phase { IDLE, RUNNING, COMMITTING };

/* "It keeps its snapshot S (from its last start; this is its stable time too), last commit
 * time, write set, read set and cache." */
struct Session {
    struct Home home;
    enum Phase phase;
    u64 snapshot, last_commit;
    struct Entries write_set, read_set, cache;
};

/* "exactly one state holds: asked, prepared, waiting, installed (at the writing server)";
 * NOT_WRITTEN stands for a partition the transaction does not write. */
enum State { NOT_WRITTEN, ASKED, PREPARED, WAITING, INSTALLED };

/* "each transaction and each partition it writes", with the writing hall */
struct Pair {
    enum State state;
    u64 hall, proposed;
};

/* "A transaction keeps the coordinator's hall it ended under": its session may have moved since. */
struct Transaction {
    u64 session, hall;
    struct Entries writes;
    struct Pair pairs[PARTITIONS];
    bool decided;
    u64 commit_time;
};

/* "One message with these and the version clock": the numbers of the transactions */
struct Message {
    u64 clock;
    size_t count;
    u64 numbers[REQUESTS];
};

/* "A channel runs from each holder of a partition to each other holder, first in first out,
 * nothing lost." The oldest message stands first. */
struct Channel {
    size_t count;
    struct Message list[PLACES];
};

/* "a whole small deployment (servers, sessions, transactions, channels)" */
struct Store {
    u64 halls, partitions, sessions; /* how many there are; partitions is N */
    u64 requests;                    /* commit requests with writes so far */
    struct Hall hall[HALLS];
    struct Server server[HALLS][PARTITIONS];
    struct Session session[SESSIONS];
    struct Transaction transaction[REQUESTS];         /* number n stands at n - 1 */
    struct Channel channel[PARTITIONS][HALLS][HALLS]; /* partition, from, to */
};

/* "refusal or 0, first answer, second answer" */
struct Answer {
    unsigned refusal;
    u64 first, second;
};

/* There is one mask per hall and one home per session. Turned away, both leave the store. */
struct Answer setup(struct Store *store, const u64 *masks, u64 halls, const struct Home *homes,
                    u64 sessions);
struct Answer step(struct Store *store, u64 code, u64 a, u64 b, u64 c);

/* The number that step would turn this away with, or 0. */
unsigned refusal(const struct Store *store, u64 code, u64 a, u64 b, u64 c);

/* Does the hall hold the partition, so that there is such a server? */
bool holds(const struct Store *store, u64 hall, u64 partition);

/* The partition of a key, and the hall that writes a partition for a coordinator's hall. */
u64 partition_of(const struct Store *store, u64 key);
u64 writing_hall(const struct Store *store, u64 coordinator, u64 partition);

/* What the session itself would answer a read with, or NULL. */
const struct Entry *look_in_session(const struct Session *session, u64 key);

/* Would an install at this server, if taken, send no message? */
bool quiet(const struct Store *store, u64 hall, u64 partition);

#endif
