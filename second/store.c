/* The rules of document 01 and of requests a to d of document 02; each function quotes the words
 * it follows. */
#include "store.h"

#include <assert.h>
#include <string.h>

/* "the larger of", "the lowest" */
static u64 larger(u64 a, u64 b) { return a > b ? a : b; }
static u64 lower(u64 a, u64 b) { return a < b ? a : b; }

/* "A server is a (hall, partition) pair with its bit set." */
bool holds(const struct Store *store, u64 hall, u64 partition) {
    return hall < store->halls && partition < store->partitions &&
           (store->hall[hall].mask >> partition & 1) == 1;
}

/* "key k in partition k mod N" */
u64 partition_of(const struct Store *store, u64 key) {
    return key % store->partitions;
}

/* "transaction number (1, 2, .. in order of request)" */
static struct Transaction *transaction(struct Store *store, u64 number) {
    return &store->transaction[number - 1];
}

/* "The writing hall for a partition is the coordinator's hall if it holds it, else the first
 * holder found counting up from it and past the last back to 0." Some hall is a holder. */
u64 writing_hall(const struct Store *store, u64 coordinator, u64 partition) {
    u64 hall = coordinator;
    while (!holds(store, hall, partition))
        hall = hall + 1 == store->halls ? 0 : hall + 1;
    return hall;
}

/* ---- Entries of write set, read set and cache ---- */

/* "write set, read set and cache", looked through for a key */
static const struct Entry *find(const struct Entries *entries, u64 key) {
    for (size_t i = 0; i < entries->count; i++)
        if (entries->list[i].key == key)
            return &entries->list[i];
    return NULL;
}

/* "over an older entry", "Replaces an earlier value" */
static void put(struct Entries *entries, u64 key, u64 value, u64 time) {
    const struct Entry *older = find(entries, key);
    size_t place = older == NULL ? entries->count++ : (size_t)(older - entries->list);
    entries->list[place] = (struct Entry){key, value, time};
}

/* "cache entries with time at or below S go" */
static void clean(struct Entries *cache, u64 snapshot) {
    size_t kept = 0;
    for (size_t i = 0; i < cache->count; i++)
        if (cache->list[i].time > snapshot)
            cache->list[kept++] = cache->list[i];
    cache->count = kept;
}

/* ---- Views and versions ---- */

/* "A later stamp wins, compared in that order" */
static bool later(struct Stamp a, struct Stamp b) {
    if (a.time != b.time)
        return a.time > b.time;
    if (a.hall != b.hall)
        return a.hall > b.hall;
    return a.number > b.number;
}

/* "Of two views with equal stamps the first is kept. [...] nothing merged with a view is that
 * view." */
static struct View merge(struct View first, struct View second) {
    if (!first.something)
        return second;
    if (!second.something)
        return first;
    return later(second.stamp, first.stamp) ? second : first;
}

/* "The view at S [...] merges their writes with commit time at or below S." */
static struct View view_at(const struct Server *server, u64 key, u64 snapshot) {
    struct View view = {0};
    for (size_t i = 0; i < server->held; i++) {
        const struct Version *v = &server->versions[i];
        if (v->key == key && v->stamp.time <= snapshot)
            view = merge(view, (struct View){true, v->value, v->stamp});
    }
    return view;
}

/* "Every waiting transaction [...] is installed", "installs its transactions": the server now
 * holds what this one writes in its partition. */
static void hold(struct Store *store, u64 hall, u64 partition, u64 number) {
    struct Server *server = &store->server[hall][partition];
    const struct Transaction *t = transaction(store, number);
    struct Stamp stamp = {t->commit_time, t->hall, number};
    for (size_t i = 0; i < t->writes.count; i++) {
        const struct Entry *e = &t->writes.list[i];
        if (partition_of(store, e->key) == partition)
            server->versions[server->held++] = (struct Version){e->key, e->value, stamp};
    }
}

/* ---- Setup ---- */

/* "N is one more than the highest partition held." */
static u64 count_partitions(const u64 *masks, u64 halls) {
    u64 n = 0;
    for (u64 h = 0; h < halls; h++)
        while (masks[h] >> n != 0)
            n++;
    return n;
}

/* "Each mask is 1 to 15 and each partition below N is held by some hall." */
static bool masks_broken(const u64 *masks, u64 halls) {
    u64 held = 0;
    for (u64 h = 0; h < halls; h++) {
        if (masks[h] < 1 || masks[h] > 15)
            return true;
        held |= masks[h];
    }
    for (u64 p = 0; p < count_partitions(masks, halls); p++)
        if ((held >> p & 1) == 0)
            return true;
    return false;
}

/* Row 2: "setup numbers break the rules above", as to sizes, masks and each "home server" */
static bool setup_broken(const u64 *masks, u64 halls, const struct Home *homes, u64 sessions) {
    if (halls < 1 || halls > HALLS || sessions < 1 || sessions > SESSIONS)
        return true;
    if (masks_broken(masks, halls))
        return true;
    for (u64 s = 0; s < sessions; s++)
        if (homes[s].hall >= halls || homes[s].partition >= PARTITIONS ||
            (masks[homes[s].hall] >> homes[s].partition & 1) == 0)
            return true;
    return false;
}

/* "All clocks, notes and snapshots start at 0. Answers: N and the number of servers." */
struct Answer setup(struct Store *store, const u64 *masks, u64 halls, const struct Home *homes,
                    u64 sessions) {
    if (setup_broken(masks, halls, homes, sessions))
        return (struct Answer){2, 0, 0};
    memset(store, 0, sizeof *store);
    store->halls = halls;
    store->partitions = count_partitions(masks, halls);
    store->sessions = sessions;
    for (u64 s = 0; s < sessions; s++)
        store->session[s].home = homes[s];
    u64 servers = 0;
    for (u64 h = 0; h < halls; h++) {
        store->hall[h].mask = masks[h];
        for (u64 p = 0; p < store->partitions; p++)
            servers += holds(store, h, p);
    }
    return (struct Answer){0, store->partitions, servers};
}

/* ---- Turned away: the rows of the table ---- */

/* Row 3: "unknown code; session, key, hall, partition, server, or transaction number not there
 * (so also a read in a hall without the key's partition); deliver from a hall to itself; unused
 * number not 0" */
static bool not_there(const struct Store *store, u64 code, u64 a, u64 b, u64 c) {
    switch (code) {
    case TICK:
        return !holds(store, a, b);
    case START: case END:
        return a >= store->sessions || b != 0 || c != 0;
    case READ:
        return a >= store->sessions || b >= KEYS || !holds(store, c, partition_of(store, b));
    case WRITE:
        return a >= store->sessions || b >= KEYS;
    case PREPARE: case COMMIT:
        return a < 1 || a > store->requests || b >= store->partitions || c != 0;
    case DECIDE:
        return a < 1 || a > store->requests || b != 0 || c != 0;
    case INSTALL: case REPORT: case LEARN:
        return !holds(store, a, b) || c != 0;
    case MOVE:
        return a >= store->sessions || !holds(store, b, c);
    case DELIVER:
        return !holds(store, b, a) || !holds(store, c, a) || b == c;
    case SHARE:
        return a >= store->halls || b >= store->halls || c != 0;
    default:
        return true;
    }
}

/* "all are prepared" */
static bool all_prepared(const struct Transaction *t) {
    for (size_t p = 0; p < PARTITIONS; p++)
        if (t->pairs[p].state != NOT_WRITTEN && t->pairs[p].state != PREPARED)
            return false;
    return true;
}

/* Row 9: "prepare where not asked; decide unless all are prepared and none decided; commit
 * unless decided and still prepared" */
static bool out_of_turn(const struct Store *store, u64 code, u64 a, u64 b) {
    if (code != PREPARE && code != DECIDE && code != COMMIT)
        return false;
    const struct Transaction *t = &store->transaction[a - 1];
    if (code == PREPARE)
        return t->pairs[b].state != ASKED;
    if (code == DECIDE)
        return !all_prepared(t) || t->decided;
    return !t->decided || t->pairs[b].state != PREPARED;
}

/* "If the server has prepared transactions, version clock = lowest proposed time - 1; else [...]
 * the larger of reading and hybrid clock." */
static u64 next_version_clock(const struct Store *store, u64 hall, u64 partition) {
    const struct Server *server = &store->server[hall][partition];
    bool prepared = false;
    u64 lowest = UINT64_MAX;
    for (u64 n = 0; n < store->requests; n++) {
        const struct Pair *pair = &store->transaction[n].pairs[partition];
        if (pair->state != PREPARED || pair->hall != hall)
            continue;
        prepared = true;
        lowest = lower(lowest, pair->proposed);
    }
    return prepared ? lowest - 1 : larger(server->reading, server->hybrid);
}

/* "Every waiting transaction with commit time at or below the version clock is installed. One
 * message with these and the version clock" */
static struct Message next_message(const struct Store *store, u64 hall, u64 partition) {
    struct Message message = {0};
    message.clock = next_version_clock(store, hall, partition);
    for (u64 n = 0; n < store->requests; n++) {
        const struct Transaction *t = &store->transaction[n];
        const struct Pair *pair = &t->pairs[partition];
        if (pair->state == WAITING && pair->hall == hall && t->commit_time <= message.clock)
            message.numbers[message.count++] = n + 1;
    }
    return message;
}

/* "An install that installs nothing and leaves the version clock where it was shall send no
 * message" */
bool quiet(const struct Store *store, u64 hall, u64 partition) {
    struct Message message = next_message(store, hall, partition);
    return message.count == 0 && message.clock == store->server[hall][partition].vector[hall];
}

/* Row 10: "install while an outgoing channel holds 8" */
static bool channel_full(const struct Store *store, u64 hall, u64 partition) {
    for (u64 to = 0; to < store->halls; to++)
        if (store->channel[partition][hall][to].count == PLACES)
            return true;
    return false;
}

/* "Checked in this order; the first that applies is given, and only then." */
unsigned refusal(const struct Store *store, u64 code, u64 a, u64 b, u64 c) {
    if (not_there(store, code, a, b, c))
        return 3;
    /* "bad value, checked right after 3" */
    if (code == WRITE && c > CEILING)
        return 12;
    if (code == TICK && c > LAST_READING)
        return 4;
    if (code == TICK && c < store->server[a][b].reading)
        return 5;
    if ((code == START || code == MOVE) && store->session[a].phase != IDLE)
        return 6;
    if ((code == READ || code == WRITE || code == END) && store->session[a].phase != RUNNING)
        return 7;
    if (code == END && store->session[a].write_set.count > 0 && store->requests == REQUESTS)
        return 8;
    if (out_of_turn(store, code, a, b))
        return 9;
    /* "now only when a message would be sent" */
    if (code == INSTALL && channel_full(store, a, b) && !quiet(store, a, b))
        return 10;
    if (code == DELIVER && store->channel[a][b][c].count == 0)
        return 11;
    return 0;
}

/* ---- The steps, each called only when nothing turns it away ---- */

/* "two answers, 0 where not named" */
static struct Answer answers(u64 first, u64 second) {
    return (struct Answer){0, first, second};
}

/* 1. "Stores the reading." */
static struct Answer tick(struct Store *store, u64 hall, u64 partition, u64 reading) {
    store->server[hall][partition].reading = reading;
    return answers(0, 0);
}

/* 2. "S becomes the larger of the coordinator's and the session's stable time; both keep it.
 * Write and read sets are emptied; cache entries with time at or below S go. Answers S and the
 * lag", which is "the coordinator's hybrid clock, or its reading if larger, minus S." That "S is
 * never the larger" is watched: every start tests it. */
static struct Answer start(struct Store *store, u64 session) {
    struct Session *s = &store->session[session];
    struct Server *coordinator = &store->server[s->home.hall][s->home.partition];
    u64 snapshot = larger(coordinator->stable, s->snapshot);
    u64 clock = larger(coordinator->hybrid, coordinator->reading);
    assert(snapshot <= clock);
    s->snapshot = snapshot;
    coordinator->stable = snapshot;
    s->write_set.count = 0;
    s->read_set.count = 0;
    clean(&s->cache, snapshot);
    s->phase = RUNNING;
    return answers(snapshot, clock - snapshot);
}

/* "Looks in write set, read set, cache" */
const struct Entry *look_in_session(const struct Session *s, u64 key) {
    const struct Entry *found = find(&s->write_set, key);
    if (found == NULL)
        found = find(&s->read_set, key);
    if (found == NULL)
        found = find(&s->cache, key);
    return found;
}

/* 3. "then at that hall's server, at S. What is found joins the read set, over an older entry.
 * Answers 1 and the value, or 0 and 0." */
static struct Answer read_key(struct Store *store, u64 session, u64 key, u64 hall) {
    struct Session *s = &store->session[session];
    const struct Entry *found = look_in_session(s, key);
    struct View view = view_at(&store->server[hall][partition_of(store, key)], key, s->snapshot);
    if (found == NULL && !view.something)
        return answers(0, 0);
    u64 value = found != NULL ? found->value : view.value;
    put(&s->read_set, key, value, 0);
    return answers(1, value);
}

/* 4. "Replaces an earlier value in the write set." */
static struct Answer write_key(struct Store *store, u64 session, u64 key, u64 value) {
    put(&store->session[session].write_set, key, value, 0);
    return answers(0, 0);
}

/* 5. "With writes: transaction number [...] and number of partitions written; each becomes
 * asked; the session is committing. Without: the session is idle, nothing else changes." */
static struct Answer end(struct Store *store, u64 session) {
    struct Session *s = &store->session[session];
    if (s->write_set.count == 0) {
        s->phase = IDLE;
        return answers(0, 0);
    }
    u64 number = ++store->requests, written = 0;
    struct Transaction *t = transaction(store, number);
    t->session = session;
    t->hall = s->home.hall;
    t->writes = s->write_set;
    for (size_t i = 0; i < t->writes.count; i++) {
        u64 p = partition_of(store, t->writes.list[i].key);
        if (t->pairs[p].state == ASKED)
            continue;
        t->pairs[p].state = ASKED;
        t->pairs[p].hall = writing_hall(store, t->hall, p);
        written++;
    }
    s->phase = COMMITTING;
    return answers(number, written);
}

/* 6. "At the writing server, proposed time = the largest of reading, hybrid clock + 1, the
 * session's last commit time + 1, S + 1. The hybrid clock becomes it. Answers it." */
static struct Answer prepare(struct Store *store, u64 number, u64 partition) {
    struct Transaction *t = transaction(store, number);
    struct Pair *pair = &t->pairs[partition];
    struct Server *server = &store->server[pair->hall][partition];
    const struct Session *s = &store->session[t->session];
    u64 time = larger(server->reading, server->hybrid + 1);
    time = larger(time, s->last_commit + 1);
    time = larger(time, s->snapshot + 1);
    pair->proposed = time;
    pair->state = PREPARED;
    server->hybrid = time;
    return answers(time, 0);
}

/* 7. "Commit time = largest proposed time, answered. The session is idle, its last commit time
 * is this, and its writes move to the cache with it, over older entries." */
static struct Answer decide(struct Store *store, u64 number) {
    struct Transaction *t = transaction(store, number);
    struct Session *s = &store->session[t->session];
    u64 time = 0;
    for (size_t p = 0; p < PARTITIONS; p++)
        if (t->pairs[p].state == PREPARED)
            time = larger(time, t->pairs[p].proposed);
    t->decided = true;
    t->commit_time = time;
    s->phase = IDLE;
    s->last_commit = time;
    for (size_t i = 0; i < s->write_set.count; i++)
        put(&s->cache, s->write_set.list[i].key, s->write_set.list[i].value, time);
    s->write_set.count = 0;
    return answers(time, 0);
}

/* 8. "Hybrid clock becomes the largest of itself, the commit time and the reading, and is
 * answered; the transaction is waiting." */
static struct Answer commit(struct Store *store, u64 number, u64 partition) {
    struct Transaction *t = transaction(store, number);
    struct Pair *pair = &t->pairs[partition];
    struct Server *server = &store->server[pair->hall][partition];
    server->hybrid = larger(server->hybrid, larger(t->commit_time, server->reading));
    pair->state = WAITING;
    return answers(server->hybrid, 0);
}

/* "One message [...] goes to each other holder" */
static void send(struct Store *store, u64 hall, u64 partition, const struct Message *message) {
    for (u64 to = 0; to < store->halls; to++)
        if (to != hall && holds(store, to, partition)) {
            struct Channel *channel = &store->channel[partition][hall][to];
            channel->list[channel->count++] = *message;
        }
}

/* 9. "[...] else hybrid clock and version clock both become the larger of reading and hybrid
 * clock. [...] Answers the version clock and the number installed." With prepared transactions
 * the hybrid clock is above the version clock already, and stays. */
static struct Answer install(struct Store *store, u64 hall, u64 partition) {
    struct Server *server = &store->server[hall][partition];
    struct Message message = next_message(store, hall, partition);
    if (!quiet(store, hall, partition))
        send(store, hall, partition, &message);
    server->hybrid = larger(server->hybrid, message.clock);
    server->vector[hall] = message.clock;
    for (size_t i = 0; i < message.count; i++) {
        transaction(store, message.numbers[i])->pairs[partition].state = INSTALLED;
        hold(store, hall, partition, message.numbers[i]);
    }
    return answers(message.clock, message.count);
}

/* 10. "Takes the oldest message, installs its transactions, sets the entry for the sender.
 * Answers the clock carried and the number installed. Its place is free again." */
static struct Answer deliver(struct Store *store, u64 partition, u64 from, u64 to) {
    struct Channel *channel = &store->channel[partition][from][to];
    struct Message message = channel->list[0];
    channel->count--;
    memmove(&channel->list[0], &channel->list[1], channel->count * sizeof message);
    for (size_t i = 0; i < message.count; i++)
        hold(store, to, partition, message.numbers[i]);
    store->server[to][partition].vector[from] = message.clock;
    return answers(message.clock, message.count);
}

/* 11. "The hall notes the lowest entry of that server's vector, and answers it." */
static struct Answer report(struct Store *store, u64 hall, u64 partition) {
    u64 lowest = UINT64_MAX;
    for (u64 h = 0; h < store->halls; h++)
        if (holds(store, h, partition))
            lowest = lower(lowest, store->server[hall][partition].vector[h]);
    store->hall[hall].reported[partition] = lowest;
    return answers(lowest, 0);
}

/* 12. "Hall "to" notes the lowest of "from"'s notes over its servers, and answers it." */
static struct Answer share(struct Store *store, u64 from, u64 to) {
    u64 lowest = UINT64_MAX;
    for (u64 p = 0; p < store->partitions; p++)
        if (holds(store, from, p))
            lowest = lower(lowest, store->hall[from].reported[p]);
    store->hall[to].shared[from] = lowest;
    return answers(lowest, 0);
}

/* 13. "Stable time becomes the larger of itself and the lowest shared note over all halls;
 * answered." */
static struct Answer learn(struct Store *store, u64 hall, u64 partition) {
    struct Server *server = &store->server[hall][partition];
    u64 lowest = UINT64_MAX;
    for (u64 from = 0; from < store->halls; from++)
        lowest = lower(lowest, store->hall[hall].shared[from]);
    server->stable = larger(server->stable, lowest);
    return answers(server->stable, 0);
}

/* 14. "gives an idle session a new home server. Its stable time, last commit time and cache go
 * along." They stand in the session. */
static struct Answer move(struct Store *store, u64 session, u64 hall, u64 partition) {
    store->session[session].home = (struct Home){hall, partition};
    return answers(0, 0);
}

/* "Both answers are 0 and the room is unchanged": a refused step reaches none of these. */
struct Answer step(struct Store *store, u64 code, u64 a, u64 b, u64 c) {
    unsigned number = refusal(store, code, a, b, c);
    if (number != 0)
        return (struct Answer){number, 0, 0};
    switch (code) {
    case TICK:    return tick(store, a, b, c);
    case START:   return start(store, a);
    case READ:    return read_key(store, a, b, c);
    case WRITE:   return write_key(store, a, b, c);
    case END:     return end(store, a);
    case PREPARE: return prepare(store, a, b);
    case DECIDE:  return decide(store, a);
    case COMMIT:  return commit(store, a, b);
    case INSTALL: return install(store, a, b);
    case DELIVER: return deliver(store, a, b, c);
    case REPORT:  return report(store, a, b);
    case SHARE:   return share(store, a, b);
    case LEARN:   return learn(store, a, b);
    default:      return move(store, a, b, c);
    }
}
