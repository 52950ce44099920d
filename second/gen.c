/* ./gen KIND SEED writes one script. The same kind and seed give the same bytes, so no
 * expression holds two random draws in an order that C leaves open. A store runs along, to pick
 * steps that are taken. */
#include "draft.h"

#include <stdio.h>
#include <stdlib.h>
#include <string.h>

/* ---- Runs ---- */

static u64 weighted(const unsigned *weights) {
    unsigned sum = 0;
    for (u64 code = TICK; code <= LAST_CODE; code++)
        sum += weights[code];
    u64 point = below(sum), code = TICK;
    while (point >= weights[code])
        point -= weights[code++];
    return code;
}

/* How often each code is tried: in any run, and where transactions matter most. */
static const unsigned usual[LAST_CODE + 1] = {0, 8, 14, 14, 14, 10, 14, 10, 12, 9, 14, 5, 6, 5, 8};
static const unsigned busy[LAST_CODE + 1] = {0, 6, 14, 8, 28, 14, 24, 16, 16, 9, 6, 1, 1, 1, 8};

/* "the larger of reading and hybrid clock" */
static u64 clock_of(u64 hall, u64 partition) {
    const struct Server *s = &store.server[hall][partition];
    return s->reading > s->hybrid ? s->reading : s->hybrid;
}

/* All clocks meet a little past the fastest: stable times can pass all commits, and the next
 * proposals tie. */
static void catch_up(void) {
    u64 top = 0, more = below(4);
    for (u64 h = 0; h < store.halls; h++)
        for (u64 p = 0; p < store.partitions; p++)
            top = clock_of(h, p) > top ? clock_of(h, p) : top;
    top = top + more > LAST_READING ? LAST_READING : top + more;
    for (u64 h = 0; h < store.halls; h++)
        for (u64 p = 0; p < store.partitions; p++)
            if (holds(&store, h, p))
                add_step(TICK, h, p, top);
}

/* A full round but for the learning. In some, installs that find a channel full and deliveries
 * that find one empty are tried too. */
static void gossip(void) {
    bool all = chance(30);
    each_or(INSTALL, all ? 10 : 0);
    each_or(DELIVER, all ? 11 : 0);
    each(REPORT);
    each(SHARE);
}

static void full_round(void) {
    gossip();
    each(LEARN);
}

/* In some runs a round comes first, when there is nothing to send. Then a few servers tick, some to
 * near the last reading. */
static void begin(void) {
    if (chance(30))
        full_round();
    u64 most = chance(12) ? 48 : 24;
    for (u64 h = 0; h < store.halls; h++)
        for (u64 p = 0; p < store.partitions; p++)
            if (holds(&store, h, p) && chance(60)) {
                u64 top = UINT64_C(1) << below(most + 1);
                add_step(TICK, h, p, top - 1 - below(top) / 8);
            }
}

/* Installs at one server, this many times. A tick comes before each, so that it sends unless
 * transactions are prepared there; some follow without a tick, and are quiet unless the one before
 * was turned away. */
static void fill_channels(u64 times) {
    struct Step s;
    if (!find_good(INSTALL, SIZE_MAX, &s))
        return;
    for (; times > 0; times--) {
        if (clock_of(s.n[1], s.n[2]) < LAST_READING)
            add_step(TICK, s.n[1], s.n[2], clock_of(s.n[1], s.n[2]) + 1);
        add(s);
        for (u64 more = chance(70) ? 0 : 1 + below(3); more > 0; more--)
            add(s);
    }
}

/* A hall with the partition: this one or the next that holds it. */
static u64 holder(u64 hall, u64 partition) {
    while (!holds(&store, hall, partition))
        hall = (hall + 1) % store.halls;
    return hall;
}

/* The session starts, reads what transactions after this one wrote, and mostly ends. */
static void look_after(u64 session, u64 number) {
    add_step(START, session, 0, 0);
    for (u64 reads = 2 + below(6); reads > 0; reads--) {
        u64 key = any_key();
        if (store.requests > number) {
            u64 place = number + below(store.requests - number);
            const struct Entries *w = &store.transaction[place].writes;
            key = w->list[below(w->count)].key;
        }
        u64 hall = chance(50) ? store.session[session].home.hall : below(store.halls);
        add_step(READ, session, key, holder(hall, partition_of(&store, key)));
    }
    if (chance(70))
        add_step(END, session, 0, 0);
}

/* Any idle session does so: what the servers have learned is seen. */
static void look(u64 number) {
    struct Step s;
    if (find_good(START, SIZE_MAX, &s))
        look_after(s.n[1], number);
}

static void move_anywhere(u64 session) {
    u64 partition = below(store.partitions);
    add_step(MOVE, session, holder(below(store.halls), partition), partition);
}

/* The session of a transaction just decided moves before the commits, and often looks for what
 * it wrote. */
static void walk(u64 number) {
    u64 session = store.transaction[number - 1].session;
    move_anywhere(session);
    if (chance(50))
        look_after(session, number - 1);
}

static void add_and_walk(struct Step s) {
    add(s);
    if (s.n[0] == DECIDE && chance(40))
        walk(s.n[1]);
}

static bool good(u64 code) {
    struct Step s;
    bool found = find_good(code, SIZE_MAX, &s);
    if (found)
        add_and_walk(s);
    return found;
}

/* "A write above that is a slip": by any session, running or not. */
static void slip(void) {
    u64 session = below(store.sessions), key = any_key();
    add_step(WRITE, session, key, bad_value());
}

/* A step that is taken, or a slip in place of some writes. */
static void good_or_slip(const unsigned *weights) {
    u64 code = weighted(weights);
    if (code == WRITE && chance(10))
        slip();
    else
        good(code);
}

/* No transaction stays prepared. */
static void finish(void) {
    each(PREPARE);
    each(DECIDE);
    each(COMMIT);
}

/* Nor does any channel keep a message. */
static void settle(void) {
    finish();
    while (each(DELIVER) > 0)
        continue;
}

/* Installs are tried at all servers, one of them with a full channel: while transactions are
 * prepared there, and while they wait. */
static void crowd(void) {
    fill_channels(8 + below(2));
    if (chance(50)) {
        each(END);
        each(PREPARE);
    }
    each_or(INSTALL, 10);
    if (chance(50))
        finish();
    if (chance(50))
        good(DELIVER);
    each_or(INSTALL, 10);
}

/* Two sessions move to two holders of a key, write it at equal times where the clocks allow, and
 * move on before the commits: the halls they ended under decide. */
static void tie(void) {
    u64 key = any_key(), partition = partition_of(&store, key);
    u64 one = holder(below(store.halls), partition);
    u64 other = holder((one + 1) % store.halls, partition);
    if (one == other || store.sessions < 2 || store.requests + store.sessions + 2 > REQUESTS)
        return;
    each(END);
    settle();
    catch_up();
    u64 number = store.requests, first = below(store.sessions);
    u64 more = 1 + below(store.sessions - 1);
    for (u64 i = 0; i < 2; i++) {
        u64 session = (first + i * more) % store.sessions;
        add_step(MOVE, session, i == 0 ? one : other, partition);
        add_step(START, session, 0, 0);
        add_step(WRITE, session, key, good_value());
        add_step(END, session, 0, 0);
    }
    each(PREPARE);
    each(DECIDE);
    for (u64 i = 1; i <= 2; i++)
        if (chance(70))
            walk(number + i);
    settle();
    full_round();
    look(number);
}

/* One server alone learns. A session comes there and goes on, mostly with what it learned; then
 * some session comes to where it is. */
static void carry(void) {
    struct Step s;
    if (!find_good(MOVE, SIZE_MAX, &s))
        return;
    catch_up();
    gossip();
    add_step(LEARN, s.n[2], s.n[3], 0);
    add(s);
    if (chance(80)) {
        add_step(START, s.n[1], 0, 0);
        add_step(END, s.n[1], 0, 0);
    }
    move_anywhere(s.n[1]);
    struct Home home = store.session[s.n[1]].home;
    if (chance(60))
        look_after(s.n[1], 0);
    if (find_good(MOVE, SIZE_MAX, &s)) {
        add_step(MOVE, s.n[1], home.hall, home.partition);
        look_after(s.n[1], 0);
    }
}

static void moves(void) {
    if (chance(50))
        tie();
    else
        carry();
}

static void wave(void) {
    if (chance(60))
        moves();
    if (chance(30))
        crowd();
    if (chance(60))
        catch_up();
    if (chance(50))
        settle();
    full_round();
    look(0);
}

static void mixed(size_t target) {
    begin();
    while (step_count < target && !no_room) {
        if (chance(2))
            wave();
        else
            good_or_slip(step_count / 64 % 2 == 0 ? busy : usual);
    }
    settle();
    catch_up();
    full_round();
    look(0);
}

/* "let L be the lowest over servers of the larger of reading and hybrid clock" */
static u64 lowest_clock(void) {
    u64 lowest = UINT64_MAX;
    for (u64 h = 0; h < store.halls; h++)
        for (u64 p = 0; p < store.partitions; p++)
            if (holds(&store, h, p) && clock_of(h, p) < lowest)
                lowest = clock_of(h, p);
    return lowest;
}

/* "every stable time is then at least L" */
static void checked_round(void) {
    u64 lowest = lowest_clock();
    full_round();
    for (u64 h = 0; h < store.halls; h++)
        for (u64 p = 0; p < store.partitions; p++)
            if (!no_room && holds(&store, h, p) && store.server[h][p].stable < lowest) {
                fputs("gen: a stable time below L after a full round\n", stderr);
                exit(1);
            }
}

static void rounds(void) {
    begin();
    for (u64 turns = 2 + below(6); turns > 0; turns--) {
        for (u64 i = 20 + below(60); i > 0; i--)
            good_or_slip(busy);
        if (chance(30))
            moves();
        if (chance(30))
            crowd();
        settle();
        if (chance(50))
            catch_up();
        if (chance(50)) { /* some servers have nothing left to send in the round */
            for (u64 i = 1 + below(6); i > 0; i--)
                good(INSTALL);
            settle();
        }
        checked_round();
        if (chance(30))
            checked_round();
        look(0);
        look(0);
    }
}

/* ---- Bad steps ---- */

/* More writes than other steps: 3, 12 and 7 may all be due for one. */
static void bad_step(void) {
    u64 kind = below(7), code = 1 + below(LAST_CODE);
    struct Step s = any_step(chance(10) ? WRITE : code);
    u64 place = 1 + below(3);
    if (s.n[0] == WRITE && chance(50))
        s.n[3] = bad_value();
    if (kind == 0) { /* unknown code */
        u64 near = LAST_CODE + 1 + below(4);
        s.n[0] = chance(30) ? 0 : chance(50) ? near : huge();
    } else if (kind == 1) { /* often an unused number not 0 */
        s.n[3] = 1 + below(3);
    } else if (kind == 2) {
        s.n[place] = out_of_range();
    } else if (kind == 3) {
        s.n[place] = huge();
    } else if (kind == 4) {
        for (int i = 1; i < 4; i++)
            s.n[i] = below(6);
    } else if (kind == 5 && s.n[0] == TICK) { /* below the last, or past all */
        u64 reading = below(5);
        s.n[3] = chance(50) ? reading : LAST_READING - 2 + reading;
    } /* else as it is: out of turn more often than not */
    add(s);
}

static void bad(void) {
    size_t target = 80 + below(300);
    begin();
    while (step_count < target && !no_room) {
        if (chance(45))
            bad_step();
        else if (chance(3))
            wave();
        else if (chance(2))
            crowd();
        else
            good_or_slip(busy);
    }
    if (chance(8))
        spoil_setup();
}

/* ---- Everything full ---- */

static void write_many(u64 session, u64 count) {
    u64 first = below(KEYS), stride = 1 + 2 * below(KEYS / 2);
    for (u64 i = 0; i < count; i++) {
        u64 key = (first + i * stride) % KEYS;
        add_step(WRITE, session, key, good_value());
        if (chance(3))
            add_step(WRITE, session, key, bad_value());
    }
}

static void batch(void) {
    each(START);
    for (u64 s = 0; s < store.sessions; s++) {
        bool all = chance(50);
        u64 some = 1 + below(KEYS);
        write_many(s, all ? KEYS : some);
        if (chance(30))
            good(READ);
    }
    for (u64 i = below(20); i > 0; i--)
        good(END);
    each(END);
    fill_channels(9 + below(2));
    while (good(PREPARE) && !no_room)
        if (chance(20))
            good(chance(50) ? DECIDE : INSTALL);
    each(DECIDE);
    for (u64 i = below(store.sessions); i > 0; i--)
        good(MOVE);
    each_or(INSTALL, 10);
    while (good(COMMIT) && !no_room)
        if (chance(20))
            good(chance(50) ? TICK : INSTALL);
    each_or(INSTALL, 10);
    for (u64 i = 10 + below(30); i > 0; i--) {
        if (chance(50))
            good(DELIVER);
        else
            fill_channels(1 + below(4));
    }
}

static void full(void) {
    u64 m = 2 + below(HALLS - 1);
    u64 n = 1 + below(PARTITIONS);
    choose_masks(m, n, 2);
    choose_homes(SESSIONS);
    choose_clocks(4);
    choose_keys(0, KEYS);
    set_up();
    each(TICK);
    while (store.requests < REQUESTS && !no_room)
        batch();
    each(START);
    for (u64 s = 0; s < store.sessions; s++) {
        if (chance(70))
            write_many(s, 1 + below(2));
        add_step(END, s, 0, 0); /* the 65th request is turned away */
        add_step(END, s, 0, 0);
    }
    while (each(DELIVER) > 0)
        continue;
    catch_up();
    full_round();
    look(0);
    for (u64 key = 0; key < KEYS; key++)
        good(READ);
    fill_channels(9);
}

/* ---- 8,000 steps in at most 65,536 bytes ---- */

/* Session 0 writes nothing before the last steps but in a tie, decided at once, so it is never
 * kept committing. */
static bool may_stand(struct Step s) {
    return s.n[0] != WRITE || s.n[1] != 0;
}

static void short_step(void) {
    static const unsigned char codes[] = {READ, READ, READ, WRITE, START, END, INSTALL, TICK};
    for (;;) {
        struct Step s;
        u64 code = codes[below(sizeof codes)];
        if (!find_good(code, SHORTEST_STEP, &s) || !may_stand(s))
            continue;
        if (code == END && store.session[s.n[1]].write_set.count > 0)
            continue;
        add(s);
        return;
    }
}

/* Keeps the requests and the spare bytes for the whole run. */
static void paced_step(size_t spare, size_t last) {
    struct Step s;
    size_t share = spare * (last - step_count) / last;
    u64 code = weighted(usual);
    bool early = store.requests * last > REQUESTS * (step_count + 40);
    if (code == END && early)
        code = READ;
    bool longer = slack() > share + 20;
    if (longer && code == WRITE && chance(10))
        slip();
    else if (longer && find_good(code, SHORTEST_STEP + 20, &s) && may_stand(s))
        add_and_walk(s);
    else
        short_step();
}

/* The last writes take up the bytes left to the limit with the digits of their values: at most five
 * each, so that they are taken. */
static void last_writes(void) {
    struct Step s;
    while (step_count < STEP_LIMIT && !no_room) {
        if (!find_good(WRITE, SIZE_MAX, &s)) {
            good(START);
            continue;
        }
        size_t more = slack() < 4 ? slack() : 4;
        s.n[3] = more == 0 ? below(10) : power(10, more) + below(9 * power(10, more));
        add(s);
    }
}

static void long_run(void) {
    const size_t kept = 300, last = STEP_LIMIT - 30;
    u64 m = 2 + below(HALLS - 1);
    u64 n = 2 + below(PARTITIONS - 1);
    choose_masks(m, n, 1);
    choose_homes(3 + below(7));
    choose_clocks(3);
    choose_keys(below(3), 6);
    set_up();
    size_t spare = slack() - kept;
    while (step_count < last && !no_room) {
        if (step_count % 1000 == 500 && slack() > 2 * kept)
            wave();
        paced_step(spare, last);
    }
    last_writes();
}

/* ---- The kinds ---- */

static void make_mixed(void) {
    choose_any_setup();
    mixed(100 + below(500));
    put_text();
}

static void make_bad(void) {
    choose_any_setup();
    bad();
    put_text();
}

static void make_full(void) {
    full();
    put_text();
}

static void make_damaged(void) {
    choose_any_setup();
    mixed(3 + below(120));
    put_text();
    for (u64 times = chance(70) ? 1 : 2 + below(2); times > 0; times--)
        damage();
}

static void make_rounds(void) {
    choose_any_setup();
    rounds();
    put_text();
}

static void make_long(void) {
    long_run();
    put_text();
}

int main(int argc, char **argv) {
    static const struct {
        const char *name;
        void (*make)(void);
    } kinds[] = {
        {"mixed", make_mixed},     {"bad", make_bad},       {"full", make_full},
        {"damaged", make_damaged}, {"rounds", make_rounds}, {"long", make_long},
    };
    const size_t count = sizeof kinds / sizeof kinds[0];
    size_t kind = 0;
    while (argc == 3 && kind < count && strcmp(argv[1], kinds[kind].name) != 0)
        kind++;
    if (argc != 3 || kind == count) {
        fputs("usage: gen mixed|bad|full|damaged|rounds|long SEED\n", stderr);
        return 2;
    }
    seed(strtoull(argv[2], NULL, 10) * (2 * count + 1) + kind);
    kinds[kind].make();
    return write_text() ? 0 : 1;
}
