/* The draws of gen, and the script that it writes with them. */
#include "draft.h"

#include <stdio.h>
#include <string.h>

struct Store store;
size_t step_count;
bool no_room;
static struct Step steps[STEP_LIMIT];
static u64 masks[HALLS], halls, sessions;
static struct Home homes[SESSIONS];
static size_t used; /* bytes of the text so far, with five kept for the step count */
static u64 key_base, key_range;
static u64 rate[HALLS][PARTITIONS];
static unsigned char text[3 * TEXT_LIMIT];
static size_t length;

/* ---- Random draws: splitmix64 ---- */

static u64 seed_state;

void seed(u64 number) { seed_state = number; }

static u64 draw(void) {
    u64 z = seed_state += UINT64_C(0x9E3779B97F4A7C15);
    z = (z ^ (z >> 30)) * UINT64_C(0xBF58476D1CE4E5B9);
    z = (z ^ (z >> 27)) * UINT64_C(0x94D049BB133111EB);
    return z ^ (z >> 31);
}

u64 below(u64 n) { return draw() % n; }
bool chance(u64 percent) { return below(100) < percent; }

u64 power(u64 base, u64 exponent) {
    u64 n = 1;
    while (exponent-- > 0)
        n *= base;
    return n;
}

/* Near 2^32, 2^48, 2^63 or 2^64. */
u64 huge(void) {
    static const unsigned char bits[] = {32, 48, 48, 48, 63, 64, 64};
    u64 bit = bits[below(sizeof bits)];
    u64 near = bit == 64 ? 0 : UINT64_C(1) << bit;
    return near + below(5) - (bit == 64 ? 5 : 2);
}

/* Mostly small, now and then the ceiling or one below. */
u64 good_value(void) {
    u64 kind = below(12);
    if (kind < 8)
        return below(1000);
    return kind < 10 ? below(CEILING + 1) : CEILING - below(2);
}

/* Above the ceiling by one, by little or by far. */
u64 bad_value(void) {
    u64 kind = below(3);
    if (kind == 0)
        return CEILING + 1;
    return kind == 1 ? CEILING + 1 + below(1000) : huge();
}

/* About where the sizes of a store end. */
u64 out_of_range(void) {
    static const unsigned char numbers[] = {2, 3, 4, 5, 15, 16, 17, 31, 32, 33, 63, 64, 65, 100};
    return numbers[below(sizeof numbers)];
}

u64 any_key(void) { return (key_base + below(key_range)) % KEYS; }

/* ---- Steps ---- */

static size_t digits(u64 n) {
    size_t d = 1;
    while (n >= 10) {
        n /= 10;
        d++;
    }
    return d;
}

static size_t step_bytes(struct Step s) {
    return digits(s.n[0]) + digits(s.n[1]) + digits(s.n[2]) + digits(s.n[3]) + 4;
}

static unsigned refusal_of(struct Step s) {
    return refusal(&store, s.n[0], s.n[1], s.n[2], s.n[3]);
}

static bool taken(struct Step s) { return refusal_of(s) == 0; }

void add(struct Step s) {
    if (step_count == STEP_LIMIT || used + step_bytes(s) > TEXT_LIMIT) {
        no_room = true;
        return;
    }
    used += step_bytes(s);
    steps[step_count++] = s;
    step(&store, s.n[0], s.n[1], s.n[2], s.n[3]);
}

void add_step(u64 code, u64 a, u64 b, u64 c) {
    add((struct Step){{code, a, b, c}});
}

/* Bytes over what the steps still to come need at the least. */
size_t slack(void) {
    size_t need = used + SHORTEST_STEP * (STEP_LIMIT - step_count);
    return need < TEXT_LIMIT ? TEXT_LIMIT - need : 0;
}

/* How many different numbers stand at each place of a step worth trying. */
static struct Step ranges(u64 code) {
    const u64 m = store.halls, n = store.partitions;
    switch (code) {
    case START: case END:
        return (struct Step){{1, store.sessions, 1, 1}};
    case READ:
        return (struct Step){{1, store.sessions, key_range, m}};
    case WRITE:
        return (struct Step){{1, store.sessions, key_range, 1}};
    case PREPARE: case COMMIT:
        return (struct Step){{1, store.requests, n, 1}};
    case DECIDE:
        return (struct Step){{1, store.requests, 1, 1}};
    case DELIVER:
        return (struct Step){{1, n, m, m}};
    case SHARE:
        return (struct Step){{1, m, m, 1}};
    case MOVE:
        return (struct Step){{1, store.sessions, m, n}};
    default: /* tick, install, report, learn */
        return (struct Step){{1, m, n, 1}};
    }
}

static u64 next_reading(u64 hall, u64 partition) {
    u64 reading = store.server[hall][partition].reading + below(rate[hall][partition] + 1);
    return reading > LAST_READING ? LAST_READING : reading;
}

/* The step at an index into all those of its ranges. */
static struct Step nth(u64 code, u64 index) {
    struct Step r = ranges(code), s = {{code, 0, 0, 0}};
    for (int i = 3; i >= 1; i--) {
        s.n[i] = index % r.n[i];
        index /= r.n[i];
    }
    if (code == PREPARE || code == COMMIT || code == DECIDE)
        s.n[1]++;
    if (code == READ || code == WRITE)
        s.n[2] = (key_base + s.n[2]) % KEYS;
    if (code == WRITE)
        s.n[3] = good_value();
    if (code == TICK && holds(&store, s.n[1], s.n[2]))
        s.n[3] = next_reading(s.n[1], s.n[2]);
    return s;
}

static u64 range_size(u64 code) {
    struct Step r = ranges(code);
    return r.n[1] * r.n[2] * r.n[3];
}

struct Step any_step(u64 code) {
    u64 size = range_size(code);
    return size == 0 ? (struct Step){{code, 1, 0, 0}} : nth(code, below(size));
}

/* Finds a step of this code that is taken and not longer than so many bytes. */
bool find_good(u64 code, size_t longest, struct Step *found) {
    u64 size = range_size(code);
    if (size == 0)
        return false;
    u64 first = below(size);
    for (u64 i = 0; i < size; i++) {
        *found = nth(code, (first + i) % size);
        if (taken(*found) && step_bytes(*found) <= longest)
            return true;
    }
    return false;
}

/* Every step of this code that is taken or turned away with this number, once each. Answers how
 * many. */
size_t each_or(u64 code, unsigned number) {
    u64 size = range_size(code);
    size_t before = step_count;
    u64 first = size == 0 ? 0 : below(size);
    for (u64 i = 0; i < size; i++) {
        struct Step s = nth(code, (first + i) % size);
        unsigned due = refusal_of(s);
        if (due == 0 || due == number)
            add(s);
    }
    return step_count - before;
}

/* Every step of this code that is taken, once each. */
size_t each(u64 code) { return each_or(code, 0); }

/* ---- Setups ---- */

/* Each partition gets some holders, at least so many; a hall left without one gets any. */
void choose_masks(u64 hall_count, u64 partitions, u64 holders) {
    halls = hall_count;
    memset(masks, 0, sizeof masks);
    for (u64 p = 0; p < partitions; p++)
        for (u64 got = 0, h = below(halls); got < holders || chance(35); h = (h + 1) % halls) {
            masks[h] |= UINT64_C(1) << p;
            got++;
        }
    for (u64 h = 0; h < halls; h++)
        if (masks[h] == 0)
            masks[h] = UINT64_C(1) << below(partitions);
}

void choose_homes(u64 session_count) {
    sessions = session_count;
    for (u64 s = 0; s < sessions; s++) {
        do {
            homes[s].hall = below(halls);
            homes[s].partition = below(PARTITIONS);
        } while ((masks[homes[s].hall] >> homes[s].partition & 1) == 0);
    }
}

/* Clocks run at rates far apart, and now and then stand far apart to begin with. */
void choose_clocks(u64 longest) {
    for (u64 h = 0; h < HALLS; h++)
        for (u64 p = 0; p < PARTITIONS; p++)
            rate[h][p] = power(10, below(longest));
}

void choose_keys(u64 base, u64 range) {
    key_base = base;
    key_range = range;
}

void set_up(void) {
    setup(&store, masks, halls, homes, sessions);
    step_count = 0;
    no_room = false;
    used = digits(halls) + digits(sessions) + 2 + 5;
    for (u64 h = 0; h < halls; h++)
        used += digits(masks[h]) + 1;
    for (u64 s = 0; s < sessions; s++)
        used += digits(homes[s].hall) + digits(homes[s].partition) + 2;
}

void choose_any_setup(void) {
    u64 m = 1 + below(HALLS);
    u64 n = 1 + below(PARTITIONS);
    choose_masks(m, n, 1);
    u64 many = chance(15) ? SESSIONS : 6;
    choose_homes(1 + below(many));
    choose_clocks(7);
    u64 base = below(KEYS);
    choose_keys(base, UINT64_C(2) << below(5));
    set_up();
}

/* One number of the setup is spoilt; the steps stay. */
void spoil_setup(void) {
    static const unsigned char bad_masks[] = {0, 16, 17, 31, 8};
    u64 s = below(sessions), h = below(halls);
    switch (below(6)) {
    case 0: masks[h] = bad_masks[below(sizeof bad_masks)]; break;
    case 1: masks[h] = huge(); break;
    case 2: homes[s].hall = out_of_range(); break;
    case 3: homes[s].partition = out_of_range(); break;
    case 4: homes[s].partition = huge(); break;
    default: homes[s].hall = huge(); break;
    }
}

/* ---- The text and its damage ---- */

static void put_byte(unsigned char byte) {
    if (length < sizeof text)
        text[length++] = byte;
}

static void put_number(u64 n, bool line_end, u64 style) {
    char decimal[24];
    int count = snprintf(decimal, sizeof decimal, "%llu", (unsigned long long)n);
    for (int i = 0; i < count; i++)
        put_byte((unsigned char)decimal[i]);
    bool feed = style == 3 ? chance(50) : style == 2 || (style == 0 && line_end);
    put_byte(feed ? '\n' : ' ');
}

/* Styles: a line per section and step, all spaces, all line feeds, any. */
void put_text(void) {
    u64 style = chance(60) ? 0 : below(4);
    put_number(halls, false, style);
    for (u64 h = 0; h < halls; h++)
        put_number(masks[h], h + 1 == halls, style);
    put_number(sessions, false, style);
    for (u64 s = 0; s < sessions; s++) {
        put_number(homes[s].hall, false, style);
        put_number(homes[s].partition, s + 1 == sessions, style);
    }
    put_number(step_count, true, style);
    for (size_t i = 0; i < step_count; i++)
        for (int k = 0; k < 4; k++)
            put_number(steps[i].n[k], k == 3, style);
}

/* Puts a piece of text in place of so many bytes. */
static void replace(size_t place, size_t gone, const char *piece, size_t size) {
    if (place > length || gone > length - place || length + size > sizeof text)
        return;
    memmove(text + place + size, text + place + gone, length - place - gone);
    memcpy(text + place, piece, size);
    length += size - gone;
}

static bool closing(unsigned char byte) { return byte == ' ' || byte == '\n'; }

/* Where some number begins; one of the first few as often as not. */
static size_t any_number(void) {
    size_t place = chance(50) ? below(length + 1) : below(length < 30 ? length + 1 : 30);
    while (place > 0 && !closing(text[place - 1]))
        place--;
    return place;
}

static size_t number_length(size_t place) {
    size_t end = place;
    while (end < length && !closing(text[end]))
        end++;
    return end - place;
}

static void damage_number(void) {
    static const char *const numbers[] = {
        "18446744073709551615", "18446744073709551616", "18446744073709551620",
        "99999999999999999999", "184467440737095516150", "281474976710656", "8000", "8001",
        "80000", "0", "00", "01", "5", "17", "-1", "+1", "1.5", "0x1", "1e3", "",
    };
    const char *number = numbers[below(sizeof numbers / sizeof numbers[0])];
    size_t place = any_number();
    replace(place, number_length(place), number, strlen(number));
}

static void damage_count(void) {
    char number[24];
    u64 count = step_count + below(7);
    count = count > 3 ? count - 3 : count;
    size_t place = 0;
    for (u64 skip = 2 + halls + 2 * sessions; skip > 0; skip--)
        place += number_length(place) + (place < length);
    int size = snprintf(number, sizeof number, "%llu", (unsigned long long)count);
    replace(place, number_length(place), number, (size_t)size);
}

void damage(void) {
    static const char bytes[] = ",,,  \n\n\t\r\v-+.xX:;/0123456789\0\x7f\x80\xa0\xff";
    char byte = bytes[below(sizeof bytes - 1)];
    size_t place = chance(50) ? below(length + 1) : below(length < 40 ? length + 1 : 40);
    size_t number = any_number(), after = number + number_length(number);
    switch (below(13)) {
    case 0: replace(place, 1, &byte, 1); break;
    case 1: replace(place, 0, &byte, 1); break;
    case 2: replace(place, 1, "", 0); break;
    case 3: length = place; break;
    case 4: replace(after, 0, chance(50) ? " " : "\n", 1); break;
    case 5: replace(number, 0, "0", 1); break;
    case 6: replace(after, 1, ",", 1); break;
    case 7: replace(after, 0, ",", 1); break;
    case 8: damage_number(); break;
    case 9: damage_count(); break;
    case 10: replace(length, 0, chance(50) ? "\n" : "0 ", 1); break;
    case 11: length -= length > 0; break;
    default: /* at the limit or past it; rarely, as it is much text */
        for (size_t until = chance(8) ? TEXT_LIMIT + below(3) : 0; length < until;)
            put_byte((unsigned char)byte);
        break;
    }
}

bool write_text(void) { return fwrite(text, 1, length, stdout) == length && fflush(stdout) == 0; }
