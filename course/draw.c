/* Draws a run as one SVG: draw SCRIPT PRINTOUT. Steps go down, one to a row; halls and servers are lanes. The second program's store
 * runs the script and says where a step stands and what it does; the printout must be that run's. */
#include "script.h"

#include <inttypes.h>
#include <stdarg.h>
#include <stdio.h>
#include <stdlib.h>
#include <string.h>

enum { LANES = HALLS + HALLS * PARTITIONS, ARROWS = STEP_LIMIT * (HALLS - 1), NONE = -1 };

struct Row {
    u64 code;
    unsigned refusal;
    int lane, asker; /* where it happens, and the lane it is asked from; NONE where it has no place */
    bool own, quiet; /* a read that the session answers itself; an install that sends nothing */
    u64 stable;      /* the stable time of the lane's server, after the step */
    u64 mover;       /* the session, where one moves */
    char words[192], label[64];
};

/* A message, from the row of its install to the row of its delivery, or to NONE. */
struct Arrow {
    int from, to, sent, taken;
    u64 clock;
    bool carries;
};

static struct Store store;
static struct Row rows[STEP_LIMIT];
static int row_count;
static struct Arrow arrows[ARROWS];
static int arrow_count;
static char ending[128]; /* why the picture ends before the script does; else empty */

static u64 servers;
static int lane_count, hall_lane[HALLS], server_lane[HALLS][PARTITIONS];
static const struct Server *server_at[LANES]; /* NULL in a hall's own lane */
static int ended_at[REQUESTS + 1];            /* the lane where a transaction's session ended it */
static char homes[LANES][96];                 /* which sessions begin there */
static bool moved;                            /* did any of them move? */

/* ---- Lanes ---- */

static int lane_of_hall(u64 hall) { return hall < store.halls ? hall_lane[hall] : NONE; }

static int lane_of(u64 hall, u64 partition) {
    return holds(&store, hall, partition) ? server_lane[hall][partition] : NONE;
}

static int home_of(u64 session) {
    if (session >= store.sessions)
        return NONE;
    struct Home home = store.session[session].home;
    return lane_of(home.hall, home.partition);
}

static bool is_transaction(u64 number) { return number >= 1 && number <= store.requests; }

static int coordinator_of(u64 number) { return is_transaction(number) ? ended_at[number] : NONE; }

static int writer_of(u64 number, u64 partition) {
    if (!is_transaction(number) || partition >= store.partitions)
        return NONE;
    return lane_of(writing_hall(&store, store.transaction[number - 1].hall, partition), partition);
}

/* ---- Rows ---- */

static void put(char *line, size_t size, const char *format, ...) {
    size_t used = strlen(line);
    va_list arguments;
    va_start(arguments, format);
    vsnprintf(line + used, size - used, format, arguments);
    va_end(arguments);
}
#define WORDS(...) put(row->words, sizeof row->words, __VA_ARGS__)
#define LABEL(...) put(row->label, sizeof row->label, __VA_ARGS__)
#define SERVER "(%" PRIu64 ", %" PRIu64 ")"
#define N "%" PRIu64

/* What is asked, in words, and its lanes, before the step. */
static void ask(struct Row *row, const u64 n[4]) {
    u64 a = n[1], b = n[2], c = n[3];
    switch (n[0]) {
    case TICK:
        WORDS("tick at " SERVER ": " N, a, b, c);
        row->lane = lane_of(a, b);
        break;
    case START:
        WORDS("session " N " starts", a);
        row->lane = home_of(a);
        break;
    case READ:
        WORDS("session " N " reads key " N " in hall " N, a, b, c);
        row->own = row->refusal == 0 && look_in_session(&store.session[a], b) != NULL;
        row->lane = row->own ? home_of(a) : lane_of(c, partition_of(&store, b));
        row->asker = home_of(a);
        break;
    case WRITE:
        WORDS("session " N " writes " N " to key " N, a, c, b);
        row->lane = home_of(a);
        break;
    case END:
        WORDS("session " N " ends", a);
        row->lane = home_of(a);
        break;
    case PREPARE:
    case COMMIT:
        WORDS("%s transaction " N " in partition " N, n[0] == PREPARE ? "prepare" : "commit", a, b);
        row->lane = writer_of(a, b);
        row->asker = coordinator_of(a);
        break;
    case DECIDE:
        WORDS("decide transaction " N, a);
        row->lane = coordinator_of(a);
        break;
    case INSTALL:
        WORDS("install at " SERVER, a, b);
        row->quiet = row->refusal == 0 && quiet(&store, a, b);
        row->lane = lane_of(a, b);
        break;
    case DELIVER:
        WORDS("deliver from " SERVER " to " SERVER, b, a, c, a);
        row->lane = lane_of(c, a);
        break;
    case REPORT:
        WORDS("report of " SERVER, a, b);
        row->lane = holds(&store, a, b) ? lane_of_hall(a) : NONE;
        row->asker = lane_of(a, b);
        break;
    case SHARE:
        WORDS("share from hall " N " to hall " N, a, b);
        row->lane = lane_of_hall(b);
        row->asker = lane_of_hall(a);
        break;
    case LEARN:
        WORDS("learn at " SERVER, a, b);
        row->lane = lane_of(a, b);
        row->asker = lane_of_hall(a);
        break;
    case MOVE:
        WORDS("session " N " moves", a);
        row->lane = home_of(a);
        if (row->lane != NONE)
            WORDS(" from " SERVER, store.session[a].home.hall, store.session[a].home.partition);
        WORDS(" to " SERVER, b, c);
        break;
    default:
        WORDS("step " N " " N " " N " " N, n[0], a, b, c);
    }
}

static void read_key(struct Row *row, u64 session, u64 found, u64 value) {
    if (found != 0) {
        WORDS(": " N, value);
        LABEL(N, value);
    } else {
        WORDS(": nothing");
        LABEL("none");
    }
    if (row->own) {
        WORDS(", its own");
        LABEL(" own");
    } else {
        WORDS(" at " N, store.session[session].snapshot);
        LABEL(" at " N, store.session[session].snapshot);
    }
}

static void end(struct Row *row, u64 number, u64 written) {
    if (number == 0) {
        WORDS(", nothing written");
        LABEL("end");
        return;
    }
    WORDS(": transaction " N ", partitions: " N, number, written);
    LABEL("T" N, number);
    ended_at[number] = row->lane;
}

/* In a channel no two messages carry the same clock: an install that leaves its clock is quiet. So the clock tells which one was
 * sent just now, and which one a delivery takes. */
static void send(const struct Row *row, u64 hall, u64 partition, u64 clock, u64 installed) {
    for (u64 to = 0; to < store.halls; to++) {
        const struct Channel *channel = &store.channel[partition][hall][to];
        if (channel->count > 0 && channel->list[channel->count - 1].clock == clock)
            arrows[arrow_count++] =
                (struct Arrow){row->lane, lane_of(to, partition), (int)(row - rows), NONE, clock, installed != 0};
    }
}

static void deliver(const struct Row *row, int from, u64 clock) {
    for (int i = 0; i < arrow_count; i++)
        if (arrows[i].from == from && arrows[i].to == row->lane && arrows[i].clock == clock)
            arrows[i].taken = (int)(row - rows);
}

static void install(struct Row *row, u64 hall, u64 partition, u64 clock, u64 installed) {
    WORDS(": version clock " N ", installed: " N, clock, installed);
    LABEL("version " N, clock);
    if (installed != 0)
        LABEL(", +" N, installed);
    if (row->quiet) {
        WORDS(", quiet");
        LABEL(", quiet");
    } else {
        send(row, hall, partition, clock, installed);
    }
}

static void move(struct Row *row, u64 session) {
    row->mover = session;
    row->asker = row->lane;
    row->lane = home_of(session);
    moved = true;
}

/* What was answered, after the step. */
static void answer(struct Row *row, const u64 n[4], u64 first, u64 second) {
    u64 a = n[1], b = n[2], c = n[3];
    switch (n[0]) {
    case TICK:
        LABEL(N, c);
        break;
    case START:
        WORDS(": snapshot " N ", lag " N, first, second);
        LABEL("S " N, first);
        break;
    case READ:
        read_key(row, a, first, second);
        break;
    case WRITE:
        LABEL("key " N ": " N, b, c);
        break;
    case END:
        end(row, first, second);
        break;
    case PREPARE:
        WORDS(": proposed " N, first);
        LABEL("T" N " proposed " N, a, first);
        break;
    case DECIDE:
        WORDS(": commit time " N, first);
        LABEL("T" N " decided " N, a, first);
        break;
    case COMMIT:
        WORDS(": hybrid clock " N, first);
        LABEL("T" N " waiting", a);
        break;
    case INSTALL:
        install(row, a, b, first, second);
        break;
    case DELIVER:
        WORDS(": clock " N ", installed: " N, first, second);
        LABEL("hall " N ": " N, b, first);
        if (second != 0)
            LABEL(", +" N, second);
        deliver(row, lane_of(b, a), first);
        break;
    case REPORT:
        WORDS(": " N, first);
        LABEL(SERVER ": " N, a, b, first);
        break;
    case SHARE:
        WORDS(": " N, first);
        LABEL("hall " N ": " N, a, first);
        break;
    case LEARN:
        WORDS(": stable time " N, first);
        LABEL("stable " N, first);
        break;
    case MOVE:
        LABEL("session " N, a);
        move(row, a);
        break;
    }
}

static struct Answer follow(const u64 n[4]) {
    struct Row *row = &rows[row_count++];
    *row = (struct Row){.code = n[0], .refusal = refusal(&store, n[0], n[1], n[2], n[3]), .lane = NONE, .asker = NONE};
    ask(row, n);
    struct Answer due = step(&store, n[0], n[1], n[2], n[3]);
    if (row->refusal != 0) {
        WORDS(": turned away, %u", row->refusal);
        LABEL("turned away, %u", row->refusal);
        row->asker = NONE;
    } else {
        answer(row, n, due.first, due.second);
    }
    if (row->lane != NONE && server_at[row->lane] != NULL)
        row->stable = server_at[row->lane]->stable;
    return due;
}

/* ---- The run ---- */

static void give_lanes(void) {
    for (u64 h = 0; h < store.halls; h++) {
        hall_lane[h] = lane_count++;
        for (u64 p = 0; p < store.partitions; p++)
            if (holds(&store, h, p)) {
                server_at[lane_count] = &store.server[h][p];
                server_lane[h][p] = lane_count++;
            }
    }
    for (u64 s = 0; s < store.sessions; s++) {
        char *line = homes[home_of(s)];
        put(line, sizeof homes[0], "%s" N, line[0] == 0 ? "sessions: " : ", ", s);
    }
}

static struct Reader read_file(const char *path, unsigned char *bytes, size_t size) {
    FILE *file = fopen(path, "rb");
    size_t length = file == NULL ? 0 : fread(bytes, 1, size, file);
    if (file == NULL || ferror(file)) {
        fprintf(stderr, "draw: cannot read %s\n", path);
        exit(1);
    }
    fclose(file);
    return (struct Reader){bytes, length, 0};
}

static void differs(const struct Reader *printout, const char *due) {
    fprintf(stderr, "draw: the printout is not this script's: at offset %zu should be %s", printout->place, due);
    exit(1);
}

/* The printout must go on with this line. */
static void expect(struct Reader *printout, const char *line) {
    size_t left = printout->length - printout->place, length = strlen(line);
    if (left < length || memcmp(printout->text + printout->place, line, length) != 0)
        differs(printout, line);
    printout->place += length;
}

static void expect_answer(struct Reader *printout, u64 number, struct Answer due) {
    char line[LINE_SIZE];
    write_answer(line, number, due);
    expect(printout, line);
}

static void stop(const char *why, u64 number) {
    put(ending, sizeof ending, "The script stops ");
    if (store.halls == 0)
        put(ending, sizeof ending, "before step 1");
    else
        put(ending, sizeof ending, "after step %d", row_count);
    put(ending, sizeof ending, ": %s " N ".", why, number);
}

/* False where the script's text is bad. */
static bool run(struct Reader *script, struct Reader *printout) {
    struct Answer due;
    u64 count, n[4];
    if (!take_setup(script, &store, &due))
        return false;
    expect_answer(printout, 0, due);
    if (due.refusal != 0) {
        stop("setup is turned away,", due.refusal);
        return true;
    }
    servers = due.second;
    give_lanes();
    if (!take_step_count(script, &count))
        return false;
    for (u64 number = 1; number <= count; number++) {
        if (!take_step(script, n))
            return false;
        expect_answer(printout, number, follow(n));
    }
    return script->place == script->length;
}

/* ---- The picture: sizes are whole pixels ---- */

enum { ROW = 20, BAND = 36, LEFT = 16, NUMBER = 44, HEAD = 104, FOOT = 12, LEGEND_ROW = 22, LEGEND_COLUMN = 350, GAP = 6 };
enum { LABEL_AT = 14 }; /* from a lane's line to its label */

/* Most fonts are narrower; labels are 11 px, words 12. */
static int label_width(size_t letters) { return (int)letters * 7; }
static int words_width(size_t letters) { return (int)(letters * 37 / 5); }

static int words_at = LEFT + NUMBER, lane_x[LANES], lane_left[LANES + 1];
static int width, height, rows_end;

static int y_of(int row) { return HEAD + ROW * row + ROW / 2; }

static void at_least(int *size, int needed) {
    if (*size < needed)
        *size = needed;
}

enum { REFUSED = 0, LATE = 100, STABLE }; /* marks that are no code */

static const struct { u64 mark; const char *words; } legend[] = {
    {TICK, "tick: the server's clock reading"},
    {START, "start: S is the session's snapshot"},
    {READ, "read: answer at the snapshot, or its own"},
    {WRITE, "write: kept in the session until its end"},
    {END, "end: T is the transaction's number"},
    {PREPARE, "prepare: the time this server proposes"},
    {DECIDE, "decide: the commit time"},
    {COMMIT, "commit: waiting to be installed"},
    {INSTALL, "install: version clock, + how many are new"},
    {DELIVER, "deliver: sender and clock; thin when empty"},
    {LATE, "a message that is not delivered here"},
    {REPORT, "report, share, learn: the time passed on"},
    {STABLE, "a server's stable time: wider is later"},
    {REFUSED, "turned away, with its number"},
    {MOVE, "move: the session's home from here on"}, /* last, for it stands only where it is needed */
};

static int legends(void) { return (int)(sizeof legend / sizeof legend[0]) - !moved; }

static int legend_columns(void) { return (width - 2 * LEFT) / LEGEND_COLUMN; }

static void measure(void) {
    int widest[LANES] = {0}, words = words_width(24);
    for (int i = 0; i < row_count; i++) {
        at_least(&words, words_width(strlen(rows[i].words)));
        if (rows[i].lane != NONE)
            at_least(&widest[rows[i].lane], label_width(strlen(rows[i].label)));
    }
    int x = words_at + words + LEFT;
    for (u64 h = 0; h < store.halls; h++) {
        int lane = hall_lane[h];
        at_least(&widest[lane], label_width(8));
        lane_left[lane] = x;
        lane_x[lane] = x + 14;
        x = lane_x[lane] + LABEL_AT + widest[lane] + GAP;
        for (u64 p = 0; p < store.partitions; p++) {
            if (!holds(&store, h, p))
                continue;
            lane = server_lane[h][p];
            at_least(&widest[lane], label_width(13) - BAND);
            at_least(&widest[lane], label_width(strlen(homes[lane])) - BAND);
            lane_left[lane] = x;
            lane_x[lane] = x + BAND + GAP;
            x = lane_x[lane] + LABEL_AT + widest[lane] + GAP;
        }
        x += GAP;
    }
    lane_left[lane_count] = x;
    width = x + LEFT;
    at_least(&width, 2 * LEFT + 2 * LEGEND_COLUMN);
    at_least(&width, words_at + words_width(strlen(ending)) + LEFT);
    rows_end = HEAD + ROW * row_count + (ending[0] != 0 ? 2 * ROW : ROW / 2);
    int lines = (legends() + legend_columns() - 1) / legend_columns();
    height = rows_end + 2 * ROW + LEGEND_ROW * lines + FOOT;
}

/* Ticks are grey, sessions blue, edits brown, copies purple, stable times green. */
static const char *colour_of(u64 code) {
    switch (code) {
    case TICK:
        return "#666";
    case START: case READ: case MOVE:
        return "#1a5fb4";
    case WRITE: case END: case PREPARE: case DECIDE: case COMMIT:
        return "#9c4a00";
    case INSTALL: case DELIVER:
        return "#6a3d9a";
    default:
        return "#1b7a45";
    }
}

static const char black[] = "#222", red[] = "#c01c28";

/* Kinds: t title, w words, l label, n number. */
static void text(char kind, int x, int y, const char *colour, const char *format, ...) {
    printf("<text class=\"%c\" x=\"%d\" y=\"%d\" fill=\"%s\">", kind, x, y, colour);
    va_list arguments;
    va_start(arguments, format);
    vprintf(format, arguments);
    va_end(arguments);
    puts("</text>");
}

static void mark(u64 code, int x, int y) {
    const char *colour = colour_of(code);
    switch (code) {
    case TICK:
        printf("<path d=\"M%d %dh12\" stroke=\"%s\" stroke-width=\"3\"/>\n", x - 6, y, colour);
        break;
    case START:
        printf("<circle cx=\"%d\" cy=\"%d\" r=\"5\" fill=\"#fff\" stroke=\"%s\" stroke-width=\"2\"/>\n", x, y, colour);
        break;
    case READ:
        printf("<circle cx=\"%d\" cy=\"%d\" r=\"5\" fill=\"%s\"/>\n", x, y, colour);
        break;
    case WRITE: case END:
        printf("<path d=\"M%d %dh8v8h-8z\" fill=\"%s\" stroke=\"%s\" stroke-width=\"2\"/>\n", x - 4, y - 4,
               code == END ? colour : "#fff", colour);
        break;
    case PREPARE: case DECIDE:
        printf("<path d=\"M%d %dl6 6l-6 6l-6 -6z\" fill=\"%s\" stroke=\"%s\" stroke-width=\"2\"/>\n", x, y - 6,
               code == DECIDE ? colour : "#fff", colour);
        break;
    case COMMIT:
        printf("<path d=\"M%d %dl6 10h-12z\" fill=\"#fff\" stroke=\"%s\" stroke-width=\"2\"/>\n", x, y - 6, colour);
        break;
    case INSTALL:
        printf("<path d=\"M%d %dh12v10h-12z\" fill=\"%s\"/>\n", x - 6, y - 5, colour);
        break;
    case MOVE: /* a house */
        printf("<path d=\"M%d %dl8 7v6h-16v-6z\" fill=\"%s\"/>\n", x, y - 8, colour);
        break;
    case REFUSED:
        printf("<path d=\"M%d %dl10 10m0 -10l-10 10\" stroke=\"%s\" stroke-width=\"3\"/>\n", x - 5, y - 5, red);
        break;
    default: /* the end of an arrow */
        printf("<circle cx=\"%d\" cy=\"%d\" r=\"3\" fill=\"%s\"/>\n", x, y, colour);
    }
}

/* ---- The layers, from the back to the front ---- */

static void draw_halls(void) {
    for (u64 h = 0; h < store.halls; h++) {
        int x = lane_left[hall_lane[h]];
        int end = (h + 1 < store.halls ? lane_left[hall_lane[h + 1]] : lane_left[lane_count]) - GAP;
        printf("<rect x=\"%d\" y=\"40\" width=\"%d\" height=\"%d\" rx=\"6\" fill=\"#f4f4f1\"/>\n", x, end - x, rows_end - 40);
        text('t', x + GAP, 58, black, "hall " N, h);
        text('l', x + GAP, 76, black, "its notes");
        for (u64 p = 0; p < store.partitions; p++) {
            if (!holds(&store, h, p))
                continue;
            int lane = server_lane[h][p];
            x = lane_left[lane] + GAP;
            text('l', x, 76, black, "server " SERVER, h, p);
            if (homes[lane][0] != 0)
                text('l', x, 92, colour_of(START), "%s", homes[lane]);
        }
    }
}

static int by_size(const void *a, const void *b) {
    u64 x = *(const u64 *)a, y = *(const u64 *)b;
    return (x > y) - (x < y);
}

static void draw_band(int x, int wide, int from, int to) {
    if (wide > 0 && to > from)
        printf("<path d=\"M%d %dh%dv%dh%d\" fill=\"#bfe6cd\" stroke=\"#1b7a45\"/>\n", x, from, -wide, to - from, wide);
}

/* Left of a server's line a band shows its stable time: the later, the wider, among all those of the run. */
static void draw_stable_times(void) {
    static u64 times[STEP_LIMIT + 1]; /* the first is 0, where all begin */
    for (int i = 0; i < row_count; i++)
        times[i + 1] = rows[i].stable;
    qsort(times, (size_t)row_count + 1, sizeof times[0], by_size);
    int distinct = 1;
    for (int i = 1; i <= row_count; i++)
        if (times[i] != times[distinct - 1])
            times[distinct++] = times[i];
    for (int lane = 0; lane < lane_count; lane++) {
        int wide = 0, from = HEAD;
        for (int i = 0; i < row_count; i++) {
            if (rows[i].lane != lane)
                continue;
            u64 *place = bsearch(&rows[i].stable, times, (size_t)distinct, sizeof times[0], by_size);
            int now = distinct == 1 ? 0 : BAND * (int)(place - times) / (distinct - 1);
            if (now == wide)
                continue;
            draw_band(lane_x[lane], wide, from, y_of(i));
            wide = now;
            from = y_of(i);
        }
        draw_band(lane_x[lane], wide, from, HEAD + ROW * row_count);
    }
}

static const char walk[] = "stroke=\"#99c1f1\" stroke-width=\"5\"/>";

/* A session that moves is followed along its home lanes. */
static void draw_walks(void) {
    for (u64 s = 0; s < store.sessions; s++) {
        bool walks = false;
        for (int i = 0; i < row_count; i++) {
            const struct Row *row = &rows[i];
            if (row->code != MOVE || row->asker == NONE || row->mover != s)
                continue;
            if (!walks)
                printf("<path d=\"M%d %d", lane_x[row->asker], HEAD);
            printf("V%dH%d", y_of(i), lane_x[row->lane]);
            walks = true;
        }
        if (walks)
            printf("V%d\" %s\n", HEAD + ROW * row_count, walk);
    }
}

static void draw_lines(void) {
    for (int i = 0; i <= row_count; i += 5)
        printf("<path d=\"M%d %dH%d\" stroke=\"#ddd\"/>\n", LEFT, HEAD + ROW * i, lane_left[lane_count] - GAP);
    for (int lane = 0; lane < lane_count; lane++)
        printf("<path d=\"M%d %dV%d\" stroke=\"#999\"/>\n", lane_x[lane], HEAD, HEAD + ROW * row_count);
}

static void draw_message(int x, int y, int to_x, int to_y, bool taken, bool carries) {
    if (taken)
        printf("<path d=\"M%d %dL%d %d\" stroke=\"#6a3d9a\" stroke-width=\"%s\" marker-end=\"url(#copy)\"/>\n", x, y, to_x, to_y,
               carries ? "2.5" : "1");
    else
        printf("<path d=\"M%d %dl%d 8\" stroke=\"#6a3d9a\" stroke-width=\"%s\" stroke-dasharray=\"3 3\"/>\n", x, y,
               to_x > x ? 40 : -40, carries ? "2.5" : "1");
}

static void draw_time(int x, int to, int y) {
    printf("<path d=\"M%d %dH%d\" stroke=\"#1b7a45\" stroke-width=\"1.5\" marker-end=\"url(#time)\"/>\n", x, y, to);
}

/* Deliveries slope down from the install that sent them. What a step asks of another lane goes straight across. */
static void draw_arrows(void) {
    for (int i = 0; i < arrow_count; i++) {
        const struct Arrow *a = &arrows[i];
        draw_message(lane_x[a->from], y_of(a->sent), lane_x[a->to], y_of(a->taken), a->taken != NONE, a->carries);
    }
    for (int i = 0; i < row_count; i++) {
        const struct Row *row = &rows[i];
        if (row->lane == NONE || row->asker == NONE || row->lane == row->asker)
            continue;
        int x = lane_x[row->asker], to = lane_x[row->lane], y = y_of(i);
        if (row->code == REPORT || row->code == SHARE || row->code == LEARN)
            draw_time(x, to, y);
        else
            printf("<path d=\"M%d %dH%d\" stroke=\"%s\"%s/>\n", x, y, to, colour_of(row->code),
                   row->code == READ ? " stroke-dasharray=\"2 3\"" : "");
    }
}

static void draw_rows(void) {
    for (int i = 0; i < row_count; i++) {
        const struct Row *row = &rows[i];
        int y = y_of(i);
        bool taken = row->refusal == 0;
        text('n', words_at - 8, y + 4, "#777", "%d", i + 1);
        text('w', words_at, y + 4, taken ? black : red, "%s", row->words);
        if (row->lane == NONE)
            continue;
        int x = lane_x[row->lane];
        printf("<rect x=\"%d\" y=\"%d\" width=\"%d\" height=\"14\" fill=\"#f4f4f1\"/>\n", x + LABEL_AT - 1, y - 7,
               label_width(strlen(row->label)) + 2);
        mark(taken ? row->code : REFUSED, x, y);
        text('l', x + LABEL_AT, y + 4, taken ? colour_of(row->code) : red, "%s", row->label);
    }
    if (ending[0] != 0)
        text('t', words_at, HEAD + ROW * row_count + ROW, red, "%s", ending);
}

static void draw_legend(void) {
    int columns = legend_columns(), top = rows_end + 2 * ROW;
    for (int i = 0; i < legends(); i++) {
        int x = LEFT + LEGEND_COLUMN * (i % columns) + 24, y = top + LEGEND_ROW * (i / columns);
        switch (legend[i].mark) {
        case DELIVER:
            draw_message(x - 20, y, x + 12, y, true, true);
            break;
        case LATE:
            draw_message(x - 24, y - 4, x, y, false, true);
            break;
        case REPORT:
            draw_time(x - 20, x + 12, y);
            break;
        case STABLE:
            draw_band(x + 10, 24, y - 7, y + 7);
            break;
        case MOVE:
            printf("<path d=\"M%d %dH%d\" %s\n", x - 20, y, x, walk);
            mark(MOVE, x, y);
            break;
        default:
            mark(legend[i].mark, x, y);
        }
        text('w', x + 24, y + 4, black, "%s", legend[i].words);
    }
}

static void draw_arrow_head(const char *name, const char *colour) {
    printf("<marker id=\"%s\" viewBox=\"0 0 10 10\" refX=\"10\" refY=\"5\" markerUnits=\"userSpaceOnUse\" markerWidth=\"10\" "
           "markerHeight=\"10\" orient=\"auto\"><path d=\"M0 1l10 4l-10 4z\" fill=\"%s\"/></marker>\n",
           name, colour);
}

static void draw(void) {
    measure();
    printf("<svg xmlns=\"http://www.w3.org/2000/svg\" width=\"%d\" height=\"%d\" viewBox=\"0 0 %d %d\" fill=\"none\">\n",
           width, height, width, height);
    puts("<style>text{font-family:system-ui,'Segoe UI',Roboto,Helvetica,Arial,sans-serif}.t{font-size:14px;font-weight:600}"
         ".w{font-size:12px}.l{font-size:11px}.n{font-size:11px;text-anchor:end}</style>");
    draw_arrow_head("copy", colour_of(DELIVER));
    draw_arrow_head("time", colour_of(LEARN));
    printf("<rect width=\"%d\" height=\"%d\" fill=\"#fff\"/>\n", width, height);
    text('t', LEFT, 26, black, "halls: " N ", servers: " N ", sessions: " N ", steps: %d", store.halls, servers, store.sessions,
         row_count);
    draw_halls();
    draw_stable_times();
    draw_walks();
    draw_lines();
    draw_arrows();
    draw_rows();
    draw_legend();
    puts("</svg>");
}

int main(int count, char **arguments) {
    static unsigned char script_text[TEXT_LIMIT + 1], printout_text[(STEP_LIMIT + 2) * LINE_SIZE];
    char line[LINE_SIZE];
    if (count != 3) {
        fputs("use: draw SCRIPT PRINTOUT >PICTURE.svg\n", stderr);
        return 1;
    }
    struct Reader script = read_file(arguments[1], script_text, sizeof script_text);
    struct Reader printout = read_file(arguments[2], printout_text, sizeof printout_text);
    if (!run(&script, &printout)) {
        write_bad_text(line, &script);
        expect(&printout, line);
        stop("bad text at offset", script.place);
    }
    if (printout.place != printout.length)
        differs(&printout, "its end\n");
    draw();
    return fflush(stdout) == 0 && !ferror(stdout) ? 0 : 1;
}
