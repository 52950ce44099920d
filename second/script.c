/* The words of document 01, "Script and printout"; each function quotes those it follows. */
#include "script.h"

#include <inttypes.h>
#include <stdio.h>

/* "a step count" and "any other number" pass different limits and are bad at different bytes. */
enum Kind { STEP_COUNT, OTHER };

/* May the byte at the place be a digit of the number begun at first? "Decimal numbers [...], no
 * extra leading zero": after a first digit 0 comes no other. */
static bool digit_stands(const struct Reader *r, size_t first) {
    unsigned char byte = r->text[r->place];
    return byte >= '0' && byte <= '9' && (r->place == first || r->text[first] != '0');
}

/* Takes a number "followed by one space or line feed". "the text's length if it ends early; a
 * step count's first digit once its digits pass 8,000; in any other number the digit that takes
 * it past 2^64 - 1" */
static bool take(struct Reader *r, enum Kind kind, u64 *number) {
    const u64 limit = kind == STEP_COUNT ? STEP_LIMIT : UINT64_MAX;
    const size_t first = r->place;
    for (*number = 0;; r->place++) {
        if (r->place == r->length)
            return false;
        unsigned char byte = r->text[r->place];
        if (r->place > first && (byte == ' ' || byte == '\n'))
            break;
        if (!digit_stands(r, first))
            return false;
        u64 digit = (u64)(byte - '0');
        if (*number > (limit - digit) / 10) {
            if (kind == STEP_COUNT)
                r->place = first;
            return false;
        }
        *number = *number * 10 + digit;
    }
    r->place++;
    return true;
}

/* "Sections in order, each after its count: halls (mask each), sessions (home hall, home partition
 * each)". "A hall count outside 1 to 4 or a session count outside 1 to 16 (each once its closing
 * byte is read), or a refused setup prints `0 2 0 0`"; "a longer [text] prints `script 65536` and
 * nothing else" */
bool take_setup(struct Reader *r, struct Store *store, struct Answer *answer) {
    u64 masks[HALLS], halls, sessions;
    struct Home homes[SESSIONS];
    *answer = (struct Answer){2, 0, 0};
    if (r->length > TEXT_LIMIT) {
        r->place = TEXT_LIMIT;
        return false;
    }
    if (!take(r, OTHER, &halls))
        return false;
    if (halls < 1 || halls > HALLS)
        return true;
    for (u64 h = 0; h < halls; h++)
        if (!take(r, OTHER, &masks[h]))
            return false;
    if (!take(r, OTHER, &sessions))
        return false;
    if (sessions < 1 || sessions > SESSIONS)
        return true;
    for (u64 s = 0; s < sessions; s++)
        if (!take(r, OTHER, &homes[s].hall) || !take(r, OTHER, &homes[s].partition))
            return false;
    *answer = setup(store, masks, halls, homes, sessions);
    return true;
}

bool take_step_count(struct Reader *r, u64 *count) { return take(r, STEP_COUNT, count); }

/* "steps (four numbers each [...])" */
bool take_step(struct Reader *r, u64 n[4]) {
    for (int i = 0; i < 4; i++)
        if (!take(r, OTHER, &n[i]))
            return false;
    return true;
}

/* "step number, refusal or 0, first answer, second answer. Every line ends in a line feed." */
void write_answer(char line[LINE_SIZE], u64 number, struct Answer answer) {
    snprintf(line, LINE_SIZE, "%" PRIu64 " %u %" PRIu64 " %" PRIu64 "\n", number, answer.refusal,
             answer.first, answer.second);
}

/* "Bad text prints `script` and the offset" */
void write_bad_text(char line[LINE_SIZE], const struct Reader *r) {
    snprintf(line, LINE_SIZE, "script %zu\n", r->place);
}
