/* The text of a script and the lines of its printout: document 01, "Script and printout". */
#ifndef SCRIPT_H
#define SCRIPT_H

#include "store.h"

/* "The text is at most 65,536 bytes"; "count at most 8,000" */
enum { TEXT_LIMIT = 65536, STEP_LIMIT = 8000 };

/* "The script is read through a place in the lent text." Where a function below answers false, the
 * text is bad, and the place is "the offset of the first byte that can't stand there". */
struct Reader {
    const unsigned char *text;
    size_t length, place;
};

/* "Setup runs once the sessions are read, before the step count." Number 2 stands in the answer. */
bool take_setup(struct Reader *r, struct Store *store, struct Answer *answer);
bool take_step_count(struct Reader *r, u64 *count);
bool take_step(struct Reader *r, u64 n[4]);

/* Room for any line of the printout and the 0 after it. */
enum { LINE_SIZE = 80 };

void write_answer(char line[LINE_SIZE], u64 number, struct Answer answer);
void write_bad_text(char line[LINE_SIZE], const struct Reader *r);

#endif
