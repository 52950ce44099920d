/* Reads a script on standard input and prints the printout of document 01, "Script and
 * printout". */
#include "script.h"

#include <stdio.h>

static char line[LINE_SIZE];

static void print_answer(u64 number, struct Answer answer) {
    write_answer(line, number, answer);
    fputs(line, stdout);
}

/* "Text is taken as it is needed, so lines for setup and steps before that byte are printed first,
 * and after `0 2 0 0` nothing more is looked at." Bad is also "the first byte after the last step,
 * if there is one". */
static bool run(struct Reader *r, struct Store *store) {
    struct Answer answer;
    u64 count, n[4];
    if (!take_setup(r, store, &answer))
        return false;
    print_answer(0, answer);
    if (answer.refusal != 0)
        return true;
    if (!take_step_count(r, &count))
        return false;
    for (u64 number = 1; number <= count; number++) {
        if (!take_step(r, n))
            return false;
        print_answer(number, step(store, n[0], n[1], n[2], n[3]));
    }
    return r->place == r->length;
}

/* One byte past the limit tells that the text is longer. */
int main(void) {
    static unsigned char text[TEXT_LIMIT + 1];
    static struct Store store;
    struct Reader reader = {text, fread(text, 1, sizeof text, stdin), 0};
    if (ferror(stdin)) {
        fputs("second: cannot read the script\n", stderr);
        return 1;
    }
    if (!run(&reader, &store)) {
        write_bad_text(line, &reader);
        fputs(line, stdout);
    }
    return fflush(stdout) == 0 && !ferror(stdout) ? 0 : 1;
}
