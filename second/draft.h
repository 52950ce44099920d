/* The script that gen writes, as it grows: numbers, steps and setups by random draws, and the text,
 * with its damage. */
#ifndef DRAFT_H
#define DRAFT_H

#include "script.h"

enum { SHORTEST_STEP = 8 }; /* bytes */

struct Step { u64 n[4]; }; /* code and three numbers */

extern struct Store store; /* after the steps so far */
extern size_t step_count;
extern bool no_room; /* a step did not fit any more */

void seed(u64 number);
u64 below(u64 n);
bool chance(u64 percent);
u64 power(u64 base, u64 exponent);
u64 huge(void);
u64 out_of_range(void);
u64 good_value(void);
u64 bad_value(void);
u64 any_key(void);

void add(struct Step s);
void add_step(u64 code, u64 a, u64 b, u64 c);
size_t slack(void);
struct Step any_step(u64 code);
bool find_good(u64 code, size_t longest, struct Step *found);
size_t each_or(u64 code, unsigned number);
size_t each(u64 code);

/* A setup is chosen in this order; choose_any_setup does all of it. */
void choose_masks(u64 hall_count, u64 partitions, u64 holders);
void choose_homes(u64 session_count);
void choose_clocks(u64 longest);
void choose_keys(u64 base, u64 range);
void set_up(void);
void choose_any_setup(void);
void spoil_setup(void);

void put_text(void);
void damage(void);
bool write_text(void);

#endif
