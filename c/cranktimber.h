/* The recipe store for C: link libcranktimber.a, which `sh c/check.sh` proves and writes to target/staticlib/ (x86-64 Linux).
 *
 * Both functions are proved: for any room and any numbers, what is answered and every word of the room afterwards are those of
 * document 01 and of requests a to d of document 02 (contracts in crates/cranktimber_c/src/lib.rt). They ask nothing of the numbers.
 * Nothing checks a caller in C, so it must see to this: each pointer is to as many words as the length after it says, is aligned,
 * and is not NULL even where the length is 0; the room overlaps neither masks nor homes; and no other thread uses the room during a
 * call. The room is all the memory there is: the library keeps nothing between calls. A call of setup takes about 60 KB of
 * stack (measured with the older kit). */
#ifndef CRANKTIMBER_H
#define CRANKTIMBER_H

#include <stddef.h>
#include <stdint.h>

#ifdef __cplusplus
extern "C" {
#endif

/* The words of a room. docs/ROOM.md has what stands in each, and which rooms are well formed. */
enum { CRANKTIMBER_WORDS = 7304 };

/* refusal: 0, or the number from 1 to 12 that the call is turned away with; both answers are then 0 and the room is unchanged.
 * Answers that a step does not have are 0. */
struct cranktimber_numbers {
    uint64_t refusal, first, second;
};

/* Sets the room up, whatever stands in it: a mask for each hall (bit n: it holds partition n), and for each session two numbers, the
 * hall and the partition of its home server. Answers the number of partitions and the number of servers.
 * Turned away: 1, words is not CRANKTIMBER_WORDS; 2, the numbers break the rules (an odd count of home numbers does, too). */
struct cranktimber_numbers cranktimber_setup(uint64_t *room, size_t words, const uint64_t *masks, size_t halls,
                                             const uint64_t *homes, size_t home_numbers);

/* Takes one of the fourteen steps, code 1 (tick) to 14 (move), with its three numbers; those that it does not use are 0.
 * Turned away: 1, words is not CRANKTIMBER_WORDS or the room is not well formed, as every room is that setup made and steps
 * changed; 3 to 12, by the step. */
struct cranktimber_numbers cranktimber_step(uint64_t *room, size_t words, uint64_t code, uint64_t a, uint64_t b, uint64_t c);

#ifdef __cplusplus
}
#endif

#endif
