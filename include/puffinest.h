/* Puffinest: the hosts' door. Link with the archive that `tools/built library bridge` writes (x86-64).
 *
 * Both calls take any bytes at all; the caller need have checked nothing. How a program and a question are written, and what each built-in
 * costs in steps and levels, is in docs/FORMAT.md. Either may call the built-ins 0 to 10: +, *, not, <=, <, =, >=, >, <>, div, mod; any other
 * number is refusal 4. div and mod by 0 are stuck. A report has 7 words:
 *
 *   0  refusal number: 1 to 13, or 17 for a declared function without a rule; 0 where nothing is refused
 *   1  what the refusal is about: 0 nothing, 1 the program, 2 the question
 *   2  the byte place in that string
 *   3  ending: 0 refused, 1 value, 2 exception, 3 stuck, 4 out of steps, 5 too deep, 6 too big
 *   4  amount: k of a value, the exception's number, or s of a stuck ending
 *   5  base of a value: 0 none, 1 zero, 2 true, 3 false
 *   6  steps
 *
 * A word without meaning is 0. Where report_len is under 7, nothing at all is written, to no slice.
 *
 * A slice is a pointer and how many elements it has there. With 0 elements the pointer may be NULL: nothing is read or written
 * there (tests/c-host tries it).
 *
 * Stack, measured, not proved (tests/c-host): puffinest_rewrite took 62 kB at the most on every form tried, whatever the nesting and
 * the room; let the calling thread have 96 kB for it. puffinest_evaluate took 2.2 MB with 1,000 levels in the deepest form tried
 * (calls in the fourth argument of calls; g(x) -> g(x) took 0.65 MB), and 63 kB with one level; let the thread have
 * 96 kB, and 7 kB for each level allowed.
 * No other memory is taken. */
#ifndef PUFFINEST_H
#define PUFFINEST_H

#include <stddef.h>
#include <stdint.h>

#ifdef __cplusplus
extern "C" {
#endif

/* Allowances: steps 0 to 1,000,000; levels 1 to 1,000. */
void puffinest_evaluate(const uint8_t *program, size_t program_len,
                        const uint8_t *question, size_t question_len,
                        uint32_t steps, uint32_t levels,
                        uint32_t *report, size_t report_len);

/* Allowances: steps 0 to 1,000,000; room 1 to 4,096 words. Afterwards
 *   own     has the own list from word 0. 15,504 words are always enough (proved); the largest list seen has 13,263;
 *   first   has the last term that fitted from word 0, then zeros up to the room;
 *   second  has zeros up to the room.
 * Words past those are as they were. On a refusal no word of the three changes. The slices do not overlap each other or the strings. */
void puffinest_rewrite(const uint8_t *program, size_t program_len,
                       const uint8_t *question, size_t question_len,
                       uint32_t steps, uint32_t room,
                       uint16_t *own, size_t own_len,
                       uint16_t *first, size_t first_len,
                       uint16_t *second, size_t second_len,
                       uint32_t *report, size_t report_len);

#ifdef __cplusplus
}
#endif

#endif
