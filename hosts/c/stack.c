/* The stack of the two calls, as puffinest.h states it: the rewriter's on terms of as many words as the room and on questions of as many
 * words as they may have, in every kind of nesting, and the evaluator's at its deepest. It is measured (hosts/painted.h), not proved.
 * One line for each form: what the levels are, then the bytes with room 4,096 and with room 512. */
#define _GNU_SOURCE
#include "../cases.h"
#include "../painted.h"
#include "puffinest.h"

/* What the header says is enough: for the rewriter whatever the term and the room, for the evaluator with so many levels. */
enum { ENOUGH = 96 << 10, LEVELS = 1000, ENOUGH_TO_EVALUATE = ENOUGH + LEVELS * (7 << 10) };

/* Forms may differ by so much, as what the sanitizers take differs, and not by their nesting. */
enum { FLAT = 4 << 10 };

static uint16_t own[OWN], first[ROOM], second[ROOM];
static uint32_t report[REPORT], room;

/* The book and the question that are being written. */
static uint8_t program[8192], question[1024];
static size_t program_length, question_length;

static void *evaluate(void *unused) {
    puffinest_evaluate(program, program_length, question, question_length, 1000000, LEVELS, report, REPORT);
    return unused;
}

static void *rewrite(void *unused) {
    puffinest_rewrite(program, program_length, question, question_length, 1000000, room, own, OWN, first, ROOM, second, ROOM, report, REPORT);
    return unused;
}

/* Writes the bytes of a text in hexadecimal digits, with blanks between them, so many times from the place n on; the place behind them. */
static size_t put(size_t count, const char *text, uint8_t *into, size_t n) {
    while (count-- > 0)
        for (const char *t = text; *t != 0; t += *t == ' ' ? 1 : 2)
            if (*t != ' ')
                into[n++] = (uint8_t)(digit(t[0]) * 16 + digit(t[1]));
    return n;
}

static void book(const char *text) { program_length = put(1, text, program, 0); }
static void more(size_t count, const char *text) { program_length = put(count, text, program, program_length); }
static void ask(const char *text) { question_length = put(1, text, question, 0); }
static void asks(size_t count, const char *text) { question_length = put(count, text, question, question_length); }

static void expect(bool good, const char *form, const char *what, size_t seen) {
    if (good)
        return;
    fprintf(stderr, "stack: not so: %s: %s (%zu)\n", form, what, seen);
    exit(1);
}

/* The stack of a call that comes to this ending, with no more than is enough. */
static size_t stack(void *(*call)(void *), const char *form, uint32_t ending, size_t enough) {
    size_t used = stack_of(call, NULL);
    expect(report[NUMBER] == 0, form, "it is accepted", report[NUMBER]);
    expect(report[ENDING] == ending, form, "it comes to its ending", report[ENDING]);
    expect(used <= enough, form, "the stack is enough", used);
    return used;
}

static size_t most, fewest = SIZE_MAX;

static size_t rewriter(const char *what, uint32_t words, uint32_t ending) {
    room = words;
    size_t used = stack(rewrite, what, ending, ENOUGH);
    most = used > most ? used : most;
    fewest = least(used, fewest);
    return used;
}

/* What stands before the inner term at each level, what behind it, how many levels are made at a time, and the ending. */
typedef struct {
    const char *what, *open, *close;
    unsigned levels;
    uint32_t ending;
} Nest;

/* f(g(n)), where g(succ(x)) has so many levels around g(x), and g(0) is stuck: with room 4,096 a term of 4,096 words is made, with room 512
 * one of 496; then the rules for f are tried on all of it. */
static size_t made(const Nest *form, uint32_t words) {
    book("01 00 02 00 01 02 01 01 03 00 14 00 14 00 03 01 11 14 00");
    more(form->levels, form->open), more(1, "19 01 14 00"), more(form->levels, form->close);
    more(1, "03 01 10"), more(11, "11"), more(1, "17 10 10 10 04");
    ask("19 00 19 01"), asks((words - 16) / 120, "11"), asks(1, "10");
    size_t used = rewriter(form->what, words, form->ending), last = 0;
    while (last < words && first[last] != 0)
        last++;
    expect(last >= words - 16, form->what, "the last term has nearly as many words as the room", last);
    return used;
}

/* if(True, a nest, 0), as long as a question may be: the nest stands in a part that is passed over and then bound. */
static size_t asked(const Nest *form, uint32_t words) {
    book("01 00 02 00 01 03 00 14 00 14 00 04");
    ask("17 12"), asks(form->levels, form->open), asks(1, "10"), asks(form->levels, form->close), asks(1, "10");
    return rewriter(form->what, words, form->ending);
}

static void nests(const char *where, size_t (*stack_with)(const Nest *, uint32_t), const Nest *form, size_t count) {
    for (; count > 0; count--, form++) {
        size_t large = stack_with(form, 4096), small = stack_with(form, 512);
        printf("%-9s %-21s %6zu %6zu\n", where, form->what, large, small);
    }
}

static void rewriter_is_flat(void) {
    static const Nest terms[] = {{"succ", "11", "", 120, 6},
                                 {"calls", "19 00", "", 120, 6},
                                 {"not", "18 02", "", 120, 6},
                                 {"if, first part", "17", "10 10", 40, 6},
                                 {"handle, guarded part", "16 00", "10", 40, 6}};
    static const Nest questions[] = {{"no nest", "", "", 0, 1},
                                     {"succ", "11", "", 508, 1},
                                     {"calls", "19 00", "", 508, 1},
                                     {"not", "18 02", "", 508, 6},
                                     {"if, first part", "17", "10 10", 169, 3},
                                     {"if, second part", "17 12", "10", 169, 1},
                                     {"if, third part", "17 13 10", "", 169, 1},
                                     {"handle, guarded part", "16 00", "10", 169, 1},
                                     {"handle, handler", "16 00 10", "", 169, 1}};
    nests("term:", made, terms, sizeof terms / sizeof terms[0]);
    nests("question:", asked, questions, sizeof questions / sizeof questions[0]);
    expect(most - fewest <= FLAT, "the rewriter", "its stack is flat in the nesting", most - fewest);
}

/* The evaluator at its levels, in the forms that took the most of those that were tried. */
static size_t deepest_evaluation(void) {
    book("02 00 01 03 00 14 00 19 00 14 00 04");
    ask("19 00 10");
    size_t plain = stack(evaluate, "g(x) -> g(x)", 5, ENOUGH_TO_EVALUATE);
    /* f(x,y,z,w) -> 0, which is never come to: h -> f(0,0,0,f(0,0,0,...h)), and the question begins so too. */
    book("02 00 04 02 01 00 03 00 14 00 14 01 14 02 14 03 10 03 01");
    more(31, "19 00 10 10 10"), more(1, "19 01 04");
    ask(""), asks(127, "19 00 10 10 10"), asks(1, "19 01");
    size_t nested = stack(evaluate, "calls in the fourth argument of calls", 5, ENOUGH_TO_EVALUATE);
    return plain > nested ? plain : nested;
}

int main(void) {
    rewriter_is_flat();
    printf("stack: evaluate %zu bytes, rewrite %zu bytes at the most\n", deepest_evaluation(), most);
    return 0;
}
