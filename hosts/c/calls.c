/* The sentences of puffinest.h on the calls: NULL with length 0, a report that is too short, where the term begins, refusal 17, and what
 * the own list's slice must hold. */
#include "../cases.h"
#include "puffinest.h"

#include <stdlib.h>
#include <string.h>

static uint16_t own[OWN], first[ROOM], second[ROOM];
static uint32_t report[REPORT];

static void expect(bool good, const char *what) {
    if (good)
        return;
    fprintf(stderr, "calls: not so: %s\n", what);
    exit(1);
}

static bool reports(uint32_t number, uint32_t about, uint32_t place, uint32_t ending, uint32_t amount, uint32_t base, uint32_t steps) {
    const uint32_t words[REPORT] = {number, about, place, ending, amount, base, steps};
    bool same = memcmp(words, report, sizeof words) == 0;
    memset(report, 0xff, sizeof report);
    return same;
}

/* The book with nothing in it, and the question succ(0). */
static const uint8_t nothing[] = {4}, one[] = {0x11, 0x10};

static void null_with_length_0(void) {
    puffinest_evaluate(NULL, 0, one, sizeof one, 9, 9, report, REPORT);
    expect(reports(2, 1, 0, 0, 0, 0, 0), "evaluate: a program of NULL and 0 is an empty one");
    puffinest_evaluate(nothing, sizeof nothing, NULL, 0, 9, 9, report, REPORT);
    expect(reports(2, 2, 0, 0, 0, 0, 0), "evaluate: a question of NULL and 0 is an empty one");
    puffinest_evaluate(NULL, 0, NULL, 0, 9, 9, NULL, 0);
    puffinest_rewrite(NULL, 0, one, sizeof one, 9, 9, own, OWN, first, ROOM, second, ROOM, report, REPORT);
    expect(reports(2, 1, 0, 0, 0, 0, 0), "rewrite: a program of NULL and 0 is an empty one");
    puffinest_rewrite(nothing, sizeof nothing, NULL, 0, 9, 9, own, OWN, first, ROOM, second, ROOM, report, REPORT);
    expect(reports(2, 2, 0, 0, 0, 0, 0), "rewrite: a question of NULL and 0 is an empty one");
    /* This book's own list has no words. */
    puffinest_rewrite(nothing, sizeof nothing, one, sizeof one, 9, 9, NULL, 0, first, ROOM, second, ROOM, report, REPORT);
    expect(reports(0, 0, 0, 1, 1, 1, 0), "rewrite: an own slice of NULL and 0 is enough for no words");
    puffinest_rewrite(nothing, sizeof nothing, one, sizeof one, 9, 9, NULL, 0, NULL, 0, second, ROOM, report, REPORT);
    expect(reports(13, 1, 0, 0, 0, 0, 0), "rewrite: a first slice of NULL and 0 is too short");
    puffinest_rewrite(nothing, sizeof nothing, one, sizeof one, 9, 9, NULL, 0, first, ROOM, NULL, 0, report, REPORT);
    expect(reports(13, 1, 0, 0, 0, 0, 0), "rewrite: a second slice of NULL and 0 is too short");
    puffinest_rewrite(NULL, 0, NULL, 0, 9, 9, NULL, 0, NULL, 0, NULL, 0, NULL, 0);
}

/* Words that are no symbol, so that unwritten ones show. */
static void mark(void) {
    memset(own, 0xff, sizeof own);
    memset(first, 0xff, sizeof first);
    memset(second, 0xff, sizeof second);
}

static bool all(const uint16_t *words, size_t from, size_t to, uint16_t word) {
    while (from < to && words[from] == word)
        from++;
    return from == to;
}

static void slices(void) {
    const size_t room = 9;
    /* A report of 6 words: nothing is written, to no slice. */
    mark();
    memset(report, 0xff, sizeof report);
    puffinest_evaluate(nothing, sizeof nothing, one, sizeof one, 9, 9, report, REPORT - 1);
    puffinest_rewrite(nothing, sizeof nothing, one, sizeof one, 9, (uint32_t)room, own, OWN, first, ROOM, second, ROOM, report, REPORT - 1);
    expect(report[0] == UINT32_MAX && report[REPORT - 2] == UINT32_MAX && all(own, 0, OWN, 0xffff) && all(first, 0, ROOM, 0xffff) &&
               all(second, 0, ROOM, 0xffff),
           "with a report under 7 words nothing is written");
    puffinest_rewrite(nothing, sizeof nothing, one, sizeof one, 9, (uint32_t)room, own, OWN, first, ROOM, second, ROOM, report, REPORT);
    expect(reports(0, 0, 0, 1, 1, 1, 0), "succ(0) is value 1");
    expect(first[0] == 2 && first[1] == 1, "the term begins at word 0 of first");
    expect(all(first, 2, room, 0) && all(first, room, ROOM, 0xffff), "first: zeros up to the room, then the words that were there");
    expect(all(second, 0, room, 0) && all(second, room, ROOM, 0xffff), "second: zeros up to the room, then the words that were there");
    expect(all(own, 0, OWN, 0xffff), "own: an own list of no words changes none");
}

/* A function without a rule: its number and the place of its declaration in the report of either call, and no word written. */
static void lost_rules(void) {
    /* Exceptions 0 and 1; f and g without arguments, and f has the only rule; a byte is left over. */
    static const uint8_t lost[] = {1, 0, 1, 1, 2, 0, 0, 2, 1, 0, 3, 0, 0x10, 4, 4};
    mark();
    puffinest_evaluate(lost, sizeof lost, one, sizeof one, 9, 9, report, REPORT);
    expect(reports(17, 1, 7, 0, 0, 0, 0), "evaluate: a function without a rule is refused by 17 at its declaration");
    puffinest_rewrite(lost, sizeof lost, one, sizeof one, 9, 9, own, OWN, first, ROOM, second, ROOM, report, REPORT);
    expect(reports(17, 1, 7, 0, 0, 0, 0), "rewrite: a function without a rule is refused by 17 at its declaration");
    expect(all(own, 0, OWN, 0xffff) && all(first, 0, ROOM, 0xffff) && all(second, 0, ROOM, 0xffff), "refused by 17: no word changes");
}

/* The bytes of a program that is being written. */
static uint8_t program[8192];
static size_t length;

static void put(unsigned count, uint8_t byte) {
    while (count-- > 0)
        program[length++] = byte;
}

/* The largest own list that was seen: 16 exceptions, 32 functions of 4 arguments, 64 rules, and all of the 8,192 bytes. */
static void largest_own_list(void) {
    length = 0;
    for (uint8_t e = 0; e < 16; e++)
        put(1, 1), put(1, e);
    for (uint8_t f = 0; f < 32; f++)
        put(1, 2), put(1, f), put(1, 4);
    size_t spare = sizeof program - length - 1 - 64 * 6;
    for (unsigned i = 0; i < 64; i++) {
        put(1, 3), put(1, (uint8_t)(i / 2)), put(1, i % 2 == 0 ? 0x10 : 0x12), put(3, 0x10);
        size_t words = (spare + 63 - i) / (64 - i);
        put((unsigned)words - 1, 0x11), put(1, 0x10);
        spare -= words;
    }
    put(1, 4);
    mark();
    puffinest_rewrite(program, length, one, sizeof one, 9, 9, own, OWN, first, ROOM, second, ROOM, report, REPORT);
    expect(reports(0, 0, 0, 1, 1, 1, 0), "the largest own list fits");
    size_t words = OWN;
    while (words > 0 && own[words - 1] == 0xffff)
        words--;
    expect(words == 13263, "the largest own list that was seen has 13,263 words");
    puffinest_rewrite(program, length, one, sizeof one, 9, 9, own, words - 1, first, ROOM, second, ROOM, report, REPORT);
    expect(reports(13, 1, 0, 0, 0, 0, 0), "one word less is too short");
}

int main(void) {
    null_with_length_0();
    slices();
    lost_rules();
    largest_own_list();
    puts("the header's sentences on the calls hold");
    return 0;
}
