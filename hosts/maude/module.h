/* Rule lists as Maude text. A word n is the operator `wn`; a variable 64+v is `Xv`; a rule is an equation. The context map is the
 * operator's strategy: `strat (i 0)` goes into part i and then to the root, `strat (0)` to the root alone. */
#ifndef MODULE_H
#define MODULE_H

#include <stdint.h>
#include <stdio.h>

/* The standing list's words, taken from crates/rules/src/table.rt when this is compiled. */
static const uint16_t standing[] = {
#include "standing.inc"
};

enum { WORDS = 1024, FIRST_EXCEPTION = 32, FIRST_VARIABLE = 64, FIRST_FUNCTION = 256 };

/* Parts of each word that is a symbol: 1 to 12, then the functions and auxiliaries, which `put_operators` fills in. */
static uint8_t parts[WORDS] = {[2] = 1, [6] = 1, [7] = 2, [8] = 4, [9] = 1, [10] = 3, [11] = 1, [12] = 3};

/* The part into which rewriting may go, 0 for none. */
static inline unsigned active(uint16_t word) {
    if (word == 2 || word == 7 || word == 8 || word == 10 || word == 12)
        return 1;
    unsigned auxiliary = word < FIRST_FUNCTION ? 0 : word % 8;
    return auxiliary <= parts[word] ? auxiliary : 0;
}

/* Writes the term at `at` and gives the place behind it. */
static inline const uint16_t *put_term(FILE *out, const uint16_t *at) {
    uint16_t word = *at++;
    if (word >= FIRST_VARIABLE && word < FIRST_FUNCTION) {
        fprintf(out, "X%u", (unsigned)word - FIRST_VARIABLE);
        return at;
    }
    fprintf(out, "w%u", (unsigned)word);
    for (unsigned i = 0; i < parts[word]; i++) {
        fputs(i == 0 ? "(" : ",", out);
        at = put_term(out, at);
    }
    if (parts[word] > 0)
        fputs(")", out);
    return at;
}

static inline void put_operator(FILE *out, uint16_t word) {
    fprintf(out, "op w%u :", (unsigned)word);
    for (unsigned i = 0; i < parts[word]; i++)
        fputs(" T", out);
    fputs(" -> T", out);
    if (parts[word] > 0 && active(word) > 0)
        fprintf(out, " [strat (%u 0)]", active(word));
    else if (parts[word] > 0)
        fputs(" [strat (0)]", out);
    fputs(" .\n", out);
}

/* The operators of a list: an exception from its raise rule; a function and its auxiliaries from its entry rule, which has all the
 * function's parts. */
static inline void put_operators(FILE *out, const uint16_t *list, size_t len) {
    for (const uint16_t *rule = list; rule < list + len; rule += 2 + rule[0] + rule[1]) {
        uint16_t root = rule[2];
        if (root == 11)
            put_operator(out, rule[3]);
        if (root < FIRST_FUNCTION || root % 8 != 0)
            continue;
        for (unsigned j = 0; j <= rule[0]; j++) {
            parts[root + j] = (uint8_t)(rule[0] - 1);
            put_operator(out, (uint16_t)(root + j));
        }
    }
}

static inline void put_equations(FILE *out, const uint16_t *list, size_t len) {
    for (const uint16_t *rule = list; rule < list + len; rule += 2 + rule[0] + rule[1]) {
        fputs("eq ", out);
        put_term(out, rule + 2);
        fputs(" = ", out);
        put_term(out, rule + 2 + rule[0]);
        fputs(" .\n", out);
    }
}

static inline void put_list(FILE *out, const uint16_t *list, size_t len) {
    put_operators(out, list, len);
    fputs("vars X0 X1 X2 X3 X4 X5 X6 X7 : T .\n", out);
    put_equations(out, list, len);
    fputs("endfm\n", out);
}

/* The module of the standing list, on which every book's stands. */
static inline void put_standing(FILE *out) {
    fputs("fmod STANDING is\nsort T .\n", out);
    for (uint16_t word = 1; word <= 12; word++)
        put_operator(out, word);
    put_list(out, standing, sizeof standing / sizeof standing[0]);
}

/* The module of a book: its own list. */
static inline void put_book(FILE *out, unsigned long name, const uint16_t *own, size_t len) {
    fprintf(out, "fmod BOOK%lu is\nincluding STANDING .\n", name);
    put_list(out, own, len);
}

#endif
