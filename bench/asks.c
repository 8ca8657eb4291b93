/* Writes the lines that `questions` writes, of one row, as Maude text: the rule lists as modules, and each question asked 2^N times
 * in one `red`, so that the time that Maude reports is more than its clock's tick. For N given as "auto" the row's question is asked
 * so often that it takes some millions of steps. Our rewriter says beforehand what the count must be:
 *     asks N MAUDE-FILE < lines      writes the text, and on standard output a line: QUESTIONS DOUBLINGS STEPS */
#include "../hosts/cases.h"
#include "../hosts/maude/module.h"
#include "puffinest.h"

#include <stdlib.h>
#include <string.h>

/* again(Q) asks Q in part 1, which is evaluated, and then goes on with part 2, a Q that was left alone: two rewrites and two answers. */
static void put_again(FILE *out) {
    fputs("fmod AGAIN is\nincluding STANDING .\n"
          "op again : T -> T [strat (0)] .\nop then : T T -> T [strat (1 0)] .\nvars X0 X1 : T .\n"
          "eq again(X0) = then(X0,X0) .\neq then(X0,X1) = X1 .\nendfm\n",
          out);
}

static uint16_t own[OWN], first[ROOM], second[ROOM];

/* The rewriter's steps, and in `own` the own list; in `first` the last term. */
static uint32_t rewrite(const Case *c, uint32_t steps) {
    uint32_t report[REPORT];
    memset(own, 0, sizeof own);
    puffinest_rewrite(c->program.bytes, c->program.len, c->question.bytes, c->question.len, steps, ROOM, own, OWN, first, ROOM, second,
                      ROOM, report, REPORT);
    if (report[NUMBER] != 0) {
        fputs("asks: a question is refused\n", stderr);
        exit(2);
    }
    return report[STEPS];
}

/* A new book's module, where the program is not that of the line before. */
static void put_program(FILE *out, const Case *c, unsigned long *book) {
    static Bytes last;
    if (*book > 0 && last.len == c->program.len && memcmp(last.bytes, c->program.bytes, last.len) == 0)
        return;
    last = c->program;
    put_book(out, ++*book, own, kept(own, OWN));
    fprintf(out, "fmod ASK%lu is\nincluding BOOK%lu .\nincluding AGAIN .\nendfm\n", *book, *book);
}

static void put_question(FILE *out, unsigned long book, unsigned doublings) {
    fprintf(out, "red in ASK%lu : ", book);
    for (unsigned i = 0; i < doublings; i++)
        fputs("again(", out);
    put_term(out, first);
    for (unsigned i = 0; i < doublings; i++)
        fputs(")", out);
    fputs(" .\n", out);
}

int main(int argc, char **argv) {
    static char line[LINE + 64];
    static Case c;
    unsigned long book = 0, asked = 0;
    uint64_t steps = 0;
    FILE *out = argc == 3 ? fopen(argv[2], "w") : NULL;
    if (out == NULL)
        return fputs("usage: asks N MAUDE-FILE\n", stderr), 2;
    unsigned doublings = (unsigned)strtoul(argv[1], NULL, 10);
    fputs("set show command off .\nset show timing on .\n", out);
    put_standing(out);
    put_again(out);
    while (fgets(line, sizeof line, stdin) != NULL) {
        line[strcspn(line, "\n")] = 0;
        char *space = strchr(line, ' ');
        if (space == NULL || !read_case(space + 1, strlen(space + 1), &c))
            return fputs("asks: a line is no question\n", stderr), 2;
        steps += rewrite(&c, c.steps);
        asked++;
        if (strcmp(argv[1], "auto") == 0 && asked == 1)
            while (doublings < 20 && (steps << doublings) < 2500000)
                doublings++;
        /* With no steps allowed the last term is the question's own words. */
        rewrite(&c, 0);
        put_program(out, &c, &book);
        put_question(out, book, doublings);
    }
    printf("%lu %u %llu\n", asked, doublings, (unsigned long long)steps);
    return fclose(out) != 0;
}
