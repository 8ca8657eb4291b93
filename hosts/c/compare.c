/* Answers case lines as the program `answers` does, through the hosts' door: reads them from standard input and writes one answer a line.
 * A line has eight fields, one space apart: PROGRAM QUESTION STEPS LEVELS ROOM OWN FIRST SECOND. A line that is none of these is
 * answered `bad line` or `too long`, and the status is 1 then. */
#include "../cases.h"
#include "puffinest.h"

#include <string.h>

static char line[LINE];
static Case asked;
static uint16_t own[OWN], first[ROOM], second[ROOM];

/* Reads a line, without its newline: its length, LINE + 1 where it is longer than that, or -1 where there is none. */
static long read_line(void) {
    long len = 0;
    int c = getchar();
    if (c == EOF)
        return -1;
    for (; c != EOF && c != '\n'; c = getchar()) {
        if (len < LINE)
            line[len] = (char)c;
        if (len <= LINE)
            len++;
    }
    return len;
}

static void put_refusal(const uint32_t r[REPORT]) {
    printf("refused %s %u %u\n", r[ABOUT] == 2 ? "question" : "program", (unsigned)r[NUMBER], (unsigned)r[PLACE]);
}

static void put_ending(const uint32_t r[REPORT]) {
    static const char *const names[] = {"refused", "value", "exception", "stuck", "out", "deep", "big"};
    static const char *const bases[] = {"-", "zero", "true", "false"};
    printf("%s ", r[ENDING] <= 6 ? names[r[ENDING]] : "unknown");
    if (r[ENDING] <= 3)
        printf("%u", (unsigned)r[AMOUNT]);
    else
        printf("-");
    printf(" %s %u", r[BASE] <= 3 ? bases[r[BASE]] : "unknown", (unsigned)r[STEPS]);
}

static void put_words(const uint16_t *words, size_t n) {
    printf(n == 0 ? " ; -" : " ; ");
    for (size_t i = 0; i < n; i++)
        printf(i == 0 ? "%u" : ",%u", (unsigned)words[i]);
}

/* How many words stand before the first that is 0: no word of a stored rule is. */
static size_t stored(const uint16_t *words, size_t n) {
    size_t i = 0;
    while (i < n && words[i] != 0)
        i++;
    return i;
}

/* What refuses the evaluator comes before what refuses the rewriter alone. A slice longer than those here would answer the same. */
static void answer(const Case *c) {
    uint32_t evaluated[REPORT], rewritten[REPORT];
    puffinest_evaluate(c->program.bytes, c->program.len, c->question.bytes, c->question.len, c->steps, c->levels, evaluated, REPORT);
    if (evaluated[NUMBER] != 0) {
        put_refusal(evaluated);
        return;
    }
    memset(own, 0, sizeof own);
    puffinest_rewrite(c->program.bytes, c->program.len, c->question.bytes, c->question.len, c->steps, c->room,
                      own, least(c->own, OWN), first, least(c->first, ROOM), second, least(c->second, ROOM),
                      rewritten, REPORT);
    if (rewritten[NUMBER] != 0) {
        put_refusal(rewritten);
        return;
    }
    printf("ok ");
    put_ending(evaluated);
    printf(" ; ");
    put_ending(rewritten);
    put_words(own, stored(own, OWN));
    put_words(first, kept(first, least(c->room, ROOM)));
    put_words(second, kept(second, least(c->room, ROOM)));
    printf("\n");
}

/* Answers the line of that length; false where it is no case. */
static bool answer_line(long len) {
    if (len > LINE) {
        printf("too long\n");
        return false;
    }
    if (!read_case(line, (size_t)len, &asked)) {
        printf("bad line\n");
        return false;
    }
    answer(&asked);
    return true;
}

/* Status 1 where a line is no case, or the input or the output fails. */
int main(void) {
    unsigned long lines = 0, no_case = 0;
    long len;
    while ((len = read_line()) >= 0) {
        lines++;
        if (!answer_line(len))
            no_case++;
    }
    if (ferror(stdin)) {
        fprintf(stderr, "compare: standard input could not be read\n");
        return 1;
    }
    if (fflush(stdout) != 0 || ferror(stdout)) {
        fprintf(stderr, "compare: the answers could not be written\n");
        return 1;
    }
    if (no_case > 0)
        fprintf(stderr, "compare: no case: %lu of %lu lines\n", no_case, lines);
    return no_case > 0;
}
