/* Times our two engines, through the hosts' door, on the lines that `questions` writes. One line of figures for each row and engine:
 *     ROW ENGINE ENDING STEPS SECONDS STACK
 * STEPS and SECONDS are those of one pass through the row's lines (cpu time), STACK the bytes of stack.
 * `bench evaluator` and `bench rewriter` time one engine alone; `bench copy` a plain copy of as many words as the row's name ends in. */
#define _GNU_SOURCE
#include "../hosts/cases.h"
#include "../hosts/painted.h"
#include "puffinest.h"

#include <stdlib.h>
#include <string.h>
#include <time.h>

enum { ROWS = 10100, NAME = 32 };

/* The lines of one row. */
typedef struct {
    uint8_t *program, *question;
    size_t program_len, question_len;
    uint32_t steps, levels, room;
} Question;

static char name[NAME];
static Question questions[ROWS];
static size_t asked;

static uint16_t own[OWN], first[ROOM], second[ROOM];

static double now(void) {
    struct timespec t;
    clock_gettime(CLOCK_THREAD_CPUTIME_ID, &t);
    return (double)t.tv_sec + 1e-9 * (double)t.tv_nsec;
}

static void evaluate(const Question *q, uint32_t *report) {
    puffinest_evaluate(q->program, q->program_len, q->question, q->question_len, q->steps, q->levels, report, REPORT);
}

static void rewrite(const Question *q, uint32_t *report) {
    puffinest_rewrite(q->program, q->program_len, q->question, q->question_len, q->steps, q->room, own, OWN, first, ROOM, second, ROOM,
                      report, REPORT);
}

typedef void Engine(const Question *, uint32_t *);

/* One pass through the row: its steps, and the last line's ending. */
static uint64_t pass(Engine *engine, uint32_t *ending) {
    uint64_t steps = 0;
    for (size_t i = 0; i < asked; i++) {
        uint32_t report[REPORT];
        engine(&questions[i], report);
        steps += report[STEPS];
        *ending = report[ENDING];
    }
    return steps;
}

/* The time of a pass: so many passes that they take 30 ms. */
static double seconds(Engine *engine) {
    uint32_t ending;
    for (unsigned long passes = 1;; passes *= 2) {
        double start = now();
        for (unsigned long i = 0; i < passes; i++)
            pass(engine, &ending);
        double took = now() - start;
        if (took >= 0.03)
            return took / (double)passes;
    }
}

/* A pass that runs on a painted stack. */
typedef struct {
    Engine *engine;
    uint64_t steps;
    uint32_t ending;
} Run;

static void *run_pass(void *run) {
    Run *r = run;
    r->steps = pass(r->engine, &r->ending);
    return NULL;
}

static void time_row(const char *which, Engine *engine) {
    static const char *const endings[] = {"refused", "value", "exception", "stuck", "out", "deep", "big"};
    Run run = {engine, 0, 0};
    size_t stack = stack_of(run_pass, &run);
    printf("%s %s %s %llu %.9f %zu\n", name, which, endings[run.ending % 7], (unsigned long long)run.steps, seconds(engine), stack);
    fflush(stdout);
}

/* A plain copy of as many words as the row's name ends in. */
static void time_copy(void) {
    const char *dot = strrchr(name, '.');
    size_t words = least(dot == NULL ? 0 : strtoul(dot + 1, NULL, 10), ROOM);
    const unsigned long times = 1000000;
    double start = now();
    for (unsigned long i = 0; i < times; i++) {
        memcpy(second, first, words * sizeof first[0]);
        __asm__ volatile("" : : "r"(first), "r"(second) : "memory");
    }
    printf("%s copy - 1 %.12f 0\n", name, (now() - start) / (double)times);
}

static const char *mode;

static void finish_row(void) {
    if (asked == 0)
        return;
    if (strcmp(mode, "copy") == 0) {
        time_copy();
    } else {
        if (strcmp(mode, "rewriter") != 0)
            time_row("evaluator", evaluate);
        if (strcmp(mode, "evaluator") != 0)
            time_row("rewriter", rewrite);
    }
    for (size_t i = 0; i < asked; i++) {
        free(questions[i].program);
        free(questions[i].question);
    }
    asked = 0;
}

static uint8_t *copy_of(const Bytes *b) {
    uint8_t *copy = malloc(b->len + 1);
    if (copy == NULL)
        exit(2);
    return memcpy(copy, b->bytes, b->len);
}

/* Takes a line into its row; a new name ends the row before it. */
static bool take(char *line) {
    static Case c;
    char *space = strchr(line, ' ');
    if (space == NULL || space - line >= NAME || !read_case(space + 1, strlen(space + 1), &c))
        return false;
    *space = 0;
    if (strcmp(line, name) != 0)
        finish_row();
    if (asked == ROWS)
        return false;
    strcpy(name, line);
    questions[asked++] = (Question){copy_of(&c.program), copy_of(&c.question), c.program.len, c.question.len, c.steps, c.levels, c.room};
    return true;
}

int main(int argc, char **argv) {
    static char line[LINE + NAME + 2];
    mode = argc == 2 ? argv[1] : "both";
    while (fgets(line, sizeof line, stdin) != NULL) {
        line[strcspn(line, "\n")] = 0;
        if (!take(line)) {
            fputs("bench: a line is no question\n", stderr);
            return 2;
        }
    }
    finish_row();
    return ferror(stdin) || fflush(stdout) != 0;
}
