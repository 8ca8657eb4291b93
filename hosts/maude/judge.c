/* Holds our rewriter against Maude.
 *     judge write MAUDE-FILE EXPECTED < cases     writes each case as Maude text, and a line of what our rewriter says: LINE STEPS WORDS
 *     judge compare EXPECTED < maude's output     compares the rewrites and the normal form of each answer with those
 * Only cases that are not refused and end (value, exception, stuck) are asked: Maude knows no allowances. */
#define _GNU_SOURCE
#include "../cases.h"
#include "module.h"
#include "puffinest.h"

#include <stdlib.h>
#include <string.h>

static uint16_t own[OWN], first[ROOM], second[ROOM];

static int say(const char *what) {
    fprintf(stderr, "hosts/maude/run: %s\n", what);
    return 2;
}

/* The rewriter's call; its own list in `own`, its last term in `first`. */
static void rewrite(const Case *c, uint32_t steps, uint32_t *report) {
    memset(own, 0, sizeof own);
    memset(first, 0, sizeof first);
    puffinest_rewrite(c->program.bytes, c->program.len, c->question.bytes, c->question.len, steps, c->room, own, least(c->own, OWN), first,
                      least(c->first, ROOM), second, least(c->second, ROOM), report, REPORT);
}

static void put_expected(FILE *out, unsigned long line, uint32_t steps) {
    fprintf(out, "%lu %u", line, (unsigned)steps);
    for (size_t i = 0, n = kept(first, ROOM); i < n; i++)
        fprintf(out, " %u", (unsigned)first[i]);
    fputs("\n", out);
}

/* The book's module, unless the case before had the same book; its number. */
static unsigned long put_program(FILE *out, const Case *c) {
    static Bytes last;
    static unsigned long book;
    if (book > 0 && last.len == c->program.len && memcmp(last.bytes, c->program.bytes, last.len) == 0)
        return book;
    last = c->program;
    put_book(out, ++book, own, kept(own, OWN));
    return book;
}

/* One case: whether it is asked. With no steps allowed the last term is the question's own words. */
static bool put_case(FILE *out, FILE *expected, unsigned long line, const Case *c) {
    uint32_t report[REPORT];
    rewrite(c, c->steps, report);
    if (report[ENDING] < 1 || report[ENDING] > 3)
        return false;
    put_expected(expected, line, report[STEPS]);
    rewrite(c, 0, report);
    fprintf(out, "red in BOOK%lu : ", put_program(out, c));
    put_term(out, first);
    fputs(" .\n", out);
    return true;
}

static int write_cases(FILE *out, FILE *expected) {
    static Case c;
    char *line = NULL;
    size_t size = 0;
    unsigned long lines = 0, asked = 0;
    ssize_t len;
    fputs("set show command off .\nset show timing off .\n", out);
    put_standing(out);
    while ((len = getline(&line, &size, stdin)) >= 0) {
        lines++;
        if (len > 0 && line[len - 1] == '\n')
            len--;
        if (len > LINE || !read_case(line, (size_t)len, &c)) {
            fprintf(stderr, "hosts/maude/run: line %lu is no case\n", lines);
            return 2;
        }
        asked += put_case(out, expected, lines, &c);
    }
    free(line);
    if (ferror(stdin) || fclose(out) != 0 || fclose(expected) != 0)
        return say("the cases could not be read or written");
    printf("%lu lines, %lu of them refused or not ended\n", lines, lines - asked);
    return asked == 0 ? say("there is no case to compare") : 0;
}

/* The words of a term that Maude writes as w2(w1): its operators in order. None of any other text. */
static size_t words_of(const char *text, uint16_t *words) {
    size_t n = 0;
    while (*text != 0 && *text != '\n') {
        if (*text == 'w' && n < ROOM)
            words[n++] = (uint16_t)strtoul(text + 1, (char **)&text, 10);
        else if (strchr("(), ", *text) != NULL)
            text++;
        else
            return 0;
    }
    return n;
}

/* The next line that begins so, without that beginning; nothing at the end. */
static const char *next_line(const char *beginning) {
    static char *line;
    static size_t size;
    while (getline(&line, &size, stdin) >= 0)
        if (strncmp(line, beginning, strlen(beginning)) == 0)
            return line + strlen(beginning);
    return NULL;
}

/* Compares one answer with what was expected, "LINE STEPS WORDS"; 0 the same, 1 not, 2 there is no answer. */
static int compare_case(char *expected) {
    char *at;
    unsigned long line = strtoul(expected, &at, 10), steps = strtoul(at, &at, 10);
    size_t n = 0;
    while (*at == ' ' && n < ROOM)
        first[n++] = (uint16_t)strtoul(at, &at, 10);
    const char *count = next_line("rewrites: ");
    if (count == NULL)
        return 2;
    unsigned long rewrites = strtoul(count, NULL, 10);
    const char *result = next_line("result ");
    const char *term = result == NULL ? NULL : strstr(result, ": ");
    if (term == NULL)
        return 2;
    size_t m = words_of(term + 2, second);
    bool same = n == m && memcmp(first, second, n * sizeof first[0]) == 0;
    if (rewrites == steps && same)
        return 0;
    static int shown;
    if (shown++ < 10)
        printf("line %lu: the rewriter has %lu steps, Maude %lu; the last terms are %s\n", line, steps, rewrites,
               same ? "the same" : "not the same");
    return 1;
}

static int compare(FILE *expected) {
    char *line = NULL;
    size_t size = 0;
    unsigned long cases = 0, differences = 0;
    while (getline(&line, &size, expected) >= 0) {
        int found = compare_case(line);
        if (found == 2) {
            fprintf(stderr, "hosts/maude/run: Maude gave %lu answers and no more\n", cases);
            return 2;
        }
        cases++;
        differences += (unsigned long)found;
    }
    if (next_line("rewrites: ") != NULL)
        return say("Maude gave more answers than there are cases");
    printf("%lu cases, %lu differences\n", cases, differences);
    return differences > 0;
}

int main(int argc, char **argv) {
    if (argc == 4 && strcmp(argv[1], "write") == 0) {
        FILE *out = fopen(argv[2], "w"), *expected = fopen(argv[3], "w");
        return out == NULL || expected == NULL ? say("a file could not be written") : write_cases(out, expected);
    }
    if (argc == 3 && strcmp(argv[1], "compare") == 0) {
        FILE *expected = fopen(argv[2], "r");
        return expected == NULL ? say("a file could not be read") : compare(expected);
    }
    return say("usage: judge write MAUDE-FILE EXPECTED | judge compare EXPECTED");
}
