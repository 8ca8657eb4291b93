/* Lines through read_case of cases.h: long ones, damaged ones, random ones. Each must be accepted or refused as a case line is defined,
 * and what is accepted must be what the line says. Each line is a block of its own length, so that the sanitizers, with which this is
 * compiled, see a byte read or written outside.
 *     damaged [SEED] */
#include "../cases.h"

#include <regex.h>
#include <stdlib.h>
#include <string.h>

static unsigned long tried, accepted;
static Case read;

static void fail(const char *line, size_t len, const char *what) {
    fprintf(stderr, "damaged: %s: a line of %zu characters: %.*s\n", what, len, (int)least(len, 200), line);
    exit(1);
}

static void *block(size_t size) {
    void *b = malloc(size == 0 ? 1 : size);
    if (b == NULL)
        exit(2);
    return b;
}

/* Whether the bytes are those that the field writes. */
static bool are(const Bytes *b, const char *field, size_t len) {
    if (b->len == 0)
        return len == 1 && field[0] == '-';
    for (size_t i = 0; i < b->len && i < sizeof b->bytes; i++) {
        char two[3];
        snprintf(two, sizeof two, "%02x", b->bytes[i]);
        if (2 * i + 2 > len || memcmp(field + 2 * i, two, 2) != 0)
            return false;
    }
    return 2 * b->len == len;
}

/* Reads a line and compares with what is expected. */
static void expect(const char *text, size_t len, bool expected) {
    char *line = block(len);
    memcpy(line, text, len);
    bool found = read_case(line, len, &read);
    tried++;
    accepted += found;
    if (found != expected)
        fail(line, len, found ? "accepted" : "refused");
    if (found) {
        size_t one = (size_t)((char *)memchr(line, ' ', len) - line);
        size_t two = (size_t)((char *)memchr(line + one + 1, ' ', len - one - 1) - line) - one - 1;
        if (!are(&read.program, line, one) || !are(&read.question, line + one + 1, two))
            fail(line, len, "other bytes");
    }
    free(line);
}

/* A line of exactly so many characters: all numbers but the last have one digit; field 0 or 1 has so many bytes; zeros before the last
 * number fill up the rest. */
static void expect_long(int field, size_t bytes, size_t len, bool expected) {
    char *line = block(len);
    size_t at = 0;
    memset(line, '0', len);
    for (int k = 0; k < 7 && at < len; k++) {
        at += k == field ? 2 * bytes : k < 2 ? 2 : 1;
        if (at < len)
            line[at++] = ' ';
    }
    expect(line, len, expected);
    free(line);
}

static void expect_text(const char *text, bool expected) { expect(text, strlen(text), expected); }

/* The same character so many times. */
static void expect_many(char c, size_t len) {
    char *line = block(len);
    memset(line, c, len);
    expect(line, len, false);
    free(line);
}

static void long_lines(void) {
    static const size_t lengths[] = {1, 59999, 60000, 60001, 200000};
    static const char all[] = {'0', 'f', ' ', '-', 'x', '\0', '\n', '\xff'};
    for (size_t i = 0; i < sizeof lengths / sizeof lengths[0]; i++) {
        size_t len = lengths[i];
        for (size_t k = 0; k < sizeof all; k++)
            expect_many(all[k], len);
        if (len < 100)
            continue;
        for (int field = 0; field < 2; field++) {
            /* 15 characters: the other string's two, six digits, seven blanks. */
            size_t most = (len - 15) / 2;
            expect_long(field, 1, len, len <= LINE);
            expect_long(field, most, len, len <= LINE);
            expect_long(field, len / 2, len, false);
            expect_long(field, least(most, LINE / 2 + 1), len, len <= LINE);
        }
    }
    /* Fields that are longer than the array, by one byte and by many. */
    for (int field = 0; field < 2; field++) {
        expect_long(field, LINE / 2 - 8, LINE, true);
        expect_long(field, LINE / 2, LINE + 15, false);
        expect_long(field, LINE / 2 + 1, LINE + 17, false);
        expect_long(field, LINE, 2 * LINE + 15, false);
    }
    /* read_bytes by itself, of which read_case does not see a line. */
    for (size_t bytes = LINE / 2 - 1; bytes <= LINE / 2 + 2; bytes++) {
        char *field = block(2 * bytes);
        memset(field, 'a', 2 * bytes);
        if (read_bytes(field, 2 * bytes, &read.question) != (bytes <= LINE / 2))
            fail(field, 2 * bytes, "read_bytes");
        free(field);
    }
}

static void damaged_lines(void) {
    static const char *const good[] = {
        "04 10 0 1 1 0 1 1", "- - 0 1 1 0 1 1", "04 - 000 01 1 0 0001 1", "ff 00 4294967296 18446744073709551616 99999999999999999999 0 1 1",
    };
    static const char *const bad[] = {
        "", " ", "-", "04", "04 10", "04 10 0 1 1 0 1", "04 10 0 1 1 0 1 ", "04 10 0 1 1 0 1 1 ", " 04 10 0 1 1 0 1 1",
        "04  10 0 1 1 0 1 1", "04 10 0 1 1 0 1 1 1", "04\t10 0 1 1 0 1 1", "04 10 0 1 1 0 1 1\r", "4 10 0 1 1 0 1 1",
        "04 1F 0 1 1 0 1 1", "04 1g 0 1 1 0 1 1", "04 -- 0 1 1 0 1 1", "04 10 -1 1 1 0 1 1", "04 10 +1 1 1 0 1 1",
        "04 10 a 1 1 0 1 1", "04 10 - 1 1 0 1 1", "04 10 0 1 1 0 1 -", "        ", "       ",
    };
    for (size_t i = 0; i < sizeof good / sizeof good[0]; i++)
        expect_text(good[i], true);
    for (size_t i = 0; i < sizeof bad / sizeof bad[0]; i++)
        expect_text(bad[i], false);
    /* Cut at each place: only the whole is a case. */
    for (size_t len = 0; len <= strlen(good[0]); len++)
        expect(good[0], len, len == strlen(good[0]));
}

/* splitmix64 */
static uint64_t random_state;

static size_t below(size_t n) {
    uint64_t z = random_state += 0x9e3779b97f4a7c15;
    z = (z ^ (z >> 30)) * 0xbf58476d1ce4e5b9;
    z = (z ^ (z >> 27)) * 0x94d049bb133111eb;
    return (size_t)((z ^ (z >> 31)) % n);
}

/* Random lines of up to 80 characters, most of them a case with some characters changed; whether one is a case a pattern says. */
static void random_lines(unsigned long count) {
    static const char common[] = "0123456789abcdef-      ";
    regex_t pattern;
    if (regcomp(&pattern, "^(-|([0-9a-f][0-9a-f])+) (-|([0-9a-f][0-9a-f])+)( [0-9]+){6}$", REG_EXTENDED | REG_NOSUB) != 0)
        exit(2);
    for (unsigned long i = 0; i < count; i++) {
        char line[81] = "0400ff 1110 10 2 33 444 5 0";
        size_t len = strlen(line);
        if (below(4) == 0) {
            len = below(81);
            for (size_t k = 0; k < len; k++)
                line[k] = common[below(sizeof common - 1)];
            line[len] = 0;
        }
        for (size_t changes = below(4); changes > 0 && len > 0; changes--)
            line[below(len)] = below(4) > 0 ? common[below(sizeof common - 1)] : (char)(1 + below(255));
        bool expected = regexec(&pattern, line, 0, NULL, 0) == 0;
        /* A zero byte ends a pattern's text; in a line it is a character like others, and no case has it. */
        if (len > 0 && below(16) == 0) {
            line[below(len)] = 0;
            expected = false;
        }
        expect(line, len, expected);
    }
    regfree(&pattern);
}

int main(int argc, char **argv) {
    random_state = argc == 2 ? strtoull(argv[1], NULL, 10) : 1;
    long_lines();
    damaged_lines();
    unsigned long before = accepted;
    random_lines(20000);
    if (accepted - before < 2000 || tried - accepted < 2000)
        return fputs("damaged: too few random lines were cases, or too few were none\n", stderr), 1;
    printf("%lu lines: %lu cases, %lu refused, as expected\n", tried, accepted, tried - accepted);
    return 0;
}
