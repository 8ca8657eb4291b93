/* Case lines, as the program `answers` reads them: eight fields, one space apart, PROGRAM QUESTION STEPS LEVELS ROOM OWN FIRST SECOND.
 * The bytes are in lower-case digits ("-" for none), the rest decimal. */
#ifndef CASES_H
#define CASES_H

#include <stdbool.h>
#include <stddef.h>
#include <stdint.h>
#include <stdio.h>

/* OWN words are enough for every own list (proved), ROOM words for every room. */
enum { LINE = 60000, OWN = 15504, ROOM = 4096 };

/* The words of a report, as puffinest.h numbers them. */
enum { NUMBER, ABOUT, PLACE, ENDING, AMOUNT, BASE, STEPS, REPORT };

typedef struct {
    uint8_t bytes[LINE / 2];
    size_t len;
} Bytes;

typedef struct {
    Bytes program, question;
    uint32_t steps, levels, room, own, first, second;
} Case;

static inline int digit(char c) {
    if (c >= '0' && c <= '9')
        return c - '0';
    if (c >= 'a' && c <= 'f')
        return c - 'a' + 10;
    return 16;
}

/* Bytes; false where they are more than the array holds, and nothing is written past it. */
static inline bool read_bytes(const char *field, size_t len, Bytes *out) {
    out->len = 0;
    if (len == 1 && field[0] == '-')
        return true;
    if (len == 0 || len % 2 != 0 || len / 2 > sizeof out->bytes)
        return false;
    for (size_t i = 0; i < len; i += 2) {
        int high = digit(field[i]), low = digit(field[i + 1]);
        if (high > 15 || low > 15)
            return false;
        out->bytes[out->len++] = (uint8_t)(high * 16 + low);
    }
    return true;
}

/* A decimal number; past 32 bits it is the largest of 32. */
static inline bool read_number(const char *field, size_t len, uint32_t *out) {
    uint64_t value = 0;
    for (size_t i = 0; i < len; i++) {
        if (digit(field[i]) > 9)
            return false;
        value = value * 10 + (uint64_t)digit(field[i]);
        if (value > UINT32_MAX)
            value = UINT32_MAX;
    }
    *out = (uint32_t)value;
    return len > 0;
}

/* The eight fields of a line of so many characters, and nothing behind the last; false too where it has more than LINE characters. */
static inline bool read_case(const char *line, size_t len, Case *out) {
    uint32_t *const numbers[] = {&out->steps, &out->levels, &out->room, &out->own, &out->first, &out->second};
    size_t at = 0;
    if (len > LINE)
        return false;
    for (int k = 0; k < 8; k++) {
        if (at > len)
            return false;
        size_t end = at;
        while (end < len && line[end] != ' ')
            end++;
        const char *field = line + at;
        size_t n = end - at;
        if (!(k == 0   ? read_bytes(field, n, &out->program)
              : k == 1 ? read_bytes(field, n, &out->question)
                       : read_number(field, n, numbers[k - 2])))
            return false;
        at = end + 1;
    }
    return at > len;
}

static inline size_t least(size_t a, size_t b) { return a < b ? a : b; }

/* How many of n words there are without the zeros at their end. */
static inline size_t kept(const uint16_t *words, size_t n) {
    while (n > 0 && words[n - 1] == 0)
        n--;
    return n;
}

#endif
