/* Writes the questions that the engines are timed on, one case line each after the name of its row:
 *     ROW PROGRAM QUESTION STEPS LEVELS ROOM OWN FIRST SECOND
 * Lines of one row stand together and are timed together. A row ROW/0 is the question 0 to the same book: what a call costs besides
 * its question. `questions table` gives the table's rows, `questions terms` those of growing terms, `questions rules` those of
 * growing rule books, `questions standing` those of built-ins along the standing list. */
#include <stdint.h>
#include <stdio.h>
#include <stdlib.h>
#include <string.h>

enum { ZERO = 0x10, SUCC, TRUE, FALSE, VARIABLE, RAISE, HANDLE, IF, BUILTIN, CALL };
enum { PLUS, TIMES, NOT, MOST, LESS, EQUAL, LEAST, MORE, DIFFERENT, DIV, MOD };

/* The string that is being written: the program, then the question. */
static char text[65536];
static size_t length;

static void byte(unsigned b) { length += (size_t)sprintf(text + length, "%02x", b); }
static void two(unsigned a, unsigned b) { byte(a); byte(b); }
static void exception(unsigned e) { two(1, e); }
static void function(unsigned f, unsigned arity) { byte(2); two(f, arity); }
static void rule(unsigned f) { two(3, f); }
static void call(unsigned f) { two(CALL, f); }
static void var(unsigned v) { two(VARIABLE, v); }
static void succs(unsigned n) { while (n-- > 0) byte(SUCC); }
static void number(unsigned n) { succs(n); byte(ZERO); }
static void truth(unsigned b) { byte(b ? TRUE : FALSE); }
static void end(void) { byte(4); text[length++] = ' '; }

/* Begins a program. */
static void begin(void) { length = 0; }

/* A row of the question that stands behind the program. */
static void line(const char *row) {
    text[length] = 0;
    printf("%s %s 1000000 1000 4096 15504 4096 4096\n", row, text);
}

/* And the row of the question 0 to the same program. */
static void lines(const char *row) {
    line(row);
    printf("%s/0 %.*s 10 1000000 1000 4096 15504 4096 4096\n", row, (int)strcspn(text, " "), text);
}

/* Figure 8 of document 004, f(6): f(0) -> 1, f(succ(x)) -> *(succ(x), f(x)). */
static void figure8(void) {
    begin();
    length = (size_t)sprintf(text, "0200010300101110030011140018011114001900140004 190011111111111110");
}

/* A fee book. Exceptions: too heavy, no such tier, late. Functions: tier(w), heavier(w), rate(tier), fee(member, w),
 * due(member, w, late), carriage(zone, own crate, back, prepaid). */
static void fee_book(void) {
    enum { HEAVY, NO_TIER, LATE };
    enum { TIER, HEAVIER, RATE, FEE, DUE, CARRIAGE };
    begin();
    exception(HEAVY), exception(NO_TIER), exception(LATE);
    function(TIER, 1), function(HEAVIER, 1), function(RATE, 1), function(FEE, 2), function(DUE, 3), function(CARRIAGE, 4);
    /* tier(w) -> if(<=(w,1), 0, heavier(w)), heavier(w) -> if(<=(w,3), 1, raise heavy) */
    rule(TIER), var(0), byte(IF), two(BUILTIN, MOST), var(0), number(1), number(0), call(HEAVIER), var(0);
    rule(HEAVIER), var(0), byte(IF), two(BUILTIN, MOST), var(0), number(3), number(1), two(RAISE, HEAVY);
    /* rate(0) -> 1, rate(1) -> 2, rate(succ(succ(t))) -> raise no tier */
    rule(RATE), number(0), number(1);
    rule(RATE), number(1), number(2);
    rule(RATE), succs(2), var(0), two(RAISE, NO_TIER);
    /* fee(True, w) -> rate(tier(w)), fee(False, w) -> handle(succ(rate(tier(w))), heavy, 3) */
    rule(FEE), byte(TRUE), var(0), call(RATE), call(TIER), var(0);
    rule(FEE), byte(FALSE), var(0), two(HANDLE, HEAVY), byte(SUCC), call(RATE), call(TIER), var(0), number(3);
    /* due(m, w, l) -> handle(handle(if(l, raise late, fee(m, w)), late, succ(fee(m, w))), heavy, 3) */
    rule(DUE), var(0), var(1), var(2);
    two(HANDLE, HEAVY), two(HANDLE, LATE), byte(IF), var(2), two(RAISE, LATE);
    call(FEE), var(0), var(1);
    byte(SUCC), call(FEE), var(0), var(1);
    number(3);
    /* carriage(0, c, b, p) -> 0, carriage(succ(z), c, b, True) -> 0, carriage(succ(z), c, b, False) -> if(c, 0, 1) */
    rule(CARRIAGE), number(0), var(0), var(1), var(2), number(0);
    rule(CARRIAGE), byte(SUCC), var(0), var(1), var(2), byte(TRUE), number(0);
    rule(CARRIAGE), byte(SUCC), var(0), var(1), var(2), byte(FALSE), byte(IF), var(1), number(0), number(1);
    end();
}

/* What a delivery owes; n from 0 to 23 says member or not, weight 0 to 5, late or not. */
static void due(unsigned n) { call(4), truth(n % 2), number(n / 4), truth(n / 2 % 2); }

/* Question n of 13,824: +(carriage, +(due, due)). */
static void fees(unsigned n) {
    unsigned m = n % 24;
    fee_book();
    two(BUILTIN, PLUS), call(5), number(m / 8), truth(m % 2), truth(m / 2 % 2), truth(m / 4 % 2);
    two(BUILTIN, PLUS), due(n / 24 % 24), due(n / 576 % 24);
}

/* 64 rules in nearly 8,192 bytes: 32 functions, f(0,y) -> y padded, f(succ(x),y) -> if(True, f(x,y), padding). */
static void largest_book(void) {
    begin();
    for (unsigned f = 0; f < 32; f++)
        function(f, 2);
    for (unsigned f = 0; f < 32; f++) {
        rule(f), byte(ZERO), var(0), byte(IF), byte(TRUE), var(0), number(116);
        rule(f), byte(SUCC), var(0), var(1), byte(IF), byte(TRUE), call(f), var(0), var(1), number(110);
    }
    end();
    call(31), number(60), number(0);
}

/* The books of growing terms. A loop without arguments runs on small terms and ends in True: loop 0 is <=(2,2) or asks `many`, loop i is
 * three times loop i-1. `deep`, `behind` and `before` bury the loop by so many pieces of 120 words; `big` is a number of so many. */
enum { PAIR, MANY, BIG, DEEP, BEHIND, BEFORE, LOOP, PIECE = 120 };

static void burying_rules(unsigned top) {
    /* pair(x,y) -> 0 */
    rule(PAIR), var(0), var(1), number(0);
    /* many(0,y) -> True, many(succ(x),y) -> many(x,y): as many calls with one large value */
    rule(MANY), byte(ZERO), var(0), byte(TRUE);
    rule(MANY), byte(SUCC), var(0), var(1), call(MANY), var(0), var(1);
    rule(BIG), number(0), number(0);
    rule(BIG), byte(SUCC), var(0), succs(PIECE), call(BIG), var(0);
    /* the loop under succ signs, before a value, behind a value */
    rule(DEEP), number(0), call(top);
    rule(DEEP), byte(SUCC), var(0), succs(PIECE), call(DEEP), var(0);
    rule(BEHIND), number(0), call(top);
    rule(BEHIND), byte(SUCC), var(0), call(PAIR), call(BEHIND), var(0), number(PIECE - 2);
    rule(BEFORE), number(0), call(top);
    rule(BEFORE), byte(SUCC), var(0), call(PAIR), number(PIECE - 2), call(BEFORE), var(0);
}

/* The book with so many loops over loop 0. Where `large` is not 0, loop 0 is many(3, a number of so many words). */
static void term_book(unsigned loops, unsigned large) {
    begin();
    function(PAIR, 2), function(MANY, 2);
    for (unsigned f = BIG; f < LOOP; f++)
        function(f, 1);
    for (unsigned f = LOOP; f <= LOOP + loops; f++)
        function(f, 0);
    burying_rules(LOOP + loops);
    rule(LOOP);
    if (large == 0)
        two(BUILTIN, MOST), number(2), number(2);
    else
        call(MANY), number(3), succs(large % PIECE), call(BIG), number(large / PIECE);
    for (unsigned f = LOOP + 1; f <= LOOP + loops; f++) {
        rule(f), byte(IF), call(f - 1), byte(IF), call(f - 1), call(f - 1);
        byte(TRUE), byte(TRUE);
    }
    end();
}

/* A shape's question, for terms of about so many words. */
static void shaped(const char *shape, unsigned words) {
    unsigned loops = words < 64 ? 3 : 5, left = words < 30 ? 0 : words - 22;
    unsigned pieces = left / PIECE, rest = left % PIECE;
    if (strcmp(shape, "value") == 0) {
        term_book(words < 64 ? 3 : words < 1024 ? 2 : 1, words < 24 ? 3 : words > 2900 ? 1930 : words * 2 / 3 - 6);
        call(LOOP + (words < 64 ? 3 : words < 1024 ? 2 : 1));
        return;
    }
    term_book(loops, 0);
    if (strcmp(shape, "under") == 0)
        succs(rest), call(DEEP), number(pieces);
    else if (strcmp(shape, "front") == 0)
        call(PAIR), call(BEHIND), number(pieces), number(rest);
    else
        call(PAIR), number(rest), call(BEFORE), number(pieces);
}

/* Rows SHAPE.WORDS: the redex under succ signs, in front of values, behind values, or walking through a large value. */
static void growing_terms(void) {
    static const char *const shapes[] = {"under", "front", "behind", "value"};
    static const unsigned sizes[] = {16, 64, 256, 1024, 1500, 4096};
    for (unsigned s = 0; s < 4; s++)
        for (unsigned i = 0; i < 6; i++) {
            char row[32];
            snprintf(row, sizeof row, "%s.%u", shapes[s], sizes[i]);
            /* A step needs room for one piece more. */
            shaped(shapes[s], sizes[i] > 3860 ? 3860 : sizes[i]);
            lines(row);
        }
}

/* A book of one function u and so many rules of functions before it: u(x) -> if(<=(9,x), True, if(u(succ(x)), u(succ(x)), True)). The
 * question u(0) makes 1,023 calls of u. */
static void calling_book(unsigned others) {
    unsigned u = (others + 2) / 3;
    begin();
    for (unsigned f = 0; f <= u; f++)
        function(f, 1);
    for (unsigned i = 0; i < others; i++)
        rule(i / 3), byte(i % 3 == 0 ? ZERO : i % 3 == 1 ? TRUE : FALSE), number(100);
    rule(u), var(0), byte(IF), two(BUILTIN, MOST), number(9), var(0), byte(TRUE);
    byte(IF), call(u), byte(SUCC), var(0), call(u), byte(SUCC), var(0), byte(TRUE);
    end();
    call(u), number(0);
}

/* Rows RULES. */
static void growing_books(void) {
    static const unsigned sizes[] = {1, 2, 4, 8, 16, 32, 48, 64};
    for (unsigned i = 0; i < 8; i++) {
        char row[32];
        snprintf(row, sizeof row, "%u", sizes[i]);
        calling_book(sizes[i] - 1), lines(row);
    }
}

/* The question <=(200,300). */
static void hundreds(void) {
    begin(), end();
    two(BUILTIN, MOST), number(200), number(300);
}

/* A fee by tiers, fee(300): fee(w) -> if(<=(w,hundred), 1, succ(div(w,hundred))), hundred -> 100. */
static void tiers(void) {
    enum { FEE, HUNDRED };
    begin();
    function(FEE, 1), function(HUNDRED, 0);
    rule(FEE), var(0), byte(IF), two(BUILTIN, MOST), var(0), call(HUNDRED), number(1);
    byte(SUCC), two(BUILTIN, DIV), var(0), call(HUNDRED);
    rule(HUNDRED), number(100);
    end();
    call(FEE), number(300);
}

/* 1,024 calls of a built-in on 1 and 1: four(x,y,z,u) -> 0, loop 1 asks four of the built-in, loop i four of loop i-1. */
static void builtin_book(unsigned builtin) {
    enum { FOUR, LOOPS = 5 };
    begin();
    function(FOUR, 4);
    for (unsigned f = 1; f <= LOOPS; f++)
        function(f, 0);
    rule(FOUR), var(0), var(1), var(2), var(3), number(0);
    for (unsigned f = 1; f <= LOOPS; f++) {
        rule(f), call(FOUR);
        for (unsigned i = 0; i < 4; i++)
            if (f == 1)
                two(BUILTIN, builtin), number(1), number(1);
            else
                call(f - 1);
    }
    end();
    call(LOOPS);
}

/* Rows by the built-in's name, in the order of the standing list. `*`, a pattern to the shell, and `not`, of one argument, are left out. */
static void standing(void) {
    static const struct {
        const char *row;
        unsigned builtin;
    } rows[] = {{"+", PLUS},  {"<=", MOST},      {"<", LESS},  {"=", EQUAL}, {">=", LEAST},
                {">", MORE}, {"<>", DIFFERENT}, {"div", DIV}, {"mod", MOD}};
    for (unsigned i = 0; i < sizeof rows / sizeof rows[0]; i++)
        builtin_book(rows[i].builtin), lines(rows[i].row);
}

static void table(void) {
    figure8(), lines("f(6)");
    fees(16 + 24 * 20 + 576 * 14), lines("fees");
    largest_book(), lines("largest");
    hundreds(), lines("<=");
    tiers(), lines("tiers");
    for (unsigned n = 0; n < 10000; n++)
        fees(n), line("month");
}

int main(int argc, char **argv) {
    const char *what = argc == 2 ? argv[1] : "";
    if (strcmp(what, "table") == 0)
        table();
    else if (strcmp(what, "terms") == 0)
        growing_terms();
    else if (strcmp(what, "rules") == 0)
        growing_books();
    else if (strcmp(what, "standing") == 0)
        standing();
    else
        return fputs("usage: questions table | terms | rules | standing\n", stderr), 2;
    return 0;
}
