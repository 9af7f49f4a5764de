/* harness.c: tries the archive's functions from C.
     harness CASES SEED               that many cases: a call each of settle, write, read, write_hour, explain, settle_ten_minutes, and body
                                      at every position
     harness lie BUFFER SIDE          a caller that lies about a buffer: the protected pages must end it (status 3)
     harness spoiled FAULT CASES SEED one of these functions with a fault put in: the cases must end it (status 3 or 4)
   Status 0: all as by hand, and every answer that can occur was seen; 1: not every one was seen; 2: not called as above. */
#include <stdio.h>
#include <stdlib.h>
#include <string.h>

#include "chance.h"
#include "guard.h"
#include "trials.h"

struct seen seen;

/* What is tried: the archive's functions, or one of them with a fault put in. */
static settle_function *settle = sneupelaar_settle;
static settle_ten_minutes_function *settle_ten_minutes = sneupelaar_settle_ten_minutes;
static explain_function *explain = sneupelaar_explain;
static write_hour_function *write_hour = sneupelaar_write_hour;
static write_function *write_amount = sneupelaar_write;
static read_function *read_amount = sneupelaar_read;
static body_function *body = sneupelaar_body;

/* Puts a fault in; 0 where there is no such fault. */
static int spoil(const char *how)
{
    int found = 0;
#define PUT_IN(function, fault)    \
    if ((fault) != NULL) {         \
        function = (fault);        \
        found = 1;                 \
    }
    PUT_IN(settle, spoiled(how))
    PUT_IN(settle_ten_minutes, mischarged(how))
    PUT_IN(settle_ten_minutes, missummed(how))
    PUT_IN(explain, misexplained(how))
    PUT_IN(write_hour, miswritten(how))
    PUT_IN(write_amount, miswritten_amount(how))
    PUT_IN(read_amount, misread_amount(how))
    PUT_IN(body, misbodied(how))
#undef PUT_IN
    return found;
}

static void try_cases(unsigned long cases)
{
    for (unsigned long at = 0; at < cases; at++) {
        standing.case_number = at;
        chance_start(standing.seed, at);
        try_settling(settle, body);
        try_writing(write_amount);
        try_reading(read_amount);
        try_writing_hour(write_hour);
        try_explaining(explain);
        try_ten_minutes(settle_ten_minutes);
    }
}

/* Says how often each of the numbers was answered; 0 where one never was. */
static int all_seen(const char *function, const unsigned long *counts, const unsigned *numbers, size_t length)
{
    int all = 1;
    printf("  %s:", function);
    for (size_t at = 0; at < length; at++) {
        printf("%s %lu", at == 0 ? " accepted" : "", counts[numbers[at]]);
        if (at + 1 < length)
            printf(", refused %u", numbers[at + 1]);
        all &= counts[numbers[at]] != 0;
    }
    printf("\n");
    return all;
}

/* Refusal 7 cannot occur: within the ranges no amount is that large, which is proved. */
static int enough_seen(unsigned long cases)
{
    static const unsigned settling[] = { 0, 1, 2, 3, 4, 5, 6, 11, 12, 14 }, writing[] = { 0, 8, 9 }, reading[] = { 0, 10 };
    static const unsigned ten_minutes[] = { 0, 1, 2, 3, 4, 5, 11 };
    static const unsigned explaining[] = { 0, 1, 2, 3, 4, 5, 6, 12, 13, 14 }, writing_hours[] = { 0, 1, 4, 5, 11, 14 };
    int enough = all_seen("settle", seen.settled, settling, 10);
    enough &= all_seen("settle_ten_minutes", seen.ten_minutes, ten_minutes, 7);
    enough &= all_seen("explain", seen.explained, explaining, 10);
    enough &= all_seen("write", seen.written, writing, 3);
    enough &= all_seen("read", seen.read, reading, 2);
    enough &= all_seen("write_hour", seen.hours_written, writing_hours, 6);
    printf("  body: %lu positions\n", seen.bodies);
    const unsigned long accepted[] = { seen.settled[0], seen.ten_minutes[0], seen.explained[0], seen.hours_written[0] };
    for (size_t at = 0; at < sizeof accepted / sizeof *accepted; at++)
        enough &= accepted[at] >= cases / 5;
    return enough;
}

static int usage(void)
{
    fprintf(stderr, "harness CASES SEED | harness lie BUFFER SIDE | harness spoiled FAULT CASES SEED\n");
    return 2;
}

int main(int count, char **words)
{
    guard_start();
    if (count == 4 && strcmp(words[1], "lie") == 0) {
        lie(words[2], words[3]);
        return 0;
    }
    int spoils = count == 5 && strcmp(words[1], "spoiled") == 0;
    if (spoils ? !spoil(words[2]) : count != 3)
        return usage();
    unsigned long cases = strtoul(words[count - 2], NULL, 10);
    standing.seed = strtoul(words[count - 1], NULL, 10);
    try_cases(cases);
    printf("%lu cases of seed %lu, all within bounds and as by hand\n", cases, standing.seed);
    if (enough_seen(cases))
        return 0;
    printf("not every answer that can occur was seen, or too few hours were accepted\n");
    return 1;
}
