/*
 * Calls every function of dapohiru.h on PAIR and on what each refusal names, and looks at the answers and at
 * every byte that was lent. Prints how many tests there were; status 1 if one failed. Compiles as C99 and as C++.
 */
#include "dapohiru.h"
#include "pair.h"

#include <stdio.h>
#include <stdlib.h>
#include <string.h>

/* Bytes past each buffer that no call may change. */
#define PAST 64
#define FILL 0xa5

static int tests, failures;

static void hold(int holds, const char *what, int line)
{
    tests++;
    if (!holds) {
        failures++;
        printf("calls.c:%d: %s\n", line, what);
    }
}
#define HOLD(fact) hold(fact, #fact, __LINE__)

static uint8_t file[DAPOHIRU_JOB_LEN + 1];
static uint8_t work[DAPOHIRU_WORK_LEN + PAST];
static uint8_t plan[DAPOHIRU_PLAN_LEN + PAST];
static uint8_t listing[DAPOHIRU_LISTING_LEN + PAST];
static uint8_t volumes[DAPOHIRU_VOLUMES_LEN + PAST];
static uint8_t prices[DAPOHIRU_PRICES_LEN + PAST];
static uint8_t rule[DAPOHIRU_RULE_LEN + PAST];
static uint8_t rows[DAPOHIRU_ROWS_LEN + PAST];

static int all(const uint8_t *bytes, size_t len, uint8_t value)
{
    size_t k;
    for (k = 0; k < len; k++)
        if (bytes[k] != value)
            return 0;
    return 1;
}

/* What stands before the numbers of the file: spaces, or zeros. */
static char lead = ' ';

/* Copies a file with the lead before its numbers. */
static void spell(uint8_t *to, const char *from, size_t len)
{
    size_t k;

    for (k = 0; k < len; k++)
        to[k] = (uint8_t)(from[k] == ' ' ? lead : from[k]);
}

/* PAIR as the file, its volume file, price file and rows, and buffers that hold other bytes. */
static void fresh(void)
{
    spell(file, PAIR, PAIR_LEN);
    memset(volumes, FILL, sizeof volumes);
    spell(volumes, VOLUMES, VOLUMES_LEN);
    memset(prices, FILL, sizeof prices);
    spell(prices, PRICES, PRICES_LEN);
    memset(rows, FILL, sizeof rows);
    spell(rows, ROWS, ROWS_LEN);
    memset(work, FILL, sizeof work);
    memset(plan, FILL, sizeof plan);
    memset(listing, FILL, sizeof listing);
    memset(rule, FILL, sizeof rule);
}

/* Whether the work buffer is as a call with this answer leaves it. */
static int work_after(uint64_t answer)
{
    int kept = answer == DAPOHIRU_FILE_TOO_LONG || answer == DAPOHIRU_BUFFER_TOO_SHORT;
    return all(work, DAPOHIRU_WORK_LEN, kept ? FILL : 0) && all(work + DAPOHIRU_WORK_LEN, PAST, FILL);
}

/* Asks that the check of a plan for PAIR gives this answer, and leaves the work buffer as such an answer does. */
static void checked(uint64_t answer, const uint8_t *own, size_t own_len)
{
    fresh();
    HOLD(dapohiru_check(file, PAIR_LEN, own, own_len, work, sizeof work) == answer);
    HOLD(work_after(answer));
}

static void pair_is_planned_listed_and_checked(void)
{
    static const uint8_t planned[] = {0, 1, 1}, own[] = {1, 0, 1}, none[] = {0, 0, 1};
    uint64_t answer;

    fresh();
    answer = dapohiru_plan(file, PAIR_LEN, work, sizeof work, plan, sizeof plan);
    HOLD(answer == DAPOHIRU_ACCEPTED + (UINT64_C(3) << 32) + (UINT64_C(2) << 16) + 2);
    HOLD(!DAPOHIRU_IS_REFUSAL(answer));
    HOLD(DAPOHIRU_POINTS(answer) == 3 && DAPOHIRU_WATCHED(answer) == 2 && DAPOHIRU_PASSES(answer) == 2);
    HOLD(memcmp(plan, planned, 3) == 0 && all(plan + 3, sizeof plan - 3, FILL));
    HOLD(work_after(answer));

    fresh();
    answer = dapohiru_list(file, PAIR_LEN, work, sizeof work, listing, sizeof listing);
    HOLD(answer == DAPOHIRU_ACCEPTED + LINES_LEN && DAPOHIRU_LENGTH(answer) == LINES_LEN);
    HOLD(memcmp(listing, LINES, LINES_LEN) == 0);
    HOLD(all(listing + LINES_LEN, sizeof listing - LINES_LEN, FILL));
    HOLD(work_after(answer));

    checked(DAPOHIRU_FAITHFUL, own, 3);
    checked(DAPOHIRU_DIFFERENT, none, 3);
}

/* PAIR with a call that may come back in for its second seal. */
static void calls_that_may_come_back_in_are_planned_and_checked(void)
{
    static const uint8_t planned[] = {1, 0, 1}, marked[] = {1, 1, 1};
    const size_t kind = 26 + 3 * 32 + 38 + 12;
    uint64_t answer;

    fresh();
    file[kind] = '3';
    answer = dapohiru_plan(file, PAIR_LEN, work, sizeof work, plan, sizeof plan);
    HOLD(answer == DAPOHIRU_ACCEPTED + (UINT64_C(2) << 32) + (UINT64_C(2) << 16) + 1);
    HOLD(memcmp(plan, planned, 3) == 0 && all(plan + 3, sizeof plan - 3, FILL));
    HOLD(work_after(answer));
    HOLD(dapohiru_check(file, PAIR_LEN, planned, 3, work, sizeof work) == DAPOHIRU_FAITHFUL);
    HOLD(dapohiru_check(file, PAIR_LEN, marked, 3, work, sizeof work) == DAPOHIRU_BAD_PLAN_BYTE);
}

/* Asks that the calls on the file refuse it by this number, and leave what a refusal leaves. */
static void refused(uint64_t number, size_t file_len, size_t work_len)
{
    static const uint8_t own[] = {1, 0, 1};

    HOLD(dapohiru_plan(file, file_len, work, work_len, plan, DAPOHIRU_PLAN_LEN) == number);
    HOLD(DAPOHIRU_IS_REFUSAL(number));
    HOLD(work_after(number));
    memset(work, FILL, sizeof work);
    HOLD(dapohiru_list(file, file_len, work, work_len, listing, DAPOHIRU_LISTING_LEN) == number);
    HOLD(work_after(number));
    memset(work, FILL, sizeof work);
    HOLD(dapohiru_check(file, file_len, own, 3, work, work_len) == number);
    HOLD(work_after(number));
    memset(work, FILL, sizeof work);
    HOLD(dapohiru_rule(file, file_len, work, work_len, rule, DAPOHIRU_RULE_LEN) == number);
    HOLD(work_after(number));
    /* the length of the rule buffer is tested last */
    memset(work, FILL, sizeof work);
    HOLD(dapohiru_rule(file, file_len, work, work_len, rule, DAPOHIRU_RULE_LEN + 1) == number);
    HOLD(work_after(number));
    HOLD(all(plan, sizeof plan, FILL) && all(listing, sizeof listing, FILL) && all(rule, sizeof rule, FILL));
    /* pricing gets no work buffer, and no 2 */
    if (number != DAPOHIRU_BUFFER_TOO_SHORT) {
        HOLD(dapohiru_price(file, file_len, own, 3, volumes, VOLUMES_LEN) == number);
        HOLD(dapohiru_price_by(file, file_len, own, 3, volumes, VOLUMES_LEN, prices, 0) == number);
    }
}

/* Puts one byte into PAIR and asks for the refusal. */
static void refused_with(uint64_t number, size_t place, char byte)
{
    fresh();
    file[place] = (uint8_t)byte;
    refused(number, PAIR_LEN, sizeof work);
}

static void files_and_buffers_are_refused_by_number(void)
{
    /* the starts of the first R, P and F lines, and the length of an F line */
    const size_t r = 26, p = r + 3 * 32, f = p + 3 * 38, f_len = 14;

    fresh();
    memset(file + PAIR_LEN, '\n', sizeof file - PAIR_LEN);
    refused(DAPOHIRU_FILE_TOO_LONG, sizeof file, sizeof work);
    fresh();
    refused(DAPOHIRU_FILE_TOO_LONG, sizeof file, 0);
    fresh();
    refused(DAPOHIRU_BUFFER_TOO_SHORT, PAIR_LEN, DAPOHIRU_WORK_LEN - 1);
    fresh();
    refused(DAPOHIRU_BUFFER_TOO_SHORT, 0, 0);
    fresh();
    refused(DAPOHIRU_LINE_MISSING, 0, sizeof work);
    fresh();
    refused(DAPOHIRU_LINE_MISSING, PAIR_LEN - f_len, sizeof work);
    fresh();
    refused(DAPOHIRU_LINE_MALFORMED, PAIR_LEN - 1, sizeof work);
    refused_with(DAPOHIRU_LINE_MALFORMED, r, 'Q');
    /* a zero before a space */
    refused_with(DAPOHIRU_LINE_MALFORMED, 2, lead == ' ' ? '0' : ' ');
    refused_with(DAPOHIRU_BAD_SIZES, 6, '0');
    refused_with(DAPOHIRU_BAD_RULE_LINE, r + 12, '2');
    refused_with(DAPOHIRU_BAD_NODE_LINE, p + 12, '4');
    refused_with(DAPOHIRU_BAD_EDGE_LINE, f + 12, '3');
    refused_with(DAPOHIRU_BAD_EDGE_LINE, f + 6, '2');
    fresh();
    file[PAIR_LEN] = '\n';
    refused(DAPOHIRU_BYTES_FOLLOW, PAIR_LEN + 1, sizeof work);
    refused_with(DAPOHIRU_NO_ENTRY, p + 24, '0');

    fresh();
    HOLD(dapohiru_plan(file, PAIR_LEN, work, sizeof work, plan, DAPOHIRU_PLAN_LEN - 1) == DAPOHIRU_BUFFER_TOO_SHORT);
    HOLD(dapohiru_list(file, PAIR_LEN, work, sizeof work, listing, DAPOHIRU_LISTING_LEN - 1) == DAPOHIRU_BUFFER_TOO_SHORT);
    HOLD(all(plan, sizeof plan, FILL) && all(listing, sizeof listing, FILL));
    HOLD(work_after(DAPOHIRU_BUFFER_TOO_SHORT));
}

static void plans_are_refused_by_number(void)
{
    uint8_t own[] = {1, 0, 1, 0};

    checked(DAPOHIRU_BAD_PLAN_LENGTH, own, 2);
    checked(DAPOHIRU_BAD_PLAN_LENGTH, own, 4);
    own[2] = 2;
    checked(DAPOHIRU_BAD_PLAN_BYTE, own, 3);
    HOLD(own[0] == 1 && own[1] == 0 && own[2] == 2 && own[3] == 0);
    HOLD(memcmp(file, PAIR, PAIR_LEN) == 0);
}

/* Whether the rule buffer holds PAIR's rule, and what it held past it. */
static int is_rule_of_pair(void)
{
    static const uint8_t rows[3][3] = {{1, 0, 0}, {1, 0, 2}, {1, 0, 2}};
    size_t q, a;

    for (q = 0; q < 16; q++)
        for (a = 0; a < 16; a++)
            if (rule[16 * q + a] != (q < 3 && a < 3 ? rows[q][a] : 0))
                return 0;
    return all(rule + DAPOHIRU_RULE_LEN, PAST, FILL);
}

static void rule_of_pair_is_taken(void)
{
    static const size_t others[] = {0, 1, 255, 257, 256 + PAST};
    uint64_t answer;
    size_t k;

    fresh();
    answer = dapohiru_rule(file, PAIR_LEN, work, sizeof work, rule, DAPOHIRU_RULE_LEN);
    HOLD(answer == DAPOHIRU_ACCEPTED + (UINT64_C(3) << 32) + (UINT64_C(3) << 16) + 4);
    HOLD(!DAPOHIRU_IS_REFUSAL(answer));
    HOLD(DAPOHIRU_STATES(answer) == 3 && DAPOHIRU_SYMBOLS(answer) == 3 && DAPOHIRU_FINALS(answer) == 4);
    HOLD(is_rule_of_pair());
    HOLD(work_after(answer));
    for (k = 0; k < sizeof others / sizeof *others; k++) {
        fresh();
        HOLD(dapohiru_rule(file, PAIR_LEN, work, sizeof work, rule, others[k]) == DAPOHIRU_BAD_RULE);
        HOLD(all(rule, sizeof rule, FILL));
        HOLD(work_after(DAPOHIRU_BAD_RULE));
    }
}

/* The rule of the only state, with two symbols; and with sixteen states and symbols, of which state 15 is final. */
static void rules_of_other_sizes_are_taken(void)
{
    static const char one[] = "J     1     2     1     0\n"
                              "R     0     1     0     0\n"
                              "P     0     0     0     1     0     0\n";
    uint64_t answer;
    size_t at, q, a;
    int same = 1;

    fresh();
    spell(file, one, sizeof one - 1);
    answer = dapohiru_rule(file, sizeof one - 1, work, sizeof work, rule, DAPOHIRU_RULE_LEN);
    HOLD(answer == DAPOHIRU_ACCEPTED + (UINT64_C(1) << 32) + (UINT64_C(2) << 16) + 1);
    HOLD(all(rule, DAPOHIRU_RULE_LEN, 0) && all(rule + DAPOHIRU_RULE_LEN, PAST, FILL));

    fresh();
    at = (size_t)sprintf((char *)file, "J    16    16     1     0\n");
    for (q = 0; q < 16; q++) {
        at += (size_t)sprintf((char *)file + at, "R%6u%6u", (unsigned)q, q == 15 ? 1u : 0u);
        for (a = 0; a < 16; a++)
            at += (size_t)sprintf((char *)file + at, "%6u", (unsigned)((3 * q + 5 * a + 1) % 16));
        file[at++] = '\n';
    }
    at += (size_t)sprintf((char *)file + at, "P     0     1    15     1     0     0\n");
    answer = dapohiru_rule(file, at, work, sizeof work, rule, DAPOHIRU_RULE_LEN);
    HOLD(answer == DAPOHIRU_ACCEPTED + (UINT64_C(16) << 32) + (UINT64_C(16) << 16) + 0x8000);
    for (q = 0; q < 16; q++)
        for (a = 0; a < 16; a++)
            same = same && rule[16 * q + a] == (3 * q + 5 * a + 1) % 16;
    HOLD(same && all(rule + DAPOHIRU_RULE_LEN, PAST, FILL));
    HOLD(work_after(answer));
}

/* Asks that rows of this length, with these numbers given and a rule buffer of this length, are refused by this number,
   which leaves the rule buffer, or make PAIR's rule; and that no row is changed. */
static void made(uint64_t answer, size_t rows_len, uint64_t states, uint64_t symbols, uint64_t finals, size_t rule_len)
{
    static uint8_t kept[sizeof rows];

    memcpy(kept, rows, sizeof rows);
    memset(rule, FILL, sizeof rule);
    HOLD(dapohiru_rows(rows, rows_len, states, symbols, finals, rule, rule_len) == answer);
    HOLD(DAPOHIRU_IS_REFUSAL(answer) ? all(rule, sizeof rule, FILL) : is_rule_of_pair());
    HOLD(memcmp(kept, rows, sizeof rows) == 0);
}

/* Puts one byte into the rows of PAIR and asks for the refusal. */
static void rows_refused_with(uint64_t number, size_t place, char byte)
{
    fresh();
    rows[place] = (uint8_t)byte;
    made(number, ROWS_LEN, 3, 3, 4, DAPOHIRU_RULE_LEN);
}

static void rule_of_pair_is_made_from_rows_or_refused_by_number(void)
{
    static const size_t others[] = {0, 1, 255, 257, 256 + PAST};
    /* the length of a row, and the places of the last digits of its fields */
    const size_t row = 32, first = 6, last = 12, low = 18, high = 24, next = 30;
    size_t k;

    fresh();
    made(DAPOHIRU_ACCEPTED, ROWS_LEN, 3, 3, 4, DAPOHIRU_RULE_LEN);
    made(DAPOHIRU_ACCEPTED, ROWS_LEN, 3, 3, 0, DAPOHIRU_RULE_LEN);
    for (k = 0; k < sizeof others / sizeof *others; k++) {
        made(DAPOHIRU_BAD_RULE, ROWS_LEN, 3, 3, 4, others[k]);
        /* the length of the rule buffer is tested first */
        made(DAPOHIRU_BAD_RULE, ROWS_LEN - 1, 17, 0, UINT64_MAX, others[k]);
    }
    made(DAPOHIRU_BAD_ROWS, ROWS_LEN, 0, 3, 0, DAPOHIRU_RULE_LEN);
    made(DAPOHIRU_BAD_ROWS, ROWS_LEN, 17, 3, 4, DAPOHIRU_RULE_LEN);
    made(DAPOHIRU_BAD_ROWS, ROWS_LEN, 3, 0, 4, DAPOHIRU_RULE_LEN);
    made(DAPOHIRU_BAD_ROWS, ROWS_LEN, 3, UINT64_C(3) << 32, 4, DAPOHIRU_RULE_LEN);
    made(DAPOHIRU_BAD_ROWS, ROWS_LEN, 3, 3, 8, DAPOHIRU_RULE_LEN);
    made(DAPOHIRU_BAD_ROWS, ROWS_LEN, 3, 3, UINT64_C(1) << 63, DAPOHIRU_RULE_LEN);
    made(DAPOHIRU_BAD_ROWS, ROWS_LEN - 1, 3, 3, 4, DAPOHIRU_RULE_LEN);
    made(DAPOHIRU_BAD_ROWS, ROWS_LEN + 1, 3, 3, 4, DAPOHIRU_RULE_LEN);
    made(DAPOHIRU_BAD_ROWS, sizeof rows, 3, 3, 4, DAPOHIRU_RULE_LEN);
    /* two pairs have no row without the last, and all without any */
    made(DAPOHIRU_ROW_MISSING, ROWS_LEN - row, 3, 3, 4, DAPOHIRU_RULE_LEN);
    made(DAPOHIRU_ROW_MISSING, 0, 3, 3, 4, DAPOHIRU_RULE_LEN);
    made(DAPOHIRU_ROW_MISSING, ROWS_LEN, 3, 4, 4, DAPOHIRU_RULE_LEN);
    memcpy(rows + ROWS_LEN, rows, row);
    made(DAPOHIRU_ROWS_OVERLAP, ROWS_LEN + row, 3, 3, 4, DAPOHIRU_RULE_LEN);
    made(DAPOHIRU_ROWS_OVERLAP, ROWS_LEN + row, 4, 3, 4, DAPOHIRU_RULE_LEN);

    rows_refused_with(DAPOHIRU_BAD_ROWS, 0, 'R');
    rows_refused_with(DAPOHIRU_BAD_ROWS, row - 1, '\r');
    /* a zero before a space */
    rows_refused_with(DAPOHIRU_BAD_ROWS, 2, lead == ' ' ? '0' : ' ');
    rows_refused_with(DAPOHIRU_BAD_ROWS, first, '3');
    rows_refused_with(DAPOHIRU_BAD_ROWS, last, '3');
    rows_refused_with(DAPOHIRU_BAD_ROWS, low, '1');
    rows_refused_with(DAPOHIRU_BAD_ROWS, high, '3');
    rows_refused_with(DAPOHIRU_BAD_ROWS, next, '3');
    rows_refused_with(DAPOHIRU_ROW_MISSING, last, '1');
    rows_refused_with(DAPOHIRU_ROWS_OVERLAP, high, '1');
    rows_refused_with(DAPOHIRU_ROWS_OVERLAP, 2 * row + last, '1');
}

/* A row for each pair of sixteen states and symbols: as many as there may be. */
static void rule_of_256_rows_is_made(void)
{
    const size_t len = DAPOHIRU_ROWS_LEN;
    char line[33];
    size_t q, a;
    int same = 1;

    fresh();
    for (q = 0; q < 16; q++)
        for (a = 0; a < 16; a++) {
            sprintf(line, "Q%6u%6u%6u%6u%6u\n", (unsigned)q, (unsigned)q, (unsigned)a, (unsigned)a,
                    (unsigned)((3 * q + 5 * a + 1) % 16));
            spell(rows + 32 * (16 * q + a), line, 32);
        }
    HOLD(dapohiru_rows(rows, len, 16, 16, 0x8000, rule, DAPOHIRU_RULE_LEN) == DAPOHIRU_ACCEPTED);
    for (q = 0; q < 16; q++)
        for (a = 0; a < 16; a++)
            same = same && rule[16 * q + a] == (3 * q + 5 * a + 1) % 16;
    HOLD(same && all(rule + DAPOHIRU_RULE_LEN, PAST, FILL));
    /* a row more, and a byte more */
    memcpy(rows + len, rows, 32);
    made(DAPOHIRU_BAD_ROWS, len + 32, 16, 16, 0x8000, DAPOHIRU_RULE_LEN);
    made(DAPOHIRU_BAD_ROWS, len + 1, 16, 16, 0x8000, DAPOHIRU_RULE_LEN);
    made(DAPOHIRU_ROW_MISSING, len - 32, 16, 16, 0x8000, DAPOHIRU_RULE_LEN);
}

/* The rule of EXPRESSION, row by row. */
static const uint8_t OF_EXPRESSION[5][3] = {{1, 2, 2}, {3, 2, 4}, {2, 2, 2}, {3, 2, 4}, {3, 2, 4}};

/* Whether the rule buffer has the rule of EXPRESSION, and what it held past it. */
static int is_rule_of_expression(void)
{
    size_t q, a;
    int same = all(rule + DAPOHIRU_RULE_LEN, PAST, FILL);

    for (q = 0; q < 16; q++)
        for (a = 0; a < 16; a++)
            same = same && rule[16 * q + a] == (q < 5 && a < 3 ? OF_EXPRESSION[q][a] : 0);
    return same;
}

/* Asks that an expression of this length, with these symbols and a rule buffer of this length, is refused by this number,
   which leaves the rule buffer; and that no character is changed. */
static void not_expressed(uint64_t number, const char *text, size_t len, uint64_t symbols, size_t rule_len)
{
    static uint8_t lent[300], kept[sizeof lent];

    memset(lent, '*', sizeof lent);
    memcpy(lent, text, strlen(text));
    memcpy(kept, lent, sizeof lent);
    memset(rule, FILL, sizeof rule);
    HOLD(dapohiru_expression(lent, len, symbols, rule, rule_len) == number);
    HOLD(all(rule, sizeof rule, FILL));
    HOLD(memcmp(kept, lent, sizeof lent) == 0);
}

static void rule_is_made_from_an_expression_or_refused_by_number(void)
{
    static const size_t others[] = {0, 1, 255, 257, 256 + PAST};
    static const char *const outside[] = {"*a", "|a", "a|", "()", "(", ")", "a()", "A", "a c", "q", "\n"};
    const char *const letters = "aaaaaaaaaaaaaaa";
    const uint8_t *const text = (const uint8_t *)EXPRESSION;
    uint64_t answer;
    size_t k;

    memset(rule, FILL, sizeof rule);
    answer = dapohiru_expression(text, EXPRESSION_LEN, 3, rule, DAPOHIRU_RULE_LEN);
    HOLD(answer == DAPOHIRU_ACCEPTED + (UINT64_C(5) << 16) + 16);
    HOLD(DAPOHIRU_EXPRESSION_STATES(answer) == 5 && DAPOHIRU_FINALS(answer) == 16);
    HOLD(is_rule_of_expression());
    for (k = 0; k < sizeof others / sizeof *others; k++) {
        not_expressed(DAPOHIRU_BAD_RULE, EXPRESSION, EXPRESSION_LEN, 3, others[k]);
        /* the length of the rule buffer is tested first */
        not_expressed(DAPOHIRU_BAD_RULE, "(", 1, 0, others[k]);
        not_expressed(DAPOHIRU_BAD_RULE, letters, 15, 1, others[k]);
    }
    for (k = 0; k < sizeof outside / sizeof *outside; k++)
        not_expressed(DAPOHIRU_BAD_EXPRESSION, outside[k], strlen(outside[k]), 16, DAPOHIRU_RULE_LEN);
    not_expressed(DAPOHIRU_BAD_EXPRESSION, "", 0, 3, DAPOHIRU_RULE_LEN);
    not_expressed(DAPOHIRU_BAD_EXPRESSION, EXPRESSION, EXPRESSION_LEN, 0, DAPOHIRU_RULE_LEN);
    not_expressed(DAPOHIRU_BAD_EXPRESSION, EXPRESSION, EXPRESSION_LEN, 2, DAPOHIRU_RULE_LEN);
    not_expressed(DAPOHIRU_BAD_EXPRESSION, EXPRESSION, EXPRESSION_LEN, 17, DAPOHIRU_RULE_LEN);
    not_expressed(DAPOHIRU_BAD_EXPRESSION, EXPRESSION, EXPRESSION_LEN, UINT64_C(3) << 32, DAPOHIRU_RULE_LEN);
    /* stars follow, up to 64 characters and more */
    not_expressed(DAPOHIRU_BAD_EXPRESSION, "a", DAPOHIRU_EXPRESSION_LEN + 1, 1, DAPOHIRU_RULE_LEN);
    not_expressed(DAPOHIRU_BAD_EXPRESSION, "a", 257, 1, DAPOHIRU_RULE_LEN);
    not_expressed(DAPOHIRU_BAD_EXPRESSION, letters, DAPOHIRU_EXPRESSION_LEN + 1, 1, DAPOHIRU_RULE_LEN);
    not_expressed(DAPOHIRU_TOO_MANY_STATES, letters, 15, 1, DAPOHIRU_RULE_LEN);
    HOLD(dapohiru_expression((const uint8_t *)letters, 14, 1, rule, DAPOHIRU_RULE_LEN)
         == DAPOHIRU_ACCEPTED + (UINT64_C(16) << 16) + (1 << 14));
}

/* The files as they were. */
static uint8_t kept_file[sizeof file], kept_volumes[sizeof volumes], kept_prices[sizeof prices];

static void keep(void)
{
    memcpy(kept_file, file, sizeof file);
    memcpy(kept_volumes, volumes, sizeof volumes);
    memcpy(kept_prices, prices, sizeof prices);
}

static int is_kept(void)
{
    return memcmp(kept_file, file, sizeof file) == 0 && memcmp(kept_volumes, volumes, sizeof volumes) == 0 &&
           memcmp(kept_prices, prices, sizeof prices) == 0;
}

/* Asks that a plan for PAIR gets this answer with the first bytes of the volume file, and that no file is changed. */
static void priced(uint64_t answer, const uint8_t *own, size_t own_len, size_t volumes_len)
{
    keep();
    HOLD(dapohiru_price(file, PAIR_LEN, own, own_len, volumes, volumes_len) == answer);
    HOLD(is_kept());
}

/* The same of the price by the first bytes of the price file. */
static void priced_by(uint64_t answer, const uint8_t *own, size_t own_len, size_t volumes_len, size_t prices_len)
{
    keep();
    HOLD(dapohiru_price_by(file, PAIR_LEN, own, own_len, volumes, volumes_len, prices, prices_len) == answer);
    HOLD(is_kept());
}

static void plans_are_priced_or_refused_by_number(void)
{
    static const uint8_t every[] = {1, 1, 1}, planned[] = {0, 1, 1}, none[] = {0, 0, 0}, above[] = {1, 2, 1, 0};
    /* the length of a V line, and the place of its last digit */
    const size_t v_len = 14, last = 12;

    fresh();
    priced(DAPOHIRU_ACCEPTED + 70, every, 3, VOLUMES_LEN);
    priced(DAPOHIRU_ACCEPTED + 50, planned, 3, VOLUMES_LEN);
    priced(DAPOHIRU_ACCEPTED, none, 3, VOLUMES_LEN);
    HOLD(DAPOHIRU_CENTS(dapohiru_price(file, PAIR_LEN, every, 3, volumes, VOLUMES_LEN)) == 70);
    /* one event more is a part of a cent */
    volumes[last] = '1';
    priced(DAPOHIRU_ACCEPTED + 71, every, 3, VOLUMES_LEN);
    priced(DAPOHIRU_ACCEPTED + 50, planned, 3, VOLUMES_LEN);

    priced(DAPOHIRU_BAD_VOLUMES, every, 3, 0);
    priced(DAPOHIRU_BAD_VOLUMES, every, 3, VOLUMES_LEN - v_len);
    priced(DAPOHIRU_BAD_VOLUMES, every, 3, VOLUMES_LEN - 1);
    volumes[VOLUMES_LEN] = '\n';
    priced(DAPOHIRU_BAD_VOLUMES, every, 3, VOLUMES_LEN + 1);
    priced(DAPOHIRU_BAD_VOLUMES, every, 3, sizeof volumes);
    volumes[6] = '1';
    priced(DAPOHIRU_BAD_VOLUMES, every, 3, VOLUMES_LEN);
    priced(DAPOHIRU_BAD_PLAN_BYTE, above, 3, VOLUMES_LEN);
    priced(DAPOHIRU_BAD_PLAN_LENGTH, above, 2, VOLUMES_LEN);
    priced(DAPOHIRU_BAD_PLAN_LENGTH, above, 4, VOLUMES_LEN);
}

static void plans_are_priced_by_a_file_or_refused_by_number(void)
{
    static const uint8_t every[] = {1, 1, 1}, planned[] = {0, 1, 1}, none[] = {0, 0, 0}, above[] = {1, 2, 1, 0};
    /* the length of a B line, and the places of the first symbol and of the digits of its price */
    const size_t b_len = 14, symbol = 6, digits = 9;

    HOLD(PRICES_LEN == DAPOHIRU_PRICES_LEN);
    fresh();
    priced_by(DAPOHIRU_ACCEPTED + 174, every, 3, VOLUMES_LEN, PRICES_LEN);
    priced_by(DAPOHIRU_ACCEPTED + 162, planned, 3, VOLUMES_LEN, PRICES_LEN);
    priced_by(DAPOHIRU_ACCEPTED, none, 3, VOLUMES_LEN, PRICES_LEN);
    memcpy(prices + digits, "9999", 4);
    priced_by(DAPOHIRU_ACCEPTED + 20148, every, 3, VOLUMES_LEN, PRICES_LEN);
    memcpy(prices + digits, "0000", 4);
    priced_by(DAPOHIRU_ACCEPTED + 150, every, 3, VOLUMES_LEN, PRICES_LEN);

    memcpy(prices + digits - 1, "10000", 5);
    priced_by(DAPOHIRU_BAD_PRICES, every, 3, VOLUMES_LEN, PRICES_LEN);
    fresh();
    prices[symbol] = '1';
    priced_by(DAPOHIRU_BAD_PRICES, every, 3, VOLUMES_LEN, PRICES_LEN);
    fresh();
    prices[0] = 'V';
    priced_by(DAPOHIRU_BAD_PRICES, every, 3, VOLUMES_LEN, PRICES_LEN);
    fresh();
    priced_by(DAPOHIRU_BAD_PRICES, every, 3, VOLUMES_LEN, 0);
    priced_by(DAPOHIRU_BAD_PRICES, every, 3, VOLUMES_LEN, PRICES_LEN - b_len);
    priced_by(DAPOHIRU_BAD_PRICES, every, 3, VOLUMES_LEN, PRICES_LEN - 1);
    prices[PRICES_LEN] = '\n';
    priced_by(DAPOHIRU_BAD_PRICES, every, 3, VOLUMES_LEN, PRICES_LEN + 1);
    /* the price file is looked at last */
    priced_by(DAPOHIRU_BAD_VOLUMES, every, 3, VOLUMES_LEN - 1, PRICES_LEN + 1);
    priced_by(DAPOHIRU_BAD_PLAN_BYTE, above, 3, VOLUMES_LEN - 1, PRICES_LEN + 1);
    priced_by(DAPOHIRU_BAD_PLAN_LENGTH, above, 2, VOLUMES_LEN - 1, PRICES_LEN + 1);
}

/* A record with the given state and alarm total, and bytes past it. */
static uint8_t room[DAPOHIRU_RECORD_LEN + PAST];

static void put_record(uint8_t state, uint8_t total)
{
    memset(room, FILL, sizeof room);
    memset(room, 0, DAPOHIRU_RECORD_LEN);
    room[0] = state;
    memset(room + 8, total, 8);
}

static int is_record(uint8_t state, uint8_t lowest, uint8_t others)
{
    return room[0] == state && all(room + 1, 7, 0) && room[8] == lowest && all(room + 9, 7, others) &&
           all(room + DAPOHIRU_RECORD_LEN, PAST, FILL);
}

/* Events under the rule and the numbers that were taken from PAIR. */
static void events_are_taken_by_the_rule_of_the_job(void)
{
    uint64_t answer;

    fresh();
    answer = dapohiru_rule(file, PAIR_LEN, work, sizeof work, rule, DAPOHIRU_RULE_LEN);
#define TAKE(symbol) dapohiru_event(rule, DAPOHIRU_RULE_LEN, DAPOHIRU_STATES(answer), DAPOHIRU_SYMBOLS(answer), \
                                    DAPOHIRU_FINALS(answer), symbol, room, DAPOHIRU_RECORD_LEN)
    put_record(0, 0);
    HOLD(TAKE(2) == DAPOHIRU_QUIET && is_record(0, 0, 0));
    HOLD(TAKE(0) == DAPOHIRU_QUIET && is_record(1, 0, 0));
    HOLD(TAKE(2) == DAPOHIRU_ALARM && is_record(2, 1, 0));
    HOLD(TAKE(1) == DAPOHIRU_QUIET && is_record(0, 1, 0));
    HOLD(TAKE(3) == DAPOHIRU_BAD_SYMBOL && is_record(0, 1, 0));
    put_record(3, 0);
    HOLD(TAKE(0) == DAPOHIRU_BAD_RECORD && is_record(3, 0, 0));
    HOLD(is_rule_of_pair());
#undef TAKE
}

/* The same events under the rule that the rows of PAIR make, with the numbers that were given. */
static void events_are_taken_by_the_rule_of_the_rows(void)
{
    fresh();
    HOLD(dapohiru_rows(rows, ROWS_LEN, 3, 3, 4, rule, DAPOHIRU_RULE_LEN) == DAPOHIRU_ACCEPTED);
#define TAKE(symbol) dapohiru_event(rule, DAPOHIRU_RULE_LEN, 3, 3, 4, symbol, room, DAPOHIRU_RECORD_LEN)
    put_record(0, 0);
    HOLD(TAKE(2) == DAPOHIRU_QUIET && is_record(0, 0, 0));
    HOLD(TAKE(0) == DAPOHIRU_QUIET && is_record(1, 0, 0));
    HOLD(TAKE(2) == DAPOHIRU_ALARM && is_record(2, 1, 0));
    HOLD(TAKE(3) == DAPOHIRU_BAD_SYMBOL && is_record(2, 1, 0));
    HOLD(is_rule_of_pair());
#undef TAKE
}

/* Events under the rule of an expression, with the numbers of its answer: a write to a sealed batch that nobody
   reopened. */
static void events_are_taken_by_the_rule_of_the_expression(void)
{
    uint64_t answer;

    answer = dapohiru_expression((const uint8_t *)EXPRESSION, EXPRESSION_LEN, 3, rule, DAPOHIRU_RULE_LEN);
#define TAKE(symbol) dapohiru_event(rule, DAPOHIRU_RULE_LEN, DAPOHIRU_EXPRESSION_STATES(answer), 3, \
                                    DAPOHIRU_FINALS(answer), symbol, room, DAPOHIRU_RECORD_LEN)
    put_record(0, 0);
    HOLD(TAKE(0) == DAPOHIRU_QUIET && is_record(1, 0, 0));
    HOLD(TAKE(2) == DAPOHIRU_ALARM && is_record(4, 1, 0));
    HOLD(TAKE(2) == DAPOHIRU_ALARM && is_record(4, 2, 0));
    HOLD(TAKE(3) == DAPOHIRU_BAD_SYMBOL && is_record(4, 2, 0));
    HOLD(TAKE(1) == DAPOHIRU_QUIET && is_record(2, 2, 0));
    HOLD(TAKE(0) == DAPOHIRU_QUIET && is_record(2, 2, 0));
#undef TAKE
}

static void events_move_the_record_and_count_alarms(void)
{
    uint8_t own[DAPOHIRU_RULE_LEN], kept[DAPOHIRU_RULE_LEN];
    const uint64_t finals = 4;

    memset(own, 255, sizeof own);
    memcpy(own, "\1\0\0", 3);
    memcpy(own + 16, "\1\0\2", 3);
    memcpy(own + 32, "\1\0\2", 3);
    memcpy(kept, own, sizeof own);
#define TAKE(symbol) dapohiru_event(own, sizeof own, 3, 3, finals, symbol, room, DAPOHIRU_RECORD_LEN)
    put_record(0, 0);
    HOLD(TAKE(0) == DAPOHIRU_QUIET && is_record(1, 0, 0));
    HOLD(TAKE(2) == DAPOHIRU_ALARM && is_record(2, 1, 0));
    HOLD(TAKE(2) == DAPOHIRU_ALARM && is_record(2, 2, 0));
    HOLD(TAKE(1) == DAPOHIRU_QUIET && is_record(0, 2, 0));
    put_record(2, 255);
    HOLD(TAKE(2) == DAPOHIRU_ALARM && is_record(2, 255, 255));

    put_record(2, 0);
    HOLD(TAKE(3) == DAPOHIRU_BAD_SYMBOL);
    HOLD(dapohiru_event(own, 255, 3, 3, finals, 0, room, DAPOHIRU_RECORD_LEN) == DAPOHIRU_BAD_RULE);
    HOLD(dapohiru_event(own, sizeof own, 17, 3, finals, 0, room, DAPOHIRU_RECORD_LEN) == DAPOHIRU_BAD_RULE);
    HOLD(dapohiru_event(own, sizeof own, 3, 0, finals, 0, room, DAPOHIRU_RECORD_LEN) == DAPOHIRU_BAD_RULE);
    HOLD(dapohiru_event(own, sizeof own, 3, 3, 8, 0, room, DAPOHIRU_RECORD_LEN) == DAPOHIRU_BAD_RULE);
    HOLD(dapohiru_event(own, sizeof own, 3, 4, finals, 0, room, DAPOHIRU_RECORD_LEN) == DAPOHIRU_BAD_RULE);
    HOLD(dapohiru_event(own, sizeof own, 3, 3, finals, 0, room, DAPOHIRU_RECORD_LEN - 1) == DAPOHIRU_BAD_RECORD);
    HOLD(dapohiru_event(own, sizeof own, 3, 3, finals, 0, room, DAPOHIRU_RECORD_LEN + 1) == DAPOHIRU_BAD_RECORD);
    HOLD(is_record(2, 0, 0));
    put_record(3, 0);
    HOLD(TAKE(0) == DAPOHIRU_BAD_RECORD && is_record(3, 0, 0));
    HOLD(memcmp(own, kept, sizeof own) == 0);
}

/* The lists of the calls on edges, each with numbers past it. */
static uint16_t edges[DAPOHIRU_EDGES_LEN + PAST];
static uint16_t predecessors[DAPOHIRU_PREDECESSORS_LEN + PAST];
static uint16_t starts[DAPOHIRU_STARTS_LEN + PAST];
static uint16_t kept_edges[DAPOHIRU_EDGES_LEN + PAST];
static uint16_t kept_predecessors[DAPOHIRU_PREDECESSORS_LEN + PAST];
static uint16_t kept_starts[DAPOHIRU_STARTS_LEN + PAST];
/* Their lengths, which count numbers. */
static size_t edges_len, predecessors_len, starts_len;

#define ADD(nodes, count, from, to) dapohiru_add_edge(edges, edges_len, predecessors, predecessors_len, starts, \
                                                      starts_len, nodes, count, from, to)
#define DROP(nodes, count, from, to) dapohiru_drop_edge(edges, edges_len, predecessors, predecessors_len, starts, \
                                                        starts_len, nodes, count, from, to)
#define INDEX(nodes, count) dapohiru_index_edges(edges, edges_len, predecessors, predecessors_len, starts, starts_len, \
                                                 nodes, count)

/* Puts these numbers at the start of a list that is filled. */
static void put(uint16_t *list, size_t size, const char *digits)
{
    size_t k;

    memset(list, FILL, size);
    for (k = 0; digits[k] != 0; k++)
        list[k] = (uint16_t)(digits[k] - '0');
}

/* Whether a list begins with these numbers, and what it was filled with follows. */
static int has(const uint16_t *list, size_t size, const char *digits)
{
    size_t k, len = strlen(digits);
    int same = all((const uint8_t *)(list + len), size - len * sizeof *list, FILL);

    for (k = 0; k < len; k++)
        same = same && list[k] == digits[k] - '0';
    return same;
}

/* Lists that hold these digits, and are as long as that. */
static void put_lists(const char *of_edges, const char *of_predecessors, const char *of_starts)
{
    put(edges, sizeof edges, of_edges);
    put(predecessors, sizeof predecessors, of_predecessors);
    put(starts, sizeof starts, of_starts);
    edges_len = strlen(of_edges);
    predecessors_len = strlen(of_predecessors);
    starts_len = strlen(of_starts);
    memcpy(kept_edges, edges, sizeof edges);
    memcpy(kept_predecessors, predecessors, sizeof predecessors);
    memcpy(kept_starts, starts, sizeof starts);
}

static int have(const char *of_edges, const char *of_predecessors, const char *of_starts)
{
    return has(edges, sizeof edges, of_edges) && has(predecessors, sizeof predecessors, of_predecessors) &&
           has(starts, sizeof starts, of_starts);
}

/* Asks that a call was refused, and left the lists. */
static void edges_refused(uint64_t answer)
{
    HOLD(answer == DAPOHIRU_BAD_EDGES && DAPOHIRU_IS_REFUSAL(answer));
    HOLD(memcmp(kept_edges, edges, sizeof edges) == 0);
    HOLD(memcmp(kept_predecessors, predecessors, sizeof predecessors) == 0);
    HOLD(memcmp(kept_starts, starts, sizeof starts) == 0);
}

static void edges_of_pair_are_indexed_added_and_dropped(void)
{
    uint64_t answer;

    put_lists("011299", "999", "9999");
    answer = INDEX(3, 2);
    HOLD(answer == DAPOHIRU_ACCEPTED + 2 && DAPOHIRU_COUNT(answer) == 2);
    HOLD(have("011299", "019", "0012"));
    answer = ADD(3, 2, 0, 2);
    HOLD(answer == DAPOHIRU_ACCEPTED + 3 && DAPOHIRU_COUNT(answer) == 3);
    HOLD(have("010212", "001", "0013"));
    answer = DROP(3, 3, 0, 1);
    HOLD(answer == DAPOHIRU_ACCEPTED + 2 && DAPOHIRU_COUNT(answer) == 2);
    HOLD(have("021200", "010", "0002"));
    HOLD(DROP(3, 2, 1, 2) == DAPOHIRU_ACCEPTED + 1 && have("020000", "000", "0001"));
    HOLD(DROP(3, 1, 0, 2) == DAPOHIRU_ACCEPTED && have("000000", "000", "0000"));
}

static void changes_of_edges_are_refused_and_leave_the_lists(void)
{
    static const uint64_t high[] = {UINT64_C(1) << 16, UINT64_C(1) << 32, UINT64_C(1) << 63};
    size_t k;

    /* the edges of PAIR, with room for a third */
    put_lists("011299", "019", "0012");
    edges_refused(ADD(3, 2, 0, 1));
    edges_refused(DROP(3, 2, 1, 0));
    edges_refused(ADD(3, 2, 3, 0));
    edges_refused(ADD(3, 2, 0, 3));
    edges_refused(ADD(2, 2, 0, 0));
    edges_refused(ADD(4, 2, 0, 0));
    edges_refused(ADD(3, 1, 0, 0));
    edges_refused(DROP(3, 3, 0, 1));
    edges_refused(ADD(3, 2049, 0, 0));
    edges_refused(DROP(0, 2, 0, 1));
    edges_refused(DROP(513, 2, 0, 1));
    edges_refused(INDEX(0, 2));
    edges_refused(INDEX(513, 2));
    edges_refused(INDEX(3, 2049));
    for (k = 0; k < sizeof high / sizeof *high; k++) {
        edges_refused(ADD(3, 2, high[k], 0));
        edges_refused(ADD(3, 2, 0, high[k]));
        edges_refused(ADD(high[k] + 3, 2, 0, 0));
        edges_refused(ADD(3, high[k] + 2, 0, 0));
        edges_refused(DROP(3, 2, high[k], 1));
        edges_refused(DROP(3, 2, 0, high[k] + 1));
        edges_refused(INDEX(high[k] + 3, 2));
        edges_refused(INDEX(3, high[k] + 2));
    }
    /* a list is too short by one number */
    put_lists("01129", "019", "0012");
    edges_refused(ADD(3, 2, 0, 0));
    put_lists("011299", "01", "0012");
    edges_refused(ADD(3, 2, 0, 0));
    put_lists("011299", "019", "001");
    edges_refused(ADD(3, 2, 0, 0));
    edges_refused(DROP(3, 2, 0, 1));
    edges_refused(INDEX(3, 2));
    put_lists("011", "01", "0012");
    edges_refused(DROP(3, 2, 0, 1));
    edges_refused(INDEX(3, 2));
    put_lists("0112", "0", "0012");
    edges_refused(DROP(3, 2, 0, 1));
    edges_refused(INDEX(3, 2));
    /* edges that do not ascend, or stand twice, and another index */
    put_lists("120199", "019", "0012");
    edges_refused(ADD(3, 2, 0, 0));
    edges_refused(INDEX(3, 2));
    put_lists("010199", "009", "0022");
    edges_refused(DROP(3, 2, 0, 1));
    edges_refused(INDEX(3, 2));
    put_lists("011299", "109", "0012");
    edges_refused(ADD(3, 2, 0, 0));
    put_lists("011299", "019", "0022");
    edges_refused(DROP(3, 2, 0, 1));
    put_lists("011299", "019", "0013");
    edges_refused(DROP(3, 2, 0, 1));
}

static void edges_are_2048_at_most(void)
{
    uint64_t answer;
    uint16_t from;

    /* four edges from each node: to 0, 1, 2 and 3 */
    edges_len = DAPOHIRU_EDGES_LEN;
    predecessors_len = DAPOHIRU_PREDECESSORS_LEN;
    starts_len = DAPOHIRU_STARTS_LEN;
    memset(edges, FILL, sizeof edges);
    memset(predecessors, FILL, sizeof predecessors);
    memset(starts, FILL, sizeof starts);
    for (from = 0; from < 2048; from++) {
        edges[2 * from] = (uint16_t)(from / 4);
        edges[2 * from + 1] = (uint16_t)(from % 4);
    }
    HOLD(INDEX(512, 2048) == DAPOHIRU_ACCEPTED + 2048);
    HOLD(starts[0] == 0 && starts[1] == 512 && starts[4] == 2048 && starts[512] == 2048);
    HOLD(predecessors[511] == 511 && predecessors[512] == 0 && predecessors[2047] == 511);
    HOLD(all((const uint8_t *)(starts + DAPOHIRU_STARTS_LEN), PAST * sizeof *starts, FILL));
    HOLD(all((const uint8_t *)(predecessors + DAPOHIRU_PREDECESSORS_LEN), PAST * sizeof *starts, FILL));
    edges_len += 2;
    predecessors_len += 1;
    HOLD(ADD(512, 2048, 0, 4) == DAPOHIRU_BAD_EDGES);
    answer = DROP(512, 2048, 0, 0);
    HOLD(DAPOHIRU_COUNT(answer) == 2047 && edges[0] == 0 && edges[1] == 1 && predecessors[0] == 1);
    HOLD(edges[4094] == 0 && edges[4095] == 0 && predecessors[2047] == 0 && starts[512] == 2047);
    answer = ADD(512, 2047, 511, 511);
    HOLD(DAPOHIRU_COUNT(answer) == 2048 && edges[4094] == 511 && edges[4095] == 511);
    HOLD(predecessors[2047] == 511 && starts[511] == 2047 && starts[512] == 2048);
    HOLD(all((const uint8_t *)(edges + DAPOHIRU_EDGES_LEN), PAST * sizeof *edges, FILL));
}

int main(void)
{
    lead = '0';
    pair_is_planned_listed_and_checked();
    calls_that_may_come_back_in_are_planned_and_checked();
    files_and_buffers_are_refused_by_number();
    rule_of_pair_is_taken();
    rules_of_other_sizes_are_taken();
    rule_of_pair_is_made_from_rows_or_refused_by_number();
    rule_of_256_rows_is_made();
    plans_are_priced_or_refused_by_number();
    plans_are_priced_by_a_file_or_refused_by_number();
    lead = ' ';
    pair_is_planned_listed_and_checked();
    calls_that_may_come_back_in_are_planned_and_checked();
    files_and_buffers_are_refused_by_number();
    rule_of_pair_is_taken();
    rules_of_other_sizes_are_taken();
    rule_of_pair_is_made_from_rows_or_refused_by_number();
    rule_of_256_rows_is_made();
    plans_are_refused_by_number();
    plans_are_priced_or_refused_by_number();
    plans_are_priced_by_a_file_or_refused_by_number();
    events_are_taken_by_the_rule_of_the_job();
    events_are_taken_by_the_rule_of_the_rows();
    rule_is_made_from_an_expression_or_refused_by_number();
    events_are_taken_by_the_rule_of_the_expression();
    events_move_the_record_and_count_alarms();
    edges_of_pair_are_indexed_added_and_dropped();
    changes_of_edges_are_refused_and_leave_the_lists();
    edges_are_2048_at_most();
    printf("%d tests, %d failed\n", tests, failures);
    return failures == 0 && tests > 0 ? EXIT_SUCCESS : EXIT_FAILURE;
}
