/*
 * Lends one buffer that is a byte or more shorter than the call is told, or a list that is a number shorter, so that
 * valgrind must see the library reach past it: past job | work | plan | listing | checked | priced | volumes | prices |
 * taken | rows | made | expression | expressed | rule | record | added_edges | added_predecessors | added_starts |
 * dropped_edges | dropped_predecessors | dropped_starts | indexed_edges | indexed_predecessors | indexed_starts.
 */
#include "dapohiru.h"
#include "pair.h"

#include <stdlib.h>
#include <string.h>

/* An allocation of len bytes, or of less if it is the one that is named. */
static uint8_t *lent(const char *short_one, const char *name, size_t len, size_t less)
{
    uint8_t *bytes = (uint8_t *)calloc(strcmp(short_one, name) == 0 ? less : len, 1);
    if (bytes == NULL)
        exit(2);
    return bytes;
}

/* An allocation that holds these digits as numbers, or all but the last if it is the one that is named. */
static uint16_t *list(const char *short_one, const char *name, const char *digits)
{
    size_t len = strlen(digits) - (strcmp(short_one, name) == 0), k;
    uint16_t *numbers = (uint16_t *)malloc(len * sizeof *numbers);
    if (numbers == NULL)
        exit(2);
    for (k = 0; k < len; k++)
        numbers[k] = (uint16_t)(digits[k] - '0');
    return numbers;
}

/* Makes the calls on edges: the first three edges of a graph of three nodes lead to 1. */
static void call_on_edges(const char *name)
{
    uint16_t *edges = list(name, "added_edges", "01112100");
    uint16_t *predecessors = list(name, "added_predecessors", "0120");
    uint16_t *starts = list(name, "added_starts", "0033");
    dapohiru_add_edge(edges, 8, predecessors, 4, starts, 4, 3, 3, 0, 0);
    free(edges);
    free(predecessors);
    free(starts);
    edges = list(name, "dropped_edges", "011121");
    predecessors = list(name, "dropped_predecessors", "012");
    starts = list(name, "dropped_starts", "0033");
    dapohiru_drop_edge(edges, 6, predecessors, 3, starts, 4, 3, 3, 0, 1);
    free(edges);
    free(predecessors);
    free(starts);
    edges = list(name, "indexed_edges", "011121");
    predecessors = list(name, "indexed_predecessors", "999");
    starts = list(name, "indexed_starts", "9999");
    dapohiru_index_edges(edges, 6, predecessors, 3, starts, 4, 3, 3);
    free(edges);
    free(predecessors);
    free(starts);
}

int main(int argc, char **argv)
{
    const char *name = argc == 2 ? argv[1] : "";
    const size_t job_len = PAIR_LEN - (strcmp(name, "job") == 0);
    const size_t volumes_len = VOLUMES_LEN - (strcmp(name, "volumes") == 0);
    const size_t prices_len = PRICES_LEN - (strcmp(name, "prices") == 0);
    const size_t rows_len = ROWS_LEN - (strcmp(name, "rows") == 0);
    const size_t expression_len = EXPRESSION_LEN - (strcmp(name, "expression") == 0);
    uint8_t *job = lent(name, "job", PAIR_LEN, PAIR_LEN - 1);
    uint8_t *work = lent(name, "work", DAPOHIRU_WORK_LEN, DAPOHIRU_WORK_LEN - 1);
    uint8_t *plan = lent(name, "plan", DAPOHIRU_PLAN_LEN, 2);
    uint8_t *listing = lent(name, "listing", DAPOHIRU_LISTING_LEN, LINES_LEN - 1);
    uint8_t *checked = lent(name, "checked", 3, 2);
    uint8_t *priced = lent(name, "priced", 3, 2);
    uint8_t *volumes = lent(name, "volumes", VOLUMES_LEN, VOLUMES_LEN - 1);
    uint8_t *prices = lent(name, "prices", PRICES_LEN, PRICES_LEN - 1);
    uint8_t *taken = lent(name, "taken", DAPOHIRU_RULE_LEN, DAPOHIRU_RULE_LEN - 1);
    uint8_t *rows = lent(name, "rows", ROWS_LEN, ROWS_LEN - 1);
    uint8_t *made = lent(name, "made", DAPOHIRU_RULE_LEN, DAPOHIRU_RULE_LEN - 1);
    uint8_t *expression = lent(name, "expression", EXPRESSION_LEN, EXPRESSION_LEN - 1);
    uint8_t *expressed = lent(name, "expressed", DAPOHIRU_RULE_LEN, DAPOHIRU_RULE_LEN - 1);
    uint8_t *rule = lent(name, "rule", DAPOHIRU_RULE_LEN, DAPOHIRU_RULE_LEN - 1);
    uint8_t *rec = lent(name, "record", DAPOHIRU_RECORD_LEN, DAPOHIRU_RECORD_LEN - 1);

    memcpy(job, PAIR, job_len);
    memcpy(volumes, VOLUMES, volumes_len);
    memcpy(prices, PRICES, prices_len);
    memcpy(rows, ROWS, rows_len);
    memcpy(expression, EXPRESSION, expression_len);
    dapohiru_plan(job, PAIR_LEN, work, DAPOHIRU_WORK_LEN, plan, DAPOHIRU_PLAN_LEN);
    dapohiru_list(job, PAIR_LEN, work, DAPOHIRU_WORK_LEN, listing, DAPOHIRU_LISTING_LEN);
    dapohiru_check(job, PAIR_LEN, checked, 3, work, DAPOHIRU_WORK_LEN);
    dapohiru_price(job, PAIR_LEN, priced, 3, volumes, VOLUMES_LEN);
    dapohiru_price_by(job, PAIR_LEN, priced, 3, volumes, VOLUMES_LEN, prices, PRICES_LEN);
    dapohiru_rule(job, PAIR_LEN, work, DAPOHIRU_WORK_LEN, taken, DAPOHIRU_RULE_LEN);
    dapohiru_rows(rows, ROWS_LEN, 3, 3, 4, made, DAPOHIRU_RULE_LEN);
    dapohiru_expression(expression, EXPRESSION_LEN, 3, expressed, DAPOHIRU_RULE_LEN);
    dapohiru_event(rule, DAPOHIRU_RULE_LEN, 16, 16, 0, 15, rec, DAPOHIRU_RECORD_LEN);
    call_on_edges(name);
    free(job);
    free(work);
    free(plan);
    free(listing);
    free(checked);
    free(priced);
    free(volumes);
    free(prices);
    free(taken);
    free(rows);
    free(made);
    free(expression);
    free(expressed);
    free(rule);
    free(rec);
    return 0;
}
