/*
 * A service in C: plans a job, prices the plan, by a price file if it is given one, takes the job's rule and the symbols
 * of its points, then takes the events of one walk on two records, one with all points watched and one under the plan.
 * Nothing of the job is written here, but the walk's nodes: those of PAIR. The walk begins in the state that its first
 * node admits; a first node that is no entry, or that admits several states, is refused.
 *
 *     cc -std=c99 -Iinclude examples/service.c target/staticlib/libdapohiru.a -o service
 *     ./service examples/pair.job examples/pair.volumes
 *     ./service examples/pair.job examples/pair.volumes examples/association.prices
 */
#include "dapohiru.h"

#include <inttypes.h>
#include <stdio.h>
#include <string.h>

/* The rule of the job, with the answer that has its numbers. */
static uint8_t rule[DAPOHIRU_RULE_LEN];
static uint64_t numbers;

/* The W and T lines of the job. */
static uint8_t listing[DAPOHIRU_LISTING_LEN];
static size_t listing_len;

static uint64_t take(uint64_t symbol, uint8_t *rec)
{
    return dapohiru_event(rule, sizeof rule, DAPOHIRU_STATES(numbers), DAPOHIRU_SYMBOLS(numbers), DAPOHIRU_FINALS(numbers),
                          symbol, rec, DAPOHIRU_RECORD_LEN);
}

/* The number in a field of six columns. */
static uint64_t field(const uint8_t *columns)
{
    uint64_t number = 0;
    int k;
    for (k = 0; k < 6; k++)
        if (columns[k] != ' ')
            number = 10 * number + (uint64_t)(columns[k] - '0');
    return number;
}

/* The symbol of a point, from its W line: node and symbol are its first fields. Whether the node is a point. */
static int symbol_of(size_t node, uint64_t *symbol)
{
    size_t at = 0;
    while (at < listing_len && listing[at] == 'W') {
        if (field(listing + at + 1) == node) {
            *symbol = field(listing + at + 7);
            return 1;
        }
        while (at < listing_len && listing[at++] != '\n')
            ;
    }
    return 0;
}

/*
 * The set of states that a node of an accepted job admits, empty where it is no entry: the fourth field of its P line.
 * Every line has its length: the J line 26 bytes, each R line 14 and 6 for each symbol, each P line 38.
 */
static uint64_t admitted(const uint8_t *job, size_t node)
{
    const size_t states = (size_t)DAPOHIRU_STATES(numbers), symbols = (size_t)DAPOHIRU_SYMBOLS(numbers);
    return field(job + 26 + states * (14 + 6 * symbols) + 38 * node + 19);
}

/* The state in which a walk begins at a node that admits this set. Whether it is the only one; else it is told. */
static int start_of(const char *name, size_t node, uint64_t set, uint8_t *state)
{
    const int several = (set & (set - 1)) != 0;
    *state = 0;
    if (set == 0 || several) {
        fprintf(stderr, "service: node %zu of %s %s\n", node, name,
                several ? "admits several states, and the walk begins in one of them" : "is no entry");
        return 0;
    }
    while (set >> *state != 1)
        ++*state;
    return 1;
}

/* The alarm total of a record. */
static uint64_t alarms(const uint8_t *rec)
{
    uint64_t total = 0;
    int k;
    for (k = 7; k >= 0; k--)
        total = total << 8 | rec[8 + k];
    return total;
}

/* Whether an answer is a refusal, which is told. */
static int is_refused(uint64_t answer)
{
    int refused = DAPOHIRU_IS_REFUSAL(answer);
    if (refused)
        fprintf(stderr, "service: refused %" PRIu64 "\n", answer);
    return refused;
}

/* Reads a file, up to so many bytes, and returns how many; an empty one, or one that cannot be read, is told and is 0. */
static size_t read_file(const char *name, uint8_t *bytes, size_t most)
{
    size_t len = 0;
    FILE *file = fopen(name, "rb");
    if (file != NULL) {
        len = fread(bytes, 1, most, file);
        if (ferror(file))
            len = 0;
        fclose(file);
    }
    if (len == 0)
        fprintf(stderr, "service: %s cannot be read, or is empty\n", name);
    return len;
}

int main(int argc, char **argv)
{
    /* one byte more than the longest file, so that a longer one is refused and not cut */
    static uint8_t job[DAPOHIRU_JOB_LEN + 1], volumes[DAPOHIRU_VOLUMES_LEN + 1], prices[DAPOHIRU_PRICES_LEN + 1];
    static uint8_t work[DAPOHIRU_WORK_LEN], plan[DAPOHIRU_PLAN_LEN];
    static const size_t walk[] = {0, 1, 2};
    uint8_t full[DAPOHIRU_RECORD_LEN] = {0}, planned[DAPOHIRU_RECORD_LEN] = {0};
    uint64_t answer;
    size_t job_len, volumes_len, prices_len = 0, nodes, k;
    const int has_prices = argc == 4;

    if (argc != 3 && !has_prices) {
        fprintf(stderr, "usage: service JOB VOLUMES [PRICES]\n");
        return 2;
    }
    job_len = read_file(argv[1], job, sizeof job);
    volumes_len = read_file(argv[2], volumes, sizeof volumes);
    if (has_prices)
        prices_len = read_file(argv[3], prices, sizeof prices);
    if (job_len == 0 || volumes_len == 0 || (has_prices && prices_len == 0))
        return 2;
    /* planning writes a byte for each node, 0 or 1, and no other: so the bytes that change are the nodes */
    memset(plan, 255, sizeof plan);
    answer = dapohiru_plan(job, job_len, work, sizeof work, plan, sizeof plan);
    if (is_refused(answer))
        return 2;
    printf("points %" PRIu64 ", watched %" PRIu64 ", passes %" PRIu64 "\n", DAPOHIRU_POINTS(answer),
           DAPOHIRU_WATCHED(answer), DAPOHIRU_PASSES(answer));
    for (nodes = 0; nodes < sizeof plan && plan[nodes] != 255; nodes++)
        ;
    answer = has_prices ? dapohiru_price_by(job, job_len, plan, nodes, volumes, volumes_len, prices, prices_len)
                        : dapohiru_price(job, job_len, plan, nodes, volumes, volumes_len);
    if (is_refused(answer))
        return 2;
    printf("%" PRIu64 " cents a day\n", DAPOHIRU_CENTS(answer));
    numbers = dapohiru_rule(job, job_len, work, sizeof work, rule, sizeof rule);
    answer = dapohiru_list(job, job_len, work, sizeof work, listing, sizeof listing);
    if (is_refused(numbers) || is_refused(answer))
        return 2;
    listing_len = (size_t)DAPOHIRU_LENGTH(answer);
    /* the calls have accepted the file, so that its lines are where they should be */
    if (!start_of(argv[1], *walk, *walk < nodes ? admitted(job, *walk) : 0, full))
        return 2;
    *planned = *full;
    printf("from node %zu, in state %d\n", *walk, *full);
    for (k = 0; k < sizeof walk / sizeof *walk; k++) {
        uint64_t symbol, report, under_plan = DAPOHIRU_QUIET;
        const size_t node = walk[k];
        if (!symbol_of(node, &symbol)) {
            fprintf(stderr, "service: node %zu of the walk is no point of %s\n", node, argv[1]);
            return 2;
        }
        report = take(symbol, full);
        if (plan[node] == 1)
            under_plan = take(symbol, planned);
        if (is_refused(report) || is_refused(under_plan))
            return 2;
        printf("node %zu, symbol %" PRIu64 ": full %s, under the plan %s%s\n", node, symbol,
               report == DAPOHIRU_ALARM ? "alarm" : "quiet", under_plan == DAPOHIRU_ALARM ? "alarm" : "quiet",
               plan[node] == 1 ? "" : " (not told)");
    }
    printf("alarm totals %" PRIu64 " and %" PRIu64 "\n", alarms(full), alarms(planned));
    return 0;
}
