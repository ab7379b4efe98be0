/*
 * Planning, listing, the plan check, the journal price of a plan by the house table and by a price file, the rule of a
 * job, the rule that rows make, the rule that an expression makes, the event step of the monitor, and the index of what
 * leads to each node, made, with an edge more and with an edge less: the twelve calls of the static library
 * libdapohiru.a, for C (from C99 on) and C++.
 *
 * Each call gets buffers, each as a pointer and a length, and returns one 64-bit number. Buffers are of bytes, but for
 * the lists of the calls on edges, which are of 16-bit numbers: their length counts numbers, not bytes. A number
 * from 1 to 22, or 28, is a refusal. Every other answer has DAPOHIRU_ACCEPTED added.
 *
 * The caller owns every buffer, before and after. Buffers marked const are only read. A pointer is valid
 * for its length; where the length is 0 it is not looked at, and may be anything but NULL. Buffers that a
 * call writes to overlap no other, and nothing else holds them during the call.
 *
 * The calls keep nothing between them, allocate nothing, and read and write no file. Any number of threads
 * may be in them at once, each with a work buffer, a record and lists of its own.
 *
 * The work buffer, of at least DAPOHIRU_WORK_LEN bytes, may hold anything. Refusals 1 and 2 leave it as it
 * was. After any other answer its first DAPOHIRU_WORK_LEN bytes are zero, and the rest is as it was.
 */
#ifndef DAPOHIRU_H
#define DAPOHIRU_H

#include <stddef.h>
#include <stdint.h>

#ifdef __cplusplus
extern "C" {
#endif

/* Lengths in bytes. A job file, volume file, text of rows or expression may be shorter, and the three buffers may be longer. */
#define DAPOHIRU_JOB_LEN 49914     /* the longest job file */
#define DAPOHIRU_VOLUMES_LEN 7168  /* the longest volume file: 14 bytes for each of 512 nodes */
#define DAPOHIRU_PRICES_LEN 224    /* a price file: 14 bytes for each of 16 symbols */
#define DAPOHIRU_ROWS_LEN 8192     /* the longest text of rule rows: 32 bytes for each of 256 rows */
#define DAPOHIRU_EXPRESSION_LEN 64 /* the longest expression */
#define DAPOHIRU_WORK_LEN 65536    /* the shortest work buffer */
#define DAPOHIRU_PLAN_LEN 512      /* the shortest plan buffer for planning */
#define DAPOHIRU_LISTING_LEN 32768 /* the shortest listing buffer */
#define DAPOHIRU_RULE_LEN 256      /* a rule: sixteen rows of sixteen next states */
#define DAPOHIRU_RECORD_LEN 16     /* a record: state, then alarm total, lowest byte first */

/* Lengths in numbers, of the lists of the calls on edges that are long enough for every graph. */
#define DAPOHIRU_EDGES_LEN 4096        /* from and to of 2,048 edges */
#define DAPOHIRU_PREDECESSORS_LEN 2048 /* a predecessor for each of 2,048 edges */
#define DAPOHIRU_STARTS_LEN 513        /* the starts of 512 nodes, and the end of the last */

/* Answers. */
#define DAPOHIRU_ACCEPTED (UINT64_C(1) << 48)
#define DAPOHIRU_FAITHFUL DAPOHIRU_ACCEPTED
#define DAPOHIRU_DIFFERENT (DAPOHIRU_ACCEPTED + 1)
#define DAPOHIRU_QUIET DAPOHIRU_ACCEPTED
#define DAPOHIRU_ALARM (DAPOHIRU_ACCEPTED + 1)

/* Whether an answer is a refusal. */
#define DAPOHIRU_IS_REFUSAL(answer) ((answer) < DAPOHIRU_ACCEPTED)

/* The counts in the answer of accepted planning. */
#define DAPOHIRU_POINTS(answer) ((answer) >> 32 & 0xffff)
#define DAPOHIRU_WATCHED(answer) ((answer) >> 16 & 0xffff)
#define DAPOHIRU_PASSES(answer) ((answer) & 0xffff)

/* The length in the answer of accepted listing. */
#define DAPOHIRU_LENGTH(answer) ((answer) - DAPOHIRU_ACCEPTED)

/* The price in the answer of accepted pricing. */
#define DAPOHIRU_CENTS(answer) ((answer) - DAPOHIRU_ACCEPTED)

/* The edges in the answer of an accepted call on edges. */
#define DAPOHIRU_COUNT(answer) ((answer) - DAPOHIRU_ACCEPTED)

/*
 * The numbers in the answer of dapohiru_rule, when it is accepted: the states, symbols and finals of dapohiru_event.
 * DAPOHIRU_STATES and DAPOHIRU_SYMBOLS are not for the number of dapohiru_expression, which has
 * DAPOHIRU_EXPRESSION_STATES, and whose symbols are those that it was given.
 */
#define DAPOHIRU_STATES(answer) ((answer) >> 32 & 0xffff)
#define DAPOHIRU_SYMBOLS(answer) ((answer) >> 16 & 0xffff)
#define DAPOHIRU_FINALS(answer) ((answer) & 0xffff)

/* The states in the answer of dapohiru_expression, when it is accepted; DAPOHIRU_FINALS has its final states. */
#define DAPOHIRU_EXPRESSION_STATES(answer) ((answer) >> 16 & 0xffff)

/*
 * Refusals. The lowest that applies is returned; the lines of a file are tested in turn, 3 to 8 on each.
 * A field is a number in six columns: spaces or none, then digits, of which the first may be zeros.
 * A node is of kind 0 (plain), 1 (event), 2 (call) or 3 (call that may come back in).
 */
#define DAPOHIRU_FILE_TOO_LONG 1     /* the file is longer than DAPOHIRU_JOB_LEN */
#define DAPOHIRU_BUFFER_TOO_SHORT 2  /* a work, plan or listing buffer is shorter than stated above */
#define DAPOHIRU_LINE_MISSING 3      /* the file ends where a line is due */
#define DAPOHIRU_LINE_MALFORMED 4    /* the line due has not its letter, its fields or its end byte */
#define DAPOHIRU_BAD_SIZES 5         /* a J number is outside its limits */
#define DAPOHIRU_BAD_RULE_LINE 6     /* an R line */
#define DAPOHIRU_BAD_NODE_LINE 7     /* a P line */
#define DAPOHIRU_BAD_EDGE_LINE 8     /* an F line names a node of N or more, or does not ascend */
#define DAPOHIRU_BYTES_FOLLOW 9      /* bytes follow the last line */
#define DAPOHIRU_NO_ENTRY 10         /* no node is an entry */
#define DAPOHIRU_BAD_PLAN_LENGTH 11  /* a plan to be checked or priced is not exactly one byte for each node */
#define DAPOHIRU_BAD_PLAN_BYTE 12    /* a plan byte is above 1, or is 1 at a node that is no event */
#define DAPOHIRU_BAD_RULE 13         /* the event step's rule: its length, S, A, a next or a final state; a rule buffer's length */
#define DAPOHIRU_BAD_SYMBOL 14       /* the event's symbol is A or more */
#define DAPOHIRU_BAD_RECORD 15       /* the record's length is not 16, or its state is S or more */
#define DAPOHIRU_BAD_VOLUMES 16      /* the volume file is not exactly one V line for each node, in order */
#define DAPOHIRU_BAD_ROWS 17         /* rule rows: their S, A or final set, their count, a row's form, a number; a first above a last */
#define DAPOHIRU_ROWS_OVERLAP 18     /* two rule rows name one pair of state and symbol, also with one next state */
#define DAPOHIRU_ROW_MISSING 19      /* a pair of state and symbol has no rule row */
#define DAPOHIRU_BAD_EXPRESSION 20   /* an expression: its A, its length, its grammar, a letter past A */
#define DAPOHIRU_TOO_MANY_STATES 21  /* an expression of more than 16 states */
#define DAPOHIRU_BAD_EDGES 22        /* an edge, the edges or their index, N, their count, a list's length */
#define DAPOHIRU_BAD_PRICES 28       /* the price file is not exactly one B line for each of 16 symbols, in order */

/*
 * Plans: writes one byte for each node of the job, 1 at a watched point and 0 at all else, to the start of
 * plan, and no other byte of it. Returns DAPOHIRU_ACCEPTED plus event nodes times 2^32, watched points times
 * 2^16, and passes. Refusals 1 to 10 leave plan as it was.
 */
uint64_t dapohiru_plan(const uint8_t *job, size_t job_len, uint8_t *work, size_t work_len, uint8_t *plan, size_t plan_len);

/*
 * Lists: writes the W and T lines of the job to the start of listing, and no other byte of it; there is no
 * zero byte at their end. Returns DAPOHIRU_ACCEPTED plus their length. Refusals 1 to 10 leave listing as it was.
 */
uint64_t dapohiru_list(const uint8_t *job, size_t job_len, uint8_t *work, size_t work_len, uint8_t *listing, size_t listing_len);

/*
 * Checks a plan of exactly one byte for each node. Returns DAPOHIRU_FAITHFUL or DAPOHIRU_DIFFERENT, or a refusal,
 * 1 to 12.
 */
uint64_t dapohiru_check(const uint8_t *job, size_t job_len, const uint8_t *plan, size_t plan_len, uint8_t *work, size_t work_len);

/*
 * Prices a plan of exactly one byte for each node: what the journal lines of its watched points cost a day. The
 * volume file has a V line for each node in order, with the node and its events a day, 0 to 999,999, in fields of
 * six columns as those of the job file. A thousand events of symbol s cost 20 + 5 s cents. Returns
 * DAPOHIRU_ACCEPTED plus the cents, a part of a cent in the sum counted as a cent; or a refusal, 1, 3 to 12, or 16,
 * which comes last. The call is lent no work buffer, so that there is no 2: it takes less than 73,728 bytes of
 * its caller's stack.
 */
uint64_t dapohiru_price(const uint8_t *job, size_t job_len, const uint8_t *plan, size_t plan_len, const uint8_t *volumes, size_t volumes_len);

/*
 * Prices a plan as dapohiru_price does, with the prices of a price file in place of 20 + 5 s cents. The file has a B
 * line for each symbol from 0 to 15 in order, however many the job has, with the symbol and what a thousand events of
 * it cost, 0 to 9,999 cents, in fields of six columns as those of the job file. Returns DAPOHIRU_ACCEPTED plus the
 * cents, or a refusal of dapohiru_price, or 28, which comes last. The greatest price is 5,119,482,881 cents, which
 * 32 bits do not hold. The call takes less than 73,728 bytes of its caller's stack.
 */
uint64_t dapohiru_price_by(const uint8_t *job, size_t job_len, const uint8_t *plan, size_t plan_len, const uint8_t *volumes, size_t volumes_len, const uint8_t *prices, size_t prices_len);

/*
 * Takes the rule of the job, for dapohiru_event: writes all DAPOHIRU_RULE_LEN bytes of rule, the next state of state q
 * on symbol a at 16 * q + a, and 0 past the job's states and symbols. Returns DAPOHIRU_ACCEPTED plus states times 2^32,
 * symbols times 2^16, and the set of final states. Refusals 1 to 10, and then 13 where rule_len is not
 * DAPOHIRU_RULE_LEN, leave rule as it was.
 */
uint64_t dapohiru_rule(const uint8_t *job, size_t job_len, uint8_t *work, size_t work_len, uint8_t *rule, size_t rule_len);

/*
 * Makes a rule from rows, for dapohiru_event with the same states, symbols and finals: writes all DAPOHIRU_RULE_LEN bytes
 * of rule, the next state of state q on symbol a at 16 * q + a, and 0 past the states and symbols. rows is a text of at
 * most 256 lines of 32 bytes: the letter Q, the first and last state, the first and last symbol and the next state in
 * fields of six columns as those of the job file, and the byte 10. Together they name each pair of a state below states
 * and a symbol below symbols just once, in any order. Returns DAPOHIRU_ACCEPTED. 13 where rule_len is not
 * DAPOHIRU_RULE_LEN, tested before all else; then 17 for whatever is wrong with the numbers given, with the text or with
 * any of its rows, also where rows_len is above DAPOHIRU_ROWS_LEN or no whole count of rows; then 18; then 19, also for
 * a text without a row. They leave rule as it was. The call is lent no work buffer.
 */
uint64_t dapohiru_rows(const uint8_t *rows, size_t rows_len, uint64_t states, uint64_t symbols, uint64_t finals, uint8_t *rule, size_t rule_len);

/*
 * Makes a rule from an expression, for dapohiru_event with the same symbols: an event alarms exactly when the events so
 * far, from state 0 on, form a word of the expression's language. The symbols are the letters a to p; a star binds
 * first, then following on, then the bar; parentheses group, and stars may follow one another. State 0 is the start,
 * which is not final and which no event leads back to; every other state is a set of letters of the text, those that the
 * last event can stand for in a word that begins with the events so far, numbered as first met, breadth first and
 * symbols ascending. Writes all DAPOHIRU_RULE_LEN bytes of rule, the next state of state q on symbol a at 16 * q + a, and
 * 0 past the states and symbols. Returns DAPOHIRU_ACCEPTED plus states times 2^16 and the set of final states. 13 where
 * rule_len is not DAPOHIRU_RULE_LEN, tested before all else; then 20 for symbols outside 1 to 16, a text_len above
 * DAPOHIRU_EXPRESSION_LEN, a text that is empty or outside the grammar, or a letter past symbols; then 21. They leave
 * rule as it was. The call is lent no work buffer: it takes less than 24,576 bytes of its caller's stack.
 */
uint64_t dapohiru_expression(const uint8_t *text, size_t text_len, uint64_t symbols, uint8_t *rule, size_t rule_len);

/*
 * Takes one event: moves the record to the next state, and raises its alarm total by one at an alarm; the total
 * stays at 2^64-1 once there. The next state of state q on symbol a is rule[16 * q + a]; bytes past S rows and A
 * columns have no meaning. finals has bit q for a final state q. Returns DAPOHIRU_QUIET or DAPOHIRU_ALARM. Refusals 13
 * to 15 leave the record as it was.
 *
 * Where each argument comes from, so that the events are those of the job that was planned:
 *   rule     the bytes that dapohiru_rule writes for the job file
 *   states   DAPOHIRU_STATES of its answer: answer >> 32 & 0xffff
 *   symbols  DAPOHIRU_SYMBOLS of its answer: answer >> 16 & 0xffff
 *   finals   DAPOHIRU_FINALS of its answer: answer & 0xffff
 *   symbol   for a point the second field of its W line (dapohiru_list); for an event of a call word or an after word
 *            the symbol that is reported
 *   rec      DAPOHIRU_RECORD_LEN bytes: at first a state of the entry set of the node where the procedure is entered,
 *            and any alarm total, 0 for a new one; then what the call before left. The entry set, bit q for state q,
 *            is the fourth field of the node's P line: in a file that is accepted the six columns from byte
 *            26 + states * (14 + 6 * symbols) + 38 * node + 19 on
 * A rule and numbers of dapohiru_rule are never refused as 13, and no more is a rule of dapohiru_rows with the numbers
 * that it was given, or one of dapohiru_expression with the symbols that it was given, DAPOHIRU_EXPRESSION_STATES and
 * DAPOHIRU_FINALS of its answer.
 */
uint64_t dapohiru_event(const uint8_t *rule, size_t rule_len, uint64_t states, uint64_t symbols, uint64_t finals, uint64_t symbol, uint8_t *rec, size_t rec_len);

/*
 * Adds an edge, which leads from node `from` to node `to`, to a graph. The graph has 1 to 512 nodes (`nodes`) and at
 * most 2,048 edges (`count`), which are held with the index of what leads to each node in three lists of 16-bit
 * numbers. A list's length counts numbers, not bytes; the lists may be longer than what they hold, and the numbers past
 * it are never looked at.
 *   edges         the first 2 * count numbers: from, to, from, to, .., strictly ascending by from and then by to, all
 *                 below nodes
 *   predecessors  the first count numbers: the nodes with an edge to node 0, ascending, then those to node 1, ..
 *   starts        the first nodes + 1 numbers: the predecessors of node n stand from place starts[n] to before place
 *                 starts[n + 1]; starts[0] is 0, and starts[nodes] is count
 * Returns DAPOHIRU_ACCEPTED plus count + 1. The lists are then those of the edges with this one in its place; all past
 * them is as it was. 22, and no other refusal, where
 *   - nodes is outside 1 to 512, or from or to is nodes or more (a number is never taken modulo 65,536);
 *   - count is 2,048 or more, or the edge is there;
 *   - edges_len is below 2 * count + 2, predecessors_len below count + 1, or starts_len below nodes + 1;
 *   - the lists are not edges and their index as said above.
 * A refusal leaves the three lists as they were. The call is lent no work buffer, and takes less than 8,192 bytes of its
 * caller's stack.
 */
uint64_t dapohiru_add_edge(uint16_t *edges, size_t edges_len, uint16_t *predecessors, size_t predecessors_len, uint16_t *starts, size_t starts_len, uint64_t nodes, uint64_t count, uint64_t from, uint64_t to);

/*
 * Drops the edge from node `from` to node `to` of such lists. Returns DAPOHIRU_ACCEPTED plus count - 1. The lists are
 * then those of the other edges, and the places that are free at their ends are zero: edges[2 * count - 2],
 * edges[2 * count - 1] and predecessors[count - 1]; all past them is as it was. 22, and no other refusal, where
 *   - nodes is outside 1 to 512, or from or to is nodes or more;
 *   - count is above 2,048, or the edge is not there;
 *   - edges_len is below 2 * count, predecessors_len below count, or starts_len below nodes + 1;
 *   - the lists are not edges and their index.
 * A refusal leaves the three lists as they were. The call takes less than 8,192 bytes of its caller's stack.
 */
uint64_t dapohiru_drop_edge(uint16_t *edges, size_t edges_len, uint16_t *predecessors, size_t predecessors_len, uint16_t *starts, size_t starts_len, uint64_t nodes, uint64_t count, uint64_t from, uint64_t to);

/*
 * Makes the index of edges afresh, for the two calls above: writes the first count numbers of predecessors and the first
 * nodes + 1 of starts, which may hold anything before, and no other. Returns DAPOHIRU_ACCEPTED plus count. 22, and no
 * other refusal, where
 *   - nodes is outside 1 to 512, or count is above 2,048;
 *   - edges_len is below 2 * count, predecessors_len below count, or starts_len below nodes + 1;
 *   - the edges do not strictly ascend, or an end of one is nodes or more.
 * A refusal leaves both lists as they were. The call takes less than 8,192 bytes of its caller's stack.
 */
uint64_t dapohiru_index_edges(const uint16_t *edges, size_t edges_len, uint16_t *predecessors, size_t predecessors_len, uint16_t *starts, size_t starts_len, uint64_t nodes, uint64_t count);

#ifdef __cplusplus
}
#endif

#endif
