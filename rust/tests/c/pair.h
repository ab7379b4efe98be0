/*
 * PAIR, the job of examples/pair.job, its listing, its rule in rows, an expression over its symbols, a volume file with a thousand events at each node,
 * and a price file in which symbol 0 costs 12 cents and symbol 2 costs 150.
 */
static const char PAIR[] = "J     3     3     3     2\n"
                           "R     0     0     1     0     0\n"
                           "R     1     0     1     0     2\n"
                           "R     2     1     1     0     2\n"
                           "P     0     1     0     1     0     0\n"
                           "P     1     1     0     0     0     0\n"
                           "P     2     1     2     0     1     0\n"
                           "F     0     1\n"
                           "F     1     2\n";
static const char LINES[] = "W     0     0     1     1     1     0\n"
                            "W     1     0     2     2     1     1\n"
                            "W     2     2     2     1     0     1\n"
                            "T     3     2     2\n";
static const char ROWS[] = "Q     0     2     0     0     1\n"
                           "Q     0     2     1     1     0\n"
                           "Q     0     0     2     2     0\n"
                           "Q     1     2     2     2     2\n";
static const char EXPRESSION[] = "a(a|c)*c";
static const char VOLUMES[] = "V     0  1000\n"
                              "V     1  1000\n"
                              "V     2  1000\n";
static const char PRICES[] = "B     0    12\n"
                             "B     1     0\n"
                             "B     2   150\n"
                             "B     3  9999\n"
                             "B     4     1\n"
                             "B     5     2\n"
                             "B     6     3\n"
                             "B     7     4\n"
                             "B     8     5\n"
                             "B     9     6\n"
                             "B    10     7\n"
                             "B    11     8\n"
                             "B    12     9\n"
                             "B    13    10\n"
                             "B    14    11\n"
                             "B    15    13\n";
#define PAIR_LEN (sizeof PAIR - 1)
#define LINES_LEN (sizeof LINES - 1)
#define ROWS_LEN (sizeof ROWS - 1)
#define EXPRESSION_LEN (sizeof EXPRESSION - 1)
#define VOLUMES_LEN (sizeof VOLUMES - 1)
#define PRICES_LEN (sizeof PRICES - 1)
