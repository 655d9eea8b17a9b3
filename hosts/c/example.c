/*
  Reads order records, each argument one in hexadecimal, and takes a message
  through the link of each: append, weigh, encode, damage, strip. Then it
  collects the events of each and prints the first of them, lists its paths
  (how many there are of each weight, and the heaviest of them), counts those
  that pass the check unseen, and prints the row of the best polynomial. At last
  it quotes the row of the next shorter length from the same order's events, and
  prints the row of the polynomial for both lengths.
  Without arguments it takes the eight records below.
*/
#include <inttypes.h>
#include <stdio.h>
#include <stdlib.h>
#include <string.h>

#include "dohvrin.h"

/* The layout that the library was compiled with. */
_Static_assert(sizeof(struct dohvrin_answer) == 32, "four 64-bit numbers");
_Static_assert(offsetof(struct dohvrin_answer, high) == 24, "without gaps");
_Static_assert(sizeof(struct dohvrin_order) == 80, "ten 64-bit numbers");
_Static_assert(offsetof(struct dohvrin_order, generators) == 48, "without gaps");
_Static_assert(sizeof(struct dohvrin_order_answer) == 88, "eleven 64-bit numbers");
_Static_assert(offsetof(struct dohvrin_order_answer, order) == 8, "without gaps");
_Static_assert(sizeof(struct dohvrin_event) == 40, "five 64-bit numbers");
_Static_assert(offsetof(struct dohvrin_event, high) == 32, "without gaps");
_Static_assert(sizeof(struct dohvrin_row) == 40, "five 64-bit numbers");
_Static_assert(offsetof(struct dohvrin_row, shared) == 32, "without gaps");
_Static_assert(sizeof(struct dohvrin_part) == 24, "three 64-bit numbers");
_Static_assert(offsetof(struct dohvrin_part, numbers) == 16, "without gaps");

enum { MOST_BYTES = 64, MOST_OUTPUT = 4 * (128 + 8), ENTRIES = 16000, PATHS = 16000, SHOWN = 5 };

/* Lent to one call after another, none of which needs what they hold. */
static struct dohvrin_event events[ENTRIES];
static uint64_t paths[2 * PATHS];
static uint64_t counts[DOHVRIN_COUNTS];
static uint64_t undetected[DOHVRIN_COUNTS];
static uint64_t work[DOHVRIN_WORK];
static uint8_t text[DOHVRIN_TEXT];
static const struct dohvrin_tables tables = {
    .events = events, .event_entries = ENTRIES,
    .paths = paths, .path_numbers = 2 * PATHS,
    .plain = counts, .plain_entries = DOHVRIN_COUNTS,
    .undetected = undetected, .undetected_entries = DOHVRIN_COUNTS,
    .work = work, .work_numbers = DOHVRIN_WORK,
};

static const char *const records[] = {
    "000A01020103020500010003", /* n 2, v 1, N 3, m 2, d 5, generators 1, 3 */
    "000A01020104020700010003", /* n 2, v 1, N 4, m 2, d 7, generators 1, 3 */
    "000A01020104020400010003", /* the same with d = 4 */
    "000A010203460612000B000F", /* n 2, v 3, N 70, m 6, d 18, generators 13, 17 octal */
    "000A02020103020600010003", /* the first on a terminated link, with d = 6 */
    "000A01020181020700010003", /* the second with N = 129 */
    "000A01020104020700030003", /* the second with generators 3, 3, which share x+1 */
    "000A03020104020700010003", /* the second with version 3, which is no kind of link */
};

/* The bytes of a text of hexadecimal digits, two a byte; 0 where it is none. */
static int read_hex(const char *hex, uint8_t *bytes, size_t *size)
{
    size_t digits = strlen(hex);

    if (digits % 2 != 0 || digits / 2 > MOST_BYTES
        || strspn(hex, "0123456789abcdefABCDEF") != digits)
        return 0;
    *size = digits / 2;
    for (size_t i = 0; i < *size; i++) {
        const char pair[3] = {hex[2 * i], hex[2 * i + 1], '\0'};
        bytes[i] = (uint8_t)strtoul(pair, NULL, 16);
    }
    return 1;
}

static void print_word(const char *name, uint64_t low, uint64_t high)
{
    printf("  %-8s 0x%016" PRIx64 "%016" PRIx64 "\n", name, high, low);
}

/* The steps of a word's walk: a terminated link has v more, for the zeros after it. */
static uint64_t steps_of(struct dohvrin_order order)
{
    return order.version == DOHVRIN_TERMINATED ? order.bits + order.v : order.bits;
}

/* Weight and codeword of a word under the order's code. */
static void print_code(struct dohvrin_order order, uint64_t low, uint64_t high)
{
    uint8_t output[MOST_OUTPUT];
    struct dohvrin_answer weight = dohvrin_weigh(order, low, high);
    uint64_t refusal = dohvrin_encode(order, low, high, output, sizeof output);

    if (weight.refusal != 0 || refusal != 0) {
        printf("  refused: %" PRIu64 " %" PRIu64 "\n", weight.refusal, refusal);
        return;
    }
    printf("  weight   %" PRIu64 "\n  codeword ", weight.value);
    for (size_t i = 0; i < order.n * steps_of(order); i++)
        putchar('0' + output[i]);
    putchar('\n');
}

static void print_stripped(struct dohvrin_order order, uint64_t polynomial,
                           uint64_t low, uint64_t high)
{
    struct dohvrin_answer a = dohvrin_strip(order.bits, order.m, polynomial, low, high);

    if (a.refusal != 0)
        printf("  refused: %" PRIu64 "\n", a.refusal);
    else if (a.value != 0)
        printf("  damaged, remainder 0x%" PRIx64 "\n", a.value);
    else
        print_word("message", a.low, a.high);
}

/* x^m + x + 1, or x + 1 for m = 1. */
static uint64_t polynomial_of(struct dohvrin_order order)
{
    return UINT64_C(1) << order.m | (order.m == 1 ? 1 : 3);
}

/* The all-ones message of the order's K bits under that polynomial. */
static void run_link(struct dohvrin_order order)
{
    uint64_t k = order.bits - order.m;
    uint64_t low = k < 64 ? (UINT64_C(1) << k) - 1 : UINT64_MAX;
    uint64_t high = k > 64 ? (UINT64_C(1) << (k - 64)) - 1 : 0;
    uint64_t polynomial = polynomial_of(order);
    struct dohvrin_answer word = dohvrin_append(order.bits, order.m, polynomial, low, high);

    if (word.refusal != 0) {
        printf("  refused: %" PRIu64 "\n", word.refusal);
        return;
    }
    print_word("message", low, high);
    print_word("word", word.low, word.high);
    print_code(order, word.low, word.high);
    print_stripped(order, polynomial, word.low, word.high);
    print_stripped(order, polynomial, word.low ^ 2, word.high);
}

/* The number of the order's events, and the first SHOWN of them. */
static void print_events(struct dohvrin_order order)
{
    struct dohvrin_row row = dohvrin_collect_in(order, tables);

    if (row.refusal != 0) {
        printf("  refused: %" PRIu64 "\n", row.refusal);
        return;
    }
    printf("  events   %" PRIu64 "\n", row.events);
    for (size_t i = 0; i < row.events && i < SHOWN; i++) {
        const struct dohvrin_event *e = &events[i];
        printf("    state %" PRIu64 ", length %" PRIu64 ", weight %" PRIu64 ", input ",
               e->state, e->length, e->weight);
        printf("0x%016" PRIx64 "%016" PRIx64 "\n", e->high, e->low);
    }
}

/*
  Plain counts, weight w in entry w - 1, and the first SHOWN of the heaviest paths. 14: there
  are more than PATHS.
*/
static void print_paths(struct dohvrin_order order)
{
    struct dohvrin_row row = dohvrin_list_in(order, tables);
    uint64_t heaviest = 0; /* of no path: refused by 10 */
    struct dohvrin_part part;

    if (row.refusal != 0) {
        printf("  refused: %" PRIu64 "\n", row.refusal);
        return;
    }
    printf("  paths    %" PRIu64 "\n  counts  ", row.paths);
    for (uint64_t w = 1; w < order.d; w++) {
        printf(" %" PRIu64, counts[w - 1]);
        if (counts[w - 1] != 0)
            heaviest = w;
    }
    putchar('\n');
    part = dohvrin_part(paths, 2 * PATHS, counts, DOHVRIN_COUNTS, heaviest);
    for (size_t i = 0; part.refusal == 0 && i < part.numbers && i < 2 * SHOWN; i += 2) {
        const uint64_t *path = &paths[part.start + i];
        printf("    weight %" PRIu64 ", word 0x%016" PRIx64 "%016" PRIx64 "\n",
               heaviest, path[1], path[0]);
    }
}

/* How many paths of each weight pass the check of that polynomial. */
static void print_undetected(struct dohvrin_order order)
{
    struct dohvrin_row row = dohvrin_count_in(order, polynomial_of(order), tables);

    if (row.refusal != 0) {
        printf("  refused: %" PRIu64 "\n", row.refusal);
        return;
    }
    printf("  unseen under 0x%" PRIX64 ":", row.polynomial);
    for (uint64_t w = 1; w < order.d; w++)
        printf(" %" PRIu64, undetected[w - 1]);
    putchar('\n');
}

/* A row in these counts for this order, or the refusal. */
static void print_row(struct dohvrin_order order, struct dohvrin_row row)
{
    struct dohvrin_answer written =
        dohvrin_row_text(order, row, counts, DOHVRIN_COUNTS, undetected, DOHVRIN_COUNTS,
                         text, sizeof text);

    fwrite(text, 1, written.value, stdout);
    if (row.shared > 1)
        printf("  as good by these counts: %" PRIu64 " more\n", row.shared - 1);
}

/* How many events are in the table, which has zeros after them. */
static size_t listed_events(void)
{
    size_t listed = 0;

    while (listed < ENTRIES && events[listed].length != 0)
        listed++;
    return listed;
}

/* The row for N - 1 from the events for N, which stay in the table. 2: of a terminated link. */
static void print_quote(struct dohvrin_order order)
{
    struct dohvrin_order shorter = order;
    struct dohvrin_row row;

    shorter.bits = order.bits - 1;
    row = dohvrin_quote_in(order, shorter.bits, tables);
    printf("  quoted for N %" PRIu64 "\n", shorter.bits);
    print_row(shorter, row);
    if (row.refusal == 0)
        printf("  events in the table, for N %" PRIu64 ": %zu\n", order.bits, listed_events());
}

/* The row for N of the polynomial that serves N and N - 1. */
static void print_set(struct dohvrin_order order)
{
    const uint64_t lengths[] = {order.bits, order.bits - 1};

    printf("  for N %" PRIu64 " and %" PRIu64 "\n", lengths[0], lengths[1]);
    print_row(order, dohvrin_search_set_in(order, lengths, 2, tables));
}

static int run_record(const char *hex)
{
    uint8_t bytes[MOST_BYTES];
    size_t size;
    struct dohvrin_order_answer read;
    struct dohvrin_order order;

    if (!read_hex(hex, bytes, &size)) {
        fprintf(stderr, "%s: up to %d bytes in hexadecimal are asked for\n", hex, MOST_BYTES);
        return 0;
    }
    read = dohvrin_read_order(bytes, size);
    if (read.refusal != 0) {
        printf("refused: %" PRIu64 "\n", read.refusal);
        return 1;
    }
    order = read.order;
    printf("%s order: n %" PRIu64 ", v %" PRIu64 ", N %" PRIu64 ", m %" PRIu64 ", d %" PRIu64
           ", generators",
           order.version == DOHVRIN_TERMINATED ? "terminated" : "tail-biting",
           order.n, order.v, order.bits, order.m, order.d);
    for (size_t i = 0; i < 4; i++)
        printf(" %" PRIo64, order.generators[i]);
    putchar('\n');
    run_link(order);
    print_events(order);
    print_paths(order);
    print_undetected(order);
    print_row(order, dohvrin_search_in(order, tables));
    print_quote(order);
    print_set(order);
    return 1;
}

int main(int argc, char **argv)
{
    int right = 1;

    for (int i = 1; i < argc; i++)
        right = run_record(argv[i]) && right;
    for (size_t i = 0; argc < 2 && i < sizeof records / sizeof records[0]; i++)
        run_record(records[i]);
    return right ? EXIT_SUCCESS : EXIT_FAILURE;
}
