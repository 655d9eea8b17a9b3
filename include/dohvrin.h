/*
  dohvrin.h -- tail-biting and terminated convolutional links and their check
  polynomials

  Notation
  --------
  A polynomial over GF(2) is a number: bit j is the coefficient of x^j.
  Generators are written in octal, check polynomials in hexadecimal with all
  their m+1 bits: 013 is x^3+x+1, and 0x43 is x^6+x+1. All else is decimal.

  A code has n generators (2 to 4) and the memory v (1 to 8): a generator has
  v+1 bits, bit 0 taps the input of this step, bit v the oldest one remembered.
  No polynomial but 1 divides all generators.

  A word u has N bits (v to 128; from 1 where a call takes no v), and N is the
  parameter `bits`. Bit 0 is the first input. A word is passed in two 64-bit
  halves, the low half first: u = high * 2^64 + low. Up to N = 64, high is 0.

  A link is of one of two kinds, which the version of an order says. On a
  tail-biting link (1) the word's own end comes before its start: the output of
  generator g is u times g modulo x^N+1, over N steps. On a terminated link (2)
  v zeros follow the word: the output is the ordinary product of u and g, over
  N+v steps (up to 136). On both the weight of u is the number of ones in all n
  outputs, and words have N bits: the zeros of a terminated link are no part of
  them. Word 7 of the generators 1 and 3 at N = 3 weighs 3 tail-biting and 5
  terminated.

  A state is the last v inputs, the latest as bit 0: the input b leads from the
  state s to (2s + b) mod 2^v, and the step weighs as many as the generators
  put out ones in it. An event of the state i is a walk of 1 to N steps from i
  back to i whose states in between are all greater than i. Its input number
  has the first input as bit 0. The zero loop at the state 0 is an event.
  On a terminated link every walk begins and ends at the state 0, and only that
  state has events, of 1 to N+v steps; nothing is rotated. Their inputs have at
  most N bits, since a nonzero one ends in v zeros.
  A path is a word, not zero, of weight below the threshold d (1 to 64). No
  word but zero weighs 0, so a list of counts begins at weight 1: it has d - 1
  entries, weight w is entry w - 1, and where d is 1 it may be empty.

  A check polynomial has degree m (1 to 12, below N) and constant term 1. It
  turns a message of K = N - m bits into a word of N bits: the message stands
  in the upper K bits, its remainder in the lower m.

  An order is a version, n, v, N, m, d and the generators, in one struct that
  the calls take by value. Any numbers in it are answered. Of its four
  generators a call looks at the first n, and at none where n is not 2 to 4.

  The best polynomial of degree m is the one under which the fewest paths pass
  the check unseen: of two, the one with fewer undetected paths at the lowest
  weight where they differ, and where they differ at none, the smaller number.
  Its row is the order, how many events and paths there are, both counts of
  every weight from 1 to d - 1, the polynomial, and how many polynomials of
  degree m share its counts, it among them: 1 where it alone has them. A row's
  text does not say the kind of link.

  Events of a tail-biting link that were collected for N serve every shorter
  length: those of at most N' steps, in their order, are the events for N'. To
  quote N' is to make its row from the events for N.

  A set is a list of 1 to 8 lengths, the longest first, that share one check
  polynomial. The first undetected weight of a polynomial at a length is the
  lowest weight from 1 to d - 1 of which it leaves a path undetected, or d where
  there is none. Each length in turn keeps those of the polynomials still left
  whose first undetected weight there is largest. Of those that the last one
  leaves, the best at the longest length is the set's, and its row is that of the
  longest length, in which `shared` counts those left alone.

  A program
  ---------
      #include <stdio.h>
      #include "dohvrin.h"

      static struct dohvrin_event events[512];
      static uint64_t paths[2 * 2048], work[DOHVRIN_WORK];
      static uint64_t plain[DOHVRIN_COUNTS], undetected[DOHVRIN_COUNTS];
      static uint8_t text[DOHVRIN_TEXT];

      int main(void) {
          const struct dohvrin_order order = {.version = DOHVRIN_TAIL_BITING,
                                              .n = 2, .v = 1, .bits = 4, .m = 2, .d = 6,
                                              .generators = {01, 03}};  // octal: 0 leads
          const struct dohvrin_tables tables = {
              .events = events, .event_entries = 512,
              .paths = paths, .path_numbers = 2 * 2048,
              .plain = plain, .plain_entries = DOHVRIN_COUNTS,
              .undetected = undetected, .undetected_entries = DOHVRIN_COUNTS,
              .work = work, .work_numbers = DOHVRIN_WORK};
          // A row or a refusal: the text is that of either.
          const struct dohvrin_row row = dohvrin_search_in(order, tables);
          const struct dohvrin_answer written =
              dohvrin_row_text(order, row, plain, DOHVRIN_COUNTS, undetected, DOHVRIN_COUNTS,
                               text, DOHVRIN_TEXT);

          fwrite(text, 1, written.value, stdout);
          return 0;
      }

  It prints
  ---------
      ORDER 2 1 4 2 6 1 3
      EVENTS 5
      PATHS 13
      A 1 0 0
      A 2 0 0
      A 3 4 0
      A 4 5 1
      A 5 4 0
      CRC 0x5 1

  Refusals
  --------
  Every call answers every input. It asks the questions that concern what it
  takes, in the order of the table, where 17 stands after 4 and 16 after 9, and
  the first no is the refusal; 0 says that there was none. Of an order, weigh and encode do
  not take m and d, collect and list do not take m, and a set does not take N:
  there they may be anything.
  The one exception is row_text, which asks only 2, 3, 7 and 10: a row is
  printed as it is told, for an order that a call has accepted before; and of a
  refusal, which it prints as well, only 10, about the text. A refused call has
  no other result: the rest of its answer is 0, and what was lent to it is as it
  was; after 13 and 14, it is 0. A quote takes N, the order's, and N'; where a
  question is about both, either can be refused. No call gives 15 any more, and
  no other question has that number.

      no.  question                                                 asked by
       1   Are there 2 bytes, and does the length in them equal
           the number of bytes after them?                          read_order
       2   Is the version 1 or 2? (In a record: is there a version  as 3
           byte, too? For a quote: is it 1?)
       3   Are there 2 to 4 generators: is n from 2 to 4? (In a     weigh encode
           record: is n there, too, and is the length 6 + 2n?)      collect list
                                                                    search quote
                                                                    search_set
                                                                    count row_text
                                                                    read_order
       4   Is v from 1 to 8?                                        weigh encode
                                                                    collect list
                                                                    search quote
                                                                    search_set
                                                                    count
                                                                    read_order
      17   Has the list 1 to 8 lengths, each below the one before?  search_set
       5   Is N from v (from 1 where a call takes no v) to 128?     as 4, append
           (For a quote: is N' from v to N, too? For a set: is      strip test
           every length?)
       6   Is m from 1 to 12 and below N? (For a quote: and below   append strip
           N'? For a set: below the shortest?)                      test search
                                                                    quote
                                                                    search_set
                                                                    count
                                                                    read_order
       7   Is d from 1 to 64?                                       collect list
                                                                    search quote
                                                                    search_set
                                                                    count row_text
                                                                    read_order
       8   Is every generator nonzero and below 2^(v+1)?            as 4
       9   Has some generator bit v, and some generator (the same
           one or another) bit 0?                                   as 4
      16   Is 1 the only polynomial that divides every generator?   as 4
      10   Has the output at least n bytes for each step: n times N encode
           of them, or n times N+v on a terminated link?
           Has the work area at least 8,192 numbers?                collect list
                                                                    search quote
                                                                    search_set
                                                                    count
           Has each list of counts at least d - 1 entries?          list search
                                                                    quote
                                                                    search_set
                                                                    count row_text
           Has the text at least 4,096 bytes?                       row_text
                                                                    refusal_text
           Is there a count of the weight, which is 1 or more, and
           has the table the paths of all weights up to it?         part
      11   Has the polynomial degree m and constant term 1?         append strip
                                                                    test count
      12   Is the word below 2^N, the message below 2^K?            append strip
                                                                    test weigh
                                                                    encode
      13   Are there at most as many events as entries? (For a      collect list
           quote: of those for N. For a set: of those for the       search quote
           longest.)                                                search_set
                                                                    count
      14   Are there at most as many paths as pairs of numbers?     list search
           (For a quote: of those for N'. For a set: for every      quote
           length.)                                                 search_set
                                                                    count

  What the library counts on
  --------------------------
  Numbers may be anything. Pointers and the sizes after them are the caller's
  promise, as C has no means to check them: so many elements can be read from
  the pointer (written, for an output, a table or a work area), it is aligned as
  its type asks, what is written overlaps nothing else that the call takes, and
  no other thread writes any of it meanwhile. Where the size is 0 nothing is
  read or written.

  The library keeps nothing between calls, allocates nothing, and needs
  nothing of the C library but memset and memcpy; calls may run at the same
  time in several threads. It is for x86-64 with the System V calling convention
  (Linux): cc program.c libdohvrin.a. hosts/README.md says how to build it.
*/
#ifndef DOHVRIN_H
#define DOHVRIN_H

#include <stddef.h>
#include <stdint.h>

#ifdef __cplusplus
extern "C" {
#endif

/*
  What the calls on words and texts answer. The fields that a call does not name
  are 0.
*/
struct dohvrin_answer {
    uint64_t refusal; /* the number of the question that said no, or 0 */
    uint64_t value;   /* one number */
    uint64_t low;     /* one word or message: its bits 0 to 63 */
    uint64_t high;    /* and its bits 64 to 127 */
};

/* The kinds of link, as an order's version says them. */
#define DOHVRIN_TAIL_BITING 1
#define DOHVRIN_TERMINATED 2

/* An order, as the calls take it. The comments say what no question refuses. */
struct dohvrin_order {
    uint64_t version;       /* the kind of link: 1 tail-biting, 2 terminated */
    uint64_t n;             /* how many generators, 2 to 4 */
    uint64_t v;             /* the memory, 1 to 8 */
    uint64_t bits;          /* N, the bits of a word, v to 128 */
    uint64_t m;             /* the check degree, 1 to 12 and below N */
    uint64_t d;             /* the threshold on weights, 1 to 64 */
    uint64_t generators[4]; /* those past the n-th do not matter */
};

/* An order as its record gives it, or a refusal and an order of zeros. */
struct dohvrin_order_answer {
    uint64_t refusal;           /* the number of the question that said no, or 0 */
    struct dohvrin_order order; /* generators past the n-th are 0 */
};

/* An entry of an event table. A table's entries after its events are all 0. */
struct dohvrin_event {
    uint64_t state;  /* the state that it leaves and comes back to */
    uint64_t length; /* its steps, 1 to N (N+v): an entry with length 0 is no event */
    uint64_t weight; /* its weight, below d */
    uint64_t low;    /* its input number: bits 0 to 63 */
    uint64_t high;   /* and bits 64 to 127 */
};

/*
  What collect, list, search, count, quote and search_set answer, and row_text
  takes: what a row says beside its order and its counts. What a call does not tell is 0.
*/
struct dohvrin_row {
    uint64_t refusal;    /* the number of the question that said no, or 0 */
    uint64_t events;     /* how many events the row has: after a quote the table may have more */
    uint64_t paths;      /* how many paths are in the path table; of collect 0 */
    uint64_t polynomial; /* the best polynomial, or the one given; of collect and list 0 */
    uint64_t shared;     /* how many polynomials have its counts, it among them, after a set of
                            those left; 0 where it was compared with nobody: of collect, list
                            and count */
};

/* Where the paths of one weight stand in a path table. */
struct dohvrin_part {
    uint64_t refusal; /* the number of the question that said no, or 0 */
    uint64_t start;   /* the place of their first number in the table */
    uint64_t numbers; /* how many numbers they have: two a path */
};

/* The least numbers of a work area: 64 KiB. */
#define DOHVRIN_WORK 8192

/* The least bytes of a text; no text has more. */
#define DOHVRIN_TEXT 4096

/* The entries of a list of counts that is long enough for every d: weights 1 to 63. */
#define DOHVRIN_COUNTS 63

/* The most lengths of a set. */
#define DOHVRIN_LENGTHS 8

/*
  Appends the remainder of a message f = high * 2^64 + low of K = bits - m bits
  under the polynomial. Accepted: low and high are the word x^m f plus the
  remainder of x^m f, which has `bits` bits and which the polynomial divides.
  Refusals: 5, 6, 11, 12 (the message is not below 2^K).
*/
struct dohvrin_answer dohvrin_append(uint64_t bits, uint64_t m, uint64_t polynomial,
                                     uint64_t low, uint64_t high);

/*
  Strips the remainder from a word of `bits` bits. Accepted with value 0: the
  polynomial divides the word, and low and high are its message of K bits.
  Accepted with another value: the word is damaged, value is its remainder,
  below 2^m, and low and high are 0. Refusals: 5, 6, 11, 12 (the word is not
  below 2^bits).
*/
struct dohvrin_answer dohvrin_strip(uint64_t bits, uint64_t m, uint64_t polynomial,
                                    uint64_t low, uint64_t high);

/*
  Tests whether the polynomial divides a word of `bits` bits, in the ordinary
  product and not modulo x^N+1. Accepted: value is 1 where it does and 0 where
  it does not. Refusals: 5, 6, 11, 12 (the word is not below 2^bits).
*/
struct dohvrin_answer dohvrin_test(uint64_t bits, uint64_t m, uint64_t polynomial,
                                   uint64_t low, uint64_t high);

/*
  Weighs a word of N bits under the order's code; m and d do not matter.
  Accepted: value is the weight, 0 for the word 0 and else from 1 to n times N,
  or to n times N+v on a terminated link. Refusals: 2, 3, 4, 5, 8, 9, 16, 12
  (the word is not below 2^N).
*/
struct dohvrin_answer dohvrin_weigh(struct dohvrin_order order, uint64_t low, uint64_t high);

/*
  Encodes a word of N bits under the order's code; m and d do not matter.
  Accepted: the answer is 0 and the output holds the codeword, n bits for each
  step from the word's bit 0 on, the first generator first, each bit a byte 0
  or 1. It has n times N bytes, or on a terminated link, whose last v steps
  take the zeros after the word, n times N+v; those after it, up to `size`, are
  0. The answer is else the number of the refusal, and the output is as it was:
  2, 3, 4, 5, 8, 9, 16, 10 (size is below the codeword's bytes), 12 (the word
  is not below 2^N). That the pointer has `size` bytes cannot be checked.
*/
uint64_t dohvrin_encode(struct dohvrin_order order, uint64_t low, uint64_t high,
                        uint8_t *output, size_t size);

/*
  Collects the events of weight below d of the order's code, on walks of at
  most N steps, or on a terminated link those of the state 0 alone, on walks of
  at most N+v steps; m does not matter. Accepted: events is their number; the
  table has them first, ordered by state, length and input number, its entries
  after them are 0, and the work area is 0 throughout. Refusal 13, there are
  more events than entries: table and work area are 0 throughout. Other
  refusals: 2, 3, 4, 5, 7, 8, 9, 16, 10 (work_numbers is below DOHVRIN_WORK);
  then table and work area are as they were. What they held before the call
  does not matter. That the pointers have as many events and numbers as is
  said, and that table and work area do not overlap, cannot be checked.
*/
struct dohvrin_row dohvrin_collect(struct dohvrin_order order, struct dohvrin_event *events,
                                   size_t event_entries, uint64_t *work, size_t work_numbers);

/*
  Lists the paths of weight below d of the order's code, words of N bits, with
  the events that they are joined of; m does not matter. Accepted: the answer
  says how many there are of both. The path table has two numbers a path, its
  low half first: the paths of the least weight come first, and those of one
  weight in increasing order; the numbers after them are 0, and so is the last
  one of an odd table. The plain counts say how many paths there are of each
  weight from 1 to d - 1, in plain[w - 1] those of weight w, and are 0 after
  that. The event table is as dohvrin_collect leaves it, and the work area is 0
  throughout. Refusals 13, there are more events than entries, and 14, there
  are more paths than pairs of numbers: all four tables are 0 throughout. Other
  refusals: 2, 3, 4, 5, 7, 8, 9, 16, 10 (plain_entries is below d - 1, or
  work_numbers is below DOHVRIN_WORK); then all four are as they were. What
  they held before the call does not matter. That the pointers have as many
  entries and numbers as is said, and that none of the tables overlaps another,
  cannot be checked.
*/
struct dohvrin_row dohvrin_list(struct dohvrin_order order, struct dohvrin_event *events,
                                size_t event_entries, uint64_t *paths, size_t path_numbers,
                                uint64_t *plain, size_t plain_entries, uint64_t *work,
                                size_t work_numbers);

/*
  Finds the paths of one weight in a path table, by the counts of its paths of
  each weight from 1: counts[w - 1] is that of weight w. Accepted: table[start]
  is the first of their numbers, and there are `numbers` of them, 0 where no
  path has that weight. The only refusal is 10: the weight is 0 or above
  count_entries, or the paths of all weights up to it are more than the table
  has pairs of numbers. The counts may be any: their sum may pass 64 bits,
  which is 10 as well. Table and counts are only read; that the pointers have
  as many numbers as is said cannot be checked.
*/
struct dohvrin_part dohvrin_part(const uint64_t *table, size_t table_numbers,
                                 const uint64_t *counts, size_t count_entries, uint64_t w);

/*
  Searches for the order's best check polynomial: of degree m, for words of N
  bits, by the paths of weight below d. Accepted: the answer has the
  polynomial, the smallest of those with the best counts; `shared` says how
  many these are, from 1 on; and it says how many events and paths there are.
  Event table, path table, plain counts and work area are as dohvrin_list
  leaves them. The undetected counts say how many of the paths of each weight
  from 1 to d - 1 the polynomial divides, in undetected[w - 1] those of weight
  w, and are 0 after that. Refusals 13, there are more events than entries, and
  14, there are more paths than pairs of numbers: all five are 0 throughout.
  Other refusals: 2 to 9, 16, 10 (plain_entries or undetected_entries is below
  d - 1, or work_numbers is below DOHVRIN_WORK); then all five are as they
  were. What they held before the call does not matter. That the pointers have
  as many entries and numbers as is said, and that none of the tables overlaps
  another, cannot be checked.
*/
struct dohvrin_row dohvrin_search(struct dohvrin_order order, struct dohvrin_event *events,
                                  size_t event_entries, uint64_t *paths, size_t path_numbers,
                                  uint64_t *plain, size_t plain_entries, uint64_t *undetected,
                                  size_t undetected_entries, uint64_t *work,
                                  size_t work_numbers);

/*
  Quotes a shorter length: collects the events of a tail-biting order for its N
  and makes the row for words of N' = bits from those of at most N' steps.
  Accepted: the answer is that of dohvrin_search for the same order with N' in
  place of N; `events` says how many there are of at most N' steps. The event
  table is as dohvrin_collect leaves it for N; path table, plain and undetected
  counts and work area are as dohvrin_search leaves them for N'. Refusals 13,
  there are more events for N than entries, and 14, there are more paths for N'
  than pairs of numbers: all five are 0 throughout. Other refusals: 2 (the
  version is not 1), 3, 4, 5 (N is not from v to 128, or N' not from v to N), 6
  (m is not from 1 to 12, below N and below N'), 7, 8, 9, 16, 10 (as of
  dohvrin_search); then all five are as they were. Where none of 2 to 13
  refuses, the row or the refusal is the one that dohvrin_search gives for N'.
  What they held before the call does not matter. That the pointers have as
  many entries and numbers as is said, and that none of the tables overlaps
  another, cannot be checked.
*/
struct dohvrin_row dohvrin_quote(struct dohvrin_order order, uint64_t bits,
                                 struct dohvrin_event *events, size_t event_entries,
                                 uint64_t *paths, size_t path_numbers, uint64_t *plain,
                                 size_t plain_entries, uint64_t *undetected,
                                 size_t undetected_entries, uint64_t *work,
                                 size_t work_numbers);

/*
  Searches for the check polynomial of a set: of degree m, for words of each of
  the lengths, the longest first, by the paths of weight below d. The order's
  `bits` may be anything. Accepted: the answer has the set's polynomial, how many
  of those left have its counts at the longest length, and how many events and
  paths there are for that length. Event table, path table, both lists of counts,
  the undetected ones of this polynomial, and work area are as dohvrin_search
  leaves them for the longest length. Refusals 13, there are more events for the
  longest length than entries, and 14, there are more paths for some length than
  pairs of numbers: all five are 0 throughout. Other refusals: 2, 3, 4, 17
  (length_count is not from 1 to DOHVRIN_LENGTHS, or a length is not below the
  one before), 5 (a length is not from v to 128), 6 (m is not from 1 to 12 and
  below the shortest), 7, 8, 9, 16, 10 (as of dohvrin_search); then all five are
  as they were. For a list of one length all is as dohvrin_search has it for that
  length. What they held before the call does not matter. The lengths are only
  read. That the pointers have as many entries and numbers as is said, and that
  none of the tables overlaps another or the lengths, cannot be checked.
*/
struct dohvrin_row dohvrin_search_set(struct dohvrin_order order, const uint64_t *lengths,
                                      size_t length_count, struct dohvrin_event *events,
                                      size_t event_entries, uint64_t *paths,
                                      size_t path_numbers, uint64_t *plain,
                                      size_t plain_entries, uint64_t *undetected,
                                      size_t undetected_entries, uint64_t *work,
                                      size_t work_numbers);

/*
  Counts the undetected paths of one polynomial of degree m, without a search.
  Accepted: the answer says how many events and paths there are, and has this
  polynomial; `shared` is 0, since it was compared with nobody. Tables and plain
  counts are as dohvrin_search leaves them, and the undetected counts are this
  polynomial's. Refusals are those of dohvrin_search, and leave the same, with
  11 (the polynomial) after 10.
*/
struct dohvrin_row dohvrin_count(struct dohvrin_order order, uint64_t polynomial,
                                 struct dohvrin_event *events, size_t event_entries,
                                 uint64_t *paths, size_t path_numbers, uint64_t *plain,
                                 size_t plain_entries, uint64_t *undetected,
                                 size_t undetected_entries, uint64_t *work,
                                 size_t work_numbers);

/*
  Writes what a call has answered, a row or a refusal. Where row.refusal is not
  0 it is NO with that number, as dohvrin_refusal_text writes it, and of all
  questions only 10 is asked, and only whether text_bytes is below DOHVRIN_TEXT.
  Else it is the row of the order: ORDER with n, v, N, m, d and the generators
  in octal, but not the version; EVENTS; PATHS; for each weight from 1 to d - 1
  a line A with the weight and both counts; CRC with the polynomial in
  hexadecimal and how many share its counts. Accepted: value is the number of
  its bytes, which the text begins with; each line ends with a line feed, and
  the bytes after the last are 0. Nothing is computed, and the row is printed
  as it is told, for an order that a call has accepted before (after a quote,
  that with N', after a set, that with the longest length): of all questions only
  2, 3, 7, and 10 (plain_entries or undetected_entries is below d - 1, or
  text_bytes is below DOHVRIN_TEXT) are asked, and their refusals leave the text
  as it was. The other numbers may be any. The counts are only read; that the
  pointers have as many as is said, and that the text overlaps none of them,
  cannot be checked.
*/
struct dohvrin_answer dohvrin_row_text(struct dohvrin_order order, struct dohvrin_row row,
                                       const uint64_t *plain, size_t plain_entries,
                                       const uint64_t *undetected, size_t undetected_entries,
                                       uint8_t *text, size_t text_bytes);

/*
  Writes a refusal: NO with its number, which may be any. Accepted: value is
  the number of its bytes, which the text begins with, a line feed the last;
  the bytes after them are 0. The only refusal is 10, text_bytes is below
  DOHVRIN_TEXT, and leaves the text as it was. That the pointer has so many
  bytes cannot be checked.
*/
struct dohvrin_answer dohvrin_refusal_text(uint64_t number, uint8_t *text, size_t text_bytes);

/*
  Reads an order from a record of `size` bytes: the length of what follows it
  in 2 bytes, the higher first; the version, n, v, N, m and d, a byte each; n
  generators of 2 bytes, the higher first. Version 1 is a tail-biting link, 2 a
  terminated one. Accepted: the order, in which the calls above find nothing to
  refuse, but for a quote, which refuses a terminated link by 2. Refusals: 1 to 9
  and 16, in this order. The bytes are only read; that the pointer has `size` of
  them cannot be checked.
*/
struct dohvrin_order_answer dohvrin_read_order(const uint8_t *bytes, size_t size);

/*
  What is lent to the calls that list, in one struct. A call takes what it uses:
  collect needs events and work alone, list needs no undetected counts, and what
  a call does not take may be NULL and 0.
*/
struct dohvrin_tables {
    struct dohvrin_event *events;
    size_t event_entries;
    uint64_t *paths; /* two numbers a path */
    size_t path_numbers;
    uint64_t *plain; /* how many paths there are of each weight, from 1 on */
    size_t plain_entries;
    uint64_t *undetected; /* how many of them the polynomial divides */
    size_t undetected_entries;
    uint64_t *work;
    size_t work_numbers;
};

/* dohvrin_collect in these tables. */
static inline struct dohvrin_row dohvrin_collect_in(struct dohvrin_order order,
                                                    struct dohvrin_tables tables)
{
    return dohvrin_collect(order, tables.events, tables.event_entries, tables.work,
                           tables.work_numbers);
}

/* dohvrin_list in these tables. */
static inline struct dohvrin_row dohvrin_list_in(struct dohvrin_order order,
                                                 struct dohvrin_tables tables)
{
    return dohvrin_list(order, tables.events, tables.event_entries, tables.paths,
                        tables.path_numbers, tables.plain, tables.plain_entries, tables.work,
                        tables.work_numbers);
}

/* dohvrin_search in these tables. */
static inline struct dohvrin_row dohvrin_search_in(struct dohvrin_order order,
                                                   struct dohvrin_tables tables)
{
    return dohvrin_search(order, tables.events, tables.event_entries, tables.paths,
                          tables.path_numbers, tables.plain, tables.plain_entries,
                          tables.undetected, tables.undetected_entries, tables.work,
                          tables.work_numbers);
}

/* dohvrin_quote in these tables. */
static inline struct dohvrin_row dohvrin_quote_in(struct dohvrin_order order, uint64_t bits,
                                                  struct dohvrin_tables tables)
{
    return dohvrin_quote(order, bits, tables.events, tables.event_entries, tables.paths,
                         tables.path_numbers, tables.plain, tables.plain_entries,
                         tables.undetected, tables.undetected_entries, tables.work,
                         tables.work_numbers);
}

/* dohvrin_search_set in these tables. */
static inline struct dohvrin_row dohvrin_search_set_in(struct dohvrin_order order,
                                                       const uint64_t *lengths,
                                                       size_t length_count,
                                                       struct dohvrin_tables tables)
{
    return dohvrin_search_set(order, lengths, length_count, tables.events, tables.event_entries,
                              tables.paths, tables.path_numbers, tables.plain,
                              tables.plain_entries, tables.undetected,
                              tables.undetected_entries, tables.work, tables.work_numbers);
}

/* dohvrin_count in these tables. */
static inline struct dohvrin_row dohvrin_count_in(struct dohvrin_order order, uint64_t polynomial,
                                                  struct dohvrin_tables tables)
{
    return dohvrin_count(order, polynomial, tables.events, tables.event_entries, tables.paths,
                         tables.path_numbers, tables.plain, tables.plain_entries,
                         tables.undetected, tables.undetected_entries, tables.work,
                         tables.work_numbers);
}

#ifdef __cplusplus
}
#endif

#endif
