/* sps.h - set power series over the controls of a panel: the C interface of libsps.a (x86-64).
 *
 * A panel has n controls, 0 to 16.  A set of controls is named by its code, the sum of 2^i over its controls i; its size
 * is how many controls it has.  A table has 2^n entries, entry S belonging to the set with code S; its first entry is that
 * of the empty set, and its last one, the whole-panel entry, that of the set of all controls.  A row has n + 1 entries.
 * Entries are residues from 0 to m - 1, and all arithmetic is modulo m.
 *
 * Slices.  A slice is a pointer and then a length, counted in elements (32-bit numbers or bytes).  The pointer is never
 * null, also when the length is 0, and is aligned for its element.  Inputs are only read, and two inputs may be the same
 * slice.  A result, a pad, a table to fill and a buffer overlap nothing else.  What they hold beforehand does not matter.
 * The tables of a board are read and written, and overlap nothing else.
 *
 * Pad.  Where a call takes a pad, it needs SPS_PAD_LENGTH(n) entries, a recipe SPS_RECIPE_PAD_LENGTH(n): the stated pad.
 * After an accepted call these are 0, and the rest of a longer pad is unchanged.
 *
 * Refusals.  A call answers with a number: 0 when it is accepted, else that of the first of its conditions that applies, in
 * the order in which its comment names them.  (It rises, except in reading files, in changes of boards, in recipes and in
 * writing pages.)  Functions that answer more return it packed with the number into 64 bits, as each says.  A refused call
 * changes nothing that it was lent, with one exception: where one of a recipe's calls refuses, the recipe's stated pad is 0
 * afterwards, and its result as it came.  Every other number that a refused call answers is 0.
 */
#ifndef SPS_H
#define SPS_H

#include <stddef.h>
#include <stdint.h>

enum {
    SPS_ACCEPTED = 0,
    SPS_PANEL = 1,    /* n above 16; in a file a first number other than 0 to 16 and 32 to 48 */
    SPS_MODULUS = 2,  /* m below 2; above 4294967295 no uint32_t is */
    SPS_LENGTH = 3,   /* a table not of 2^n entries or a row not of n + 1, input, result or a board's */
    SPS_PAD = 4,      /* a pad shorter than SPS_PAD_LENGTH(n), in a recipe than SPS_RECIPE_PAD_LENGTH(n) */
    SPS_ENTRY = 5,    /* an input entry, or the weight of a change, not below m */
    SPS_START = 6,    /* a first entry that the call, or one of a recipe's calls, does not take */
    SPS_HALVING = 7,  /* xor product with m even, also in a recipe */
    SPS_GROUP = 8,    /* in a file or sheet: a number or label ends early; a number not in its shortest form, or 2^32 or more */
    SPS_TAIL = 9,     /* bytes after the last entry of a file, or after the last label of a sheet */
    SPS_SHORT = 10,   /* the buffer is shorter than the file, or than all pages */
    SPS_EMPTY = 11,   /* a change at the empty set */
    SPS_CODE = 12,    /* a change at a code of 2^n or more */
    SPS_RECIPE = 13,  /* the line of a recipe has more than 120 bytes or is outside the grammar */
    SPS_NESTING = 14, /* the parentheses of a recipe nest deeper than 8 */
    SPS_GAP = 15,     /* a gap in a sparse file leads to code 2^n or beyond */
    SPS_ZERO = 16,    /* a value in a sparse file is 0 */
    SPS_LABEL = 17,   /* a label not of 1 to 8 bytes, or with a byte that is no ASCII letter or digit */
    SPS_EQUAL = 18    /* two labels of a sheet are equal */
};

#define SPS_MOST_CONTROLS 16
#define SPS_LOWEST_MODULUS 2u
#define SPS_LARGEST_MODULUS 4294967295u
#define SPS_TABLE_LENGTH(n) ((size_t)1 << (n))
#define SPS_PAD_LENGTH(n) ((2 * (size_t)(n) + 4) << (n))
#define SPS_RECIPE_PAD_LENGTH(n) (SPS_PAD_LENGTH(n) + ((size_t)32 << (n)))

#ifdef __cplusplus
extern "C" {
#endif

/* ---- Sum and difference, entry by entry --------------------------------------------------------------------------- */

/* result[S] = a[S] + b[S].  Refusals 1, 2, 3, 5.  Time 2^n. */
uint32_t sps_sum(uint32_t n, uint32_t m,
                 const uint32_t *a, size_t a_len,
                 const uint32_t *b, size_t b_len,
                 uint32_t *result, size_t result_len);

/* result[S] = a[S] - b[S].  Refusals 1, 2, 3, 5.  Time 2^n. */
uint32_t sps_difference(uint32_t n, uint32_t m,
                        const uint32_t *a, size_t a_len,
                        const uint32_t *b, size_t b_len,
                        uint32_t *result, size_t result_len);

/* ---- Products ----------------------------------------------------------------------------------------------------- */

/* result[S] = sum of a[L] * b[R] over the disjoint L, R with union S.  Returns ceiling * 2^32 + number.  The ceiling is
 * that of the result: the largest size of a set whose entry there is not 0, and 255 if every entry there is 0.
 * Refusals 1 to 5.  Time 2^n * n^2: the unit that the costs below are given in. */
uint64_t sps_subset_product(uint32_t n, uint32_t m,
                            const uint32_t *a, size_t a_len,
                            const uint32_t *b, size_t b_len,
                            uint32_t *result, size_t result_len,
                            uint32_t *pad, size_t pad_len);

/* result[S] = sum of a[L] * b[R] over all L, R with union S.  Refusals 1 to 5.  Time 2^n * n. */
uint32_t sps_union_product(uint32_t n, uint32_t m,
                           const uint32_t *a, size_t a_len,
                           const uint32_t *b, size_t b_len,
                           uint32_t *result, size_t result_len,
                           uint32_t *pad, size_t pad_len);

/* result[S] = sum of a[L] * b[R] over all L, R with symmetric difference S; m must be odd.  Refusals 1 to 5, then 7.
 * Time 2^n * n. */
uint32_t sps_xor_product(uint32_t n, uint32_t m,
                         const uint32_t *a, size_t a_len,
                         const uint32_t *b, size_t b_len,
                         uint32_t *result, size_t result_len,
                         uint32_t *pad, size_t pad_len);

/* Rows: result[i] = sum of C(i, j) * f[j] * g[i - j] over j from 0 to i.  Refusals 1, 2, 3, 5.  Time n^2. */
uint32_t sps_binomial_product(uint32_t n, uint32_t m,
                              const uint32_t *f, size_t f_len,
                              const uint32_t *g, size_t g_len,
                              uint32_t *result, size_t result_len);

/* ---- Sums over partitions ------------------------------------------------------------------------------------------
 * A partition of S is an unordered collection of nonempty, pairwise disjoint sets (blocks) with union S.  The modulus need
 * not be prime: nothing is divided by a factorial.  Each of these costs one to two subset products of the same n. */

/* result[S] = sum over the partitions of S of the product of a over the blocks; a[0] must be 0.  Refusals 1 to 6. */
uint32_t sps_exponential(uint32_t n, uint32_t m,
                         const uint32_t *a, size_t a_len,
                         uint32_t *result, size_t result_len,
                         uint32_t *pad, size_t pad_len);

/* The one table with first entry 0 whose exponential is a; a[0] must be 1.  Refusals 1 to 6. */
uint32_t sps_logarithm(uint32_t n, uint32_t m,
                       const uint32_t *a, size_t a_len,
                       uint32_t *result, size_t result_len,
                       uint32_t *pad, size_t pad_len);

/* The one table whose subset product with a is 1 at the empty set and 0 elsewhere; a[0] and m must have no common divisor
 * above 1.  Refusals 1 to 6. */
uint32_t sps_inverse(uint32_t n, uint32_t m,
                     const uint32_t *a, size_t a_len,
                     uint32_t *result, size_t result_len,
                     uint32_t *pad, size_t pad_len);

/* The exponential's sum with each product also multiplied by f[k], k its number of blocks; a[0] must be 0.  f is a row.
 * Refusals 1 to 6. */
uint32_t sps_composition(uint32_t n, uint32_t m,
                         const uint32_t *a, size_t a_len,
                         const uint32_t *f, size_t f_len,
                         uint32_t *result, size_t result_len,
                         uint32_t *pad, size_t pad_len);

/* A row: result[i] is the whole-panel entry of the subset product of a with the composition of b with the row that is 1 at
 * place i and 0 elsewhere; that is, the sum of a[L] times the product of b over the blocks, over all sets L and all
 * partitions of the other controls into i blocks.  With a = 1, 0, .., 0 it says how the exponential's sum for the whole panel
 * divides by the number of blocks.  b[0] must be 0; a[0] may be any residue.  For each row f, the sum of f[i] * result[i] is
 * the whole-panel entry of the subset product of a and the composition of b with f.  Refusals 1 to 6, 6 for b alone. */
uint32_t sps_projection(uint32_t n, uint32_t m,
                        const uint32_t *a, size_t a_len,
                        const uint32_t *b, size_t b_len,
                        uint32_t *result, size_t result_len,
                        uint32_t *pad, size_t pad_len);

/* ---- Boards --------------------------------------------------------------------------------------------------------
 * A board is three tables that the host keeps: a, the exercises there are for each set; e, their exponential; and i, the
 * inverse of e.  All are kept up to date as exercises come and go.  After a fresh board and any changes of it under the same n
 * and m, with nobody else writing to a, e or i, a[S] is the weight added at S less the weight taken there, over the accepted
 * changes, modulo m; e is the exponential of a, and i is the inverse of e: what sps_exponential gives for a, and sps_inverse for
 * e.  The subset product of a joint count and i is the count without the exercises of the board. */

/* A fresh board: a all 0; e and i equal to 1 at the empty set and 0 elsewhere.  What the tables held does not matter.  Refusals
 * 1, 2, 3.  Time 2^n. */
uint32_t sps_board_fresh(uint32_t n, uint32_t m,
                         uint32_t *a, size_t a_len,
                         uint32_t *e, size_t e_len,
                         uint32_t *i, size_t i_len);

/* Adds the weight at the set with this code: a[set] grows by it; and for each T that contains the set, e[T] grows by the weight
 * times the old e[T without the set], and i[T] falls by the weight times the old i[T without the set].  Any three tables of
 * residues do.  Refusals 1, 2, 3, 11, 12, 5, in this order; 5 for an entry of a, e or i and for the weight.  Time 2^n. */
uint32_t sps_board_add(uint32_t n, uint32_t m, uint32_t set, uint32_t weight,
                       uint32_t *a, size_t a_len,
                       uint32_t *e, size_t e_len,
                       uint32_t *i, size_t i_len);

/* Takes the weight out at the set: a and e change as if m - weight, modulo m, were added, so more may be taken than was added;
 * and for each T that contains the set i[T] grows by the weight times the old i[T without the set].  Refusals and time as for
 * adding. */
uint32_t sps_board_take(uint32_t n, uint32_t m, uint32_t set, uint32_t weight,
                        uint32_t *a, size_t a_len,
                        uint32_t *e, size_t e_len,
                        uint32_t *i, size_t i_len);

/* ---- Recipes -------------------------------------------------------------------------------------------------------
 * A recipe is a line over four tables named A to D, such as A*B+exp(C).  It is a letter; or two recipes with a sign between
 * them; or a recipe in parentheses, with nothing, exp, log or inv before these.  The signs are * for the subset product, |
 * for the union product, ^ for the xor product, + and - for sum and difference.  The star binds tightest, then | and ^ alike,
 * then + and - alike; equal ones go from left to right.  A line has at most 120 bytes and no blanks (and the 0 that ends a C
 * string is none of its bytes); its parentheses nest to depth 8, those of the three functions counted. */

/* The table that the calls of the line give, made one by one: what is inside before its function, the left operand before
 * the right.  One letter alone gives that table.  All four tables are tested, used or not.  Refusals 1, 2, 3, 4, 13, 14, 5,
 * in this order, then 6 or 7 of the first of its calls that refuses.  13 is looked for in the whole line before 14; an empty
 * line is 13.  After success and after 6 or 7 the stated pad, SPS_RECIPE_PAD_LENGTH(n) entries, is 0; after 6 or 7 the result
 * is as it came.  Time: that of its calls, and 2^n * n. */
uint32_t sps_recipe(uint32_t n, uint32_t m,
                    const uint8_t *line, size_t line_len,
                    const uint32_t *a, size_t a_len,
                    const uint32_t *b, size_t b_len,
                    const uint32_t *c, size_t c_len,
                    const uint32_t *d, size_t d_len,
                    uint32_t *result, size_t result_len,
                    uint32_t *pad, size_t pad_len);

/* ---- Table files ---------------------------------------------------------------------------------------------------
 * There are two kinds.  A full file is n, then m, then the 2^n entries in rising code, then nothing.  A sparse file is 32 + n,
 * then m, then the count of nonzero entries, then for each of these in rising code the gap (the codes skipped since the
 * previous one, or since the start) and the value, then nothing.  A number is written in groups of seven bits, lowest group
 * first, one to a byte; the top bit is 1 when another group follows.  Only the shortest form is allowed, and values stay below
 * 2^32.  So 300 is AC 02.  A full file has at most 6 + 5 * 2^n bytes, a file of either kind at most 9 + 6 * 2^n.  The first byte
 * of an accepted file tells its kind: below 32 it is full. */

/* n * 2^32 + m of a file of either kind whose first number and m are in order, else 2^40 * number.  Looks at nothing behind
 * m.  In file order: the first number (8, then 1), m (8, then 2). */
uint64_t sps_header_check(const uint8_t *bytes, size_t len);

/* Fills the table from the whole file, of either kind, and returns as the header check does.  In file order: the first number
 * (8, then 1), m (8, then 2), the length of the table (3); in a full file each entry (8, then 5); in a sparse file the count
 * (8), and of each entry the gap (8, then 15) and the value (8, then 16, then 5); the end (9).  A count too large meets 8 or
 * 15 as its entries are read, if no other word comes first, and one too small leaves bytes, 9.  Time len, for a sparse file
 * also 2^n. */
uint64_t sps_read_table(const uint8_t *bytes, size_t len,
                        uint32_t *table, size_t table_len);

/* Fills the start of the buffer with the full file of the table and leaves the bytes behind it unchanged.  Returns bytes
 * written * 2^32 + number.  Refusals 1, 2, 3, 5, 10.  Time 2^n. */
uint64_t sps_write_table(uint32_t n, uint32_t m,
                         const uint32_t *table, size_t table_len,
                         uint8_t *buffer, size_t buffer_len);

/* The same with the sparse file of the table.  Returns, refusals and time as for the full file. */
uint64_t sps_write_sparse(uint32_t n, uint32_t m,
                          const uint32_t *table, size_t table_len,
                          uint8_t *buffer, size_t buffer_len);

/* ---- Wall pages ----------------------------------------------------------------------------------------------------
 * A label sheet has the labels of controls 0 to 15, always all sixteen, then nothing.  A label stands there as its length, a
 * number written as in table files, and that many bytes: 1 to 8, each an ASCII letter or digit.  No two labels are equal; large
 * and small letters differ.  So a sheet whose first labels are gate and bar begins 04 67 61 74 65 03 62 61 72.  An accepted
 * sheet has 32 to 144 bytes.
 *
 * Each nonzero entry has one line, and no other has, in rising code: the labels of the set's controls in rising order, joined
 * by +, or - for the empty set, filled with blanks to 143; one blank; the size in decimal, right-aligned in 2; one blank; the
 * value in decimal, right-aligned in 10; a line feed.  Each page begins with a heading, the number of the page from 1 and the
 * number of pages, such as "page 1 of 3", filled with blanks to 157, and a line feed; then come 50 lines, 1 to 50 on the last
 * page.  A table of zeros has one page with only its heading.  Lines and headings have 158 bytes each, so all pages have at
 * most 158 * (2^n + (2^n + 49) / 50), the quotient rounded down. */

/* Fills the start of the buffer with all pages of the table and leaves the bytes behind them unchanged; no 0 ends them.  The
 * labels are the bytes of a label sheet.  Returns bytes written * 2^32 + number.  Refusals 1, 2, 3, 5; then in sheet order of
 * each label the length (8, then 17) and each byte (8 if the sheet ends before it, then 17), and the end (9); then two equal
 * labels (18); then 10.  Time 2^n. */
uint64_t sps_write_pages(uint32_t n, uint32_t m,
                         const uint32_t *table, size_t table_len,
                         const uint8_t *labels, size_t labels_len,
                         uint8_t *buffer, size_t buffer_len);

#ifdef __cplusplus
}
#endif
#endif
