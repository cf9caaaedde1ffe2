/* Counts the sessions that the exercises of a table file, full or sparse, can be put together to: count_sessions FILE SHEET.
 *
 * The table says how many exercises there are for each set of controls. A session uses each control of the panel exactly
 * once, so the number of sessions is the whole panel's entry of the table's exponential. That number outgrows a machine
 * word; what is printed is its residue under several moduli, each by itself. Under the file's modulus also how the sessions
 * divide by their number of exercises, which is the projection of the table that is 1 at the empty set, and of the file's; and,
 * by boards, how many are left when one exercise is withdrawn, and when all that use a single control are. Before that, the
 * table itself as pages for the wall, with the labels of the label sheet, and how many bytes its file of each kind has. */
#include <stdio.h>
#include <stdlib.h>

#include "sps.h"

enum {
    MOST_BYTES = 9 + 6 * (1 << SPS_MOST_CONTROLS),       /* of a file of either kind */
    MOST_SHEET_BYTES = 9 * SPS_MOST_CONTROLS,            /* of a label sheet: a length and eight bytes for each control */
    MOST_LINES = 1 << SPS_MOST_CONTROLS,                 /* on all pages; each has 158 bytes, and so has a heading */
    MOST_PAGES = (MOST_LINES + 49) / 50
};

/* Seven bytes more than the longest file, so that the word of a longer one is decided: a count may have five bytes in place of
 * three, and one gap too many is read to its last byte, the fifth. */
static uint8_t bytes[MOST_BYTES + 7];
static uint8_t sheet[MOST_SHEET_BYTES + 1]; /* one byte more, for the same reason */
static uint8_t pages[158 * (MOST_LINES + MOST_PAGES)];
static uint32_t table[1 << SPS_MOST_CONTROLS];

static size_t read_file(const char *name, uint8_t *buffer, size_t most) {
    FILE *file = fopen(name, "rb");
    if (file == NULL) {
        perror(name);
        exit(EXIT_FAILURE);
    }
    size_t length = fread(buffer, 1, most, file);
    fclose(file);
    return length;
}

static void refuse(const char *name, uint64_t number) {
    printf("%s: refused %lu\n", name, (unsigned long)number);
    exit(EXIT_FAILURE);
}

/* The table is in order and the buffer has room for the pages of every table, so only the label sheet may be refused. */
static void show_pages(uint32_t n, uint32_t m, const char *sheet_name) {
    size_t length = read_file(sheet_name, sheet, sizeof sheet);
    uint64_t written = sps_write_pages(n, m, table, SPS_TABLE_LENGTH(n), sheet, length, pages, sizeof pages);
    if ((uint32_t)written != SPS_ACCEPTED) refuse(sheet_name, (uint32_t)written);
    printf("exercises for a set of controls, as pages for the wall:\n");
    fwrite(pages, 1, (size_t)(written >> 32), stdout);
}

/* The labels of the set's controls. The sheet is accepted by now, so each length is one byte. */
static void show_set(uint32_t code) {
    const uint8_t *label = sheet;
    const char *separator = "";
    for (; code != 0; code >>= 1) {
        if (code & 1) {
            printf("%s%.*s", separator, label[0], (const char *)label + 1);
            separator = "+";
        }
        label += 1 + label[0];
    }
}

/* Writes the table as a file of each kind, and says how long they are. */
static void show_lengths(uint32_t n, uint32_t m) {
    const size_t length = SPS_TABLE_LENGTH(n);
    uint64_t full = sps_write_table(n, m, table, length, bytes, sizeof bytes);
    uint64_t sparse = sps_write_sparse(n, m, table, length, bytes, sizeof bytes);
    printf("bytes of a full file %lu, of a sparse file %lu\n", (unsigned long)(full >> 32), (unsigned long)(sparse >> 32));
}

static void count_sessions(uint32_t n, uint32_t m) {
    const size_t length = SPS_TABLE_LENGTH(n), pad_length = SPS_PAD_LENGTH(n);
    uint32_t *sessions = malloc(length * sizeof *sessions);
    uint32_t *pad = malloc(pad_length * sizeof *pad);
    if (sessions == NULL || pad == NULL) exit(EXIT_FAILURE);

    uint32_t number = sps_exponential(n, m, table, length, sessions, length, pad, pad_length);
    if (number == SPS_ACCEPTED) {
        printf("  modulo %-10lu %lu\n", (unsigned long)m, (unsigned long)sessions[length - 1]);
    } else {
        printf("  modulo %-10lu refused %lu\n", (unsigned long)m, (unsigned long)number);
    }
    free(pad);
    free(sessions);
}

static void divide_sessions(uint32_t n, uint32_t m) {
    const size_t length = SPS_TABLE_LENGTH(n), pad_length = SPS_PAD_LENGTH(n);
    uint32_t row[SPS_MOST_CONTROLS + 1];
    uint32_t *one = calloc(length, sizeof *one);
    uint32_t *pad = malloc(pad_length * sizeof *pad);
    if (one == NULL || pad == NULL) exit(EXIT_FAILURE);

    one[0] = 1;
    uint32_t number = sps_projection(n, m, one, length, table, length, row, n + 1, pad, pad_length);
    printf("by their number of exercises, modulo %lu:\n", (unsigned long)m);
    if (number == SPS_ACCEPTED) {
        for (uint32_t i = 0; i <= n; i++) printf("  %-2lu %lu\n", (unsigned long)i, (unsigned long)row[i]);
    } else {
        printf("  refused %lu\n", (unsigned long)number);
    }
    free(pad);
    free(one);
}

/* A board: three tables that the host keeps. */
struct board {
    size_t length;
    uint32_t *a, *e, *i;
};

static struct board new_board(uint32_t n) {
    const size_t length = SPS_TABLE_LENGTH(n);
    struct board b = {length, malloc(length * sizeof *b.a), malloc(length * sizeof *b.e), malloc(length * sizeof *b.i)};
    if (b.a == NULL || b.e == NULL || b.i == NULL) exit(EXIT_FAILURE);
    return b;
}

static void free_board(struct board b) {
    free(b.i);
    free(b.e);
    free(b.a);
}

enum book { ALL_EXERCISES, SINGLE_CONTROLS };

/* Puts the exercises of a book on a fresh board: all, or those that use a single control. */
static uint32_t put_exercises(uint32_t n, uint32_t m, enum book book, struct board b) {
    uint32_t number = sps_board_fresh(n, m, b.a, b.length, b.e, b.length, b.i, b.length);
    for (uint32_t set = 1; set < b.length && number == SPS_ACCEPTED; set++) {
        if (table[set] == 0 || (book == SINGLE_CONTROLS && (set & (set - 1)) != 0)) continue;
        number = sps_board_add(n, m, set, table[set], b.a, b.length, b.e, b.length, b.i, b.length);
    }
    return number;
}

/* The whole panel's entry, or the word of the refusal. */
static void show_outcome(uint32_t number, const uint32_t *counts, size_t length) {
    if (number == SPS_ACCEPTED) {
        printf(" %lu\n", (unsigned long)counts[length - 1]);
    } else {
        printf(" refused %lu\n", (unsigned long)number);
    }
}

/* Puts all exercises on a board, and takes one off it again: of the first set that has any. */
static void withdraw_exercise(uint32_t n, uint32_t m) {
    struct board b = new_board(n);
    uint32_t number = put_exercises(n, m, ALL_EXERCISES, b), first = 1;
    while (first < b.length && table[first] == 0) first++;
    if (first < b.length) {
        if (number == SPS_ACCEPTED) number = sps_board_take(n, m, first, 1, b.a, b.length, b.e, b.length, b.i, b.length);
        printf("sessions without one exercise for a set, modulo %lu:\n", (unsigned long)m);
        printf("  ");
        show_set(first);
        show_outcome(number, b.e, b.length);
    }
    free_board(b);
}

/* Takes a whole book out of the joint count: the exercises that use a single control, which are on a board of their own. */
static void withdraw_book(uint32_t n, uint32_t m) {
    const size_t length = SPS_TABLE_LENGTH(n), pad_length = SPS_PAD_LENGTH(n);
    struct board joint = new_board(n), book = new_board(n);
    uint32_t *result = malloc(length * sizeof *result);
    uint32_t *pad = malloc(pad_length * sizeof *pad);
    if (result == NULL || pad == NULL) exit(EXIT_FAILURE);

    uint32_t number = put_exercises(n, m, ALL_EXERCISES, joint);
    if (number == SPS_ACCEPTED) number = put_exercises(n, m, SINGLE_CONTROLS, book);
    if (number == SPS_ACCEPTED) {
        number = (uint32_t)sps_subset_product(n, m, joint.e, length, book.i, length, result, length, pad, pad_length);
    }
    printf("sessions without exercises of a single control, modulo %lu:\n ", (unsigned long)m);
    show_outcome(number, result, length);
    free(pad);
    free(result);
    free_board(book);
    free_board(joint);
}

static void show_sessions(uint32_t n, uint32_t m) {
    const uint32_t others[] = {998244353, 1000000006, 4294967295};
    printf("sessions of the whole panel:\n");
    count_sessions(n, m);
    for (size_t i = 0; i < sizeof others / sizeof *others; i++) {
        if (others[i] != m) count_sessions(n, others[i]);
    }
    divide_sessions(n, m);
    withdraw_exercise(n, m);
    withdraw_book(n, m);
}

int main(int count, char **words) {
    if (count != 3) {
        fprintf(stderr, "usage: count_sessions FILE SHEET\n");
        return EXIT_FAILURE;
    }
    size_t length = read_file(words[1], bytes, sizeof bytes);
    uint64_t header = sps_header_check(bytes, length);
    uint32_t n = (uint32_t)(header >> 32) & 0xff, m = (uint32_t)header;
    uint64_t number = header >> 40;
    if (number == SPS_ACCEPTED) number = sps_read_table(bytes, length, table, SPS_TABLE_LENGTH(n)) >> 40;
    if (number != SPS_ACCEPTED) refuse(words[1], number);
    printf("%s: %lu controls, modulus %lu\n", words[1], (unsigned long)n, (unsigned long)m);
    show_pages(n, m, words[2]);
    show_lengths(n, m);
    show_sessions(n, m);
    return EXIT_SUCCESS;
}
