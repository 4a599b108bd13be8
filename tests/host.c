/*
 * A program in C over the library: every function of include/bellkettle.h on the sheets of document 01, on each refusal that can
 * come of it, at every place where a field can be bad, and on lent memory that is just large enough, too short by one, or empty.
 * Figures are documents 01's and 02's where they have the sheet. Logs come of a clock that this program runs tick by tick. The tell-tale's
 * calls are made on records of this program.
 */
#include "bellkettle.h"

#include <inttypes.h>
#include <stdbool.h>
#include <stddef.h>
#include <stdio.h>
#include <stdlib.h>
#include <string.h>

#define MARK 0x5a5a5a5a
#define MARK_BYTE 0x5a

/* The most values that a call gives. */
#define VALUES 9

/* Where the fields of an old sheet with n tasks begin, and that a refusal comes with no bit. */
#define COUNT_BIT 0
#define PERIOD_BIT(i) (5 + 42 * (int)(i))
#define BUDGET_BIT(i) (22 + 42 * (int)(i))
#define RANK_BIT(i) (39 + 42 * (int)(i))
#define LENGTH_BIT(n) (5 + 42 * (int)(n))
#define ENTRY_BIT(n, j) (10 + 42 * (int)(n) + 4 * (int)(j))
#define NO_BIT (-1)

/* Half the range of a counter. */
#define HALF 2147483648u

/* The same in edition 2, of a chain that begins at bit p; the first chain's, and the next one's after a chain of m. */
#define MARKED(bit) (9 + (bit))
#define FIRST_CHAIN(n) (18 + 42 * (int)(n))
#define CHAIN_LENGTH_BIT(p) ((p) + 22)
#define CHAIN_ENTRY_BIT(p, j) ((p) + 27 + 4 * (int)(j))
#define NEXT_CHAIN(p, m) ((p) + 27 + 4 * (int)(m))

static unsigned checks;

static void expect(const char *sheet, const char *what, int64_t got, int64_t wanted) {
    checks++;
    if (got != wanted) {
        printf("host: %s: %s: got %" PRId64 ", expected %" PRId64 "\n", sheet, what, got, wanted);
        exit(1);
    }
}

struct chain {
    uint8_t m, entries[BELLKETTLE_TASKS];
    uint32_t limit;
};

/* The fields of a sheet as they would be written, allowed or not. An old one is not of the second edition and has one chain. */
struct fields {
    const char *name;
    uint32_t n;
    uint32_t periods[BELLKETTLE_TASKS], budgets[BELLKETTLE_TASKS];
    uint8_t ranks[BELLKETTLE_TASKS];
    struct chain chains[BELLKETTLE_CHAINS];
    int second;
    uint32_t count;
};

/* How many chains have a place. */
static uint32_t chains_on(const struct fields *f) {
    return !f->second ? 1 : f->count < BELLKETTLE_CHAINS ? f->count : BELLKETTLE_CHAINS;
}

struct bytes {
    uint8_t at[BELLKETTLE_SHEET + 2];
    size_t bits;
};

/* Most significant bit first, with no gaps. */
static void pack_number(struct bytes *out, unsigned width, uint32_t number) {
    for (unsigned bit = width; bit-- > 0; out->bits++) {
        out->at[out->bits / 8] |= (uint8_t)((number >> bit & 1) << (7 - out->bits % 8));
    }
}

static void pack_chain(struct bytes *out, const struct chain *c) {
    pack_number(out, 5, c->m);
    for (uint32_t i = 0; i < c->m && i < BELLKETTLE_TASKS; i++) {
        pack_number(out, 4, c->entries[i]);
    }
}

static struct bytes pack(const struct fields *f) {
    struct bytes out = {{0}, 0};
    if (f->second) {
        pack_number(&out, 5, 31);
        pack_number(&out, 4, 2);
    }
    pack_number(&out, 5, f->n);
    for (uint32_t i = 0; i < f->n && i < BELLKETTLE_TASKS; i++) {
        pack_number(&out, 17, f->periods[i]);
        pack_number(&out, 17, f->budgets[i]);
        pack_number(&out, 8, f->ranks[i]);
    }
    if (f->second) {
        pack_number(&out, 4, f->count);
    }
    for (uint32_t c = 0; c < chains_on(f); c++) {
        if (f->second) {
            pack_number(&out, 22, f->chains[c].limit);
        }
        pack_chain(&out, &f->chains[c]);
    }
    return out;
}

static size_t size_of(const struct bytes *b) {
    return (b->bits + 7) / 8;
}

/* Lent memory with a pattern in it, and one place more than is lent. */
static uint32_t table[BELLKETTLE_TABLE + 1];
static int64_t values[VALUES + 1];

static void mark(void) {
    for (size_t i = 0; i <= BELLKETTLE_TABLE; i++) {
        table[i] = MARK;
    }
    for (size_t i = 0; i <= VALUES; i++) {
        values[i] = MARK;
    }
}

static void expect_marked(const char *sheet, size_t value, size_t entry) {
    for (size_t i = value; i <= VALUES; i++) {
        expect(sheet, "a value that is not given", values[i], MARK);
    }
    size_t touched = 0;
    for (size_t i = entry; i <= BELLKETTLE_TABLE; i++) {
        touched += table[i] != MARK;
    }
    expect(sheet, "entries touched that are not to be", (int64_t)touched, 0);
}

/* The five calls that fill a table and the one that is lent none, in one form. */
enum call { RESPONSES, DELAY, MARGIN, DEFAULT_MARGIN, FIGURES, QUICK_BOUND };

static uint8_t ask(enum call call, const uint8_t *sheet, size_t length, uint8_t chain, uint32_t number, size_t room, size_t places) {
    switch (call) {
    case RESPONSES: return bellkettle_responses(sheet, length, table, room, values, places);
    case DELAY: return bellkettle_delay(sheet, length, chain, number, table, room, values, places);
    case MARGIN: return bellkettle_margin(sheet, length, chain, number, table, room, values, places);
    case DEFAULT_MARGIN: return bellkettle_default_margin(sheet, length, chain, table, room, values, places);
    case FIGURES: return bellkettle_figures(sheet, length, chain, table, room, values, places);
    default: return bellkettle_quick_bound(sheet, length, chain, values, places);
    }
}

/* A call that is taken: its values, and the rows, in a table of exactly so many entries. */
static void expect_of_chain(const struct fields *f, enum call call, uint8_t chain, uint32_t number, size_t jobs, const uint32_t *rows, size_t count, const int64_t *wanted) {
    struct bytes sheet = pack(f);
    mark();
    expect(f->name, "the number returned", ask(call, sheet.at, size_of(&sheet), chain, number, jobs, count), 0);
    for (size_t i = 0; i < count; i++) {
        expect(f->name, "a value", values[i], wanted[i]);
    }
    for (size_t i = 0; rows != NULL && i < jobs; i++) {
        expect(f->name, "a response", table[i], rows[i]);
    }
    expect_marked(f->name, count, jobs);
}

/* Of the first chain. */
static void expect_given(const struct fields *f, enum call call, uint32_t number, size_t jobs, const uint32_t *rows, size_t count, const int64_t *wanted) {
    expect_of_chain(f, call, 1, number, jobs, rows, count, wanted);
}

/* With a refusal the bit is the only value, and the table is as it was. */
static void expect_bit(const char *name, int bit) {
    if (bit != NO_BIT) {
        expect(name, "the bit", values[0], bit);
    }
    expect_marked(name, bit != NO_BIT ? 1 : 0, 0);
}

/* A refusal other than 15 by any of the six. */
static void expect_refused(const char *name, enum call call, const uint8_t *sheet, size_t length, uint32_t number, size_t room, uint8_t refusal, int bit) {
    mark();
    expect(name, "the refusal", ask(call, sheet, length, 1, number, room, VALUES), refusal);
    expect_bit(name, bit);
}

/* By all that can give it: 10, 11 and 14 come of a table. */
static void expect_all_refuse(const char *name, const uint8_t *sheet, size_t length, size_t room, uint8_t refusal, int bit) {
    int of_a_table = refusal == 10 || refusal == 11 || refusal == 14;
    for (enum call call = RESPONSES; call <= (of_a_table ? FIGURES : QUICK_BOUND); call++) {
        expect_refused(name, call, sheet, length, 0, room, refusal, bit);
    }
}

/* The fields in a sheet's bytes, in exactly as many places as there are; or none of them. */
static void expect_read(const char *name, const uint8_t *sheet, size_t length, uint8_t refusal, int bit, const struct fields *f) {
    uint32_t periods[17], budgets[17], limits[9];
    uint8_t ranks[17], lengths[9], entries[129];
    for (size_t i = 0; i < 17; i++) {
        periods[i] = budgets[i] = MARK;
        ranks[i] = MARK_BYTE;
    }
    for (size_t c = 0; c < 9; c++) {
        limits[c] = MARK;
    }
    memset(lengths, MARK_BYTE, sizeof lengths);
    memset(entries, MARK_BYTE, sizeof entries);
    mark();
    expect(name, "reading", bellkettle_read(sheet, length, periods, 16, budgets, 16, ranks, 16, limits, 8, lengths, 8, entries, 128, values, 3), refusal);
    for (size_t i = 0; i < 17; i++) {
        int given = refusal == 0 && i < 16;
        expect(name, "a period read", periods[i], !given ? MARK : i < f->n ? f->periods[i] : 0);
        expect(name, "a budget read", budgets[i], !given ? MARK : i < f->n ? f->budgets[i] : 0);
        expect(name, "a rank read", ranks[i], !given ? MARK_BYTE : i < f->n ? f->ranks[i] : 0);
    }
    for (size_t c = 0; c < 9; c++) {
        int given = refusal == 0 && c < 8;
        struct chain wanted = {0};
        if (given && c < chains_on(f)) {
            wanted = f->chains[c];
        }
        expect(name, "a limit read", limits[c], given ? wanted.limit : MARK);
        expect(name, "a length read", lengths[c], given ? wanted.m : MARK_BYTE);
        for (size_t i = 0; i < (c < 8 ? 16 : 1); i++) {
            expect(name, "an entry read", entries[16 * c + i], given ? i < wanted.m ? wanted.entries[i] : 0 : MARK_BYTE);
        }
    }
    if (refusal == 0) {
        expect(name, "the edition read", values[0], f->second ? 2 : 1);
        expect(name, "n read", values[1], f->n);
        expect(name, "the number of chains read", values[2], f->second ? f->count : 0);
        expect_marked(name, 3, 0);
    } else {
        expect_bit(name, bit);
    }
}

/* The bytes of fields in an edition, in a buffer of so many. Edition 1 takes the first chain, whatever else there is. */
static void expect_written_as(uint8_t edition, const struct fields *f, size_t room, uint8_t refusal, int bit) {
    struct bytes wanted = pack(f);
    uint8_t out[BELLKETTLE_SHEET + 2], lengths[BELLKETTLE_CHAINS + 1] = {0}, entries[128];
    uint32_t limits[BELLKETTLE_CHAINS + 1] = {0};
    size_t count = f->second ? f->count : 1;
    for (size_t c = 0; c < BELLKETTLE_CHAINS; c++) {
        limits[c] = f->chains[c].limit;
        lengths[c] = f->chains[c].m;
        memcpy(entries + 16 * c, f->chains[c].entries, 16);
    }
    memset(out, MARK_BYTE, sizeof out);
    mark();
    expect(f->name, "writing",
           bellkettle_write(edition, f->periods, f->n, f->budgets, f->n, f->ranks, f->n, limits, f->second ? count : 0, lengths, count,
                            entries, sizeof entries, out, room, values, 1),
           refusal);
    size_t size = refusal == 0 ? size_of(&wanted) : 0;
    for (size_t i = 0; i < sizeof out; i++) {
        expect(f->name, "a byte written", out[i], i < size ? wanted.at[i] : MARK_BYTE);
    }
    if (refusal == 0) {
        expect(f->name, "the size written", values[0], (int64_t)size);
        expect_marked(f->name, 1, 0);
    } else {
        expect_bit(f->name, bit);
    }
}

static void expect_written(const struct fields *f, size_t room, uint8_t refusal, int bit) {
    expect_written_as(f->second ? 2 : 1, f, room, refusal, bit);
}

/* A sheet with a bad field, in bytes and in memory. */
static void expect_bad_field(const struct fields *f, uint8_t refusal, int bit) {
    struct bytes sheet = pack(f);
    expect_all_refuse(f->name, sheet.at, size_of(&sheet), 0, refusal, bit);
    expect_read(f->name, sheet.at, size_of(&sheet), refusal, bit, f);
    expect_written(f, BELLKETTLE_SHEET, refusal, bit);
}

/* Goes over one field: whether so many bits end inside it. */
static int cut_in(size_t *begin, size_t width, size_t bits) {
    if (bits < *begin + width) {
        return 1;
    }
    *begin += width;
    return 0;
}

/* Where the field begins in which so many bits end. */
static int field_cut(const struct fields *f, size_t bits) {
    size_t begin = 0;
    int cut = f->second && (cut_in(&begin, 5, bits) || cut_in(&begin, 4, bits));
    cut = cut || cut_in(&begin, 5, bits);
    for (uint32_t i = 0; i < f->n; i++) {
        cut = cut || cut_in(&begin, 17, bits) || cut_in(&begin, 17, bits) || cut_in(&begin, 8, bits);
    }
    cut = cut || (f->second && cut_in(&begin, 4, bits));
    for (uint32_t c = 0; c < chains_on(f); c++) {
        cut = cut || (f->second && cut_in(&begin, 22, bits)) || cut_in(&begin, 5, bits);
        for (uint32_t j = 0; j < f->chains[c].m; j++) {
            cut = cut || cut_in(&begin, 4, bits);
        }
    }
    return (int)begin;
}

/* A sheet that is taken, read and written; with its table too small by one entry, every call refuses it. */
static void expect_sheet(const struct fields *f, size_t jobs) {
    struct bytes sheet = pack(f);
    expect_read(f->name, sheet.at, size_of(&sheet), 0, NO_BIT, f);
    for (size_t size = 0; size < size_of(&sheet); size++) {
        expect_read(f->name, sheet.at, size, 1, field_cut(f, size * 8), f);
    }
    expect_written(f, size_of(&sheet), 0, NO_BIT);
    expect_written(f, size_of(&sheet) + 1, 0, NO_BIT);
    expect_written(f, size_of(&sheet) - 1, 14, NO_BIT);
    expect_all_refuse(f->name, sheet.at, size_of(&sheet), jobs - 1, 14, NO_BIT);
}

/* The bounds with no table. */
static void expect_quick_bound(const struct fields *f, int64_t sampling, int64_t bound) {
    expect_given(f, QUICK_BOUND, 0, 0, NULL, 2, (int64_t[]){sampling, bound});
    expect_given(f, QUICK_BOUND, 0, 0, NULL, 1, (int64_t[]){sampling});
    expect_given(f, QUICK_BOUND, 0, 0, NULL, 0, NULL);
}

static void expect_quick_late(const struct fields *f, int64_t task) {
    struct bytes sheet = pack(f);
    for (size_t places = 0; places < 3; places++) {
        mark();
        expect(f->name, "the refusal", ask(QUICK_BOUND, sheet.at, size_of(&sheet), 1, 0, 0, places), 15);
        if (places > 0) {
            expect(f->name, "the task", values[0], task);
        }
        expect_marked(f->name, places > 0 ? 1 : 0, 0);
    }
}

static const struct fields trio = {"Trio", 3, {8, 2, 4}, {1, 1, 1}, {1, 3, 2}, {{3, {0, 1, 2}, 0}}, 0, 0};
static const struct fields radio = {"Radio", 3, {20, 6, 12}, {5, 1, 3}, {1, 3, 2}, {{3, {0, 1, 2}, 0}}, 0, 0};
static const struct fields radio_short = {"Radio, chain 0 1", 3, {20, 6, 12}, {5, 1, 3}, {1, 3, 2}, {{2, {0, 1}, 0}}, 0, 0};
static const struct fields quartet = {"Quartet", 4, {6, 6, 3, 6}, {1, 1, 1, 1}, {4, 3, 2, 1}, {{2, {2, 3}, 0}}, 0, 0};
static const struct fields lone = {"Lone", 1, {5}, {5}, {1}, {{1, {0}, 0}}, 0, 0};
static const struct fields every_tick = {"a first task of period 1", 1, {1}, {1}, {1}, {{1, {0}, 0}}, 0, 0};
static const struct fields longest_period = {"a first task of period 100,000", 1, {100000}, {1}, {1}, {{1, {0}, 0}}, 0, 0};
static const struct fields slow = {"a margin below zero", 1, {5000}, {2000}, {1}, {{1, {0}, 0}}, 0, 0};
static const struct fields budget_over = {"a budget over its period", 1, {5}, {6}, {1}, {{1, {0}, 0}}, 0, 0};
static const struct fields late = {"a late task", 2, {2, 3}, {1, 2}, {2, 1}, {{1, {0}, 0}}, 0, 0};
static const struct fields longest = {"periods 1,000 and 999", 2, {1000, 999}, {1, 1}, {2, 1}, {{1, {0}, 0}}, 0, 0};
static const struct fields too_long = {"periods 1,000 and 1,001", 2, {1000, 1001}, {1, 1}, {2, 1}, {{1, {0}, 0}}, 0, 0};
static const struct fields most_jobs = {"periods 2 and 16,382", 2, {2, 16382}, {1, 1}, {2, 1}, {{1, {0}, 0}}, 0, 0};
static const struct fields odd = {"periods 997, 1,009 and 1,013", 3, {997, 1009, 1013}, {100, 200, 300}, {3, 2, 1}, {{3, {2, 1, 0}, 0}}, 0, 0};
static const struct fields just_fits = {"a task that just fits", 3, {997, 1009, 1013}, {12, 3, 983}, {3, 2, 1}, {{1, {2}, 0}}, 0, 0};
static const struct fields just_late = {"a task that just does not", 3, {997, 1009, 1013}, {12, 3, 984}, {3, 2, 1}, {{1, {2}, 0}}, 0, 0};
static const struct fields two_late = {"two late tasks", 3, {10, 3, 2}, {6, 1, 2}, {1, 2, 3}, {{1, {0}, 0}}, 0, 0};
static const struct fields too_many = {"periods 2 and 16,384", 2, {2, 16384}, {1, 1}, {2, 1}, {{1, {0}, 0}}, 0, 0};

static void document_one(void) {
    const uint32_t rows[] = {4, 1, 1, 1, 1, 2, 2};
    expect_sheet(&trio, 7);
    expect_given(&trio, RESPONSES, 0, 7, rows, 3, (int64_t[]){8, 7, 1});
    expect_given(&trio, FIGURES, 0, 7, rows, 9, (int64_t[]){8, 7, 1, 6, 0, 8, 13, 15, 987});
    expect_quick_bound(&trio, 8, 15);
}

static void document_two_and_three(void) {
    const uint32_t rows[] = {10, 9, 6, 1, 1, 1, 1, 1, 1, 1, 1, 1, 1, 4, 4, 4, 4, 4};
    expect_sheet(&radio, 18);
    expect_given(&radio, RESPONSES, 0, 18, rows, 3, (int64_t[]){60, 18, 20});
    expect_given(&radio, DELAY, 0, 18, rows, 1, (int64_t[]){16});
    expect_given(&radio, DELAY, 20, 18, rows, 1, (int64_t[]){20});
    expect_given(&radio, DELAY, 40, 18, rows, 1, (int64_t[]){12});
    expect_given(&radio, DEFAULT_MARGIN, 0, 18, rows, 1, (int64_t[]){461});
    expect_given(&radio, MARGIN, BELLKETTLE_DEFAULT_LIMIT, 18, rows, 1, (int64_t[]){461});
    expect_given(&radio, MARGIN, BELLKETTLE_OLD_LIMIT, 18, rows, 1, (int64_t[]){961});
    expect_given(&radio, MARGIN, 39, 18, rows, 1, (int64_t[]){0});
    expect_given(&radio, MARGIN, 0, 18, rows, 1, (int64_t[]){-39});
    expect_given(&radio, MARGIN, 4000000, 18, rows, 1, (int64_t[]){3999961});
    expect_given(&radio, FIGURES, 0, 18, rows, 9, (int64_t[]){60, 18, 20, 20, 20, 24, 39, 43, 961});
    expect_quick_bound(&radio, 24, 43);

    expect_sheet(&radio_short, 18);
    expect_given(&radio_short, DELAY, 0, 18, rows, 1, (int64_t[]){13});
    expect_given(&radio_short, DELAY, 20, 18, rows, 1, (int64_t[]){11});
    expect_given(&radio_short, DELAY, 40, 18, rows, 1, (int64_t[]){9});
    expect_given(&radio_short, FIGURES, 0, 18, rows, 9, (int64_t[]){60, 18, 20, 13, 0, 15, 32, 34, 968});
    expect_quick_bound(&radio_short, 15, 34);
}

static void document_four_to_six(void) {
    expect_sheet(&quartet, 5);
    expect_given(&quartet, FIGURES, 0, 5, NULL, 9, (int64_t[]){6, 5, 1, 8, 3, 8, 10, 10, 990});
    expect_quick_bound(&quartet, 8, 10);

    const uint8_t printed[] = {0x08, 0x00, 0x14, 0x00, 0x0A, 0x02, 0x10};
    expect_sheet(&lone, 1);
    expect_read("Lone as printed", printed, sizeof printed, 0, NO_BIT, &lone);
    expect_given(&lone, FIGURES, 0, 1, (uint32_t[]){5}, 9, (int64_t[]){5, 1, 0, 5, 0, 5, 9, 9, 991});
    expect_quick_bound(&lone, 5, 9);

    expect_bad_field(&budget_over, 4, 22);
}

/* 15 gives the late task and leaves zeros in the first J entries, here 3 and 2. */
static void document_seven(void) {
    struct bytes sheet = pack(&late);
    expect_sheet(&late, 5);
    for (enum call call = RESPONSES; call <= FIGURES; call++) {
        for (size_t places = 0; places < 2; places++) {
            mark();
            expect(late.name, "the refusal", ask(call, sheet.at, size_of(&sheet), 1, 0, 5, places), 15);
            if (places > 0) {
                expect(late.name, "the task", values[0], 1);
            }
            for (size_t i = 0; i < 5; i++) {
                expect(late.name, "a zero", table[i], 0);
            }
            expect_marked(late.name, places, 5);
        }
    }
    expect_quick_late(&late, 1);
}

static void document_eight_to_ten(void) {
    struct bytes sheet = pack(&longest);
    expect(longest.name, "taken", ask(RESPONSES, sheet.at, size_of(&sheet), 1, 0, BELLKETTLE_TABLE, 3), 0);
    expect(longest.name, "H", values[0], 999000);
    expect_sheet(&most_jobs, BELLKETTLE_TABLE);
    sheet = pack(&most_jobs);
    expect(most_jobs.name, "taken", ask(RESPONSES, sheet.at, size_of(&sheet), 1, 0, BELLKETTLE_TABLE, 3), 0);
    expect(most_jobs.name, "J", values[1], 8192);

    sheet = pack(&too_long);
    expect_all_refuse(too_long.name, sheet.at, size_of(&sheet), 0, 10, NO_BIT);
    sheet = pack(&too_many);
    expect_all_refuse(too_many.name, sheet.at, size_of(&sheet), 0, 11, NO_BIT);
    expect_quick_bound(&longest, 1, 1000);
    expect_quick_bound(&too_long, 1, 1000);
    expect_quick_bound(&most_jobs, 1, 2);
    expect_quick_bound(&too_many, 1, 2);

    sheet = pack(&lone);
    expect_all_refuse("no bytes", NULL, 0, 1, 1, 0);
    expect_all_refuse("one byte more", sheet.at, size_of(&sheet) + 1, 1, 9, 56);
    expect_read("one byte more", sheet.at, size_of(&sheet) + 1, 9, 56, &lone);
}

/* The fields of Radio end at bit 148, its bytes at 152. */
static void refusals_of_the_end(void) {
    const struct {
        const char *name;
        uint8_t padding, surplus;
        size_t more;
        int bit;
    } refused[] = {
        {"the first padding bit", 0x08, 0, 0, 148},
        {"the last padding bit", 0x01, 0, 0, 151},
        {"two padding bits", 0x05, 0, 0, 149},
        {"a surplus byte", 0, 0, 1, 152},
        {"a surplus byte that is not zero", 0, 0x01, 1, 152},
        {"a padding bit and a surplus byte", 0x02, 0x80, 1, 150},
    };
    for (size_t i = 0; i < sizeof refused / sizeof *refused; i++) {
        struct bytes sheet = pack(&radio);
        size_t size = size_of(&sheet);
        sheet.at[size - 1] |= refused[i].padding;
        sheet.at[size] = refused[i].surplus;
        expect_all_refuse(refused[i].name, sheet.at, size + refused[i].more, 1, 9, refused[i].bit);
        expect_read(refused[i].name, sheet.at, size + refused[i].more, 9, refused[i].bit, &radio);
    }
}

/* 2 to 8 on small sheets. */
static void refusals_of_fields(void) {
    const struct {
        uint8_t refusal;
        int bit;
        struct fields fields;
    } refused[] = {
        {2, COUNT_BIT, {"no task", 0, {0}, {0}, {0}, {{0, {0}, 0}}, 0, 0}},
        {3, PERIOD_BIT(0), {"no period", 1, {0}, {1}, {1}, {{1, {0}, 0}}, 0, 0}},
        {3, PERIOD_BIT(0), {"a period over 100,000", 1, {100001}, {1}, {1}, {{1, {0}, 0}}, 0, 0}},
        {4, BUDGET_BIT(0), {"no budget", 1, {5}, {0}, {1}, {{1, {0}, 0}}, 0, 0}},
        {5, RANK_BIT(1), {"a rank twice", 2, {5, 6}, {1, 1}, {7, 7}, {{1, {0}, 0}}, 0, 0}},
        {6, LENGTH_BIT(1), {"no chain", 1, {5}, {1}, {1}, {{0, {0}, 0}}, 0, 0}},
        {6, LENGTH_BIT(1), {"a chain over n", 1, {5}, {1}, {1}, {{2, {0, 0}, 0}}, 0, 0}},
        {7, ENTRY_BIT(2, 0), {"an entry that is n", 2, {5, 6}, {1, 1}, {1, 2}, {{1, {2}, 0}}, 0, 0}},
        {8, ENTRY_BIT(2, 1), {"an entry twice", 2, {5, 6}, {1, 1}, {1, 2}, {{2, {1, 1}, 0}}, 0, 0}},
    };
    for (size_t i = 0; i < sizeof refused / sizeof *refused; i++) {
        expect_bad_field(&refused[i].fields, refused[i].refusal, refused[i].bit);
    }
}

/* The largest sheet of so many tasks: as many entries. */
static struct fields of_tasks(const char *name, uint32_t n) {
    struct fields f = {.name = name, .n = n};
    f.chains[0].m = (uint8_t)n;
    for (uint8_t i = 0; i < n; i++) {
        f.periods[i] = 100;
        f.budgets[i] = 1;
        f.ranks[i] = f.chains[0].entries[i] = i;
    }
    return f;
}

/* The same in edition 2, with so many chains. */
static struct fields of_chains(const char *name, uint32_t n, uint32_t count) {
    struct fields f = of_tasks(name, n);
    f.second = 1;
    f.count = count;
    for (uint32_t c = 0; c < BELLKETTLE_CHAINS; c++) {
        f.chains[c] = f.chains[0];
        f.chains[c].limit = 1000 * c;
    }
    return f;
}

/* 3 to 8 at every place of the largest sheets. Four bits hold no entry that is 16: the writer alone can be given that. */
static void refusals_at_every_place(void) {
    for (uint32_t i = 0; i < BELLKETTLE_TASKS; i++) {
        struct fields f = of_tasks("a period of sixteen", 16);
        f.periods[i] = 0;
        expect_bad_field(&f, 3, PERIOD_BIT(i));
        f = of_tasks("a budget of sixteen", 16);
        f.budgets[i] = 101;
        expect_bad_field(&f, 4, BUDGET_BIT(i));
        f = of_tasks("an entry of sixteen", 16);
        f.chains[0].entries[i] = 16;
        expect_written(&f, BELLKETTLE_SHEET, 7, ENTRY_BIT(16, i));
    }
    for (uint32_t i = 1; i < BELLKETTLE_TASKS; i++) {
        struct fields f = of_tasks("a rank of sixteen", 16);
        f.ranks[i] = f.ranks[i - 1];
        expect_bad_field(&f, 5, RANK_BIT(i));
        f = of_tasks("a length", i);
        f.chains[0].m = 0;
        expect_bad_field(&f, 6, LENGTH_BIT(i));
        f = of_tasks("the last entry", i);
        f.chains[0].entries[i - 1] = (uint8_t)i;
        expect_bad_field(&f, 7, ENTRY_BIT(i, i - 1));
        f = of_tasks("an entry that comes twice", 16);
        f.chains[0].entries[i] = f.chains[0].entries[0];
        expect_bad_field(&f, 8, ENTRY_BIT(16, i));
    }
    struct fields f = of_tasks("the length of sixteen", 16);
    f.chains[0].m = 0;
    expect_bad_field(&f, 6, LENGTH_BIT(16));
    f = of_tasks("sixteen", 16);
    expect_sheet(&f, 16);
}

/* Every field of edition 2 at its first place and at its last, which is in the eighth of eight chains. */
static void refusals_of_the_second_edition(void) {
    struct fields f = of_chains("no task", 1, 1);
    f.n = 0;
    expect_bad_field(&f, 2, MARKED(COUNT_BIT));
    for (uint32_t i = 0; i < BELLKETTLE_TASKS; i++) {
        f = of_chains("a period of sixteen", 16, 8);
        f.periods[i] = 100001;
        expect_bad_field(&f, 3, MARKED(PERIOD_BIT(i)));
        f = of_chains("a budget of sixteen", 16, 8);
        f.budgets[i] = 0;
        expect_bad_field(&f, 4, MARKED(BUDGET_BIT(i)));
        if (i > 0) {
            f = of_chains("a rank of sixteen", 16, 8);
            f.ranks[i] = f.ranks[i - 1];
            expect_bad_field(&f, 5, MARKED(RANK_BIT(i)));
        }
    }
    f = of_chains("no chain", 16, 0);
    expect_bad_field(&f, 17, NO_BIT);
    int p = FIRST_CHAIN(15);
    for (uint32_t c = 0; c < BELLKETTLE_CHAINS; c++) {
        f = of_chains("a limit over 4,000,000", 15, 8);
        f.chains[c].limit = 4000000;
        expect_sheet(&f, 15);
        f.chains[c].limit = 4000001;
        expect_bad_field(&f, 13, NO_BIT);
        f = of_chains("a length of eight", 15, 8);
        f.chains[c].m = 0;
        expect_bad_field(&f, 6, CHAIN_LENGTH_BIT(p));
        f.chains[c].m = 16;
        expect_bad_field(&f, 6, CHAIN_LENGTH_BIT(p));
        for (uint32_t j = 0; j < 15; j++) {
            f = of_chains("an entry of a chain", 15, 8);
            f.chains[c].entries[j] = 15;
            expect_bad_field(&f, 7, CHAIN_ENTRY_BIT(p, j));
            if (j > 0) {
                f.chains[c].entries[j] = f.chains[c].entries[0];
                expect_bad_field(&f, 8, CHAIN_ENTRY_BIT(p, j));
            }
        }
        p = NEXT_CHAIN(p, 15);
    }
    const uint8_t editions[] = {0, 1, 3, 15};
    for (size_t i = 0; i < sizeof editions; i++) {
        f = of_chains("an edition that is none", 3, 2);
        struct bytes sheet = pack(&f);
        sheet.at[0] = (uint8_t)(0xF8 | editions[i] >> 1);
        sheet.at[1] = (uint8_t)((sheet.at[1] & 0x7F) | (editions[i] & 1) << 7);
        expect_all_refuse(f.name, sheet.at, size_of(&sheet), 0, 16, NO_BIT);
        expect_read(f.name, sheet.at, size_of(&sheet), 16, NO_BIT, &f);
    }
    const uint8_t none[] = {0, 3, 15, 16, 17, 18, 255};
    for (size_t i = 0; i < sizeof none; i++) {
        f = of_chains("an edition that is none", 3, 2);
        expect_written_as(none[i], &f, BELLKETTLE_SHEET, 16, NO_BIT);
    }
    f = of_chains("the largest sheet", 16, 8);
    expect_sheet(&f, 16);
    struct bytes largest = pack(&f);
    expect(f.name, "its bytes", (int64_t)size_of(&largest), BELLKETTLE_SHEET);
    f = of_chains("the smallest sheet of edition 2", 1, 1);
    expect_sheet(&f, 1);
    struct bytes smallest = pack(&f);
    expect(f.name, "its bytes", (int64_t)size_of(&smallest), 12);
}

/* Radio's two chains on one sheet, each with its own limit. */
static const struct fields both = {"Radio, two chains", 3, {20, 6, 12}, {5, 1, 3}, {1, 3, 2}, {{3, {0, 1, 2}, 39}, {2, {0, 1}, 4000000}}, 1, 2};

static void several_chains(void) {
    const uint32_t rows[] = {10, 9, 6, 1, 1, 1, 1, 1, 1, 1, 1, 1, 1, 4, 4, 4, 4, 4};
    expect_sheet(&both, 18);
    expect_given(&both, RESPONSES, 0, 18, rows, 3, (int64_t[]){60, 18, 20});
    expect_of_chain(&both, DELAY, 1, 20, 18, rows, 1, (int64_t[]){20});
    expect_of_chain(&both, DELAY, 2, 20, 18, rows, 1, (int64_t[]){11});
    expect_of_chain(&both, MARGIN, 1, 40, 18, rows, 1, (int64_t[]){1});
    expect_of_chain(&both, MARGIN, 2, 40, 18, rows, 1, (int64_t[]){8});
    expect_of_chain(&both, DEFAULT_MARGIN, 1, 0, 18, rows, 1, (int64_t[]){461});
    expect_of_chain(&both, DEFAULT_MARGIN, 2, 0, 18, rows, 1, (int64_t[]){468});
    expect_of_chain(&both, FIGURES, 1, 0, 18, rows, 9, (int64_t[]){60, 18, 20, 20, 20, 24, 39, 43, 0});
    expect_of_chain(&both, FIGURES, 2, 0, 18, rows, 9, (int64_t[]){60, 18, 20, 13, 0, 15, 32, 34, 3999968});
    expect_of_chain(&both, QUICK_BOUND, 1, 0, 0, NULL, 2, (int64_t[]){24, 43});
    expect_of_chain(&both, QUICK_BOUND, 2, 0, 0, NULL, 2, (int64_t[]){15, 34});
}

/* 17 for a number that the sheet lacks: after the fields, before all else that a call can refuse with. */
static void chain_numbers(void) {
    const struct fields *sheets[] = {&both, &radio, &late, &too_long, &too_many};
    for (size_t i = 0; i < sizeof sheets / sizeof *sheets; i++) {
        struct bytes sheet = pack(sheets[i]);
        const uint8_t lacking[] = {0, (uint8_t)(chains_on(sheets[i]) + 1), 128, 255};
        for (size_t k = 0; k < sizeof lacking; k++) {
            for (enum call call = DELAY; call <= QUICK_BOUND; call++) {
                mark();
                expect(sheets[i]->name, "no such chain", ask(call, sheet.at, size_of(&sheet), lacking[k], UINT32_MAX, 0, VALUES), 17);
                expect_marked(sheets[i]->name, 0, 0);
                mark();
                expect(sheets[i]->name, "a byte missing", ask(call, sheet.at, size_of(&sheet) - 1, lacking[k], UINT32_MAX, 0, VALUES), 1);
            }
        }
    }
}

/* More tasks or chains than there are places, and slices that are not of one length. */
static uint8_t write_lengths(uint8_t edition, size_t periods, size_t budgets, size_t ranks, size_t limits, size_t lengths, size_t entries) {
    static uint32_t numbers[300];
    static uint8_t bytes[300], ones[300], out[BELLKETTLE_SHEET];
    for (size_t i = 0; i < 300; i++) {
        numbers[i] = 1;
        bytes[i] = (uint8_t)i;
        ones[i] = 1;
    }
    mark();
    return bellkettle_write(edition, numbers, periods, numbers, budgets, bytes, ranks, numbers, limits, ones, lengths, bytes, entries, out,
                            sizeof out, values, 1);
}

static void refusals_of_lengths(void) {
    const uint8_t seventeen[] = {0x88, 0, 0, 0, 0, 0, 0};
    expect_all_refuse("seventeen tasks", seventeen, sizeof seventeen, 0, 2, COUNT_BIT);
    for (uint8_t edition = 1; edition < 3; edition++) {
        int count_bit = edition == 1 ? COUNT_BIT : MARKED(COUNT_BIT);
        expect("seventeen tasks", "writing", write_lengths(edition, 17, 17, 17, 1, 1, 1), 2);
        expect("257 tasks", "writing", write_lengths(edition, 257, 257, 257, 1, 1, 1), 2);
        expect("a budget missing", "writing", write_lengths(edition, 2, 1, 2, 1, 1, 1), 2);
        expect("a budget missing", "the bit", values[0], count_bit);
        expect("a rank missing", "writing", write_lengths(edition, 2, 2, 1, 1, 1, 1), 2);
        expect("a rank too many", "writing", write_lengths(edition, 2, 2, 3, 1, 1, 1), 2);
        expect("sixteen tasks", "writing", write_lengths(edition, 16, 16, 16, 1, 1, 1), 0);
        expect("no entries", "writing", write_lengths(edition, 16, 16, 16, 1, 1, 0), 0);
    }
    expect("nine chains", "writing", write_lengths(2, 1, 1, 1, 9, 9, 128), 17);
    expect("257 chains", "writing", write_lengths(2, 1, 1, 1, 257, 257, 128), 17);
    expect("a limit missing", "writing", write_lengths(2, 1, 1, 1, 1, 2, 128), 17);
    expect("a limit too many", "writing", write_lengths(2, 1, 1, 1, 2, 1, 128), 17);
    expect("no chains", "writing", write_lengths(2, 1, 1, 1, 0, 0, 128), 17);
    expect("no chain", "writing", write_lengths(1, 1, 1, 1, 1, 0, 128), 6);
    expect("no chain", "the bit", values[0], LENGTH_BIT(1));
    expect("nine chains on an old sheet", "writing", write_lengths(1, 1, 1, 1, 5, 9, 128), 0);
    expect("nine chains on an old sheet", "the size", values[0], 7);
    expect("eight chains", "writing", write_lengths(2, 16, 16, 16, 8, 8, 1), 0);
    expect("nothing", "writing", bellkettle_write(1, NULL, 0, NULL, 0, NULL, 0, NULL, 0, NULL, 0, NULL, 0, NULL, 0, NULL, 0), 2);
    expect("nothing", "writing", bellkettle_write(2, NULL, 0, NULL, 0, NULL, 0, NULL, 0, NULL, 0, NULL, 0, NULL, 0, NULL, 0), 2);
    expect("no edition", "writing", bellkettle_write(0, NULL, 0, NULL, 0, NULL, 0, NULL, 0, NULL, 0, NULL, 0, NULL, 0, NULL, 0), 16);
}

/* 12 and 13 come before 14. */
static void refusals_of_numbers(void) {
    struct bytes sheet = pack(&radio);
    size_t size = size_of(&sheet);
    expect_refused("a release between two", DELAY, sheet.at, size, 1, 0, 12, NO_BIT);
    expect_refused("a release at H", DELAY, sheet.at, size, 60, 0, 12, NO_BIT);
    expect_refused("a release at the last number", DELAY, sheet.at, size, UINT32_MAX, 18, 12, NO_BIT);
    expect_refused("a limit over the most", MARGIN, sheet.at, size, 4000001, 0, 13, NO_BIT);
    expect_refused("a limit at the last number", MARGIN, sheet.at, size, UINT32_MAX, 18, 13, NO_BIT);
}

/* A task alone, whose response is its budget. To that the flag's wait for a release is added, T - 1. */
static void first_periods(void) {
    expect_sheet(&every_tick, 1);
    expect_given(&every_tick, FIGURES, 0, 1, (uint32_t[]){1}, 9, (int64_t[]){1, 1, 0, 1, 0, 1, 1, 1, 999});
    expect_given(&every_tick, MARGIN, 1, 1, (uint32_t[]){1}, 1, (int64_t[]){0});
    expect_sheet(&longest_period, 1);
    expect_given(&longest_period, FIGURES, 0, 1, (uint32_t[]){1}, 9, (int64_t[]){100000, 1, 99999, 1, 0, 1, 100000, 100000, -99000});
    expect_given(&longest_period, MARGIN, 100000, 1, (uint32_t[]){1}, 1, (int64_t[]){0});
}

/* The same, near the two limits: what takes 501 to 1,000 ticks keeps that of an old sheet and not the default. */
static void two_limits(void) {
    const uint32_t periods[] = {500, 501, 1000, 1001};
    for (size_t i = 0; i < sizeof periods / sizeof *periods; i++) {
        uint32_t worst = periods[i];
        const struct fields f = {"a worst near a limit", 1, {worst}, {1}, {1}, {{1, {0}, 0}}, 0, 0};
        expect_given(&f, DEFAULT_MARGIN, 0, 1, (uint32_t[]){1}, 1, (int64_t[]){500 - (int64_t)worst});
        expect_given(&f, FIGURES, 0, 1, (uint32_t[]){1}, 9, (int64_t[]){worst, 1, worst - 1, 1, 0, 1, worst, worst, 1000 - (int64_t)worst});
    }
}

/* The same, over both. */
static void margin_below_zero(void) {
    expect_sheet(&slow, 1);
    expect_given(&slow, DEFAULT_MARGIN, 0, 1, (uint32_t[]){2000}, 1, (int64_t[]){-6499});
    expect_given(&slow, FIGURES, 0, 1, (uint32_t[]){2000}, 9, (int64_t[]){5000, 1, 3000, 2000, 0, 2000, 6999, 6999, -5999});
}

/* No H is found: 997, 1,009 and 1,013 have no common divisor, so a pair adds T - 1 of its second task and R of its first. */
static void odd_periods(void) {
    struct bytes sheet = pack(&odd);
    expect_all_refuse(odd.name, sheet.at, size_of(&sheet), BELLKETTLE_TABLE, 10, NO_BIT);
    expect_quick_bound(&odd, 600 + 1008 + 300 + 996 + 100, 3004 + 1012);
    expect_quick_bound(&just_fits, 1013, 1013 + 1012);
    expect_quick_late(&just_late, 2);
    expect_quick_late(&two_late, 1);
    expect("nothing lent", "the number returned", bellkettle_quick_bound(sheet.at, size_of(&sheet), 1, NULL, 0), 0);
    expect("no place for the bit", "the refusal", bellkettle_quick_bound(NULL, 0, 1, NULL, 0), 1);
}

/* Lent memory that is short or none gets as much as it has places for. */
static void short_memory(void) {
    struct bytes sheet = pack(&radio);
    size_t size = size_of(&sheet);
    for (size_t places = 0; places < VALUES; places++) {
        expect_given(&radio, FIGURES, 0, 18, NULL, places, (int64_t[]){60, 18, 20, 20, 20, 24, 39, 43});
    }
    expect("nothing lent", "the refusal", bellkettle_figures(sheet.at, size, 1, NULL, 0, NULL, 0), 14);
    expect("no place for the bit", "the refusal", bellkettle_figures(sheet.at, size - 1, 1, table, 18, NULL, 0), 1);
    expect("no values lent", "the number returned", bellkettle_figures(sheet.at, size, 1, table, 18, NULL, 0), 0);

    uint32_t periods[] = {MARK, MARK, MARK};
    expect("two periods of three", "reading",
           bellkettle_read(sheet.at, size, periods, 2, NULL, 0, NULL, 0, NULL, 0, NULL, 0, NULL, 0, NULL, 0), 0);
    expect("two periods of three", "the first", periods[0], 20);
    expect("two periods of three", "the second", periods[1], 6);
    expect("two periods of three", "the third", periods[2], MARK);

    sheet = pack(&both);
    size = size_of(&sheet);
    uint32_t limits[] = {MARK, MARK};
    uint8_t entries[19];
    memset(entries, MARK_BYTE, sizeof entries);
    expect("one limit of two", "reading",
           bellkettle_read(sheet.at, size, NULL, 0, NULL, 0, NULL, 0, limits, 1, NULL, 0, entries, 18, NULL, 0), 0);
    expect("one limit of two", "the first", limits[0], 39);
    expect("one limit of two", "the second", limits[1], MARK);
    expect("eighteen entries", "the last of the first chain", entries[2], 2);
    expect("eighteen entries", "an unused place of it", entries[3], 0);
    expect("eighteen entries", "the last of the second chain", entries[17], 1);
    expect("eighteen entries", "one more", entries[18], MARK_BYTE);
}

/* The replay: logs as a clock would write them, and logs that no clock would. */

struct record {
    uint32_t task, kind, counter;
};

struct log {
    uint32_t origin, count;
    struct record at[4095];
};

static struct log night;
static uint8_t log_bytes[BELLKETTLE_LOG + 1];
static size_t log_bits;

static void log_number(unsigned width, uint32_t number) {
    for (unsigned bit = width; bit-- > 0; log_bits++) {
        log_bytes[log_bits / 8] |= (uint8_t)((number >> bit & 1) << (7 - log_bits % 8));
    }
}

/* How many bytes the log takes. */
static size_t log_written(const struct log *l) {
    memset(log_bytes, 0, sizeof log_bytes);
    log_bits = 0;
    log_number(32, l->origin);
    log_number(12, l->count);
    for (uint32_t r = 0; r < l->count; r++) {
        log_number(4, l->at[r].task);
        log_number(1, l->at[r].kind);
        log_number(32, l->at[r].counter);
    }
    return (log_bits + 7) / 8;
}

static void log_record(struct log *l, uint32_t task, uint32_t kind, uint32_t time) {
    if (l->count < 4095) {
        l->at[l->count++] = (struct record){task, kind, l->origin + time};
    }
}

/* A clock that keeps the sheet, every job with its whole budget, tick by tick: at each the finish that is due is logged, and the start if one is. */
static void run_clock(struct log *l, const struct fields *f, uint32_t origin, uint32_t ticks) {
    uint32_t jobs[BELLKETTLE_TASKS] = {0}, ran[BELLKETTLE_TASKS] = {0};
    l->origin = origin;
    l->count = 0;
    for (uint32_t t = 0; t < ticks; t++) {
        uint32_t best = BELLKETTLE_TASKS;
        for (uint32_t i = 0; i < f->n; i++) {
            if (ran[i] == f->budgets[i]) {
                log_record(l, i, 1, t);
                ran[i] = 0;
                jobs[i]++;
            }
            if (jobs[i] * f->periods[i] <= t && (best == BELLKETTLE_TASKS || f->ranks[i] > f->ranks[best])) {
                best = i;
            }
        }
        if (best < BELLKETTLE_TASKS && ran[best]++ == 0) {
            log_record(l, best, 0, t);
        }
    }
}

static uint8_t replay(const struct fields *f, size_t log_length, size_t room, size_t places) {
    struct bytes sheet = pack(f);
    mark();
    return bellkettle_replay(sheet.at, size_of(&sheet), log_bytes, log_length, table, room, values, places);
}

/* An answer, in as many places as there are, with Radio's responses in the table. */
static void expect_replayed(const char *name, size_t log_length, const int64_t *wanted) {
    const uint32_t rows[] = {10, 9, 6, 1, 1, 1, 1, 1, 1, 1, 1, 1, 1, 4, 4, 4, 4, 4};
    for (size_t places = 0; places <= VALUES; places++) {
        expect(name, "the number returned", replay(&radio, log_length, 18, places), 0);
        for (size_t i = 0; i < places; i++) {
            expect(name, "a value", values[i], wanted[i]);
        }
        for (size_t i = 0; i < 18; i++) {
            expect(name, "a response", table[i], rows[i]);
        }
        expect_marked(name, places, 18);
    }
}

/* A refusal other than 15; of those that come with a bit the file is the second value. */
static void expect_not_replayed(const char *name, const struct fields *f, size_t log_length, size_t room, uint8_t refusal, int bit) {
    expect(name, "the refusal", replay(f, log_length, room, VALUES), refusal);
    if (bit != NO_BIT) {
        expect(name, "the bit", values[0], bit);
        expect(name, "the file", values[1], 1);
    }
    expect_marked(name, bit != NO_BIT ? 2 : 0, 0);
}

/* With budgets used up Radio's paths from its first three jobs take document 01's delays, 16, 20 and 12, and so on again after H. */
static void logs_that_agree(void) {
    const uint32_t origins[] = {0, 60, 4294967280u};
    for (size_t i = 0; i < sizeof origins / sizeof *origins; i++) {
        run_clock(&night, &radio, origins[i], 121);
        size_t size = log_written(&night);
        expect_replayed("two hyperperiods", size, (int64_t[]){night.count, 6, 1, 20, 1, 0, 0, 20, 20});
        run_clock(&night, &radio, origins[i], 36);
        expect_replayed("one path", log_written(&night), (int64_t[]){night.count, 1, 1, 16, 0, 0, 0, 20, 20});
        run_clock(&night, &radio, origins[i], 10);
        expect_replayed("no path", log_written(&night), (int64_t[]){night.count, 0, 0, 0, 0, 0, 0, 20, 20});
        night.count = 0;
        expect_replayed("no record", log_written(&night), (int64_t[]){0, 0, 0, 0, 0, 0, 0, 20, 20});
    }
}

/* A start that comes a tick late while it is the task's turn; the paths before it count. */
static void logs_that_break(void) {
    run_clock(&night, &radio, 60, 121);
    night.at[0].counter++;
    expect_replayed("a first start too late", log_written(&night), (int64_t[]){night.count, 0, 0, 0, 0, 1, 0, 20, 20});
    run_clock(&night, &radio, 60, 121);
    uint32_t r = 0;
    while (night.at[r].kind != 0 || night.at[r].task != 0 || night.at[r].counter < 120) {
        r++;
    }
    night.at[r].task = 2;
    night.count = r + 1;
    expect_replayed("a start out of turn", log_written(&night), (int64_t[]){r + 1, 3, 1, 20, 1, 1, r, 20, 20});
}

/* One refusal of the log each, with a sheet and a table that are taken. */
static void logs_refused(void) {
    run_clock(&night, &radio, 0, 13);
    size_t size = log_written(&night);
    for (size_t length = 0; length < size; length++) {
        int at = (int)length * 8 < 32 ? 0 : (int)length * 8 < 44 ? 32 : ((int)length * 8 - 44) / 37 * 37 + 44;
        int left = (int)length * 8 - at;
        at += at < 44 ? 0 : left < 4 ? 0 : left < 5 ? 4 : 5;
        expect_not_replayed("a log cut short", &radio, length, 18, 1, at);
    }
    expect_not_replayed("a byte too many", &radio, size + 1, 18, 9, (int)size * 8);
    expect("a log", "its bits", (int64_t)log_bits, 44 + 37 * 9);
    log_bytes[size - 1] |= 1;
    expect_not_replayed("a bit after the last", &radio, size, 18, 9, (int)size * 8 - 1);
    night.at[1].task = 3;
    expect_not_replayed("no such task", &radio, log_written(&night), 18, 19, NO_BIT);
    night.at[1].task = night.at[0].task;
    night.at[1].kind = 0;
    expect_not_replayed("a start during the job", &radio, log_written(&night), 18, 20, NO_BIT);
    night.at[0].kind = 1;
    expect_not_replayed("a finish without a job", &radio, log_written(&night), 18, 20, NO_BIT);
    night.at[0].kind = 0;
    night.at[0].counter = HALF;
    expect_not_replayed("half the range", &radio, log_written(&night), 18, 21, NO_BIT);
    night.at[0].counter = HALF - 1;
    night.at[1].kind = 1;
    night.at[1].counter = HALF;
    expect_not_replayed("half the range so far", &radio, log_written(&night), 18, 21, NO_BIT);
    expect_not_replayed("no room for a table", &radio, log_written(&night), 17, 14, NO_BIT);
    expect_not_replayed("no H", &odd, 0, 0, 10, NO_BIT);
}

/* The sheet's bytes come first, and its late task last. */
static void sheets_refused_with_a_log(void) {
    struct bytes sheet = pack(&radio);
    for (size_t size = 0; size < size_of(&sheet); size++) {
        mark();
        expect("a sheet cut short", "the refusal", bellkettle_replay(sheet.at, size, NULL, 0, table, 18, values, VALUES), 1);
        expect("a sheet cut short", "the bit", values[0], field_cut(&radio, size * 8));
        expect("a sheet cut short", "the file", values[1], 0);
        expect_marked("a sheet cut short", 2, 0);
    }
    mark();
    expect("a sheet with a byte too many", "the refusal", bellkettle_replay(sheet.at, size_of(&sheet) + 1, NULL, 0, table, 18, values, 1), 9);
    expect("a sheet with a byte too many", "the bit", values[0], (int64_t)size_of(&sheet) * 8);
    expect_marked("a sheet with a byte too many", 1, 0);
    expect_not_replayed("a late task, and no log", &late, 0, 5, 1, 0);
    night.origin = night.count = 0;
    expect(late.name, "the refusal", replay(&late, log_written(&night), 5, VALUES), 15);
    expect(late.name, "the task", values[0], 1);
    expect(late.name, "the file", values[1], 0);
    for (size_t i = 0; i < 5; i++) {
        expect(late.name, "a zero", table[i], 0);
    }
    expect_marked(late.name, 2, 5);
    expect("nothing lent", "the refusal", bellkettle_replay(NULL, 0, NULL, 0, NULL, 0, NULL, 0), 1);
}

/* The tell-tale: a record of this layout, lent where it stands. */
_Static_assert(offsetof(struct bellkettle_telltale, underway) == 0, "underway");
_Static_assert(offsetof(struct bellkettle_telltale, counter) == 4, "counter");
_Static_assert(offsetof(struct bellkettle_telltale, longest) == 8, "longest");
_Static_assert(offsetof(struct bellkettle_telltale, count) == 12, "count");
_Static_assert(sizeof(struct bellkettle_telltale) == 16, "size");

static void expect_record(const char *name, const struct bellkettle_telltale *kept, bool underway, uint32_t counter, uint32_t longest, uint16_t count) {
    expect(name, "whether a reading is under way", kept->underway, underway);
    expect(name, "its counter", kept->counter, counter);
    expect(name, "the longest", kept->longest, longest);
    expect(name, "the count", kept->count, count);
}

/* A stamp that is accepted gives its ticks and nothing more; one that is refused gives nothing. */
static void expect_stamp(const char *name, struct bellkettle_telltale *kept, uint32_t counter, uint8_t number, uint32_t ticks) {
    mark();
    expect(name, "the number returned", bellkettle_stamp(kept, counter, values, VALUES), number);
    if (number == 0) {
        expect(name, "the ticks", values[0], ticks);
    }
    expect_marked(name, number == 0, 0);
}

static void telltale(void) {
    struct bellkettle_telltale kept = {0};
    expect_stamp("a fresh record", &kept, 5, 25, 0);
    expect_record("a fresh record", &kept, false, 0, 0, 0);
    bellkettle_begin(&kept, 10);
    bellkettle_begin(&kept, 30);
    expect_record("the older counter", &kept, true, 10, 0, 0);
    expect_stamp("the older counter", &kept, 45, 0, 35);
    expect_stamp("a second stamp", &kept, 50, 25, 0);
    expect_record("a second stamp", &kept, false, 0, 35, 1);
    bellkettle_begin(&kept, 4294967290u);
    expect_stamp("the rollover", &kept, 4, 0, 10);
    expect_record("the rollover", &kept, false, 0, 35, 2);
    bellkettle_begin(&kept, 5);
    expect_stamp("half the range", &kept, HALF + 5, 26, 0);
    expect_record("half the range", &kept, true, 5, 35, 2);
    expect_stamp("a tick less", &kept, HALF + 4, 0, HALF - 1);
    expect_record("a tick less", &kept, false, 0, HALF - 1, 3);
    expect("no place for the ticks", "the number returned", bellkettle_stamp(&kept, 0, NULL, 0), 25);

    /* Records that no run of calls leaves are answered too. */
    struct bellkettle_telltale other = {false, 7, 9, 65534};
    expect_stamp("none under way", &other, 8, 25, 0);
    expect_record("none under way", &other, false, 7, 9, 65534);
    bellkettle_begin(&other, 20);
    expect("no place for the ticks", "the number returned", bellkettle_stamp(&other, 22, NULL, 0), 0);
    expect_record("the count's last", &other, false, 0, 9, 65535);
    bellkettle_begin(&other, 20);
    expect_stamp("the count that stays", &other, 30, 0, 10);
    expect_record("the count that stays", &other, false, 0, 10, 65535);
}

/* A long run by chance, beside what is worked out from the first begin since the last accepted stamp. */
static void telltale_by_chance(void) {
    struct bellkettle_telltale kept = {0};
    uint64_t first = 0, longest = 0, accepted = 0;
    bool begun = false;
    uint32_t chance = 13, counter = 0;
    for (unsigned i = 0; i < 400000; i++) {
        chance = chance * 1664525u + 1013904223u;
        counter += chance >> 28 == 0 ? HALF - 2 + (chance >> 8) % 4 : (chance >> 8) % 1000;
        if (chance >> 27 & 1) {
            bellkettle_begin(&kept, counter);
            first = begun ? first : counter;
            begun = true;
        } else {
            uint64_t ticks = first <= counter ? counter - first : (UINT64_C(1) << 32) - first + counter;
            uint8_t number = !begun ? 25 : ticks >= HALF ? 26 : 0;
            int64_t given = -1;
            expect("by chance", "the number returned", bellkettle_stamp(&kept, counter, &given, 1), number);
            expect("by chance", "the ticks", given, number == 0 ? (int64_t)ticks : -1);
            if (number == 0) {
                longest = longest < ticks ? ticks : longest;
                accepted++;
                begun = false;
            }
        }
        expect_record("by chance", &kept, begun, begun ? (uint32_t)first : 0, (uint32_t)longest, (uint16_t)(accepted < 65535 ? accepted : 65535));
    }
    expect("by chance", "more stamps than the count holds", accepted > 65535, 1);
}

int main(void) {
    document_one();
    document_two_and_three();
    document_four_to_six();
    document_seven();
    document_eight_to_ten();
    refusals_of_the_end();
    refusals_of_fields();
    refusals_at_every_place();
    refusals_of_lengths();
    refusals_of_the_second_edition();
    several_chains();
    chain_numbers();
    refusals_of_numbers();
    first_periods();
    two_limits();
    margin_below_zero();
    odd_periods();
    short_memory();
    logs_that_agree();
    logs_that_break();
    logs_refused();
    sheets_refused_with_a_log();
    telltale();
    telltale_by_chance();
    printf("host: %u checks\n", checks);
    return 0;
}
