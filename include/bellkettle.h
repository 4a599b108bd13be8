/*
 * Bellkettle for programs in C: how long it takes along a chain until the stamp, from the change flag that asks for a reading or from
 * the release of the job that samples it.
 *
 * Link libbellkettle.a (x86-64 Linux), which `rt lib` in crates/bellkettle writes to its out/. Every function below is proved to answer what the
 * firm's page "From sheet to worst delay: the rules" (document 01) and its requests (document 02) say, for every input, and to end. The
 * library allocates nothing, has no variables of its own and takes only memcpy and memset from C's, so threads may call it at once with
 * memory of their own.
 *
 * From what moment a number counts
 *
 * A path begins with a job of the chain's first task, goes on from each job to the first job of the next task that starts at or after
 * its write, and ends with the write of the last, the stamp. Every number of ticks that is given counts to that end,
 *  - from the release of the path's first job: the delay at a release, the sampling figure, which is the greatest delay, and the sampling
 *    bound, which is document 01's quick bound and never below it;
 *  - from the tick at which a change flag is raised: the worst, its bound and every margin. A flag stays up until it is taken, by the first
 *    job of the first task that starts at or after that tick. That job is released at most T - 1 ticks after the flag, T being the period
 *    of the chain's first task: worst and bound are the sampling figure and the sampling bound with T - 1 added.
 *
 * Which chain
 *
 * A sheet of edition 2 has 1 to 8 chains, each with a limit; an old sheet, edition 1, has one chain and no limit. A call that is about a
 * chain takes its number, counted from 1 in the order of the sheet.
 *
 * What a call is lent
 *
 * A pointer and the number of elements behind it stand side by side. The proof counts on these things and nothing else:
 *  - each pointer is aligned for its type and has so many elements behind it, initialised, that the call may read and, unless they
 *    are const, write;
 *  - none of what a call may write overlaps with anything else that it is lent, and nothing else touches it during the call.
 * A pointer with a length of 0 is never followed: it may be null.
 *
 * What a call returns
 *
 * 0, or the number of the refusal:
 *
 *    1  the sheet's bytes end inside a field
 *    2  the number of tasks n is 0 or over 16
 *    3  a period T is 0 or over 100,000
 *    4  a budget C is 0 or over its T
 *    5  a rank equals an earlier task's
 *    6  a chain's length m is 0 or over n
 *    7  a chain entry is n or more
 *    8  a chain entry repeats an earlier one of its chain
 *    9  a bit after the last field is 1, or a byte follows the last needed
 *   10  the hyperperiod H is over 1,000,000
 *   11  the number of jobs J is over 8,192
 *   12  the release asked for is not a multiple of the T of the chain's first task, or is H or more
 *   13  the limit of a chain, or the limit that the call is given, is over 4,000,000
 *   14  the lent table has fewer than J entries, or the lent buffer fewer bytes than the sheet takes
 *   15  a task is late: with every budget used up, a job of it released before H is unfinished at its next release; to
 *       bellkettle_quick_bound, which knows no H, a job released at any time
 *   16  the edition is not 2, in bytes that begin with a mark; to bellkettle_write, neither 1 nor 2
 *   17  the number of chains is 0 or over 8; or the sheet has no chain of the number that is asked for
 *   19, 20, 21  of a log, at bellkettle_replay; 25, 26 at bellkettle_stamp
 *
 * Of several one is given: 1 to 9, 13, 16 and 17 of a field are judged front to back, each field when it is read. After them come 17 for the
 * number of a chain, then 10, 11, 12, 13 for the limit that the call is given, 14 and 15 in this order.
 *
 * What a call leaves in lent memory
 *
 *  - values: the numbers that the call gives, from values[0] on. With 1 to 9 values[0] is the bit offset at which the judged field
 *    begins, with 15 the index of the greatest-ranked late task; with any other number nothing is written. A slice that is too short gets
 *    as many as it has places for; what is past them is not touched.
 *  - table: with 0 the response of every job, task by task in sheet order, each task's jobs in release order: its row is H/T
 *    entries, straight after the rows before it. With 15 zeros in the first J entries. With any other number nothing is written. Entries from
 *    J on are never touched. What it held before never matters; BELLKETTLE_TABLE entries are always enough.
 *
 * Bits are counted from 0 at the sheet's front, the most significant of each byte first. With 1 the judged field is the one in which
 * the bytes end; with 9 the offset is the earlier of the first wrong bit and the first bit of the surplus byte. On an old sheet the
 * number of tasks begins at bit 0, T of task i at 5 + 42 i, C at 22 + 42 i, the rank at 39 + 42 i, m at 5 + 42 n, entry j at
 * 10 + 42 n + 4 j. In edition 2 the number of tasks begins at bit 9, T of task i at 14 + 42 i, C at 31 + 42 i, the rank at 48 + 42 i, the
 * first chain at 18 + 42 n; of a chain that begins at p the limit begins at p, m at p + 22, entry j at p + 27 + 4 j, and the next chain at
 * p + 27 + 4 m.
 */
#ifndef BELLKETTLE_H
#define BELLKETTLE_H

#include <stdbool.h>
#include <stddef.h>
#include <stdint.h>

#ifdef __cplusplus
extern "C" {
#endif

/* The entries of a table that is never too small; the most tasks and so entries of a chain, the most chains, the most bytes of a sheet. */
#define BELLKETTLE_TABLE 8192
#define BELLKETTLE_TASKS 16
#define BELLKETTLE_CHAINS 8
#define BELLKETTLE_SHEET 178

/* The limit of bellkettle_default_margin, and that of an old sheet's report, which its conversion keeps; in ticks. */
#define BELLKETTLE_DEFAULT_LIMIT 500
#define BELLKETTLE_OLD_LIMIT 1000

/* values: H, J and the idle ticks before H. Refuses 1 to 9, 13, 16, 17 of a field; 10, 11, 14, 15. */
uint8_t bellkettle_responses(const uint8_t *sheet, size_t sheet_length,
                             uint32_t *table, size_t table_length,
                             int64_t *values, size_t values_length);

/* values: the delay of the chain at a release of its first task, from that release. Refuses 1 to 9, 13, 16, 17 of a field; 17, 10, 11, 12, 14, 15. */
uint8_t bellkettle_delay(const uint8_t *sheet, size_t sheet_length, uint8_t chain, uint32_t release,
                         uint32_t *table, size_t table_length,
                         int64_t *values, size_t values_length);

/*
 * values: the limit that is given less the chain's worst; where it is not below zero every flag is stamped within the limit. Refuses 1 to 9,
 * 13, 16, 17 of a field; 17, 10, 11, 13, 14, 15.
 */
uint8_t bellkettle_margin(const uint8_t *sheet, size_t sheet_length, uint8_t chain, uint32_t limit,
                          uint32_t *table, size_t table_length,
                          int64_t *values, size_t values_length);

/*
 * values: the margin under BELLKETTLE_DEFAULT_LIMIT, whatever the chain's own limit and the sheet's edition. Refuses 1 to 9, 13, 16, 17 of a
 * field; 17, 10, 11, 14, 15.
 */
uint8_t bellkettle_default_margin(const uint8_t *sheet, size_t sheet_length, uint8_t chain,
                                  uint32_t *table, size_t table_length,
                                  int64_t *values, size_t values_length);

/*
 * The figures of the chain, from one filling of the table. values, nine: H, J, the idle ticks before H; the sampling figure, the smallest
 * release that gives it, the sampling bound; the worst, its bound, and the margin that the report prints: under the chain's own limit, on an
 * old sheet under BELLKETTLE_OLD_LIMIT. The response of a task is the greatest of its row. Refuses 1 to 9, 13, 16, 17 of a field; 17, 10, 11, 14, 15.
 */
uint8_t bellkettle_figures(const uint8_t *sheet, size_t sheet_length, uint8_t chain,
                           uint32_t *table, size_t table_length,
                           int64_t *values, size_t values_length);

/*
 * The bound of the chain with no table and no schedule, from periods, budgets and ranks alone, whatever H and J are. values: the sampling
 * bound, and the bound from a flag. Where bellkettle_figures answers these are its numbers; where it refuses with 15, so does this, with the
 * same task. Refuses 1 to 9, 13, 16, 17 of a field; 17, 15.
 */
uint8_t bellkettle_quick_bound(const uint8_t *sheet, size_t sheet_length, uint8_t chain,
                               int64_t *values, size_t values_length);

/*
 * The fields in a sheet's bytes. values: the edition, n, and the number of chains as edition 2 says it; of an old sheet, which does not,
 * it is 0, and its one chain is the first. Refuses 1 to 9, 13, 16, 17, and then leaves every slice as it was but for the offset. Else task
 * i's period, budget and rank are in periods[i], budgets[i] and ranks[i], sixteen places with zeros from n on; the limit and the length of
 * chain number c + 1 in limits[c] and lengths[c], eight places, and its entries in entries[16 c] to entries[16 c + 15], of 128 places in
 * all, with zeros where there is no such chain or entry. An old sheet's limit is 0. A slice of fewer places gets as many as it has; what is
 * past these places is not touched.
 */
uint8_t bellkettle_read(const uint8_t *sheet, size_t sheet_length,
                        uint32_t *periods, size_t periods_length,
                        uint32_t *budgets, size_t budgets_length,
                        uint8_t *ranks, size_t ranks_length,
                        uint32_t *limits, size_t limits_length,
                        uint8_t *lengths, size_t lengths_length,
                        uint8_t *entries, size_t entries_length,
                        int64_t *values, size_t values_length);

/*
 * The bytes of the sheet with these fields, in edition 1 or 2. n is periods_length, which budgets_length and ranks_length must equal: where
 * they do not, n counts as 0 and the refusal is 2. The number of chains is lengths_length, which limits_length must equal: where it does
 * not, it counts as 0 and the refusal is 17. Entry j of chain number c + 1 is entries[16 c + j], and counts as 0 where there is no such
 * place. Edition 1 takes the first chain, of length 0 where there is none, and ignores the others, the limits and how many there are. values:
 * how many bytes the sheet takes, at most BELLKETTLE_SHEET; they stand at the front of out, and out is not touched past them. Refuses 2 to
 * 8, 13, 16, 17, 2 to 8 with the offset that the field would have if written, then 14, and then leaves out as it was.
 */
uint8_t bellkettle_write(uint8_t edition,
                         const uint32_t *periods, size_t periods_length,
                         const uint32_t *budgets, size_t budgets_length,
                         const uint8_t *ranks, size_t ranks_length,
                         const uint32_t *limits, size_t limits_length,
                         const uint8_t *lengths, size_t lengths_length,
                         const uint8_t *entries, size_t entries_length,
                         uint8_t *out, size_t out_length,
                         int64_t *values, size_t values_length);

/*
 * Does last night's log agree with the sheet?
 *
 * The clock's log of starts and finishes: a 32-bit origin counter, the number of records in 12 bits, then of each record the task's index in
 * 4 bits, its kind in 1, where 0 is a start and 1 a finish, and a 32-bit counter, then zero bits to the end of the byte. Logging begins at the
 * origin, at a multiple of H, where no job is in progress. The counter rolls over past its top value; time is the sum of the differences between
 * neighbours. Record r begins at bit 44 + 37 r. A log has at most BELLKETTLE_LOG bytes.
 *
 * The records agree when they are the first starts and finishes, a finish before a start on one tick, of some schedule of the sheet's tasks
 * in which each job runs for 1 to C ticks. The breaking record is the first that, with all before it, does not agree. In the records before it
 * the paths of chain number 1 are followed, each from the release of its first job to its end, the finish of its last.
 */
#define BELLKETTLE_LOG 18945

/*
 * values, nine: how many records the log has; how many paths are completed in it; 1 where there is a longest of these, its ticks, which are never
 * above the sampling figure, and the smallest number of a job that has it, counted from 0; 1 where a record breaks, and which, counted from 0;
 * the sampling figure of chain number 1, and the smallest release that gives it. Where there is no longest, or no break, 0 stands for it and in its
 * places. The table is filled as by bellkettle_figures.
 *
 * Refuses 1 to 9, 13, 16, 17 of a field of the sheet; 10, 11, 14; of the log, front to back,
 *    1  its bytes end inside a field
 *   19  a record names a task that the sheet does not have
 *   20  a start during a job of that task, or a finish without one
 *   21  a difference, or the time so far, is 2,147,483,648 or more
 *    9  a bit after the last record is 1, or a byte follows the last needed
 * and then 15. A break is no refusal. With 1 to 9 and 15 values[1] is the file that is refused, 0 the sheet and 1 the log: by it 1 and 9 of
 * the two are told apart, and values[0] is a bit of that file. 19, 20 and 21 come with no value.
 */
uint8_t bellkettle_replay(const uint8_t *sheet, size_t sheet_length,
                          const uint8_t *log, size_t log_length,
                          uint32_t *table, size_t table_length,
                          int64_t *values, size_t values_length);

/*
 * The tell-tale on the clock itself
 *
 * The unit remembers the longest delay that it has seen in one small record, which is updated where it stands. A fresh record is all zeros:
 * struct bellkettle_telltale kept = {0}. Call bellkettle_begin at the release of the job that samples a reading, and bellkettle_stamp when
 * the job that ends its path has finished, each with the 32-bit counter of that tick; the counter may roll over in between. While one reading
 * is under way no other is watched. So long as the clock keeps its sheet, longest is never above the chain's sampling figure, values[3] of
 * bellkettle_figures.
 *
 * Every content of a record is taken, with underway false or true and nothing else in its byte. Calls on one record come one after the other;
 * an interrupt that stamps must not come into a begin. Neither call loops.
 */
struct bellkettle_telltale {
    bool underway;    /* whether a reading is under way */
    uint32_t counter; /* at which it began; 0 after an accepted stamp */
    uint32_t longest; /* the greatest elapsed time of an accepted stamp, 0 if there was none */
    uint16_t count;   /* how many stamps were accepted; stays at 65,535 once there */
};

/* A reading begins at this counter. While one is under way nothing changes. */
void bellkettle_begin(struct bellkettle_telltale *kept, uint32_t counter);

/*
 * The reading under way ends at this counter. Returns 0, and values is the elapsed ticks; or 25 where none is under way, or 26 where
 * 2,147,483,648 ticks or more have elapsed, and leaves the record and values as they were. After 26 the reading is still under way.
 */
uint8_t bellkettle_stamp(struct bellkettle_telltale *kept, uint32_t counter,
                         int64_t *values, size_t values_length);

#ifdef __cplusplus
}
#endif

#endif
