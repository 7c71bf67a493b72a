/* Spardimple: a proved planner for multicore controllers, as six C functions. Link with libspardimple.a (x86-64 Linux).
 *
 * `demand_at` gives back a plain number. An answer of the other five is one number, 2^32 * which + carries; no two answers of a function share a
 * number. `spardimple_which` and `spardimple_carries` take it apart:
 *
 *   which      verdict        plan_listing, why_records, why_core, diff_listing       carries
 *   0          passes         the text is written                                     0; the text's length in bytes
 *   1          overloaded     -                                                       a length of time in which more is asked for than it has
 *   2          undecided      -                                                       0
 *   100 + N    refusal N      refusal N; diff_listing's of its first sheet, or 10     see below
 *   1100 + N   -              refusal N of diff_listing's second sheet                see below
 *
 *   N    given where                                                                 verdict, why_records carry  all that are lent sheets carry
 *   1    cores or grain are outside their size                                       -                           the line
 *        no such core                                                                -                           0 (why_core)
 *   2    a cost constant is outside its size                                         0                           the line
 *   3    a time or a cache charge is outside its size, or 1 <= C <= D <= T broken    the record, from 1          the line
 *   4    a second part, or a second task, of that name                               -                           the line
 *   5    no such part above                                                          -                           the line
 *   6    a 65th part or task; an 80th record                                         0                           the line
 *   7    the walk finds no room                                                      -                           the task, from 1 (not why_core)
 *   8    a line, name or number breaks its form; the 28-byte or 36-byte rule         0                           the line
 *   9    the sheet is over 16,384 bytes                                              -                           0
 *   10   the buffer is shorter than the text                                         the length (why_records)    the length needed
 *
 * What is asked of pointers: each names as many bytes as its length says, which may be read, and those of `listing` and `out` be written; none is null,
 * also where its length is 0; what is written does not overlap what is read. Nothing is asked of what the bytes hold, nor of the numbers. Nothing is kept
 * after the call, nothing is allocated, and there is no state: the functions may be called from several threads at once.
 */
#ifndef SPARDIMPLE_H
#define SPARDIMPLE_H

#include <stddef.h>
#include <stdint.h>

#ifdef __cplusplus
extern "C" {
#endif

enum {
    SPARDIMPLE_PASSES = 0,
    SPARDIMPLE_WRITTEN = 0,
    SPARDIMPLE_OVERLOADED = 1,
    SPARDIMPLE_UNDECIDED = 2,
    SPARDIMPLE_REFUSED = 100, /* and the refusal's number */
    SPARDIMPLE_SECOND_REFUSED = 1100 /* and the number of the second sheet's */
};

static inline uint32_t spardimple_which(uint64_t answer) { return (uint32_t)(answer >> 32); }

static inline uint32_t spardimple_carries(uint64_t answer) { return (uint32_t)answer; }

/* Judges one core by the demand rule: it passes if in no length of time more work is due than fits. `records` has 28 bytes a piece, at most 79 of
 * them: kind (0 whole, 1 first, 2 last), budget, window, period, jitter, preemption and migration charge; `costs` has 36 bytes: RelO, SchedO, TsetO,
 * IpB, BetO, MigrO, IpiO, IpiJ, π. A number has four bytes, lowest first. */
uint64_t verdict(const uint8_t *records, size_t records_len, const uint8_t *costs, size_t costs_len);

/* Plans a timing sheet and writes its listing to the front of `listing`; the bytes beyond it stay. A refusal writes no byte. */
uint64_t plan_listing(const uint8_t *sheet, size_t sheet_len, uint8_t *listing, size_t listing_len);

/* Says why: writes the reasons for the verdict on lent records to the front of `out`; the bytes beyond them stay. A refusal writes no byte. Records and
 * costs are lent as for `verdict`. The text has tabs between fields and a newline behind each line: `why`, the verdict, the length that it is shown at
 * and the blocking there; for each piece `piece`, its place from 1, its kind, its jobs due, their demand and its interrupts; `total` and the sum;
 * `slack` and the length minus the sum, with a minus sign where it is negative. Of no records it is the first line alone. */
uint64_t why_records(const uint8_t *records, size_t records_len, const uint8_t *costs, size_t costs_len, uint8_t *out, size_t out_len);

/* The same for a core, from 1, of a sheet's plan; a piece has its task's name for a place. Where the walk finds no room, a line comes first: `noroom`, the
 * stuck task's place from 1 and its name, and the last core; the text is then about that core with the whole stuck task added, whichever core of the
 * machine was asked for. */
uint64_t why_core(const uint8_t *sheet, size_t sheet_len, uint64_t core, uint8_t *out, size_t out_len);

/* Sets the plans of two sheets side by side, and writes what is not the same in both to the front of `out`; the bytes beyond it stay. A refusal writes no
 * byte: the first sheet's comes before the second's, which has 1000 more for which, and 110 comes last. The text has tabs between fields and a newline
 * behind each line: `diff` and the numbers of tasks of both plans; then a line a piece, by the task's name in byte order: `only1` or `only2` where the
 * task is in one plan alone, else `was` for the first plan's and then `now` for the second's; the name, the core, the kind, budget, window, period,
 * jitter, preemption and migration charge. A task whose pieces are equal in all of these has no line. Each task's pieces are by core. */
uint64_t diff_listing(const uint8_t *sheet1, size_t sheet1_len, const uint8_t *sheet2, size_t sheet2_len, uint8_t *out, size_t out_len);

/* The demand of one core within a length of time: the work that is due in it, blocking and interrupts. 0 where `verdict` refuses the records or the costs,
 * and where the length is above 101,000,000. */
uint64_t demand_at(const uint8_t *records, size_t records_len, const uint8_t *costs, size_t costs_len, uint64_t length);

#ifdef __cplusplus
}
#endif

#endif
