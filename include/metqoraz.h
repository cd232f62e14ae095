/*
 * Metqoraz, token bucket bookings, for programs in C: fourteen calls on numbers and lent memory.
 *
 *     rt staticlib exports
 *     cc -Iinclude mine.c target/staticlib/libexports.a
 *
 * The archive is for x86-64 Linux and needs nothing but the C library. Every call is proved to answer as document 01
 * says, for whatever is handed over (docs/SCOPE.md has its rules, docs/SPECS.md what is proved). It keeps no state and
 * no pointer, so any thread may make any call at any time; it asks for no memory, and takes less than 80 kilobytes of
 * stack.
 *
 * An ANSWER is one number: the figure asked for, or METQORAZ_REFUSED and the number of a refusal. Every figure is below
 * METQORAZ_REFUSED; metqoraz_refusal tells the two apart. After a refusal all that was lent holds what it held.
 *
 * A LIST goes over as a pointer and its number of entries. No pointer is null, not even one to an empty list; each is
 * aligned as its type asks; and what a call writes to overlaps nothing else that the call is handed. What a call fills
 * is the front of a list; entries after that keep their values.
 *
 * An ORDER is the bytes of an order file and a PLAN those of a plan file (docs/FORMATS.md). A call that takes an order
 * refuses bytes that are none: 1 (short), 2 (foreign), 3 (periods), 4 (misplaced), 5 (figure).
 *
 * The examples go on from one another. They speak of the case that document 01 prints:
 *
 *     static const uint32_t tariff[METQORAZ_TARIFF_FIGURES] = {2, 1, 4, 1, 2, 4095, 1000000};
 *     static const uint16_t demands[3] = {4, 8, 2};
 */
#ifndef METQORAZ_H
#define METQORAZ_H

#include <stddef.h>
#include <stdint.h>

#ifdef __cplusplus
extern "C" {
#endif

/* Tokens gained in each period. One token pays for one kilobit. */
typedef struct MetqorazRate {
    uint32_t tokens;
} MetqorazRate;

/* Tokens that a bucket holds at the most from one period to the next. */
typedef struct MetqorazDepth {
    uint32_t tokens;
} MetqorazDepth;

/* An answer from here on is a refusal: this and its number. */
#define METQORAZ_REFUSED UINT64_C(1000000000000000000)

/* The refusals by number. */
enum {
    METQORAZ_SHORT = 1,     /* an order under 20 bytes, a plan under 24 */
    METQORAZ_FOREIGN = 2,   /* another kind of file than the one read */
    METQORAZ_PERIODS = 3,   /* a number of periods or buckets outside its range */
    METQORAZ_MISPLACED = 4, /* an offset or a length that is not what the counts give */
    METQORAZ_FIGURE = 5,    /* a figure outside its range */
    METQORAZ_LIST = 6,      /* a lent list shorter than what is to fill it */
    METQORAZ_NO_PLAN = 7,   /* no depth, no bucket or no cutting carries the demands inside the caps */
    METQORAZ_FULL = 9,      /* a meter has taken all the periods that it takes */
    METQORAZ_UNEQUAL = 10   /* an order and a plan with different numbers of periods */
};

/* The number of the refusal that an answer is; 0 where it is a figure. */
static inline unsigned metqoraz_refusal(uint64_t answer)
{
    return answer < METQORAZ_REFUSED ? 0 : (unsigned)(answer - METQORAZ_REFUSED);
}

/* Room that is always enough. */
#define METQORAZ_TRACE_LIMIT 512      /* demands of an order; run lengths, rates and depths of a plan */
#define METQORAZ_LONGEST_ORDER 1072   /* bytes of an order */
#define METQORAZ_LONGEST_PLAN 6176    /* bytes of a plan */
#define METQORAZ_LONGEST_SHEET 16413  /* bytes of a sheet */
#define METQORAZ_LONGEST_SINGLE 37    /* bytes of the line of a single bucket */
#define METQORAZ_LONGEST_TRIAL 40     /* bytes of the line of a trial */

/* Entries of lists that are of one length. */
#define METQORAZ_TARIFF_FIGURES 7 /* rate price, depth price, fee, p, q, rate cap, depth cap */
#define METQORAZ_TOTALS 5         /* tokens held, periods, sent, over, lost */

/*
 * Writes the order of a tariff and of demands, first period to last, into the bytes; answers its length.
 * Refuses 3 (not 1 to 512 demands), 5 (not seven figures, or one out of its range), 6 (bytes fewer than the file).
 * Room: METQORAZ_LONGEST_ORDER bytes.
 *
 *     uint8_t order[METQORAZ_LONGEST_ORDER];
 *     uint64_t length = metqoraz_order(tariff, METQORAZ_TARIFF_FIGURES, demands, 3, order, sizeof order);
 *
 * answers 54. The calls below take `order, length`, once metqoraz_refusal(length) is 0.
 */
uint64_t metqoraz_order(const uint32_t *figures, size_t figures_len, const uint16_t *demands, size_t demands_len,
                        uint8_t *bytes, size_t bytes_len);

/*
 * The smallest depth that carries an order's demands at a rate.
 * Refuses 1 to 5 (the order), 5 (a rate above the rate cap), 7 (no depth inside the depth cap).
 *
 *     metqoraz_depth(order, length, (MetqorazRate){6})
 *
 * answers 2.
 */
uint64_t metqoraz_depth(const uint8_t *order, size_t order_len, MetqorazRate rate);

/*
 * The same for an order whose demands stand in archive order, last period first. Answers and refuses as metqoraz_depth
 * does on the order with its demands turned round.
 *
 *     metqoraz_depth_from_end(order, length, (MetqorazRate){5})
 *
 * answers 3, where metqoraz_depth answers 4.
 */
uint64_t metqoraz_depth_from_end(const uint8_t *order, size_t order_len, MetqorazRate rate);

/*
 * What sets a depth: the periods that a depth one smaller falls short of. The need of some periods is their summed
 * demand less the rate for each.
 */
enum {
    METQORAZ_NOTHING = 0, /* no periods: the depth is 0 */
    METQORAZ_OPENING = 1, /* from the first period on: the need is above the smaller depth's starting tokens */
    METQORAZ_STRETCH = 2  /* from the second or a later one on: the need is above the smaller depth itself */
};

/*
 * The depth that metqoraz_depth answers, with its cause and the first and last of the periods, counted from 1; for
 * nothing they are 0 and 0. An opening goes before a stretch, then the least last period, then the least first one.
 * Refuses 1 to 5 (the order), 5 (a rate above the rate cap), 7 (no depth inside the depth cap).
 *
 *     uint32_t cause, first, last;
 *     metqoraz_explain(order, length, (MetqorazRate){5}, &cause, &first, &last)
 *
 * answers 4, with METQORAZ_OPENING, 1 and 2. At rate 6 it answers 2, with METQORAZ_STRETCH, 2 and 2; at rate 8 it
 * answers 0, with METQORAZ_NOTHING, 0 and 0.
 */
uint64_t metqoraz_explain(const uint8_t *order, size_t order_len, MetqorazRate rate, uint32_t *cause, uint32_t *first,
                          uint32_t *last);

/*
 * The one bucket that carries an order's demands at least cost: its rate and depth; answers its cost.
 * Refuses 1 to 5 (the order), 7 (no bucket inside the caps).
 *
 *     MetqorazRate rate;
 *     MetqorazDepth depth;
 *     uint64_t cost = metqoraz_single(order, length, &rate, &depth);
 *
 * answers 46, with a rate of 5 and a depth of 4.
 */
uint64_t metqoraz_single(const uint8_t *order, size_t order_len, MetqorazRate *rate, MetqorazDepth *depth);

/*
 * The same as a line of text, `single RATE DEPTH COST`, rate and depth in megabits, with a newline and no byte 0 behind
 * it; answers its length.
 * Refuses 1 to 5 (the order), 7 (no bucket inside the caps), 6 (text shorter than the line).
 * Room: METQORAZ_LONGEST_SINGLE bytes.
 *
 *     uint8_t line[METQORAZ_LONGEST_SINGLE];
 *     uint64_t bytes = metqoraz_single_line(order, length, line, sizeof line);
 *
 * answers 22: `single 0.005 0.004 46` and its newline.
 */
uint64_t metqoraz_single_line(const uint8_t *order, size_t order_len, uint8_t *text, size_t text_len);

/*
 * A trial of a bucket on an order's demands, fresh with the order's factor: the spare tokens in the tightest period,
 * below 0 where something is discarded; answers the tokens discarded.
 * Refuses 1 to 5 (the order), 5 (a rate above 4,095, a depth above 1,000,000).
 *
 *     int64_t spare;
 *     uint64_t over = metqoraz_trial(order, length, (MetqorazRate){5}, (MetqorazDepth){3}, &spare);
 *
 * answers 1, with a spare of -1.
 */
uint64_t metqoraz_trial(const uint8_t *order, size_t order_len, MetqorazRate rate, MetqorazDepth depth,
                        int64_t *spare);

/*
 * The same as a line of text, `trial SPARE DISCARDS`, both in megabits, with a newline and no byte 0 behind it; answers
 * its length.
 * Refuses 1 to 5 (the order), 5 (the bucket), 6 (text shorter than the line). Room: METQORAZ_LONGEST_TRIAL bytes.
 *
 *     uint8_t tried[METQORAZ_LONGEST_TRIAL];
 *     metqoraz_trial_line(order, length, (MetqorazRate){5}, (MetqorazDepth){3}, tried, sizeof tried)
 *
 * answers 19: `trial -0.001 0.001` and its newline.
 */
uint64_t metqoraz_trial_line(const uint8_t *order, size_t order_len, MetqorazRate rate, MetqorazDepth depth,
                             uint8_t *text, size_t text_len);

/*
 * The cost of the cheapest series of buckets for an order.
 * Refuses 1 to 5 (the order), 7 (no cutting inside the caps).
 *
 *     metqoraz_series(order, length)
 *
 * answers 40.
 */
uint64_t metqoraz_series(const uint8_t *order, size_t order_len);

/*
 * Writes the plan file of the cheapest series into the bytes; answers its length.
 * Refuses 1 to 5 (the order), 7 (no cutting inside the caps), 6 (bytes fewer than the file).
 * Room: METQORAZ_LONGEST_PLAN bytes.
 *
 *     uint8_t plan[METQORAZ_LONGEST_PLAN];
 *     uint64_t booked = metqoraz_book(order, length, plan, sizeof plan);
 *
 * answers 56.
 */
uint64_t metqoraz_book(const uint8_t *order, size_t order_len, uint8_t *plan, size_t plan_len);

/*
 * Reads a plan file: its periods, its number of buckets, and of each bucket in order the run length, the rate and the
 * depth, into the fronts of three lists; answers its cost.
 * Refuses 1 to 5 (the plan), 6 (a list with fewer entries than buckets). Room: METQORAZ_TRACE_LIMIT entries each.
 *
 *     uint32_t periods, buckets, runs[METQORAZ_TRACE_LIMIT];
 *     MetqorazRate rates[METQORAZ_TRACE_LIMIT];
 *     MetqorazDepth depths[METQORAZ_TRACE_LIMIT];
 *     metqoraz_plan(plan, booked, &periods, &buckets, runs, METQORAZ_TRACE_LIMIT, rates, METQORAZ_TRACE_LIMIT,
 *                   depths, METQORAZ_TRACE_LIMIT)
 *
 * answers 40, with 3 periods and 2 buckets: runs of 2 and 1, rates 5 and 0, depths 4 and 4.
 */
uint64_t metqoraz_plan(const uint8_t *plan, size_t plan_len, uint32_t *periods, uint32_t *buckets, uint32_t *runs,
                       size_t runs_len, MetqorazRate *rates, size_t rates_len, MetqorazDepth *depths,
                       size_t depths_len);

/*
 * Checks a plan file for an order, whoever made it: whether each bucket, fresh with the order's factor, carries its
 * run, no rate and no depth is above its cap, and the cost stated is the plan's true cost. Answers 1 for yes, with what
 * that cost is above the cheapest series' in the excess; 0 for no, and the excess holds what it held. Where no cutting
 * inside the caps carries the demands, every plan gets a no.
 * Refuses 1 to 5 (the order), then 1 to 5 (the plan), then 10 (their numbers of periods differ).
 *
 *     uint64_t excess;
 *     metqoraz_check(order, length, plan, booked, &excess)
 *
 * answers 1, with an excess of 0. A plan of the one bucket of metqoraz_single that states 46 gets 1 and an excess of 6;
 * if it states 45, it gets 0.
 */
uint64_t metqoraz_check(const uint8_t *order, size_t order_len, const uint8_t *plan, size_t plan_len,
                        uint64_t *excess);

/*
 * Writes the sheet of the cheapest series into the text, a newline behind each line and no byte 0 at the end; answers
 * its length.
 * Refuses 1 to 5 (the order), 7 (no cutting inside the caps), 6 (text shorter than the sheet).
 * Room: METQORAZ_LONGEST_SHEET bytes.
 *
 *     uint8_t sheet[METQORAZ_LONGEST_SHEET];
 *     uint64_t printed = metqoraz_sheet(order, length, sheet, sizeof sheet);
 *     fwrite(sheet, 1, printed, stdout);
 *
 * prints
 *
 *     plan 3 2 40
 *     1 2 0.005 0.004 0.000
 *     3 3 0.000 0.004 0.000
 */
uint64_t metqoraz_sheet(const uint8_t *order, size_t order_len, uint8_t *text, size_t text_len);

/*
 * Opens a meter on a fresh bucket with the factor p/q and offers it the demands of a list, first to last: tokens held,
 * periods, sent, over and lost; answers the periods.
 * Refuses 5 (the bucket or the factor), 6 (fewer than five totals), 9 (more than 1,000,000 offers).
 * Room: METQORAZ_TOTALS entries.
 *
 *     uint64_t totals[METQORAZ_TOTALS];
 *     metqoraz_meter((MetqorazRate){5}, (MetqorazDepth){3}, 1, 2, demands, 3, totals, METQORAZ_TOTALS)
 *
 * answers 3, with totals of 3, 3, 13, 1 and 0.
 */
uint64_t metqoraz_meter(MetqorazRate rate, MetqorazDepth depth, uint32_t p, uint32_t q, const uint16_t *offers,
                        size_t offers_len, uint64_t *totals, size_t totals_len);

#ifdef __cplusplus
}
#endif

#endif
