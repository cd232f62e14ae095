/*
 * The calls as a program in C makes them, with the header and the archive alone: the case that document 01 prints, in
 * the order of the header's examples; each refusal that a call can give; and that what is lent to a call which refuses
 * holds what it held. tests/c compares what this prints with tests/metqoraz.stdout.
 */
#include <metqoraz.h>
#include <stdio.h>
#include <string.h>

static const uint32_t tariff[METQORAZ_TARIFF_FIGURES] = {2, 1, 4, 1, 2, 4095, 1000000};
static const uint16_t demands[3] = {4, 8, 2};

/* Prints what a call answers. */
static void say(const char *call, uint64_t answer)
{
    if (metqoraz_refusal(answer) == 0) {
        printf("%s: %llu\n", call, (unsigned long long)answer);
    } else {
        printf("%s: refused %u\n", call, metqoraz_refusal(answer));
    }
}

/* Prints a text that a call has filled, or the refusal. */
static void say_text(const char *call, uint64_t length, const uint8_t *text)
{
    say(call, length);
    if (metqoraz_refusal(length) == 0) {
        fwrite(text, 1, (size_t)length, stdout);
    }
}

/* Fills some bytes with a mark, to be looked for after a refusal. */
static void mark(void *bytes, size_t count)
{
    memset(bytes, 0xAA, count);
}

/* Says so where a byte no longer has the mark. */
static void kept(const char *call, const void *bytes, size_t count)
{
    for (size_t i = 0; i < count; i++) {
        if (((const uint8_t *)bytes)[i] != 0xAA) {
            printf("%s: byte %zu has changed\n", call, i);
            return;
        }
    }
}

static const char *cause_name(uint32_t cause)
{
    switch (cause) {
    case METQORAZ_NOTHING:
        return "nothing";
    case METQORAZ_OPENING:
        return "opening";
    case METQORAZ_STRETCH:
        return "stretch";
    default:
        return "no cause";
    }
}

/* Depths with each cause, and one that is refused. */
static void explained(const uint8_t *order, size_t length)
{
    static const uint32_t rates[3] = {5, 6, 8};
    uint32_t cause, first, last;
    for (size_t i = 0; i < 3; i++) {
        say("explain", metqoraz_explain(order, length, (MetqorazRate){rates[i]}, &cause, &first, &last));
        printf("  %s, first %u, last %u\n", cause_name(cause), first, last);
    }

    mark(&cause, sizeof cause);
    mark(&first, sizeof first);
    mark(&last, sizeof last);
    say("explain, rate 4096", metqoraz_explain(order, length, (MetqorazRate){4096}, &cause, &first, &last));
    kept("cause", &cause, sizeof cause);
    kept("first", &first, sizeof first);
    kept("last", &last, sizeof last);
}

/* The printed case: each call's answer, and all that it fills. */
static void printed_case(const uint8_t *order, size_t length)
{
    say("depth", metqoraz_depth(order, length, (MetqorazRate){6}));
    say("depth_from_end", metqoraz_depth_from_end(order, length, (MetqorazRate){5}));
    explained(order, length);

    MetqorazRate rate;
    MetqorazDepth depth;
    say("single", metqoraz_single(order, length, &rate, &depth));
    printf("  rate %u, depth %u\n", rate.tokens, depth.tokens);
    uint8_t line[METQORAZ_LONGEST_SINGLE];
    say_text("single_line", metqoraz_single_line(order, length, line, sizeof line), line);

    int64_t spare;
    say("trial", metqoraz_trial(order, length, (MetqorazRate){5}, (MetqorazDepth){3}, &spare));
    printf("  spare %lld\n", (long long)spare);
    uint8_t tried[METQORAZ_LONGEST_TRIAL];
    say_text("trial_line",
             metqoraz_trial_line(order, length, (MetqorazRate){5}, (MetqorazDepth){3}, tried, sizeof tried), tried);

    say("series", metqoraz_series(order, length));
    uint8_t sheet[METQORAZ_LONGEST_SHEET];
    say_text("sheet", metqoraz_sheet(order, length, sheet, sizeof sheet), sheet);
}

/* A plan file: booked and read back. */
static void booked(const uint8_t *order, size_t length)
{
    uint8_t plan[METQORAZ_LONGEST_PLAN];
    uint64_t bytes = metqoraz_book(order, length, plan, sizeof plan);
    say("book", bytes);

    uint32_t periods, buckets, runs[METQORAZ_TRACE_LIMIT];
    MetqorazRate rates[METQORAZ_TRACE_LIMIT];
    MetqorazDepth depths[METQORAZ_TRACE_LIMIT];
    say("plan", metqoraz_plan(plan, (size_t)bytes, &periods, &buckets, runs, METQORAZ_TRACE_LIMIT, rates,
                              METQORAZ_TRACE_LIMIT, depths, METQORAZ_TRACE_LIMIT));
    printf("  periods %u, buckets %u\n", periods, buckets);
    for (uint32_t i = 0; i < buckets; i++) {
        printf("  run %u, rate %u, depth %u\n", runs[i], rates[i].tokens, depths[i].tokens);
    }

    mark(&periods, sizeof periods);
    mark(&buckets, sizeof buckets);
    mark(runs, sizeof runs);
    mark(rates, sizeof rates);
    mark(depths, sizeof depths);
    say("plan, one depth", metqoraz_plan(plan, (size_t)bytes, &periods, &buckets, runs, 2, rates, 2, depths, 1));
    say("plan, a byte fewer", metqoraz_plan(plan, (size_t)bytes - 1, &periods, &buckets, runs, 2, rates, 2, depths, 2));
    say("plan, an order", metqoraz_plan(order, length, &periods, &buckets, runs, 2, rates, 2, depths, 2));
    kept("periods", &periods, sizeof periods);
    kept("buckets", &buckets, sizeof buckets);
    kept("runs", runs, sizeof runs);
    kept("rates", rates, sizeof rates);
    kept("depths", depths, sizeof depths);
}

/* A plan of another house: one bucket of rate 5 and depth 4 for three periods, which states a cost of 46. */
static const uint8_t one_bucket[44] = {
    2,  0, 0, 0, 3,  0, 0, 0, 1,  0, 0, 0, /* kind, T, number of buckets */
    24, 0, 0, 0, 32, 0, 0, 0, 44, 0, 0, 0, /* offset of cost, offset of buckets, length */
    46, 0, 0, 0, 0,  0, 0, 0,              /* cost */
    3,  0, 0, 0, 5,  0, 0, 0, 4,  0, 0, 0, /* run length, rate, depth */
};

/* Plans checked: the own one, a dearer one, one with a false cost, and one for another number of periods. */
static void checked(const uint8_t *order, size_t length)
{
    uint8_t plan[METQORAZ_LONGEST_PLAN];
    uint64_t bytes = metqoraz_book(order, length, plan, sizeof plan);
    uint64_t excess;
    say("check, the own plan", metqoraz_check(order, length, plan, (size_t)bytes, &excess));
    printf("  excess %llu\n", (unsigned long long)excess);
    say("check, one bucket", metqoraz_check(order, length, one_bucket, sizeof one_bucket, &excess));
    printf("  excess %llu\n", (unsigned long long)excess);

    mark(&excess, sizeof excess);
    memcpy(plan, one_bucket, sizeof one_bucket);
    plan[24] = 45;
    say("check, a cost of 45", metqoraz_check(order, length, plan, sizeof one_bucket, &excess));
    memcpy(plan, one_bucket, sizeof one_bucket);
    plan[40] = 3;
    plan[24] = 43;
    say("check, a depth of 3", metqoraz_check(order, length, plan, sizeof one_bucket, &excess));
    memcpy(plan, one_bucket, sizeof one_bucket);
    plan[4] = plan[32] = 2;
    say("check, two periods", metqoraz_check(order, length, plan, sizeof one_bucket, &excess));
    say("check, two periods and a byte fewer", metqoraz_check(order, length, plan, sizeof one_bucket - 1, &excess));
    say("check, an order", metqoraz_check(order, length, order, length, &excess));
    kept("excess", &excess, sizeof excess);
}

static void meters(void)
{
    uint64_t totals[METQORAZ_TOTALS];
    say("meter", metqoraz_meter((MetqorazRate){5}, (MetqorazDepth){3}, 1, 2, demands, 3, totals, METQORAZ_TOTALS));
    printf("  tokens %llu, periods %llu, sent %llu, over %llu, lost %llu\n", (unsigned long long)totals[0],
           (unsigned long long)totals[1], (unsigned long long)totals[2], (unsigned long long)totals[3],
           (unsigned long long)totals[4]);

    mark(totals, sizeof totals);
    say("meter, rate 4096",
        metqoraz_meter((MetqorazRate){4096}, (MetqorazDepth){3}, 1, 2, demands, 3, totals, METQORAZ_TOTALS));
    say("meter, p above q",
        metqoraz_meter((MetqorazRate){5}, (MetqorazDepth){3}, 3, 2, demands, 3, totals, METQORAZ_TOTALS));
    say("meter, four totals", metqoraz_meter((MetqorazRate){5}, (MetqorazDepth){3}, 1, 2, demands, 3, totals, 4));
    static uint16_t offers[1000001];
    say("meter, 1000001 offers",
        metqoraz_meter((MetqorazRate){5}, (MetqorazDepth){3}, 1, 2, offers, 1000001, totals, METQORAZ_TOTALS));
    kept("totals", totals, sizeof totals);
    say("meter, 1000000 offers",
        metqoraz_meter((MetqorazRate){5}, (MetqorazDepth){3}, 1, 2, offers, 1000000, totals, METQORAZ_TOTALS));
}

/* Orders that are not written. */
static void bad_orders(void)
{
    uint8_t order[METQORAZ_LONGEST_ORDER];
    uint32_t figures[METQORAZ_TARIFF_FIGURES];
    memcpy(figures, tariff, sizeof figures);
    figures[4] = 0;
    static const uint16_t long_trace[METQORAZ_TRACE_LIMIT + 1];
    mark(order, sizeof order);
    say("order, no demand", metqoraz_order(tariff, METQORAZ_TARIFF_FIGURES, demands, 0, order, sizeof order));
    say("order, 513 demands", metqoraz_order(tariff, METQORAZ_TARIFF_FIGURES, long_trace, METQORAZ_TRACE_LIMIT + 1,
                                             order, sizeof order));
    say("order, six figures", metqoraz_order(tariff, 6, demands, 3, order, sizeof order));
    say("order, q of 0", metqoraz_order(figures, METQORAZ_TARIFF_FIGURES, demands, 3, order, sizeof order));
    say("order, 53 bytes", metqoraz_order(tariff, METQORAZ_TARIFF_FIGURES, demands, 3, order, 53));
    kept("order", order, sizeof order);
    say("order, 512 demands", metqoraz_order(tariff, METQORAZ_TARIFF_FIGURES, long_trace, METQORAZ_TRACE_LIMIT, order,
                                             sizeof order));
}

/* One order or damaged order through every call that takes one; nothing that is lent changes. */
static void refused(const char *what, const uint8_t *order, size_t length)
{
    MetqorazRate rate;
    MetqorazDepth depth;
    uint32_t cause[3];
    int64_t spare;
    uint64_t excess;
    uint8_t bytes[METQORAZ_LONGEST_SHEET];
    mark(cause, sizeof cause);
    mark(&rate, sizeof rate);
    mark(&depth, sizeof depth);
    mark(&spare, sizeof spare);
    mark(&excess, sizeof excess);
    mark(bytes, sizeof bytes);
    printf("%s\n", what);
    say("  depth", metqoraz_depth(order, length, (MetqorazRate){0}));
    say("  depth_from_end", metqoraz_depth_from_end(order, length, (MetqorazRate){0}));
    say("  explain", metqoraz_explain(order, length, (MetqorazRate){0}, &cause[0], &cause[1], &cause[2]));
    say("  single", metqoraz_single(order, length, &rate, &depth));
    say("  single_line", metqoraz_single_line(order, length, bytes, sizeof bytes));
    say("  trial", metqoraz_trial(order, length, (MetqorazRate){4096}, (MetqorazDepth){0}, &spare));
    say("  trial_line",
        metqoraz_trial_line(order, length, (MetqorazRate){4096}, (MetqorazDepth){0}, bytes, sizeof bytes));
    say("  series", metqoraz_series(order, length));
    say("  book", metqoraz_book(order, length, bytes, sizeof bytes));
    say("  check", metqoraz_check(order, length, one_bucket, sizeof one_bucket, &excess));
    say("  sheet", metqoraz_sheet(order, length, bytes, sizeof bytes));
    kept("  cause", cause, sizeof cause);
    kept("  rate", &rate, sizeof rate);
    kept("  depth", &depth, sizeof depth);
    kept("  spare", &spare, sizeof spare);
    kept("  excess", &excess, sizeof excess);
    kept("  bytes", bytes, sizeof bytes);
}

/* Rooms that are a byte too short. */
static void short_rooms(const uint8_t *order, size_t length)
{
    uint8_t bytes[METQORAZ_LONGEST_SHEET];
    mark(bytes, sizeof bytes);
    say("single_line, 21 bytes", metqoraz_single_line(order, length, bytes, 21));
    say("trial_line, 18 bytes", metqoraz_trial_line(order, length, (MetqorazRate){5}, (MetqorazDepth){3}, bytes, 18));
    say("book, 55 bytes", metqoraz_book(order, length, bytes, 55));
    say("sheet, 55 bytes", metqoraz_sheet(order, length, bytes, 55));
    kept("bytes", bytes, sizeof bytes);
}

int main(void)
{
    uint8_t order[METQORAZ_LONGEST_ORDER];
    uint64_t length = metqoraz_order(tariff, METQORAZ_TARIFF_FIGURES, demands, 3, order, sizeof order);
    say("order", length);
    if (metqoraz_refusal(length) != 0) {
        return 1;
    }
    size_t bytes = (size_t)length;
    printed_case(order, bytes);
    booked(order, bytes);
    checked(order, bytes);
    meters();
    bad_orders();
    short_rooms(order, bytes);

    refused("an order of 19 bytes", order, 19);
    refused("an order without its last byte", order, bytes - 1);
    uint8_t damaged[METQORAZ_LONGEST_ORDER];
    memcpy(damaged, order, bytes);
    damaged[0] = 9;
    refused("another kind of file", damaged, bytes);
    memcpy(damaged, order, bytes);
    damaged[4] = 0;
    refused("no periods", damaged, bytes);
    memcpy(damaged, order, bytes);
    damaged[36] = 0;
    refused("a q of 0", damaged, bytes);

    uint32_t capped[METQORAZ_TARIFF_FIGURES];
    memcpy(capped, tariff, sizeof capped);
    capped[5] = capped[6] = 0;
    length = metqoraz_order(capped, METQORAZ_TARIFF_FIGURES, demands, 3, order, sizeof order);
    refused("caps of 0", order, (size_t)length);
    return 0;
}
