/* One lot from opening to closing, offices with shares, an old sheet carried, then a list and
   chances. Its output is bindings/expected. */
#include <haqothwe.h>
#include <inttypes.h>
#include <stdio.h>

static const char *const STATES[] = {"undecided", "accepted", "rejected"};
static const uint32_t PLAN[] = {5, 2, 3, 1, 2};
static const uint32_t NO_SHARES[HAQ_OFFICES] = {0};

/* 60 words: one lot accepted and closed, lot 7 half inspected, and one free record. */
static const uint32_t OLD_SHEET[] = {
    15, 11, 14, 1, /* next unused record, first lot, first free record, stages */
    5, 2, 3, 1, 2, /* the plan, and six stages that are not used */
    0, 0, 0, 0, 0, 0, 0, 0, 0, 0, 0, 0, 0, 0, 0, 0, 0, 0, 0, 0, 0, 0, 0, 0, 0, 0, 0, 0, 0, 0,
    1, 0, 4, 0, 0, /* totals */
    7, 0, 13, 0, /* record 11: lot 7, the last, with its newest inspection */
    3, 0, 11, 1, /* record 12: a blank, the oldest */
    2, 12, 11, 2, /* record 13: a bad unit, the newest */
    1, 0, 0, 4294967295u, /* record 14: free, the last */
};

static void done(const char *call, uint32_t refusal) {
    if (refusal == HAQ_GRANTED)
        printf("%s: ok\n", call);
    else
        printf("%s: refused %" PRIu32 ": %s\n", call, refusal, haq_refusal_text(refusal));
}

static void show_lot(const uint32_t *sheet, size_t n) {
    uint32_t look[6];
    if (haq_look(sheet, n, 7, look) == HAQ_GRANTED)
        printf("look 7: %s after %" PRIu32 " units, %" PRIu32 " good, %" PRIu32
               " marginal (%" PRIu32 " blank), %" PRIu32 " bad\n",
               STATES[look[0]], look[1], look[2], look[3], look[5], look[4]);
}

static void show_totals(const uint32_t *sheet, size_t n) {
    uint32_t tally[5];
    if (haq_tally(sheet, n, tally) == HAQ_GRANTED)
        printf("tally: %" PRIu32 " accepted, %" PRIu32 " rejected; %" PRIu32 " good, %" PRIu32
               " marginal, %" PRIu32 " bad\n",
               tally[0], tally[1], tally[2], tally[3], tally[4]);
}

static void keep_sheet(uint32_t *sheet, size_t n) {
    uint64_t estimate[4];
    done("fresh without a plan", haq_fresh(sheet, n, PLAN, 0, NO_SHARES));
    done("fresh", haq_fresh(sheet, n, PLAN, 5, NO_SHARES));
    done("open 7", haq_open(sheet, n, 7));
    done("inspect 7 3", haq_inspect(sheet, n, 7, 3));
    done("inspect 7 0", haq_inspect(sheet, n, 7, 0));
    done("strike 7", haq_strike(sheet, n, 7));
    done("inspect 7 2", haq_inspect(sheet, n, 7, 2));
    done("inspect 7 2", haq_inspect(sheet, n, 7, 2));
    show_lot(sheet, n);
    done("inspect 7 0", haq_inspect(sheet, n, 7, 0));
    if (haq_estimate(sheet, n, 7, estimate) == HAQ_GRANTED)
        printf("estimate 7: %" PRIu64 ", %" PRIu64 ", %" PRIu64 " over %" PRIu64 "\n", estimate[0],
               estimate[1], estimate[2], estimate[3]);
    done("close 7", haq_close(sheet, n, 7));
    show_totals(sheet, n);
}

/* Five records, for lots 7 and 23 of office 7 and lot 8 of office 8. */
static void share_sheet(uint32_t *sheet, size_t n) {
    uint32_t shares[HAQ_OFFICES] = {0};
    shares[7] = shares[8] = 3;
    done("fresh, shares 3 and 3", haq_fresh(sheet, n, PLAN, 5, shares));
    shares[7] = shares[8] = 2;
    done("fresh, shares 2 and 2", haq_fresh(sheet, n, PLAN, 5, shares));
    done("open 7", haq_open(sheet, n, 7));
    done("inspect 7 0", haq_inspect(sheet, n, 7, 0));
    done("inspect 7 0", haq_inspect(sheet, n, 7, 0));
    done("open 23", haq_open(sheet, n, 23));
    done("open 8", haq_open(sheet, n, 8));
    done("inspect 8 0", haq_inspect(sheet, n, 8, 0));
}

/* The shares are one record for office 8. */
static void carry_sheet(uint32_t *sheet) {
    uint32_t shares[HAQ_OFFICES] = {0};
    shares[8] = 1;
    done("carry into 72 words", haq_carry(OLD_SHEET, 60, sheet, 72, shares));
    done("carry into 80 words", haq_carry(OLD_SHEET, 60, sheet, 80, shares));
    show_lot(sheet, 80);
    done("inspect 7 2", haq_inspect(sheet, 80, 7, 2));
    show_lot(sheet, 80);
    done("close 7", haq_close(sheet, 80, 7));
    show_totals(sheet, 80);
}

static void judge(const uint8_t *list, size_t n) {
    static const char *const ways[] = {"uncurtailed", "semi", "full", "earliest"};
    uint32_t out[9];
    uint32_t refusal = haq_judge(PLAN, 5, list, n, out);
    if (refusal != HAQ_GRANTED) {
        done("judge", refusal);
        return;
    }
    printf("judge %zu classes:", n);
    for (int way = 0; way < 4; way++)
        printf(" %s %" PRIu32 " %s,", ways[way], out[2 * way], STATES[out[2 * way + 1]]);
    printf(" event %" PRIu32 "\n", out[8]);
}

static void chances(void) {
    uint64_t scratch[HAQ_SCRATCH_MOST];
    uint64_t bounds[2];
    double chart[2];
    if (haq_chance(PLAN, 5, 90, 7, 3, scratch, HAQ_SCRATCH_MOST, bounds) == HAQ_GRANTED)
        printf("chance 90 7 3: %" PRIu64 " to %" PRIu64 "\n", bounds[0], bounds[1]);
    if (haq_chart(PLAN, 5, 90, 7, 3, scratch, HAQ_SCRATCH_MOST, chart) == HAQ_GRANTED)
        printf("chart 90 7 3: %.15f to %.15f\n", chart[0], chart[1]);
    done("chance 0 0 0", haq_chance(PLAN, 5, 0, 0, 0, scratch, HAQ_SCRATCH_MOST, bounds));
    if (haq_lot_chance(PLAN, 5, 16, 2, 2, scratch, HAQ_SCRATCH_MOST, bounds) == HAQ_GRANTED)
        printf("lot chance 16 2 2: %" PRIu64 " to %" PRIu64 "\n", bounds[0], bounds[1]);
    done("lot chance 4 0 0", haq_lot_chance(PLAN, 5, 4, 0, 0, scratch, HAQ_SCRATCH_MOST, bounds));
    if (haq_units(PLAN, 5, 90, 7, 3, scratch, HAQ_SCRATCH_MOST, bounds) == HAQ_GRANTED)
        printf("units 90 7 3: %" PRIu64 " to %" PRIu64 "\n", bounds[0], bounds[1]);
    if (haq_units_chart(PLAN, 5, 90, 7, 3, scratch, HAQ_SCRATCH_MOST, chart) == HAQ_GRANTED)
        printf("units chart 90 7 3: %.12f to %.12f\n", chart[0], chart[1]);
}

int main(void) {
    static const uint8_t list[] = {0, 0, 0, 1, 2, 4};
    uint32_t sheet[80] = {0};
    keep_sheet(sheet, 80);
    share_sheet(sheet, 80);
    carry_sheet(sheet);
    judge(list, 5);
    judge(list, 0);
    judge(list, 6);
    chances();
    return 0;
}
