/*
 * Curtailed inspection of coded lots: the functions of libexport.a, which
 * `rt lib` in crates/export proves and makes.
 *
 * Each function returns 0 if the call is granted, else the number of its
 * refusal; where several apply, the first of enum haq_refusal. A refused call
 * writes nothing.
 *
 * A pointer is followed by the number of its elements, which may be any number;
 * an array has the length in brackets. A pointer is aligned and not null, also
 * where the number is 0, and what a call writes to overlaps nothing else that it
 * takes: so an old sheet and the one that it is carried into do not overlap.
 * Nothing else is required of the caller: any words on a sheet, in a plan, in a
 * list or as shares get an answer.
 */
#ifndef HAQOTHWE_H
#define HAQOTHWE_H

#include <stddef.h>
#include <stdint.h>

#ifdef __cplusplus
extern "C" {
#endif

/* The refusals in their order of precedence, in which 18 and 20 stand after 3, 19
   after 11 and 17 after 13; haq_refusal_text gives their sentences. In quotes the
   word of documents 01 and 02 where it is another than the name. */
enum haq_refusal {
    HAQ_GRANTED = 0,
    HAQ_SHEET_SIZE = 1,      /* the sheet has fewer than 64 words (an old one 48) or more than
                                65,536 */
    HAQ_PLAN = 2,            /* the plan is not admitted */
    HAQ_CORRUPT = 3,         /* the sheet is corrupt ("torn") */
    HAQ_SHARES = 18,         /* the shares add to more than the records after the header */
    HAQ_NO_FIT = 20,         /* the second sheet has too few records for those of the old one */
    HAQ_LOT_ZERO = 4,        /* 0 is not a lot number ("blank lot") */
    HAQ_OPEN_ALREADY = 5,    /* the lot is open already */
    HAQ_NOT_OPEN = 6,        /* the lot is not open */
    HAQ_CLASS = 7,           /* a class is above 3 */
    HAQ_DECIDED = 8,         /* the lot is decided */
    HAQ_NONE_TO_STRIKE = 9,  /* the lot has no inspection to strike */
    HAQ_UNDECIDED = 10,      /* the lot is undecided */
    HAQ_FULL = 11,           /* no record is free or unused */
    HAQ_HELD_BACK = 19,      /* the records left are held back for other offices */
    HAQ_TALLY_FULL = 12,     /* 4,000,000 lots are closed and the totals have no room for more */
    HAQ_WEIGHTS = 13,        /* the weights add to 0 or to more than 1,000,000 ("proportions") */
    HAQ_LOT_SIZE = 17,       /* the lot has fewer units than the sample or more than 1,000,000
                                ("lot") */
    HAQ_SCRATCH_SHORT = 14,  /* the scratch is too short for the plan ("bench short") */
    HAQ_SEVERAL_STAGES = 15, /* the plan has several stages */
    HAQ_LINE = 16            /* the line is not a command; only the program lots gives it */
};

/* The sentence of a refusal; "granted" for 0. */
static inline const char *haq_refusal_text(uint32_t number) {
    switch (number) {
    case HAQ_GRANTED: return "granted";
    case HAQ_SHEET_SIZE:
        return "the sheet has fewer than 64 words (an old one 48) or more than 65,536";
    case HAQ_PLAN: return "the plan is not admitted";
    case HAQ_CORRUPT: return "the sheet is corrupt";
    case HAQ_SHARES: return "the shares add to more than the records after the header";
    case HAQ_NO_FIT: return "the second sheet has too few records for those of the old one";
    case HAQ_LOT_ZERO: return "0 is not a lot number";
    case HAQ_OPEN_ALREADY: return "the lot is open already";
    case HAQ_NOT_OPEN: return "the lot is not open";
    case HAQ_CLASS: return "a class is above 3";
    case HAQ_DECIDED: return "the lot is decided";
    case HAQ_NONE_TO_STRIKE: return "the lot has no inspection to strike";
    case HAQ_UNDECIDED: return "the lot is undecided";
    case HAQ_FULL: return "no record is free or unused";
    case HAQ_HELD_BACK: return "the records left are held back for other offices";
    case HAQ_TALLY_FULL: return "4,000,000 lots are closed and the totals have no room for more";
    case HAQ_WEIGHTS: return "the weights add to 0 or to more than 1,000,000";
    case HAQ_LOT_SIZE: return "the lot has fewer units than the sample or more than 1,000,000";
    case HAQ_SCRATCH_SHORT: return "the scratch is too short for the plan";
    case HAQ_SEVERAL_STAGES: return "the plan has several stages";
    case HAQ_LINE: return "the line is not a command";
    default: return "unknown refusal";
    }
}

/* States of a lot. */
enum haq_state { HAQ_STATE_UNDECIDED = 0, HAQ_STATE_ACCEPTED = 1, HAQ_STATE_REJECTED = 2 };

/* Words of a sheet: at least, and at most; an old sheet, which has no shares, may be
   shorter. */
#define HAQ_SHEET_LEAST 64
#define HAQ_OLD_SHEET_LEAST 48
#define HAQ_SHEET_MOST 65536

/* Offices that share a sheet. A lot's office is its number % 16, and holds the lot's
   records: one for the lot, one for each inspection. A record has four words, and the
   first 15 records are the header. An office may have a share, a number of records: a
   record is granted if the lot's office holds fewer than its share, or if the records
   free and unused exceed what the other offices lack to reach their shares, added up.
   So an office can always get as many as its share: from the start on a sheet that
   haq_fresh made; on one that haq_carry made, from the first point at which the records
   free and unused are at least what all offices lack, added up. Sixteen zeros are no
   shares: a record is granted as long as one is free or unused. */
#define HAQ_OFFICES 16

/* Words of scratch that are enough for every admitted plan. A plan needs twice
   the product of its last r1 and its last r2, which are at most 60. */
#define HAQ_SCRATCH_MOST 7200

/* A plan has five words a stage: n, a1, r1, a2, r2; 1 to 7 stages. A class is
   0 good, 1 marginal, 2 bad, 3 blank: a return with no text to code. A blank
   stays 3 on the sheet, and counts as marginal in everything but the last number
   of haq_look. */

/* As both a1 and a2 of a stage: acceptance is not permitted there. The last stage
   is none of these, and they stand ahead of the stages with acceptance numbers. */
#define HAQ_NOT_PERMITTED 4294967295u

/* Makes an empty sheet for a plan and the shares of offices 0 to 15: writes words 0
   to 59. Refusals 1, 2, 18. */
uint32_t haq_fresh(uint32_t *sheet, size_t n, const uint32_t *plan, size_t plan_n,
                   const uint32_t shares[16]);

/* Carries an old sheet, which is only read, into a second one under given shares: plan,
   lots, inspections, free records and totals are kept. An old sheet has no shares and
   its first record is 11, so that each record comes to stand four later. Written are
   words 0 to 59 and the records carried; words from 4 * (old[0] + 4) on stay. The second
   sheet may have held anything. An office may arrive above its share, and keeps what it
   has. Refusals 1 (of either sheet), 3 (of the old one), 18, 20. */
uint32_t haq_carry(const uint32_t *old, size_t old_n, uint32_t *sheet, size_t n,
                   const uint32_t shares[16]);

/* Adds a lot, numbered from 1. Refusals 1, 3, 4, 5, 11, 19. */
uint32_t haq_open(uint32_t *sheet, size_t n, uint32_t lot);

/* Adds an inspected unit of a class to a lot. Refusals 1, 3, 6, 7, 8, 11, 19. */
uint32_t haq_inspect(uint32_t *sheet, size_t n, uint32_t lot, uint32_t class_);

/* Takes a lot's newest inspection away. Refusals 1, 3, 6, 9. */
uint32_t haq_strike(uint32_t *sheet, size_t n, uint32_t lot);

/* Adds a decided lot to the totals and frees its records. Refusals 1, 3, 6, 10, 12. */
uint32_t haq_close(uint32_t *sheet, size_t n, uint32_t lot);

/* What a lot shows: state, units, good, marginal, bad, blanks. The blanks are
   among the marginal units too. Refusals 1, 3, 6. */
uint32_t haq_look(const uint32_t *sheet, size_t n, uint32_t lot, uint32_t out[6]);

/* Totals of the closed lots: accepted lots, rejected lots, good, marginal, bad
   units. Refusals 1, 3. */
uint32_t haq_tally(const uint32_t *sheet, size_t n, uint32_t out[5]);

/* The estimate of a decided lot: good, marginal, bad and the denominator. A lot's
   only unit is counted; of several, all but the last. In a granted estimate the
   three add to the denominator, which is at least 1, so that nobody divides by 0.
   Refusals 1, 3, 6, 10, 15. */
uint32_t haq_estimate(const uint32_t *sheet, size_t n, uint32_t lot, uint64_t out[4]);

/* Judges a list of classes four ways: stop (0 if not reached) and state of
   uncurtailed, semi, full and earliest; last the event at full's stop (0 if it
   is not reached or the plan has several stages). Refusals 2, 7. */
uint32_t haq_judge(const uint32_t *plan, size_t plan_n, const uint8_t *list, size_t n,
                   uint32_t out[9]);

/* The chance of acceptance lies between low and high, in units of 2^-40, where
   classes 0, 1, 2 have weights w0, w1, w2; blanks have no weight of their own and
   belong to w1. The scratch words that the plan needs are written to; those
   beyond are not. Refusals 2, 13, 14. */
uint32_t haq_chance(const uint32_t *plan, size_t plan_n, uint32_t w0, uint32_t w1, uint32_t w2,
                    uint64_t *scratch, size_t n, uint64_t out[2]);

/* As haq_chance, low and high divided by 2^40 exactly. */
uint32_t haq_chart(const uint32_t *plan, size_t plan_n, uint32_t w0, uint32_t w1, uint32_t w2,
                   uint64_t *scratch, size_t n, double out[2]);

/* As haq_chance, where the sample is drawn without replacement from a lot of so
   many good, marginal and bad units, blanks among the marginal. Refusals 2, 17,
   14. */
uint32_t haq_lot_chance(const uint32_t *plan, size_t plan_n, uint32_t good, uint32_t marginal,
                        uint32_t bad, uint64_t *scratch, size_t n, uint64_t out[2]);

/* The expected number of units at the earliest stop (average sample number) lies
   between low and high, in units of 2^-30: at least 2^30, and at most the sample's
   size times that. Weights, scratch and refusals as for haq_chance. */
uint32_t haq_units(const uint32_t *plan, size_t plan_n, uint32_t w0, uint32_t w1, uint32_t w2,
                   uint64_t *scratch, size_t n, uint64_t out[2]);

/* As haq_units, low and high divided by 2^30 exactly. */
uint32_t haq_units_chart(const uint32_t *plan, size_t plan_n, uint32_t w0, uint32_t w1,
                         uint32_t w2, uint64_t *scratch, size_t n, double out[2]);

#ifdef __cplusplus
}
#endif

#endif
