//! The calls on a sheet, each by one walk of the records in use.

use super::packed::Packed;
use super::plan::{Counts, Limits, Plan, ACCEPTED, MOST_STAGES, STAGE_WORDS, UNDECIDED};
use super::shares::{self, office, ByOffice, OFFICES};
use std::ops::Range;

pub(super) const LEAST_WORDS: usize = 64;
const MOST_WORDS: usize = 65_536;

// Places in the head.
pub(super) const FIRST_LOT: usize = 1;
pub(super) const FIRST_FREE: usize = 2;
const K: usize = 3;
const STAGES: usize = 4;
const TOTALS: usize = 39;
pub(super) const SHARES: usize = 44;
pub(super) const HEAD: usize = 60;

const FIRST_RECORD: u32 = 15;
const FREE: u32 = u32::MAX;
const MOST_CLOSED: u64 = 4_000_000;

type Record = [u32; 4];

/// The lot that was asked for.
#[derive(Clone, Copy)]
struct Lot {
    record: u32,
    newest: u32,
    packed: Packed,
    state: u32,
}

/// What a walk finds on a sound sheet.
pub(super) struct Survey {
    stages: usize,
    lot: Option<Lot>,
    /// The word that holds the index of the first lot from the number on.
    link: usize,
    /// The number of free records, and what each office holds.
    free: u32,
    held: ByOffice,
}

/// A plan with the limits of its stages.
struct Judge {
    plan: Plan,
    limits: [Limits; MOST_STAGES],
}

impl Judge {
    fn new(plan: Plan) -> Judge {
        let mut limits = [Limits::default(); MOST_STAGES];
        for i in 0..plan.stages().len() {
            limits[i] = plan.limits(i);
        }
        Judge { plan, limits }
    }

    /// How many stages end before so many units.
    fn ended(&self, units: u32) -> usize {
        let stages = self.plan.stages().iter();
        stages.filter(|stage| stage.end < units).count()
    }

    fn state(&self, counts: Counts) -> u32 {
        self.limits[self.ended(counts.units)].state(counts)
    }
}

/// Refuses a sheet of another size.
pub(super) fn size(words: &[u32], least: usize) -> Result<(), u32> {
    if (least..=MOST_WORDS).contains(&words.len()) {
        Ok(())
    } else {
        Err(1)
    }
}

/// The whole records of a sheet, those of the head too.
pub(super) fn records(words: &[u32]) -> u32 {
    (words.len() / 4) as u32
}

pub(super) fn shares_fit(words: &[u32], shares: &[u32]) -> bool {
    shares::fit(shares, records(words) - FIRST_RECORD)
}

/// The judge of a sheet whose head is sound but for shares, which an old sheet has not.
fn head(words: &[u32], first: u32) -> Option<Judge> {
    let k = words[K] as usize;
    if !(1..=MOST_STAGES).contains(&k) {
        return None;
    }
    let (used, unused) = words[STAGES..TOTALS].split_at(STAGE_WORDS * k);
    let plan = Plan::admitted(used)?;
    let sum = |words: &[u32]| words.iter().map(|&word| u64::from(word)).sum::<u64>();
    let lots = sum(&words[TOTALS..TOTALS + 2]);
    let units = sum(&words[TOTALS + 2..SHARES]);
    let sound = unused.iter().all(|&word| word == 0)
        && (first..=records(words)).contains(&words[0])
        && lots <= MOST_CLOSED
        && units <= 1000 * lots;
    sound.then(|| Judge::new(plan))
}

/// A sheet with a sound head, whose records begin at FIRST.
struct Sheet<'a, const FIRST: u32> {
    judge: Judge,
    /// The records in use, those of the head too.
    records: &'a [Record],
}

impl<const FIRST: u32> Sheet<'_, FIRST> {
    fn record(&self, at: u32) -> Option<&Record> {
        let record = self.records.get(at as usize);
        record.filter(|_| at >= FIRST)
    }

    /// The counts of the inspections back from `at`, whose serials are those of the
    /// range, and the index of the one before them. Faults are gathered, so that the
    /// loop has no other way out than an index past the records.
    fn run(&self, lot: u32, mut at: u32, serials: Range<u32>) -> Option<(Packed, u32)> {
        let mut packed = Packed::units(serials.end - serials.start);
        let mut faults = 0;
        for serial in serials.rev() {
            let &[class, older, of, number] = self.records.get(at as usize)?;
            faults |= (of ^ lot) | (number ^ serial);
            faults |= (class >> 2) | u32::from(at < FIRST);
            packed = packed.with(class);
            at = older;
        }
        (faults == 0).then_some((packed, at))
    }

    /// The counts of a lot's inspections, if they are sound. None may follow the
    /// earliest stop: within a stage it is enough to ask before the newest one, and
    /// the ends of stages are asked apart.
    fn lot(&self, lot: u32, newest: u32) -> Option<Packed> {
        if newest == 0 {
            return Some(Packed::default());
        }
        let &[class, _, _, units] = self.record(newest)?;
        if units > self.judge.plan.stages()[0].end {
            return self.later_lot(lot, newest, Packed::of(class), units);
        }
        let (packed, older) = self.run(lot, newest, 1..units + 1)?;
        let undecided = |packed: Packed| self.judge.limits[0].state(packed.counts()) == UNDECIDED;
        let sound = older == 0 && undecided(packed.minus(Packed::of(class)));
        sound.then_some(packed)
    }

    /// As `lot`, for one past the first stage.
    fn later_lot(&self, lot: u32, newest: u32, last: Packed, units: u32) -> Option<Packed> {
        let stages = self.judge.plan.stages();
        if units > self.judge.plan.last().end {
            return None;
        }
        let ended = self.judge.ended(units);
        let mut after = [Packed::default(); MOST_STAGES];
        let (mut packed, mut at, mut high) = (Packed::default(), newest, units);
        for i in (0..=ended).rev() {
            let low = if i == 0 { 0 } else { stages[i - 1].end };
            let (more, older) = self.run(lot, at, low + 1..high + 1)?;
            after[i] = packed;
            packed = packed.plus(more);
            (at, high) = (older, low);
        }
        after[ended] = last;
        let undecided = |i: usize| {
            let before = packed.minus(after[i]);
            self.judge.limits[i].state(before.counts()) == UNDECIDED
        };
        (at == 0 && (0..=ended).all(undecided)).then_some(packed)
    }

    /// The number of free records.
    fn free(&self, first: u32) -> Option<u32> {
        if first == 0 {
            return Some(0);
        }
        let length = self.record(first)?[0];
        if length as usize > self.records.len() {
            return None;
        }
        let (mut at, mut faults) = (first, 0);
        for depth in (1..=length).rev() {
            let &[number, next, zero, tag] = self.records.get(at as usize)?;
            faults |= (number ^ depth) | zero | (tag ^ FREE) | u32::from(at < FIRST);
            at = next;
        }
        (at == 0 && faults == 0).then_some(length)
    }

    /// The lots in order, and the lot of a number with its place.
    fn survey(&self, number: u32) -> Option<Survey> {
        let head = self.records.as_flattened();
        let mut survey = Survey {
            stages: self.judge.plan.stages().len(),
            lot: None,
            link: FIRST_LOT,
            free: 0,
            held: [0; OFFICES],
        };
        let (mut at, mut before, mut seen) = (head[FIRST_LOT], 0, 0);
        while at != 0 {
            let &[lot, next, newest, zero] = self.record(at)?;
            if lot <= before || zero != 0 {
                return None;
            }
            let packed = self.lot(at, newest)?;
            let counts = packed.counts();
            seen += 1 + counts.units;
            survey.held[office(lot)] += 1 + counts.units;
            if lot < number {
                survey.link = at as usize * 4 + 1;
            } else if lot == number {
                survey.lot = Some(Lot {
                    record: at,
                    newest,
                    packed,
                    state: self.judge.state(counts),
                });
            }
            (before, at) = (lot, next);
        }
        survey.free = self.free(head[FIRST_FREE])?;
        (seen + survey.free == head[0] - FIRST).then_some(survey)
    }
}

/// The walk of a sheet whose records begin at FIRST, a constant of the loops. Shares, which
/// an old sheet has not, are not asked.
pub(super) fn walk<const FIRST: u32>(words: &[u32], number: u32) -> Result<Survey, u32> {
    let judge = head(words, FIRST).ok_or(3_u32)?;
    let (records, _) = words.as_chunks();
    let records = &records[..words[0] as usize];
    let sheet = Sheet::<FIRST> { judge, records };
    sheet.survey(number).ok_or(3)
}

fn survey(words: &[u32], number: u32) -> Result<Survey, u32> {
    size(words, LEAST_WORDS)?;
    if !shares_fit(words, &words[SHARES..HEAD]) {
        return Err(3);
    }
    walk::<FIRST_RECORD>(words, number)
}

fn survey_lot(words: &[u32], number: u32) -> Result<(Survey, Lot), u32> {
    let survey = survey(words, number)?;
    let lot = survey.lot.ok_or(6_u32)?;
    Ok((survey, lot))
}

/// Refuses a lot a record if none is left, or if its office may not have it.
fn grant(words: &[u32], survey: &Survey, number: u32) -> Result<(), u32> {
    let shares = words[SHARES..].first_chunk().ok_or(3_u32)?;
    match survey.free + records(words) - words[0] {
        0 => Err(11),
        left if shares::granted(number, left, shares, &survey.held) => Ok(()),
        _ => Err(19),
    }
}

fn put(words: &mut [u32], record: u32, values: [u32; 4]) {
    let at = record as usize * 4;
    words[at..at + 4].copy_from_slice(&values);
}

/// Writes a new record, one being left, and gives its index.
fn take(words: &mut [u32], values: [u32; 4]) -> u32 {
    let (unused, first) = (words[0], words[FIRST_FREE]);
    let record = if first != 0 {
        words[FIRST_FREE] = words[first as usize * 4 + 1];
        first
    } else {
        words[0] += 1;
        unused
    };
    put(words, record, values);
    record
}

fn release(words: &mut [u32], record: u32) {
    let first = words[FIRST_FREE];
    let depth = if first == 0 {
        0
    } else {
        words[first as usize * 4]
    };
    put(words, record, [depth + 1, first, 0, FREE]);
    words[FIRST_FREE] = record;
}

pub fn fresh(words: &mut [u32], plan: &[u32], shares: &ByOffice) -> Result<(), u32> {
    size(words, LEAST_WORDS)?;
    Plan::admitted(plan).ok_or(2_u32)?;
    if !shares_fit(words, shares) {
        return Err(18);
    }
    words[..SHARES].fill(0);
    words[0] = FIRST_RECORD;
    words[K] = (plan.len() / STAGE_WORDS) as u32;
    words[STAGES..STAGES + plan.len()].copy_from_slice(plan);
    words[SHARES..HEAD].copy_from_slice(shares);
    Ok(())
}

pub fn open(words: &mut [u32], number: u32) -> Result<(), u32> {
    let survey = survey(words, number)?;
    if number == 0 {
        return Err(4);
    }
    if survey.lot.is_some() {
        return Err(5);
    }
    grant(words, &survey, number)?;
    let next = words[survey.link];
    words[survey.link] = take(words, [number, next, 0, 0]);
    Ok(())
}

pub fn inspect(words: &mut [u32], number: u32, class: u32) -> Result<(), u32> {
    let (survey, lot) = survey_lot(words, number)?;
    if class > 3 {
        return Err(7);
    }
    if lot.state != UNDECIDED {
        return Err(8);
    }
    grant(words, &survey, number)?;
    let serial = lot.packed.counts().units + 1;
    let record = take(words, [class, lot.newest, lot.record, serial]);
    words[lot.record as usize * 4 + 2] = record;
    Ok(())
}

pub fn strike(words: &mut [u32], number: u32) -> Result<(), u32> {
    let (_, lot) = survey_lot(words, number)?;
    if lot.newest == 0 {
        return Err(9);
    }
    words[lot.record as usize * 4 + 2] = words[lot.newest as usize * 4 + 1];
    release(words, lot.newest);
    Ok(())
}

pub fn close(words: &mut [u32], number: u32) -> Result<(), u32> {
    let (survey, lot) = survey_lot(words, number)?;
    if lot.state == UNDECIDED {
        return Err(10);
    }
    if u64::from(words[TOTALS]) + u64::from(words[TOTALS + 1]) == MOST_CLOSED {
        return Err(12);
    }
    words[TOTALS + (lot.state - ACCEPTED) as usize] += 1;
    let classes = lot.packed.counts().classes();
    let totals = words[TOTALS + 2..SHARES].iter_mut();
    totals.zip(classes).for_each(|(total, more)| *total += more);
    words[survey.link] = words[lot.record as usize * 4 + 1];
    let mut at = lot.newest;
    while at != 0 {
        let older = words[at as usize * 4 + 1];
        release(words, at);
        at = older;
    }
    release(words, lot.record);
    Ok(())
}

pub fn look(words: &[u32], number: u32) -> Result<[u32; 6], u32> {
    let (_, lot) = survey_lot(words, number)?;
    let (counts, blanks) = (lot.packed.counts(), lot.packed.blanks());
    let [good, marginal, bad] = counts.classes();
    Ok([lot.state, counts.units, good, marginal, bad, blanks])
}

pub fn tally(words: &[u32]) -> Result<[u32; 5], u32> {
    survey(words, 0)?;
    words[TOTALS..].first_chunk().copied().ok_or(3)
}

pub fn estimate(words: &[u32], number: u32) -> Result<[u64; 4], u32> {
    let (survey, lot) = survey_lot(words, number)?;
    if lot.state == UNDECIDED {
        return Err(10);
    }
    if survey.stages > 1 {
        return Err(15);
    }
    let mut evidence = lot.packed;
    if evidence.counts().units > 1 {
        evidence = evidence.minus(Packed::of(words[lot.newest as usize * 4]));
    }
    let counts = evidence.counts();
    let [good, marginal, bad] = counts.classes().map(u64::from);
    Ok([good, marginal, bad, u64::from(counts.units)])
}
