//! Plans, lists and weights: judge, chance and expected units with their charts, and
//! fresh with each plan. Words that are no plan are also given with a lot.

use crate::compare::{needed, Compared, Comparer};
use crate::library::PATTERN;
use reference::generators::hand_written::{
    runs, A, B, LARGEST, ONE, SEVEN, THREE, TWO, WEIGHTS, WRAPS,
};
use reference::generators::marked_edges::marked_edges;
use reference::generators::marked_plans::{LARGEST_MARKED, PUBLISHED, SEVEN_SIX};
use reference::generators::plan_edges::edges;
use reference::generators::random::Random;
use reference::generators::{blanks, draw, plan_cases};
use reference::lines::plan_lines::Case;
use reference::model::chance::MOST_SCRATCH;
use reference::model::class::BLANK;
use reference::model::earliest::Table;
use reference::model::layout::{LEAST_WORDS, MOST_WORDS, OFFICES};
use reference::model::offices::NO_SHARES;
use reference::model::plan::{Plan, MARK, STAGE_WORDS};
use reference::model::sheet_call::SheetCall;

const SEED: u64 = 40_100_000;
const MARKED_SEED: u64 = 40_100_001;

pub fn all(comparer: &mut Comparer) -> Compared {
    let random = &mut Random::new(SEED);
    stored_cases(comparer)?;
    hand_written(comparer)?;
    all_lengths(comparer, random)?;
    drawn_plans(comparer, random)?;
    long_lists(comparer, random)?;
    weights_and_scratch(comparer, random)?;
    marked(comparer, &mut Random::new(MARKED_SEED))
}

/// Plans with marked stages, about as many for each k as without.
fn marked(comparer: &mut Comparer, random: &mut Random) -> Compared {
    marked_by_hand(comparer)?;
    marked_long_lists(comparer, random)?;
    marked_plans(comparer, random, 600, [2, 12])?;
    marked_plans(comparer, random, 258, [13, 120])?;
    marked_plans(comparer, random, 54, [121, 1_000])?;
    marked_chances(comparer, random)
}

/// The cases that crates/vectors answers.
fn stored_cases(comparer: &mut Comparer) -> Compared {
    for line in plan_cases::all() {
        match Case::parse(&line)? {
            Case::Admission(words) => plan(comparer, &words)?,
            Case::Judged(list, words) => comparer.judge(&words, &list)?,
            Case::Chance(call)
            | Case::Chart(call)
            | Case::ExpectedUnits(call)
            | Case::ExpectedUnitsChart(call) => {
                comparer.with_weights(&call.words, call.weights, call.scratch as usize)?
            }
            Case::LotChance(call) => {
                comparer.lot_chance(&call.words, call.lot, call.scratch as usize)?
            }
        }
    }
    Ok(())
}

/// Every call that takes a plan, on few classes.
fn plan(comparer: &mut Comparer, words: &[u32]) -> Compared {
    comparer.judge(words, &[])?;
    comparer.judge(words, &[0, 1, 2, 0, 0])?;
    comparer.judge(words, &[3, 0, 3, 2])?;
    comparer.judge(words, &[0, 4])?;
    for length in [LEAST_WORDS - 1, LEAST_WORDS, LEAST_WORDS + 3] {
        comparer.new_sheet(vec![PATTERN; length]);
        // More than the one record that there is.
        comparer.on_sheet(&SheetCall::Fresh(words.to_vec(), [1; OFFICES]))?;
        comparer.on_sheet(&SheetCall::Fresh(words.to_vec(), NO_SHARES))?;
        comparer.on_sheet(&SheetCall::Tally)?;
    }
    if Plan::admitted(words).is_none() {
        comparer.with_weights(words, [1, 1, 1], MOST_SCRATCH as usize)?;
        comparer.with_weights(words, [0, 0, 0], 0)?;
        comparer.lot_chance(words, [800, 100, 100], MOST_SCRATCH as usize)?;
        comparer.lot_chance(words, [0, 0, 0], 0)?;
        comparer.lot_chance(words, [u32::MAX, 1, 1_000], 1)?;
    }
    Ok(())
}

fn hand_written(comparer: &mut Comparer) -> Compared {
    for edge in edges() {
        plan(comparer, &edge.kept())?;
        plan(comparer, &edge.broken())?;
    }
    let wraps = WRAPS.iter().map(|words| words.to_vec());
    runs()
        .into_iter()
        .chain(wraps)
        .try_for_each(|words| plan(comparer, &words))
}

/// Words at the limits of a rule or of 32 bits.
const VALUES: &[u32] = &[
    0,
    1,
    2,
    59,
    60,
    61,
    999,
    1_000,
    1_001,
    MOST_WORDS as u32,
    0x7FFF_FFFF,
    0x8000_0000,
    0xFFFF_FFFE,
    u32::MAX,
];

/// Runs of 0 to 40 words: beginnings of an admitted plan, one value throughout,
/// small words and any words.
fn all_lengths(comparer: &mut Comparer, random: &mut Random) -> Compared {
    for length in 0..=40 {
        let long = [SEVEN, SEVEN].concat();
        plan(comparer, &long[..length])?;
        for &value in VALUES {
            plan(comparer, &vec![value; length])?;
        }
        for most in [1, 2, 5, 20, u32::MAX] {
            let words: Vec<u32> = (0..length).map(|_| random.between(0, most)).collect();
            plan(comparer, &words)?;
        }
    }
    Ok(())
}

/// Random admitted plans with lists of each kind, and each plan with one word
/// replaced.
fn drawn_plans(comparer: &mut Comparer, random: &mut Random) -> Compared {
    for (plans, least, most) in [(700, 1, 12), (300, 13, 120), (60, 121, 1_000)] {
        for round in 0..plans {
            let units = random.between(least, most);
            let words = draw::plan(random, 1 + round % 7, units);
            lists(comparer, random, &words)?;
            for _ in 0..6 {
                let mut damaged = words.clone();
                let index = random.index(words.len());
                let own = words[index];
                let near = [own.wrapping_add(1), own.wrapping_sub(1), own ^ 1];
                let value = random.pick(VALUES);
                damaged[index] = random.pick(&[near[0], near[1], near[2], value]);
                comparer.judge(&damaged, &[0, 2, 1])?;
            }
        }
    }
    Ok(())
}

/// About half of a list's marginal units blank, in half of the lists.
fn maybe_with_blanks(random: &mut Random, list: Vec<u8>) -> Vec<u8> {
    if random.one_in(2) {
        blanks::some(random, &list)
    } else {
        list
    }
}

fn lists(comparer: &mut Comparer, random: &mut Random, words: &[u32]) -> Compared {
    let plan = Plan::admitted(words).expect("the plan is drawn as an admitted one");
    let table = Table::new(&plan);
    let units = plan.units();
    for _ in 0..3 {
        let length = random.index(units + 4);
        let until = random.index(units + 2);
        let most = random.pick(&[units, units + 3, 2_000]);
        for list in [
            draw::mixed(random, &plan, length),
            draw::near_the_numbers(random, &plan),
            draw::held(random, &plan, &table, until, units),
            draw::held(random, &plan, &table, units + 1, most),
        ] {
            let mut list = maybe_with_blanks(random, list);
            list.truncate(random.pick(&[2_000, 2_000, 2_000, units - 1]));
            comparer.judge(words, &list)?;
            if !list.is_empty() && random.one_in(4) {
                let place = random.index(list.len());
                list[place] = random.pick(&[4, 5, 7, 127, 128, 255]);
                comparer.judge(words, &list)?;
            }
        }
    }
    Ok(())
}

/// Lists of 1,000 and more classes, with and without a class that is refused.
fn long_lists(comparer: &mut Comparer, random: &mut Random) -> Compared {
    for words in [A, B, ONE, TWO, THREE, SEVEN, LARGEST[0], LARGEST[1]] {
        long_lists_of(comparer, random, words)?;
    }
    Ok(())
}

fn long_lists_of(comparer: &mut Comparer, random: &mut Random, words: &[u32]) -> Compared {
    let plan = Plan::admitted(words).expect("the hand-written plans are admitted");
    let table = Table::new(&plan);
    for length in [999, 1_000, 1_001, 1_002, 1_999, 2_000, 100_000] {
        comparer.judge(words, &vec![BLANK; length])?;
        let list = draw::held(random, &plan, &table, plan.units(), length);
        let list = maybe_with_blanks(random, list);
        comparer.judge(words, &list)?;
        for place in [0, 999, 1_000, random.index(length), length - 1] {
            let mut other = list.clone();
            if place < length {
                other[place] = random.pick(&[0, 1, 2, 3, 4, 255]);
            }
            comparer.judge(words, &other)?;
        }
    }
    Ok(())
}

/// Weights at their limits, and a scratch too small, exact and larger.
fn weights_and_scratch(comparer: &mut Comparer, random: &mut Random) -> Compared {
    let most = u32::MAX;
    let more = [
        [most, most, most],
        [0, most, 1],
        [500_000, 500_000, 0],
        [500_000, 500_001, 0],
    ];
    for round in 0..170 {
        let units = random.pick(&[1, 2, 5, 12, 40, 90]);
        let words = draw::plan(random, 1 + round % 7, units);
        let plan = Plan::admitted(&words).expect("the plan is drawn as an admitted one");
        let exact = needed(&words);
        for &weights in WEIGHTS.iter().chain(&more) {
            let scratch =
                random.pick(&[0, exact / 2, exact - 1, exact, exact, exact + 1, exact + 50]);
            comparer.with_weights(&words, weights, scratch)?;
        }
        let most = MOST_SCRATCH as usize;
        for scratch in [0, 1, exact - 1, exact, exact + 1, most, most + 1] {
            let weights = draw::weights(random, &plan);
            comparer.with_weights(&words, weights, scratch)?;
        }
    }
    Ok(())
}

fn marked_by_hand(comparer: &mut Comparer) -> Compared {
    for edge in marked_edges() {
        plan(comparer, &edge.kept())?;
        plan(comparer, &edge.broken())?;
    }
    Ok(())
}

fn marked_long_lists(comparer: &mut Comparer, random: &mut Random) -> Compared {
    for words in [SEVEN_SIX, PUBLISHED, LARGEST_MARKED[0], LARGEST_MARKED[1]] {
        long_lists_of(comparer, random, words)?;
    }
    Ok(())
}

/// A plan of 2 to 7 stages, each k in turn, with at least one marked.
pub fn marked_plan(random: &mut Random, round: usize, [least, most]: [u32; 2]) -> Vec<u32> {
    let k = 2 + round % 6;
    let marked = 1 + random.index(k - 1);
    let units = random.between(least.max(k as u32), most);
    draw::marked_plan(random, marked, k, units)
}

/// Random plans with lists of each kind, and each plan changed.
fn marked_plans(
    comparer: &mut Comparer,
    random: &mut Random,
    plans: usize,
    units: [u32; 2],
) -> Compared {
    for round in 0..plans {
        let words = marked_plan(random, round, units);
        comparer.marked += 1;
        lists(comparer, random, &words)?;
        (0..4).try_for_each(|_| changed_marks(comparer, random, &words))?;
    }
    Ok(())
}

fn changed_marks(comparer: &mut Comparer, random: &mut Random, words: &[u32]) -> Compared {
    let changed = with_other_marks(random, words);
    comparer.marked_refused += u64::from(Plan::admitted(&changed).is_none());
    plan(comparer, &changed)
}

/// A stage with other marks, with r = 0, at another place, or with a word off by one.
fn with_other_marks(random: &mut Random, words: &[u32]) -> Vec<u32> {
    let mut words = words.to_vec();
    let k = words.len() / STAGE_WORDS;
    let (stage, other) = (random.index(k), random.index(k));
    let at = |word: usize| stage * STAGE_WORDS + word;
    let [a1, r1, a2, r2] = [at(1), at(2), at(3), at(4)];
    match random.index(8) {
        0 => [words[a1], words[a2]] = [MARK; 2],
        1 => [words[a1], words[a2]] = [MARK - 1; 2],
        2 => [words[a1], words[a2]] = [0; 2],
        3 => words[random.pick(&[a1, a2])] = MARK,
        4 => words[random.pick(&[r1, r2])] = 0,
        5 => (0..STAGE_WORDS).for_each(|word| words.swap(at(word), other * STAGE_WORDS + word)),
        6 => words[random.pick(&[r1, r2])] += 1,
        _ => {
            let index = random.index(words.len());
            words[index] = words[index].wrapping_sub(1);
        }
    }
    words
}

fn marked_chances(comparer: &mut Comparer, random: &mut Random) -> Compared {
    for round in 0..600 {
        let words = marked_plan(random, round, [2, 90]);
        comparer.marked += 1;
        let plan = Plan::admitted(&words).expect("the plan is drawn as an admitted one");
        let exact = needed(&words);
        let scratch = random.pick(&[0, exact - 1, exact, exact, exact, exact + 1]);
        let weights = draw::weights(random, &plan);
        comparer.with_weights(&words, weights, scratch)?;
        comparer.with_weights(&words, random.pick(WEIGHTS), exact)?;
    }
    Ok(())
}
