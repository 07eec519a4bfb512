//! The rules of admission of a plan (docs/SPECIFICATION.md, "Plan"), in words.
//! bindings/python/plan_rules.py gives the same sentences.

/// Both a1 and a2 of a stage where acceptance is not permitted.
pub const NOT_PERMITTED: u32 = u32::MAX;

/// What one row has at a stage: the stage's number, the units up to its end, and
/// a and r. The words are widened so that no sum of them wraps.
struct Numbers {
    stage: usize,
    end: u64,
    a: u64,
    r: u64,
}

/// A sentence for each rule that a plan breaks, in the specification's order.
pub fn broken_rules(plan: &[u32]) -> Vec<String> {
    if plan.len() % 5 != 0 {
        return vec![format!("length {} is not a multiple of 5", plan.len())];
    }
    let (one, two) = (row(plan, 1), row(plan, 2));
    let Some(last) = one.last() else {
        return vec!["k = 0 is below 1".to_string()];
    };
    let early = early(plan);
    [
        of_plan(plan, early, last),
        of_row(&one, early, 1),
        of_row(&two, early, 2),
        between_rows(&one, &two),
    ]
    .concat()
}

/// How many stages, from the first on, are early: acceptance is not permitted there.
fn early(plan: &[u32]) -> usize {
    let marked = |stage: &&[u32]| stage[1] == NOT_PERMITTED && stage[3] == NOT_PERMITTED;
    plan.chunks(5).take_while(marked).count()
}

/// Row 1 is of nongood units, row 2 of bad ones. A stage is n, a1, r1, a2, r2.
fn row(plan: &[u32], i: usize) -> Vec<Numbers> {
    let mut end = 0;
    let numbers = |(stage, words): (usize, &[u32])| {
        end += u64::from(words[0]);
        let [a, r] = [words[2 * i - 1], words[2 * i]].map(u64::from);
        Numbers { stage, end, a, r }
    };
    (1..).zip(plan.chunks(5)).map(numbers).collect()
}

fn of_plan(plan: &[u32], early: usize, last: &Numbers) -> Vec<String> {
    let &Numbers {
        stage: k, end, r, ..
    } = last;
    let mut broken = vec![];
    if k > 7 {
        broken.push(format!("k = {k} is above 7"));
    }
    for (stage, &n) in (1..).zip(plan.iter().step_by(5)) {
        if n < 1 {
            broken.push(format!("stage {stage}: n = {n} is below 1"));
        }
    }
    if end > 1000 {
        broken.push(format!("S = {end} is above 1000"));
    }
    if r > 60 {
        broken.push(format!("stage {k}, the last: r1 = {r} is above 60"));
    }
    if k == early {
        broken.push(format!("stage {k}, the last: acceptance is not permitted"));
    }
    broken
}

/// The rules on r are of all stages, those on a of the stages after the early ones.
fn of_row(row: &[Numbers], early: usize, i: usize) -> Vec<String> {
    let (early, later) = row.split_at(early);
    [
        of_steps(row, later, i),
        of_early(early, i),
        of_gaps(later, row.len(), i),
        of_units(row, later, i),
    ]
    .concat()
}

fn of_steps(row: &[Numbers], later: &[Numbers], i: usize) -> Vec<String> {
    let a: Vec<_> = later.iter().map(|it| (it.stage, it.a)).collect();
    let r: Vec<_> = row.iter().map(|it| (it.stage, it.r)).collect();
    let (a_name, r_name) = (format!("a{i}"), format!("r{i}"));
    let mut broken = falls(&a_name, &a);
    if let [.., (before, old), (last, new)] = a[..] {
        if new <= old {
            broken.push(format!(
                "stage {last}, the last: a{i} = {new} is not above a{i} = {old} of stage {before}"
            ));
        }
    }
    broken.extend(falls(&r_name, &r));
    broken
}

/// Where the numbers, each with its stage, fall.
fn falls(name: &str, numbers: &[(usize, u64)]) -> Vec<String> {
    let mut broken = vec![];
    for step in numbers.windows(2) {
        let ((before, old), (stage, new)) = (step[0], step[1]);
        if new < old {
            broken.push(format!(
                "stage {stage}: {name} = {new} is below {name} = {old} of stage {before}"
            ));
        }
    }
    broken
}

fn of_early(row: &[Numbers], i: usize) -> Vec<String> {
    let mut broken = vec![];
    for &Numbers { stage, r, .. } in row {
        if r < 1 {
            broken.push(format!(
                "stage {stage}, where acceptance is not permitted: r{i} = {r} is below 1"
            ));
        }
    }
    broken
}

/// How far r is above a.
fn of_gaps(later: &[Numbers], k: usize, i: usize) -> Vec<String> {
    let mut broken = vec![];
    for &Numbers { stage, a, r, .. } in later {
        let next = a + 1;
        if stage < k && next >= r {
            broken.push(format!(
                "stage {stage}: a{i} + 1 = {next} is not below r{i} = {r}"
            ));
        }
        if stage == k && next != r {
            broken.push(format!(
                "stage {k}, the last: a{i} + 1 = {next} is not r{i} = {r}"
            ));
        }
    }
    broken
}

fn of_units(row: &[Numbers], later: &[Numbers], i: usize) -> Vec<String> {
    let mut broken = vec![];
    for &Numbers { stage, end, a, .. } in later {
        if a >= end {
            broken.push(format!(
                "stage {stage}: a{i} = {a} is not below S{stage} = {end}"
            ));
        }
    }
    if let Some(&Numbers { stage, end, r, .. }) = row.last() {
        if r > end {
            broken.push(format!(
                "stage {stage}, the last: r{i} = {r} is above S = {end}"
            ));
        }
    }
    broken
}

/// In an early stage a2 is a1, which the rule on a allows.
fn between_rows(one: &[Numbers], two: &[Numbers]) -> Vec<String> {
    let mut broken = vec![];
    for (one, two) in one.iter().zip(two) {
        let stage = one.stage;
        for (name, first, second) in [("a", one.a, two.a), ("r", one.r, two.r)] {
            if second > first {
                broken.push(format!(
                    "stage {stage}: {name}2 = {second} is above {name}1 = {first}"
                ));
            }
        }
    }
    broken
}
