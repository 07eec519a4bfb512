//! The places that carries meet (02, change 8): what is carried into what, which refusals
//! apply, which word of an old sheet is damaged; and what an office gets after a carry.

use super::office_places::{sum_beside, text, Counts, View};
use crate::lines::sheet_lines::{Command, Sheets};
use crate::model::chains::{intact, Chains, Plans};
use crate::model::class::{blanks, BLANK};
use crate::model::layout::*;
use crate::model::offices::{office, Shares};
use crate::model::plan::{Stage, STAGE_WORDS};
use crate::model::sheet_call::SheetCall;

/// The sheets as the lines leave them, and how many carries and calls meet each place.
#[derive(Default)]
pub struct Met {
    sheets: Sheets,
    plans: Plans,
    pub counts: Counts,
    /// The last old sheet that was not corrupt, but for those that differ from one before in a
    /// word.
    sound: Vec<u32>,
    /// After a granted carry whether the point came from which an office below its share is
    /// sure of a record; none before one, and on a sheet whose words were written.
    enough: Option<bool>,
    /// The reply to the last carry, and to one whose old sheet has been exchanged since then.
    /// No words were written since.
    carried: Option<u32>,
    exchanged: Option<u32>,
}

impl Met {
    pub fn line(&mut self, line: &str) -> Result<(), String> {
        match Command::parse(line)? {
            Command::Write(write) => {
                write.make(&mut self.sheets.sheet.words);
                (self.enough, self.carried, self.exchanged) = (None, None, None);
            }
            Command::Exchange => {
                self.sheets.exchange();
                (self.enough, self.exchanged) = (None, self.carried.take());
            }
            Command::Call(call) => self.call(&call),
            Command::Carry(shares) => self.carry(&shares)?,
        }
        Ok(())
    }

    fn count(&mut self, place: String) {
        *self.counts.entry(place).or_default() += 1;
    }

    fn call(&mut self, call: &SheetCall) {
        if let Some(reply) = self.exchanged.take() {
            self.count(format!("the old sheet after a carry {}", text(reply)));
        }
        let before = View::of(&self.sheets.sheet.words, &mut self.plans);
        let reply = call.make(&mut self.sheets.sheet).err().unwrap_or(0);
        let (Some(enough), Some(before)) = (self.enough, before) else {
            return;
        };
        let (name, reply) = (call.name(), text(reply));
        self.count(format!("{name} after a carry: {reply}"));
        if let SheetCall::Open(lot) | SheetCall::Inspect(lot, _) = *call {
            let standing = before.standing(office(lot));
            let standing = standing.trim_start_matches("one ");
            let point = if enough {
                "enough spare"
            } else {
                "fewer spare"
            };
            self.count(format!(
                "{name} after a carry, {point}, {standing}: {reply}"
            ));
        }
        if let Some(after) = View::of(&self.sheets.sheet.words, &mut self.plans) {
            if name == "close" && [before.lots, after.lots] == [1, 0] {
                self.count("close after a carry: the last lot".to_string());
            }
            if !enough && after.spare >= after.all_lack() {
                self.count(format!("enough spare after a {name}"));
                self.enough = Some(true);
            }
        }
    }

    fn carry(&mut self, shares: &Shares) -> Result<(), String> {
        let Sheets { sheet, aside } = &mut self.sheets;
        let (old, second) = (aside.clone(), sheet.words.len());
        let reply = sheet.carry(&old, shares).err().unwrap_or(0);
        let chains = chains(&old, &mut self.plans);
        let apply = refusals(&old, chains.is_none(), second, shares);
        if apply.first().map_or(0, |first| first.0) != reply {
            return Err(format!("a carry gets {reply} where {apply:?} apply"));
        }
        self.carried = Some(reply);
        let reply = text(reply);
        self.count(format!("carry: {reply}"));
        self.count(format!("old of {} words: {reply}", old.len()));
        self.count(format!("second of {second} words: {reply}"));
        for (number, why) in &apply {
            self.count(format!("{reply}, {why} {number} applies"));
        }
        if let [(number, why)] = apply[..] {
            self.count(format!("{why} {number} alone"));
        }
        if NEW.admits(second) && OLD.admits(old.len()) {
            self.shares(shares, second, &reply);
            let changed = self.damage(&old, chains.as_ref());
            if let Some(chains) = chains {
                self.fit(&old, second, &reply);
                if reply == "granted" {
                    self.kinds(&old, &chains);
                    self.offices();
                }
                if !changed {
                    self.sound = old;
                }
            }
        }
        Ok(())
    }

    fn shares(&mut self, shares: &Shares, second: usize, reply: &str) {
        let records = records_after_head(second) as u64;
        let fit = sum_beside(shares, records);
        self.count(format!("shares, {fit}: {reply}"));
    }

    /// The records of the second sheet beside those that are needed and those of the old.
    fn fit(&mut self, old: &[u32], second: usize, reply: &str) {
        let needed = old[NEXT_UNUSED] as usize + RAISE as usize;
        let fit = match records(second).abs_diff(needed) {
            0 => "just fits",
            1 if records(second) < needed => "one record too small",
            _ if records(second) < needed => "too small",
            _ => "larger than needed",
        };
        self.count(format!("second sheet {fit}: {reply}"));
        let beyond = second % RECORD_WORDS;
        self.count(format!(
            "second sheet {fit}, {beyond} words beyond: {reply}"
        ));
        let than = match second.cmp(&old.len()) {
            std::cmp::Ordering::Less => "smaller",
            std::cmp::Ordering::Equal => "as large",
            std::cmp::Ordering::Greater => "larger",
        };
        self.count(format!("second sheet {than}: {reply}"));
        if old[NEXT_UNUSED] as usize == records(old.len()) {
            self.count(format!("all of the old sheet used: {reply}"));
        }
        if old.len() == MOST_WORDS {
            let needed = needed as i64 - records(MOST_WORDS) as i64;
            self.count(format!(
                "old of {MOST_WORDS} words, {needed} too many: {reply}"
            ));
        }
    }

    /// What the old sheet has.
    fn kinds(&mut self, old: &[u32], chains: &Chains) {
        let stages = &chains.judging.plan.stages;
        self.count(format!("carried: {} stages", stages.len()));
        if stages.iter().any(|stage| stage.a.is_none()) {
            self.count("carried: marked stages".to_string());
        }
        for lot in &chains.lots {
            let state = ["undecided", "accepted", "rejected"][usize::from(lot.state())];
            let units = lot.classes.len().min(2);
            self.count(format!("carried: a lot {state}, {units} units or more"));
            let last = if lot.classes.last() == Some(&BLANK) {
                "last"
            } else {
                "before"
            };
            if blanks(&lot.classes) > 0 {
                self.count(format!("carried: a lot {state}, a blank {last}"));
            }
            let past = |stage: &&Stage| stage.end as usize <= lot.classes.len();
            let past = stages.iter().filter(past).count().min(2);
            self.count(format!(
                "carried: a lot {state}, past {past} stages or more"
            ));
        }
        self.count(format!("carried: {} lots", chains.lots.len().min(2)));
        self.count(format!("carried: {} free", chains.free.len().min(5)));
        let closed = [0, 1].map(|verdict| (old[CLOSED_LOTS + verdict] > 0) as usize);
        self.count(format!("carried: closed lots {closed:?}"));
        let unused = (records(old.len()) - old[NEXT_UNUSED] as usize).min(1);
        self.count(format!("carried: {unused} unused"));
        for record in OLD.first_record..NEW.first_record.min(old[NEXT_UNUSED]) {
            let kind = kind_of_record(chains, record);
            self.count(format!("carried: record {record} {kind}"));
        }
    }

    /// Each office beside its share, and what is spare beside what all lack.
    fn offices(&mut self) {
        let Some(view) = View::of(&self.sheets.sheet.words, &mut self.plans) else {
            return;
        };
        for of in 0..OFFICES {
            let standing = view.standing(of).trim_start_matches("one ");
            self.count(format!("arrives: office {of} {standing}"));
        }
        let lacking = view.all_lack();
        let spare = match view.spare.abs_diff(lacking) {
            _ if lacking == 0 => "none lack",
            0 => "as many spare as all lack",
            1 if view.spare < lacking => "one fewer spare than all lack",
            _ if view.spare < lacking => "fewer spare than all lack",
            1 => "one more spare than all lack",
            _ => "more spare than all lack",
        };
        self.count(format!("arrives: {spare}"));
        self.enough = Some(view.spare >= lacking);
    }

    /// Whether one word alone differs from the last sheet that was not corrupt.
    fn damage(&mut self, old: &[u32], chains: Option<&Chains>) -> bool {
        if old.len() != self.sound.len() {
            return false;
        }
        let differ: Vec<usize> = (0..old.len())
            .filter(|&at| old[at] != self.sound[at])
            .collect();
        let sound = intact(&self.sound, OLD, &mut self.plans);
        let (&[at], Some(sound)) = (&differ[..], sound) else {
            return false;
        };
        let is = if chains.is_some() {
            "not corrupt"
        } else {
            "corrupt"
        };
        let what = word_of(&self.sound, &sound, at);
        let to = match old[at] {
            index @ (0..=11 | 14) => index.to_string(),
            index if index == self.sound[NEXT_UNUSED] => "word 0".to_string(),
            u32::MAX => "2^32 - 1".to_string(),
            _ => "another".to_string(),
        };
        self.count(format!("{what} changed: {is}"));
        self.count(format!("{what} made {to}: {is}"));
        true
    }
}

/// The chains of an old sheet that is not corrupt, whatever its size.
fn chains(old: &[u32], plans: &mut Plans) -> Option<Chains> {
    let head = old.len() >= OLD.head();
    head.then(|| intact(old, OLD, plans)).flatten()
}

/// Each refusal that applies, in their order, with what it is for.
fn refusals(
    old: &[u32],
    corrupt: bool,
    second: usize,
    shares: &Shares,
) -> Vec<(u32, &'static str)> {
    let records = (second / 4) as u64;
    let sum: u64 = shares.iter().map(|&share| u64::from(share)).sum();
    let needed = old.first().map_or(0, |&used| u64::from(used) + 4);
    let all = [
        (!(48..=65_536).contains(&old.len()), 1, "old"),
        (!(64..=65_536).contains(&second), 1, "second"),
        (corrupt, 3, "corrupt"),
        (sum > records.saturating_sub(15), 18, "shares"),
        (records < needed, 20, "no fit"),
    ];
    let apply = all.into_iter().filter(|(applies, ..)| *applies);
    apply.map(|(_, number, why)| (number, why)).collect()
}

fn kind_of_record(chains: &Chains, record: u32) -> &'static str {
    let lots = &chains.lots;
    if lots.iter().any(|lot| lot.record == record) {
        "of a lot"
    } else if chains.free.contains(&record) {
        "free"
    } else {
        "of an inspection"
    }
}

/// Which word of an old sheet this is, by the kind of its record.
fn word_of(words: &[u32], chains: &Chains, at: usize) -> String {
    let used = STAGES + chains.judging.plan.stages.len() * STAGE_WORDS;
    let record = (at / RECORD_WORDS) as u32;
    match at {
        FIRST_LOT | FIRST_FREE => format!("index in word {at}"),
        STAGES..CLOSED_LOTS if at >= used => format!("unused word {at}"),
        _ if at < OLD.head() => format!("word {at}"),
        _ if record as usize >= records(words.len()) => "word beyond".to_string(),
        _ if record >= words[NEXT_UNUSED] => "word never used".to_string(),
        _ => {
            let (kind, word) = (kind_of_record(chains, record), at % RECORD_WORDS);
            let index = match (kind, word) {
                (_, NEXT) => "index in word",
                ("of a lot", NEWEST) | ("of an inspection", LOT) => "index in word",
                _ => "word",
            };
            format!("{index} {word} {kind}")
        }
    }
}
