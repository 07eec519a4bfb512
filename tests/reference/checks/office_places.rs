//! The places that calls on sheets with shares meet (02, change 7): where an office stands
//! beside its share, how many records are spare beside what others lack, and what the
//! reply is.

use crate::lines::sheet_lines::{Command, Write};
use crate::model::chains::{intact, Plans};
use crate::model::layout::*;
use crate::model::offices::{self, office, Shares, NO_SHARES};
use crate::model::sheet::Sheet;
use crate::model::sheet_call::SheetCall;
use std::collections::{BTreeMap, HashMap};

/// How many calls meet each place.
pub type Counts = BTreeMap<String, usize>;

/// An error if no line of these files meets a place that is wanted.
pub fn all_met(counts: &Counts, wanted: &[String], files: &str) -> Result<(), String> {
    let missing = |place: &&String| !counts.contains_key(*place);
    let missing: Vec<&String> = wanted.iter().filter(missing).collect();
    if missing.is_empty() {
        Ok(())
    } else {
        Err(format!("no line of {files} has {missing:#?}"))
    }
}

/// What the shares add to, beside so many records.
pub fn sum_beside(shares: &Shares, records: u64) -> &'static str {
    let sum: u64 = shares.iter().map(|&share| u64::from(share)).sum();
    match sum.abs_diff(records) {
        _ if sum == 0 => "no shares",
        0 => "the most",
        1 if sum > records => "one more",
        _ if sum < records => "fewer",
        _ if sum < 1 << 32 => "more",
        _ if sum % (1 << 32) <= records => "in 32 bits few",
        _ => "past 32 bits",
    }
}

/// What the rule asks of a sheet that is not corrupt.
pub struct View {
    pub shares: Shares,
    pub held: [u64; OFFICES],
    pub spare: u64,
    /// Whether records are free, and whether some are unused.
    of: [bool; 2],
    pub lots: usize,
}

impl View {
    pub fn of(words: &[u32], plans: &mut Plans) -> Option<View> {
        let size = NEW.admits(words.len());
        let chains = size.then(|| intact(words, NEW, plans)).flatten()?;
        let unused = records(words.len()) - words[NEXT_UNUSED] as usize;
        Some(View {
            shares: offices::shares_of(words, NEW),
            held: offices::held(&chains.lots),
            spare: (chains.free.len() + unused) as u64,
            of: [!chains.free.is_empty(), unused > 0],
            lots: chains.lots.len(),
        })
    }

    fn lacking(&self, office: usize) -> u64 {
        u64::from(self.shares[office]).saturating_sub(self.held[office])
    }

    pub fn all_lack(&self) -> u64 {
        (0..OFFICES).map(|office| self.lacking(office)).sum()
    }

    fn others_lack(&self, office: usize) -> u64 {
        self.all_lack() - self.lacking(office)
    }

    pub fn standing(&self, office: usize) -> &'static str {
        let (share, held) = (u64::from(self.shares[office]), self.held[office]);
        match share.abs_diff(held) {
            0 if share == 0 => "no share, nothing held",
            _ if share == 0 => "no share",
            0 => "at its share",
            1 if held < share => "one below its share",
            _ if held < share => "below its share",
            _ => "above its share",
        }
    }

    fn spare_beside(&self, office: usize) -> &'static str {
        let (spare, lacking) = (self.spare, self.others_lack(office));
        match spare.abs_diff(lacking) {
            _ if spare == 0 => "none spare",
            _ if spare < lacking => "fewer spare than others lack",
            0 => "as many spare as others lack",
            _ if lacking == 0 => "others lack none",
            1 => "one more spare than others lack",
            _ => "more spare than others lack",
        }
    }

    fn held_back(&self, of: usize) -> bool {
        self.spare > 0 && !offices::grants(&self.shares, &self.held, of, self.spare)
    }
}

/// The sheet as the lines leave it, and what its calls meet.
#[derive(Default)]
pub struct Met {
    sheet: Sheet,
    plans: Plans,
    pub counts: Counts,
    /// Calls refused 19 since words were last written, and what has given records back
    /// since then.
    held_back: HashMap<(&'static str, u32), Option<String>>,
    /// A share written alone on a sheet that wasn't corrupt, and how.
    written: Option<(usize, &'static str)>,
}

impl Met {
    pub fn line(&mut self, line: &str) -> Result<(), String> {
        match Command::parse(line)? {
            Command::Write(write) => self.write(&write),
            Command::Call(call) => self.call(&call),
            _ => return Err(format!("not on one sheet: {line}")),
        }
        Ok(())
    }

    fn count(&mut self, place: String) {
        *self.counts.entry(place).or_default() += 1;
    }

    fn write(&mut self, write: &Write) {
        let words = &mut self.sheet.words;
        self.written = match *write {
            Write::Word { index, word } if (SHARES..HEAD).contains(&(index as usize)) => {
                let of = index as usize - SHARES;
                let before = View::of(words, &mut self.plans);
                before.map(|view| (of, change(&view, of, word, records_after_head(words.len()))))
            }
            _ => None,
        };
        self.held_back.clear();
        write.make(words);
    }

    fn call(&mut self, call: &SheetCall) {
        let before = View::of(&self.sheet.words, &mut self.plans);
        let reply = call.make(&mut self.sheet).err().unwrap_or(0);
        let name = call.name();
        self.count(format!("{name}: {}", text(reply)));
        if let Some((of, how)) = self.written {
            let corrupt = if reply == 3 { "corrupt" } else { "not corrupt" };
            self.count(format!("share {of} {how}, {corrupt}: {name}"));
        }
        match *call {
            SheetCall::Fresh(_, ref shares) => self.fresh(shares, reply, before),
            SheetCall::Open(lot) | SheetCall::Inspect(lot, _) => {
                if let Some(before) = before {
                    self.needs_a_record(name, lot, reply, &before);
                }
            }
            SheetCall::Strike(lot) | SheetCall::Close(lot) if reply == 0 => {
                let after = View::of(&self.sheet.words, &mut self.plans);
                if let (Some(before), Some(after)) = (before, after) {
                    self.gave_back(name, lot, &before, &after);
                }
            }
            _ => {}
        }
    }

    fn fresh(&mut self, shares: &Shares, reply: u32, before: Option<View>) {
        let length = self.sheet.words.len();
        let records = records(length).saturating_sub(FIRST_RECORD as usize) as u64;
        let fit = sum_beside(shares, records);
        let reply = text(reply);
        self.count(format!("fresh: {fit}, {reply}"));
        if [LEAST_WORDS, MOST_WORDS]
            .iter()
            .any(|size| size.abs_diff(length) <= 4)
        {
            self.count(format!("fresh: {fit} of {length} words, {reply}"));
        }
        let all = shares.iter().position(|&share| u64::from(share) == records);
        if let Some(of) = all.filter(|_| records > 0) {
            self.count(format!("fresh: all for office {of}, {reply}"));
        }
        if *shares != NO_SHARES && shares.iter().all(|share| *share == shares[0]) {
            self.count(format!("fresh: all alike, {fit}, {reply}"));
        }
        if before.is_some_and(|view| view.lots > 0) {
            self.count(format!("fresh over lots: {fit}, {reply}"));
        }
        if reply == "granted" {
            self.held_back.clear();
        }
    }

    fn needs_a_record(&mut self, name: &'static str, lot: u32, reply: u32, before: &View) {
        let of = office(lot);
        if ![0, 11, 19].contains(&reply) {
            let rule = match before.spare {
                0 => "full too",
                _ if before.held_back(of) => "held back too",
                _ => return,
            };
            return self.count(format!("{name}: refused {reply}, {rule}"));
        }
        let (standing, spare) = (before.standing(of), before.spare_beside(of));
        let kinds = match before.of {
            [true, true] => "free and unused",
            [true, false] => "free",
            _ => "unused",
        };
        let reply = text(reply);
        self.count(format!("{name}: office {of}, {reply}"));
        self.count(format!("{name}: {standing}, {spare}, {reply}"));
        if reply != "refused 11" {
            self.count(format!("{name}: spare are {kinds}, {reply}"));
        }
        if let 1..=16 | u32::MAX = lot {
            self.count(format!("{name}: lot {lot}, {reply}"));
        }
        let lack = (0..OFFICES).filter(|&other| other != of && before.lacking(other) > 0);
        self.count(format!("{name}: {} others lack, {reply}", lack.count()));
        self.again(name, lot, &reply);
    }

    /// A call that was refused 19 before, on the same sheet.
    fn again(&mut self, name: &'static str, lot: u32, reply: &str) {
        if let Some(Some(gave_back)) = self.held_back.remove(&(name, lot)) {
            self.count(format!("{name}: {reply} after 19 and {gave_back}"));
        }
        if reply == "refused 19" {
            self.held_back.insert((name, lot), None);
        }
    }

    fn gave_back(&mut self, name: &str, lot: u32, before: &View, after: &View) {
        let more = after.spare - before.spare;
        let lacking = match after.all_lack() - before.all_lack() {
            0 => "nothing lacking",
            lacking if lacking == more => "as much lacking",
            _ => "less lacking",
        };
        self.count(format!("{name}: {lacking}"));
        for ((_, other), gave_back) in self.held_back.iter_mut() {
            let whose = if office(*other) == office(lot) {
                "its office"
            } else {
                "another office"
            };
            *gave_back = Some(format!("a {name} of {whose}, {lacking}"));
        }
    }
}

pub fn text(reply: u32) -> String {
    match reply {
        0 => "granted".to_string(),
        _ => format!("refused {reply}"),
    }
}

/// What a share becomes, on a sheet with so many records after the head.
fn change(view: &View, of: usize, word: u32, records: usize) -> &'static str {
    let own = view.shares[of];
    let mut shares = view.shares;
    shares[of] = word;
    let sum: u64 = shares.iter().map(|&share| u64::from(share)).sum();
    match sum.abs_diff(records as u64) {
        _ if word < own => "lowered",
        0 => "raised to the most",
        1 if sum > records as u64 => "raised to one more",
        _ if word == u32::MAX => "made 2^32 - 1",
        _ if sum == 1 << 32 => "made 0 in 32 bits",
        _ => "raised",
    }
}
