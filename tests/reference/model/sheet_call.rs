//! A call on a sheet as a value.

use super::offices::Shares;
use super::sheet::Sheet;
use super::Reply;

#[derive(Clone, Debug)]
pub enum SheetCall {
    /// Plan and shares.
    Fresh(Vec<u32>, Shares),
    Open(u32),
    Inspect(u32, u32),
    Strike(u32),
    Close(u32),
    Look(u32),
    Tally,
    Estimate(u32),
}

impl SheetCall {
    pub fn name(&self) -> &'static str {
        match self {
            SheetCall::Fresh(..) => "fresh",
            SheetCall::Open(_) => "open",
            SheetCall::Inspect(..) => "inspect",
            SheetCall::Strike(_) => "strike",
            SheetCall::Close(_) => "close",
            SheetCall::Look(_) => "look",
            SheetCall::Tally => "tally",
            SheetCall::Estimate(_) => "estimate",
        }
    }

    /// The values of the reply, none where it is ok.
    pub fn make(&self, sheet: &mut Sheet) -> Reply<Vec<u64>> {
        let values = |words: Vec<u32>| words.into_iter().map(u64::from).collect();
        let done = match *self {
            SheetCall::Fresh(ref plan, ref shares) => sheet.fresh(plan, shares),
            SheetCall::Open(lot) => sheet.open(lot),
            SheetCall::Inspect(lot, class) => sheet.inspect(lot, class),
            SheetCall::Strike(lot) => sheet.strike(lot),
            SheetCall::Close(lot) => sheet.close(lot),
            SheetCall::Look(lot) => return sheet.look(lot).map(values),
            SheetCall::Tally => return sheet.tally().map(values),
            SheetCall::Estimate(lot) => return sheet.estimate(lot).map(values),
        };
        done.map(|()| vec![])
    }
}
