//! Whether the lists of stop_places.rs, stop_stages.rs and sooner_stops.rs meet the places
//! that they are for. One that is wanted and that no list meets is an error. Places that
//! no list can meet are not wanted, and it is said why.

use super::places_met::{met, order, Places, DOES, REFUSED_AT, WAYS};
use crate::generators::plan_cases;
use crate::generators::stop_places::{places, FEW_PLACES, PART, RUN_ENDS, SIZES};
use crate::generators::stop_stages::{end_units, LATER_UNITS, MOST_LEFT, STAGE_SIZES};
use crate::model::plan::{ACCEPTED, REJECTED};

/// Gives the number of lists and of places that are wanted of them.
pub fn run() -> Result<[usize; 2], String> {
    let lines = plan_cases::stop_places();
    let met = met(&lines)?;
    let wanted = wanted();
    let missing: Vec<&String> = wanted.difference(&met).collect();
    if missing.is_empty() {
        Ok([lines.len(), wanted.len()])
    } else {
        Err(format!("no list of stop_places.rs has {missing:#?}"))
    }
}

fn wanted() -> Places {
    let mut wanted = Places::new();
    for way in WAYS {
        for verdict in [ACCEPTED, REJECTED] {
            let way = Way { way, verdict };
            wanted.extend(way.in_one_stage());
            wanted.extend(way.in_stages());
            wanted.extend(way.classes_after());
        }
    }
    wanted.extend(ends_of_lists());
    wanted.extend(sooner_than_full());
    wanted.extend(single_classes());
    wanted
}

#[derive(Clone, Copy)]
struct Way {
    way: &'static str,
    verdict: u8,
}

impl Way {
    fn does(self) -> String {
        format!("{} {}", self.way, DOES[usize::from(self.verdict)])
    }

    /// Whether it can stop at this unit of a stage. Uncurtailed waits for the stage's end,
    /// semi does to accept. At an acceptance all units left might be bad.
    fn can_stop(self, unit: usize, size: usize) -> bool {
        match (self.way, self.verdict) {
            ("uncurtailed", _) | ("semi", ACCEPTED) => unit == size,
            (_, ACCEPTED) => size - unit <= MOST_LEFT,
            _ => true,
        }
    }

    /// Each place of a stage of some size, and rejections at places of given sizes.
    fn in_one_stage(self) -> Places {
        let does = self.does();
        let each = places().into_iter();
        let mut wanted: Places = each
            .map(|unit| format!("{does} at unit {unit} of one stage"))
            .collect();
        for size in SIZES {
            for unit in FEW_PLACES.into_iter().filter(|&unit| unit <= size) {
                if self.verdict == REJECTED && self.can_stop(unit, size) {
                    wanted.insert(format!("{does} at unit {unit} of {size}, first of 1"));
                }
            }
        }
        wanted
    }

    /// The first and last units of the first, a middle and the last of k stages, and units
    /// inside of a later one.
    fn in_stages(self) -> Places {
        let does = self.does();
        let mut wanted = Places::new();
        for k in [2, 3, 7] {
            for stage in 0..k {
                let stage = order(stage, k);
                for size in STAGE_SIZES {
                    let mut units = end_units(size);
                    units.retain(|&unit| self.can_stop(unit, size));
                    let place = |unit| format!("{does} at unit {unit} of {size}, {stage} of {k}");
                    wanted.extend(units.into_iter().map(place));
                }
            }
        }
        for unit in LATER_UNITS {
            if self.verdict == ACCEPTED || self.can_stop(unit, unit + 1) {
                wanted.insert(format!("{does} at unit {unit} of a later stage"));
            }
        }
        wanted
    }

    fn classes_after(self) -> Places {
        let does = self.does();
        let after = ["0", "1", "some", "1000 or more"];
        let mut wanted: Places = after
            .map(|after| format!("{does}, {after} classes after"))
            .into();
        wanted.insert(format!("{does}, and a list ends before"));
        wanted
    }
}

/// Lists that end at ends of runs and of stages, full having stopped or not. At the end of
/// the last stage it always has.
fn ends_of_lists() -> Places {
    let mut wanted = Places::from(["a list of 0", "a list of 1"].map(String::from));
    for does in DOES.map(|does| format!("full {does}")) {
        wanted.insert(format!("{does}, uncurtailed goes on"));
        for unit in [PART, 2 * PART]
            .into_iter()
            .flat_map(|end| end - 1..=end + 1)
        {
            wanted.insert(format!("{does}, the list ends at unit {unit}"));
        }
        for after in -1..=1 {
            for last in [false, true] {
                let stopped = last && after >= 0;
                if !stopped || does != "full goes on" {
                    wanted.insert(format!("{does}, {after} from a stage's end, last {last}"));
                }
            }
        }
    }
    wanted
}

/// Earliest never rejects sooner, nor stops sooner in the last stage (sooner_stops.rs): so
/// not at unit 1000. In the stage in which full accepts, which is not marked, it is not
/// sooner at the last unit.
fn sooner_than_full() -> Places {
    let sooner = places().into_iter().filter(|&y| y < 1000);
    let mut wanted: Places = sooner.map(|y| format!("sooner at {y}")).collect();
    wanted.extend([1, 2, 10, 58, MOST_LEFT].map(|by| format!("sooner by {by}")));
    for apart in 0..=2 {
        for unit in ["first", "second", "last but one", "last"] {
            for marked in [false, true] {
                if apart > 0 || !marked && unit != "last" {
                    let place = format!("{apart} stages, {unit} unit, marked {marked}");
                    wanted.insert(format!("sooner by {place}"));
                }
            }
        }
    }
    wanted.extend([0, 1, 2].map(|after| format!("earliest stops alone, {after} classes after")));
    wanted
}

/// Units of a run or of a stage on which a rejection or a refusal hangs.
fn single_classes() -> Places {
    let mut wanted = Places::new();
    for unit in RUN_ENDS {
        wanted.extend([1, 2].map(|class| format!("class {class} at unit {unit} rejects")));
    }
    for place in REFUSED_AT {
        wanted.extend([4, 9].map(|class| format!("class {class} refused, {place}")));
    }
    wanted
}
