//! The classes that a unit may have (01 "Plan"; 02, change 4), and units by class.

pub const GOOD: u8 = 0;
pub const MARGINAL: u8 = 1;
pub const BAD: u8 = 2;
/// Kept as 3 in lists and inspections. In every plan test, event, estimate, chance and
/// total it is marginal.
pub const BLANK: u8 = 3;

/// The highest class that a unit may have.
pub const HIGHEST: u8 = BLANK;

/// A class as the plan tests, events, estimates and totals see it.
fn tested(class: u8) -> u8 {
    if class == BLANK {
        MARGINAL
    } else {
        class
    }
}

/// 1 or 2 (01 "Plan"), and so a blank too.
pub fn is_nongood(class: u8) -> bool {
    [MARGINAL, BAD].contains(&tested(class))
}

/// Good, marginal and bad units, blanks being within marginal.
pub fn counts(classes: &[u8]) -> [u32; 3] {
    [GOOD, MARGINAL, BAD].map(|class| count(classes, |it| tested(it) == class))
}

pub fn blanks(classes: &[u8]) -> u32 {
    count(classes, |class| class == BLANK)
}

fn count(classes: &[u8], is: impl Fn(u8) -> bool) -> u32 {
    classes.iter().filter(|&&class| is(class)).count() as u32
}
