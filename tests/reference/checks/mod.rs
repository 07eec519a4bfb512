//! Checks of the model itself, and of what the generators cover.

mod blank_coverage;
mod blank_selftest;
mod carry_by_hand;
mod carry_coverage;
mod carry_places;
mod carry_selftest;
mod carry_shares;
mod chance_selftest;
mod closed_form;
mod estimate_selftest;
mod histories;
mod lot_chance_selftest;
mod marked_selftest;
mod office_coverage;
mod office_places;
mod office_selftest;
mod only_unit_coverage;
mod places_met;
mod plan_selftest;
mod sheet_histories;
pub mod stats;
mod stop_coverage;
mod units_coverage;
mod units_selftest;

use crate::lines::plan_lines;
use crate::model::plan_calls::PlanCalls;

/// All checks of the model, and of what some cases cover; the first one that fails is the
/// error.
pub fn selftest() -> Result<(), String> {
    let plans = 4000;
    let stops = plan_selftest::run(plans)?;
    chance_selftest::run(plans)?;
    eprintln!("selftest passed: {plans} random plans, their chances, {stops} stops on their lists");
    let plays = 400;
    sheet_histories::run(plays)?;
    eprintln!("selftest passed: {plays} lists of calls on sheets, by words and by histories");
    let [stops, in_marked] = marked_selftest::run(plans, plays)?;
    eprintln!(
        "selftest passed: alike with marked stages, {stops} stops, {in_marked} accept in one"
    );
    let stops = blank_selftest::run(plans, plays)?;
    eprintln!("selftest passed: {plans} random plans and {plays} lists of calls with blanks, {stops} stops");
    let plans = 400;
    let [lots, draws] = lot_chance_selftest::run(plans)?;
    eprintln!("selftest passed: {plans} random plans with lots, {lots} by their {draws} draws");
    let [lists, places] = stop_coverage::run()?;
    eprintln!("selftest passed: {lists} lists for {places} places of stops meet them all");
    let [lines, places] = blank_coverage::run()?;
    eprintln!("selftest passed: {lines} lines for {places} places of blanks meet them all");
    let [plans, lots] = estimate_selftest::run(6)?;
    eprintln!("selftest passed: {lots} lots of {plans} one-stage plans, estimates by their paths");
    let [lines, places] = only_unit_coverage::run()?;
    eprintln!("selftest passed: {lines} lines for {places} places of only units meet them all");
    let [plans, alike] = units_selftest::run(800)?;
    eprintln!(
        "selftest passed: expected units of {plans} plans by sequences, {alike} by one class"
    );
    let [plans, more] = closed_form::run(500)?;
    eprintln!("selftest passed: {plans} one-stage plans by the closed form, {more} by floats");
    let [lines, places] = units_coverage::run()?;
    eprintln!("selftest passed: {lines} lines for {places} places of expected units meet them all");
    offices()?;
    carries()
}

fn offices() -> Result<(), String> {
    let plays = 400;
    let [below, held_back] = office_selftest::run(plays)?;
    eprintln!(
        "selftest passed: {plays} lists of calls with shares, {below} records for offices \
         below their shares, {held_back} held back"
    );
    let [lines, places, shares, held_back] = office_coverage::run()?;
    eprintln!(
        "selftest passed: {lines} lines for {places} places of offices meet them all, {shares} \
         are refused 18 and {held_back} 19"
    );
    Ok(())
}

fn carries() -> Result<(), String> {
    let plays = 600;
    let [lots, free] = carry_selftest::run(plays)?;
    eprintln!(
        "selftest passed: {plays} lists of calls with a carry, by words and by histories, \
         {lots} lots and {free} free records carried"
    );
    let [fewer, reached, full, granted, held_back] = carry_shares::run(plays)?;
    eprintln!(
        "selftest passed: {plays} carries with shares, {fewer} with fewer spare than all lack, \
         {reached} of them with enough later; {full} refused 11 before, then {granted} granted \
         below a share and {held_back} held back"
    );
    let [lines, places, granted] = carry_coverage::run()?;
    eprintln!(
        "selftest passed: {lines} lines for {places} places of carries meet them all, \
         {granted} are granted"
    );
    Ok(())
}

fn expect_answer(line: &str, expected: &str) -> Result<(), String> {
    let answer = plan_lines::answer(&mut PlanCalls::default(), line)?;
    if answer == expected {
        Ok(())
    } else {
        Err(format!("{line} gives {answer}, not {expected}"))
    }
}
