//! The table, in Markdown.

use crate::timing::Times;

pub fn head() {
    let cpu = std::fs::read_to_string("/proc/cpuinfo").unwrap_or_default();
    let name = cpu.lines().find_map(|line| line.strip_prefix("model name"));
    let name = name.map_or("unknown", |rest| rest.trim_start_matches([' ', '\t', ':']));
    println!("Processor: {name}.");
    println!();
    println!("| What | ours | plain | ours / plain | reference |");
    println!("|---|---|---|---|---|");
}

pub fn line(what: &str, [ours, plain, reference]: Times) {
    let ratio = ours / plain;
    let [ours, plain, reference] = [ours, plain, reference].map(text);
    println!("| {what} | {ours} | {plain} | {ratio:.2} | {reference} |");
}

fn text(nanoseconds: f64) -> String {
    match nanoseconds {
        n if n < 1e3 => format!("{n:.0} ns"),
        n if n < 1e6 => format!("{:.1} µs", n / 1e3),
        n => format!("{:.2} ms", n / 1e6),
    }
}
