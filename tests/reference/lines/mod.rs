//! Calls as lines of text, and their answers: what crates/vectors (plan_lines)
//! and crates/sheetvectors (sheet_lines) read and print.

pub mod plan_lines;
pub mod sheet_lines;

use crate::model::Reply;

/// Numbers as fields of a line, a space before each.
pub fn fields(words: &[u32]) -> String {
    words.iter().map(|word| format!(" {word}")).collect()
}

/// `ok` if there are no values, else the values; `no` and the number of a refusal.
pub fn reply_text(reply: Reply<Vec<u64>>) -> String {
    match reply {
        Ok(values) if values.is_empty() => "ok".to_string(),
        Ok(values) => {
            let fields: Vec<String> = values.iter().map(u64::to_string).collect();
            fields.join(" ")
        }
        Err(number) => format!("no {number}"),
    }
}
