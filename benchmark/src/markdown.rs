//! What a run prints: tables in Markdown and goals, as docs/PERFORMANCE.md has them.

/// Prints a heading, a line about the table, and its head. The first column is text, the others are numbers.
pub fn table(heading: &str, about: &str, columns: &[&str]) {
    println!("\n## {heading}\n\n{about}\n");
    head(columns);
}

/// Prints the head of a table alone.
pub fn head(columns: &[&str]) {
    println!("| {} |", columns.join(" | "));
    println!("|---|{}", "--:|".repeat(columns.len() - 1));
}

pub fn row(cells: &[String]) {
    println!("| {} |", cells.join(" | "));
}

/// A number with a comma before each three digits.
pub fn grouped(number: usize) -> String {
    match number {
        0..1_000 => number.to_string(),
        _ => format!("{},{:03}", grouped(number / 1_000), number % 1_000),
    }
}

/// Nanoseconds without a fraction.
pub fn whole(nanoseconds: f64) -> String {
    grouped(nanoseconds.round() as usize)
}

/// A ratio: two places below 10, else none.
pub fn ratio(ratio: f64) -> String {
    match ratio < 10.0 {
        true => format!("{ratio:.2}"),
        false => whole(ratio),
    }
}

/// A goal that a run decides.
pub struct Goal {
    text: String,
    measured: String,
    met: bool,
}

impl Goal {
    pub fn new(text: impl Into<String>, measured: impl Into<String>, met: bool) -> Goal {
        Goal { text: text.into(), measured: measured.into(), met }
    }

    pub fn at_most(text: impl Into<String>, measured: f64, most: f64) -> Goal {
        Goal::new(text, format!("{measured:.2}"), measured <= most)
    }
}

/// Prints the goals of a run.
pub fn goals(goals: &[Goal]) {
    println!("\n## Goals\n\n| goal | measured | |\n|---|---|---|");
    for Goal { text, measured, met } in goals {
        println!("| {text} | {measured} | {} |", if *met { "met" } else { "**missed**" });
    }
}
