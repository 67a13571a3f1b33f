//! The tables.

use crate::rows::Row;

/// At least so many times as fast as the original, and as memcpy.
pub struct Target {
    pub rust: Option<f64>,
    pub memcpy: Option<f64>,
}

impl Target {
    pub const NONE: Target = Target { rust: None, memcpy: None };
}

/// Seconds of a call.
pub struct Times {
    pub rust: Option<f64>,
    pub product: f64,
    pub memcpy: Option<f64>,
}

impl Times {
    /// From the times of the original, the product and memcpy.
    pub fn new([rust, product, memcpy]: [f64; 3]) -> Times {
        Times { rust: Some(rust), product, memcpy: Some(memcpy) }
    }

    /// From the times of the product and memcpy.
    pub fn without_original([product, memcpy]: [f64; 2]) -> Times {
        Times { rust: None, product, memcpy: Some(memcpy) }
    }

    /// The better time of each side.
    pub fn best(self, other: Times) -> Times {
        let least = |a: Option<f64>, b: Option<f64>| a.zip(b).map(|(a, b)| a.min(b));
        Times {
            rust: least(self.rust, other.rust),
            product: self.product.min(other.product),
            memcpy: least(self.memcpy, other.memcpy),
        }
    }

    fn to_rust(&self) -> Option<f64> {
        self.rust.map(|seconds| seconds / self.product)
    }

    fn to_memcpy(&self) -> Option<f64> {
        self.memcpy.map(|seconds| seconds / self.product)
    }
}

pub fn is_missed(target: &Target, times: &Times) -> bool {
    let misses = |least: Option<f64>, ratio: Option<f64>| least.is_some_and(|least| ratio.is_none_or(|r| r < least));
    misses(target.rust, times.to_rust()) || misses(target.memcpy, times.to_memcpy())
}

/// Three digits.
fn number(value: Option<f64>) -> String {
    let Some(value) = value else { return "–".into() };
    let decimals = (2.0 - value.log10().floor()).clamp(0.0, 7.0) as usize;
    format!("{value:.decimals$}")
}

pub fn heading(title: &str) -> String {
    format!(
        "\n### {title}\n\n\
         | Row | MB | original ms | product ms | memcpy ms | to original | to memcpy | target |\n\
         |---|--:|--:|--:|--:|--:|--:|---|"
    )
}

/// A line of a table.
pub fn line(row: &Row, times: &Times) -> String {
    let mut target = Vec::new();
    target.extend(row.target.rust.map(|least| format!("{least} × original")));
    target.extend(row.target.memcpy.map(|least| format!("{least} × memcpy")));
    let milliseconds = |seconds: Option<f64>| number(seconds.map(|s| s * 1e3));
    format!(
        "| {} | {:.2} | {} | {} | {} | {} | {} | {}{} |",
        row.name,
        row.bytes as f64 / 1e6,
        milliseconds(times.rust),
        milliseconds(Some(times.product)),
        milliseconds(times.memcpy),
        number(times.to_rust()),
        number(times.to_memcpy()),
        if is_missed(&row.target, times) { "**MISSED** " } else { "" },
        if target.is_empty() { "none".into() } else { target.join(", ") },
    )
}

/// Why rows miss their target. A paragraph is a reason and, line by line, phrases: it serves the rows whose names hold
/// every phrase of a line.
const REASONS: &str = include_str!("../reasons.txt");

fn serves(paragraph: &str, name: &str) -> bool {
    paragraph.lines().skip(1).any(|line| line.trim().split("; ").all(|phrase| name.contains(phrase)))
}

fn reason(name: &str) -> &'static str {
    let paragraph = REASONS.split("\n\n").find(|paragraph| serves(paragraph, name));
    paragraph.and_then(|paragraph| paragraph.lines().next()).unwrap_or("The reason is not known.")
}

/// The rows that miss their target, by reason.
pub fn missed(names: &[String]) -> String {
    let mut lists: Vec<(&str, Vec<&str>)> = Vec::new();
    for name in names {
        let reason = reason(name);
        match lists.iter_mut().find(|list| list.0 == reason) {
            Some(list) => list.1.push(name),
            None => lists.push((reason, vec![name])),
        }
    }
    let mut text = "\n## Rows that miss their target\n".to_string();
    if lists.is_empty() {
        text.push_str("\nNone.\n");
    }
    for (reason, names) in lists {
        text.push_str(&format!("\n- {reason}\n  {}.\n", names.join("; ")));
    }
    text
}
