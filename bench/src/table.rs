//! The table of times, and what it comes to.

use crate::cases::Case;
use crate::timing::Times;

/// A row of the table.
pub struct Row<'r> {
    case: &'r Case,
    times: Times,
}

/// A column of ratios: its name, and how it is found.
type Column = (&'static str, fn(&Times) -> f64);

const COLUMNS: [Column; 2] = [
    ("careful", against_careful),
    ("careful, in runs", against_runs),
];

fn against_careful(times: &Times) -> f64 {
    times.careful / times.ours
}

fn against_runs(times: &Times) -> f64 {
    times.in_runs / times.ours
}

pub fn print(rows: &[Row]) {
    println!("nanoseconds for a call, the best of many turns; a ratio above 1 says that ours is faster; no buffer is cleared first");
    println!(
        "{:<9} {:<13} {:<32} {:>9} {:>10} {:>6} {:>10} {:>6}",
        "book", "rights", "case", "ours", "careful", "ratio", "in runs", "ratio"
    );
    rows.iter().for_each(Row::print);
}

impl Row<'_> {
    pub fn new(case: &Case, times: Times) -> Row<'_> {
        Row { case, times }
    }

    fn print(&self) {
        println!(
            "{:<9} {:<13} {:<32} {:>9.1} {:>10.1} {:>6.2} {:>10.1} {:>6.2}",
            self.case.book,
            self.case.rights,
            self.case.name,
            self.times.ours,
            self.times.careful,
            against_careful(&self.times),
            self.times.in_runs,
            against_runs(&self.times)
        );
    }
}

/// How many of some rows have a ratio below a limit. Then the cases that have such rows: the smallest ratio, and how many rows.
fn print_below(rows: &[&Row], what: &str, limit: f64, ratio: fn(&Times) -> f64) {
    let below: Vec<&&Row> = rows
        .iter()
        .filter(|row| ratio(&row.times) < limit)
        .collect();
    println!(
        "  {what} below {limit:.1}: {} of {}",
        below.len(),
        rows.len()
    );
    let mut cases: Vec<(f64, usize, String)> = Vec::new();
    for row in below {
        let name = format!("{:<9} {}", row.case.book, row.case.name);
        match cases.iter_mut().find(|case| case.2 == name) {
            Some(case) => (case.0, case.1) = (case.0.min(ratio(&row.times)), case.1 + 1),
            None => cases.push((ratio(&row.times), 1, name)),
        }
    }
    cases.sort_by(|one, other| one.0.total_cmp(&other.0));
    for (smallest, count, name) in cases {
        println!("    {smallest:>5.2}  {name} ({count} of 4)");
    }
}

/// What a call on 4,000 characters takes for each of them, to be set beside algol68g.
fn print_each_character(rows: &[Row]) {
    println!("ours, nanoseconds for each of 4,000 characters:");
    for row in rows.iter().filter(|row| row.case.characters == 4000) {
        let each = row.times.ours / row.case.characters as f64;
        println!(
            "  {:<9} {:<13} {:<15} {each:>6.2}",
            row.case.book, row.case.rights, row.case.name
        );
    }
}

pub fn print_summary(rows: &[Row]) {
    let all: Vec<&Row> = rows.iter().collect();
    let long: Vec<&Row> = rows
        .iter()
        .filter(|row| row.case.characters >= 80)
        .collect();
    for (name, ratio) in COLUMNS {
        let smallest = all
            .iter()
            .map(|row| ratio(&row.times))
            .fold(f64::INFINITY, f64::min);
        println!("against {name}: the smallest ratio is {smallest:.2}");
        print_below(&all, "rows", 1.0, ratio);
        print_below(&long, "strings of 80 and more", 2.0, ratio);
    }
    print_each_character(rows);
}
