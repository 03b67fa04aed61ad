//! The benchmark: the proved library beside the rules as a careful Rust programmer writes them. Prints nanoseconds for a call, and how
//! many times as fast ours is.

mod agree;
mod book;
mod careful;
mod cases;
mod layer;
mod ours;
mod random;
mod scripts;
mod table;
mod timing;

use std::process::ExitCode;

use cases::Case;
use table::Row;

/// Random scripts on which the sides must agree before anything is timed.
const SCRIPTS: u64 = 6000;

/// Each case made once on all sides: they must agree, and the case must be done.
fn check_case(case: &Case) -> Result<(), String> {
    let (told, _) = agree::make_on_all(&case.call, &case.scene, &case.row)?;
    let delivered = told.stop == 0 || told.count == case.characters;
    if told.number == 0 && delivered {
        return Ok(());
    }
    Err(format!(
        "{} on {} is not done: {told:?}",
        case.name, case.book
    ))
}

fn check(cases: &[Case]) -> Result<(), String> {
    let tally = agree::agree(SCRIPTS)?;
    cases.iter().try_for_each(check_case)?;
    let done = tally.numbers[0];
    println!("ours, careful and careful in runs agree on {} calls of {SCRIPTS} random scripts, {done} of them done", tally.calls);
    Ok(())
}

fn main() -> ExitCode {
    let cases = cases::all();
    if let Err(difference) = check(&cases) {
        eprintln!("nothing is timed: {difference}");
        return ExitCode::FAILURE;
    }
    let rows: Vec<Row> = cases
        .iter()
        .zip(timing::time(&cases))
        .map(|(case, times)| Row::new(case, times))
        .collect();
    table::print(&rows);
    println!("{}", cases::LEFT_OUT);
    table::print_summary(&rows);
    ExitCode::SUCCESS
}
