//! Compares the proved library with the second program and prints how often
//! each function gave each answer. The seed is fixed, so every run is the same.

use std::process::ExitCode;

use comparison::compare::Comparison;
use comparison::{cases, chains, images, library, published, sizes};
use reference::random::Random;

const SEED: u64 = 33_102;

fn main() -> ExitCode {
    match compare() {
        Ok(total) => {
            println!("{total} calls: the library and the second program agree in every byte");
            ExitCode::SUCCESS
        }
        Err(difference) => {
            eprintln!("comparison: {difference}");
            ExitCode::FAILURE
        }
    }
}

/// The number of calls made.
fn compare() -> Result<usize, String> {
    let random = &mut Random::new(SEED);
    let mut total = part("published sets", random, published::compare)?;
    total += part("wrong sizes", random, sizes::compare)?;
    total += part("images of every edition", random, images::compare)?;
    total += part("chains", random, chains::compare)?;
    total += part("random calls", random, cases::compare)?;
    Ok(total)
}

type Part = fn(&mut Comparison, &mut Random) -> Result<(), String>;

/// One part with a table of its own.
fn part(name: &str, random: &mut Random, part: Part) -> Result<usize, String> {
    let guards = Random::new(random.draw());
    let mut comparison = Comparison::new(&library::answer, guards);
    part(&mut comparison, random)?;
    println!("{name}: {} calls", comparison.tally.total());
    println!("{}", comparison.tally);
    Ok(comparison.tally.total())
}
