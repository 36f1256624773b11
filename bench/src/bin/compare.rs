//! The comparison. Words: a seed, then the number of cases of each call. The first difference is printed, and the run fails.

use bench::compare::tally::Tally;
use bench::compare::CALLS;
use reference::generate::Rng;
use std::process::ExitCode;

const SEED: u64 = 395;
const CASES: u64 = 100_000;

fn main() -> ExitCode {
    let mut words = std::env::args().skip(1).map(|word| word.parse());
    let (Ok(seed), Ok(cases)) = (
        words.next().unwrap_or(Ok(SEED)),
        words.next().unwrap_or(Ok(CASES)),
    ) else {
        eprintln!("a seed, and the number of cases of each call");
        return ExitCode::from(2);
    };
    println!("seed {seed}");
    for (name, run) in CALLS {
        let mut tally = Tally::new(name, cases as usize);
        if let Err(difference) = run(&mut Rng::new(seed), cases as usize, &mut tally) {
            println!("\n{name} differs, seed {seed}, {difference}");
            return ExitCode::FAILURE;
        }
        tally.print();
    }
    ExitCode::SUCCESS
}
