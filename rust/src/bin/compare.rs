//! Compares the proved library with this interpreter: `compare [SEED [FROM [TO]]]`, built with
//! the feature `librcm` and the folder of `librcm.a` in the environment variable RCM_LIB_DIR.
//! Prints how often each answer occurred; a stop 31 to 39 that never did is a failure.

use reference::compare::compare;
use reference::library::Library;
use std::process::ExitCode;

fn main() -> ExitCode {
    let mut numbers = std::env::args().skip(1).map(|word| word.parse().expect("a number"));
    let seed = numbers.next().unwrap_or(1);
    let from = numbers.next().unwrap_or(0);
    let to = numbers.next().unwrap_or(from + 10_000);
    let comparison = compare(&mut Library, seed, from, to);
    for difference in comparison.differences.iter().take(20) {
        println!("{difference}");
    }
    let (modules, calls, steps) = (comparison.modules, comparison.calls, comparison.steps);
    let differ = comparison.differences.len();
    println!("{modules} modules, {calls} calls, {steps} steps, {differ} modules differ");
    for (answer, count) in &comparison.answers {
        println!("{answer}: {count}");
    }
    let missed: Vec<u64> = (31..=39)
        .filter(|number| !comparison.answers.contains_key(&format!("stopped {number}")))
        .collect();
    if !missed.is_empty() {
        println!("stops that never occurred: {missed:?}");
    }
    if differ == 0 && missed.is_empty() {
        ExitCode::SUCCESS
    } else {
        ExitCode::FAILURE
    }
}
