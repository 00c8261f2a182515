//! Compares the proved library's checker with this one's: `compare_check [SEED [COUNT]]`, on COUNT
//! random modules, every second of them damaged, and on the `check` lines of the corpus files that
//! are named by RCM_CORPUS (a folder; by default tests/corpus). Prints how often each verdict occurs.
//! Built with the feature `librcm` and the folder of `librcm.a` in RCM_LIB_DIR.

use reference::compare::Interface;
use reference::corpus::modules;
use reference::damage::damage;
use reference::generator::draw;
use reference::host::{self, Answer};
use reference::library::Library;
use reference::prng::Prng;
use std::collections::BTreeMap;
use std::path::PathBuf;
use std::process::ExitCode;
use std::time::{Duration, Instant};

fn verdict(answer: Answer) -> String {
    match answer[0] {
        host::REFUSED => format!("refused {}", answer[1]),
        _ => "accepted".to_string(),
    }
}

fn main() -> ExitCode {
    let mut numbers = std::env::args().skip(1).map(|word| word.parse().expect("a number"));
    let seed = numbers.next().unwrap_or(1);
    let count: u64 = numbers.next().unwrap_or(20_000);
    let folder = std::env::var_os("RCM_CORPUS").map_or("tests/corpus".into(), PathBuf::from);
    let mut counts: BTreeMap<String, u64> = BTreeMap::new();
    let mut differences = 0;
    let mut times = [Duration::ZERO; 2];
    let mut compare = |name: &str, file: &[u8]| {
        let start = Instant::now();
        let here = host::check(file);
        times[0] += start.elapsed();
        let start = Instant::now();
        let other = Library.check(file);
        times[1] += start.elapsed();
        if here != other {
            differences += 1;
            println!("{name}: here {here:?}, library {other:?}");
        }
        *counts.entry(verdict(here)).or_default() += 1;
    };
    let corpus = modules(&folder);
    for (name, file) in &corpus {
        compare(name, file);
    }
    for number in 0..count {
        let mut rng = Prng::new(seed.wrapping_mul(1_000_003).wrapping_add(number));
        let sample = draw(&mut rng);
        let damaged = number % 2 == 1;
        let file = if damaged { damage(&mut rng, sample.records.clone()) } else { sample.file() };
        compare(&format!("seed {seed} module {number}"), &file);
    }
    for (verdict, times) in &counts {
        println!("{verdict}: {times}");
    }
    println!("{} corpus modules, {count} random ones, {differences} differences", corpus.len());
    println!("checking took {:?} here, {:?} in the library", times[0], times[1]);
    if differences == 0 {
        ExitCode::SUCCESS
    } else {
        ExitCode::FAILURE
    }
}
