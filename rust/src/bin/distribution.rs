//! How often each verdict and each answer occurs among random modules:
//! `distribution [SEED [COUNT]]`.

use reference::tally::Tally;

fn main() {
    let mut numbers = std::env::args().skip(1).map(|word| word.parse().expect("a number"));
    let seed = numbers.next().unwrap_or(1);
    let count = numbers.next().unwrap_or(20_000);
    print!("{}", Tally::of(seed, count));
}
