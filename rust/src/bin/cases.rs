//! Prints random cases with this interpreter's answers, in the form of the files of cases:
//! `cases [SEED [COUNT]]`, every second one damaged.

use reference::corpus::write;
use reference::damage::damage;
use reference::generator::draw;
use reference::prng::Prng;

fn main() {
    let mut numbers = std::env::args().skip(1).map(|word| word.parse().expect("a number"));
    let seed: u64 = numbers.next().unwrap_or(1);
    let count: u64 = numbers.next().unwrap_or(100);
    for number in 0..count {
        let mut rng = Prng::new(seed.wrapping_mul(1_000_003).wrapping_add(number));
        let sample = draw(&mut rng);
        let damaged = number % 2 == 1;
        let file = if damaged { damage(&mut rng, sample.records.clone()) } else { sample.file() };
        let name = format!("random-{seed}-{number}");
        println!("{}", write(&name, &file, &sample, &mut rng));
    }
}
