//! The plain C interpreter gives the reference interpreter's answers and output on random accepted
//! modules, in calls of random budgets.

use reference::generator::draw;
use reference::host;
use reference::plain::Plain;
use reference::prng::Prng;
use reference::state::{OUTPUT_BYTES, STATE_BYTES};
use std::collections::BTreeMap;

#[test]
fn agrees_on_random_modules() {
    let mut occurred: BTreeMap<(u64, u64), u32> = BTreeMap::new();
    for seed in 0..4000 {
        let mut rng = Prng::new(seed);
        let sample = draw(&mut rng);
        let file = sample.file();
        let mut state = vec![0; STATE_BYTES];
        if host::open(&file, &sample.arguments, &mut state)[0] != host::GOOD {
            continue;
        }
        let mut plain = Plain::open(&file, &sample.arguments);
        let mut outputs = [vec![0; OUTPUT_BYTES], vec![0; OUTPUT_BYTES]];
        for budget in [0, 1, rng.below(60) as u64, 20_000] {
            let here = host::go(&file, &sample.form, &mut state, &mut outputs[0], budget);
            let there = plain.go(&sample.form, &mut outputs[1], budget);
            assert_eq!(here, there, "seed {seed}");
            assert_eq!(outputs[0], outputs[1], "seed {seed}");
            if here[0] != host::STILL_RUNNING {
                let number = if here[0] == host::STOPPED { here[1] } else { 0 };
                *occurred.entry((here[0], number)).or_default() += 1;
                break;
            }
        }
    }
    for stop in 31..=39 {
        assert!(occurred.get(&(host::STOPPED, stop)) > Some(&3), "stop {stop}: {occurred:?}");
    }
}
