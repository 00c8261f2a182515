//! Counts the verdicts and answers of random modules, half of them damaged, so that a generator
//! which misses one shows.

use crate::damage::damage;
use crate::generator::draw;
use crate::host;
use crate::module::{decode, Module, KIND_CALL};
use crate::prng::Prng;
use crate::state::{OUTPUT_BYTES, STATE_BYTES};
use std::collections::BTreeMap;
use std::fmt;

pub const BUDGET: u64 = 20_000;

#[derive(Default, Debug)]
pub struct Tally {
    pub modules: u64,
    /// Modules that no damage was done to and that are accepted.
    pub sound_accepted: u64,
    pub sound: u64,
    pub accepted: u64,
    /// Accepted modules with a call for regions, and with one that gives a region twice.
    pub region_calls: u64,
    pub doubled_regions: u64,
    pub refused: BTreeMap<u64, u64>,
    pub ended: u64,
    pub stopped: BTreeMap<u64, u64>,
    pub running: u64,
    pub steps: u64,
}

impl Tally {
    pub fn of(seed: u64, count: u64) -> Tally {
        let mut tally = Tally::default();
        for number in 0..count {
            let mut rng = Prng::new(seed.wrapping_mul(1_000_003).wrapping_add(number));
            tally.add(&mut rng, number % 2 == 1);
        }
        tally
    }

    fn add(&mut self, rng: &mut Prng, damaged: bool) {
        let sample = draw(rng);
        let file = if damaged { damage(rng, sample.records.clone()) } else { sample.file() };
        let verdict = host::check(&file);
        self.modules += 1;
        self.sound += u64::from(!damaged);
        if verdict[0] == host::REFUSED {
            *self.refused.entry(verdict[1]).or_default() += 1;
            return;
        }
        self.accepted += 1;
        let module = decode(&file).expect("accepted");
        let given = region_calls(&module);
        self.region_calls += u64::from(!given.is_empty());
        let doubled = |list: &Vec<u8>| (1..list.len()).any(|i| list[..i].contains(&list[i]));
        self.doubled_regions += u64::from(given.iter().any(doubled));
        self.sound_accepted += u64::from(!damaged);
        let mut state = vec![0; STATE_BYTES];
        let mut output = vec![0; OUTPUT_BYTES];
        if host::open(&file, &sample.arguments, &mut state)[0] == host::REFUSED {
            return;
        }
        let answer = host::go(&file, &sample.form, &mut state, &mut output, BUDGET);
        self.steps += answer[2];
        match answer[0] {
            host::ENDED => self.ended += 1,
            host::STOPPED => *self.stopped.entry(answer[1]).or_default() += 1,
            _ => self.running += 1,
        }
    }
}

/// The regions that each call gives, where the callee has region parameters.
fn region_calls(module: &Module) -> Vec<Vec<u8>> {
    let code = module.functions.iter().flat_map(|function| &function.code);
    let calls = code.filter(|instruction| instruction.kind == KIND_CALL);
    let given = calls.map(|call| {
        let count = module.functions[usize::from(call.b)].region_parameters;
        call.d.to_le_bytes()[..count].to_vec()
    });
    given.filter(|list| !list.is_empty()).collect()
}

impl fmt::Display for Tally {
    fn fmt(&self, f: &mut fmt::Formatter) -> fmt::Result {
        writeln!(f, "modules {}, steps {}", self.modules, self.steps)?;
        writeln!(f, "undamaged {}, of them accepted {}", self.sound, self.sound_accepted)?;
        let (calls, doubled) = (self.region_calls, self.doubled_regions);
        writeln!(f, "accepted {}", self.accepted)?;
        writeln!(f, "with a call for regions {calls}, with a region given twice {doubled}")?;
        for (number, count) in &self.refused {
            writeln!(f, "refused {number}: {count}")?;
        }
        writeln!(f, "ended {}, running {}", self.ended, self.running)?;
        for (number, count) in &self.stopped {
            writeln!(f, "stopped {number}: {count}")?;
        }
        Ok(())
    }
}
