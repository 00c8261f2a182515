//! Compares another implementation of the five calls with this one on random modules: answers,
//! state bytes and output bytes, refused calls included.

use crate::damage::{change_state, damage};
use crate::generator::{draw, Sample};
use crate::host::{self, Answer};
use crate::prng::Prng;
use crate::state::{OUTPUT_BYTES, STATE_BYTES};
use std::collections::BTreeMap;

/// The five calls over byte slices, as in the C interface.
pub trait Interface {
    fn check(&mut self, file: &[u8]) -> Answer;
    fn open(&mut self, file: &[u8], arguments: &[u8], state: &mut [u8]) -> Answer;
    fn go(
        &mut self,
        file: &[u8],
        form: &[u8],
        state: &mut [u8],
        output: &mut [u8],
        budget: u64,
    ) -> Answer;
    fn test(&mut self, file: &[u8], state: &[u8]) -> Answer;
    fn object(&mut self, file: &[u8], state: &[u8], address: u32) -> Answer;
}

/// This interpreter.
pub struct Reference;

impl Interface for Reference {
    fn check(&mut self, file: &[u8]) -> Answer {
        host::check(file)
    }

    fn open(&mut self, file: &[u8], arguments: &[u8], state: &mut [u8]) -> Answer {
        host::open(file, arguments, state)
    }

    fn go(
        &mut self,
        file: &[u8],
        form: &[u8],
        state: &mut [u8],
        output: &mut [u8],
        budget: u64,
    ) -> Answer {
        host::go(file, form, state, output, budget)
    }

    fn test(&mut self, file: &[u8], state: &[u8]) -> Answer {
        host::test(file, state)
    }

    fn object(&mut self, file: &[u8], state: &[u8], address: u32) -> Answer {
        host::object(file, state, address)
    }
}

/// What was compared, how often each answer occurred, and the first difference of each module.
#[derive(Default, Debug)]
pub struct Comparison {
    pub modules: u64,
    pub calls: u64,
    pub steps: u64,
    pub answers: BTreeMap<String, u64>,
    pub differences: Vec<String>,
}

/// Both implementations' buffers; they are equal as long as there is no difference.
struct Pair<'i, I> {
    other: &'i mut I,
    file: Vec<u8>,
    state: [Vec<u8>; 2],
    output: [Vec<u8>; 2],
    calls: u64,
    steps: u64,
    answers: BTreeMap<String, u64>,
}

/// An answer without its values, in words.
fn named(answer: Answer) -> String {
    match answer[0] {
        host::REFUSED if answer[1] == 0 => "no object".to_string(),
        host::REFUSED => format!("refused {}", answer[1]),
        host::ENDED => "ended".to_string(),
        host::STOPPED => format!("stopped {}", answer[1]),
        host::STILL_RUNNING => "running".to_string(),
        _ => "accepted, opened, passed or found".to_string(),
    }
}

/// Compares on modules number `from` to `to` of a seed. A module's number repeats it alone.
pub fn compare<I: Interface>(other: &mut I, seed: u64, from: u64, to: u64) -> Comparison {
    let mut comparison = Comparison::default();
    for number in from..to {
        let mut rng = Prng::new(seed.wrapping_mul(1_000_003).wrapping_add(number));
        let sample = draw(&mut rng);
        let damaged = number % 2 == 1;
        let file = if damaged { damage(&mut rng, sample.records.clone()) } else { sample.file() };
        let mut pair = Pair {
            other,
            file,
            state: [vec![0xa5; STATE_BYTES], vec![0xa5; STATE_BYTES]],
            output: [vec![0; OUTPUT_BYTES], vec![0; OUTPUT_BYTES]],
            calls: 0,
            steps: 0,
            answers: BTreeMap::new(),
        };
        if let Err(difference) = pair.module(&mut rng, &sample) {
            comparison.differences.push(format!("seed {seed} module {number}: {difference}"));
        }
        comparison.modules += 1;
        comparison.calls += pair.calls;
        comparison.steps += pair.steps;
        for (answer, count) in pair.answers {
            *comparison.answers.entry(answer).or_default() += count;
        }
    }
    comparison
}

impl<I: Interface> Pair<'_, I> {
    fn equal(&mut self, call: &str, here: Answer, other: Answer) -> Result<Answer, String> {
        self.calls += 1;
        *self.answers.entry(named(here)).or_default() += 1;
        if here != other {
            return Err(format!("{call}: here {here:?}, other {other:?}"));
        }
        for (what, [here, other]) in [("state", &self.state), ("output", &self.output)] {
            if here != other {
                let differs = |(here, other): (&u8, &u8)| here != other;
                let at = here.iter().zip(other).position(differs).unwrap_or_default();
                let (here, other) = (here[at], other[at]);
                return Err(format!("{call}: {what} byte {at} here {here}, other {other}"));
            }
        }
        Ok(here)
    }

    fn check(&mut self) -> Result<Answer, String> {
        let answers = (host::check(&self.file), self.other.check(&self.file));
        self.equal("check", answers.0, answers.1)
    }

    /// Opening with a state that is `short` bytes too short.
    fn open(&mut self, arguments: &[u8], short: usize) -> Result<Answer, String> {
        let [state, other_state] = &mut self.state;
        let here = host::open(&self.file, arguments, &mut state[short..]);
        let other = self.other.open(&self.file, arguments, &mut other_state[short..]);
        self.equal(&format!("open {} {short}", arguments.len()), here, other)
    }

    fn go(&mut self, form: &[u8], budget: u64, short: usize) -> Result<Answer, String> {
        let ([state, other_state], [output, other_output]) = (&mut self.state, &mut self.output);
        let output = &mut output[short..];
        let other_output = &mut other_output[short..];
        let here = host::go(&self.file, form, state, output, budget);
        let other = self.other.go(&self.file, form, other_state, other_output, budget);
        let answer = self.equal(&format!("go {budget} {} {short}", form.len()), here, other)?;
        if answer[0] != host::REFUSED {
            self.steps += answer[2];
        }
        Ok(answer)
    }

    fn test(&mut self) -> Result<Answer, String> {
        let here = host::test(&self.file, &self.state[0]);
        let other = self.other.test(&self.file, &self.state[1]);
        self.equal("test", here, other)
    }

    fn object(&mut self, address: u32) -> Result<Answer, String> {
        let here = host::object(&self.file, &self.state[0], address);
        let other = self.other.object(&self.file, &self.state[1], address);
        self.equal(&format!("object {address}"), here, other)
    }

    fn module(&mut self, rng: &mut Prng, sample: &Sample) -> Result<(), String> {
        self.check()?;
        if rng.percent(10) {
            self.open(&rng.bytes(3), 0)?;
            self.open(&sample.arguments, 1)?;
        }
        let opened = self.open(&sample.arguments, 0)?;
        if opened[0] == host::REFUSED && rng.percent(80) {
            self.go(&sample.form, 5, 0)?;
            return self.test().map(|_| ());
        }
        for _ in 0..rng.between(1, 5) {
            if rng.percent(5) {
                let form = vec![0; 4097];
                self.go(&form, 1, rng.below(2))?;
                self.go(&sample.form, 1, 1)?;
            }
            let budget = match rng.below(10) {
                0 => rng.below(2) as u64,
                1..8 => rng.below(60) as u64,
                _ => rng.below(9000) as u64,
            };
            let form = if rng.percent(90) { &sample.form[..] } else { &[] };
            self.go(form, budget, 0)?;
            self.test()?;
            for _ in 0..3 {
                let near = 256 * rng.between(1, 5) + rng.below(256);
                let far = rng.word() as u32;
                let address = if rng.percent(90) { near as u32 } else { far };
                self.object(address)?;
            }
        }
        self.changed_states(rng, &sample.form)
    }

    /// States that nobody's run has left: each is refused, or goes on.
    fn changed_states(&mut self, rng: &mut Prng, form: &[u8]) -> Result<(), String> {
        let left = self.state.clone();
        for _ in 0..4 {
            for _ in 0..rng.between(1, 2) {
                change_state(rng, &mut self.state[0]);
            }
            self.state[1] = self.state[0].clone();
            self.test()?;
            self.object(256 + rng.below(1024) as u32)?;
            self.go(form, rng.below(200) as u64, 0)?;
            self.test()?;
            self.state.clone_from(&left);
        }
        Ok(())
    }
}
