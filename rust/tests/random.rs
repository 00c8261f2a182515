//! What must hold of every module, tried on random ones: a call equals the same budget split, the
//! state passes the state test after every step, pages are accounted for, no step changes other
//! bytes than its own, objects are handed out clean, the search for a place ends where it should, and
//! states changed by hand are refused or go on soundly.

mod common;

use common::{object_of, object_type, standing};
use reference::calls;
use reference::damage::{change_state, damage};
use reference::file::Refusal;
use reference::generator::{draw, Sample};
use reference::host;
use reference::machine::{search, Machine, Outcome, Run};
use reference::module::{decode, Module, Term};
use reference::prng::Prng;
use reference::state::{State, MEMORY_BYTES, OUTPUT_BYTES, PAGES, PAGE_BYTES, STATE_BYTES};
use reference::tally::Tally;
use std::ops::Range;

/// The random modules whose searches are looked at, and the steps of each.
const SEARCHING_MODULES: u64 = 2000;
const SEARCHING_STEPS: u32 = 5000;

/// A module with its state and output, as a host keeps them.
#[derive(Clone)]
struct Session {
    file: Vec<u8>,
    form: Vec<u8>,
    state: Vec<u8>,
    output: Vec<u8>,
}

impl Session {
    fn open(sample: &Sample) -> Session {
        let mut session = Session {
            file: sample.file(),
            form: sample.form.clone(),
            state: vec![0xa5; STATE_BYTES],
            output: vec![0; OUTPUT_BYTES],
        };
        let opened = calls::open(&session.file, &sample.arguments, &mut session.state);
        assert_eq!(opened, [host::GOOD, 0, 0, 0]);
        session
    }

    fn go(&mut self, budget: u64) -> Result<Run, Refusal> {
        let Session { file, form, state, output } = self;
        host::go_counting(file, form, state, output, budget)
    }

    /// Goes on and tests what holds after every call.
    fn go_and_test(&mut self, budget: u64) -> Run {
        let owned = self.owned_pages();
        let run = self.go(budget).expect("a running state goes on");
        assert_eq!(calls::test(&self.file, &self.state), [host::GOOD, 0, 0, 0]);
        let view = State::from_bytes(&self.state).expect("a state");
        assert_eq!(view.to_bytes(), self.state);
        assert_eq!(self.owned_pages() + run.handed_back, owned + run.granted);
        match run.outcome {
            Outcome::Ended(_) => assert_eq!(self.owned_pages(), 0),
            Outcome::Stopped(_) => (),
            Outcome::Running => assert_eq!(run.steps, budget),
        }
        assert!(run.steps <= budget);
        run
    }

    fn owned_pages(&self) -> u64 {
        State::from_bytes(&self.state).expect("a state").owned_pages() as u64
    }
}

#[test]
fn every_verdict_and_answer_occurs() {
    let tally = Tally::of(1, 20_000);
    println!("{tally}");
    assert_eq!(tally.sound_accepted, tally.sound);
    for number in 1..=8 {
        assert!(tally.refused.get(&number).copied() >= Some(100), "refusal {number}\n{tally}");
    }
    for number in 31..=39 {
        assert!(tally.stopped.get(&number).copied() >= Some(25), "stop {number}\n{tally}");
    }
    assert!(tally.ended >= 2000 && tally.running >= 100, "{tally}");
    assert!(tally.region_calls >= 2000 && tally.doubled_regions >= 200, "{tally}");
}

/// Where the search of a kind 27 ends, by the state before it.
#[derive(Default, Debug)]
struct Searches {
    /// At the region's first page, at its last behind full ones, or between.
    first: u64,
    last: u64,
    between: u64,
    /// Nowhere: all the region's pages are full, or it has none.
    full: u64,
    none: u64,
}

impl Searches {
    /// Counts the search of the instruction that the state stands at, and tests what it returns.
    fn add(&mut self, module: &Module, state: &State) {
        let (_, _, instruction) = standing(module, state);
        if instruction.kind != 27 {
            return;
        }
        let (size, region) = object_type(module, state, instruction);
        let places = PAGE_BYTES / size as usize;
        let used =
            |page: usize, place: usize| state.marks[page][place / 64] >> (place % 64) & 1 == 1;
        let is_full = |page: usize| (0..places).all(|place| used(page, place));
        let own = |&page: &usize| state.owners[page] == Some(region);
        let pages: Vec<usize> = (1..PAGES).filter(own).collect();
        let (lowest, highest) = (pages.first(), pages.last().copied().unwrap_or(0));
        let found = search(state, region, places as u32);
        let end = found.room.map_or(PAGES, |room| room.0);
        assert!(pages.iter().filter(|&&page| page < end).all(|&page| is_full(page)));
        assert_eq!(found.last, highest.min(end));
        let count = match found.room {
            None if pages.is_empty() => &mut self.none,
            None => &mut self.full,
            Some((page, place)) => {
                assert!(!used(page, place as usize) && pages.contains(&page));
                match page {
                    _ if Some(&page) == lowest => &mut self.first,
                    _ if page == highest => &mut self.last,
                    _ => &mut self.between,
                }
            }
        };
        *count += 1;
    }
}

#[test]
fn searches_end_in_every_way() {
    let mut searches = Searches::default();
    for seed in 0..SEARCHING_MODULES {
        let sample = draw(&mut Prng::new(seed ^ 0x5ea7c4));
        let module = decode(&sample.file()).expect("a module");
        let words = sample.arguments.chunks_exact(4);
        let arguments: Vec<u32> =
            words.map(|word| u32::from_le_bytes(word.try_into().expect("4 bytes"))).collect();
        let mut machine = Machine::new(&module);
        let mut state = machine.open(&arguments);
        let mut output = vec![0; OUTPUT_BYTES];
        for _ in 0..SEARCHING_STEPS {
            searches.add(&module, &state);
            if machine.go(&mut state, &sample.form, &mut output, 1).outcome != Outcome::Running {
                break;
            }
        }
    }
    println!("{searches:?}");
    let Searches { first, last, between, full, none } = searches;
    assert!([first, last, between, full, none].iter().all(|&count| count >= 100), "{searches:?}");
}

#[test]
fn a_split_budget_gives_the_same() {
    for seed in 0..1500 {
        let mut rng = Prng::new(seed ^ 0x5eed);
        let sample = draw(&mut rng);
        let mut whole = Session::open(&sample);
        let mut split = whole.clone();
        let budget = rng.below(3000) as u64;
        let at_once = whole.go_and_test(budget);
        let mut left = budget;
        let mut parts = Run { outcome: Outcome::Running, steps: 0, granted: 0, handed_back: 0 };
        loop {
            let part = if rng.percent(20) { left } else { rng.below(left as usize + 1) as u64 };
            let run = split.go_and_test(part);
            left -= part;
            parts.outcome = run.outcome;
            parts.steps += run.steps;
            parts.granted += run.granted;
            parts.handed_back += run.handed_back;
            if left == 0 || run.outcome != Outcome::Running {
                break;
            }
        }
        assert_eq!(parts, at_once, "seed {seed}");
        assert!(split.state == whole.state && split.output == whole.output, "seed {seed}");
        if at_once.outcome != Outcome::Running {
            let before = split.clone();
            assert_eq!(split.go(1), Err(Refusal::at(22, 0)));
            assert!(split.state == before.state && split.output == before.output);
        }
    }
}

#[test]
fn each_step_changes_only_what_it_may() {
    for seed in 0..400 {
        let mut rng = Prng::new(seed ^ 0x57e9);
        let mut session = Session::open(&draw(&mut rng));
        let module = decode(&session.file).expect("a module");
        for _ in 0..150 {
            let before = session.clone();
            let old = State::from_bytes(&before.state).expect("a state");
            let run = session.go_and_test(1);
            if let Outcome::Stopped(number) = run.outcome {
                let mut expected = before.state;
                expected[0] = number;
                assert!(session.state == expected && session.output == before.output);
            } else {
                let new = State::from_bytes(&session.state).expect("a state");
                let bytes = may_write(&module, &old, &new);
                let changed = (0..MEMORY_BYTES).filter(|&at| old.memory[at] != new.memory[at]);
                assert!(changed.into_iter().all(|at| bytes.contains(&at)), "seed {seed}");
                if let Some(object) = handed_out(&module, &old, &new) {
                    assert!(new.memory[object].iter().all(|&byte| byte == 0), "seed {seed}");
                }
            }
            if run.outcome != Outcome::Running {
                break;
            }
        }
    }
}

/// The bytes of the object that a step of kind 27 hands out.
fn handed_out(module: &Module, old: &State, new: &State) -> Option<Range<usize>> {
    let (_, _, instruction) = standing(module, old);
    (instruction.kind == 27).then(|| object_of(module, new, instruction))
}

/// The page bytes that a step from one state to the next may write: those of the value stored,
/// of the object handed out, or a page that is granted.
fn may_write(module: &Module, old: &State, new: &State) -> Range<usize> {
    let (frame, function, instruction) = standing(module, old);
    let granted = (0..PAGES).find(|&page| old.owners[page] != new.owners[page]);
    match (instruction.kind, granted) {
        (26, _) => {
            let address = frame.registers[usize::from(instruction.a)] as usize;
            let stored = function.register_types[usize::from(instruction.b)];
            let width = match module.terms[usize::from(stored)] {
                Term::Integer { width } => usize::from(width),
                _ => 4,
            };
            address..address + width
        }
        (27, Some(page)) => PAGE_BYTES * page..PAGE_BYTES * (page + 1),
        (27, None) => object_of(module, new, instruction),
        _ => 0..0,
    }
}

#[test]
fn changed_states_are_refused_or_go_on_soundly() {
    let (mut passed, mut refused) = (0, 0);
    for seed in 0..4000 {
        let mut rng = Prng::new(seed ^ 0xc4a9);
        let sample = draw(&mut rng);
        let mut session = Session::open(&sample);
        let run = session.go_and_test(rng.below(200) as u64);
        if run.outcome != Outcome::Running {
            continue;
        }
        for _ in 0..rng.between(1, 3) {
            change_state(&mut rng, &mut session.state);
        }
        let changed = session.clone();
        match calls::test(&session.file, &session.state) {
            [host::REFUSED, 21, 0, 0] => {
                refused += 1;
                assert_eq!(session.go(10), Err(Refusal::at(21, 0)));
                assert!(session.state == changed.state && session.output == changed.output);
                let address = rng.below(20_000) as u32;
                assert_eq!(calls::object(&session.file, &session.state, address), [0; 4]);
            }
            answer => {
                passed += 1;
                assert_eq!(answer, [host::GOOD, 0, 0, 0]);
                if session.state[0] == 0 {
                    session.go_and_test(500);
                }
            }
        }
    }
    println!("changed states: {passed} pass, {refused} refused");
    assert!(passed > 200 && refused > 200);
}

#[test]
fn damaged_modules_change_nothing() {
    for seed in 0..2000 {
        let mut rng = Prng::new(seed ^ 0xdaa6);
        let sample = draw(&mut rng);
        let mut session = Session::open(&sample);
        session.file = damage(&mut rng, sample.records.clone());
        let verdict = calls::check(&session.file);
        if verdict[0] != host::REFUSED {
            continue;
        }
        let before = session.clone();
        let Session { file, form, state, output } = &mut session;
        assert_eq!(calls::open(file, &sample.arguments, state), verdict);
        assert_eq!(calls::go(file, form, state, output, 100), verdict);
        assert_eq!(calls::test(file, state), verdict);
        assert_eq!(calls::object(file, state, 256), [0; 4]);
        assert!(*state == before.state && *output == before.output);
    }
}

#[test]
fn arbitrary_bytes_are_answered() {
    let mut rng = Prng::new(7);
    for _ in 0..2000 {
        let length = rng.pick(&[0, 1, 511, 512, 1024, 1536]).expect("not empty");
        let mut file = rng.bytes(length);
        for (place, block) in file.chunks_exact_mut(512).enumerate() {
            block[..4].copy_from_slice(&[place as u8, 0, (length / 512) as u8, 0]);
            for record in block[4..508].chunks_exact_mut(8) {
                record[0] %= 40;
            }
        }
        reference::builder::repair_checks(&mut file);
        let mut state = rng.bytes(STATE_BYTES);
        assert_eq!(calls::check(&file)[0], host::REFUSED);
        assert_eq!(calls::test(&file, &state)[0], host::REFUSED);
        assert_eq!(calls::open(&file, &[], &mut state)[0], host::REFUSED);
    }
}
