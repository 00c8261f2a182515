//! Processor time of the machines on the workloads of bench/, best of several rounds in one run: the
//! plain C interpreter, the proved machine through its C interface (with the feature `librcm`), the
//! reference interpreter, and the same work in WebAssembly, in Lua 5.4 and in LuaJIT's interpreter
//! (its compiler off; not the integer loop) where their programs are there. `time_machine FOLDER
//! [ROUNDS [COLUMNS]]`, COLUMNS being how many of these machines are timed. Times are divided by the
//! module's steps; a ratio is the speed beside plain C's: above 1 is faster; `-` is not timed. Without
//! COLUMNS a second table follows: what a new object costs, by the clock, in a region whose first
//! pages are full.

use reference::compare::{Interface, Reference};
use reference::host::{self, Answer};
#[cfg(feature = "librcm")]
use reference::library::Library;
use reference::machine::Machine;
use reference::module::decode;
use reference::plain::Plain;
use reference::state::{OUTPUT_BYTES, STATE_BYTES};
use reference::text::assemble;
use std::path::{Path, PathBuf};
use std::process::Command;
use std::time::{Duration, Instant};

const BUDGET: u64 = 1_000_000_000;
const WORKLOADS: [(&str, &str); 3] = [
    ("loop", "integer loop"),
    ("list", "linked list in a region"),
    ("ranking", "ranking a form's records"),
];

/// Of bench/room.asm: how many pages are full first, and how many objects are then taken, a jump
/// behind each; the three pages behind 60 hold 768.
const FULL_PAGES: [u32; 3] = [0, 15, 60];
const OBJECTS: u64 = 700;
const OBJECT_STEPS: u64 = 2 * OBJECTS;
/// The calls that are timed in a round, as each is short.
const SHORT_CALLS: u32 = 20;

/// The words of C's struct rusage; the first four are user and system time.
type Usage = [i64; 18];
const OWN: i32 = 0;
const CHILDREN: i32 = -1;

extern "C" {
    fn getrusage(who: i32, usage: *mut Usage) -> i32;
}

/// The processor time so far of this process, or of the processes that it has waited for.
fn processor_time(who: i32) -> Duration {
    let mut usage: Usage = [0; 18];
    let failed = unsafe { getrusage(who, &mut usage) };
    assert_eq!(failed, 0);
    Duration::from_secs((usage[0] + usage[2]) as u64)
        + Duration::from_micros((usage[1] + usage[3]) as u64)
}

/// A workload with what its runs are lent, and what comes out.
struct Work {
    folder: PathBuf,
    name: &'static str,
    file: Vec<u8>,
    form: Vec<u8>,
    expected: Run,
}

/// A run: the answer and the output.
type Run = (Answer, Vec<u8>);

fn machine_run(machine: &mut impl Interface, file: &[u8], form: &[u8]) -> Run {
    let mut state = vec![0; STATE_BYTES];
    let mut output = vec![0; OUTPUT_BYTES];
    machine.open(file, &[], &mut state);
    (machine.go(file, form, &mut state, &mut output, BUDGET), output)
}

fn plain_run(file: &[u8], form: &[u8]) -> Run {
    let mut output = vec![0; OUTPUT_BYTES];
    (Plain::open(file, &[]).go(form, &mut output, BUDGET), output)
}

/// A count and so many records of a score, with many ties, and a tag.
fn form() -> Vec<u8> {
    let records = (0..64_u32).flat_map(|record| [(record * 37 + 11) % 16, record]);
    [64].into_iter().chain(records).map(|byte| byte as u8).collect()
}

impl Work {
    fn new(folder: &Path, name: &'static str) -> Work {
        let path = folder.join(name).with_extension("asm");
        let text = std::fs::read_to_string(&path).expect("a workload's text");
        let file = assemble(&text).unwrap_or_else(|error| panic!("{name}: {error}"));
        let form = form();
        let expected = machine_run(&mut Reference, &file, &form);
        assert_eq!(expected.0[0], host::ENDED, "{name}: {:?}", expected.0);
        Work { folder: folder.to_path_buf(), name, file, form, expected }
    }

    fn steps(&self) -> u64 {
        self.expected.0[2]
    }

    /// What the other languages print: the value and the output's bytes, each times its place.
    fn number(&self) -> u32 {
        let (answer, output) = &self.expected;
        let places = (1_u32..).zip(output);
        places.fold(answer[1] as u32, |sum, (place, &byte)| {
            sum.wrapping_add(place.wrapping_mul(u32::from(byte)))
        })
    }

    fn time_here(&self, run: impl FnOnce(&[u8], &[u8]) -> Run) -> Duration {
        let start = processor_time(OWN);
        let went = run(&self.file, &self.form);
        let time = processor_time(OWN) - start;
        assert!(went == self.expected, "{}: another answer", self.name);
        time
    }

    /// A program's time; it prints the number as its last word.
    fn time_there(&self, command: &mut Command) -> Duration {
        let start = processor_time(CHILDREN);
        let output = command.output().expect("a run");
        let time = processor_time(CHILDREN) - start;
        let text = String::from_utf8_lossy(&output.stdout).replace(':', " ");
        let last = text.split_whitespace().last().and_then(|word| word.parse().ok());
        assert_eq!(last, Some(self.number()), "{}: {command:?}", self.name);
        time
    }

    fn time_wasm(&self) -> Duration {
        let module = std::env::temp_dir().join(format!("rcm-bench-{}.wasm", std::process::id()));
        let text = self.folder.join(self.name).with_extension("wat");
        let made = Command::new("wat2wasm").arg(text).arg("-o").arg(&module).status();
        assert!(made.is_ok_and(|status| status.success()));
        let time =
            self.time_there(Command::new("wasm-interp").arg(&module).arg("--run-all-exports"));
        std::fs::remove_file(&module).expect("a file");
        time
    }

    fn time_lua(&self, command: &mut Command) -> Duration {
        let text = self.folder.join(self.name).with_extension("lua");
        self.time_there(command.arg(text))
    }

    /// LuaJIT with its compiler off. It has no integers of 64 bits and no bitwise operators, so it
    /// cannot run the integer loop's text, whose products need 62 bits: its numbers are exact to 53.
    fn time_luajit(&self) -> Option<Duration> {
        (self.name != "loop").then(|| self.time_lua(Command::new("luajit").arg("-joff")))
    }
}

/// bench/room.asm with its argument, and the steps before the first object that is timed.
struct Room {
    file: Vec<u8>,
    arguments: [u8; 4],
    steps: u64,
}

impl Room {
    fn new(folder: &Path, pages: u32) -> Room {
        let text = std::fs::read_to_string(folder.join("room.asm")).expect("the module's text");
        let file = assemble(&text).unwrap_or_else(|error| panic!("room: {error}"));
        let module = decode(&file).expect("a module");
        let mut machine = Machine::new(&module);
        let mut state = machine.open(&[pages]);
        // The object and the jump are the last instructions.
        let first = module.functions[0].code.len() - 2;
        let mut steps = 0;
        while usize::from(state.frames[0].instruction) != first {
            steps += machine.go(&mut state, &[], &mut [], 1).steps;
        }
        Room { file, arguments: pages.to_le_bytes(), steps }
    }

    /// The time of a call that must use its whole budget.
    fn time(budget: u64, call: impl FnOnce(u64) -> Answer) -> Duration {
        let start = Instant::now();
        let answer = call(budget);
        let time = start.elapsed();
        assert_eq!((answer[0], answer[2]), (host::STILL_RUNNING, budget), "room: {answer:?}");
        time
    }

    /// The objects' time: that of a call less that of one without steps.
    fn time_here(&self, machine: &mut impl Interface) -> Duration {
        let mut state = vec![0; STATE_BYTES];
        let mut output = vec![0; OUTPUT_BYTES];
        machine.open(&self.file, &self.arguments, &mut state);
        machine.go(&self.file, &[], &mut state, &mut output, self.steps);
        let mut shortest = |budget| {
            let mut call = || {
                let mut state = state.clone();
                let go = |budget| machine.go(&self.file, &[], &mut state, &mut output, budget);
                Room::time(budget, go)
            };
            (0..SHORT_CALLS).map(|_| call()).min().expect("some calls")
        };
        shortest(OBJECT_STEPS).saturating_sub(shortest(0))
    }

    /// Plain C prepares its module when it is opened, so there is no call to take off.
    fn time_plain(&self) -> Duration {
        let mut output = vec![0; OUTPUT_BYTES];
        let mut call = || {
            let mut plain = Plain::open(&self.file, &self.arguments);
            plain.go(&[], &mut output, self.steps);
            Room::time(OBJECT_STEPS, |budget| plain.go(&[], &mut output, budget))
        };
        (0..SHORT_CALLS).map(|_| call()).min().expect("some calls")
    }
}

/// A machine's name, the time of one run of a workload where it can run it, and that of the objects
/// where it has them.
type Column = (&'static str, fn(&Work) -> Option<Duration>, Option<fn(&Room) -> Duration>);

fn columns() -> Vec<Column> {
    let mut columns: Vec<Column> =
        vec![("plain C", |work| Some(work.time_here(plain_run)), Some(Room::time_plain))];
    #[cfg(feature = "librcm")]
    columns.push((
        "proved",
        |work| Some(work.time_here(|file, form| machine_run(&mut Library, file, form))),
        Some(|room| room.time_here(&mut Library)),
    ));
    columns.push((
        "Rust",
        |work| Some(work.time_here(|file, form| machine_run(&mut Reference, file, form))),
        Some(|room| room.time_here(&mut Reference)),
    ));
    let there = |program: &str| Command::new(program).arg("--version").output().is_ok();
    if there("wat2wasm") && there("wasm-interp") {
        columns.push(("wasm-interp", |work| Some(work.time_wasm()), None));
    }
    if there("lua5.4") {
        let time = |work: &Work| Some(work.time_lua(&mut Command::new("lua5.4")));
        columns.push(("Lua 5.4", time, None));
    }
    if there("luajit") {
        columns.push(("LuaJIT-joff", Work::time_luajit, None));
    }
    columns
}

/// The best of several rounds of each machine, round by round, so that a busy moment meets all alike.
fn best(rounds: u32, times: &[impl Fn() -> Option<Duration>]) -> Vec<Option<Duration>> {
    let mut best = vec![None; times.len()];
    for _ in 0..rounds {
        for (best, time) in best.iter_mut().zip(times) {
            *best = time().into_iter().chain(*best).min();
        }
    }
    best
}

fn print_names(title: &str, count: &str, columns: &[Column]) {
    print!("{title:25} {count:>9}");
    for (number, (name, ..)) in columns.iter().enumerate() {
        print!(" {name:>11}{}", if number > 0 { "  ratio" } else { "" });
    }
    println!();
}

/// A line: nanoseconds for each of `count`, and each machine's speed beside the first's.
fn print_times(title: &str, count: u64, times: &[Option<Duration>]) {
    let each = |time: Duration| time.as_nanos() as f64 / count as f64;
    let text = |value: Option<f64>| value.map_or("-".to_string(), |value| format!("{value:.2}"));
    print!("{title:25} {count:9}");
    for (number, time) in times.iter().enumerate() {
        print!(" {:>11}", text(time.map(each)));
        if number > 0 {
            let ratio = times[0].zip(*time).map(|(first, time)| each(first) / each(time));
            print!(" {:>6}", text(ratio));
        }
    }
    println!();
}

fn main() {
    let mut words = std::env::args().skip(1);
    let folder = PathBuf::from(words.next().expect("the folder of the workloads"));
    let rounds: u32 = words.next().map_or(5, |word| word.parse().expect("a number of rounds"));
    let mut columns = columns();
    let only = words.next();
    if let Some(word) = &only {
        columns.truncate(word.parse().expect("a number of columns"));
    }
    print_names("ns a step, best", "steps", &columns);
    for (name, title) in WORKLOADS {
        let work = Work::new(&folder, name);
        let times: Vec<_> = columns.iter().map(|column| || column.1(&work)).collect();
        print_times(title, work.steps(), &best(rounds, &times));
    }
    if only.is_some() {
        return;
    }
    columns.retain(|column| column.2.is_some());
    println!();
    print_names("ns a new object and jump", "objects", &columns);
    for pages in FULL_PAGES {
        let room = &Room::new(&folder, pages);
        let timed = columns.iter().filter_map(|column| column.2);
        let times: Vec<_> = timed.map(|time| move || Some(time(room))).collect();
        print_times(&format!("behind {pages} full pages"), OBJECTS, &best(rounds, &times));
    }
}
