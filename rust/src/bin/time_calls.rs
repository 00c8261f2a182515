//! What a call costs apart from its steps: the time of going on with budget 0 through the C interface, best of several rounds, on the accepted
//! modules of the corpus (the folder RCM_CORPUS; by default tests/corpus) as they are opened, and on the workloads of bench/ once they own
//! pages. Built with the feature `librcm` and the folder of `librcm.a` in RCM_LIB_DIR.

use reference::compare::Interface;
use reference::corpus::modules;
use reference::host;
use reference::library::Library;
use reference::state::{State, OUTPUT_BYTES, STATE_BYTES};
use reference::text::assemble;
use std::path::{Path, PathBuf};
use std::time::{Duration, Instant};

/// The shortest of several rounds of calls with budget 0.
fn call(file: &[u8], form: &[u8], state: &mut [u8], output: &mut [u8]) -> Duration {
    let calls = 20;
    let mut round = || {
        let start = Instant::now();
        for _ in 0..calls {
            let answer = Library.go(file, form, state, output, 0);
            assert_eq!(answer[0], host::STILL_RUNNING);
        }
        start.elapsed() / calls
    };
    (0..5).map(|_| round()).min().expect("some rounds")
}

fn opened(file: &[u8]) -> Option<Vec<u8>> {
    let mut state = vec![0; STATE_BYTES];
    let mut open = |words| Library.open(file, &vec![0; 4 * words], &mut state)[0] == host::GOOD;
    (0usize..8).any(&mut open).then_some(state)
}

fn microseconds(time: Duration) -> f64 {
    time.as_nanos() as f64 / 1000.0
}

fn corpus(folder: &Path) {
    let mut output = vec![0; OUTPUT_BYTES];
    let mut slowest = (Duration::ZERO, String::new(), 0);
    let mut largest = (Duration::ZERO, String::new(), 0);
    for (name, file) in modules(folder) {
        let Some(mut state) = opened(&file) else { continue };
        let time = call(&file, &[], &mut state, &mut output);
        if time > slowest.0 {
            slowest = (time, name.clone(), file.len());
        }
        if file.len() > largest.2 {
            largest = (time, name, file.len());
        }
    }
    for (what, (time, name, bytes)) in [("slowest", slowest), ("largest", largest)] {
        println!("{what}: {:.1} us, {bytes} bytes, {name}", microseconds(time));
    }
}

fn workloads() {
    for name in ["loop", "list", "ranking", "pointers"] {
        let text = std::fs::read_to_string(format!("bench/{name}.asm")).expect("a workload");
        let file = assemble(&text).expect("a module");
        let mut state = opened(&file).expect("opened");
        let mut output = vec![0; OUTPUT_BYTES];
        let form = [7; 4096];
        for steps in [0, 1_000, 10_000, 100_000] {
            if Library.go(&file, &form, &mut state, &mut output, steps)[0] != host::STILL_RUNNING {
                break;
            }
            let time = call(&file, &form, &mut state, &mut output);
            let owners = State::from_bytes(&state).expect("a state").owners;
            let pages = owners.iter().filter(|owner| owner.is_some()).count();
            println!("{name}, {pages} pages owned: {:.1} us", microseconds(time));
        }
    }
}

fn main() {
    let folder = std::env::var_os("RCM_CORPUS").map_or("tests/corpus".into(), PathBuf::from);
    println!("a call with budget 0, best of five rounds of twenty");
    corpus(&folder);
    workloads();
}
