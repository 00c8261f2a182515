//! Document 01's program: reads files `module` and `form` (or the two named on the command line),
//! opens without arguments, goes 1,000,000 steps and prints the verdict and the answer.

use reference::host;
use reference::state::{OUTPUT_BYTES, STATE_BYTES};
use std::process::ExitCode;

const BUDGET: u64 = 1_000_000;

fn main() -> ExitCode {
    let mut names = std::env::args().skip(1);
    let mut read = |default: &str| {
        let name = names.next().unwrap_or_else(|| default.to_string());
        std::fs::read(&name).map_err(|error| eprintln!("{name}: {error}"))
    };
    let (Ok(module), Ok(form)) = (read("module"), read("form")) else {
        return ExitCode::FAILURE;
    };
    let verdict = host::check(&module);
    if verdict[0] == host::REFUSED {
        println!("refused {} {}", verdict[1], verdict[2]);
        return ExitCode::SUCCESS;
    }
    let (functions, instructions) = (verdict[3] >> 16, verdict[3] & 0xffff);
    println!("accepted {} {} {functions} {instructions}", verdict[1], verdict[2]);
    let mut state = vec![0; STATE_BYTES];
    let mut output = vec![0; OUTPUT_BYTES];
    let mut answer = host::open(&module, &[], &mut state);
    if answer[0] == host::GOOD {
        answer = host::go(&module, &form, &mut state, &mut output, BUDGET);
    }
    match answer[0] {
        host::REFUSED => println!("refused {} {}", answer[1], answer[2]),
        host::ENDED => println!("ended {} {}", answer[1], answer[2]),
        host::STOPPED => println!("stopped {} {}", answer[1], answer[2]),
        _ => println!("running {}", answer[2]),
    }
    ExitCode::SUCCESS
}
