//! Document 01's program as it is run, the reference's and, where it is built, the proved one: what
//! it prints for the worked module, for refusals of the module and of the calls, and for the other
//! answers.

mod common;

use common::{integers, main_function, new_folder, repository, worked_records, I32};
use reference::builder::{code, file};
use reference::file::Record;
use std::path::{Path, PathBuf};
use std::process::{Command, Output};

/// The reference's program, and the proved one where `rt` has built it.
fn programs() -> Vec<PathBuf> {
    let proved = repository().join("crates/matcher/out/matcher");
    let mut programs = vec![PathBuf::from(env!("CARGO_BIN_EXE_run"))];
    programs.extend(proved.exists().then_some(proved));
    programs
}

fn run_in(folder: &Path, program: PathBuf) -> Output {
    Command::new(program).current_dir(folder).output().expect("a run")
}

/// What the program prints in a folder with these files.
fn printed(name: &str, module: &[u8], form: &[u8]) -> String {
    let folder = new_folder(&format!("program-{name}"));
    std::fs::write(folder.join("module"), module).expect("a written file");
    std::fs::write(folder.join("form"), form).expect("a written file");
    let mut outputs = programs().into_iter().map(|program| run_in(&folder, program).stdout);
    let first = outputs.next().expect("a program");
    assert!(outputs.all(|output| output == first), "{name}");
    String::from_utf8(first).expect("text")
}

fn with_code(parameters: u8, code: &[Record]) -> Vec<u8> {
    let mut module = integers();
    let mut function = main_function(&[], &[I32, I32], code);
    function.parameters = parameters;
    module.function(&function);
    module.file()
}

#[test]
fn worked_module() {
    assert_eq!(printed("worked", &file(&worked_records()), &[]), "accepted 1 0 1 2\nended 42 2\n");
}

#[test]
fn refusals() {
    let good = with_code(0, &[code::ret(0)]);
    assert_eq!(printed("short", &good[1..], &[]), "refused 1 0\n");
    let untyped = with_code(0, &[code::new(0), code::ret(0)]);
    assert_eq!(printed("untyped", &untyped, &[]), "refused 7 5\n");
    // 9 takes the place of the second line.
    let parameter = with_code(1, &[code::ret(0)]);
    assert_eq!(printed("parameter", &parameter, &[]), "accepted 3 0 1 1\nrefused 9 0\n");
    assert_eq!(printed("long", &good, &[0; 4097]), "accepted 3 0 1 1\nrefused 9 0\n");
    assert_eq!(printed("longest", &good, &[0; 100_000]), "accepted 3 0 1 1\nrefused 9 0\n");
    assert_eq!(printed("empty-file", &[], &[]), "refused 1 0\n");
    assert_eq!(printed("65-blocks", &[0; 65 * 512], &[]), "refused 1 0\n");
    assert_eq!(printed("far-too-long", &[0; 1_000_000], &[]), "refused 1 0\n");
}

#[test]
fn other_answers() {
    let endless = with_code(0, &[code::jump(0)]);
    assert_eq!(printed("endless", &endless, &[]), "accepted 3 0 1 1\nrunning 1000000\n");
    let stops = with_code(0, &[code::operation(code::QUOTIENT, 0, 0, 1), code::ret(0)]);
    assert_eq!(printed("stops", &stops, &[]), "accepted 3 0 1 2\nstopped 36 1\n");
    // A value is printed unsigned.
    let unsigned = with_code(0, &[code::constant(0, u32::MAX), code::ret(0)]);
    assert_eq!(printed("unsigned", &unsigned, &[]), "accepted 3 0 1 2\nended 4294967295 2\n");
}

/// No line of the answer, and a message.
#[test]
fn a_file_that_cannot_be_read_gets_no_line() {
    let empty = new_folder("program-empty");
    let folders = new_folder("program-folders");
    for name in ["module", "form"] {
        std::fs::create_dir(folders.join(name)).expect("a folder");
    }
    for folder in [empty, folders] {
        for program in programs() {
            let output = run_in(&folder, program);
            assert!(output.stdout.is_empty() && !output.stderr.is_empty());
        }
    }
}
