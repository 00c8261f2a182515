//! What include/rcm.h says to hosts beyond the answers: calls from several threads on one file, and
//! in threads of little stack; and c/coordinator.c, the host to start from, which goes on from what
//! it has saved.

mod common;

use common::{new_folder, repository};
use reference::compare::Interface;
use reference::host::{self, Answer};
use reference::library::Library;
use reference::state::{OUTPUT_BYTES, STATE_BYTES};
use std::fmt::Write;
use std::os::unix::fs::PermissionsExt;
use std::path::Path;
use std::process::Command;

/// What the header tells a host to give a thread, and a little for the test itself.
const STACK: usize = 256 * 1024 + 16 * 1024;

const FORM: &[u8] = b"\x06\x1ea\x5ab\x1ec\x46d\x5ae\x0af";

/// The file of a text.
fn assembled(text: &str) -> Vec<u8> {
    reference::text::assemble(text).unwrap_or_else(|error| panic!("{error}\n{text}"))
}

fn example(name: &str) -> Vec<u8> {
    let path = repository().join("examples").join(name);
    assembled(&std::fs::read_to_string(path).expect("an example"))
}

/// Structs 32 deep, with arrays between them: types nearly as deep as a file can have them.
fn deep() -> Vec<u8> {
    let mut text = String::new();
    let mut inner = (0..24).fold("i32".to_string(), |inner, _| format!("[{inner}; 1]"));
    for number in 0..32 {
        writeln!(text, "struct s{number} {{\n x: [[{inner}; 1]; 1]\n}}").expect("text");
        inner = format!("s{number}");
    }
    text += "fn main() -> i32 {\n region r: s31\n reg value: i32\n reg p: *s31 in r\n reg q: *i32 in r\n";
    text += " p = new\n q = field p 0\n p = check q\n value = *q\n return value\n}\n";
    assembled(&text)
}

/// Every call on a module, in calls of so many steps; the answers in order, the state and the output.
fn session(
    machine: &mut dyn Interface,
    file: &[u8],
    budget: u64,
) -> (Vec<Answer>, Vec<u8>, Vec<u8>) {
    let mut state = vec![0; STATE_BYTES];
    let mut output = vec![0; OUTPUT_BYTES];
    let mut answers = vec![machine.check(file), machine.open(file, &[], &mut state)];
    loop {
        let answer = machine.go(file, FORM, &mut state, &mut output, budget);
        answers.extend([answer, machine.test(file, &state), machine.object(file, &state, 256)]);
        if answer[0] != host::STILL_RUNNING {
            return (answers, state, output);
        }
    }
}

#[test]
fn threads_share_a_file() {
    let file = example("ranking.asm");
    std::thread::scope(|scope| {
        for budget in [1, 2, 7, 100, 1000] {
            let file = &file;
            scope.spawn(move || {
                let expected = session(&mut reference::compare::Reference, file, budget);
                for _ in 0..20 {
                    assert!(session(&mut Library, file, budget) == expected, "budget {budget}");
                }
            });
        }
    });
}

#[test]
fn calls_take_little_stack() {
    for file in [deep(), example("ranking.asm"), example("regions.asm")] {
        let expected = session(&mut reference::compare::Reference, &file, 50);
        assert_eq!(expected.0[0][0], host::GOOD);
        let thread = std::thread::Builder::new().stack_size(STACK);
        let found = thread.spawn(move || session(&mut Library, &file, 50)).expect("a thread");
        assert!(found.join().expect("an answer") == expected);
    }
}

/// Status, standard output and the last line of standard error of the C program.
fn coordinator(folder: &Path, line: &str) -> (i32, String, String) {
    let output = Command::new(folder.join("coordinator"))
        .args(line.split_whitespace())
        .current_dir(folder)
        .output()
        .expect("a run");
    let text = |bytes: Vec<u8>| String::from_utf8(bytes).expect("text");
    let error = text(output.stderr).lines().last().unwrap_or_default().to_string();
    (output.status.code().expect("a status"), text(output.stdout), error)
}

#[test]
fn the_coordinator_goes_on_from_what_it_saved() {
    let folder = new_folder("coordinator");
    let library = std::env::var("RCM_LIB_DIR").expect("RCM_LIB_DIR names the folder of librcm.a");
    let built = Command::new("gcc")
        .args(["-std=c11", "-O1", "-Wall", "-Wextra", "-Werror", "-fsanitize=address"])
        .arg(format!("-I{}", repository().join("include").display()))
        .arg(repository().join("c/coordinator.c"))
        .arg(Path::new(&library).join("librcm.a"))
        .arg("-o")
        .arg(folder.join("coordinator"))
        .status();
    assert!(built.is_ok_and(|status| status.success()));
    std::fs::write(folder.join("module"), example("ranking.asm")).expect("a file");
    std::fs::write(folder.join("stops"), example("stops/33-index.asm")).expect("a file");
    std::fs::write(folder.join("form"), FORM).expect("a file");
    std::fs::write(folder.join("long"), [0; 5000]).expect("a file");
    std::fs::write(folder.join("short"), [0; 100]).expect("a file");
    // Whoever is stopped after two slices goes on; the ranking's output comes in parts.
    let line = "run module form state output 100";
    assert_eq!(coordinator(&folder, &format!("{line} 2")), (4, String::new(), String::new()));
    let part = coordinator(&folder, &format!("{line} 1"));
    assert_eq!(part, (4, "be".to_string(), String::new()));
    let (status, object, _) = coordinator(&folder, "object module state 256");
    assert_eq!((status, object.as_str()), (0, "00 00 0c 01 00 00\n"));
    let rest = coordinator(&folder, &format!("{line} 9"));
    assert_eq!(rest, (0, "dacf".to_string(), "ended 6 35".to_string()));
    assert_eq!(std::fs::read(folder.join("output")).expect("the output"), b"bedacf");
    for name in ["state", "output"] {
        let there = std::fs::metadata(folder.join(name)).expect("a file");
        assert_eq!(there.permissions().mode() & 0o777, 0o600, "{name}");
    }
    let state = std::fs::read(folder.join("state")).expect("the state");
    let mut bad = state.clone();
    bad[63] = 1; // a spare byte
    std::fs::write(folder.join("bad"), bad).expect("a file");
    for (line, status, message) in [
        ("run module form state output 100 9", 2, "refused 22 0: the module has already ended"),
        ("run module form short output 100 9", 2, "refused 20 0: the state"),
        ("run module long new output 100 9", 2, "refused 9 0: the arguments"),
        ("run module form new new 100 9 5", 2, "refused 9 0: the arguments"),
        ("run form form new new 100 9", 2, "refused 1 0: the module file is damaged"),
        ("run stops form stop new 100 9", 3, "stopped 33 3"),
        ("run module form bad new 100 9", 2, "refused 21 0: the state is not one of this module"),
        ("run absent form new new 100 9", 1, "absent: No such file"),
        ("run module form . new 100 9", 1, ".: Is a directory"),
        ("run module form new absent/new 100 9", 1, "absent/new.part: No such file"),
        ("run module form new new x 9", 1, "x is no number"),
        ("object module state 256", 2, "no object lies there"),
        ("object module short 256", 2, "no object lies there"),
        ("fly", 1, "coordinator object MODULE STATE ADDRESS"),
    ] {
        let (found, _, error) = coordinator(&folder, line);
        assert!(found == status && error.contains(message), "{line}\n{found} {error}");
        assert!(!folder.join("new").exists() || line.contains("stop new"), "{line}");
        let _ = std::fs::remove_file(folder.join("new"));
    }
    assert!(std::fs::read(folder.join("state")).expect("the state") == state);
}
