//! The tool `rcm`: what it prints, its exit statuses, saved states, and that bad input gets a message
//! and writes nothing. With the feature `librcm` over the proved library, else over the reference
//! interpreter in its place.

mod common;

use common::{files, json, new_folder, rcm_in, repository};
use reference::tool::{BAD_INPUT, COMMANDS, DONE, REFUSED, RUNNING, STOPPED};
use std::path::{Path, PathBuf};
use std::process::Command;

fn folder(name: &str) -> PathBuf {
    new_folder(&format!("tool-{name}"))
}

/// Status, standard output and standard error of a command; words with an `@` in front are files of
/// the folder.
fn rcm(folder: &Path, line: &str) -> (u8, String, String) {
    let ran = rcm_in(folder, line, false);
    (ran.status, ran.out, ran.error)
}

/// The module of an example's text as a file of the folder.
fn example(folder: &Path, name: &str) {
    let text = repository().join("examples").join(name);
    let source = text.display();
    let (status, _, error) = rcm(folder, &format!("asm {source} -o @module --unchecked --no-map"));
    assert_eq!(status, DONE, "{error}");
    std::fs::write(folder.join("form"), []).expect("a form");
}

#[test]
fn check_explains_each_refusal() {
    let folder = folder("check");
    for (name, lines) in [
        ("1-length", ["refused 1 0", "the file has 500 bytes"]),
        ("2-block-place", ["refused 2 1", "block 1 of 2 says it is block 7 of 2"]),
        ("3-block-check", ["refused 3 0", "block 0 has the check 1; its bytes give 1333"]),
        ("4-unknown-target", ["refused 4 3", "record 3: kind 31 (jump), a 0, b 0, c 0, d 9"]),
        ("5-no-size", ["refused 5 0", "record 0: type 0, s0"]),
        ("6-local-region-leaves", ["refused 6 5", "asked: the result uses only region parameters"]),
        ("7-wrong-load", ["refused 7 7", "r0 = *r1; r0 is i32; r1 is *i16 in R0"]),
        ("8-runs-off-the-end", ["refused 8 3", "instruction 0 of f0 (constant): r0 = 1"]),
    ] {
        example(&folder, &format!("refusals/{name}.asm"));
        let (status, out, error) = rcm(&folder, "check @module");
        assert_eq!((status, error.as_str()), (REFUSED, ""), "{name}");
        assert!(out.starts_with(lines[0]) && out.contains(lines[1]), "{name}\n{out}");
        assert!(out.contains("asked: "), "{name}\n{out}");
        // A run says the same on standard error and writes nothing.
        let (status, out, error) = rcm(&folder, "run @module @form --state @s --output @o");
        assert_eq!((status, out.as_str()), (REFUSED, ""), "{name}");
        assert!(error.contains(lines[1]), "{name}\n{error}");
        assert_eq!(files(&folder), ["form", "module"]);
    }
    example(&folder, "answer.asm");
    let (status, out, _) = rcm(&folder, "check @module");
    assert_eq!(status, DONE);
    assert_eq!(out, "accepted 1 0 1 2\n1 type, 0 structs, 1 function, 2 instructions\n");
}

/// Every damaged record gets words that follow the checker's place.
#[test]
fn check_explains_damaged_modules() {
    use reference::damage::damage;
    use reference::generator::draw;
    use reference::prng::Prng;
    let folder = folder("damaged");
    for number in 0..400 {
        let mut rng = Prng::new(number);
        let records = draw(&mut rng).records;
        std::fs::write(folder.join("module"), damage(&mut rng, records)).expect("a file");
        let (status, out, _) = rcm(&folder, "check @module");
        assert!(status == DONE || out.contains("here: ") && out.contains("asked: "), "{out}");
    }
}

#[test]
fn runs_in_one_piece_and_from_saved_states() {
    let folder = folder("run");
    example(&folder, "ranking.asm");
    let form = [6, 30, b'a', 90, b'b', 30, b'c', 70, b'd', 90, b'e', 10, b'f'];
    std::fs::write(folder.join("form"), form).expect("a form");
    let (status, out, _) = rcm(&folder, "run @module @form");
    assert_eq!(status, DONE);
    assert_eq!(out, "ended 6 335\noutput, 6 bytes: 62 65 64 61 63 66\n");
    // The same run in calls of 100 steps through files.
    let line = "run @module @form --budget 100 --state @state --output @output";
    for _ in 0..3 {
        let (status, out, error) = rcm(&folder, line);
        assert_eq!((status, out.lines().next()), (RUNNING, Some("running 100")), "{error}");
    }
    assert_eq!(rcm(&folder, line).1, "ended 6 35\n");
    assert_eq!(std::fs::read(folder.join("output")).expect("the output"), b"bedacf");
    let (status, out, error) = rcm(&folder, line);
    assert_eq!((status, out.as_str()), (REFUSED, ""));
    assert!(error.contains("this state has ended already: its list is whole"), "{error}");
}

#[test]
fn arguments_trace_and_progress() {
    let folder = folder("trace");
    let text = "fn f(n: i32, m: i32) -> i32 {\n reg one: i32\n one = 1\n again:\n n = n + m\n goto again\n}";
    std::fs::write(folder.join("text"), text).expect("a text");
    assert_eq!(rcm(&folder, "asm @text -o @module --no-map").0, DONE);
    std::fs::write(folder.join("form"), []).expect("a form");
    let line = "run @module @form --arguments -5,3 --budget 5 --trace 3";
    let (status, out, _) = rcm(&folder, line);
    assert_eq!(status, RUNNING);
    let lines: Vec<&str> = out.lines().collect();
    assert_eq!(lines.len(), 4);
    assert!(lines[1].contains("f0:1") && lines[1].ends_with("r0 = 1"), "{out}");
    assert!(lines[2].ends_with("goto L1") && lines[3] == "running 5", "{out}");
    let ran = rcm_in(&folder, "run @module @form --arguments 0,0 --budget 45_000_000", true);
    assert_eq!((ran.status, ran.out.as_str()), (RUNNING, "running 45000000\n"));
    assert!(ran.error.starts_with("\r20000000 steps\r40000000 steps\r"), "{:?}", ran.error);
    for (line, message) in [
        ("run @module @form", "function 0 takes 2 arguments"),
        ("run @module @form --arguments 1", "function 0 takes 2 arguments"),
        ("run @module @form --arguments x", "wants a number, not `x`"),
        ("run @module @form --arguments 5000000000,1", "does not fit 4 bytes"),
    ] {
        let (status, out, error) = rcm(&folder, line);
        assert!(status != DONE && out.is_empty() && error.contains(message), "{line}\n{error}");
    }
}

#[test]
fn traces_show_what_is_handed_out() {
    let folder = folder("new");
    example(&folder, "pool.asm");
    let out = rcm(&folder, "run @module @form --trace 17").1;
    let line = |number: usize| out.lines().nth(number - 1).expect("a step");
    // Of a granted page, of a page with zeros there, and the first object again.
    assert!(line(1).ends_with("r0 = new                      r0 = 256"), "{out}");
    assert!(line(2).ends_with("r1 = new                      r1 = 260"), "{out}");
    assert!(line(8).ends_with("r2 = check r4                 r4 = 256 -> r2 = 256"), "{out}");
    assert!(line(12).ends_with("r2 = new                      r2 = 256, cleared"), "{out}");
}

#[test]
fn stops_are_explained() {
    let folder = folder("stop");
    example(&folder, "stops/33-index.asm");
    let (status, out, _) = rcm(&folder, "run @module @form");
    assert_eq!(status, STOPPED);
    let lines = "an index not below the array's count\n\
                 at f0 instruction 2: r1 = r0[r2]: r2 = 10, the array has 10\n\
                 what to do next: Tell the laboratory: ";
    assert!(out.starts_with(&format!("stopped 33 3\n{lines}")), "{out}");
}

#[test]
fn bad_input_writes_nothing() {
    let folder = folder("bad");
    example(&folder, "list.asm");
    assert_eq!(rcm(&folder, "run @module @form --budget 50 --state @state").0, RUNNING);
    std::fs::rename(folder.join("module"), folder.join("list")).expect("a file");
    example(&folder, "pool.asm");
    std::fs::copy(folder.join("state"), folder.join("foreign")).expect("a file");
    std::fs::write(folder.join("short"), [0; 100]).expect("a file");
    std::fs::write(folder.join("long"), [0; 4097]).expect("a file");
    std::fs::write(folder.join("text"), "fn f() -> i32 {\n    r = 1\n}\n").expect("a file");
    let before = files(&folder);
    let state = std::fs::read(folder.join("state")).expect("the state");
    for (line, status, message) in [
        ("", BAD_INPUT, "a command is wanted"),
        ("fly", BAD_INPUT, "there is no command `fly`"),
        ("check", BAD_INPUT, "check: wanted: MODULE; 0 files given\nusage: rcm check MODULE"),
        ("check @list @list", BAD_INPUT, "wanted: MODULE; 2 files given\nusage"),
        ("dis @list --raw=yes", BAD_INPUT, "--raw takes no value"),
        ("check .", BAD_INPUT, "Is a directory"),
        ("check @absent", BAD_INPUT, "No such file"),
        ("dis @absent", BAD_INPUT, "No such file"),
        ("dis @text", BAD_INPUT, "text is no module (refusal 1 at 0"),
        ("run @module @form --output @new --state @absent/new", BAD_INPUT, "No such file"),
        ("asm @text", BAD_INPUT, "-o MODULE is wanted"),
        ("asm @text -o @new", BAD_INPUT, "text:2:5: error: expected a register: `r` is none"),
        ("asm @list -o @new", BAD_INPUT, "expected a text in UTF-8"),
        ("asm @text -o @absent/new", BAD_INPUT, "No such file"),
        ("run @module", BAD_INPUT, "wanted: MODULE FORM; 1 file given\nusage"),
        ("run @module @form --budget 1 --budget 2", BAD_INPUT, "--budget is given twice"),
        ("run @module @form --state . --arguments 1", BAD_INPUT, "--state wants a file"),
        ("run @module @absent --state @new", BAD_INPUT, "No such file"),
        ("run @module @form --fast 1", BAD_INPUT, "there is no option `--fast` here"),
        ("run @module @form --budget", BAD_INPUT, "--budget wants a value"),
        ("run @module @form --budget -1", BAD_INPUT, "wants a number"),
        ("run @text @form --state @new --output @out", REFUSED, "refused 1 0"),
        ("run @module @long --state @new --output @out", REFUSED, "the form has over 4096 bytes"),
        (
            "run @module @form --state @short --output @out",
            REFUSED,
            "short: refused 20 0: it has 100",
        ),
        ("run @module @form --state @state --output @out", BAD_INPUT, "a state of another module"),
        ("run @module @form --state @foreign --output @out", REFUSED, "refused 21 0"),
        ("run @list @form --state @state --arguments 1", BAD_INPUT, "was opened with no arguments"),
        ("pages @module @short --svg @picture", REFUSED, "short: refused 20 0: it has 100"),
        ("pages @module @state --svg @picture", REFUSED, "refused 21 0"),
        ("pages @list @state --address x --svg @picture", BAD_INPUT, "wants a number"),
        ("pages @text @state --svg @picture", REFUSED, "refused 1 0"),
    ] {
        let (found, out, error) = rcm(&folder, line);
        assert_eq!(found, status, "{line}\n{error}");
        assert!(out.is_empty(), "{line}\n{out}");
        assert!(error.contains(message), "{line}\n{error}");
        assert_eq!(files(&folder), before, "{line}");
        assert_eq!(std::fs::read(folder.join("state")).expect("the state"), state, "{line}");
    }
}

#[test]
fn pages_show_regions_and_objects() {
    let folder = folder("pages");
    example(&folder, "regions.asm");
    assert_eq!(rcm(&folder, "run @module @form --budget 1470 --state @state").0, RUNNING);
    let line = "pages @module @state --address 3874 --svg @picture";
    let (status, out, error) = rcm(&folder, line);
    assert_eq!(status, DONE, "{error}");
    for line in [
        "running; 2 frames; 0 bytes of output",
        "frame 1: f1:1 r3 = new",
        "    R2 -> region 2 (own)",
        "   1       0  frame 0 R0   i32                      4  52 of 64",
        "  16       2  frame 1 R2   s0(R0, R1)               8  9 of 32",
        "16 pages owned, 47 left to grant",
        "address 3874: object at 3872, 4 bytes, free, of region 0: i32",
    ] {
        assert!(out.contains(line), "{line}\n{out}");
    }
    let picture = std::fs::read_to_string(folder.join("picture")).expect("the picture");
    assert!(picture.starts_with("<svg") && picture.ends_with("</svg>\n"));
    assert!(picture.contains("r3 = new") && picture.contains("3872: 4 bytes, free"));
    assert!(rcm(&folder, "pages @module @state --address 16384")
        .1
        .contains("no object lies there"));
}

#[test]
fn words_options_and_help() {
    let folder = folder("words");
    example(&folder, "ranking.asm");
    std::fs::copy(repository().join("examples/ranking.form"), folder.join("form")).expect("a form");
    for line in [
        "run @module @form --budget 100",
        "run @module @form --budget=100",
        "run --budget=0x64 @module @form",
        "run --budget 0X6_4 -- @module @form",
    ] {
        let (status, out, error) = rcm(&folder, line);
        assert_eq!((status, out.lines().next()), (RUNNING, Some("running 100")), "{line}\n{error}");
    }
    let version = env!("CARGO_PKG_VERSION");
    assert!(rcm(&folder, "--version").1.starts_with(&format!("rcm {version}, edition 2 ")));
    let all = rcm(&folder, "--help").1;
    for command in COMMANDS {
        let usage = format!("rcm {} ", command.name);
        let (status, help, error) = rcm(&folder, &format!("{} --help", command.name));
        assert_eq!((status, error.as_str()), (DONE, ""), "{}", command.name);
        assert!(help.starts_with(&format!("usage: {usage}")) && all.contains(&usage), "{help}");
        for option in command.options {
            assert!(help.contains(&format!("  {} ", option.name)), "{help}");
        }
    }
}

/// JSON by another reader's judgement: python3 prints what it finds there.
#[test]
fn answers_as_json() {
    let folder = folder("json");
    let form = repository().join("examples/ranking.form").display().to_string();
    example(&folder, "ranking.asm");
    let found = |line: &str, path: &str| json(&rcm(&folder, line).1, path);
    let whole = format!("run @module {form} --json");
    assert_eq!(
        found(&whole, "['answer'], v['value'], v['steps'], v['partial']"),
        "('ended', 6, 335, False)"
    );
    assert_eq!(found(&whole, "['output']"), "[98, 101, 100, 97, 99, 102]");
    let part = format!("run @module {form} --json --budget 310 --trace 2");
    assert_eq!(found(&part, "['answer'], v['partial'], len(v['trace'])"), "('running', True, 2)");
    assert_eq!(found(&part, "['interrupted'], v['output']"), "(False, [98, 101, 100])");
    example(&folder, "stops/33-index.asm");
    let stopped = "run @module @form --json";
    assert_eq!(found(stopped, "['answer'], v['number'], v['steps']"), "('stopped', 33, 3)");
    assert_eq!(found(stopped, "['meaning']"), "an index not below the array's count");
    assert!(found(stopped, "['at']").ends_with("r2 = 10, the array has 10"));
    assert!(found(stopped, "['advice']").starts_with("Tell the laboratory"));
}

/// The program itself as it is built without the library.
#[test]
fn the_program_translates_without_the_library() {
    let folder = folder("program");
    example(&folder, "answer.asm");
    let program = |words: &[&str]| {
        let output =
            Command::new(env!("CARGO_BIN_EXE_rcm")).args(words).current_dir(&folder).output();
        output.expect("a run")
    };
    let text = program(&["dis", "module"]);
    assert!(text.status.success());
    assert!(text.stdout.starts_with(b"fn f0() -> i32 {"));
    if cfg!(not(feature = "librcm")) {
        let check = program(&["check", "module"]);
        assert_eq!(check.status.code(), Some(i32::from(BAD_INPUT)));
        assert!(String::from_utf8_lossy(&check.stderr).contains("without the proved library"));
    }
}
