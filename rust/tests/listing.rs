//! What a coordinator asks the tool for: `rcm list` in each of its shapes, marked where the list is
//! partial, and `rcm explain` for each number.

mod common;

use common::{json, new_folder, rcm_in, repository, Ran};
use reference::text::assemble;
use reference::tool::{BAD_INPUT, DONE, REFUSED, RUNNING, STOPPED};
use std::path::{Path, PathBuf};

/// Writes bytes that a text must show otherwise, and stops at a division by zero.
const STOPS: &str = "fn main() -> i32 {
    reg byte: i8
    reg zero: i32

    byte = 'a'
    output byte
    byte = 10
    output byte
    byte = 92
    output byte
    byte = 200
    output byte
    zero = zero / zero
    return zero
}
";

/// A folder with the module of a text, and the form that the ranking's example has.
fn folder(name: &str, text: &str) -> PathBuf {
    let folder = new_folder(&format!("listing-{name}"));
    std::fs::write(folder.join("text"), text).expect("a text");
    std::fs::write(folder.join("module"), assemble(text).expect("a module")).expect("a file");
    let form = repository().join("examples/ranking.form");
    std::fs::copy(form, folder.join("form")).expect("a form");
    folder
}

fn example(name: &str, path: &str) -> PathBuf {
    let text = std::fs::read_to_string(repository().join("examples").join(path));
    folder(name, &text.expect("an example"))
}

fn rcm(folder: &Path, line: &str) -> Ran {
    rcm_in(folder, line, false)
}

#[test]
fn a_whole_list_in_each_shape() {
    let folder = example("whole", "ranking.asm");
    for (option, said) in [
        ("", "98\n101\n100\n97\n99\n102\n"),
        ("--text", "bedacf\n"),
        ("--csv", "place,value\n1,98\n2,101\n3,100\n4,97\n5,99\n6,102\n"),
        ("--budget 335", "98\n101\n100\n97\n99\n102\n"),
    ] {
        let ran = rcm(&folder, &format!("list @module @form {option}"));
        assert_eq!((ran.status, ran.error.as_str()), (DONE, ""), "{option}");
        assert_eq!(ran.out, said, "{option}");
    }
    let ran = rcm(&folder, "list @module @form --json");
    assert_eq!((ran.status, ran.error.as_str()), (DONE, ""));
    assert_eq!(ran.out.lines().count(), 1, "{}", ran.out);
    let whole =
        "{'answer': 'ended', 'value': 6, 'steps': 335, 'interrupted': False, 'partial': False, \
                 'list': [98, 101, 100, 97, 99, 102]}";
    assert_eq!(json(&ran.out, ""), whole);
}

#[test]
fn an_empty_list() {
    let folder = example("empty", "answer.asm");
    for (option, said) in [("", ""), ("--text", "\n"), ("--csv", "place,value\n")] {
        let ran = rcm(&folder, &format!("list @module @form {option}"));
        assert_eq!((ran.status, ran.out.as_str()), (DONE, said), "{option}");
    }
    let ran = rcm(&folder, "list @module @form --json");
    assert_eq!(json(&ran.out, "['list'], v['partial'], v['value']"), "([], False, 42)");
}

#[test]
fn a_list_that_is_still_running_is_marked() {
    let folder = example("running", "ranking.asm");
    let mark = "partial: running after 300 steps\n";
    for (option, said) in [
        ("", format!("{mark}98\n101\n")),
        ("--text", format!("{mark}be\n")),
        ("--csv", format!("# {mark}place,value\n1,98\n2,101\n")),
    ] {
        let ran = rcm(&folder, &format!("list @module @form --budget 300 {option}"));
        assert_eq!((ran.status, ran.out), (RUNNING, said), "{option}");
        assert!(ran.error.contains("the list is partial, do not use it: running"), "{}", ran.error);
        assert!(ran.error.contains("what to do next: Allow more steps"), "{}", ran.error);
    }
    let ran = rcm(&folder, "list @module @form --budget 300 --json");
    assert_eq!(ran.status, RUNNING);
    let partial = "{'answer': 'running', 'steps': 300, 'interrupted': False, 'partial': True, 'list': [98, 101]}";
    assert_eq!(json(&ran.out, ""), partial);
    // All is written, but the module has not said so.
    assert_eq!(rcm(&folder, "list @module @form --budget 334").status, RUNNING);
}

#[test]
fn a_list_that_has_stopped_is_marked() {
    let folder = folder("stopped", STOPS);
    let mark = "partial: stopped 36 (a zero divisor, or a signed quotient over i32)\n";
    for (option, said) in [
        ("", format!("{mark}97\n10\n92\n200\n")),
        ("--text", format!("{mark}a\\x0a\\\\\\xc8\n")),
        ("--csv", format!("# {mark}place,value\n1,97\n2,10\n3,92\n4,200\n")),
    ] {
        let ran = rcm(&folder, &format!("list @module @form {option}"));
        assert_eq!((ran.status, ran.out), (STOPPED, said), "{option}");
        assert!(ran.error.contains("the list is partial, do not use it: stopped 36"), "{option}");
        assert!(ran.error.contains("tell the laboratory"), "{}", ran.error);
    }
    let ran = rcm(&folder, "list @module @form --json");
    let stopped = "{'answer': 'stopped', 'number': 36, \
                   'meaning': 'a zero divisor, or a signed quotient over i32', 'steps': 9, 'interrupted': False, \
                   'partial': True, 'list': [97, 10, 92, 200]}";
    assert_eq!((ran.status, json(&ran.out, "")), (STOPPED, stopped.to_string()));
}

#[test]
fn a_refused_list_is_explained_and_nothing_is_printed() {
    let refused = example("refused", "refusals/7-wrong-load.asm");
    let arguments = example("arguments", "arguments.asm");
    std::fs::write(arguments.join("long"), [0; 4097]).expect("a form");
    for (folder, line, said, next) in [
        (&refused, "list @module @form", "refused 7 7\n", "Tell the laboratory, and do not run"),
        (&refused, "list @text @form --csv", "refused 1 0\n", "Ask the sender"),
        (&arguments, "list @module @form", "takes 2 arguments", "Correct the call"),
        (&arguments, "list @module @long --arguments 1,2", "over 4096 bytes", "Correct the call"),
    ] {
        let ran = rcm(folder, line);
        assert_eq!((ran.status, ran.out.as_str()), (REFUSED, ""), "{line}\n{}", ran.error);
        assert!(ran.error.contains(said), "{line}\n{}", ran.error);
        assert!(ran.error.contains(&format!("what to do next: {next}")), "{line}\n{}", ran.error);
    }
    assert_eq!(rcm(&arguments, "list @module @form --arguments 8,3").status, DONE);
    // Whoever reads JSON gets an answer all the same.
    let ran = rcm(&refused, "list @module @form --json");
    assert_eq!(ran.status, REFUSED);
    assert_eq!(json(&ran.out, "['answer'], v['number'], v['place']"), "('refused', 7, 7)");
}

#[test]
fn wrong_words_of_list() {
    let folder = example("wrong", "ranking.asm");
    for (line, message) in [
        ("list @module", "wanted: MODULE FORM; 1 file given\nusage: rcm list MODULE FORM"),
        ("list @module @absent", "No such file"),
        ("list @module @form --csv --json", "found --csv and --json"),
        ("list @module @form --text --csv --json", "found --text and --csv"),
        ("list @module @form --budget many", "wants a number, not `many`"),
        ("list @module @form --arguments one", "wants a number, not `one`"),
        ("list - -", "standard input can be read once"),
    ] {
        let ran = rcm(&folder, line);
        assert_eq!((ran.status, ran.out.as_str()), (BAD_INPUT, ""), "{line}");
        assert!(ran.error.contains(message), "{line}\n{}", ran.error);
    }
}

/// The numbers of document 01.
fn refusals_and_stops() -> impl Iterator<Item = (&'static str, u64)> {
    let refusals = (1..=9).chain(20..=22).map(|number| ("refused", number));
    refusals.chain((31..=39).map(|number| ("stopped", number)))
}

/// The section of the coordinator's page that a text ends with is there.
fn names_a_section(text: &str) -> bool {
    let page = std::fs::read_to_string(repository().join("docs/COORDINATOR.md")).expect("the page");
    let last = text.lines().last().expect("a line");
    let section = last.strip_prefix("more: docs/COORDINATOR.md, \"").expect("a page");
    page.lines().any(|line| line == format!("## {}", section.trim_end_matches('"')))
}

#[test]
fn explain_says_every_number_and_answer() {
    let folder = new_folder("listing-explain");
    for (word, number) in refusals_and_stops() {
        let ran = rcm(&folder, &format!("explain {number}"));
        assert_eq!((ran.status, ran.error.as_str()), (DONE, ""));
        assert_eq!(ran.out.lines().count(), 3, "{}", ran.out);
        assert!(ran.out.starts_with(&format!("{word} {number}: ")), "{}", ran.out);
        assert!(names_a_section(&ran.out), "{}", ran.out);
    }
    for word in ["accepted", "refused", "ended", "stopped", "running"] {
        let ran = rcm(&folder, &format!("explain {word}"));
        assert_eq!(ran.status, DONE, "{}", ran.error);
        assert!(ran.out.starts_with(word) && names_a_section(&ran.out), "{}", ran.out);
    }
    // A number otherwise written, and answers as they are printed.
    for (line, same) in [
        ("0x21", "33"),
        ("stopped 33 3", "33"),
        ("refused 7 3", "7"),
        ("ended 33 7", "ended"),
        ("running 31", "running"),
        ("accepted 6 1 4 51", "accepted"),
    ] {
        let (one, other) =
            (rcm(&folder, &format!("explain {line}")), rcm(&folder, &format!("explain {same}")));
        assert_eq!((one.status, one.out), (DONE, other.out), "{line}");
    }
}

#[test]
fn explain_lists_all_where_none_is_asked_for_or_known() {
    let folder = new_folder("listing-all");
    let all = rcm(&folder, "explain");
    assert_eq!((all.status, all.error.as_str()), (DONE, ""));
    for (word, number) in refusals_and_stops() {
        let line = format!("{:12}", format!("{word} {number}"));
        assert!(all.out.lines().any(|one| one.starts_with(&line)), "{line}\n{}", all.out);
    }
    for word in [
        "0",
        "10",
        "19",
        "23",
        "30",
        "40",
        "99999999999999999999",
        "halted",
        "33 36",
        "33 halted",
        "stopped 7",
        "refused 33",
        "stopped x",
    ] {
        let ran = rcm(&folder, &format!("explain {word}"));
        assert_eq!((ran.status, ran.out.as_str()), (BAD_INPUT, ""), "{word}");
        let message = format!("rcm: there is no refusal, stop or answer `{word}`\n");
        assert!(ran.error.starts_with(&message), "{}", ran.error);
        assert!(ran.error.trim_end().ends_with(all.out.trim_end()), "{}", ran.error);
    }
}
