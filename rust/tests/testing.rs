//! `rcm test`: what it says of texts whose `#:` lines fit, differ, are wrong or are not there.

mod common;

use common::{new_folder, rcm_in, Ran};
use reference::tool::{BAD_INPUT, DONE};
use std::path::{Path, PathBuf};

/// Function 0 takes one argument, writes as many bytes of the form as it says, and returns it.
const COPY: &str = "fn main(count: i32) -> i32 {
    reg at, one: i32
    reg byte, more: i8

    one = 1
next:
    more = at < count
    if more goto copy
    return count
copy:
    byte = form[at]
    output byte
    at = at + one
    goto next
}
";

fn folder(name: &str) -> PathBuf {
    new_folder(&format!("testing-{name}"))
}

fn rcm(folder: &Path, line: &str) -> Ran {
    rcm_in(folder, line, false)
}

/// What is said of one text, without the folder's name.
fn tested(folder: &Path, text: &str) -> (u8, String) {
    std::fs::write(folder.join("t.asm"), text).expect("a text");
    let ran = rcm(folder, "test @t.asm");
    assert_eq!(ran.error, "", "{text}");
    (ran.status, ran.out.replace(&format!("{}/", folder.display()), ""))
}

/// The same of the text above, behind these lines.
fn tested_copy(folder: &Path, lines: &[&str]) -> (u8, String) {
    let lines: String = lines.iter().map(|line| format!("#: {line}\n")).collect();
    tested(folder, &(lines + COPY))
}

#[test]
fn cases_that_fit() {
    let folder = folder("fit");
    let lines = [
        "accepted 2 0 1 8",
        "arguments 3",
        "form 'a' 0x62 99",
        "ended 3 22",
        "output \"abc\"",
        // A setting begins the next case, which takes nothing from the one before.
        "arguments 0",
        "ended 0",
        "output",
        "arguments 2",
        "form \"no 'quotes' # or signs\" 255",
        "output 'n''o'",
        "arguments 0x3",
        "form 1 2",
        "stopped 38",
        "output 1 2",
        "arguments -1",
        "form",
        "budget 4",
        "stopped 38 4",
        "arguments -1",
        "budget 3",
        "running",
        "budget 100",
        "refused 9 0",
    ];
    let expected = (DONE, "1 file, 11 expectations, 0 differ\n".to_string());
    assert_eq!(tested_copy(&folder, &lines), expected);
    let refused = "   #: refused 4\r\nfn main() -> i32 {\r\n reg r: i32\r\n goto 9\r\n}\r\n";
    assert_eq!(tested(&folder, refused), (DONE, "1 file, 1 expectation, 0 differ\n".to_string()));
}

#[test]
fn what_differs_is_said_with_its_line() {
    let folder = folder("differ");
    let accepted = "accepted 2 0 1 8";
    let no_run = "refused 9 0 (the arguments or the form do not fit)";
    let stopped = "stopped 38 4 (a byte beyond the form's end) \
                   at t.asm:13: byte = form[at]: at = 0, the form has 0 bytes";
    for (lines, line, expected, found) in [
        (&["accepted 3 0 1 8"][..], 1, "accepted 3 0 1 8", accepted),
        (&["refused 7 2"], 1, "refused 7 2", accepted),
        (&["ended 0"], 1, "ended 0", no_run),
        (&["output"], 1, "a run", no_run),
        (&["arguments 0", "ended 1"], 2, "ended 1", "ended 0 4"),
        (&["arguments 0", "ended 0 5"], 2, "ended 0 5", "ended 0 4"),
        (&["arguments 1", "ended 1"], 2, "ended 1", stopped),
        (&["arguments 1", "stopped 33 4"], 2, "stopped 33 4", stopped),
        (&["arguments 1", "stopped 38 5"], 2, "stopped 38 5", stopped),
        (&["arguments 1", "refused 9 0"], 2, "refused 9 0", stopped),
        (&["arguments 1", "budget 2", "running 3"], 3, "running 3", "running 2"),
        (&["arguments 2", "form \"ab\"", "output \"ba\""], 3, "output \"ba\"", "output \"ab\""),
        (&["arguments 2", "form 1 'a'", "output 1 2"], 3, "output 1 2", "output 1 97"),
        (&["arguments 0", "output 7"], 2, "output 7", "no output"),
        (&["arguments 1", "form 7", "output"], 3, "no output", "output 7"),
    ] {
        let said = format!(
            "t.asm:{line}: expected {expected}, found {found}\n1 file, 1 expectation, 1 differs\n"
        );
        assert_eq!(tested_copy(&folder, lines), (BAD_INPUT, said), "{lines:?}");
    }
    // Long outputs are said by their lengths and the first byte that differs.
    let (form, output) = ("1 ".repeat(50), format!("{}2 {}", "1 ".repeat(40), "1 ".repeat(9)));
    let lines = ["arguments 50", &format!("form {form}"), &format!("output {output}")];
    let (status, out) = tested_copy(&folder, &lines);
    let said = "expected output of 50 bytes with 2 at byte 40, found 50 bytes with 1 at byte 40";
    assert_eq!(status, BAD_INPUT);
    assert!(out.starts_with(&format!("t.asm:3: {said}\n")), "{out}");
    let lines = ["arguments 40", &format!("form {form}"), &format!("output {form}")];
    let (_, out) = tested_copy(&folder, &lines);
    assert!(out.contains("50 bytes with 1 at byte 40, found 40 bytes with nothing at"), "{out}");
}

#[test]
fn lines_that_are_not_understood() {
    let folder = folder("wrong");
    let words = "form, arguments, budget, accepted, refused, ended, stopped, running or output";
    let bytes = "a number, a character as in 'a' or a text as in \"abc\"";
    let numbers = "numbers of 4 bytes with commas between";
    let accepted = "`accepted` alone or with its four counts";
    let refused = "`refused NUMBER PLACE` or `refused NUMBER`";
    let ended = "`ended VALUE STEPS` or `ended VALUE`";
    let second = "a second; a form, arguments or budget line begins the next case";
    let nothing = "what the run gives behind the settings";
    for (lines, line, expected, found) in [
        (&["endet 5"][..], 1, words, "`endet`"),
        (&[""], 1, words, "``"),
        (&["accepted 1 2"], 1, accepted, "`accepted 1 2`"),
        (&["refused"], 1, refused, "`refused`"),
        (&["refused 10"], 1, "a number from 1 to 9", "10"),
        (&["ended"], 1, ended, "`ended`"),
        (&["ended 1 2 3"], 1, ended, "`ended 1 2 3`"),
        (&["ended x"], 1, ended, "`ended x`"),
        (&["stopped 40"], 1, "a number from 31 to 39", "40"),
        (&["running 1 2"], 1, "`running STEPS` or `running`", "`running 1 2`"),
        (&["form 256", "ended 1"], 1, "a byte, 0 to 255", "`256`"),
        (&["form 1,2", "ended 1"], 1, bytes, "`,2`"),
        (&["form 'ab'", "ended 1"], 1, bytes, "`'ab'`"),
        (&["form \"ab", "ended 1"], 1, "a quotation mark at a text's end", "none"),
        (&["arguments x", "ended 1"], 1, numbers, "`x`"),
        (&["arguments 4294967296", "ended 1"], 1, numbers, "`4294967296`"),
        (&["budget", "ended 1"], 1, "a number of steps", "``"),
        (&["accepted", "accepted"], 2, "one verdict for a text", "a second"),
        (&["form 1", "form 2", "ended 1"], 2, "one form line for a case", second),
        (&["ended 1", "stopped 33"], 2, "one answer line for a case", second),
        // A line that is not understood brings no further errors.
        (&["ended 1", "budget 1", "runing 1", "budget 2", "ended 2"], 3, words, "`runing`"),
        (&["output x", "budget 2", "output"], 1, bytes, "`x`"),
        (&["ended 1", "budget 7"], 2, nothing, "nothing"),
        (&["accepted", "form 1"], 2, nothing, "nothing"),
        (&[], 1, "lines `#:` that say what to expect", "none"),
    ] {
        let said = format!(
            "t.asm:{line}: expected {expected}, found {found}\n\
             1 file, 0 expectations, 0 differ, 1 error\n"
        );
        assert_eq!(tested_copy(&folder, lines), (BAD_INPUT, said), "{lines:?}");
    }
}

#[test]
fn texts_that_do_not_assemble_fail() {
    let folder = folder("asm");
    let (status, out) =
        tested(&folder, "#: ended 1\n#: endet 2\nfn main() -> i32 {\n    r = 1\n}\n");
    assert_eq!(status, BAD_INPUT);
    assert!(out.starts_with("t.asm:4:5: error: expected a register: `r` is none"), "{out}");
    assert!(out.contains("\nt.asm:2: expected form, arguments,"), "{out}");
    assert!(out.ends_with("\n1 file, 0 expectations, 0 differ, 2 errors\n"), "{out}");
    std::fs::write(folder.join("t.asm"), [0xff]).expect("a file");
    let ran = rcm(&folder, "test @t.asm");
    assert_eq!(ran.status, BAD_INPUT);
    assert!(ran.out.contains("t.asm:1: expected a text in UTF-8\n1 file, "), "{}", ran.out);
}

#[test]
fn folders_are_walked_in_order_and_one_failure_stops_nothing() {
    let folder = folder("walk");
    std::fs::create_dir_all(folder.join("texts/inner")).expect("folders");
    std::fs::create_dir_all(folder.join("empty")).expect("a folder");
    let good = format!("#: arguments 0\n#: ended 0 4\n{COPY}");
    for (name, text) in [
        ("texts/z.asm", format!("#: refused 7\n{COPY}")),
        ("texts/b.asm", format!("#: accepted\n#: arguments 0\n#: ended 1\n{COPY}")),
        ("texts/inner/a.asm", good.clone()),
        ("texts/inner/notes.txt", "no text of a module".to_string()),
        ("texts/y.asm", COPY.to_string()),
    ] {
        std::fs::write(folder.join(name), text).expect("a file");
    }
    std::os::unix::fs::symlink("..", folder.join("texts/inner/circle")).expect("a link");
    let ran = rcm(&folder, "test @texts");
    let out = ran.out.replace(&format!("{}/", folder.display()), "");
    assert_eq!((ran.status, ran.error.as_str()), (BAD_INPUT, ""));
    let lines = [
        "texts/b.asm:3: expected ended 1, found ended 0 4",
        "texts/y.asm:1: expected lines `#:` that say what to expect, found none",
        "texts/z.asm:1: expected refused 7, found accepted 2 0 1 8",
        "4 files, 4 expectations, 2 differ, 1 error",
    ];
    assert_eq!(out.lines().collect::<Vec<_>>(), lines);
    assert_eq!(rcm(&folder, "test @texts/inner @texts/inner/a.asm").status, DONE);
    // Where standard error is a terminal, a line there shows how far the texts are.
    let ran = rcm_in(&folder, "test @texts/inner", true);
    assert_eq!(ran.out, "1 file, 1 expectation, 0 differ\n");
    assert!(ran.error.contains("\r0 of 1 files\r"), "{:?}", ran.error);
    for (line, message) in [
        ("test", "wanted: FILE.asm; 0 files given\nusage: rcm test FILE.asm | FOLDER .."),
        ("test @absent", "absent: No such file"),
        ("test @texts @absent", "absent: No such file"),
        ("test @empty", "empty: expected texts (*.asm) in this folder, found none"),
        ("test @texts --json", "there is no option `--json` here"),
    ] {
        let ran = rcm(&folder, line);
        assert_eq!((ran.status, ran.out.as_str()), (BAD_INPUT, ""), "{line}");
        assert!(ran.error.contains(message), "{line}\n{}", ran.error);
    }
}
