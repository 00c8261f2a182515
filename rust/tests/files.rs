//! What the tool does to files: outputs that are devices, links, inputs or one another, modes and
//! owners, reads without end, interrupted runs, closed pipes, and states that are resumed with other
//! words. Each test has a folder of its own.

mod common;

use common::{new_folder, rcm_in, repository, Ran};
use reference::tool::{BAD_INPUT, DONE, REFUSED, RUNNING, STOPPED};
use std::fs::{self, Permissions};
use std::os::unix::fs::{chown, symlink, FileTypeExt, MetadataExt, PermissionsExt};
use std::path::{Path, PathBuf};
use std::process::Command;
use std::time::{Duration, Instant};

const LIST: &[u8] = b"bedacf";

/// A folder with the ranking's module and form.
fn folder(name: &str) -> PathBuf {
    let folder = new_folder(&format!("files-{name}"));
    let examples = repository().join("examples");
    fs::copy(examples.join("ranking.asm"), folder.join("text")).expect("a text");
    fs::copy(examples.join("ranking.form"), folder.join("form")).expect("a form");
    good(&folder, "asm @text -o @module", DONE);
    folder
}

fn good(folder: &Path, line: &str, status: u8) -> Ran {
    let ran = rcm_in(folder, line, false);
    assert_eq!(ran.status, status, "{line}\n{}{}", ran.out, ran.error);
    ran
}

fn bad(folder: &Path, line: &str, message: &str) {
    let before = contents(folder);
    let ran = rcm_in(folder, line, false);
    assert_eq!((ran.status, ran.out.as_str()), (BAD_INPUT, ""), "{line}\n{}", ran.error);
    assert!(ran.error.contains(message), "{line}\n{}", ran.error);
    assert!(contents(folder) == before, "{line} changed a file");
}

/// The names of a folder's files with their bytes.
fn contents(folder: &Path) -> Vec<(PathBuf, Vec<u8>)> {
    let entries = fs::read_dir(folder).expect("a folder").flatten().map(|entry| entry.path());
    let mut files: Vec<_> = entries
        .map(|path| {
            let regular =
                fs::metadata(&path).is_ok_and(|there| there.is_file() && there.len() < 1 << 20);
            let bytes = if regular { fs::read(&path).expect("a file") } else { Vec::new() };
            (path, bytes)
        })
        .collect();
    files.sort();
    files
}

fn mode(path: &Path) -> u32 {
    fs::metadata(path).expect("a file").permissions().mode() & 0o7777
}

fn set_mode(path: &Path, mode: u32) {
    fs::set_permissions(path, Permissions::from_mode(mode)).expect("a mode");
}

fn is_root() -> bool {
    // The owner of what this process makes.
    let file = new_folder("files-owner").join("file");
    fs::write(&file, []).expect("a file");
    fs::metadata(&file).expect("a file").uid() == 0
}

#[test]
fn devices_are_written_and_stay() {
    let folder = folder("devices");
    let pipe = folder.join("pipe");
    assert!(Command::new("mkfifo").arg(&pipe).status().is_ok_and(|status| status.success()));
    let reader = {
        let pipe = pipe.clone();
        std::thread::spawn(move || fs::read(pipe).expect("what was written"))
    };
    good(&folder, "run @module @form --output @pipe", DONE);
    assert_eq!(reader.join().expect("a reader"), LIST);
    assert!(fs::metadata(&pipe).expect("the pipe").file_type().is_fifo());
    // A device needs the rights to make one; through a link to it the same is tried by everybody.
    symlink("/dev/null", folder.join("null")).expect("a link");
    let device = folder.join("device");
    let made = Command::new("mknod").arg(&device).args(["c", "1", "3"]).output();
    let made = made.is_ok_and(|made| made.status.success());
    for name in ["null", "device"] {
        if name == "device" && !made {
            eprintln!("no device can be made here: tried through a link alone");
            continue;
        }
        good(&folder, &format!("asm @text -o @{name}"), DONE);
        good(&folder, &format!("run @module @form --output @{name}"), DONE);
        let there = fs::metadata(folder.join(name)).expect("the device").file_type();
        assert!(there.is_char_device(), "{name}");
        assert!(!folder.join(format!("{name}.partial")).exists());
        assert!(!folder.join(format!("{name}.map")).exists());
    }
    assert!(fs::symlink_metadata(folder.join("null")).expect("the link").is_symlink());
}

#[test]
fn links_are_followed() {
    let folder = folder("links");
    fs::write(folder.join("target"), b"old").expect("a file");
    symlink("target", folder.join("first")).expect("a link");
    symlink(folder.join("first"), folder.join("second")).expect("a link");
    fs::create_dir(folder.join("inner")).expect("a folder");
    symlink("inner/new", folder.join("nowhere")).expect("a link");
    symlink("round", folder.join("round")).expect("a link");
    fs::write(folder.join("twice"), b"old").expect("a file");
    fs::hard_link(folder.join("twice"), folder.join("again")).expect("a second name");
    for (name, written) in
        [("second", "target"), ("nowhere", "inner/new"), ("twice", "again"), ("plain", "plain")]
    {
        good(&folder, &format!("run @module @form --output @{name}"), DONE);
        assert_eq!(fs::read(folder.join(written)).expect("the output"), LIST, "{name}");
    }
    for name in ["first", "second", "nowhere"] {
        assert!(fs::symlink_metadata(folder.join(name)).expect("a link").is_symlink(), "{name}");
    }
    bad(&folder, "run @module @form --output @round", "too many links");
}

#[test]
fn no_output_is_an_input_or_another_output() {
    let folder = folder("same");
    symlink("form", folder.join("link")).expect("a link");
    fs::hard_link(folder.join("form"), folder.join("name")).expect("a second name");
    good(&folder, "run @module @form --budget 9 --state @state --output @list", RUNNING);
    good(&folder, "run @module @form --budget 9 --state @other", RUNNING);
    fs::write(folder.join("mine.info"), b"my notes").expect("a file");
    fs::write(folder.join("mine.partial"), b"stopped the drug on Monday").expect("a file");
    for (line, message) in [
        ("run @module @form --output @form", "is the form: it would be overwritten"),
        ("run @module @form --output @link", "is the form: it would be overwritten"),
        ("run @module @form --output @name", "is the form: it would be overwritten"),
        ("run @module @link --output @form", "is the form: it would be overwritten"),
        ("run @module @form --output @./form", "is the form: it would be overwritten"),
        ("run @module @form --output @module", "is the module: it would be overwritten"),
        ("run @module @form --state @module", "is the module: it would be overwritten"),
        ("run @module @form --state @new --output @new", "are one file"),
        ("run @module @form --state @new --output @./new", "are one file"),
        ("run @module @form --state @new --output @new.info", "are one file"),
        ("run @module @form --state @list.partial --output @list", "are one file"),
        ("run @module @form --output @absent/list", "No such file or directory"),
        ("run @module @form --output @form/list", "expected a folder before the file's name"),
        ("run @module @form --state .", "--state wants a file"),
        ("asm @text --no-map -o @absent-folder/", "expected a file's name, found a folder's"),
        ("run @module @form --output=", "expected a file's name, found an empty word"),
        ("run @module @form --state @mine", "mine.info: expected what a saved state belongs to"),
        ("run @module @form --output @module.map", "is the module's map"),
        ("run @module @form --output @state", "is a saved state: it would be overwritten"),
        ("asm @text -o @state", "is a saved state: it would be overwritten"),
        ("asm @text -o @list --no-map", "is the output of the run that is saved in"),
        ("pages @module @other --svg @list", "is the output of the run that is saved in"),
        ("run @module @form --output @state.info", "is a state's info: it would be overwritten"),
        (
            "run @module @form --output @list.partial",
            "is an output's mark: it would be overwritten",
        ),
        (
            "run @module @form --state @other --output @list",
            "is the output of a run that is saved in",
        ),
        ("pages @module @state --svg @state.info", "is the state's info"),
        ("pages @module @state --svg @module.map", "is the module's map"),
        // A run that is saved keeps its output, though the state is mistyped or left out.
        (
            "run @module @form --state @stat --output @list",
            "is the output of a run that is saved in",
        ),
        ("run @module @form --output @list", "is the output of a run that is saved in"),
        ("run @module @form --output @mine", "mine.partial: expected the mark of a partial output"),
        ("run @module @form --state -", "--state wants a file"),
        ("run - -", "standard input can be read once"),
        ("asm @text -o @text", "is the text: it would be overwritten"),
        ("pages @module @state --svg @state", "is the state: it would be overwritten"),
    ] {
        bad(&folder, line, message);
    }
}

#[test]
fn modes_and_owners_are_kept() {
    let folder = folder("modes");
    let path = |name: &str| folder.join(name);
    let line = "run @module @form --budget 200 --state @state --output @list";
    good(&folder, line, RUNNING);
    for name in ["state", "list", "state.info", "list.partial"] {
        assert_eq!(mode(&path(name)), 0o600, "{name}");
    }
    // A module is no secret.
    fs::write(path("other"), []).expect("a file");
    assert_eq!(mode(&path("module")), mode(&path("other")));
    set_mode(&path("list"), 0o640);
    set_mode(&path("state"), 0o604);
    set_mode(&path("module"), 0o755);
    if is_root() {
        chown(path("list"), Some(12_345), Some(54_321)).expect("an owner");
    }
    let owner = |name: &str| fs::metadata(path(name)).map(|there| (there.uid(), there.gid()));
    let before = owner("list").expect("an owner");
    good(&folder, line, DONE);
    good(&folder, "asm @text -o @module", DONE);
    assert_eq!((mode(&path("list")), mode(&path("state"))), (0o640, 0o604));
    assert_eq!(mode(&path("module")), 0o755);
    assert_eq!(owner("list").expect("an owner"), before);
    assert_eq!(fs::read(path("list")).expect("the list"), LIST);
    // What is closed to writing stays as it is; the superuser may write it all the same.
    fs::write(path("closed"), b"old").expect("a file");
    set_mode(&path("closed"), 0o400);
    if !is_root() {
        bad(&folder, "run @module @form --output @closed", "Permission denied");
    }
    let files = contents(&folder);
    assert!(!files.iter().any(|(name, _)| name.to_string_lossy().ends_with(".part")));
}

#[test]
fn reads_are_bounded() {
    let folder = folder("bounded");
    let huge = fs::File::create(folder.join("huge")).expect("a file");
    huge.set_len(8 << 30).expect("a file of 8 GB without blocks");
    good(&folder, "run @module @form --budget 9 --state @state", RUNNING);
    let begin = Instant::now();
    for (line, status, message) in [
        ("check @huge", REFUSED, "refused 1 0"),
        ("check @huge", REFUSED, "the file has over 32768 bytes"),
        ("check /dev/zero", REFUSED, "the file has over 32768 bytes"),
        ("dis /dev/zero --raw", BAD_INPUT, "more than 32768 bytes"),
        ("run /dev/zero @form", REFUSED, "refused 1 0"),
        ("run @module /dev/zero", REFUSED, "refused 9 0: the form has over 4096 bytes"),
        ("pages @module @huge", REFUSED, "refused 20 0: it has over 24576 bytes"),
        ("asm @huge -o @new", BAD_INPUT, "expected a text of at most"),
    ] {
        let ran = rcm_in(&folder, line, false);
        assert_eq!(ran.status, status, "{line}\n{}", ran.error);
        assert!((ran.out + &ran.error).contains(message), "{line}");
    }
    assert!(begin.elapsed() < Duration::from_secs(20));
}

#[test]
fn a_partial_list_is_marked() {
    let folder = folder("partial");
    let mark = || fs::read_to_string(folder.join("list.partial"));
    let line = "run @module @form --budget 310 --state @state --output @list";
    let ran = good(&folder, line, RUNNING);
    assert_eq!(
        ran.out,
        format!("running 310\npartial output, 3 bytes: in {}\n", folder.join("list").display())
    );
    let state = folder.join("state");
    let running = format!("running: the module has not ended\nstate {}\n", state.display());
    assert_eq!(mark().expect("the mark"), format!("rcm partial 1\n{running}"));
    let ran = good(&folder, line, DONE);
    assert_eq!(ran.out, "ended 6 25\n");
    assert!(mark().is_err());
    let shown = good(&folder, "run @module @form --budget 310", RUNNING).out;
    assert_eq!(shown, "running 310\npartial output, 3 bytes: 62 65 64\n");
    let stop = repository().join("examples/stops/39-output-full.asm").display().to_string();
    good(&folder, &format!("asm {stop} -o @full"), DONE);
    let ran = good(&folder, "run @full @form --output @list", STOPPED);
    assert!(ran.out.contains("\npartial output, 4096 bytes: in "), "{}", ran.out);
    assert_eq!(mark().expect("the mark"), "rcm partial 1\nstopped 39: a full output\n");
}

/// The same words go on; other ones are compared with what stands beside the state.
#[test]
fn states_know_what_they_belong_to() {
    let folder = new_folder("files-resumed");
    let text = "fn f(n: i32, m: i32) -> i32 {\n reg b: i8\n b = 'x'\nagain:\n output b\n n = n + m\n goto again\n}";
    fs::write(folder.join("text"), text).expect("a text");
    fs::write(folder.join("other-text"), text.replace("'x'", "'y'")).expect("a text");
    good(&folder, "asm @text -o @module", DONE);
    good(&folder, "asm @other-text -o @other", DONE);
    fs::write(folder.join("form"), [1]).expect("a form");
    fs::write(folder.join("other-form"), [2]).expect("a form");
    let line = "run @module @form --arguments 5,0x3 --budget 10 --state @state --output @list";
    for _ in 0..3 {
        good(&folder, line, RUNNING);
    }
    assert_eq!(fs::read(folder.join("list")).expect("the list"), [b'x'; 10]);
    // As the same numbers may be written, or not at all.
    good(&folder, &line.replace("5,0x3", "5,3"), RUNNING);
    good(&folder, &line.replace("--arguments 5,0x3 ", ""), RUNNING);
    fs::write(folder.join("shorter"), b"xxx").expect("a list");
    fs::write(folder.join("changed"), [b'z'; 30]).expect("a list");
    for (line, message) in [
        (line.replace("5,0x3", "5,4"), "was opened with 5,3, not with 5,4"),
        (line.replace("@module", "@other"), "is a state of another module: of "),
        (line.replace("@form", "@other-form"), "is a state of another form: of "),
        (line.replace(" --output @list", ""), "was saved with --output "),
        (line.replace("@list", "@shorter"), "has 3 bytes, but "),
        (line.replace("@list", "@changed"), "is not what "),
    ] {
        bad(&folder, &line, message);
    }
    // An output that is ahead of its state is written again, byte for byte.
    let state = fs::read(folder.join("state")).expect("the state");
    good(&folder, line, RUNNING);
    let ahead = fs::read(folder.join("list")).expect("the list");
    fs::write(folder.join("state"), state).expect("the state");
    good(&folder, line, RUNNING);
    assert!(fs::read(folder.join("list")).expect("the list") == ahead);
    // What another host has saved has nothing beside it.
    fs::write(folder.join("state.info"), b"rubbish").expect("a file");
    bad(&folder, line, "expected what a saved state belongs to");
    fs::remove_file(folder.join("state.info")).expect("a file");
    let ran = good(&folder, line, RUNNING);
    assert!(ran.error.contains("is a saved state: --arguments is not looked at"), "{}", ran.error);
    // Then nobody knows the arguments, and they are taken as they are.
    good(&folder, line, RUNNING);
}

/// Of two runs of one module the state of one does not go on with the form and output of the other.
#[test]
fn a_state_is_that_of_its_info() {
    let folder = folder("exchanged");
    let upper = fs::read(folder.join("form")).expect("a form").to_ascii_uppercase();
    fs::write(folder.join("upper"), upper).expect("a form");
    good(&folder, "run @module @form --budget 290 --state @one --output @first", RUNNING);
    good(&folder, "run @module @upper --budget 300 --state @two --output @second", RUNNING);
    let two = fs::read(folder.join("two")).expect("a state");
    fs::copy(folder.join("one"), folder.join("two")).expect("a state");
    let line = "run @module @upper --state @two --output @second";
    bad(&folder, line, "is not the state that ");
    fs::write(folder.join("two"), two).expect("a state");
    good(&folder, line, DONE);
    assert_eq!(fs::read(folder.join("second")).expect("a list"), b"BEDACF");
    let ran = good(&folder, line, REFUSED);
    assert!(ran.error.ends_with("refused 22 0: this state has ended already: its list is whole\n"));
}

/// A mark that a killed program has left beside a whole list goes when the run is seen to be over.
#[test]
fn marks_of_runs_that_are_over_go() {
    let folder = folder("over");
    let line = "run @module @form --budget 300 --state @state --output @list";
    good(&folder, line, RUNNING);
    let mark = fs::read(folder.join("list.partial")).expect("the mark");
    good(&folder, line, DONE);
    fs::write(folder.join("list.partial"), &mark).expect("a mark");
    good(&folder, line, REFUSED);
    assert!(!folder.join("list.partial").exists());
    // Nor does it keep a new run from writing its list.
    fs::write(folder.join("list.partial"), &mark).expect("a mark");
    good(&folder, "run @module @form --output @list", DONE);
    assert!(!folder.join("list.partial").exists());
}

/// A file without info may have any bytes behind those that were written.
#[test]
fn an_output_that_nothing_speaks_of_has_its_length() {
    let folder = folder("longer");
    good(&folder, "run @module @form --budget 310 --state @state --output @list", RUNNING);
    fs::remove_file(folder.join("state.info")).expect("the info");
    fs::write(folder.join("mine"), b"bed and breakfast").expect("a file");
    let line = "run @module @form --state @state --output @mine";
    bad(&folder, line, "mine has 17 bytes, but ");
}

/// What stands beside a file is found under each of its names.
#[test]
fn beside_a_link_is_beside_its_file() {
    let folder = folder("beside");
    fs::create_dir(folder.join("real")).expect("a folder");
    for name in ["state", "list"] {
        symlink(folder.join("real").join(name), folder.join(name)).expect("a link");
    }
    let line = "run @module @form --budget 300 --state @state --output @list";
    good(&folder, line, RUNNING);
    let names: Vec<_> = contents(&folder.join("real")).into_iter().map(|(path, _)| path).collect();
    let names: Vec<_> = names.iter().filter_map(|path| path.file_name()).collect();
    assert_eq!(names, ["list", "list.partial", "state", "state.info"]);
    fs::write(folder.join("other"), [1, 90, b'a']).expect("a form");
    let other = "run @module @other --budget 300 --state @real/state --output @real/list";
    bad(&folder, other, "is a state of another form");
    good(&folder, &line.replace("@", "@./"), DONE);
    assert!(!folder.join("real/list.partial").exists());
}

/// Lists of who may read a file are not in its mode.
#[test]
fn access_lists_are_kept() {
    let folder = folder("acl");
    let list = folder.join("list");
    fs::write(&list, b"old").expect("a file");
    let set = Command::new("setfacl").args(["-m", "u:12345:rw,g::---"]).arg(&list).output();
    if !set.is_ok_and(|set| set.status.success()) {
        eprintln!("no access list can be set here");
        return;
    }
    let shown = || Command::new("getfacl").args(["-c", "-p"]).arg(&list).output().expect("getfacl");
    let before = shown().stdout;
    good(&folder, "run @module @form --output @list", DONE);
    assert_eq!(fs::read(&list).expect("the list"), LIST);
    assert!(shown().stdout == before);
}

/// A pipe or a device has no bytes to go on from, and nothing beside it.
#[test]
fn runs_go_on_with_devices() {
    let folder = folder("on");
    symlink("/dev/null", folder.join("null")).expect("a link");
    let line = "run @module @form --budget 300 --state @state --output @null";
    good(&folder, line, RUNNING);
    good(&folder, line, DONE);
    let pipe = folder.join("pipe.info");
    assert!(Command::new("mkfifo").arg(&pipe).status().is_ok_and(|status| status.success()));
    bad(&folder, "run @module @form --state @pipe", "pipe.info: expected a regular file");
}

#[test]
fn a_run_that_cannot_be_saved_says_what_it_was() {
    let folder = folder("full");
    if !Path::new("/dev/full").exists() {
        eprintln!("there is no /dev/full here");
        return;
    }
    let ran = rcm_in(&folder, "run @module @form --output /dev/full", false);
    assert_eq!((ran.status, ran.out.as_str()), (BAD_INPUT, ""));
    assert!(ran.error.contains("No space left on device"), "{}", ran.error);
    assert!(ran.error.contains("what could not be saved: ended 6 335"), "{}", ran.error);
}

/// The program itself, as only it has signals and pipes.
#[cfg(feature = "librcm")]
mod program {
    use super::{folder, good};
    use reference::state::State;
    use reference::tool::{DONE, RUNNING};
    use std::fs;
    use std::io::Write;
    use std::path::Path;
    use std::process::{Child, Command, Output, Stdio};
    use std::time::Duration;

    const ENDLESS: &str = "fn f() -> i32 {\n reg n, one: i32\n reg b: i8\n one = 1\n b = 'x'\n output b\nagain:\n n = n + one\n goto again\n}";

    /// Steps that take so long that a signal comes before their end, and not for ever without one.
    const LONG: &str = "20000000000";

    /// The program, with the actions of its signals as a shell gives them: whoever runs the tests
    /// behind a shell's back may ignore some, and the program then ignores them too.
    fn spawn(folder: &Path, line: &str) -> Child {
        Command::new("env")
            .args(["--default-signal=HUP", "--default-signal=INT", "--default-signal=TERM"])
            .arg(env!("CARGO_BIN_EXE_rcm"))
            .args(line.split_whitespace())
            .current_dir(folder)
            .stdin(Stdio::piped())
            .stdout(Stdio::piped())
            .stderr(Stdio::piped())
            .spawn()
            .expect("the program")
    }

    fn fed(folder: &Path, line: &str, input: &[u8]) -> Output {
        let mut child = spawn(folder, line);
        child.stdin.take().expect("its input").write_all(input).expect("its input");
        child.wait_with_output().expect("its end")
    }

    /// Waits until a run has begun: from then on the program has an action for its signals.
    fn begun(child: &Child) {
        const INTERRUPT: u64 = 1 << 1;
        let status = format!("/proc/{}/status", child.id());
        for _ in 0..1000 {
            let text = fs::read_to_string(&status).expect("a process");
            let caught = text.lines().find_map(|line| line.strip_prefix("SigCgt:\t"));
            let caught = caught.and_then(|word| u64::from_str_radix(word, 16).ok());
            if caught.expect("the signals") & INTERRUPT != 0 {
                return;
            }
            std::thread::sleep(Duration::from_millis(20));
        }
        panic!("the run does not begin");
    }

    fn signalled(folder: &Path, line: &str, signal: &str) -> (Option<i32>, String, String) {
        let child = spawn(folder, line);
        begun(&child);
        let killed = Command::new("kill").args([signal, &child.id().to_string()]).status();
        assert!(killed.is_ok_and(|status| status.success()));
        let output = child.wait_with_output().expect("its end");
        let text = |bytes| String::from_utf8(bytes).expect("text");
        (output.status.code(), text(output.stdout), text(output.stderr))
    }

    /// The first register of a saved state.
    fn reached(folder: &Path) -> u32 {
        let bytes = fs::read(folder.join("state")).expect("the state");
        State::from_bytes(&bytes).expect("a state").frames[0].registers[0]
    }

    #[test]
    fn an_interrupted_run_is_saved() {
        let folder = folder("signals");
        fs::write(folder.join("text"), ENDLESS).expect("a text");
        good(&folder, "asm @text -o @module", DONE);
        let line = &format!("run module form --budget {LONG} --state state --output list");
        let mut before = 0;
        for (signal, status) in [("-TERM", 143), ("-INT", 130)] {
            let (code, out, error) = signalled(&folder, line, signal);
            assert_eq!(code, Some(status), "{out}{error}");
            let steps: u64 =
                out.lines().next().expect("a line")["running ".len()..].parse().expect("steps");
            assert!(out.ends_with("partial output, 1 byte: in list\n"), "{out}");
            let said = format!("interrupted after {steps} steps: saved in state");
            assert!(error.contains(&said), "{error}");
            assert_eq!(fs::read(folder.join("list")).expect("the list"), b"x");
            assert!(reached(&folder) > before);
            before = reached(&folder);
        }
        // Exactly the steps that were counted have been done.
        good(&folder, "run @module @form --budget 6 --state @state --output @list", RUNNING);
        assert_eq!(reached(&folder), before + 3);
        let shown = &format!("run module form --budget {LONG}");
        let (code, _, error) = signalled(&folder, shown, "-HUP");
        assert_eq!(code, Some(129));
        assert!(error.contains("without --state they are lost"), "{error}");
    }

    /// Of two runs from one state only one is saved.
    #[test]
    fn a_state_that_has_changed_is_not_written_over() {
        let folder = folder("twice");
        fs::write(folder.join("text"), ENDLESS).expect("a text");
        good(&folder, "asm @text -o @module", DONE);
        good(&folder, "run @module @form --budget 10 --state @state", RUNNING);
        // Both at the same moment: one of them is told, and what is there can be gone on with.
        let both = "run module form --budget 50000000 --state state --output list";
        fs::remove_file(folder.join("state")).expect("the state");
        for _ in 0..5 {
            let runs = [spawn(&folder, both), spawn(&folder, both)];
            let codes = runs.map(|run| run.wait_with_output().expect("its end").status.code());
            assert!(codes.contains(&Some(4)), "{codes:?}");
            good(&folder, "run @module @form --budget 9 --state @state --output @list", RUNNING);
        }
        fs::remove_file(folder.join("state")).expect("the state");
        good(&folder, "run @module @form --budget 10 --state @state", RUNNING);
        let child = spawn(&folder, &format!("run module form --budget {LONG} --state state"));
        begun(&child);
        good(&folder, "run @module @form --budget 20 --state @state", RUNNING);
        let saved = fs::read(folder.join("state")).expect("the state");
        let killed = Command::new("kill").args(["-INT", &child.id().to_string()]).status();
        assert!(killed.is_ok_and(|status| status.success()));
        let output = child.wait_with_output().expect("its end");
        let error = String::from_utf8(output.stderr).expect("text");
        assert_eq!(output.status.code(), Some(1), "{error}");
        assert!(error.contains("state has changed since: another run has saved to it"), "{error}");
        assert!(fs::read(folder.join("state")).expect("the state") == saved);
    }

    /// What a shell and the kernel call standard output and pipes.
    #[test]
    fn other_names_of_streams() {
        let folder = folder("streams");
        let program = env!("CARGO_BIN_EXE_rcm");
        for (line, said) in [
            ("run module form --output /dev/stdout | cat", "bedacf"),
            ("run module form --output /dev/stdout > redirected; cat redirected", "bedacf"),
            ("run module form --output /dev/fd/3 3>&1 >/dev/null | cat", "bedacf"),
            ("asm text -o /dev/stdout | wc -c", "1024"),
            ("run module form --output - | true", ""),
            ("run module form --output //dev/./stdout | cat", "bedacf"),
            ("run module form --output /dev/fd/3 3>>redirected; cat redirected", "bedacf"),
        ] {
            let mut shell = Command::new("sh");
            shell.args(["-c", &format!("{program} {line}")]).current_dir(&folder);
            let output = shell.output().expect("a shell");
            let out = String::from_utf8(output.stdout).expect("text");
            assert_eq!(out.trim(), said, "{line}\n{}", String::from_utf8_lossy(&output.stderr));
        }
    }

    #[test]
    fn a_closed_pipe_is_no_error() {
        let folder = folder("pipes");
        for line in ["dis module", "run module form --trace 300 --state state --output list"] {
            let mut child = spawn(&folder, line);
            drop(child.stdout.take());
            let output = child.wait_with_output().expect("its end");
            assert_eq!((output.status.code(), &output.stderr[..]), (Some(0), &b""[..]), "{line}");
        }
        assert_eq!(fs::read(folder.join("list")).expect("the list"), super::LIST);
    }

    #[test]
    fn a_dash_is_standard_input_or_output() {
        let folder = folder("standard");
        let text = fs::read(folder.join("text")).expect("a text");
        let module = fs::read(folder.join("module")).expect("a module");
        let form = fs::read(folder.join("form")).expect("a form");
        let assembled = fed(&folder, "asm - -o -", &text);
        assert!(assembled.status.success() && assembled.stdout == module);
        let marked = [&b"\xef\xbb\xbf"[..], &text].concat();
        assert!(fed(&folder, "asm - -o -", &marked).stdout == module);
        assert!(fed(&folder, "check -", &module).stdout.starts_with(b"accepted "));
        let listed = fed(&folder, "run module - --output -", &form);
        assert_eq!((&listed.stdout[..], &listed.stderr[..]), (super::LIST, &b"ended 6 335\n"[..]));
        // Of a run that goes on the new bytes alone: those before are in nobody's hands.
        let part = "run module form --budget 310 --state state --output -";
        assert_eq!(fed(&folder, part, b"").stdout, b"bed");
        assert_eq!(fed(&folder, part, b"").stdout, b"acf");
        let ran = fed(&folder, "run - form --budget=0x14F", &module);
        assert!(ran.stdout.starts_with(b"ended 6 335\n"));
    }
}
