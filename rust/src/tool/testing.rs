//! `rcm test`: runs the `#:` lines of texts and says what differs.

use super::explain::Refused;
use super::files::{read_text, STANDARD};
use super::going::{stopped, Going};
use super::numbers;
use super::script::{self, Answered, Case, Script};
use super::{counted, print, Command, Outcome, Session, Words, BAD_INPUT, DONE};
use crate::compare::Interface;
use crate::host::{self, Answer, FUNCTIONS_UNIT};
use crate::module::decode;
use crate::state::{OUTPUT_BYTES, STATE_BYTES};
use crate::text::{assemble_unchecked, report, Assembled, Names};
use std::path::{Path, PathBuf};

pub const TEST: Command = Command {
    name: "test",
    takes: "FILE.asm | FOLDER ..",
    options: &[],
    does: "runs the `#:` lines of texts, or of all texts in a folder, and says what differs",
    run: test,
};

/// Outputs of at most so many bytes are shown where they differ.
const SHOWN: usize = 32;

/// What came of texts: a line for each difference and each error, and how many there are.
#[derive(Default)]
struct Report {
    lines: Vec<String>,
    expectations: usize,
    differ: usize,
    errors: usize,
}

fn test(words: &Words, session: &mut Session) -> Outcome {
    let mut texts = Vec::new();
    for name in words.some("FILE.asm")? {
        texts.extend(texts_of(name).map_err(|error| format!("{name}: {error}"))?);
    }
    let mut report = Report::default();
    for (at, name) in texts.iter().enumerate() {
        progress(session, &format!("{at} of {} files", texts.len()));
        report.text(name, session.machine()?);
        if !report.lines.is_empty() {
            progress(session, "");
            print(session.out, &(report.lines.join("\n") + "\n"))?;
            report.lines.clear();
        }
    }
    progress(session, "");
    print(session.out, &report.summary(texts.len()))?;
    Ok(if report.differ + report.errors == 0 { DONE } else { BAD_INPUT })
}

/// Shows how far the texts are, in place of what was shown before.
fn progress(session: &mut Session, text: &str) {
    if session.terminal {
        // Nothing is left to do if standard error is closed.
        let _ = write!(session.error, "\r{:24}\r{text}", "");
    }
}

/// A text, or all texts in a folder.
fn texts_of(name: &str) -> std::io::Result<Vec<String>> {
    if name == STANDARD || !std::fs::metadata(name)?.is_dir() {
        return Ok(vec![name.to_string()]);
    }
    let mut paths = Vec::new();
    walk(Path::new(name), &mut paths)?;
    if paths.is_empty() {
        return Err(std::io::Error::other("expected texts (*.asm) in this folder, found none"));
    }
    paths.sort();
    Ok(paths.iter().map(|path| path.display().to_string()).collect())
}

/// Adds the texts of a folder and of its folders. Links to folders may go in a circle, so they are
/// left.
fn walk(folder: &Path, paths: &mut Vec<PathBuf>) -> std::io::Result<()> {
    for entry in std::fs::read_dir(folder)? {
        let entry = entry?;
        let path = entry.path();
        if entry.file_type()?.is_dir() {
            walk(&path, paths)?;
        } else if path.extension().is_some_and(|extension| extension == "asm") {
            paths.push(path);
        }
    }
    Ok(())
}

impl Report {
    fn error(&mut self, line: String) {
        self.errors += 1;
        self.lines.push(line);
    }

    /// Counts an expectation, and says its difference if it has one.
    fn expectation(&mut self, name: &str, line: usize, difference: Option<String>) {
        self.expectations += 1;
        if let Some(difference) = difference {
            self.differ += 1;
            self.lines.push(format!("{name}:{line}: {difference}"));
        }
    }

    fn text(&mut self, name: &str, machine: &mut dyn Interface) {
        let text = match read_text(name) {
            Ok(text) => text,
            Err(message) => return self.error(message),
        };
        let assembled = assemble_unchecked(&text, name).map_err(|errors| {
            self.errors += errors.len();
            self.lines.push(report(name, &text, "error", &errors).trim_end().to_string());
        });
        let script = script::read(&text).map_err(|wrong| {
            for (line, message) in wrong {
                self.error(format!("{name}:{line}: {message}"));
            }
        });
        if let (Ok(assembled), Ok(script)) = (assembled, script) {
            self.module(name, &assembled, &script, machine);
        }
    }

    fn module(
        &mut self,
        name: &str,
        made: &Assembled,
        script: &Script,
        machine: &mut dyn Interface,
    ) {
        if let Some(expected) = &script.verdict {
            let answer = machine.check(&made.file);
            let place = || refused_at(made, answer);
            self.expectation(name, expected.line, answer_difference(&expected.what, answer, place));
        }
        for case in &script.cases {
            self.case(name, made, case, machine);
        }
    }

    fn case(&mut self, name: &str, made: &Assembled, case: &Case, machine: &mut dyn Interface) {
        let mut going = Going {
            file: made.file.clone(),
            form: case.form().to_vec(),
            state: vec![0; STATE_BYTES],
            output: vec![0; OUTPUT_BYTES],
        };
        let answer = match going.open(case.arguments(), machine) {
            refusal @ [host::REFUSED, ..] => refusal,
            _ => going.go(machine, case.budget()),
        };
        if let Some(expected) = &case.answer {
            let place = || match answer[0] {
                host::REFUSED => refused_at(made, answer),
                _ => stopped_at(made, &going, answer),
            };
            self.expectation(name, expected.line, answer_difference(&expected.what, answer, place));
        }
        if let Some(expected) = &case.output {
            let difference = match answer[0] {
                host::REFUSED => {
                    Some(format!("expected a run, found {}", meant(&answered(answer))))
                }
                _ => output_difference(&expected.what, going.written()),
            };
            self.expectation(name, expected.line, difference);
        }
    }

    fn summary(&self, files: usize) -> String {
        let (files, expectations) =
            (counted(files as u64, "file"), counted(self.expectations as u64, "expectation"));
        let differ = if self.differ == 1 { "differs" } else { "differ" };
        let errors = match self.errors {
            0 => String::new(),
            errors => format!(", {}", counted(errors as u64, "error")),
        };
        format!("{files}, {expectations}, {} {differ}{errors}\n", self.differ)
    }
}

/// The answer of a check or a run as a line says it.
fn answered([kind, first, second, third]: Answer) -> Answered {
    let (word, numbers) = match kind {
        host::REFUSED => ("refused", vec![first, second]),
        host::GOOD => {
            ("accepted", vec![first, second, third / FUNCTIONS_UNIT, third % FUNCTIONS_UNIT])
        }
        host::ENDED => ("ended", vec![first, second]),
        host::STOPPED => ("stopped", vec![first, second]),
        _ => ("running", vec![second]),
    };
    Answered { word, numbers }
}

/// An answer with what its number means.
fn meant(found: &Answered) -> String {
    let number = match (found.word, found.numbers[0]) {
        ("refused", number) => numbers::refusal(number),
        ("stopped", number) => numbers::stop(number),
        _ => None,
    };
    number.map_or(found.to_string(), |number| format!("{found} ({})", number.meaning))
}

/// What differs, and where in the text that which was found has its place.
fn answer_difference(
    expected: &Answered,
    answer: Answer,
    place: impl FnOnce() -> Option<String>,
) -> Option<String> {
    let found = answered(answer);
    if expected.fits(&found) {
        return None;
    }
    let place = place().map_or(String::new(), |place| format!(" at {place}"));
    Some(format!("expected {expected}, found {}{place}", meant(&found)))
}

/// Where the text has what is refused, with what stands there.
fn refused_at(made: &Assembled, answer: Answer) -> Option<String> {
    Refused::new(&made.file, Some(&made.map), answer).place()
}

fn stopped_at(made: &Assembled, going: &Going, answer: Answer) -> Option<String> {
    let module = decode(&made.file).ok()?;
    let map = Some(&made.map).filter(|map| map.fits(&made.file, &module));
    stopped(&module, Names::of(map), going, answer)?.at
}

/// Short outputs whole, long ones by their lengths and the first byte that differs.
fn output_difference(expected: &[u8], found: &[u8]) -> Option<String> {
    if expected == found {
        return None;
    }
    if expected.len().max(found.len()) <= SHOWN {
        let text = expected.iter().chain(found).all(|byte| (b' '..=b'~').contains(byte));
        return Some(format!("expected {}, found {}", said(expected, text), said(found, text)));
    }
    let at = expected.iter().zip(found).take_while(|(one, other)| one == other).count();
    let part = |bytes: &[u8]| {
        let there = bytes.get(at).map_or("nothing".to_string(), u8::to_string);
        format!("{} with {there} at byte {at}", counted(bytes.len() as u64, "byte"))
    };
    Some(format!("expected output of {}, found {}", part(expected), part(found)))
}

/// An output as a line writes it: a text, or numbers.
fn said(bytes: &[u8], text: bool) -> String {
    if bytes.is_empty() {
        return "no output".to_string();
    }
    if text {
        return format!("output \"{}\"", String::from_utf8_lossy(bytes));
    }
    bytes.iter().fold("output".to_string(), |said, byte| format!("{said} {byte}"))
}
