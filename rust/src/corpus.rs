//! Reads and runs files of cases with expected answers: the verdict on a module, opening, calls
//! of going on, and the reader of states.

use crate::calls;
use crate::generator::Sample;
use crate::host::{self, Answer};
use crate::prng::Prng;
use crate::state::{MEMORY_AT, OUTPUT_BYTES, STATE_BYTES};
use std::path::{Path, PathBuf};

/// How many cases of a file agree, and each difference.
#[derive(Default)]
pub struct Report {
    pub cases: usize,
    pub differences: Vec<String>,
}

pub fn hex(bytes: &[u8]) -> String {
    if bytes.is_empty() {
        return "-".to_string();
    }
    bytes.iter().map(|byte| format!("{byte:02x}")).collect()
}

fn unhex(text: &str) -> Option<Vec<u8>> {
    if text == "-" {
        return Some(Vec::new());
    }
    let digits = text.as_bytes().chunks(2);
    digits.map(|pair| u8::from_str_radix(std::str::from_utf8(pair).ok()?, 16).ok()).collect()
}

fn refusal(answer: Answer) -> String {
    format!("refused {} {}", answer[1], answer[2])
}

/// A case as it runs: the buffers that its lines share.
struct Case {
    module: Vec<u8>,
    state: Vec<u8>,
    output: Vec<u8>,
}

impl Case {
    fn new() -> Case {
        Case { module: Vec::new(), state: vec![0; STATE_BYTES], output: vec![0; OUTPUT_BYTES] }
    }

    /// What the line should be: its question repeated with our answer. None if unreadable.
    fn answer_line(&mut self, line: &str) -> Option<String> {
        let words: Vec<&str> = line.split(' ').collect();
        match words[0] {
            "module" => {
                self.module = unhex(words.get(1)?)?;
                Some(line.to_string())
            }
            "check" => {
                let answer = calls::check(&self.module);
                let verdict = match answer[0] {
                    host::REFUSED => refusal(answer),
                    _ => {
                        let (functions, instructions) = (answer[3] >> 16, answer[3] & 0xffff);
                        let [_, terms, names, _] = answer;
                        format!("accepted {terms} {names} {functions} {instructions}")
                    }
                };
                Some(format!("check {verdict}"))
            }
            "open" => {
                let arguments = unhex(words.get(1)?)?;
                let answer = calls::open(&self.module, &arguments, &mut self.state);
                let opened =
                    if answer[0] == host::GOOD { "opened".to_string() } else { refusal(answer) };
                Some(format!("open {} {opened}", words[1]))
            }
            "go" => {
                let budget = words.get(1)?.parse().ok()?;
                let form = unhex(words.get(2)?)?;
                let Case { module, state, output } = self;
                let answer = calls::go(module, &form, state, output, budget);
                let went = match answer[0] {
                    host::REFUSED => refusal(answer),
                    host::ENDED => format!("ended {} {}", answer[1], answer[2]),
                    host::STOPPED => format!("stopped {} {}", answer[1], answer[2]),
                    _ => format!("running {}", answer[2]),
                };
                let count = usize::from(u16::from_le_bytes([state[2], state[3]]));
                let written = hex(&output[..count]);
                Some(format!("go {} {} {went} out {written}", words[1], words[2]))
            }
            "object" => {
                let address = words.get(1)?.parse().ok()?;
                let answer = calls::object(&self.module, &self.state, address);
                let found = match answer[0] {
                    host::REFUSED => "none".to_string(),
                    _ => {
                        let (start, size) = (answer[1] as usize, answer[2] as usize);
                        let bytes = hex(&self.state[start..start + size]);
                        format!("{} {size} {bytes}", start - MEMORY_AT)
                    }
                };
                Some(format!("object {address} {found}"))
            }
            _ => None,
        }
    }
}

/// A case with this interpreter's answers: the verdict and, of an accepted module, a run in two
/// calls and two questions to the reader.
pub fn write(name: &str, file: &[u8], sample: &Sample, rng: &mut Prng) -> String {
    let mut case = Case::new();
    let mut text = format!("case {name}\n");
    let mut ask = |question: String| {
        let line = case.answer_line(&question).expect("a question of a known form");
        text += &line;
        text.push('\n');
        line
    };
    ask(format!("module {}", hex(file)));
    if ask("check".to_string()).starts_with("check accepted") {
        ask(format!("open {}", hex(&sample.arguments)));
        let first = rng.below(40);
        for budget in [first, 20_000] {
            ask(format!("go {budget} {}", hex(&sample.form)));
            ask(format!("object {}", 256 + rng.below(1024)));
        }
    }
    text
}

/// Runs all cases of a text; differences are named by case and line.
pub fn run(text: &str) -> Report {
    let mut report = Report::default();
    for block in text.split("\n\n").filter(|block| !block.trim().is_empty()) {
        let mut lines = block.trim_matches('\n').lines();
        let name = lines.next().unwrap_or_default();
        report.cases += 1;
        let mut case = Case::new();
        for line in lines {
            let ours = case.answer_line(line);
            if ours.as_deref() != Some(line) {
                let ours = ours.unwrap_or_else(|| "unreadable line".to_string());
                report.differences.push(format!("{name}\n  expected: {line}\n  here:     {ours}"));
                break;
            }
        }
    }
    report
}

/// The files of cases in a folder, in order; empty where there is no such folder.
pub fn case_files(folder: &Path) -> Vec<PathBuf> {
    let entries = std::fs::read_dir(folder).into_iter().flatten().flatten();
    let mut files: Vec<PathBuf> = entries
        .map(|entry| entry.path())
        .filter(|path| path.extension().is_some_and(|extension| extension == "cases"))
        .collect();
    files.sort();
    files
}

/// The modules of all files of cases in a folder, with the name of each case.
pub fn modules(folder: &Path) -> Vec<(String, Vec<u8>)> {
    let mut found = Vec::new();
    for path in case_files(folder) {
        let text = std::fs::read_to_string(&path).expect("a file of cases can be read");
        let mut name = "";
        for line in text.lines() {
            if let Some(rest) = line.strip_prefix("case ") {
                name = rest;
            } else if let Some(digits) = line.strip_prefix("module ") {
                found.push((name.to_string(), unhex(digits).expect("a module in hex")));
            }
        }
    }
    found
}

/// Runs all files of cases in a folder.
pub fn run_folder(folder: &Path) -> std::io::Result<Report> {
    let mut total = Report::default();
    for file in case_files(folder) {
        let report = run(&std::fs::read_to_string(&file)?);
        total.cases += report.cases;
        total.differences.extend(report.differences);
    }
    Ok(total)
}
