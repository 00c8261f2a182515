//! Runs the files of cases in a folder: the one that is named on the command line, else by the
//! environment variable CORPUS, else the repository's tests/corpus.

use reference::corpus::run_folder;
use std::path::PathBuf;
use std::process::ExitCode;

fn main() -> ExitCode {
    let argument = std::env::args_os().nth(1);
    let folder = argument.or_else(|| std::env::var_os("CORPUS")).map_or_else(
        || PathBuf::from(concat!(env!("CARGO_MANIFEST_DIR"), "/../tests/corpus")),
        PathBuf::from,
    );
    let report = match run_folder(&folder) {
        Ok(report) => report,
        Err(error) => {
            eprintln!("{}: {error}", folder.display());
            return ExitCode::FAILURE;
        }
    };
    for difference in &report.differences {
        println!("{difference}");
    }
    println!("{} cases, {} differ", report.cases, report.differences.len());
    if report.cases > 0 && report.differences.is_empty() {
        ExitCode::SUCCESS
    } else {
        ExitCode::FAILURE
    }
}
