//! The cases with expected answers: always those of the repository, and those of a further folder
//! if the environment variable CORPUS names one.

use reference::corpus::run_folder;
use std::path::Path;

/// A folder that has cases, all of which agree.
fn agrees(folder: &Path) {
    let report = run_folder(folder).expect("readable files of cases");
    assert!(report.differences.is_empty(), "{}", report.differences.join("\n"));
    assert!(report.cases > 0, "{} has no cases", folder.display());
}

#[test]
fn cases_of_the_repository_agree() {
    agrees(&Path::new(env!("CARGO_MANIFEST_DIR")).join("../tests/corpus"));
}

#[test]
fn cases_of_a_further_folder_agree() {
    if let Some(folder) = std::env::var_os("CORPUS") {
        agrees(Path::new(&folder));
    }
}
