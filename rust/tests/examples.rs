//! The examples: their `#:` lines through `rcm test`, and each text gives its module, whose text
//! gives the module again.

mod common;

use common::{rcm, repository};
use reference::checker;
use reference::text::{assemble, disassemble};
use std::path::{Path, PathBuf};

/// All texts in a folder and its folders.
fn texts(folder: &Path) -> Vec<PathBuf> {
    let mut found = Vec::new();
    for entry in std::fs::read_dir(folder).expect("a folder").flatten() {
        let path = entry.path();
        if path.is_dir() {
            found.extend(texts(&path));
        } else if path.extension().is_some_and(|extension| extension == "asm") {
            found.push(path);
        }
    }
    found
}

#[test]
fn each_example_does_what_it_says() {
    let folder = repository().join("examples");
    let count = texts(&folder).len();
    assert!(count >= 24, "{count} texts");
    let (status, out, error) = rcm(&["test", &folder.display().to_string()], false);
    assert_eq!((status, error.as_str()), (0, ""), "{out}");
    assert!(out.starts_with(&format!("{count} files, ")) && out.ends_with(" 0 differ\n"), "{out}");
}

#[test]
fn the_text_of_an_example_gives_it_again() {
    for path in texts(&repository().join("examples")) {
        let name = path.display();
        let text = std::fs::read_to_string(&path).expect("a text");
        let file = assemble(&text).unwrap_or_else(|error| panic!("{name}: {error}"));
        let back = disassemble(&file);
        let again = assemble(&back).unwrap_or_else(|error| panic!("{name}: {error}\n{back}"));
        assert!(file == again, "{name}\n{back}");
        // The texts have no type lines and come back without them.
        assert!(checker::check(&file).is_err() || !back.contains("type t0"), "{name}\n{back}");
    }
}
