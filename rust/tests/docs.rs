//! The commands in the pages print what stands below them there. One test alone, as it works in
//! folders of its own.

mod common;

use common::{new_folder, rcm, repository};
use std::process::Command;

/// The pages whose commands are run, and how many of them there are at least.
const PAGES: [(&str, usize); 3] = [("TOOL", 30), ("ASSEMBLY", 1), ("COORDINATOR", 15)];

/// A command of a page and the lines that stand below it.
struct Shown<'p> {
    command: &'p str,
    said: Vec<&'p str>,
}

/// The commands of a page: lines that are set in and begin with `$`.
fn commands(page: &str) -> Vec<Shown<'_>> {
    let blocks = page.split("\n    $ ").skip(1);
    let shown = blocks.map(|block| {
        let (command, rest) = block.split_once('\n').unwrap_or((block, ""));
        let said = rest.lines().take_while(|line| line.is_empty() || line.starts_with("    "));
        let said = said.map(|line| line.strip_prefix("    ").unwrap_or(line)).collect();
        Shown { command, said }
    });
    shown.collect()
}

/// What a command prints: the tool's own here, others by the shell. What a shell makes of the tool
/// depends on the moment of a signal, so that is not run.
fn printed(command: &str) -> Option<String> {
    let words: Vec<&str> = command.split_whitespace().collect();
    if let ["rcm", words @ ..] = &words[..] {
        let (_, out, error) = rcm(words, false);
        return Some(out + &error);
    }
    if words.contains(&"rcm") {
        return None;
    }
    let output = Command::new("sh").args(["-c", command]).output().expect("a shell");
    let text = |bytes| String::from_utf8(bytes).expect("text");
    Some(text(output.stdout) + &text(output.stderr))
}

#[test]
fn the_commands_print_what_the_pages_say() {
    let mut differences = Vec::new();
    for (name, least) in PAGES {
        let path = repository().join("docs").join(format!("{name}.md"));
        let page = std::fs::read_to_string(path).expect("the page");
        std::env::set_current_dir(new_folder(&format!("docs-{name}"))).expect("a folder");
        std::os::unix::fs::symlink(repository().join("examples"), "examples").expect("a link");
        let commands = commands(&page);
        assert!(commands.len() >= least, "{name}: {} commands", commands.len());
        for Shown { command, said } in commands {
            let Some(printed) = printed(command) else { continue };
            let printed: Vec<&str> = printed.lines().map(str::trim_end).collect();
            let (printed, said) = (printed.join("\n"), said.join("\n"));
            if printed.trim() != said.trim() {
                differences.push(format!("{name}.md: $ {command}\n{printed}\n"));
            }
        }
    }
    assert!(differences.is_empty(), "here these print\n{}", differences.join("\n"));
}
