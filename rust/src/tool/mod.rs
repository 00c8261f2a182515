//! The command-line tool `rcm`: translates and shows. Whatever is decided about a module or a
//! state is decided by the five calls of the C interface, which the tool is given.

mod advice;
mod assembly;
mod explain;
mod files;
mod going;
mod heap;
mod json;
mod kept;
mod listing;
mod maps;
mod numbers;
mod pages;
mod pages_json;
mod picture;
mod saved;
mod script;
mod standing;
mod stops;
mod testing;
mod trace;
mod verdict;
mod words;

use crate::compare::Interface;
use std::io::{ErrorKind, Write};
use words::{Choice, Words};

/// Exit statuses: done, accepted or ended.
pub const DONE: u8 = 0;
/// Wrong usage or bad input: a message, and nothing is written.
pub const BAD_INPUT: u8 = 1;
pub const REFUSED: u8 = 2;
pub const STOPPED: u8 = 3;
pub const RUNNING: u8 = 4;

/// A command: the words it takes as the usage shows them, its options, and what it does.
pub struct Command {
    pub name: &'static str,
    pub takes: &'static str,
    pub options: &'static [Choice],
    pub does: &'static str,
    run: fn(&Words, &mut Session) -> Outcome,
}

/// All commands, in the order of the usage.
pub const COMMANDS: [&Command; 8] = [
    &assembly::ASM,
    &assembly::DIS,
    &verdict::CHECK,
    &going::RUN,
    &pages::PAGES_COMMAND,
    &testing::TEST,
    &listing::LIST,
    &advice::EXPLAIN,
];

const STATUSES: &str = "\
exit status: 0 done, accepted, ended or all tests passed; 1 wrong usage, bad input or tests that differ; 2 refused; 3 stopped;
             4 running; 129, 130 or 143 interrupted, and saved where --state says
";

const FILES: &str = "`-` as a file is standard input or output; an option's value may stand behind `=`; numbers may be hexadecimal (0x2a)\n";

impl Command {
    /// The command with its words and options on one line.
    fn line(&self) -> String {
        let mut line = format!("rcm {}", self.name);
        if !self.takes.is_empty() {
            line += &format!(" {}", self.takes);
        }
        for option in self.options.iter().filter(|option| !self.takes.contains(option.name)) {
            let value = option.value.map_or(String::new(), |value| format!(" {value}"));
            line += &format!(" [{}{value}]{}", option.name, if option.many { ".." } else { "" });
        }
        line
    }

    fn usage(&self) -> String {
        format!("usage: {}\n", self.line())
    }

    /// What `rcm COMMAND --help` prints.
    fn help(&self) -> String {
        let mut text = format!("{}\n{}\n", self.usage(), self.does);
        if !self.options.is_empty() {
            text += "\n";
        }
        for option in self.options {
            let value = option.value.map_or(String::new(), |value| format!(" {value}"));
            text += &format!("  {:20} {}\n", format!("{}{value}", option.name), option.does);
        }
        text
    }
}

fn usage() -> String {
    let mut text = String::new();
    for (at, command) in COMMANDS.iter().enumerate() {
        let before = if at == 0 { "usage:" } else { "      " };
        text += &format!("{before} {}\n{:18}{}\n", command.line(), "", command.does);
    }
    text + "       rcm COMMAND --help, rcm --version\n" + FILES + STATUSES
}

/// What a command is given: the calls, and where it writes.
pub struct Session<'s> {
    /// None where the tool is built without the library.
    pub machine: Option<&'s mut dyn Interface>,
    pub out: &'s mut dyn Write,
    pub error: &'s mut dyn Write,
    /// Standard error is a terminal.
    pub terminal: bool,
    /// The exit status of a signal that asked the tool to end since a run began, if one has. Asked
    /// between the slices of a run.
    pub interrupted: fn() -> Option<u8>,
}

impl Session<'_> {
    fn machine(&mut self) -> Result<&mut dyn Interface, String> {
        match &mut self.machine {
            Some(machine) => Ok(&mut **machine),
            None => Err("built without the proved library: only asm, dis and explain are here; \
                 build with --features librcm and RCM_LIB_DIR"
                .to_string()),
        }
    }

    /// Prints a message on standard error.
    fn say(&mut self, message: &str) {
        // Nothing is left to do if standard error is closed.
        let _ = writeln!(self.error, "rcm: {}", message.trim_end());
    }
}

/// A command's exit status, or the message of what is wrong with its input.
type Outcome = Result<u8, String>;

/// Runs a command line without the program's name; gives the exit status.
pub fn run(words: &[String], session: &mut Session) -> u8 {
    let outcome = match words.split_first() {
        Some((first, rest)) => command(first, rest, session),
        None => Err(format!("a command is wanted\n{}", usage())),
    };
    outcome.unwrap_or_else(|message| {
        session.say(&message);
        BAD_INPUT
    })
}

fn command(first: &str, rest: &[String], session: &mut Session) -> Outcome {
    match first {
        "help" | "--help" | "-h" => return print(session.out, &usage()),
        "--version" | "-V" => return print(session.out, &version(session.machine.is_some())),
        _ => (),
    }
    let Some(command) = COMMANDS.iter().find(|command| command.name == first) else {
        return Err(format!("there is no command `{first}`\n{}", usage()));
    };
    if rest.iter().any(|word| word == "--help" || word == "-h") {
        return print(session.out, &command.help());
    }
    (command.run)(&Words::new(command, rest)?, session)
}

/// The version, the edition of the specification that it follows, and what decides.
fn version(library: bool) -> String {
    let decides = match library {
        true => "with the proved library",
        false => "without the proved library: asm, dis and explain alone",
    };
    let version = env!("CARGO_PKG_VERSION");
    format!("rcm {version}, edition {EDITION} (document 01 with P1 and P2), {decides}\n")
}

/// The edition of the specification.
pub const EDITION: u32 = 2;

fn print(out: &mut dyn Write, text: &str) -> Outcome {
    put(out, text.as_bytes()).map_err(|error| format!("writing: {error}"))?;
    Ok(DONE)
}

/// Writes to a stream. Whoever reads it may close it early: then nobody wants the rest.
fn put(out: &mut dyn Write, bytes: &[u8]) -> std::io::Result<()> {
    match out.write_all(bytes).and_then(|()| out.flush()) {
        Err(error) if error.kind() == ErrorKind::BrokenPipe => Ok(()),
        result => result,
    }
}

fn counted(count: u64, what: &str) -> String {
    format!("{count} {what}{}", if count == 1 { "" } else { "s" })
}
