//! What stands beside a saved state and a partial output, as texts. `STATE.info` says what a state
//! belongs to, by digests: going on with another module, form or output would be safe and wrong.
//! `OUTPUT.partial` says that an output is not whole.

use super::files::{beside, read_if_there};
use crate::digest::{hex, sha256};
use crate::state::{RUNNING, STATE_BYTES};
use crate::text::printable;

/// The first lines of the two files.
const INFO_HEAD: &str = "rcm state 1";
const MARK_HEAD: &str = "rcm partial 1";

/// The endings of their names, behind the state's and the output's.
pub const INFO_ENDING: &str = "info";
pub const MARK_ENDING: &str = "partial";

/// The most bytes of such a file that are read: a few lines with names of files.
const TEXT_MAX: usize = 1 << 16;

/// Arguments that nobody knows any more.
const UNKNOWN: &str = "unknown";

pub fn digest(bytes: &[u8]) -> String {
    hex(&sha256(bytes))
}

/// A file by its digest; its name is for messages alone.
#[derive(Clone, PartialEq, Eq, Debug)]
pub struct Known {
    pub digest: String,
    pub name: String,
}

impl Known {
    pub fn new(name: &str, bytes: &[u8]) -> Known {
        Known { digest: digest(bytes), name: printable(name) }
    }
}

/// What a state belongs to.
#[derive(Clone, PartialEq, Eq, Debug)]
pub struct Info {
    /// The state itself, and the one that was there before it: this file is written between the two.
    pub state: String,
    pub before: String,
    pub module: Known,
    pub form: Known,
    /// The arguments as numbers with commas, if they are known.
    pub arguments: Option<String>,
    /// How many bytes of output were written, and to which file; none where they were shown.
    pub output: Option<(usize, Known)>,
}

impl Info {
    pub fn text(&self) -> String {
        let mut text = format!("{INFO_HEAD}\nstate {}\nbefore {}\n", self.state, self.before);
        for (what, file) in [("module", &self.module), ("form", &self.form)] {
            text += &format!("{what} {} {}\n", file.digest, file.name);
        }
        text += &format!("arguments {}\n", self.arguments.as_deref().unwrap_or(UNKNOWN));
        if let Some((count, file)) = &self.output {
            text += &format!("output {count} {} {}\n", file.digest, file.name);
        }
        text
    }

    pub fn parse(text: &str) -> Option<Info> {
        let mut lines = text.lines();
        if lines.next() != Some(INFO_HEAD) {
            return None;
        }
        let mut after = |word: &str| lines.next()?.strip_prefix(word)?.strip_prefix(' ');
        let (state, before) = (hash(after("state")?)?, hash(after("before")?)?);
        let (module, form) = (known(after("module")?)?, known(after("form")?)?);
        let arguments = Some(after("arguments")?.to_string()).filter(|word| word != UNKNOWN);
        let output = match lines.next() {
            None => None,
            Some(line) => {
                let (count, file) = line.strip_prefix("output ")?.split_once(' ')?;
                Some((count.parse().ok()?, known(file)?))
            }
        };
        let info = Info { state, before, module, form, arguments, output };
        lines.next().is_none().then_some(info)
    }

    /// What stands beside a state, if anything does.
    pub fn beside(state: &str) -> Result<Option<Info>, String> {
        let name = beside(state, INFO_ENDING);
        let Some(bytes) = read_if_there(&name, TEXT_MAX)? else { return Ok(None) };
        match std::str::from_utf8(&bytes).ok().and_then(Info::parse) {
            Some(info) => Ok(Some(info)),
            None => {
                Err(format!("{name}: expected what a saved state belongs to, found another file"))
            }
        }
    }
}

fn hash(word: &str) -> Option<String> {
    let fits = word.len() == 64 && word.bytes().all(|byte| byte.is_ascii_hexdigit());
    fits.then(|| word.to_string())
}

fn known(text: &str) -> Option<Known> {
    let (digest, name) = text.split_once(' ')?;
    Some(Known { digest: hash(digest)?, name: printable(name) })
}

/// A file that is to be written over is no part of a run that is saved: neither its state, nor its
/// output, nor what stands beside them.
pub fn no_save(what: &str, name: &str) -> Result<(), String> {
    let of_save = |part: &str| Err(format!("the {what} {name} is {part}: it would be overwritten"));
    if let Ok(Some(_)) = Info::beside(name) {
        return of_save("a saved state");
    }
    if let Some(state) = Mark::beside(name).ok().flatten().as_ref().and_then(Mark::goes_on_in) {
        return of_save(&format!("the output of the run that is saved in {state}"));
    }
    match read_if_there(name, STATE_BYTES) {
        Ok(Some(bytes)) if bytes.starts_with(INFO_HEAD.as_bytes()) => of_save("a state's info"),
        Ok(Some(bytes)) if bytes.starts_with(MARK_HEAD.as_bytes()) => of_save("an output's mark"),
        _ => Ok(()),
    }
}

/// What stands beside an output that is not whole.
pub struct Mark {
    /// `running` or `stopped` with what that means.
    pub says: String,
    /// Where the run can be gone on with, if it was saved.
    pub state: Option<String>,
}

impl Mark {
    pub fn text(&self) -> String {
        let state = self.state.as_ref().map(|name| format!("state {}\n", printable(name)));
        format!("{MARK_HEAD}\n{}\n{}", self.says, state.unwrap_or_default())
    }

    /// The state that the run goes on from, where it is there and not over.
    pub fn goes_on_in(&self) -> Option<&str> {
        let state = self.state.as_deref()?;
        let bytes = read_if_there(state, STATE_BYTES).ok()??;
        (bytes.first() == Some(&RUNNING)).then_some(state)
    }

    fn parse(text: &str) -> Option<Mark> {
        let mut lines = text.lines();
        if lines.next() != Some(MARK_HEAD) {
            return None;
        }
        let says = lines.next()?.to_string();
        let state = match lines.next() {
            None => None,
            Some(line) => Some(line.strip_prefix("state ")?.to_string()),
        };
        lines.next().is_none().then_some(Mark { says, state })
    }

    /// What stands beside an output, if anything does.
    pub fn beside(output: &str) -> Result<Option<Mark>, String> {
        let name = beside(output, MARK_ENDING);
        let Some(bytes) = read_if_there(&name, TEXT_MAX)? else { return Ok(None) };
        match std::str::from_utf8(&bytes).ok().and_then(Mark::parse) {
            Some(mark) => Ok(Some(mark)),
            None => {
                Err(format!("{name}: expected the mark of a partial output, found another file"))
            }
        }
    }
}

#[cfg(test)]
mod tests {
    use super::{digest, Info, Known, Mark};

    #[test]
    fn texts_are_read_back() {
        let file = |name: &str| Known::new(name, name.as_bytes());
        let info = Info {
            state: digest(b"now"),
            before: digest(b"then"),
            module: file("a module"),
            form: file("form"),
            arguments: Some("1,2".to_string()),
            output: Some((7, file("a\nlist"))),
        };
        assert_eq!(Info::parse(&info.text()), Some(info.clone()));
        for arguments in [None, Some(String::new())] {
            let shown = Info { output: None, arguments, ..info.clone() };
            assert_eq!(Info::parse(&shown.text()), Some(shown));
        }
        for text in ["", "rcm state 1\n", "rcm state 2\n", &(info.text() + "more\n")] {
            assert_eq!(Info::parse(text), None, "{text}");
        }
        for state in [None, Some("a state".to_string())] {
            let mark = Mark { says: "running: so far".to_string(), state: state.clone() };
            let again = Mark::parse(&mark.text()).expect("a mark");
            assert_eq!((again.says, again.state), ("running: so far".to_string(), state));
            assert!(Mark::parse(&(mark.text() + "more\n")).is_none());
        }
        assert!(Mark::parse("stopped the drug on Monday").is_none());
    }
}
